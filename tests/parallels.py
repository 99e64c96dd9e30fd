"""Plans in which one side of a parallel may fail, forward or undoing, while the other has not begun: it begins all the same.

make_vectors.py takes each complete run of these into the group `runs`, and each set of their actions into `verdicts`. The trees are as the model writes them.
"""
from verdicts import not_just

THROW, SKIP = ('throw',), ('skip',)
A, B, C, D, E = (('act', a) for a in range(5))
# actions with undos, and these failing after they were done
LEFT, RIGHT = ('comp', A, B), ('comp', C, D)
LEFT_FAILS, RIGHT_FAILS = ('seq', LEFT, THROW), ('seq', RIGHT, THROW)

# name, tree, and the types of its actions, by which one or another may fail
PLANS = [
    ('throw, action', ('par', THROW, A), ['1', '3']),
    ('action, throw', ('par', A, THROW), ['1', '3']),
    ('three actions', ('par', ('par', A, B), C), ['131', '113']),
    ('two sequences', ('par', ('seq', A, B), ('seq', C, D)), ['1311', '1113']),
    ('choice, action', ('par', ('choice', A, B), C), ['311']),
    ('two actions, handled', ('handler', ('par', A, B), C), ['311', '131']),
    ('action, one undone', ('par', C, LEFT_FAILS), ['131']),
    ('one undone, action', ('par', LEFT_FAILS, C), ['131']),
    ('two undone', ('seq', ('par', LEFT, RIGHT), THROW), ['1311', '1113']),
    ('two undone, the left failed', ('par', LEFT_FAILS, RIGHT), ['1311', '1113']),
    ('two undone, the right failed', ('par', LEFT, RIGHT_FAILS), ['1311', '1113']),
    ('two undone, both failed', ('par', LEFT_FAILS, RIGHT_FAILS), ['1311', '1113']),
    ('two undone, handled', ('handler', ('seq', ('par', LEFT, RIGHT), THROW), E), ['13111', '11131']),
    ('two undone in turn, one undone', ('seq', ('par', ('seq', LEFT, RIGHT), ('comp', SKIP, E)), THROW), ['13111', '11131']),
    ('undone by two', ('seq', ('comp', A, ('par', B, C)), THROW), ['131', '113']),
    ('one undone, one without an undo', ('seq', ('par', LEFT, C), THROW), ['131']),
]


def plans():
    """name, types, tree"""
    for name, tree, kinds in PLANS:
        for types in kinds:
            yield f'parallel: {name}, {types}', [int(t) for t in types], tree


def every_run(model, plans=plans):
    """each complete run of each plan, in the order of its bytes: name, file, entries; then each leaf once more, which nothing lets come"""
    for name, types, tree in plans():
        nodes = model.nodes_of(tree)
        leaves = [(n, 1) for n, (form, _, _) in enumerate(nodes) if form < 3]
        for k, run in enumerate(sorted({run for run, _ in model.Sem().complete(model.tree_of(nodes, types))})):
            yield f'{name}, run {k}', model.encode(types, [], nodes, [0]), list(run) + leaves


def every_set(model):
    """each plan with a rule that one set alone breaks, for each set of its actions: name, file"""
    for name, types, tree in plans():
        for number in range(1 << len(types)):
            yield f'{name}, set {number}', model.encode(types, [], model.nodes_of(tree), not_just(len(types), number))
