"""Small plans that tell the plainest run of a set from the others: the fewest failed entries first, then the order of the record's bytes.

make_vectors.py takes each set that a run of these leaves into the group `verdicts`, with a rule that this set alone breaks. The trees are as the model writes
them. Each plan is there with its leaves numbered from the left, from the right and, where that says more, in an order of its own.
"""
import functools

from verdicts import not_just

THROW, SKIP = ('throw',), ('skip',)
A, B, C, D, E = (('act', a) for a in range(5))


def first_that_succeeds(*parts):
    """each part handles the failure of the one before it"""
    return functools.reduce(lambda rest, part: ('handler', part, rest), reversed(parts))


UNDONE_LEFT, UNDONE_RIGHT = ('comp', A, B), ('comp', C, D)
TWO_FAILURES, FIVE_FAILURES = first_that_succeeds(A, A, B), first_that_succeeds(A, A, A, A, A, B)

# name, tree, the types of its actions, and an order of its leaves or None
PLANS = [
    # the fewest failures, on whichever side they stand
    ('two failures or five', ('choice', TWO_FAILURES, FIVE_FAILURES), ['31', '33'], None),
    ('one failure or two, then one more', ('seq', ('choice', TWO_FAILURES, ('handler', A, B)), ('handler', C, SKIP)), ['313'], None),
    # a throw is a failed entry, at a leaf that has no other outcome
    ('a throw or two failures', ('choice', TWO_FAILURES, ('handler', THROW, B)), ['31'], None),
    ('two throws or a failure', ('choice', first_that_succeeds(THROW, THROW, B), ('handler', A, B)), ['31'], None),
    ('a throw or a skip', ('choice', THROW, SKIP), ['1'], None),
    ('what always fails, or a throw', ('choice', ('handler', C, B), ('handler', THROW, B)), ['112'], None),
    # an action at two leaves, of which one costs a failure
    ('at two leaves, one of them a handler', ('choice', ('handler', A, B), B), ['31', '33'], None),
    ('at two leaves side by side', ('par', ('handler', A, B), ('handler', B, A)), ['33', '31'], None),
    ('two actions at two leaves, crossed', ('seq', ('choice', ('handler', THROW, A), B), ('choice', A, ('handler', THROW, B))), ['11', '33'], None),
    ('three leaves of one, two of another', ('seq', ('choice', A, B), ('seq', ('choice', A, ('handler', THROW, B)), ('handler', A, SKIP))), ['33'], None),
    # as few failures: byte order
    ('either order', ('choice', ('seq', A, B), ('seq', B, A)), ['11', '33'], None),
    ('a longer run with an earlier leaf', ('choice', ('seq', A, SKIP), A), ['1', '3'], None),
    ('a failure early or late', ('handler', ('seq', ('handler', A, B), C), B), ['333', '313'], None),
    # 1 before 2: leaf A may finish, and the throw fails, or may fail itself
    ('a leaf fails, or the throw after it', ('handler', ('seq', A, THROW), A), ['3'], None),
    ('a leaf fails, or what comes after it', ('handler', ('seq', A, B), ('seq', A, B)), ['33', '31'], None),
    # interleavings
    ('two and two side by side', ('par', ('seq', A, B), ('seq', C, D)), ['1111', '3311'], [2, 1, 0, 3]),
    ('three side by side', ('par', ('par', A, B), C), ['111', '333'], [1, 2, 0]),
    ('handlers side by side', ('par', ('handler', A, B), ('handler', C, SKIP)), ['333'], [3, 0, 2, 1]),
    ('a choice beside a sequence', ('par', ('choice', A, ('handler', THROW, B)), ('seq', C, B)), ['111', '333'], [4, 0, 2, 1, 3]),
    # undos
    ('undone in turn', ('seq', ('seq', UNDONE_LEFT, UNDONE_RIGHT), THROW), ['1111', '1313'], None),
    ('undone side by side', ('seq', ('par', UNDONE_LEFT, UNDONE_RIGHT), THROW), ['1111', '1313'], [3, 0, 1, 2, 4]),
    ('undone by two side by side', ('seq', ('comp', A, ('par', B, C)), THROW), ['133'], None),
    ('undone, or done', ('choice', ('seq', UNDONE_LEFT, THROW), ('seq', A, B)), ['11', '33'], None),
    ('an undo that fails, or none', ('choice', ('seq', UNDONE_LEFT, THROW), ('seq', A, ('handler', C, SKIP))), ['133'], None),
    ('an undo that fails, or two failures', ('choice', ('seq', UNDONE_LEFT, THROW), ('seq', A, ('par', C, C))), ['132'], None),
    # handlers, of which the left side runs with its undo
    ('an undo or a handler', ('handler', ('seq', UNDONE_LEFT, C), B), ['1111', '3333'], None),
    ('a handler after an undo', ('handler', ('seq', UNDONE_LEFT, C), D), ['3333', '1331'], None),
    ('a handler after an undo, undone', ('seq', ('handler', ('seq', A, THROW), UNDONE_RIGHT), THROW), ['1113'], None),
    ('an undo, or in the handler too', ('handler', ('seq', UNDONE_LEFT, C), ('choice', B, SKIP)), ['333', '131'], None),
    ('handlers in turn', first_that_succeeds(A, B, A, C), ['333'], None),
    # an action of the set finishes at a later leaf, though it might have done so before, or a skip comes before it
    ('a skip first, the action later', ('seq', ('choice', SKIP, A), ('choice', A, B)), ['11', '33'], None),
    ('the action fails first', ('seq', ('handler', ('seq', A, B), SKIP), ('handler', A, SKIP)), ['33', '31'], None),
    ('now or later, the other then', ('seq', ('choice', A, B), ('par', ('choice', B, SKIP), ('choice', A, SKIP))), ['11'], [5, 3, 0, 1, 2, 4]),
    # an action outside the set may not finish, though that would save a failure
    ('a failure that a finish would save', ('seq', ('handler', C, SKIP), B), ['111', '313'], None),
    ('one outside would save a failure', ('choice', ('handler', C, B), first_that_succeeds(THROW, THROW, B)), ['313'], None),
    ('one outside at every leaf', ('seq', ('handler', A, B), ('handler', A, ('choice', C, SKIP))), ['313'], None),
]


def leaves_in_order(nodes, order):
    """the same tree with its leaves first, in this order of their places from the left, and its composites after them"""
    leaves = [n for n, (form, _, _) in enumerate(nodes) if form < 3]
    listed = [leaves[k] for k in order] + [n for n in range(len(nodes)) if n not in leaves]
    place = {n: k for k, n in enumerate(listed)}
    return [(f, place[l], place[r]) if f >= 3 else (f, l, r) for f, l, r in (nodes[n] for n in listed)]


def plans(model):
    """name, types, node list"""
    for name, tree, kinds, order in PLANS:
        nodes = model.nodes_of(tree)
        reverse = range(len(nodes) // 2, -1, -1)
        numberings = {'': nodes, ' mirrored': leaves_in_order(nodes, reverse)} | ({' mixed': leaves_in_order(nodes, order)} if order else {})
        for types in kinds:
            for how, numbered in numberings.items():
                yield f'plain: {name}, {types}{how}', [int(t) for t in types], numbered


def every_set_left(model):
    """each plan with a rule that one set alone breaks, for each set that a run leaves: name, file"""
    for name, types, nodes in plans(model):
        for number in sorted(model.plan_sets(model.tree_of(nodes, types))):
            yield f'{name}, set {number}', model.encode(types, [], nodes, not_just(len(types), number))
