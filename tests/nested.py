"""Small plans in which an undo has an undo: an undo succeeds and its own is dropped, or fails and its own runs first.

make_vectors.py takes each complete run of these into the group `runs`, and into `verdicts` each set that a run of them leaves, with a rule that this set alone
breaks, and each plan with a rule that just its own sets satisfy. The trees are as the model writes them.
"""
import functools

from plainest import leaves_in_order
from verdicts import AND, NOT, not_just

THROW, SKIP = ('throw',), ('skip',)
A, B, C, D, E, F = (('act', a) for a in range(6))


def fails(*parts):
    """the parts in turn, and then a throw"""
    return functools.reduce(lambda left, right: ('seq', left, right), parts + (THROW,))


def undone_by(undo):
    """an action with this undo, and then a throw"""
    return fails(('comp', A, undo))


# an action with an undo, as a part of an undo
PART, OTHER_PART = ('comp', B, C), ('comp', D, E)

# name, tree, and the types of its actions
PLANS = [
    # as a whole
    ('an undo', undone_by(PART), ['111', '133']),
    ('an undo, handled', ('handler', undone_by(PART), D), ['1331']),
    ('not undone', ('comp', A, PART), ['311']),
    # in two parts
    ('a later part fails', undone_by(('seq', PART, D)), ['1111', '1333']),
    ('an earlier part fails', undone_by(('seq', D, PART)), ['1313']),
    ('a later part fails, handled', ('handler', undone_by(('seq', PART, D)), E), ['11331', '11233']),
    ('both parts undone', undone_by(fails(PART, OTHER_PART)), ['11111', '11313']),
    ('the later part has failed', undone_by(('seq', PART, ('seq', OTHER_PART, F))), ['111333']),
    # side by side
    ('side by side, one fails', undone_by(('par', PART, D)), ['1113', '1313']),
    ('side by side, one has failed', undone_by(('par', PART, fails(D))), ['1311']),
    ('two side by side undone', undone_by(('seq', ('par', PART, OTHER_PART), THROW)), ['11113']),
    ('side by side', fails(('par', ('comp', A, PART), ('comp', D, E))), ['11113', '11131', '13111']),
    ('side by side, the other way', fails(('par', ('comp', D, E), ('comp', A, PART))), ['11113']),
    ('side by side, one without', fails(('par', undone_by(PART), D)), ['1313']),
    # choices and handlers in an undo
    ('a choice in an undo', undone_by(('seq', ('choice', PART, D), E)), ['11113', '13333']),
    ('a handler in an undo', undone_by(('handler', ('seq', PART, D), E)), ['11133']),
    ('a handler, its right undone', undone_by(('seq', ('handler', THROW, PART), D)), ['1113']),
    ('a handler, its left undone', undone_by(('seq', ('handler', PART, D), E)), ['13113']),
    # in turn
    ('the first undo fails', fails(('comp', A, B), ('comp', C, OTHER_PART)), ['11131', '13111']),
    ('the last undo fails', fails(('comp', A, PART), ('comp', D, E)), ['11113', '13111']),
    ('two undos, both undone', fails(('comp', A, PART), ('comp', D, ('comp', E, F))), ['131111', '111131']),
    # what replaces what
    ('an undo replaced', fails(('comp', ('comp', A, PART), D)), ['1111']),
    ('an undo of an undo replaced', undone_by(fails(('comp', PART, D))), ['1111']),
    ('an undo that remains', fails(('comp', fails(('comp', A, ('seq', PART, D))), E)), ['11131']),
    ('undone on the spot, and later', fails(('handler', undone_by(('seq', PART, D)), ('comp', E, PART))), ['11131']),
    ('of a handler', fails(('handler', THROW, ('comp', A, ('seq', PART, D)))), ['1113']),
    ('of a choice', fails(('choice', ('comp', A, ('seq', PART, D)), ('comp', E, PART))), ['11131']),
    # the undo of an undo
    ('undone by a throw', undone_by(fails(('comp', B, fails(C)))), ['113']),
    ('undone by a throw, handled', ('handler', undone_by(fails(('comp', B, fails(C)))), D), ['1131']),
    ('undone by two in turn', undone_by(fails(('comp', B, ('seq', C, D)))), ['1133']),
    ('undone by two side by side', undone_by(fails(('comp', B, ('par', C, D)))), ['1133']),
    ('undone by a choice', undone_by(fails(('comp', B, ('choice', C, D)))), ['1133']),
    ('undone by a handler', undone_by(fails(('comp', B, ('handler', C, D)))), ['1133']),
    ('undone by the same action', undone_by(fails(('comp', B, A))), ['33']),
    ('skips', fails(('comp', SKIP, fails(('comp', SKIP, A)))), ['3']),
]


def plans():
    """name, types, tree"""
    for name, tree, kinds in PLANS:
        for types in kinds:
            yield f'nested: {name}, {types}', [int(t) for t in types], tree


def just_these(actions, sets):
    """the rule that these sets alone satisfy, where there are no pairs"""
    rules = [not_just(actions, number) for number in sets]
    return functools.reduce(lambda left, right: left + right + [AND], rules) + [NOT]


def every_set_left(model):
    """each plan with a rule that one set alone breaks, for each set that a run leaves, its leaves numbered from the left and from the right; and with a rule that
    just these sets satisfy: name, file"""
    for name, types, tree in plans():
        nodes = model.nodes_of(tree)
        sets = sorted(model.plan_sets(model.tree_of(nodes, types)))
        mirrored = leaves_in_order(nodes, range(len(nodes) // 2, -1, -1))
        for number in sets:
            yield f'{name}, set {number}', model.encode(types, [], nodes, not_just(len(types), number))
            yield f'{name} mirrored, set {number}', model.encode(types, [], mirrored, not_just(len(types), number))
        yield f'{name}, its sets', model.encode(types, [], nodes, just_these(len(types), sets))
