"""For each cell of the chart of three levels a small plan with a run that comes to it.

A code is how a process has ended, then how its undo has, then how that one's undo has, as far as they were run: () is not run. A cell is a form, the codes of both
sides and the code that they give. Codes whose last level has failed, with a level beyond it not run, are left out: no part of a complete run has one. Each level of
a side does an action of its own, so that the set of a run tells how far it went.
"""
import itertools
import sys

from verdicts import not_just

OK, FAIL = 1, 2
SKIP, THROW = ('skip',), ('throw',)
FORMS = {'seq': 'sequence', 'par': 'parallel', 'choice': 'choice', 'comp': 'compensation', 'handler': 'handler'}
CODES = [code for levels in range(4) for code in itertools.product((OK, FAIL), repeat=levels) if levels in (0, 3) or code[-1] == OK]


def given(model, form, left, right):
    """the code of two codes, None where they cannot be. The undo of a compensation has one level less: where it has failed in its last one, what comes then is empty"""
    if form == 'comp' and right[1:] == (FAIL, OK):
        right = right[:2]
    return model.join(form, left, right)


def cells(model):
    """form, left code, right code, and the code that they give"""
    for form, left, right in itertools.product(FORMS, CODES, CODES):
        code = given(model, form, left, right)
        if code and code in CODES:
            yield form, left, right, code


def side(code, first):
    """a process that ends by this code as far as it is run, and does the actions from `first` on, one a level"""
    def part(outcome, tree):
        return ('seq', tree, THROW) if outcome == FAIL else tree

    def level(outcomes, action):
        tree = ('act', action)
        return part(outcomes[0], ('comp', tree, level(outcomes[1:], action + 1)) if outcomes[1:] else tree)
    return level(code or (OK,), first)


def around(code, tree):
    """a plan whose runs come to this code of the process"""
    # an undo that fails, after the process's own has succeeded
    failing = ('seq', ('comp', SKIP, THROW), tree) if len(code) == 3 and code[1] == OK else tree
    return ('seq', failing, THROW) if code[0] == OK and len(code) > 1 else failing


def plans(model):
    """name, file, and the plainest of the runs that come to the cell; the rule is one that the set of these alone breaks"""
    said = lambda code: ' '.join({OK: 'ok', FAIL: 'fail'}[outcome] for outcome in code) or 'not run'
    for form, left, right, code in cells(model):
        name = f'cell: {FORMS[form]}, {said(left)}, {said(right)}'
        # the right side of a compensation may have one level of undos, and the third is empty
        levels = right[:2] if form == 'comp' else right
        nodes = model.nodes_of(around(code, (form, side(left, 0), side(levels, 3))))
        types, number = [1] * 6, sum(1 << a for a in range(len(left))) | sum(8 << a for a in range(len(levels)))
        tree = model.tree_of(nodes, types)
        if number not in model.plan_sets(tree):
            sys.exit(f'{name}: no run leaves the set {number}')
        yield name, model.encode(types, [], nodes, not_just(6, number)), model.plainest(tree, number)
