"""The vectors of the group `verdicts`: plan files and lent areas, with the model's verdict as one number and the run that it shows.

What make_vectors.py writes. A vector's body is the number expected, four bytes, the lowest first; a byte that says which areas are a byte too
short, 1 for the work area and 2 for the record area; the 126 bytes of a record area that was lent full of zeros, as it is after the verdict; and the file. The
number is 0 for consistent, 65,536 and the set for violated, and twice 65,536 and the refusal's number for refused.
"""
import functools
import random
import sys

from plans import TRIES, TWENTY_ONE, damaged, deepest, named, nested_plan, random_plan
from shown import record_of, shown_run

SEED_PLANS, PLANS = 20076, 300
SEED_BROKEN, BROKEN = 20077, 300
SEED_DAMAGED, DAMAGED = 20078, 100
SEED_RULES, RULES = 20079, 40
# plans in which an undo has an undo, and damaged files of which compensations may stand a level deeper
SEED_NESTED, NESTED = 20085, 40
SEED_NESTED_BROKEN, NESTED_BROKEN = 20086, 80
SEED_DEEP, DEEP = 20087, 50
VIOLATED, REFUSED = 65536, 131072
NOT, AND, OR = 0x80, 0x81, 0x82


def code_of(model, file, short=0):
    """the verdict on a file with areas of which some are too short, as one number"""
    if short:
        return REFUSED + (10 if short % 2 else 12)
    answer = model.verdict(bytes(file))
    return {'consistent': lambda: 0, 'violated': lambda s: VIOLATED + s, 'refused': lambda n: REFUSED + n}[answer[0]](*answer[1:])


def record_after(model, file, code):
    """the bytes of the record area after the verdict of this number: the run of a violation, and else nothing"""
    return record_of(shown_run(model, file, code - VIOLATED) if VIOLATED <= code < REFUSED else ())


def not_just(actions, number):
    """the rule that the set of the number alone breaks, where there are no pairs"""
    rule = []
    for a in range(actions):
        rule += [a] + ([] if number >> a & 1 else [NOT]) + ([AND] if a else [])
    return rule + [NOT]


def any_subset(form, around):
    """the node list of a plan of ten actions, each finished or not as it likes: of each one in a node of the form `around` beside a skip, all
    of these in nodes of `form`"""
    nodes, tops = [], []
    for a in range(10):
        nodes += [(0, a, 0), (1, 0, 0)]
        nodes.append((around, len(nodes) - 2, len(nodes) - 1))
        tops.append(len(nodes) - 1)
    top = tops[0]
    for other in tops[1:]:
        nodes.append((form, top, other))
        top = len(nodes) - 1
    return nodes


def just(model, number):
    """the node list of a plan whose actions always succeed and whose one set is this"""
    actions = [('act', a) for a in range(10) if number >> a & 1] or [('skip',)]
    return model.nodes_of(functools.reduce(lambda left, right: ('seq', left, right), actions))


def rules_over(a):
    """rules that tell the two values of an action: name, rule"""
    either = [a, a, NOT, OR]
    return {f'{a}': [a], f'not {a}': [a, NOT], f'{a} or not {a}': either, f'{a} and not {a}': [a, a, NOT, AND], f'not ({a} or not {a})': either + [NOT]}


def one_set(model, actions, pairs, rules):
    """for each set of the actions and each rule a plan whose only set it is, with one action more, which does not run: name, file"""
    for number in range(1 << actions):
        for name, rule in rules.items():
            yield f'{name}, pairs {named(pairs)}, set {number}', model.encode([1] * (actions + 1), pairs, just(model, number), rule)


def several_undos(model):
    """one to three undos of an action: name, file"""
    for pairs in ([(0, 1)], [(0, 1), (0, 2)], [(0, 1), (0, 2), (0, 3)], [(2, 1), (2, 0)], [(3, 2), (3, 0), (3, 1)]):
        other = len(pairs) + 1
        rules = rules_over(pairs[0][0])
        # with an action that does not finish, "or it, and not it" says nothing
        rules |= {f'long {name}': rule + [other, OR, other, NOT, AND] * 20 for name, rule in rules.items()}
        yield from one_set(model, other, pairs, rules)
    rules = {'0 or not 1': [0, 1, NOT, OR], '0 and 1': [0, 1, AND], 'not 0 and not 1': [0, NOT, 1, NOT, AND]}
    yield from one_set(model, 5, [(0, 2), (1, 4), (0, 4), (1, 3), (0, 3)], rules)


def rules_over_undone(a):
    """rules over an action with the undos 7, 8 and 9: name, rule"""
    yield from rules_over(a).items()
    either = rules_over(a)[f'{a} or not {a}']
    yield f'{a} or not {a}, or an undo', either + [7, OR, 8, OR, 9, OR]
    yield f'{a} or not {a}, or not two undos', either + [7, 8, AND, 7, 9, AND, OR, 8, 9, AND, OR, NOT, OR]
    yield f'{a} or not {a}, or not three undos', either + [7, 8, AND, 9, AND, NOT, OR]


def twenty_one(model):
    """ten actions of which every subset is left, with as many pairs as there can be: name, file"""
    plan = lambda rule: model.encode([3] * 10, TWENTY_ONE, any_subset(4, 7), rule)
    for a in range(7):
        for name, rule in rules_over_undone(a):
            yield f'21 pairs, {name}', plan(rule)
    rng = random.Random(SEED_RULES)
    for n in range(RULES):
        yield f'21 pairs, rule {n} of seed {SEED_RULES}', plan(model.rand_rule(rng, 10, rng.randrange(2, 7)))


def with_rule(model, file, rule):
    """the plan with another rule and no pairs"""
    types, _, nodes, _ = model.parse(bytes(file))
    return model.encode(types, [], nodes, rule)


def broken_by_one(model, rng, file):
    """the plan with a rule that one of its own sets breaks, and no other"""
    types, _, nodes, _ = model.parse(bytes(file))
    number = rng.choice(sorted(model.plan_sets(model.tree_of(nodes, types))))
    return with_rule(model, file, not_just(len(types), number))


def broken_in_undo_of_undo(model, rng):
    """a plan as the one above, in which undos have undos; one of which the run shown comes to such, where one of several does"""
    for _ in range(TRIES):
        file = broken_by_one(model, rng, nested_plan(model, rng, rng.choice([5, 6, 8, 13, 21, 32])))
        types, _, nodes, _ = model.parse(file)
        if deepest(model.tree_of(nodes, types), shown_run(model, file, model.verdict(file)[1])) == 2:
            break
    return file


def plans(model, of_document, edges):
    """name, file, and which areas are too short"""
    for name, file in of_document:
        yield name, file, 0
    p1 = dict(of_document)['P1']
    for short in (1, 2, 3):
        yield f'P1, areas {short} too short', p1, short
        yield f'an empty file, areas {short} too short', b'', short
    for name, file in edges:
        yield name, file, 0
    # every subset of ten actions is left: by handlers in sequence and in parallel, and by choices in parallel
    for form, around in ((3, 7), (4, 7), (4, 5)):
        types = [3] * 10 if around == 7 else [1] * 10
        nodes = any_subset(form, around)
        yield f'all sets keep the rule, forms {form} {around}', model.encode(types, [], nodes, [0, 0, NOT, OR]), 0
        for number in (0, 1, 2, 63, 64, 511, 512, 1022, 1023):
            yield f'set {number} breaks the rule, forms {form} {around}', model.encode(types, [], nodes, not_just(10, number)), 0
    for part in (several_undos, twenty_one):
        for name, file in part(model):
            yield name, file, 0
    rng = random.Random(SEED_PLANS)
    for n in range(PLANS):
        yield f'plan {n} of seed {SEED_PLANS}', random_plan(model, rng), 0
    rng = random.Random(SEED_BROKEN)
    for n in range(BROKEN):
        yield f'plan {n} of seed {SEED_BROKEN}', broken_by_one(model, rng, random_plan(model, rng)), 0
    rng = random.Random(SEED_DAMAGED)
    for n in range(DAMAGED):
        yield f'damaged plan {n} of seed {SEED_DAMAGED}', damaged(rng, random_plan(model, rng)), 0
    rng = random.Random(SEED_NESTED)
    for n in range(NESTED):
        yield f'plan {n} of seed {SEED_NESTED}', nested_plan(model, rng, rng.choice([3, 5, 8, 13, 21, 32])), 0
    rng = random.Random(SEED_NESTED_BROKEN)
    for n in range(NESTED_BROKEN):
        yield f'plan {n} of seed {SEED_NESTED_BROKEN}', broken_in_undo_of_undo(model, rng), 0
    rng = random.Random(SEED_DEEP)
    for n in range(DEEP):
        file = random_plan(model, rng, depth=3)
        yield f'plan {n} of seed {SEED_DEEP}, up to three levels', file if n % 2 else damaged(rng, file), 0


# what the papers themselves say: document 01 and, of P3, 02
SAID = {'P1': 0, 'P2': VIOLATED + 2, 'P3': 0, 'P7': VIOLATED + 2}
# and the office's story
SAID |= {'swallowed': VIOLATED + 13, 'mended': 0, 'withdrawn': VIOLATED + 51, 'retried': VIOLATED + 13, 'restored': VIOLATED + 83}
# and the plans that undos of undos are tried on, of which action 0 is done in every run
SAID |= {f'Q{n}': 0 for n in range(1, 6)}


def verdict_vectors(model, of_document, edges):
    """name and body of each vector"""
    for name, file, short in plans(model, list(of_document), edges):
        code = code_of(model, file, short)
        if SAID.get(name, code) != code:
            sys.exit(f'{name}: the model says {code}, the papers {SAID[name]}')
        yield name, code.to_bytes(4, 'little') + bytes([short]) + record_after(model, file, code) + bytes(file)
