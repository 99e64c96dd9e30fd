"""Plan files made at random and damaged at random, and the number that the model refuses a file by.

What make_vectors.py and the fuzz scripts share. The model is an independent reader of plan files in Python, a folder with oracle.py, cells.py and
after.py, which stands outside the repository.
"""
import importlib
import inspect
import sys

# nothing is to be written beside the model
sys.dont_write_bytecode = True

SKIP, THROW = (1, 0, 0), (2, 0, 0)
SEQUENCE, PARALLEL, CHOICE, COMPENSATION, HANDLER = 3, 4, 5, 6, 7
# how many pairs an action may be first in
MOST_UNDOS = 3
# how many compensations may stand in one another's right sides
MOST_DEPTH = 2
# how often a plan is made anew whose run does not come to the undo of an undo
TRIES = 8
# as many pairs as there can be: seven actions, each with the same three undos
TWENTY_ONE = [(a, u) for a in range(7) for u in (7, 8, 9)]


# up to so many leaves all runs of a plan are gone through, and of one without parallels, which has few, up to so many
FEW_LEAVES, FEW_IN_TURN = 6, 12


def leaves_of(tree):
    return [tree] if tree[0] == 'leaf' else leaves_of(tree[1]) + leaves_of(tree[2])


def has_parallel(tree):
    return tree[0] != 'leaf' and (tree[0] == 'par' or has_parallel(tree[1]) or has_parallel(tree[2]))


def is_small(tree):
    return len(leaves_of(tree)) <= (FEW_LEAVES if has_parallel(tree) else FEW_IN_TURN)


def depth_of(tree):
    """how many compensations stand in one another's right sides, at most"""
    return 0 if tree[0] == 'leaf' else max(depth_of(tree[1]), depth_of(tree[2]) + (tree[0] == 'comp'))


def deepest(tree, run, level=0):
    """how deep in undos the deepest entry of a run stands: 0 forward, 1 in an undo, 2 in the undo of an undo; -1 where none is the tree's"""
    if tree[0] == 'leaf':
        return level if any(leaf == tree[1] for leaf, _ in run) else -1
    return max(deepest(tree[1], run, level), deepest(tree[2], run, level + (tree[0] == 'comp')))


def with_switches(module):
    """turns the switches of all functions and classes of the module that have them: both sides of a parallel begin, and an undo may have an undo, whoever calls"""
    switches = {'both': True, 'both_begin': True, 'levels': MOST_DEPTH + 1}
    for thing in vars(module).values():
        function = thing.__init__ if inspect.isclass(thing) else thing
        if inspect.isfunction(function):
            optional = [p for p in inspect.signature(function).parameters.values() if p.default is not p.empty]
            function.__defaults__ = tuple(switches.get(p.name, p.default) for p in optional)


def model_in(folder):
    """the model's module cells.py, which has all of oracle.py's names too, with after.py's reader of files: several undos of an action, and undos two deep;
    with both sides of a parallel beginning; with after.py's sets of a tree, its search for the plainest run of a tree that leaves a set, its codes of both sides of
    a node as one, its timed jobs, and its reader of rules as people type them"""
    sys.path.insert(0, folder)
    oracle, cells, after = (importlib.import_module(name) for name in ('oracle', 'cells', 'after'))
    with_switches(oracle)
    with_switches(cells)
    by_chart = oracle.plan_sets

    def plan_sets(tree):
        """the sets that complete runs leave; the script ends where the chart, of a plan without nested compensations, or the runs, of a small one, have others"""
        sets = after.sets2(tree)
        if depth_of(tree) < 2 and by_chart(tree) != sets:
            sys.exit(f'{tree}: the sets are {sets}, the chart has {by_chart(tree)}')
        if is_small(tree) and {cells.set_of(run, tree) for run, _ in cells.Sem().complete(tree)} != sets:
            sys.exit(f'{tree}: the sets are {sets}, which are not those of its runs')
        return sets

    # in both, since what oracle.py defines reads files and finds sets by oracle.py's names
    oracle.parse = cells.parse = after.parse2
    oracle.plan_sets = cells.plan_sets = plan_sets
    cells.plainest, cells.join, cells.timed = after.lazy2, after.join, after.timed
    cells.rule_text, cells.Bad = after.rule_text, after.Bad
    return cells


def asked(doc):
    """what the words after a fuzz script's name ask for: the model, how many files, the seed, and how many undos an action may have"""
    if len(sys.argv) not in (4, 5) or sys.argv[4:] not in ([], ['one']):
        sys.exit(doc)
    return model_in(sys.argv[1]), int(sys.argv[2]), int(sys.argv[3]), 1 if sys.argv[4:] else MOST_UNDOS


def number_of(model, file, several=True, depth=MOST_DEPTH):
    """the papers' number for a file, as the model has it: 0 where it is accepted. Where not `several`, an action has one undo at most, and there are
    nine pairs at most; compensations may stand so deep in one another's right sides"""
    try:
        model.parse(bytes(file), several, depth)
        return 0
    except model.Refused as refused:
        return refused.args[0]


def alike(model, file):
    """whether a file reads the same where an action has one undo at most and no undo has an undo, and is no plan with a parallel"""
    number = number_of(model, file)
    return number == number_of(model, file, several=False, depth=1) and (number != 0 or all(form != PARALLEL for form, _, _ in model.parse(bytes(file))[2]))


def made(model, undos, make):
    """the file that `make` makes. Where an action may have one undo only, it is one that programs from before there could be more answer alike: damage
    may add some, parallels and nested compensations"""
    while True:
        file = make()
        if undos > 1 or alike(model, file):
            return file


def block(kind, body, length=None):
    """a block; `length` is what its heading says, where that is not the body's own"""
    body = bytes(body)
    length = len(body) if length is None else length
    return length.to_bytes(2, 'little') + kind.to_bytes(2, 'little') + body


def flat(rows):
    return bytes(b for row in rows for b in row)


def whole(types=(1,), pairs=(), nodes=(SKIP,), rule=(0,)):
    """the file of four bodies"""
    return block(1, types) + block(2, flat(pairs)) + block(3, flat(nodes)) + block(4, rule)


def named(pairs):
    """pairs as a name of a vector has them"""
    return ' '.join(f'{a}{u}' for a, u in pairs)


def blocks_of(file):
    """the parts of a file that its headings mark out, however many there are, and what is left"""
    parts, at = [], 0
    while len(file) - at >= 4:
        end = at + 4 + int.from_bytes(file[at:at + 2], 'little')
        parts.append(file[at:end])
        at = end
    return parts + ([file[at:]] if at < len(file) else [])


def in_another_order(rng, nodes):
    """the same tree with its nodes numbered at random, each after those that it names"""
    place, left = {}, list(range(len(nodes) - 1))
    out = []
    while left:
        i = rng.choice([i for i in left if nodes[i][0] < 3 or (nodes[i][1] in place and nodes[i][2] in place)])
        left.remove(i)
        place[i] = len(place)
        out.append(i)
    return [(f, place[l], place[r]) if f >= 3 else (f, l, r) for f, l, r in (nodes[i] for i in out + [len(nodes) - 1])]


def random_pairs(rng, actions, undos):
    """pairs in any order: some actions are first, each in up to so many, and the others may be second; now and then there are as many as can be"""
    many = rng.randrange(6) == 0
    firsts = max(range(actions), key=lambda n: n * min(undos, actions - n)) if many else rng.randrange(actions)
    order = rng.sample(range(actions), actions)
    most = min(undos, actions - firsts)
    pairs = [(a, u) for a in order[:firsts] for u in rng.sample(order[firsts:], most if many else rng.randrange(most + 1))]
    return rng.sample(pairs, len(pairs))


def random_depth(rng, undos, most=MOST_DEPTH):
    """how deep the compensations of a random plan may be nested: 1 where an action may have one undo only, else up to so deep"""
    return rng.randrange(1, most + 1) if undos > 1 else 1


def undone_tree(rng, leaves, actions, depth, fails):
    """a tree with compensations nested up to so deep. Where it is to fail, that mostly comes last, so that much is undone; and many undos are to fail"""
    if leaves == 1:
        return rng.choice([('throw',)] if fails else [('skip',), ('throw',)] + [('act', rng.randrange(actions)) for _ in range(10)])
    if fails and rng.randrange(4):
        return ('seq', undone_tree(rng, leaves - 1, actions, depth, False), ('throw',))
    form = rng.choice(['seq', 'seq', 'par', 'choice', 'handler'] + ['comp'] * (6 if depth else 0))
    # the undo is mostly the larger side
    left = rng.randrange(1, leaves) if form != 'comp' else min(rng.randrange(1, leaves) for _ in range(3))
    first = form == 'handler' and rng.randrange(2) == 0
    second = fails if form != 'comp' else depth > 1 and rng.randrange(3) > 0
    return (form, undone_tree(rng, left, actions, depth, first), undone_tree(rng, leaves - left, actions, depth - (form == 'comp'), second))


def random_plan(model, rng, leaves=None, undos=MOST_UNDOS, depth=1):
    """the file of a plan of 1 to 10 actions and 1 to 32 leaves, a third of them with their nodes in an order other than the model's; without parallels
    where an action may have one undo only; with compensations nested up to so deep, of which more than two levels are more than a plan may have"""
    actions = rng.randrange(1, 11)
    types = [rng.choice([1, 2, 3] if depth == 1 else [1, 1, 1, 2, 3, 3]) for _ in range(actions)]
    leaves = leaves or rng.choice([1, 2, 3, 5, 8, 13, 21, 32])
    tree = model.rand_tree(rng, leaves, actions) if depth == 1 else undone_tree(rng, leaves, actions, depth, rng.randrange(5) > 0)
    nodes = model.nodes_of(tree)
    nodes = in_another_order(rng, nodes) if rng.randrange(3) == 0 else nodes
    nodes = nodes if undos > 1 else [(SEQUENCE if form == PARALLEL else form, left, right) for form, left, right in nodes]
    rule = model.rand_rule(rng, actions, rng.randrange(0, 7))
    return model.encode(types, random_pairs(rng, actions, undos), nodes, rule)


def nested_plan(model, rng, leaves):
    """the file of a plan of so many leaves in which an undo has an undo"""
    while True:
        file = random_plan(model, rng, leaves, depth=MOST_DEPTH)
        if number_of(model, file, depth=MOST_DEPTH - 1) == 8:
            return file


def crowded_plan(model, rng, undos=MOST_UNDOS, depth=1):
    """the file of a plan of few actions, each at several leaves, most of which may be left out or may fail: so many runs leave one set. Compensations are nested
    up to so deep"""
    actions = rng.randrange(1, 6)
    leaves = rng.choice([3, 4, 5, 6, 6, 8, 10, 12, 20, 32])
    forms = ['seq', 'handler', 'choice'] + (['par', 'par'] if undos > 1 else ['seq'])

    def tree(leaves, depth):
        if leaves == 1:
            return rng.choice([('skip',), ('throw',)] + [('act', rng.randrange(actions)) for _ in range(8)])
        left, form = rng.randrange(1, leaves), rng.choice(forms + ['comp'] * depth)
        return (form, tree(left, depth), tree(leaves - left, depth - (form == 'comp')))
    nodes = in_another_order(rng, model.nodes_of(tree(leaves, depth)))
    types = [rng.choice([1, 2, 3, 3, 3, 3]) for _ in range(actions)]
    return model.encode(types, random_pairs(rng, actions, undos), nodes, model.rand_rule(rng, actions, rng.randrange(0, 5)))


def random_nodes(model, rng, actions):
    """a node list: a tree whose compensations may stand anywhere, with up to two of its bytes moved by little"""
    def tree(leaves):
        if leaves == 1:
            return rng.choice([('skip',), ('throw',), ('act', rng.randrange(actions))])
        left = rng.randrange(1, leaves)
        return (rng.choice(list(model.FORMNO)), tree(left), tree(leaves - left))
    body = bytearray(flat(model.nodes_of(tree(rng.choice([1, 2, 3, 5, 8, 21, 32, 33])))))
    for _ in range(rng.choice([0, 1, 1, 2])):
        at = rng.randrange(len(body))
        body[at] = (body[at] + rng.choice([1, 2, 255])) % 256
    return bytes(body)


def random_body(model, rng, kind, actions, undos):
    """a body whose bytes are mostly near those that its kind permits"""
    action = lambda: rng.choice([rng.randrange(actions)] * 9 + [rng.randrange(256)])
    if kind == 1:
        return bytes(rng.choice([1, 2, 3] * 8 + [0, 4]) for _ in range(rng.choice([0, 1, 5, 10, 11])))
    if kind == 2:
        # half of them begin with pairs that may stand together
        sound = flat(random_pairs(rng, actions, undos)) if rng.randrange(2) else b''
        return (sound + bytes(action() for _ in range(44)))[:rng.choice([0, 2, 2, 4, 4, 5, 6, 8, 18, 20, 40, 41, 42, 42, 43, 44])]
    if kind == 3:
        return random_nodes(model, rng, actions)
    return bytes(rng.choice([action(), action(), 0x80, 0x81, 0x82]) for _ in range(rng.choice([0, 1, 2, 3, 4, 5, 7, 127, 128])))


def random_blocks(model, rng, undos):
    """the file of a plan with one of its bodies made without regard to the others"""
    parts = blocks_of(random_plan(model, rng, undos=undos))
    kind = rng.choice([1, 2, 3, 3, 3, 4, 4])
    parts[kind - 1] = block(kind, random_body(model, rng, kind, len(parts[0]) - 4, undos))
    return b''.join(parts)


def damaged(rng, file):
    """the file with one thing done to it"""
    file = bytearray(file)
    at = rng.randrange(len(file)) if file else 0
    what = rng.randrange(9)
    if what == 0 and file:
        file[at] = rng.randrange(256)
    elif what == 1 and file:
        file[at] = (file[at] + rng.choice([1, 255, 128])) % 256
    elif what == 2:
        file[at:at] = bytes([rng.choice([0, 1, 2, 3, 4, 6, 0x80, 0x81, 0x82, rng.randrange(256)])])
    elif what == 3:
        del file[at:at + 1]
    elif what == 4:
        del file[at:at + rng.randrange(1, 8)]
    elif what == 5:
        return bytes(file[:at])
    elif what == 6:
        return bytes(file) + bytes(rng.randrange(256) for _ in range(rng.randrange(1, 6)))
    else:
        parts = blocks_of(bytes(file))
        if parts:
            i, j = rng.randrange(len(parts)), rng.randrange(len(parts))
            if what == 7:
                parts[i], parts[j] = parts[j], parts[i]
            else:
                # a heading's number moved by little, or a byte of its body made one of a few that matter
                part = bytearray(parts[i])
                k = rng.randrange(min(4, len(part))) if rng.random() < .5 else rng.randrange(len(part))
                part[k] = rng.choice([(part[k] + 1) % 256, (part[k] - 1) % 256, 0, 1, 3, 6, 7, 8, 10, 0x7F, 0x80, 0x83])
                parts[i] = bytes(part)
        return b''.join(parts)
    return bytes(file)
