#!/usr/bin/env python3
"""Writes the vectors of the program `compare` anew: tests/make_vectors.py MODEL

MODEL is the folder of the model (plans.py says which). Written: crates/compare/data/files, runs, hours, verdicts, formulas and classes, what each program reads
and is to write (stdin, stdout, args and data in its crate), the plans of the course and their window file, crates/course/data, and the stored cases but those that
stand for the front door alone, tests/stored and tests/files.
docs/VECTORS.md has the format. The numbers expected are the model's. Where the papers name one, the script ends if the model has another.
Nothing but the seeds below decides what is made, so that a second run writes the same bytes.
"""
import collections
import functools
import itertools
import os
import random
import sys

import levels
import nested
from classes import HEADING, PLACE, answers_of, class_vectors
from formulas import REFUSED, formula_vectors
from hours import hours_vectors
from madeup import broken
from office import DELETE, HALL, MENDED, RESTORE, RESTORED, RETRIED, SWALLOWED, TELL, TYPED, WITHDRAWN
from parallels import every_run, every_set
from plainest import every_set_left
from plans import (CHOICE, COMPENSATION, HANDLER, PARALLEL, SEQUENCE, SKIP, THROW, TRIES, TWENTY_ONE, block, blocks_of, damaged, deepest, flat, model_in, named,
                   nested_plan, number_of, random_plan, whole)
from sessions import MOST_FILE, Model, job_of, permitted, random_entries, real_job, session_of
from shown import RECORD
from steps import MADE_UP as MADE_UP_JOB, SESSION, TIMED_SESSION, answers_in, made_up_job, number_in, start_of, started, steps_in
from stored import RULE_AT, RULES, WINDOWS, chart_lines, inspect_lines, other_places, other_records, other_rules, rule_lines, stored_cases, verdict_lines
from typed import MOST_RULE
from verdicts import verdict_vectors

SEED_PLANS, PLANS = 20071, 300
SEED_DAMAGED, DAMAGED = 20072, 1000
SEED_FEW, FEW = 20073, 220
SEED_MANY, MANY = 20074, 120
SEED_MADE_UP, MADE_UP = 20075, 30
# plans in which an undo has an undo, and damaged files of which compensations may stand a level deeper; then sessions with such plans, and made-up jobs
SEED_NESTED, NESTED_PLANS = 20080, 25
SEED_DEEP, DEEP = 20081, 50
SEED_NESTED_FEW, NESTED_FEW = 20082, 60
SEED_NESTED_MANY, NESTED_MANY = 20083, 40
SEED_NESTED_MADE_UP, NESTED_MADE_UP = 20084, 6
# what the program has room for: the bytes of a name, and of a data file
NAME_ROOM, DATA_ROOM = 64, 1048576

P1 = bytes.fromhex('03 00 01 00 03 01 03 02 00 02 00 00 01 0F 00 03 00 00 00 00 00 01 00 06 00 01 00 02 00 03 02 03'
                   '09 00 04 00 00 02 81 00 80 02 80 81 82')


def comb(leaves):
    """a sequence of so many skips, each new one to the right of all before it"""
    nodes = [SKIP]
    for _ in range(leaves - 1):
        nodes += [SKIP, (SEQUENCE, len(nodes) - 1, len(nodes))]
    return nodes


def over(form, left, right):
    """the node list of a tree from those of its sides"""
    moved = [(f, l + len(left), r + len(left)) if f >= 3 else (f, l, r) for f, l, r in right]
    return left + moved + [(form, len(left) - 1, len(left) + len(right) - 1)]


TEN = [1, 2, 3, 1, 2, 3, 1, 2, 3, 1]


def large(size):
    """a plan of so many bytes: the largest one without some of its pairs and, where the number is odd, without one byte of its rule"""
    less = MOST_FILE - size
    return whole(TEN, TWENTY_ONE[:21 - less // 2], comb(32), [0] + [0x80] * (126 - less % 2))


LARGEST = large(MOST_FILE)


def plans_of_document():
    """P1 to P8 of document 01; where it gives no pairs or no rule, there are no pairs, and the rule is action 0"""
    action = lambda a: (0, a, 0)
    yield 'P1', P1
    yield 'P2', whole([3, 3], (), [action(0), SKIP, (HANDLER, 0, 1), action(1), (SEQUENCE, 2, 3)], [1, 0x80, 0, 0x82])
    yield 'P3', whole([1], (), [THROW, action(0), (PARALLEL, 0, 1)])
    yield 'P4', whole([1, 3, 1], (), [action(0), action(1), (COMPENSATION, 0, 1), THROW, (SEQUENCE, 2, 3), action(2), (HANDLER, 4, 5)])
    yield 'P5', whole([1, 1, 1], (), [action(0), action(1), (COMPENSATION, 0, 1), action(2), (COMPENSATION, 2, 3), THROW, (SEQUENCE, 4, 5)])
    yield 'P6', whole([1, 1, 1, 2], (), [action(0), action(1), (COMPENSATION, 0, 1), action(2), action(3), (COMPENSATION, 3, 4),
                                         (SEQUENCE, 2, 5), THROW, (SEQUENCE, 6, 7)])
    yield 'P7', whole([1, 1], [(0, 1)], [action(1)], [0, 0, 0x80, 0x82])
    yield 'P8', whole([3], (), [action(0), action(0), (SEQUENCE, 0, 1)])


def plans_of_change():
    """Q1 to Q5, the plans that undos of undos (document 02, N14) are tried on: name, file, and the sets that runs leave. No pairs, and the rule is action 0"""
    action = lambda a: (0, a, 0)
    yield 'Q1', whole([1, 1, 1], (), [action(0), action(1), action(2), (COMPENSATION, 1, 2), (COMPENSATION, 0, 3), THROW, (SEQUENCE, 4, 5)]), {3}
    in_two_parts = [action(0), action(1), action(2), (COMPENSATION, 1, 2), action(3), (SEQUENCE, 3, 4), (COMPENSATION, 0, 5), THROW, (SEQUENCE, 6, 7)]
    yield 'Q2', whole([1, 1, 1, 3], (), in_two_parts), {7, 11}
    yield 'Q3', whole([1, 1, 1, 2, 1], (), in_two_parts + [action(4), (HANDLER, 8, 9)]), {23}
    yield 'Q4', whole([1, 1, 1, 1, 3], (), [action(0), action(1), action(2), (COMPENSATION, 1, 2), (COMPENSATION, 0, 3), action(3), action(4),
                                            (COMPENSATION, 5, 6), (PARALLEL, 4, 7), THROW, (SEQUENCE, 8, 9)]), {15, 27}
    yield 'Q5', whole([1, 2, 1, 1, 1], (), [action(0), action(1), (COMPENSATION, 0, 1), action(2), action(3), action(4), (COMPENSATION, 4, 5),
                                            (COMPENSATION, 3, 6), (SEQUENCE, 2, 7), THROW, (SEQUENCE, 8, 9)]), {29}


# two levels of undos, and three
NESTED = [SKIP, SKIP, (COMPENSATION, 0, 1), SKIP, (COMPENSATION, 3, 2)]
THIRD = NESTED + [SKIP, (COMPENSATION, 5, 4)]
# (0 with undo 1) in parallel with (2 with undo 3), then a throw; of these 1 alone may fail, and the rule is action 3
UNDONE_TOGETHER = whole([1, 3, 1, 1], (), [(0, 0, 0), (0, 1, 0), (COMPENSATION, 0, 1), (0, 2, 0), (0, 3, 0), (COMPENSATION, 3, 4), (PARALLEL, 2, 5),
                                           THROW, (SEQUENCE, 6, 7)], [3])

# (0, then 1) in parallel with (2, then 3), the leaves numbered so that the run first in byte order changes sides at each entry; the rule is "not 3"
TAKEN_IN_TURNS = whole([1] * 4, (), [(0, 2, 0), (0, 0, 0), (0, 3, 0), (0, 1, 0), (SEQUENCE, 1, 3), (SEQUENCE, 0, 2), (PARALLEL, 4, 5)], [3, 0x80])

# ten actions in sequence, which always succeed: the one set is 1,023, the largest that there is, and the rule is "not 0"
ALL_TEN = whole([1] * 10, (), [(0, a, 0) for a in range(10)] + [(SEQUENCE, 0, 1)] + [(SEQUENCE, 9 + k, 1 + k) for k in range(1, 9)], [0, 0x80])


def examples_of_table():
    """the examples of document 01's table as they stand, and made whole files: name, number, file"""
    rest = blocks_of(P1)
    yield '1: empty file', 1, b''
    yield '2: 00 00 02 00', 2, bytes.fromhex('00000200')
    yield '2: 00 00 02 00 and the blocks after it', 2, bytes.fromhex('00000200') + b''.join(rest[1:])
    yield '3: 00 00 01 00', 3, bytes.fromhex('00000100')
    yield '3: 00 00 01 00 and the blocks after it', 3, bytes.fromhex('00000100') + b''.join(rest[1:])
    yield '4: 01 00 01 00 04', 4, bytes.fromhex('0100010004')
    yield '4: 01 00 01 00 04 and the blocks after it', 4, bytes.fromhex('0100010004') + b''.join(rest[1:])
    yield '5: pair 00 00, as it stands', None, bytes([0, 0])
    yield '5: pair 00 00', 5, whole([1], [(0, 0)])
    yield '6: node 0 = 03 00 00, as it stands', None, bytes([3, 0, 0])
    yield '6: node 0 = 03 00 00', 6, whole([1], (), [(3, 0, 0)])
    yield '7: two skips, as they stand', None, flat([SKIP, SKIP])
    yield '7: two skips', 7, whole([1], (), [SKIP, SKIP])
    yield '8: compensation in an undo side, as it stands', None, flat(NESTED)
    # by document 02 (N14) it passes, and a third level does not
    yield '8: compensation in an undo side', 0, whole([1], (), NESTED)
    yield '8: a third level, as it stands', None, flat(THIRD)
    yield '8: a third level', 8, whole([1], (), THIRD)
    yield '9: 80 alone, as it stands', None, bytes([0x80])
    yield '9: 80 alone', 9, whole([1], (), [SKIP], [0x80])


def example_of_number():
    """of the examples for each number the last, which is a whole file"""
    return {number: file for _, number, file in examples_of_table() if number}


def edges_of_lengths():
    """both sides of each limit, and bodies that are no multiple of what they list"""
    for n in (0, 1, 2, 9, 10, 11, 12, 255, 256):
        yield f'{n} actions', whole([1 + i % 3 for i in range(n)])
    for n in (0, 1, 2, 9, 10, 20, 21, 22, 23):
        yield f'{n} pairs', whole(TEN, (TWENTY_ONE * 2)[:n])
    yield '9 pairs with one second', whole(TEN, [(a, 9) for a in range(9)])
    yield '9 pairs of 9 actions', whole([1] * 9, [(a, 8) for a in range(9)])
    for n in (1, 3, 17, 19, 41, 43, 45):
        yield f'{n} bytes of pairs', block(1, TEN) + block(2, flat(TWENTY_ONE * 2)[:n]) + block(3, flat([SKIP])) + block(4, [0])
    for n in (0, 1, 3, 5, 61, 63, 65, 67):
        yield f'{n} nodes', whole(nodes=comb((n + 1) // 2) if n else [])
    for n in (62, 64, 66):
        yield f'{n} nodes, one of them not named', whole(nodes=[SKIP] + comb(n // 2))
    for n in (1, 2, 4, 5, 187, 188, 190, 191):
        yield f'{n} bytes of nodes', block(1, [1]) + block(2, b'') + block(3, flat(comb(32) + [SKIP])[:n]) + block(4, [0])
    yield '129 bytes of nodes, said to be 257', block(1, [1]) + block(2, b'') + block(3, flat(comb(22)), 257) + block(4, [0])
    for n in (0, 1, 2, 126, 127, 128, 129, 255, 256):
        yield f'{n} bytes of rule', whole(rule=([0] + [0x80] * (n - 1))[:n])
    for n in (126, 127, 128, 129):
        yield f'{n} bytes of rule, of which half are and', whole(rule=[0] * ((n + 1) // 2) + [0x81] * (n // 2))
    for n in (359, 360, 361, 362, 382, 383):
        yield f'a plan of {n} bytes', large(n)
    yield 'the largest file', LARGEST


BODIES = {1: bytes([1, 1, 1]), 2: bytes([0, 1]), 3: flat(comb(3)), 4: bytes([0, 0x80])}
NAMES = {1: 'types', 2: 'pairs', 3: 'nodes', 4: 'rule'}


def with_block(kind, made):
    """the whole file of BODIES with the block of one kind made by hand"""
    return b''.join(made if k == kind else block(k, BODIES[k]) for k in BODIES)


def edges_of_headings():
    """length and kind fields, both bytes of each"""
    # bodies in which nothing but the length is amiss, as far as that can be
    long = {1: b'\x01' * 65535, 2: bytes([0, 1]) * 32767 + b'\0', 3: flat([SKIP] * 21845), 4: b'\0' + b'\x80' * 65534}
    for kind, name in NAMES.items():
        yield f'{name}: length 65535, body there', with_block(kind, block(kind, long[kind]))
        yield f'{name}: length 65535, body short', with_block(kind, block(kind, BODIES[kind], 65535))
        yield f'{name}: length 65535, no body', b''.join(block(k, BODIES[k]) for k in BODIES if k < kind) + block(kind, b'', 65535)
        for high in (1, 128, 255):
            yield f'{name}: high byte of the length {high}', with_block(kind, block(kind, BODIES[kind], len(BODIES[kind]) + 256 * high))
            yield f'{name}: high byte of the kind {high}', with_block(kind, block(kind + 256 * high, BODIES[kind]))
        yield f'{name}: length in the high byte', with_block(kind, block(kind, BODIES[kind], 256 * len(BODIES[kind])))
        yield f'{name}: kind in the high byte', with_block(kind, block(256 * kind, BODIES[kind]))
        for other in (0, 1, 2, 3, 4, 5, 255):
            yield f'{name}: kind {other}', with_block(kind, block(other, BODIES[kind]))
        for length in (len(BODIES[kind]) - 1, len(BODIES[kind]) + 1, len(BODIES[kind]) + 3):
            yield f'{name}: length {length} of {len(BODIES[kind])}', with_block(kind, block(kind, BODIES[kind], length))
        yield f'{name}: left out', with_block(kind, b'')
        yield f'{name}: twice', with_block(kind, block(kind, BODIES[kind]) * 2)


def edges_of_contents():
    """types, action numbers, rule bytes, and the bytes of each form"""
    for count in (1, 2, 10):
        for at in sorted({0, count // 2, count - 1}):
            for value in (0, 1, 2, 3, 4, 128, 255):
                types = [1] * count
                types[at] = value
                yield f'type {value} at {at} of {count}', whole(types)
    for count in (1, 3, 10):
        types = [3] * count
        for number in sorted({0, count - 1, count, count + 1, 127, 128, 255}):
            yield f'action {number} of {count} in a node', whole(types, (), [(0, number, 0)])
            yield f'action {number} of {count} in the rule', whole(types, (), [SKIP], [number])
            yield f'action {number} of {count} first in a pair', whole(types, [(number, 0 if number else count - 1)])
            yield f'action {number} of {count} second in a pair', whole(types, [(0, number)])
    for byte in (0x01, 0x7F, 0x80, 0x81, 0x82, 0x83, 0x84, 0xFE, 0xFF):
        for values in range(4):
            yield f'rule byte {byte:02X} after {values} values', whole(rule=[0] * values + [byte])
            yield f'rule byte {byte:02X} after {values} values, and or', whole(rule=[0] * values + [byte, 0x82])
    for length in (1, 2, 3, 4):
        for rule in itertools.product(bytes.fromhex('00808182'), repeat=length):
            yield f'rule {bytes(rule).hex(" ")}', whole(rule=rule)
    for form in (0, 1, 2):
        for left in (0, 1, 2, 255):
            for right in (0, 1, 255):
                yield f'form {form} with {left} and {right}', whole([3, 3], (), [(form, left, right)])
    for form in (3, 4, 5, 6, 7, 8, 9, 128, 255):
        for left in range(5):
            for right in range(5):
                yield f'form {form} over {left} and {right}', whole(nodes=[SKIP, SKIP, (form, left, right)])
    for form in (3, 4, 5, 6, 7):
        yield f'form {form} over one skip, twice', whole(nodes=[SKIP, (form, 0, 0)])
        yield f'form {form} over a node and itself', whole(nodes=[SKIP, (form, 0, 1)])
        yield f'form {form} over itself and a node', whole(nodes=[SKIP, (form, 1, 0)])
        yield f'form {form} over a later node', whole(nodes=[SKIP, (form, 0, 2), SKIP, (form, 1, 2)])
        yield f'form {form} over 255', whole(nodes=[SKIP, SKIP, (form, 0, 255)])
    yield 'a later node names an earlier composite twice', whole(nodes=comb(2) + [(SEQUENCE, 2, 2)])
    yield 'a node named twice and a node not named', whole(nodes=[SKIP, SKIP, SKIP, (SEQUENCE, 0, 1), (SEQUENCE, 3, 0)])
    yield 'two trees', whole(nodes=comb(2) + comb(1) + [SKIP])
    yield 'a leaf after the tree', whole(nodes=comb(3) + [SKIP])
    yield 'a leaf before the tree', whole(nodes=over(SEQUENCE, comb(2), comb(2))[:-1] + [SKIP])
    for at in range(63):
        nodes = comb(32)
        nodes[at] = SKIP if nodes[at] != SKIP else (1, 0, 1)
        yield f'the largest tree, node {at} another', whole(nodes=nodes)


def edges_of_pairs():
    """every pair of three actions, and every two and every three pairs of three and of four"""
    for a in range(4):
        for u in range(4):
            yield f'pair {a} {u}', whole([1] * 3, [(a, u)])
    for count, most in itertools.product((2, 3), (3, 4)):
        for pairs in itertools.product(itertools.product(range(most), repeat=2), repeat=count):
            yield f'pairs {named(pairs)} of {most}', whole([1] * most, pairs)


def edges_of_undos():
    """three and four pairs with one first: each action, in plans of up to ten; in all places among seven pairs; and a fourth in each place among nineteen"""
    for actions in range(4, 11):
        for a in range(actions):
            undos = [u for u in range(actions) if u != a]
            for count in (3, 4)[:actions - 3]:
                yield f'{count} undos of {a}, {actions} actions', whole([1] * actions, [(a, u) for u in undos[:count]])
    for count in (3, 4):
        for places in itertools.combinations(range(7), count):
            firsts, undos = iter((1, 2, 3, 4)), iter((6, 7, 8, 9))
            pairs = [(0, next(undos)) if i in places else (next(firsts), 9) for i in range(7)]
            yield f'{count} pairs of 7 with one first: {named(pairs)}', whole(TEN, pairs)
    eighteen = [(a, u) for a in range(6) for u in (6, 7, 8)]
    for i in range(19):
        yield f'19 pairs, {i} is a fourth with first {i % 6}', whole(TEN, eighteen[:i] + [(i % 6, 9)] + eighteen[i:])


def pairs_replaced():
    """as many pairs as there can be, each of them replaced: by each other one, and by those that differ in one number"""
    for i, (a, u) in enumerate(TWENTY_ONE):
        before, after = TWENTY_ONE[:i], TWENTY_ONE[i + 1:]
        for pair in before + after + [(a, n) for n in (*range(7), 10, 255)] + [(n, u) for n in (7, 8, 9, 10, 255)]:
            yield f'21 pairs, {i} is {pair[0]} {pair[1]}', whole(TEN, before + [pair] + after)


def edges_of_nesting():
    """compensations below one another: in a left side they may stand as they like, in a right side one deep"""
    inner = over(COMPENSATION, [SKIP], [SKIP])
    for form in (SEQUENCE, PARALLEL, CHOICE, HANDLER):
        for depth in range(5):
            for side in ('left', 'right'):
                wrapped = inner
                for _ in range(depth):
                    wrapped = over(form, wrapped, [SKIP]) if side == 'left' else over(form, [SKIP], wrapped)
                yield f'compensation {depth} deep {side} of {form}, undone', whole(nodes=over(COMPENSATION, wrapped, [SKIP]))
                yield f'compensation {depth} deep {side} of {form}, undoing', whole(nodes=over(COMPENSATION, [SKIP], wrapped))
                yield f'compensation {depth} deep {side} of {form}, both', whole(nodes=over(COMPENSATION, wrapped, wrapped))
                yield f'compensation {depth} deep {side} of {form}, below', whole(nodes=over(form, over(COMPENSATION, [SKIP], wrapped), inner))
    for depth in (1, 2, 15, 31):
        nodes = [SKIP]
        for _ in range(depth):
            nodes = over(COMPENSATION, nodes, [SKIP])
        yield f'{depth} compensations, each the left of the next', whole(nodes=nodes)
        nodes = [SKIP]
        for _ in range(depth):
            nodes = over(COMPENSATION, [SKIP], nodes)
        yield f'{depth} compensations, each the right of the next', whole(nodes=nodes)
    # the outer of two is met far from the inner, with other compensations between them
    chain = over(COMPENSATION, [SKIP], comb(15))
    yield 'compensation below a long right side, none in it', whole(nodes=over(SEQUENCE, chain, inner))
    yield 'compensation at the end of a long right side', whole(nodes=over(COMPENSATION, inner, over(SEQUENCE, comb(14), inner)))


def edges_of_levels():
    """two levels of undos, and three: through left and right sides, through other forms, and side by side"""
    one = over(COMPENSATION, [SKIP], [SKIP])
    two = over(COMPENSATION, [SKIP], one)
    within = lambda form, side, nodes: over(form, nodes, [SKIP]) if side == 'left' else over(form, [SKIP], nodes)
    # from the innermost compensation out, each the left or the right side of the next: those to the right count
    for length in (2, 3, 4, 5):
        for sides in itertools.product(('left', 'right'), repeat=length - 1):
            nodes = one
            for side in sides:
                nodes = within(COMPENSATION, side, nodes)
            yield f'compensations, each in the next one: {" ".join(sides)}', whole(nodes=nodes)
    for left, right in itertools.product((0, 1, 2, 3), (0, 1, 2)):
        sides = [[SKIP], one, two, over(COMPENSATION, [SKIP], two)]
        yield f'a compensation over levels {left} and {right}', whole(nodes=over(COMPENSATION, sides[left], sides[right]))
    for form in (SEQUENCE, PARALLEL, CHOICE, HANDLER):
        yield f'two levels twice, form {form}', whole(nodes=over(form, two, two))
        yield f'two levels twice, form {form}, undone', whole(nodes=over(COMPENSATION, over(form, two, two), [SKIP]))
        yield f'one level twice, form {form}, undoing', whole(nodes=over(COMPENSATION, [SKIP], over(form, one, one)))
        for side in ('left', 'right'):
            deep = within(form, side, over(COMPENSATION, [SKIP], within(form, side, one)))
            yield f'two levels {side} of {form}', whole(nodes=deep)
            yield f'three levels {side} of {form}', whole(nodes=over(COMPENSATION, [SKIP], deep))
            yield f'two levels {side} of {form}, left of a compensation, undoing', whole(nodes=over(COMPENSATION, [SKIP], over(COMPENSATION, deep, [SKIP])))
            yield f'one level {side} of {form}, left of one, undoing', whole(nodes=over(COMPENSATION, [SKIP], over(COMPENSATION, within(form, side, one), [SKIP])))
    # far from one another
    for name, nodes in (('two', one), ('three', two)):
        yield f'{name} levels, a long undo between', whole(nodes=over(COMPENSATION, [SKIP], over(SEQUENCE, comb(27), nodes)))
        yield f'{name} levels, a long way to the left', whole(nodes=over(COMPENSATION, [SKIP], functools.reduce(
            lambda deep, _: over(COMPENSATION, deep, [SKIP]), range(27), nodes)))
    # with the earlier and the later checks of the nodes, and of the rule
    for name, nodes in (('two', NESTED), ('three', THIRD)):
        yield f'{name} levels, and a skip with a byte', whole(nodes=over(SEQUENCE, nodes, [(1, 0, 1)]))
        yield f'{name} levels, and before them a skip with a byte', whole(nodes=over(SEQUENCE, [(1, 0, 1)], nodes))
        yield f'{name} levels, and a node not named', whole(nodes=[SKIP] + over(SEQUENCE, [SKIP], nodes)[1:-1])
        yield f'{name} levels, and a node named twice', whole(nodes=nodes + [(SEQUENCE, len(nodes) - 1, len(nodes) - 1)])
        for rule in ('80', '00 00', '81', '83', '00 81'):
            yield f'{name} levels, rule {rule}', whole(nodes=nodes, rule=bytes.fromhex(rule))
        yield f'{name} levels, no rule', whole(nodes=nodes)[:-5]


def cuts():
    for name, file in (('P1', P1), ('the largest file', LARGEST)):
        for n in range(len(file)):
            yield f'{name}, its first {n} bytes', file[:n]
        for n in (1, 2, 3, 4, 5, 100, 1000):
            yield f'{name}, {n} zeros after it', file + bytes(n)
        yield f'{name} twice', file * 2
        yield f'{name}, a fifth block after it', file + block(5, b'\0')


# The checks in document 01's order. Of a block: heading cut, kind, length, body cut, contents; then bytes after block four.
CHECKS = [(k, c) for k in (1, 2, 3, 4) for c in ('heading', 'kind', 'length', 'body') + {1: (4,), 2: (5,), 3: (6, 7, 8), 4: (9,)}[k]] + [(5, 'trailing')]
NUMBER = {'heading': 1, 'kind': 2, 'length': 3, 'body': 1, 'trailing': 1}
# what breaks a check of contents, as bytes that are put before sound ones, so that a body may be cut after them
BROKEN = {4: b'\x04', 5: bytes([0, 0]), 9: b'\x80'}


def nodes_with(faults):
    """a node list that breaks some of the checks 6, 7, 8"""
    nodes = THIRD if 8 in faults else [SKIP]
    if 6 in faults:
        nodes = over(SEQUENCE, [(1, 1, 0)], nodes)
    return over(SEQUENCE, [SKIP], nodes)[:-1] if 7 in faults else nodes


def with_faults(faults):
    """a file that breaks these checks"""
    file = b''
    for kind in (1, 2, 3, 4):
        here = [c for k, c in faults if k == kind]
        body = b''.join(BROKEN[c] for c in here if c in BROKEN) + BODIES[kind]
        if {6, 7, 8} & set(here):
            body = flat(nodes_with(here))
        if 'length' in here:
            body += {1: b'\x01' * 11, 2: b'\0', 3: b'\x01', 4: b'\x80' * 127}[kind]
        field = kind + (1 if 'kind' in here else 0)
        if 'heading' in here:
            return file + block(field, b'', len(body))[:3]
        if 'body' in here:
            return file + block(field, body[:-1], len(body))
        file += block(field, body)
    return file + (b'\0' if (5, 'trailing') in faults else b'')


def two_faults():
    """for each check alone, and for each two that one file can break: name, number, file"""
    say = lambda k, c: f'{NAMES.get(k, "file")} {c}'
    for i, first in enumerate(CHECKS):
        yield f'fault: {say(*first)}', NUMBER.get(first[1], first[1]), with_faults([first])
        for second in CHECKS[i + 1:]:
            # a file that is cut short has nothing after the cut
            if first[1] in ('heading', 'body') and (first[0] != second[0] or first[1] == 'heading' and second[1] not in ('kind', 'length')):
                continue
            yield f'faults: {say(*first)}, {say(*second)}', NUMBER.get(first[1], first[1]), with_faults([first, second])


def session_by_hand():
    """a session with the plan that swallows a failed store, which docs/GUIDE.md shows; then lines that meet each kind of answer: entries refused,
    and no entries; the last has no newline"""
    lines = ['0 1', '1 2', '3 1', 'done', '2 1', '5 1', '7 1']
    lines += ['7 1', '', '1  2', '1 2 ', '+1 2', '01 2', '1 02', '1 256', '1', '1 2 1', '200 1', '4 1', '1 0', '1 3', '7 2']
    return '\n'.join(lines).encode()


def long_plans():
    """plans of 63 nodes, made by hand: name, file"""
    action = lambda a: [(0, a, 0)]
    undone = over(COMPENSATION, action(0), action(1))
    for form in (SEQUENCE, PARALLEL, CHOICE, COMPENSATION, HANDLER):
        nodes = action(2)
        for _ in range(31):
            nodes = over(form, nodes, action(2))
        yield f'32 actions of form {form}, the left the longer', nodes
        if form != COMPENSATION:
            nodes = action(2)
            for _ in range(31):
                nodes = over(form, action(2), nodes)
            yield f'32 actions of form {form}, the right the longer', nodes
    for form in (SEQUENCE, PARALLEL):
        nodes = undone
        for _ in range(14):
            nodes = over(form, nodes, undone)
        yield f'15 undone actions of form {form}, then a throw, handled', over(HANDLER, over(SEQUENCE, nodes, [THROW]), action(2))
        yield f'15 undone actions of form {form}, then two actions', over(SEQUENCE, over(SEQUENCE, nodes, action(2)), action(2))


def long_nested_plans():
    """plans of 63 nodes in which undos have undos: name, file"""
    action = lambda a: [(0, a, 0)]
    part = over(COMPENSATION, action(1), action(2))
    # the whole fails, and a handler goes on
    handled = lambda nodes: over(HANDLER, over(SEQUENCE, nodes, [THROW]), action(3))
    for form in (SEQUENCE, PARALLEL):
        many = lambda n, nodes: functools.reduce(lambda left, _: over(form, left, nodes), range(n - 1), nodes)
        yield f'10 nested undos of form {form}', handled(many(10, over(COMPENSATION, action(0), part)))
        yield f'an undo of 14 parts of form {form}', handled(over(COMPENSATION, action(0), over(SEQUENCE, many(14, part), [THROW])))


def session_body(rng, cells, file, most):
    """a session at random"""
    model = Model(cells, file)
    return started(file, model.told, random_entries(rng, model, most))


def nested_session_body(rng, cells, leaves, most):
    """a session at random with a plan of so many leaves in which undos have undos; one that comes to such, where one of several does"""
    for _ in range(TRIES):
        file = nested_plan(cells, rng, leaves)
        model = Model(cells, file)
        start, steps = model.told, list(random_entries(rng, model, most))
        if deepest(model.tree, model.record) == 2:
            break
    return started(file, start, steps)


def run_body(cells, file, entries):
    """a session with these entries"""
    model = Model(cells, file)
    return started(file, model.told, ((entry, None, model.answer(entry)) for entry in entries))


def runs_vectors(cells):
    """name, body: sessions with small and large plans, and jobs that are made up"""
    for name, file in list(plans_of_document()) + [(name, file) for name, file, _ in plans_of_change()] + [('restored', RESTORED)]:
        rng = random.Random(name)
        for n in range(6):
            yield f'{name}, session {n}', session_body(rng, cells, file, 30)
    refused = {'P1 without its rule': P1[:-9], 'an empty file': b'', 'two skips': whole(nodes=[SKIP, SKIP]), 'a third level': whole(nodes=THIRD)}
    for name, file in refused.items():
        yield f'{name} at the start', started(file, number_of(cells, file))
    for name, file, entries in itertools.chain(every_run(cells), every_run(cells, nested.plans), levels.plans(cells)):
        yield name, run_body(cells, file, entries)
    rng = random.Random(SEED_FEW)
    for n in range(FEW):
        yield f'plan {n} of few leaves, seed {SEED_FEW}', session_body(rng, cells, random_plan(cells, rng, rng.randrange(1, 7)), 20)
    rng = random.Random(SEED_MANY)
    for name, nodes in long_plans():
        types = [3, 3, 3]
        for n in range(3):
            yield f'{name}, session {n}', session_body(rng, cells, whole(types, (), nodes), 60)
    for n in range(MANY):
        leaves = rng.choice([8, 13, 21, 32, 32, 32])
        yield f'plan {n} of {leaves} leaves, seed {SEED_MANY}', session_body(rng, cells, random_plan(cells, rng, leaves), 60)
    rng = random.Random(SEED_NESTED_FEW)
    for n in range(NESTED_FEW):
        yield f'plan {n} of few leaves, seed {SEED_NESTED_FEW}', nested_session_body(rng, cells, rng.choice([5, 6]), 20)
    rng = random.Random(SEED_NESTED_MANY)
    for name, nodes in long_nested_plans():
        for n in range(3):
            yield f'{name}, session {n}', session_body(rng, cells, whole([1, 3, 3, 3], (), nodes), 80)
    for n in range(NESTED_MANY):
        leaves = rng.choice([8, 13, 21, 32, 32, 32])
        yield f'plan {n} of {leaves} leaves, seed {SEED_NESTED_MANY}', nested_session_body(rng, cells, leaves, 60)
    for seed, count, depth in ((SEED_MADE_UP, MADE_UP, 1), (SEED_NESTED_MADE_UP, NESTED_MADE_UP, 2)):
        rng = random.Random(seed)
        for n in range(count):
            yield from made_up(rng, cells, f'{n} of seed {seed}', depth)


def made_up(rng, cells, n, depth):
    """a real job with entries taken, where undos have undos one in an undo, and each thing that makes it a false one; what is told to it is the model's: name, body"""
    while True:
        file = random_plan(cells, rng, rng.choice([2, 3, 4, 6, 8, 32])) if depth == 1 else nested_plan(cells, rng, rng.choice([5, 6, 8, 32]))
        model = Model(cells, file)
        for _ in range(rng.randrange(1, 8)):
            good = permitted(model)
            if good:
                model.answer(rng.choice(good))
        if model.record and permitted(model) and deepest(model.tree, model.record) >= depth - 1:
            break
    entry, job = rng.choice(permitted(model)), job_of(file, model.record)
    for kind, made in itertools.chain([('as it is', job)], broken(rng, job, model.count)):
        model = real_job(cells, made)
        if (kind == 'as it is') != (model is not None):
            sys.exit(f'job {n}, {kind}: the model has {model and model.told}')
        yield f'job {n}, {kind}', made_up_job(made, [(entry, None, model.answer(entry) if model else 11), ((entry[0], 0), None, 11)])


def data_of(vectors):
    """the data file of a group: name and body of each vector"""
    out = len(vectors).to_bytes(4, 'little')
    for name, body in vectors:
        text = name.encode('ascii')
        if len(text) > NAME_ROOM:
            sys.exit(f'{name}: no room for {len(text)} bytes of name')
        out += len(text).to_bytes(4, 'little') + len(body).to_bytes(4, 'little') + text + body
    if len(out) > DATA_ROOM:
        sys.exit(f'no room for a data file of {len(out)} bytes')
    names = [name for name, _ in vectors]
    if len(set(names)) != len(names):
        sys.exit(f'a name that two vectors have: {next(n for n in names if names.count(n) > 1)}')
    return out


def of_restored(cells):
    """the office's plan of a withdrawal that is taken back, with the rule "deleted and told, or neither", which the restore keeps; and without the restore"""
    types, pairs, nodes, _ = cells.parse(RESTORED)
    both = [DELETE, TELL, 0x81, DELETE, 0x80, TELL, 0x80, 0x81, 0x82]
    yield 'restored, deleted and told or neither', whole(types, pairs, nodes, both)
    yield 'not restored, deleted and told or neither', whole(types, pairs, [SKIP if n == (0, RESTORE, 0) else n for n in nodes], both)
    yield 'restored where that may fail, deleted and told or neither', whole(types[:-1] + [3], pairs, nodes, both)


def write_programs(cells, write, of_course):
    """what the other programs read and are to write, the plans of the course, and the stored cases"""
    for name, file in of_course.items():
        write(f'crates/course/data/{name}.plan', file)
    write('crates/course/stdout', ''.join(f'{name}.plan\n' + verdict_lines(cells, file) for name, file in of_course.items()).encode())
    write('crates/inspect/stdin', P1)
    write('crates/inspect/stdout', inspect_lines(cells, P1).encode())
    lines = verdict_lines(cells, of_course['p2'])
    if lines != 'violated 2\n0 2\n1 1\n3 1\n':
        sys.exit(f'P2: the model says {lines!r}, which is not what document 01 has')
    write('crates/verdict/stdin', of_course['p2'])
    write('crates/verdict/stdout', lines.encode())
    write('crates/chart/stdout', chart_lines(cells).encode())
    write('crates/run/args', b'plan\n')
    write('crates/run/data/plan', SWALLOWED)
    write('crates/run/stdin', session_by_hand())
    write('crates/run/stdout', session_of(Model(cells, SWALLOWED), session_by_hand()).encode())
    write('crates/postfix/stdin', TYPED + b'\n')
    writes, _ = rule_lines(cells, TYPED)
    if not SWALLOWED.endswith(bytes.fromhex(writes)):
        sys.exit(f'{TYPED}: the model says {writes!r}, which is not the rule of that plan')
    write('crates/postfix/stdout', writes.encode())
    own = {f'refused-{number}': file for number, file in example_of_number().items() if number != 8}
    own |= {'fourth-undo': whole([1] * 5, [(0, u) for u in range(1, 5)]), 'largest': LARGEST, 'too-long': LARGEST + b'\0'}
    own |= {'undone-together': UNDONE_TOGETHER, 'taken-in-turns': TAKEN_IN_TURNS, 'second-level': whole(nodes=NESTED), 'all-ten': ALL_TEN}
    for name, file in own.items():
        write(f'tests/files/{name}.plan', file)
    write('crates/course/data/hall.windows', HALL)
    for name, file in WINDOWS.items():
        write(f'tests/files/{name}.windows', file)
    for name, words, reads, writes in stored_cases(cells, of_course, own):
        write(f'tests/stored/{name}/command', ''.join(word + '\n' for word in words).encode())
        if reads is not None:
            write(f'tests/stored/{name}/stdin', reads)
        write(f'tests/stored/{name}/stdout', writes)


def with_another_end(body):
    """a vector of the group `runs` whose last answer tells another end"""
    return body[:-1] + bytes([body[-1] ^ 1])


def with_another_number(body, number):
    """a vector of the group `hours` of which the first answer to an entry that is this number is another; and how many answers stand before it"""
    steps = steps_in(body)
    at = next(n for n, step in enumerate(steps) if number_in(step) == number)
    other = steps[at][:-10] + bytes([number ^ 3]) + steps[at][-9:]
    return body[:len(body) - len(b''.join(steps))] + b''.join(steps[:at] + [other] + steps[at + 1:]), at + 1


def write_differences(write, runs, hours, formulas, classes):
    """the stored case of `compare` whose vectors do not all agree, and whose data files are not all whole: a last vector is missing, a step is cut, a byte is left
    over"""
    case = 'tests/stored/compare-differs/'
    p2 = dict(plans_of_document())['P2']
    write(case + 'program', b'compare\n')
    write(case + 'data/files', data_of([('P1', bytes([0]) + P1), ('a wrong number', bytes([7]) + P1), ('no file', bytes([1])), ('another', bytes([2]) + P1)]))
    session, job = runs[0][1], next(body for name, body in runs if name.endswith('as it is'))
    answers = answers_in(session)
    some = [runs[0], ('another end', with_another_end(session)), ('of a job', with_another_end(job))]
    write(case + 'data/runs', (len(some) + 1).to_bytes(4, 'little') + data_of(some)[4:])
    timed = next((name, body) for name, body in hours if name == 'two refusals at once')
    another, before = with_another_number(timed[1], 21)
    write(case + 'data/hours', data_of([timed, ('22 for 21', another), ('22 for 21, again', another), ('a cut step', timed[1][:-1]), ('not met', timed[1])]))
    write(case + 'data/verdicts', data_of([('P2', bytes(4 + 1 + RECORD) + p2)]) + bytes(1))
    name, typed = formulas[0]
    refused = (REFUSED + 15).to_bytes(RULE_AT, 'little') + typed[RULE_AT:]
    write(case + 'data/formulas', data_of([(name, typed), ('refused', refused), ('refused, again', refused), ('a byte too short', typed[:RULE_AT + MOST_RULE - 1])]))
    one = dict(classes)['P2 alone']
    none = bytes(4) + one[4:]
    write(case + 'data/classes', data_of([('P2 alone', one), ('no place', none), ('no place, again', none), ('a byte too short', one[:HEADING + PLACE - 1])]))
    write(case + 'stdout', b'files: vector 2 (a wrong number): expected 7, found 0\nfiles: 4 vectors, 2 agree\n'
          + f'runs: vector 2 (another end): expected {answers}, found {answers - 1}\n'.encode() +
          b'runs: 3 vectors, 1 agree\nruns: the data file is damaged after these\n'
          + f'hours: vector 2 (22 for 21): expected {answers_in(timed[1])}, found {before}\n'.encode() +
          b'hours: 3 vectors, 1 agree\nhours: the data file is damaged after these\n'
          b'verdicts: vector 1 (P2): expected 0, found 65538\nverdicts: 1 vectors, 0 agree\nverdicts: the data file is damaged after these\n'
          + f'formulas: vector 2 (refused): expected {REFUSED + 15}, found {typed[0]}\n'.encode() +
          b'formulas: 3 vectors, 1 agree\nformulas: the data file is damaged after these\n'
          b'classes: vector 2 (no place): expected 0, found 1\nclasses: 3 vectors, 1 agree\nclasses: the data file is damaged after these\n')


def write_other_records(write, runs, hours, verdicts, formulas, classes):
    """the stored case of `compare` whose numbers of verdicts, of typed rules and of classes are right, and whose bytes are not"""
    case = 'tests/stored/compare-other-records/'
    vectors, lines = other_records(verdicts)
    typed, typed_lines = other_rules(formulas)
    of_class, class_lines = other_places(classes)
    write(case + 'program', b'compare\n')
    write(case + 'data/files', data_of([('P1', bytes([0]) + P1)]))
    write(case + 'data/runs', data_of(runs[:1]))
    write(case + 'data/hours', data_of(hours[:1]))
    write(case + 'data/verdicts', data_of(vectors))
    write(case + 'data/formulas', data_of(typed))
    write(case + 'data/classes', data_of(of_class))
    write(case + 'stdout', ('files: 1 vectors, 1 agree\nruns: 1 vectors, 1 agree\nhours: 1 vectors, 1 agree\n' + lines + typed_lines + class_lines).encode())


def write_course(cells, write):
    """the stored case of `course` with the largest file and one that is a byte longer; the other plans are not there"""
    case = 'tests/stored/course-largest/'
    write(case + 'program', b'course\n')
    plans = {'p1.plan': LARGEST, 'p2.plan': LARGEST + b'\0'}
    for name, file in plans.items():
        write(case + 'data/' + name, file)
    write(case + 'stdout', ''.join(f'{name}\n{verdict_lines(cells, file)}' for name, file in plans.items()).encode())


def write_rules(cells, write):
    """the stored cases of `rule`. The text of each stands whole in a file of its own, as a word of a line could not; the front door puts a newline after it"""
    for name, text in RULES.items():
        case = f'tests/stored/rule-{name}/'
        writes, tells = rule_lines(cells, text + b'\n')
        write(case + 'command', b'rule\n')
        write(case + 'text', text)
        write(case + 'stdout', writes.encode())
        if tells:
            write(case + 'stderr', tells.encode())
            write(case + 'status', b'1\n')


def told_of(vectors):
    """how many sessions a group has, how many entries of theirs get each number, and how many jobs, of which how many are real"""
    kinds = [[body for _, body in vectors if body[0] == kind] for kind in (SESSION, TIMED_SESSION, MADE_UP_JOB)]
    sessions = kinds[0] + kinds[1]
    starts = collections.Counter(body[start_of(body)] for body in sessions)
    steps = collections.Counter(number_in(step) for body in sessions for step in steps_in(body))
    # a real job takes one of the entries that are offered
    real = sum(any(number_in(step) == 0 for step in steps_in(body)) for body in kinds[2])
    listed = lambda counts: ', '.join(f'{number}: {counts[number]}' for number in sorted(counts))
    return (f'{len(vectors)} vectors, {len(data_of(vectors))} bytes; {len(kinds[0])} sessions untimed, {len(kinds[1])} timed, starts by number {listed(starts)}; '
            f'entries by number {listed(steps)}; {len(kinds[2])} jobs, {real} of them real')


def main():
    if len(sys.argv) != 2:
        sys.exit(__doc__)
    cells = model_in(sys.argv[1])
    root = os.path.dirname(os.path.dirname(os.path.abspath(__file__)))
    vectors = []

    def add(name, file, number=None):
        found = number_of(cells, file)
        if number is not None and found != number:
            sys.exit(f'{name}: the model says {found}, document 01 {number}')
        vectors.append((name, found, bytes(file)))

    for name, file in plans_of_document():
        add(name, file, 0)
    for name, file, sets in plans_of_change():
        add(name, file, 0)
        types, _, nodes, _ = cells.parse(file)
        if cells.plan_sets(cells.tree_of(nodes, types)) != sets:
            sys.exit(f'{name}: the model has other sets than {sets}')
    for name, number, file in examples_of_table():
        add(f'example of {name}', file, number)
    for part in (edges_of_lengths, edges_of_headings, edges_of_contents, edges_of_pairs, edges_of_undos, pairs_replaced, edges_of_nesting, edges_of_levels, cuts):
        for name, file in part():
            add(name, file)
    for name, number, file in two_faults():
        add(name, file, number)
    rng = random.Random(SEED_PLANS)
    for n in range(PLANS):
        add(f'plan {n} of seed {SEED_PLANS}', random_plan(cells, rng), 0)
    rng = random.Random(SEED_DAMAGED)
    for n in range(DAMAGED):
        file = random_plan(cells, rng)
        for _ in range(rng.choice([1, 1, 1, 2, 3])):
            file = damaged(rng, file)
        add(f'damaged plan {n} of seed {SEED_DAMAGED}', file)
    rng = random.Random(SEED_NESTED)
    for n in range(NESTED_PLANS):
        add(f'plan {n} of seed {SEED_NESTED}', nested_plan(cells, rng, rng.choice([3, 4, 5, 6, 8, 13, 32])), 0)
    rng = random.Random(SEED_DEEP)
    for n in range(DEEP):
        file = random_plan(cells, rng, rng.choice([3, 4, 5, 6, 8, 13]), depth=3)
        add(f'plan {n} of seed {SEED_DEEP}, up to three levels', file if n % 2 else damaged(rng, file))

    def write(path, data):
        path = os.path.join(root, path)
        os.makedirs(os.path.dirname(path), exist_ok=True)
        with open(path, 'wb') as file:
            file.write(data)

    files = data_of([(name, bytes([number]) + file) for name, number, file in vectors])
    runs = list(runs_vectors(cells))
    hours = list(hours_vectors(cells, example_of_number()))
    write('crates/compare/data/files', files)
    write('crates/compare/data/runs', data_of(runs))
    write('crates/compare/data/hours', data_of(hours))
    judged = list(plans_of_document()) + [('swallowed', SWALLOWED), ('mended', MENDED)]
    withdrawn, retried = ('withdrawn', WITHDRAWN), ('retried', RETRIED)
    with_nested = [(name, file) for name, file, _ in plans_of_change()] + [('restored', RESTORED)]
    edges = itertools.chain(edges_of_lengths(), every_set(cells), every_set_left(cells), nested.every_set_left(cells), of_restored(cells),
                            ((name, file) for name, file, _ in levels.plans(cells)))
    verdicts = list(verdict_vectors(cells, judged + [withdrawn, retried] + with_nested, edges))
    write('crates/compare/data/verdicts', data_of(verdicts))
    formulas = list(formula_vectors(cells))
    write('crates/compare/data/formulas', data_of(formulas))
    of_class = judged + [withdrawn, retried] + with_nested + [('largest', LARGEST), ('all ten', ALL_TEN), ('taken in turns', TAKEN_IN_TURNS)]
    classes = list(class_vectors(cells, dict(of_class), example_of_number(), LARGEST))
    write('crates/compare/data/classes', data_of(classes))
    groups = {'files': vectors, 'runs': runs, 'hours': hours, 'verdicts': verdicts, 'formulas': formulas, 'classes': classes}
    write('crates/compare/stdout', ''.join(f'{group}: {len(of)} vectors, {len(of)} agree\n' for group, of in groups.items()).encode())
    write_differences(write, runs, hours, formulas, classes)
    write_other_records(write, runs, hours, verdicts, formulas, classes)
    write_course(cells, write)
    write_rules(cells, write)
    # last, so that the lines of the others keep their numbers, which docs/GUIDE.md has
    course = judged + [('broken', whole([3], (), THIRD)), withdrawn, retried] + with_nested
    write_programs(cells, write, {name.lower(): file for name, file in course})
    counts = {number: sum(n == number for _, n, _ in vectors) for number in range(10)}
    print(f'files: {len(vectors)} vectors, {len(files)} bytes; of each number:', ', '.join(f'{k}: {v}' for k, v in counts.items()))
    for group, of in (('runs', runs), ('hours', hours)):
        print(f'{group}: {told_of(of)}')
    answers = [int.from_bytes(body[:4], 'little') // 65536 for _, body in verdicts]
    print(f'verdicts: {answers.count(0)} consistent, {answers.count(1)} violated, {answers.count(2)} refused')
    numbers = [int.from_bytes(body[:4], 'little') for _, body in formulas]
    refused = ', '.join(f'{n}: {numbers.count(REFUSED + n)}' for n in (14, 15))
    print(f'formulas: {len(formulas)} vectors, {len(data_of(formulas))} bytes; {sum(n < REFUSED for n in numbers)} rules, refused by number {refused}')
    print(f'classes: {len(classes)} vectors, {len(data_of(classes))} bytes;', answers_of(classes))


main()
