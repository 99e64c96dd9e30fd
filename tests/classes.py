"""The vectors of the group `classes`: plan files handed in together (document 02, N8), with the model's answer as one number and the places that it fills.

What make_vectors.py writes. A vector's body is the number expected, four bytes, the lowest first: how many places are filled, or twice 65,536 and the
number that refuses the whole call; a byte that is odd where the work area is a byte too short; the length of the answer area, two bytes; as many bytes,
those of an answer area that was lent full of the byte 170, as it is after the call; and the input of the call.
"""
import collections
import functools
import itertools
import random
import sys

from plans import crowded_plan, damaged, nested_plan, number_of, random_plan
from shown import record_of, shown_run
from verdicts import REFUSED, VIOLATED, broken_by_one, code_of

SEED_CLASSES, CLASSES = 20095, 240
WORK, PLACE, MOST_FILES = 65536, 130, 16
# what the answer area of a vector is full of, and the most bytes that it has
LENT, MOST_LENT = 170, 17 * PLACE
# where its length stands in a body, and the bytes expected in it
ROOM_AT, HEADING = 5, 7
# the longest file that a length of two bytes can tell
MOST_LENGTH = 65535
# the first byte of a place
CONSISTENT_PLACE, VIOLATED_PLACE, REFUSED_PLACE = range(3)
# the answers that refuse a whole call
NO_WORK, NO_CLASS, NO_ROOM = (REFUSED + number for number in (10, 19, 20))


def handed(files):
    """the input that holds these files: each after its length"""
    return b''.join(len(file).to_bytes(2, 'little') + bytes(file) for file in files)


def files_in(given):
    """the files that an input holds, one after the other; None where a length or a file is cut"""
    files = []
    while given:
        length, rest = int.from_bytes(given[:2], 'little'), given[2:]
        if len(given) < 2 or len(rest) < length:
            return None
        files.append(rest[:length])
        given = rest[length:]
    return files


@functools.lru_cache(maxsize=None)
def place_of(model, file):
    """the place of a file: its verdict, the set or the number, how many entries are shown, and the record area"""
    code = code_of(model, file)
    if code < VIOLATED:
        kind, number, run = CONSISTENT_PLACE, 0, ()
    elif code < REFUSED:
        kind, number = VIOLATED_PLACE, code - VIOLATED
        run = shown_run(model, file, number)
    else:
        kind, number, run = REFUSED_PLACE, code - REFUSED, ()
    return bytes([kind]) + number.to_bytes(2, 'little') + bytes([len(run)]) + record_of(run)


def fault_of(given, work, room):
    """the answer that refuses a call with a work area and an answer area of so many bytes; None where it is not refused"""
    files = files_in(given)
    if work < WORK:
        return NO_WORK
    if files is None or len(files) > MOST_FILES:
        return NO_CLASS
    return NO_ROOM if room < PLACE * len(files) else None


def answered(model, given, work, answers):
    """the answer to a call, as one number, and the bytes of the answer area after it. `work` is the length of the work area"""
    fault = fault_of(given, work, len(answers))
    if fault:
        return fault, answers
    files = files_in(given)
    places = b''.join(place_of(model, bytes(file)) for file in files)
    return len(files), places + answers[len(places):]


def body_of(model, given, room, short):
    code, after = answered(model, given, WORK - short % 2, bytes([LENT]) * room)
    return code.to_bytes(4, 'little') + bytes([short]) + room.to_bytes(2, 'little') + after + given


# What is made below is name, input, length of the answer area, a byte that is odd where the work area is short, and the answer that the request's words
# have, where it is plain without a model.


def just(name, files, more=0, answer=None):
    """a call with room for just these files, and so many bytes more"""
    files = list(files)
    return name, handed(files), PLACE * len(files) + more, 0, len(files) if answer is None else answer


def of_none():
    for room in (0, 1, PLACE - 1, PLACE, PLACE + 1, PLACE * MOST_FILES, MOST_LENT):
        yield f'no file, {room} bytes', b'', room, 0, 0
    yield 'no file, work area short', b'', PLACE, 1, NO_WORK


def of_one(plans, refused):
    for name, file in plans.items():
        yield just(f'{name} alone', [file])
    for number, file in refused.items():
        yield just(f'refused {number} alone', [file], 1)
    for more in (-PLACE, 1 - PLACE, -1, 1, PLACE):
        yield just(f'P2 alone, {more} bytes more than a place', [plans['P2']], more, NO_ROOM if more < 0 else 1)


def of_refused(plans, refused):
    """a refused plan does not stop the next"""
    for number, file in refused.items():
        yield just(f'refused {number} between P2 and P1', [plans['P2'], file, plans['P1']])
        yield just(f'P2 between two that are refused {number}', [file, plans['P2'], file], 9)
    yield just('all numbers', refused.values(), 1)
    yield just('all numbers, each before P2', itertools.islice((f for file in refused.values() for f in (file, plans['P2'])), MOST_FILES))


def of_lengths(plans, largest):
    """empty files, and files longer than any plan"""
    p1, p2 = plans['P1'], plans['P2']
    for files in ([b''], [b'', p2], [p2, b''], [p2, b'', p1], [b''] * 3, [b''] * MOST_FILES):
        yield just(f'{files.count(b"")} empty files of {len(files)}, {"first" if not files[0] else "later"}', files, 5)
    yield just('17 empty files', [b''] * 17, 0, NO_CLASS)
    for name, file in (('the largest plan', largest), ('the largest plan and a byte', largest + b'\0'), ('P1 and 1000 bytes', p1 + bytes(1000)), ('512 zeros', bytes(512))):
        yield just(f'{name} before P2', [file, p2])
        yield just(f'P2 before {name}', [p2, file])
    for length in (254, 255, 256, 257, 258, 511, 513):
        file = (p2 * 20)[:length]
        yield just(f'a file of {length} bytes, then P2', [file, p2])
        yield f'a file of {length} bytes, of which the last is not there', handed([p2, file])[:-1], 2 * PLACE, 0, NO_CLASS
    yield just('a file of 65535 bytes, then P2', [bytes(MOST_LENGTH), p2], 1)
    yield 'a length of 65535, and 256 bytes', b'\xff\xff' + bytes(256), PLACE, 0, NO_CLASS
    yield 'a length of 65280, in its high byte', b'\x00\xff' + bytes(256), PLACE, 0, NO_CLASS
    yield 'a length of 255, in its low byte', b'\xff\x00' + bytes(255), PLACE, 0, 1


def of_many(plans, refused):
    """fifteen, sixteen, seventeen; a seventeenth that is whole or cut"""
    kinds = {'P1': [plans['P1']], 'P2': [plans['P2']], 'P2, empty': [plans['P2'], b''], 'P2, P1, refused 4, P7': [plans['P2'], plans['P1'], refused[4], plans['P7']]}
    for name, files in kinds.items():
        for count in (15, 16, 17):
            those = list(itertools.islice(itertools.cycle(files), count))
            yield just(f'{count} of {name}', those, 0, count if count <= MOST_FILES else NO_CLASS)
    sixteen = [plans['P2'], refused[5]] * 8
    for more in (-PLACE, -1, 1, PLACE):
        yield just(f'16 plans, {more} bytes more than their places', sixteen, more, NO_ROOM if more < 0 else 16)
    last = handed([plans['P7']])
    for name, after in (('a byte', last[:1]), ('its length', last[:2]), ('half of it', last[:len(last) // 2]), ('all but a byte', last[:-1]), ('all', last), ('an empty file', bytes(2))):
        for room in (0, 16 * PLACE, 17 * PLACE):
            yield f'a seventeenth, {name}, {room} bytes', handed(sixteen) + after, room, 0, NO_CLASS


def of_cuts(plans):
    """every cut of a small class, and bytes after it"""
    files = [plans['P7'], bytes.fromhex('01 00 01 00 04'), b'', bytes(2)]
    given = handed(files)
    ends = {len(handed(files[:n])): n for n in range(len(files) + 1)}
    for at in range(len(given) + 1):
        whole = ends.get(at)
        yield f'the first {at} bytes of a class of four', given[:at], PLACE * len(files), 0, NO_CLASS if whole is None else whole
        yield f'the first {at} bytes of a class of four, no room', given[:at], 0, 0, NO_CLASS if whole is None else NO_ROOM if whole else 0
    for more in (b'\0', b'\1', b'\xff', b'\1\0', b'\0\1', b'\0\0\0', b'\2\0\1'):
        yield f'a class of four, and {more.hex(" ")}', given + more, PLACE * 5, 0, NO_CLASS


def of_rooms(plans, refused):
    """answer areas about as long as the places of one, two, three and more files"""
    files = [refused[9], plans['P2'], plans['P1'], plans['Q3'], plans['P7']]
    for count in (1, 2, 3, 5):
        for room in sorted({0, 1, PLACE * (count - 1), PLACE * count - 1, PLACE * count, PLACE * count + 1, PLACE * (count + 1) - 1, PLACE * (count + 1)}):
            yield f'{count} files, {room} bytes', handed(files[:count]), room, 0, NO_ROOM if room < PLACE * count else count


def of_work(plans):
    """a work area that is short, together with every other fault: 10, then 19, then 20"""
    p2 = plans['P2']
    faults = {'nothing else': (handed([p2]), PLACE), 'a cut length': (handed([p2]) + b'\0', PLACE), 'a cut file': (handed([p2])[:-1], PLACE), 'one byte': (b'\7', PLACE),
              '17 files': (handed([p2] * 17), 17 * PLACE), 'no room': (handed([p2]), PLACE - 1), 'a cut file, no room': (handed([p2])[:-1], 0),
              '17 files, no room': (handed([p2] * 17), 0), 'a refused file': (handed([b'']), PLACE), 'a refused file, no room': (handed([b'']), 0)}
    due = {'nothing else': 1, 'a refused file': 1, 'no room': NO_ROOM, 'a refused file, no room': NO_ROOM}
    for name, (given, room) in faults.items():
        for short in (0, 1, 2, 255):
            yield f'work area {short} and {name}', given, room, short, NO_WORK if short % 2 else due.get(name, NO_CLASS)


def of_orders(plans, refused, largest):
    """a place after another one, of a longer run, a shorter one or none; and the same plans in another order"""
    runs = {'largest': largest, 'P2': plans['P2'], 'P1': plans['P1'], 'refused 6': refused[6], 'all ten': plans['all ten']}
    for (first, a), (second, b) in itertools.permutations(runs.items(), 2):
        yield just(f'{first}, then {second}', [a, b], 3)
    some = {'P2': plans['P2'], 'P1': plans['P1'], 'refused 4': refused[4], 'Q2': plans['Q2']}
    for order in itertools.permutations(some):
        yield just('in order: ' + ', '.join(order), [some[name] for name in order])
    all_of = [*plans.values(), *refused.values()]
    for start in (0, 5, 11):
        yield just(f'16 of all, from {start}', (all_of * 2)[start:start + MOST_FILES])
        yield just(f'16 of all, from {start}, backwards', (all_of * 2)[start:start + MOST_FILES][::-1])
    yield just('P2 three times', [plans['P2']] * 3)


def random_member(model, rng, most=13):
    """a file at random: a plan, as it is or with a rule that one of its sets breaks and no other, damaged, empty, longer than a plan, or any bytes"""
    what = rng.randrange(20)
    if what < 1:
        return b''
    if what < 2:
        return bytes(rng.randrange(256) for _ in range(rng.choice([1, 2, 3, 4, 5, 30])))
    leaves = rng.choice([n for n in (1, 2, 3, 3, 5, 5, 8, 13, 21, 32) if n <= most])
    file = nested_plan(model, rng, max(leaves, 3)) if what < 5 else crowded_plan(model, rng) if what < 7 and most > 13 else random_plan(model, rng, leaves)
    if what < 11:
        return broken_by_one(model, rng, file)
    if what < 15:
        return damaged(rng, file)
    return file + bytes(rng.choice([1, 2, 300])) if what < 16 else file


def random_class(model, rng, most=13):
    """files at random, up to seventeen, some of them twice"""
    count = rng.choice([0, 1, 1, 2, 2, 2, 3, 3, 3, 4, 4, 5, 6, 8, 11, 15, 16, 17])
    files = [random_member(model, rng, most) for _ in range(min(count, rng.choice([1, 2, 4, 17])))]
    return files + [rng.choice(files) for _ in range(count - len(files))]


def random_input(rng, files):
    """the input that holds these files; one of five is damaged"""
    given = handed(files)
    what = rng.randrange(20)
    if what < 2:
        return given[:rng.randrange(len(given) + 1)]
    if what < 3:
        return given + bytes(rng.randrange(3) for _ in range(rng.choice([1, 1, 2, 3])))
    return damaged(rng, given) if what < 4 else given


def random_room(rng, count, most=MOST_LENT):
    """the length of an answer area for so many files: mostly that of their places, or a little more or less"""
    room = PLACE * count + rng.choice([0, 0, 0, 0, 0, 1, 7, PLACE, -1, -1, -PLACE, rng.randrange(-PLACE, 2 * PLACE)])
    return min(max(room, 0), most)


def at_random(model):
    rng = random.Random(SEED_CLASSES)
    for n in range(CLASSES):
        files = random_class(model, rng)
        given = random_input(rng, files)
        yield f'class {n} of seed {SEED_CLASSES}', given, random_room(rng, len(files)), rng.choice([0] * 15 + [1, 2, 3]), None


def class_vectors(model, plans, refused, largest):
    """name and body of each vector; `plans` has the plans of the documents by their names, `refused` a file for each number"""
    for number, file in refused.items():
        if number_of(model, file) != number:
            sys.exit(f'refused {number}: the model says {number_of(model, file)}')
    parts = (of_none(), of_one(plans, refused), of_refused(plans, refused), of_lengths(plans, largest), of_many(plans, refused), of_cuts(plans), of_rooms(plans, refused),
             of_work(plans), of_orders(plans, refused, largest), at_random(model))
    for name, given, room, short, due in itertools.chain(*parts):
        body = body_of(model, given, room, short)
        code = int.from_bytes(body[:4], 'little')
        if due not in (None, code):
            sys.exit(f'{name}: the model says {code}, document 02 {due}')
        yield name, body


def answers_of(vectors):
    """how many calls fill places, how many of these there are of each verdict, and how many calls are refused by each number"""
    codes = [int.from_bytes(body[:4], 'little') for _, body in vectors]
    filled = [(code, body[HEADING:]) for code, (_, body) in zip(codes, vectors) if code <= MOST_FILES]
    kinds = collections.Counter(area[PLACE * i] for code, area in filled for i in range(code))
    refused = collections.Counter(code - REFUSED for code in codes if code > REFUSED)
    return (f'{len(filled)} calls fill {kinds.total()} places, {kinds[CONSISTENT_PLACE]} consistent, {kinds[VIOLATED_PLACE]} violated, {kinds[REFUSED_PLACE]} refused; '
            f'calls refused by number {", ".join(f"{n}: {refused[n]}" for n in sorted(refused))}')
