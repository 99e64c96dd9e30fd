#!/usr/bin/env python3
"""Calls the C function vodjimar_class on classes made at random and compares it with the model: tests/fuzz_class_call.py MODEL COUNT SEED

MODEL is the folder of the model (plans.py says which). The library must have been built, by `rt lib` in crates/ffi; gcc makes a shared object of it. The two lent
areas are of any length and full of any bytes, and each stands before a margin: the answer, every byte of both areas and of the margins, and those of the input have
to be what the model has (classes.py). The script ends with status 1 at the first call on which something differs, and prints it.
"""
import collections
import ctypes
import os
import random
import subprocess
import sys
import tempfile

from classes import MOST_FILES, WORK, answered, handed, random_class, random_input, random_room
from plans import model_in
from verdicts import REFUSED

MARGIN = 64
# leaves of the largest plans, and so many bytes that no answer area is cut
LEAVES, ROOM = 32, 1 << 16


def linked(root, folder):
    """the function, from a shared object in the folder"""
    path = os.path.join(folder, 'class.so')
    archive = os.path.join(root, 'crates', 'ffi', 'out', 'libffi.a')
    subprocess.run(['gcc', '-shared', '-o', path, '-Wl,--whole-archive', archive, '-Wl,--no-whole-archive'], check=True)
    function = ctypes.CDLL(path).vodjimar_class
    function.restype = ctypes.c_uint32
    function.argtypes = [ctypes.c_void_p, ctypes.c_size_t] * 3
    return function


def called(function, given, work, answers):
    """the answer, and the three areas after the call, each with its margin"""
    areas = [(area, ctypes.create_string_buffer(area + margin, len(area) + MARGIN)) for area, margin in (given, work, answers)]
    code = function(*(part for area, lent in areas for part in (lent, len(area))))
    return code, *(lent.raw for _, lent in areas)


def random_call(model, rng):
    """input, work area and answer area of a call, each with a margin of bytes at random behind it. One work area of eight is short, by a byte or by more"""
    files = random_class(model, rng, LEAVES)
    given = random_input(rng, files)
    work = WORK + rng.choice([0] * 8 + [1, 5, 700] * 2 + [-1, -rng.randrange(1, WORK + 1)])
    room = rng.choice([random_room(rng, len(files), ROOM)] * 9 + [0])
    return [(area, rng.randbytes(MARGIN)) for area in (given, rng.randbytes(work), rng.randbytes(room))]


def due(model, given, work, answers):
    """what the call must answer, and leave in the three areas and their margins"""
    code, after = answered(model, given[0], len(work[0]), answers[0])
    cleared = bytes(WORK) + work[0][WORK:] if code < REFUSED else work[0]
    return code, given[0] + given[1], cleared + work[1], after + answers[1]


def main():
    if len(sys.argv) != 4:
        sys.exit(__doc__)
    model, count, seed = model_in(sys.argv[1]), int(sys.argv[2]), int(sys.argv[3])
    root = os.path.dirname(os.path.dirname(os.path.abspath(__file__)))
    rng = random.Random(seed)
    met = collections.Counter()
    with tempfile.TemporaryDirectory() as folder:
        function = linked(root, folder)
        # more files than sixteen in one call, however many, and files longer than any plan
        calls = [[(handed([b''] * n), bytes(MARGIN)), (bytes(WORK), bytes(MARGIN)), (rng.randbytes(ROOM), bytes(MARGIN))] for n in (0, 1, 15, 16, 17, 18, 255, 256, 32768)]
        calls += [[(handed([bytes(65535)] * n), bytes(MARGIN)), (rng.randbytes(WORK), bytes(MARGIN)), (rng.randbytes(ROOM), bytes(MARGIN))] for n in (1, 16, 17)]
        for n in range(len(calls) + count):
            call = calls[n] if n < len(calls) else random_call(model, rng)
            expected, found = due(model, *call), called(function, *call)
            for what, one, other in zip(('answer', 'input', 'work area', 'answer area'), expected, found):
                if one != other:
                    at = '' if what == 'answer' else f' at byte {next(i for i, (x, y) in enumerate(zip(one, other)) if x != y)}'
                    print(f'input {call[0][0].hex(" ")}\nwork area of {len(call[1][0])} bytes, answer area of {len(call[2][0])}: the {what} differs{at}, answers {expected[0]} and {found[0]}')
                    sys.exit(1)
            met['filled' if expected[0] <= MOST_FILES else f'refused {expected[0] - REFUSED}'] += 1
    print(f'{sum(met.values())} calls of seed {seed} agree:', ', '.join(f'{k}: {v}' for k, v in sorted(met.items())))


main()
