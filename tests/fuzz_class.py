#!/usr/bin/env python3
"""Runs the built program crates/handin/out/handin on classes made at random and compares it with the model: tests/fuzz_class.py MODEL COUNT SEED

MODEL is the folder of the model (plans.py says which). The program must have been built, by `rt run` in crates/handin. It is run on files of one to eighteen plans,
refused, empty, damaged and too long ones among them, some longer than two bytes can tell, and each second time for a table; two processes at a time. All that it
writes has to be what the model says to each plan on its own, the run that is shown included; of more than sixteen files the class is refused. The script
ends with status 1 at the first class on which something differs, and prints it.
"""
import collections
import os
import random
import subprocess
import sys
import tempfile
from concurrent.futures import ThreadPoolExecutor

from classes import MOST_FILES, MOST_LENGTH, random_member
from plans import model_in
from stored import class_lines, table_lines

LEAVES = 32
# what a name of a file may have in it; in a table a tab and a newline become blanks
IN_NAMES = ['a', 'plan', '.plan', '7', ' ', '\t', '\n', '\t\n', '"', '\\n', '%s', 'ä', '-', ',']
BLANKS = str.maketrans('\t\n', '  ')


def random_files(model, rng):
    """files at random: one to eighteen, mostly few, some of them twice; one of thirty is longer than a length of two bytes can tell"""
    count = rng.choice([1, 1, 2, 2, 3, 3, 4, 5, 7, 10, 15, 16, 17, 18])
    files = [random_member(model, rng, LEAVES) for _ in range(min(count, rng.choice([1, 3, 18])))]
    files = files + [rng.choice(files) for _ in range(count - len(files))]
    longer = lambda file: file + bytes(rng.choice([384, MOST_LENGTH - len(file), MOST_LENGTH + 1 - len(file), MOST_LENGTH + 2, 200000]))
    return [longer(file) if rng.randrange(30) == 0 else file for file in files]


def random_names(rng, count):
    """as many names of files, no two of them the same, and none that could be taken for an option"""
    return [f'{n}' + ''.join(rng.choices(IN_NAMES, k=rng.choice([0, 1, 2, 5]))) for n in range(count)]


def due(model, table, names, files):
    """what is to be written: in a table too, more than sixteen are refused"""
    if table and len(files) <= MOST_FILES:
        return table_lines(model, [name.translate(BLANKS) for name in names], files)
    return class_lines(model, files)


def said(program, table, names, files):
    """what the program writes on these files, in a folder of their own, and nothing else"""
    with tempfile.TemporaryDirectory() as folder:
        for name, file in zip(names, files):
            with open(os.path.join(folder, name), 'wb') as out:
                out.write(file)
        run = subprocess.run([program] + ['--table'] * table + names, cwd=folder, stdin=subprocess.DEVNULL, capture_output=True)
    if run.returncode or run.stderr:
        return f'status {run.returncode}, {run.stderr!r}'
    return run.stdout.decode('utf-8', 'replace')


def main():
    if len(sys.argv) != 4:
        sys.exit(__doc__)
    model, count, seed = model_in(sys.argv[1]), int(sys.argv[2]), int(sys.argv[3])
    root = os.path.dirname(os.path.dirname(os.path.abspath(__file__)))
    program = os.path.join(root, 'crates', 'handin', 'out', 'handin')
    rng = random.Random(seed)
    met = collections.Counter()
    with ThreadPoolExecutor(2) as pool:
        for start in range(0, count, 200):
            classes = [(n % 2, random_files(model, rng)) for n in range(start, min(start + 200, count))]
            classes = [(table, random_names(rng, len(files)), files) for table, files in classes]
            for (table, names, files), text in zip(classes, pool.map(lambda c: said(program, *c), classes)):
                expected = due(model, table, names, files)
                if text != expected:
                    print('\n'.join(f'{name!r}: {len(file)} bytes, {bytes(file[:400]).hex(" ")}' for name, file in zip(names, files)))
                    print(f'expected {expected!r}, the program wrote {text!r}')
                    sys.exit(1)
                met['refused' if len(files) > MOST_FILES else 'tables' if table else 'lines'] += 1
                met['plans'] += len(files) if len(files) <= MOST_FILES else 0
    print(f'{count} classes of seed {seed} agree:', ', '.join(f'{k}: {v}' for k, v in sorted(met.items())))


main()
