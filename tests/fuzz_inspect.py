#!/usr/bin/env python3
"""Runs the built program crates/inspect/out/inspect on random and damaged files and compares it with the model: tests/fuzz_inspect.py MODEL COUNT SEED [one]

MODEL is the folder of the model (plans.py says which). The program must have been built, by `rt run` in crates/inspect. One process is run for each
file, two at a time. Compensations are nested one, two and three deep, of which three is too deep. The script ends with status 1 at the first file on which
the two differ, and prints it. With `one` the files are those that read the same where an action has one undo at most, there are nine pairs at most and no
compensations are nested, and that are no plans with a parallel.
"""
import os
import random
import subprocess
import sys
from concurrent.futures import ThreadPoolExecutor

from plans import asked, damaged, made, number_of, random_blocks, random_depth, random_plan


def random_file(model, rng, undos):
    """bytes, a plan, or a plan with a body made at random; the latter two as they are, or damaged up to three times"""
    what = rng.randrange(20)
    if what == 0:
        return bytes(rng.choice([0, 1, 2, 3, 4, rng.randrange(256)]) for _ in range(rng.randrange(0, 80)))
    file = random_blocks(model, rng, undos) if what < 10 else random_plan(model, rng, undos=undos, depth=random_depth(rng, undos, 3))
    for _ in range(rng.choice([0, 0, 0, 1] if what < 10 else [0, 1, 1, 2, 3])):
        file = damaged(rng, file)
    # some as long as a pipe does not give in one piece, and past what the program reads
    return file + bytes(rng.choice([400, 70000])) if what == 19 and rng.random() < .1 else file


def said(program, file):
    """what the program writes, and nothing else"""
    run = subprocess.run([program], input=file, capture_output=True)
    if run.returncode or run.stderr:
        return f'status {run.returncode}, {run.stderr!r}'
    return run.stdout.decode('ascii', 'replace')


def main():
    model, count, seed, undos = asked(__doc__)
    root = os.path.dirname(os.path.dirname(os.path.abspath(__file__)))
    program = os.path.join(root, 'crates', 'inspect', 'out', 'inspect')
    rng = random.Random(seed)
    met = [0] * 10
    with ThreadPoolExecutor(2) as pool:
        for start in range(0, count, 1000):
            files = [made(model, undos, lambda: random_file(model, rng, undos)) for _ in range(min(1000, count - start))]
            for file, line in zip(files, pool.map(lambda f: said(program, f), files)):
                number = number_of(model, file)
                expected = f'refused {number}\n' if number else 'accepted\n'
                if line != expected:
                    sys.exit(f'expected {expected!r}, found {line!r}, on the file\n{file.hex(" ")}')
                met[number] += 1
    print(f'{count} files of seed {seed} agree; of each number:', ', '.join(f'{k}: {v}' for k, v in enumerate(met)))


main()
