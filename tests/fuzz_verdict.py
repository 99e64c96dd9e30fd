#!/usr/bin/env python3
"""Runs the built programs crates/verdict/out/verdict and run on random plans and compares them with the model: tests/fuzz_verdict.py MODEL COUNT SEED [one]

MODEL is the folder of the model (plans.py says which). The programs must have been built, by `rt run` in crates/verdict and crates/run. All that `verdict` writes is what the
model has, the run that is shown included: that of a small plan is found among all of its runs, that of a large one by the model's search (shown.py). Then the
run is offered line by line to the program `run`, which must take every entry and say that the run may end. The script ends with status 1 at the first
plan in which something differs, and prints it. With `one` the plans are those that read the same where an action has one undo at most, there are nine
pairs at most and no compensations are nested, and that have no parallel.
"""
import collections
import os
import random
import subprocess
import sys
import tempfile
from concurrent.futures import ThreadPoolExecutor

from plans import asked, crowded_plan, damaged, is_small, made, number_of, random_depth, random_plan
from stored import verdict_lines
from verdicts import not_just, with_rule


def random_file(cells, rng, undos):
    """a plan, two of three of them with few actions at many leaves, as it is, or with a rule that one of its own sets breaks and no other, one of the larger, so that long runs
    are shown; some damaged. Compensations are nested up to two deep, in some files up to three deep"""
    what = rng.randrange(16)
    depth = random_depth(rng, undos, 3 if what < 2 else 2)
    file = crowded_plan(cells, rng, undos, depth) if rng.randrange(3) else random_plan(cells, rng, undos=undos, depth=depth)
    if what == 0:
        return damaged(rng, file)
    if what < 8 or number_of(cells, file):
        return file
    types, _, nodes, _ = cells.parse(bytes(file))
    sets = sorted(cells.plan_sets(cells.tree_of(nodes, types)))
    return with_rule(cells, file, not_just(len(types), max(rng.choices(sets, k=3), key=int.bit_count)))


def said(command, data):
    """what the program writes, and nothing else"""
    run = subprocess.run(command, input=data, capture_output=True)
    if run.returncode or run.stderr:
        return f'status {run.returncode}, {run.stderr!r}'
    return run.stdout.decode('ascii', 'replace')


def fault_of_session(run, file, entries):
    """why the program `run` does not take the entries to an end; '' where it does"""
    with tempfile.NamedTemporaryFile() as plan:
        plan.write(file)
        plan.flush()
        lines = said([run, plan.name], b''.join(b'%d %d\n' % entry for entry in entries)).splitlines()
    if any(line.startswith(('refused', 'not', 'status')) for line in lines) or len(lines) != 2 * len(entries) + 2:
        return f'the session is {lines}'
    return '' if lines[-1].startswith('may end') else f'the session ends with {lines[-1]}'


def fault_of(cells, programs, file, text):
    """what is wrong with the text that the program wrote for the file; '' where nothing is"""
    expected = verdict_lines(cells, file)
    if text != expected:
        return f'expected {expected!r}'
    entries = [tuple(int(part) for part in line.split(' ')) for line in text.splitlines()[1:]]
    return fault_of_session(programs['run'], bytes(file), entries) if entries else ''


def has_few_runs(cells, file):
    types, _, nodes, _ = cells.parse(bytes(file))
    return is_small(cells.tree_of(nodes, types))


def main():
    cells, count, seed, undos = asked(__doc__)
    root = os.path.dirname(os.path.dirname(os.path.abspath(__file__)))
    programs = {name: os.path.join(root, 'crates', name, 'out', name) for name in ('verdict', 'run')}
    rng = random.Random(seed)
    met, entries, small = collections.Counter(), 0, 0
    with ThreadPoolExecutor(2) as pool:
        for start in range(0, count, 200):
            files = [made(cells, undos, lambda: random_file(cells, rng, undos)) for _ in range(min(200, count - start))]
            for file, text in zip(files, pool.map(lambda f: said([programs['verdict']], f), files)):
                fault = fault_of(cells, programs, file, text)
                if fault:
                    print(f'{bytes(file).hex(" ")}\nthe program wrote {text!r}: {fault}')
                    sys.exit(1)
                met[text.split(' ')[0].strip()] += 1
                entries += max(0, text.count('\n') - 1)
                small += text.startswith('violated') and has_few_runs(cells, file)
    print(f'{count} plans agree: {dict(met)}, {entries} entries shown, {small} runs held against all runs of their plans')


main()
