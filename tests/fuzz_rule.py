#!/usr/bin/env python3
"""Runs the built program crates/postfix/out/postfix on texts made at random and compares it with the model: tests/fuzz_rule.py MODEL COUNT SEED

MODEL is the folder of the model (plans.py says which). The program must have been built, by `rt run` in crates/postfix. One process is run for each text, two
at a time. What is due is the model's, and that of the reader in typed.py, which has to be the same. Before these come texts of as many bytes as the program
takes, and of more, which have to be answered at once and on a small stack. The script ends with status 1 at the first text on which something differs, and
prints it.
"""
import collections
import os
import random
import resource
import subprocess
import sys
from concurrent.futures import ThreadPoolExecutor

from plans import model_in
from stored import rule_lines
from typed import MOST_TEXT, TOKENS, damaged_rule, random_blanks, random_rule

# for a long text: seconds that the program may take, and the bytes of its stack
PATIENCE, STACK = 1, 1 << 20
# a long text by what it repeats and what it ends with, and the answer; blanks fill what is left over
LONG = {(b'not ', b'a'): 'refused 15\n', (b'a implies ', b'a'): 'refused 15\n', (b' ', b''): 'refused 14\n', (b'(', b''): 'refused 14\n'}


def said(program, given, **limits):
    """what the program writes, and what it tells on standard error"""
    try:
        run = subprocess.run([program], input=given, capture_output=True, **limits)
    except subprocess.TimeoutExpired:
        return f'no answer in {limits["timeout"]} s', ''
    if run.returncode:
        return f'status {run.returncode}', run.stderr.decode('latin-1')
    return run.stdout.decode('latin-1'), run.stderr.decode('latin-1')


def hold(given, found, due):
    """ends the script where the program has written something else than is due"""
    if found != due:
        shown = repr(given) if len(given) < 5000 else f'{given[:50]!r} and so on, {len(given)} bytes'
        sys.exit(f'expected {due!r}, found {found!r}, on\n{shown}')


def on_small_stack():
    resource.setrlimit(resource.RLIMIT_STACK, (STACK, STACK))


def check_long(cells, program):
    """long texts, up to the most bytes and more, without a newline and with some: how many there are"""
    count = 0
    for (part, end), answer in LONG.items():
        for size in (65000, MOST_TEXT, MOST_TEXT + 1, 1000000):
            text = (part * ((size - len(end)) // len(part)) + end).rjust(size)
            for newlines in (0, 1, 2):
                given = text + b'\n' * newlines
                due = rule_lines(cells, given)
                # a second newline is part of the text, which is then outside the grammar
                if size <= MOST_TEXT and newlines < 2 and due != (answer, ''):
                    sys.exit(f'expected {answer!r}, the model says {due!r}, on {part!r} in {size} bytes')
                hold(given, said(program, given, timeout=PATIENCE, preexec_fn=on_small_stack), due)
                count += 1
    return count


def random_text(rng):
    """a sound text, a damaged one, tokens in any order, or bytes; from one letter to twice as many as there is room for"""
    what, letters = rng.randrange(10), rng.choice([1, 2, 3, 4, 5, 8, 12, 20, 30, 40, 45, 80])
    if what < 4:
        return random_blanks(rng, random_rule(rng, letters))
    if what < 8:
        return damaged_rule(rng, random_rule(rng, letters))
    if what < 9:
        return random_blanks(rng, rng.choices(TOKENS, k=rng.choice([1, 2, 3, 4, 5, 6, 10, 100])))
    return bytes(rng.choice([rng.randrange(256), *b'abj  ()']) for _ in range(rng.choice([0, 1, 2, 3, 10, 100])))


def main():
    if len(sys.argv) != 4:
        sys.exit(__doc__)
    cells, count, seed = model_in(sys.argv[1]), int(sys.argv[2]), int(sys.argv[3])
    root = os.path.dirname(os.path.dirname(os.path.abspath(__file__)))
    program = os.path.join(root, 'crates', 'postfix', 'out', 'postfix')
    print(f'{check_long(cells, program)} long texts agree')
    rng = random.Random(seed)
    met = collections.Counter()
    with ThreadPoolExecutor(2) as pool:
        for start in range(0, count, 1000):
            texts = [random_text(rng) + b'\n' * rng.choice([0, 0, 0, 0, 1, 1, 1, 2]) for _ in range(min(1000, count - start))]
            for given, found in zip(texts, pool.map(lambda given: said(program, given), texts)):
                due = rule_lines(cells, given)
                hold(given, found, due)
                met[due[0].strip() if due[0].startswith('refused') else 'rules'] += 1
    print(f'{count} texts of seed {seed} agree:', ', '.join(f'{k}: {v}' for k, v in sorted(met.items())))


main()
