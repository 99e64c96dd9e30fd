#!/usr/bin/env python3
"""Runs the built program crates/run/out/run on random plans and sessions and compares it with the model: tests/fuzz_run.py MODEL COUNT SEED [one]

MODEL is the folder of the model (plans.py says which). The program must have been built, by `rt run` in crates/run. One process is run for each session.
About half of all sessions have a window file, one of ten of these a broken one. Every other session goes line by line, each line sent once the answer to
the one before it is there; the others come in pieces that end anywhere. About half of all sessions are brought to an end after their lines, in at most as
many entries as the plan has leaves that the record does not name; those with a window file only where there are minutes left for that.
The script ends with status 1 at the first session in which the two differ, or in which the model comes to no end, or tells an end and a leaf that
comes next, or neither; and prints it. With `one` the plans are those that read the same where an action has one undo at most, there are nine pairs at
most and no compensations are nested, and that have no parallel; and no session has a window file.
"""
import os
import random
import select
import subprocess
import sys
import tempfile
import time

from plans import asked, damaged, made, number_of, random_depth, random_plan
from sessions import Model, Timed, leaves_of, permitted, random_entry, random_minute, random_timed_entry, said_to, start_number, told_lines
from windows import MOST_MINUTE, damaged_windows, earliest, random_windows

# seconds that the program may take for an answer
PATIENCE = 20


def line_of(entry, minute=None):
    return b' '.join(b'%d' % n for n in (*entry, *([] if minute is None else [minute])))


def sound_line(rng, model):
    """a line that is an entry, of the kind that the session has"""
    if not model.timed:
        return line_of(random_entry(rng, model))
    entry = random_timed_entry(rng, model)
    return line_of(entry, random_minute(rng, model, entry[0]))


def nearly_a_minute(rng, line):
    """a line of three numbers with something amiss in its minute: with a sign, with a zero before it, too large, with blanks, not there, or one of two"""
    entry, minute = line[:line.rindex(b' ')], line[line.rindex(b' ') + 1:]
    return entry + rng.choice([b'', b' ', b'  ' + minute, b' ' + minute + b' ', b' +' + minute, b' -' + minute, b' 0' + minute, b' 00', b' x', b'\t' + minute,
                               b' ' + minute + b' 0', b' ' + minute + b' ' + minute, b' 4294967296', b' 4294967295', b' 42949672950', b' 10000000000',
                               b' 18446744073709551616', b' 1' + b'0' * 5000, b' ' + b'9' * 20])


def random_line(rng, model):
    """an entry, mostly; else bytes that are none, many of them almost one"""
    line = sound_line(rng, model)
    what = rng.randrange(12)
    if what == 0:
        at = rng.randrange(len(line) + 1)
        return line[:at] + rng.choice([b' ', b'0', b'-', b'+', b'\r', b'\t', b'\0', b'.', b'/', b':', b'9', b'\xff']) + line[at:]
    if what == 1:
        return rng.choice([b'', b' ', line + b' ', b' ' + line, b'0' + line, line[:-1], line[1:], line * 2, line + b'\r', line + b' 0', b'256 1', b'1 256',
                           b'256 1 0', b'1 256 0', b'4294967296 1', b'0 18446744073709551617', b'x' * rng.choice([1, 7, 8, 4095, 4096, 9000]), b'0 ' + b'1' * 5000])
    if what == 2:
        # in an untimed session a line of three numbers
        return nearly_a_minute(rng, line) if model.timed else line + b' %d' % rng.choice([0, 1, 600, MOST_MINUTE])
    return line


def next_line(rng, model):
    """an entry that may come, at the first minute at which it may where the session has minutes; None where there is no such minute"""
    entry = rng.choice(permitted(model))
    minute = earliest(model.windows[entry[0]], model.minute) if model.timed else None
    return None if model.timed and minute > MOST_MINUTE else line_of(entry, minute)


def lines_of(rng, model, count, to_an_end):
    """so many lines at random, and then entries that may come, until the run may end; the model hears each before the next is asked for"""
    for _ in range(count):
        yield random_line(rng, model)
    unused = len(leaves_of(model.tree)) - len(model.record)
    while to_an_end and model.told[1] is None:
        if unused == 0 or not permitted(model):
            sys.exit(f'no end in sight: {model.tree}, {model.record}')
        unused -= 1
        line = next_line(rng, model)
        if line is None:
            return
        yield line


class Program:
    """the program in front of a plan, and of a window file where there is one, as a person meets it"""

    def __init__(self, path, files):
        self.process = subprocess.Popen([path, *files], stdin=subprocess.PIPE, stdout=subprocess.PIPE, stderr=subprocess.PIPE)

    def hears(self, data):
        self.process.stdin.write(data)
        self.process.stdin.flush()

    def says(self, length):
        """the next bytes that it writes, as many as are expected, or fewer where no more come"""
        got, until = b'', time.time() + PATIENCE
        while len(got) < length and time.time() < until:
            if select.select([self.process.stdout], [], [], until - time.time())[0]:
                more = os.read(self.process.stdout.fileno(), length - len(got))
                if not more:
                    break
                got += more
        return got.decode('ascii', 'replace')

    def ends(self):
        """what is left of what it writes, once its input has ended; and its errors"""
        self.process.stdin.close()
        rest, errors = self.process.stdout.read(), self.process.stderr.read()
        return rest.decode('ascii', 'replace'), errors, self.process.wait()


def random_file(cells, rng, undos):
    """a plan, its compensations nested up to two deep; one of twenty damaged, or nested up to three deep"""
    what, leaves = rng.randrange(40), rng.choice([1, 2, 3, 4, 5, 6, 8, 13, 21, 32, 32])
    file = random_plan(cells, rng, leaves, undos, random_depth(rng, undos, 3 if what == 0 else 2))
    return damaged(rng, file) if what == 1 else file


def random_window_file(cells, rng, file):
    """a window file for the plan, one of ten broken; where the plan file is refused, one for ten actions"""
    actions = 10 if number_of(cells, file) else len(cells.parse(file)[0])
    windows = random_windows(rng, actions)
    return damaged_windows(rng, windows, actions) if rng.randrange(10) == 0 else windows


def session(path, cells, rng, folder, undos):
    """one session: whether it has a window file, how many lines of input, and these with the answers expected, where they differ from what is found"""
    file = made(cells, undos, lambda: random_file(cells, rng, undos))
    windows = random_window_file(cells, rng, file) if undos > 1 and rng.randrange(2) else None
    timed = windows is not None
    told = f'plan {file.hex(" ")}\n' + (f'windows {windows.hex(" ")}\n' if timed else '')
    paths = []
    for name, data in (('plan', file), ('windows', windows))[:1 + timed]:
        paths.append(os.path.join(folder, name))
        with open(paths[-1], 'wb') as out:
            out.write(data)
    number = start_number(cells, file, windows) if timed else number_of(cells, file)
    program = Program(path, paths)
    if number:
        found, expected = program.ends(), (f'refused {number}\n', b'', 0)
        return timed, 0, None if found == expected else f'{told}expected {expected}, found {found}'
    model = Timed(cells, file, windows) if timed else Model(cells, file)
    step_by_step = rng.randrange(2) == 0
    count, last = rng.randrange(0, 40), rng.choice([b'', b'\n'])
    expected, found, text, heard = told_lines(model.told), '', b'', 0
    if step_by_step:
        found = program.says(len(expected))
    for n, line in enumerate(lines_of(rng, model, count, last == b'\n')):
        end = last if n == count - 1 else b'\n'
        answer = said_to(model, line) if line or end else ''
        expected += answer
        text += line + end
        heard += 1
        if step_by_step and found + answer == expected:
            program.hears(line + end)
            found += program.says(len(answer)) if end else ''
    if not step_by_step:
        at = 0
        while at < len(text):
            size = rng.choice([1, 2, 3, 5, 17, 4096, 10000])
            program.hears(text[at:at + size])
            at += size
    rest, errors, status = program.ends()
    found += rest
    if found == expected and not errors and not status:
        return timed, heard, None
    return timed, heard, f'{told}input {text!r}\nexpected {expected!r}\nfound {found!r}\nerrors {errors!r}, status {status}'


def main():
    cells, count, seed, undos = asked(__doc__)
    root = os.path.dirname(os.path.dirname(os.path.abspath(__file__)))
    path = os.path.join(root, 'crates', 'run', 'out', 'run')
    rng, sessions, lines = random.Random(seed), [0, 0], [0, 0]
    with tempfile.TemporaryDirectory() as folder:
        for _ in range(count):
            timed, more, fault = session(path, cells, rng, folder, undos)
            if fault:
                sys.exit(fault)
            sessions[timed] += 1
            lines[timed] += more
    print(f'{count} sessions of seed {seed} agree: {sessions[0]} untimed with {lines[0]} lines, {sessions[1]} timed with {lines[1]} lines')


main()
