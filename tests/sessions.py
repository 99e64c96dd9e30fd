"""Sessions with a runner: what the model tells to entries that are offered, which jobs are real, and entries at random.

What make_vectors.py, hours.py and fuzz_run.py share. The model (plans.py says which) has the runner by one fold over the plan, for plans of any size, and by
enumeration of the runs, for small ones. Where a plan is small the two are compared. What the hours of the hall (document 02, N9) say to an entry with a minute
is written here anew: hours.py compares it with the model.
"""
import itertools
import re
import sys
from typing import NamedTuple

from plans import FEW_LEAVES, leaves_of, number_of
from windows import ANY_MINUTE, MOST_MINUTE, MOST_WINDOWS, WEEK, earliest, inside, windows_in

BYTE, MINUTE = '(0|[1-9][0-9]{0,2})', '(0|[1-9][0-9]{0,9})'
ENTRY = re.compile(f'{BYTE} {BYTE}'.encode())
TIMED_ENTRY = re.compile(f'{BYTE} {BYTE} {MINUTE}'.encode())
# the bytes of the largest plan file, and of a record: what a job has room for
MOST_FILE, MOST_RECORD = 384, 126
# up to so many entries the minutes of a record are searched for
FEW_ENTRIES = 4


class Model:
    """a job of an accepted plan: what is told, and what is let through"""
    timed = False

    def __init__(self, cells, file):
        types, _, nodes, _ = cells.parse(bytes(file))
        self.cells, self.tree, self.count = cells, cells.tree_of(nodes, types), len(nodes)
        self.kinds = cells.kinds(self.tree)
        self.record, self.minute = [], 0
        few = len(leaves_of(self.tree)) <= FEW_LEAVES
        self.runner = cells.Runner(self.tree) if few else None
        self.told = self.tell()

    def tell(self):
        """(leaves that may come next, None | 'ok' | 'fail') after the record; where a run may end nothing comes next, and elsewhere something does"""
        told = self.cells.told(self.tree, dict(self.record))
        if bool(told[0]) == bool(told[1]):
            sys.exit(f'an end and leaves that come next, or neither: {self.tree}, {self.record}, {told}')
        if self.runner and self.runner.told(tuple(self.record)) != told:
            sys.exit(f'the two models differ: {self.tree}, {self.record}')
        return told

    def takes(self, entry):
        """whether an entry may come, whatever its minute"""
        leaf, outcome = entry
        takes = leaf in self.told[0] and self.cells.permits(self.kinds[leaf], outcome)
        if self.runner and takes != (entry in self.runner.next.get(tuple(self.record), ())):
            sys.exit(f'the two models differ: {self.tree}, {self.record}, {entry}')
        return takes

    def refusal(self, entry, minute):
        """the number that an entry is refused by, or 0; its minute is None where it has none"""
        return 0 if minute is None and self.takes(entry) else 11

    def add(self, entry, minute):
        self.record.append(entry)
        self.minute = minute
        self.told = self.tell()

    def answer(self, entry, minute=None):
        """what is told to an entry, or the number that it is refused by"""
        number = self.refusal(entry, minute)
        if number:
            return number
        self.add(entry, minute or 0)
        return self.told


class Timed(Model):
    """a job of an accepted plan and a window file for it: each entry comes with a minute"""
    timed = True

    def __init__(self, cells, file, windows):
        super().__init__(cells, file)
        types, _, nodes, _ = cells.parse(bytes(file))
        of_actions = windows_in(windows, len(types))
        self.windows = {n: of_actions.get(action, ANY_MINUTE) if form == 0 else ANY_MINUTE for n, (form, action, _) in enumerate(nodes) if form < 3}

    def refusal(self, entry, minute):
        if minute is None or not self.takes(entry):
            return 11
        if minute < self.minute:
            return 21
        return 0 if inside(self.windows[entry[0]], minute) else 22

    def windows_of_record(self):
        return [self.windows[leaf] for leaf, _ in self.record]


def start_number(cells, file, windows):
    """the number that a timed start is refused by, or 0: the plan file's own, and then 23"""
    return number_of(cells, file) or (23 if windows_in(windows, len(cells.parse(bytes(file))[0])) is None else 0)


def soonest(windows, week=WEEK):
    """the least minutes that entries with these windows can have, one after the other"""
    minutes = []
    for hours in windows:
        minutes.append(earliest(hours, minutes[-1] if minutes else 0, week))
    return minutes


def came_by(windows, minute, week=WEEK):
    """whether entries with these windows can have come so that the last has this minute; without an entry it is 0"""
    if not windows:
        return minute == 0
    before = soonest(windows[:-1], week)
    return (before[-1] if before else 0) <= minute and inside(windows[-1], minute, week)


def came_by_search(windows, minute):
    """the same by search: for all entries but the last, every list of minutes in order at which a window or a week begins or ends"""
    bounds = {bound for opens, closes in windows for bound in (0, opens, closes - 1)}
    places = sorted({m for week in range(len(windows) + 1) for m in (week * WEEK + bound for bound in bounds) if m <= minute} | {minute})
    lists = itertools.combinations_with_replacement(places, len(windows) - 1)
    return any(all(map(inside, windows, (*minutes, minute))) for minutes in lists)


def check_came_by(week=4, minutes=13):
    """ends the script where the least minutes tell otherwise than all lists of minutes in order: in a week of four minutes, for all lists of up to three windows"""
    every = [(opens, closes) for closes in range(1, week + 1) for opens in range(closes)]
    for count in (1, 2, 3):
        lists = list(itertools.combinations_with_replacement(range(minutes), count))
        for windows in itertools.product(every, repeat=count):
            open_at = [{m for m in range(minutes) if inside(hours, m, week)} for hours in windows]
            found = {one[-1] for one in lists if all(m in there for m, there in zip(one, open_at))}
            if found != {m for m in range(minutes) if came_by(windows, m, week)}:
                sys.exit(f'windows {windows}, a week of {week}: the last entry can have come at {sorted(found)}, which is not what the least minutes tell')


class Job(NamedTuple):
    """a value of the type Job, real or not: the areas of its plan file, of its record and of its window file, and its numbers"""
    file: bytes
    file_len: int
    entries: bytes
    taken: int
    timed: bool = False
    windows: bytes = bytes(MOST_WINDOWS)
    windows_len: int = 0
    minute: int = 0


def job_of(file, record, windows=None, minute=0):
    """the value that a job with these bytes has; without a window file it is untimed"""
    entries = bytes(b for entry in record for b in entry)
    job = Job(bytes(file).ljust(MOST_FILE, b'\0'), len(file), entries.ljust(MOST_RECORD, b'\0'), len(record))
    return job if windows is None else job._replace(timed=True, windows=windows.ljust(MOST_WINDOWS, b'\0'), windows_len=len(windows), minute=minute)


def real_untimed(cells, job, fresh):
    """the job with its record, begun by `fresh`, where that record is one of the plan's; else None"""
    if job.file_len > MOST_FILE or job.taken > MOST_RECORD // 2 or any(job.file[job.file_len:]) or any(job.entries[2 * job.taken:]):
        return None
    file = job.file[:job.file_len]
    model = None if number_of(cells, file) else fresh(file)
    for at in range(0, 2 * job.taken, 2):
        if model is None or not model.takes(tuple(job.entries[at:at + 2])):
            return None
        model.add(tuple(job.entries[at:at + 2]), 0)
    return model


def real_timed(cells, job):
    """the timed job that the value is, or None: its untimed twin is real, its windows are a window file for the plan, and its last entry can have come by then"""
    if job.windows_len > MOST_WINDOWS or any(job.windows[job.windows_len:]):
        return None
    windows = job.windows[:job.windows_len]
    model = real_untimed(cells, job, lambda file: None if start_number(cells, file, windows) else Timed(cells, file, windows))
    if model is None:
        return None
    of_record = model.windows_of_record()
    came = came_by(of_record, job.minute)
    if 1 <= len(of_record) <= FEW_ENTRIES and came != came_by_search(of_record, job.minute):
        sys.exit(f'windows {of_record}, minute {job.minute}: the least minutes tell {came}, a search does not')
    model.minute = job.minute
    return model if came else None


def real_job(cells, job):
    """the job that the value is, where a start and entries give it; else None"""
    if job.timed:
        return real_timed(cells, job)
    return None if any(job.windows) or job.windows_len or job.minute else real_untimed(cells, job, lambda file: Model(cells, file))


def permitted(model):
    """the entries that may come"""
    return [(n, o) for n in model.told[0] for o in (1, 2) if model.cells.permits(model.kinds[n], o)]


def random_entry(rng, model):
    """one that may come, mostly; else one with another outcome, of another node, or any two bytes"""
    good, what = permitted(model), rng.random()
    if good and what < .6:
        return rng.choice(good)
    if good and what < .75:
        return rng.choice(good)[0], rng.choice([0, 1, 2, 3, 255])
    if what < .9:
        return rng.randrange(model.count), rng.choice([1, 2])
    return rng.choice([rng.randrange(256), 62, 63, 64, 128]), rng.choice([0, 1, 2, 3, rng.randrange(256)])


def random_minute(rng, model, leaf):
    """a minute for an entry of a leaf: mostly one in its window, as soon as may be or a little later; else one near a bound of the window or of the week, the last
    entry's or an earlier one; now and then any"""
    opens, closes = hours = model.windows.get(leaf, ANY_MINUTE)
    soon, what = earliest(hours, model.minute), rng.random()
    monday = model.minute - model.minute % WEEK + rng.choice([-WEEK, 0, 0, WEEK, 2 * WEEK])
    if what < .4:
        minute = soon + rng.choice([0, 0, 0, 1, rng.randrange(closes - opens)])
    elif what < .6:
        minute = monday + rng.choice([opens - 1, opens, closes - 1, closes])
    elif what < .75:
        minute = model.minute + rng.choice([-WEEK, -60, -1, -1, 0, 1])
    elif what < .85:
        minute = monday + rng.choice([-1, 0, 1])
    elif what < .98:
        minute = rng.randrange(model.minute + WEEK)
    else:
        minute = rng.choice([rng.randrange(MOST_MINUTE), MOST_MINUTE - rng.randrange(2 * WEEK), MOST_MINUTE])
    return max(0, min(minute, MOST_MINUTE))


def random_timed_entry(rng, model):
    """one that may come, more often than above, since its minute may be another reason to refuse it"""
    good = permitted(model)
    return rng.choice(good) if good and rng.randrange(2) else random_entry(rng, model)


def random_entries(rng, model, most, minute_of=lambda leaf: None):
    """entries as they are offered to the model: each with its minute, where it has one, and what is answered; a few more where nothing may come any more"""
    more = rng.randrange(1, 4)
    for _ in range(most):
        if not model.told[0]:
            more -= 1
        if more < 0:
            return
        entry = random_timed_entry(rng, model) if model.timed else random_entry(rng, model)
        minute = minute_of(entry[0])
        yield entry, minute, model.answer(entry, minute)


def told_lines(told):
    """the two lines that the program `run` writes"""
    end = {None: 'open', 'ok': 'may end succeeded', 'fail': 'may end failed'}[told[1]]
    return 'next' + ''.join(f' {n}' for n in told[0]) + '\n' + end + '\n'


def entry_of(line, timed):
    """the entry that a line is, and its minute, which is None in an untimed session; or None"""
    match = (TIMED_ENTRY if timed else ENTRY).fullmatch(line)
    leaf, outcome, *minute = (int(n) for n in match.groups()) if match else (256, 0)
    if max(leaf, outcome) > 255 or minute > [MOST_MINUTE]:
        return None
    return (leaf, outcome), minute[0] if timed else None


def said_to(model, line):
    """what the program `run` writes to a line"""
    heard = entry_of(line, model.timed)
    if heard is None:
        return 'not an entry\n'
    answer = model.answer(*heard)
    return f'refused {answer}\n' if isinstance(answer, int) else told_lines(answer)


def session_of(model, text):
    """all that the program `run` writes to a session"""
    lines = text.split(b'\n')
    lines = lines if lines[-1] else lines[:-1]
    return told_lines(model.told) + ''.join(said_to(model, line) for line in lines)
