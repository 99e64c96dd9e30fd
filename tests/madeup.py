"""Values of the type Job that are made up: real ones, and what makes a job one that no start and no entries give.

What make_vectors.py and hours.py write to the groups `runs` and `hours`.
"""
from sessions import MOST_FILE, job_of, soonest
from windows import MOST_MINUTE, MOST_WINDOWS, WEEK, window


def with_byte(rng, area, at):
    """the area with another byte, which is not 0, in the place of one that is"""
    return area[:at] + bytes([rng.randrange(1, 256)]) + area[at + 1:]


def broken(rng, job, count):
    """each thing that makes a real job of a plan of so many nodes a false one by its plan file or its record: what it is, and the job"""
    file, size, taken = job.file[:job.file_len], job.file_len, job.taken
    record = job.entries[:2 * taken]
    of_file = lambda file: job._replace(file=file.ljust(MOST_FILE, b'\0'))
    of_record = lambda record, more=0: job._replace(entries=record.ljust(len(job.entries), b'\0'), taken=taken + more)
    for length in (0, size - 1, MOST_FILE + 1, 2 ** 32 + size, 2 ** 64 - 1):
        yield f'plan length {length}', job._replace(file_len=length)
    if size < MOST_FILE:
        yield 'plan length one more', job._replace(file_len=size + 1)
        yield 'a byte past the plan', job._replace(file=with_byte(rng, job.file, size))
        yield 'the last byte past the plan', job._replace(file=with_byte(rng, job.file, MOST_FILE - 1))
    for number in (taken - 1, taken + 1, 63, 64, 2 ** 63 + taken, 2 ** 64 - 1):
        yield f'{number} entries', job._replace(taken=number)
    yield 'a byte past the record', job._replace(entries=with_byte(rng, job.entries, len(record)))
    yield 'the last byte past the record', job._replace(entries=with_byte(rng, job.entries, len(job.entries) - 1))
    yield 'a plan with a type 4', of_file(file[:4] + b'\x04' + file[5:])
    yield 'a plan without its rule', of_file(file[:-1] + b'\x80' if file[-5:-1] == bytes([1, 0, 4, 0]) else file[:-1] + b'\xff')
    yield 'an entry twice', of_record(record + record[:2], 1)
    yield 'an outcome 0', of_record(record[:-1] + b'\0')
    yield 'an outcome 3', of_record(record[:-1] + b'\x03')
    yield 'a record of the whole process', of_record(bytes([count - 1 if count > 1 else 5]) + record[1:])
    yield 'a record of no node', of_record(bytes([count]) + record[1:])


def at_least_minute(job, model):
    """a timed job at the least minute that its record and its windows let it have, and before that: what it is, and the job"""
    least = soonest(model.windows_of_record())[-1]
    minutes = {'the least minute': least, 'a minute before the least': least - 1, 'a week before the least': least - WEEK}
    return [(kind, job._replace(minute=minute)) for kind, minute in minutes.items() if minute >= 0]


def at_other_minutes(job, model):
    """a timed job at the minutes on both sides of its last entry's window, in its own week and the next, and at the first and the last of all: what it is, and the job"""
    opens, closes = model.windows_of_record()[-1]
    monday = job.minute - job.minute % WEEK
    minutes = {'the last window\'s end': monday + closes, 'the next window\'s end': monday + WEEK + closes, 'before the next window': monday + WEEK + opens - 1,
               'the next window': monday + WEEK + opens, 'the last window\'s last minute': monday + closes - 1, 'minute 0': 0, 'the largest minute': MOST_MINUTE}
    return [(kind, job._replace(minute=min(minute, MOST_MINUTE))) for kind, minute in minutes.items()]


def with_other_windows(rng, job, actions):
    """a timed job whose window area is none for its plan: what it is, and the job. Its window file has a window at least"""
    file, size = job.windows[:job.windows_len], job.windows_len
    area = lambda file: job._replace(windows=file.ljust(MOST_WINDOWS, b'\0'), windows_len=len(file))
    at = 5 * rng.randrange(size // 5)
    row = file[at:at + 5]
    other = lambda new: area(file[:at] + new + file[at + 5:])
    closes = int.from_bytes(row[3:], 'little')
    yield 'a window to 10081', other(row[:3] + (WEEK + 1).to_bytes(2, 'little'))
    yield 'a window from its end', other(row[:1] + row[3:] * 2)
    yield 'a window from past its end', other(window(row[0], closes + 1, closes))
    yield 'a window of an action too large', other(bytes([actions]) + row[1:])
    if size < MOST_WINDOWS:
        yield 'a window twice', area(file + row)
        yield 'windows length 5 more', job._replace(windows_len=size + 5)
        yield 'a byte past the windows', job._replace(windows=with_byte(rng, job.windows, size))
        yield 'the last byte past the windows', job._replace(windows=with_byte(rng, job.windows, MOST_WINDOWS - 1))
    for length in sorted({0, size - 5, size - 1, MOST_WINDOWS + 1, MOST_WINDOWS + 5, 2 ** 32 + size, 2 ** 64 - 1}):
        yield f'windows length {length}', job._replace(windows_len=length)


def as_untimed(rng, job):
    """a timed job that says it is none, and what is left of its hours: what it is, and the job"""
    twin = job._replace(timed=False, windows=bytes(MOST_WINDOWS), windows_len=0, minute=0)
    yield 'said to be untimed', job._replace(timed=False)
    yield 'untimed, with a minute', twin._replace(minute=job.minute or 1)
    yield 'untimed, with windows', job._replace(timed=False, minute=0)
    yield 'untimed, with windows of length 0', job._replace(timed=False, windows_len=0, minute=0)
    yield 'untimed, with windows length 5', twin._replace(windows_len=5)
    yield 'untimed, with a byte of windows', twin._replace(windows=with_byte(rng, twin.windows, rng.randrange(MOST_WINDOWS)))
    yield 'untimed', twin


def fresh_ones(job, file, windows):
    """timed jobs without an entry: what it is, and the job"""
    yield 'no entry', job_of(file, (), windows)
    yield 'no entry, minute 1', job_of(file, (), windows, 1)
    yield 'no entry, a minute in a window', job_of(file, (), windows, job.minute or WEEK)
