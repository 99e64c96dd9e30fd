"""Window files (document 02, N9): their bytes, what they say of a minute, and such made at random and damaged at random.

What sessions.py, hours.py, fuzz_run.py and the office's story share. A window file has five bytes for each window: an action, and from and to in minutes of
the week, two bytes each, the lowest first. A window is a pair here, from and to, the end excluded.
"""
# the minutes of a week, the largest minute that an entry can have, and the bytes of the longest window file, one window for each of ten actions
WEEK, MOST_MINUTE, MOST_WINDOWS = 10080, 2 ** 32 - 1, 50
# the window of what has none
ANY_MINUTE = (0, WEEK)


def window(action, opens, closes):
    """the bytes of one window"""
    return bytes([action]) + opens.to_bytes(2, 'little') + closes.to_bytes(2, 'little')


def window_file(windows):
    """the file of some windows: action, from and to of each"""
    return b''.join(window(*one) for one in windows)


def windows_in(file, actions):
    """the window of each action that the file names, or None where it is no window file for a plan of so many actions"""
    rows = [file[at:at + 5] for at in range(0, len(file), 5)]
    found = {row[0]: (int.from_bytes(row[1:3], 'little'), int.from_bytes(row[3:5], 'little')) for row in rows}
    sound = len(file) % 5 == 0 and len(found) == len(rows) and all(a < actions and opens < closes <= WEEK for a, (opens, closes) in found.items())
    return found if sound else None


def inside(hours, minute, week=WEEK):
    """whether a minute lies in a window"""
    return hours[0] <= minute % week < hours[1]


def earliest(hours, start, week=WEEK):
    """the least minute from `start` on that lies in a window"""
    monday = start - start % week
    return min(m for m in (start, monday + hours[0], monday + week + hours[0]) if m >= start and inside(hours, m, week))


def random_hours(rng):
    """a window: a minute, some hours, most of the week or all of it; some begin or end with the week"""
    length = rng.choice([1, 1, 2, 60, 256, 600, 1000, 5000, 10000, WEEK])
    opens = rng.choice([0, WEEK - length] + [rng.randrange(WEEK - length + 1) for _ in range(6)])
    return opens, opens + length


def random_windows(rng, actions):
    """a window file for a plan of so many actions: some of them, most or all, in any order; now and then none"""
    count = rng.choice([0, rng.randrange(actions + 1), actions, actions])
    return window_file((a, *random_hours(rng)) for a in rng.sample(range(actions), count))


def damaged_windows(rng, file, actions):
    """the window file with one thing done to it that breaks it"""
    what, at = rng.randrange(7), 5 * rng.randrange(len(file) // 5 + 1)
    opens, closes = random_hours(rng)
    if what == 0:
        return file + bytes(rng.randrange(1, 5))
    if what == 1 and file:
        return file[:-rng.randrange(1, 5)]
    if what == 2 and file:
        twice = rng.randrange(len(file) // 5)
        return file[:at] + window(file[5 * twice], opens, closes) + file[at:]
    rest = {a for a in range(actions) if a not in file[::5]}
    if what < 6 and rest:
        bad = rng.choice([(opens, opens), (closes, opens), (opens, WEEK + 1), (opens, 65535), (WEEK, WEEK), (WEEK, WEEK + 1)])
        return file[:at] + window(rng.choice(sorted(rest)), *bad) + file[at:]
    return file[:at] + window(rng.choice([actions, actions + 1, 128, 255]), opens, closes) + file[at:]
