"""The vectors of the group `hours`: sessions with a window file, and timed jobs that are made up (document 02, N9).

What make_vectors.py writes; steps.py has the format of a body. What is answered is sessions.py's, and each session, and each real job with the least minutes that
its record can have, is given to the model as well: the script ends where the two differ.
"""
import functools
import itertools
import random
import sys

from madeup import as_untimed, at_least_minute, at_other_minutes, broken, fresh_ones, with_other_windows
from plans import deepest, nested_plan, number_of, random_plan, whole
from sessions import Model, Timed, check_came_by, job_of, permitted, random_entries, random_minute, real_job, soonest, start_number
from steps import made_up_job, started, timed_started
from windows import ANY_MINUTE, MOST_MINUTE, WEEK, damaged_windows, earliest, inside, random_windows, window, window_file

SEED_FEW, FEW = 20088, 150
SEED_MANY, MANY = 20089, 80
SEED_NESTED, NESTED = 20090, 40
SEED_UNTIMED, UNTIMED = 20091, 20
SEED_MADE_UP, MADE_UP = 20092, 40
# one window file of so many is broken; else a session is the longest of so many
ONE_BROKEN, LONGEST_OF = 12, 3
# how many neighbours each of the real jobs has of each kind, of which the next ones are taken in turn: by its minute, by its window file, as an untimed one,
# without an entry, by its plan file and its record
AT_MINUTES, OF_WINDOWS, AS_UNTIMED, FRESH, OF_RECORD = 3, 8, 3, 1, 6
# the last week that a minute may lie in
LAST_WEEK = MOST_MINUTE // WEEK
DAY, EVENING = 480, 1020


def by_model(cells, file, windows, steps):
    """the answers of the model to the entries that have a minute, from the start on; one without changes nothing"""
    return cells.timed(file, windows, [(*entry, minute) for entry, minute, _ in steps if minute is not None])


def held(cells, name, file, windows, start, steps):
    """ends the script where the model has other answers"""
    found = by_model(cells, file, windows, steps)
    expected = ('refused', start) if isinstance(start, int) else (start, [answer for _, minute, answer in steps if minute is not None])
    if found != expected:
        sys.exit(f'{name}: the model says {found}, the windows {expected}')


def refused(cells, name, file, windows):
    """a start that is refused, or that tells what comes next: name, body"""
    number = start_number(cells, file, windows)
    start = number or Timed(cells, file, windows).told
    held(cells, name, file, windows, start, [])
    return name, timed_started(file, windows, start)


def offered(model, offers):
    """what is answered to each offer: an entry and a minute, which is None where it has none; or a minute alone, for the first entry that may come, or where none may for
    the first of the record"""
    for offer in offers:
        entry, minute = ((permitted(model) or model.record)[0], offer) if isinstance(offer, int) else offer
        yield entry, minute, model.answer(entry, minute)


def session(cells, name, file, windows, offers):
    """a session with these offers, none where the start is refused: name, body"""
    if start_number(cells, file, windows):
        return refused(cells, name, file, windows)
    model = Timed(cells, file, windows)
    start, steps = model.told, list(offered(model, offers))
    held(cells, name, file, windows, start, steps)
    return name, timed_started(file, windows, start, steps)


def in_turn(cells, actions, types=(1,)):
    """the plan of these leaves in turn, each an action, or a word of the model's"""
    leaf = lambda a: ('act', a) if isinstance(a, int) else (a,)
    tree = functools.reduce(lambda left, right: ('seq', left, right), map(leaf, actions))
    return cells.encode(types, [], cells.nodes_of(tree), [0])


def beside(bounds, weeks):
    """the minutes on both sides of each bound, in these weeks, in order"""
    minutes = {week * WEEK + bound - less for week in weeks for bound in bounds for less in (0, 1)}
    return sorted(m for m in minutes if 0 <= m <= MOST_MINUTE)


# windows whose bounds are those of a day, of the week and of a byte, and such that another order of the bytes, or one byte alone, makes others
BOUNDS = [(DAY, EVENING), (0, 1), (0, WEEK), (WEEK - 1, WEEK), (0, WEEK - 1), (1, WEEK), (5000, 5001), (254, 255), (255, 256), (256, 257), (255, 257), (0, 256), (256, 512),
          (0x0100, 0x2000), (0x0102, 0x0201), (0x0010, 0x1000), (0x1000, 0x1001), (0x00FF, 0x01FF), (0x2700, 0x2760)]


def edges_of_hours(cells):
    """each bound of a window and of the week, both sides of it, in the first weeks and in the last ones; and the bounds with their bytes in the other order: name, body"""
    many = in_turn(cells, [0] * 24)
    for opens, closes in BOUNDS:
        turned = [n % 256 * 256 + n // 256 for n in (opens, closes)]
        file = window(0, opens, closes)
        minutes = beside((0, opens, closes), (0, 1, 2, LAST_WEEK - 1, LAST_WEEK)) + [MOST_MINUTE - 1, MOST_MINUTE, MOST_MINUTE]
        yield session(cells, f'window {opens} to {closes}, each bound', many, file, sorted(minutes))
        bytes_alone = {n for bound in (opens, closes) for n in (bound % 256, bound // 256)}
        yield session(cells, f'window {opens} to {closes}, other bytes', many, file, beside({n % WEEK for n in turned} | bytes_alone, (0, 1)))


def edges_of_order(cells):
    """equal and earlier minutes, inside and outside a window; and what two numbers could refuse: the earlier counts: name, body"""
    six, two = in_turn(cells, [0] * 6), in_turn(cells, [0, 1], (3, 3))
    minutes = [600, 600, 599, 600, 601, 600, 0, DAY - 1, EVENING, WEEK, WEEK + DAY - 1, WEEK + DAY, EVENING - 1, DAY]
    yield session(cells, 'equal and earlier minutes', six, window(0, DAY, EVENING), minutes)
    yield session(cells, 'equal minutes, the first and the largest', six, b'', [0, 0, MOST_MINUTE, MOST_MINUTE, MOST_MINUTE - 1, 0, MOST_MINUTE, MOST_MINUTE])
    minutes = [9, 8, 9, WEEK - 1, WEEK, WEEK - 1, 2 ** 31, 2 ** 31 - 1, 2 ** 31 + 1, 2 ** 16, MOST_MINUTE]
    yield session(cells, 'any minute, but in order', six, b'', minutes)
    late = 600
    before = [((1, 1), 150), ((1, 1), 5000), ((0, 0), late), ((0, 3), 5), ((0, 1), 5), ((0, 1), late)]
    wrong = [((0, 1), late), ((0, 1), late - 1), ((0, 1), 5000), ((0, 1), 5), ((2, 1), 5000), ((2, 1), 5), ((1, 0), late - 1), ((1, 3), 5000), ((1, 0), 5), ((63, 1), 0),
             ((255, 255), 0)]
    mixed = [((1, 1), late - 1), ((1, 1), 150), ((1, 1), late), ((1, 1), WEEK + 99), ((1, 1), WEEK + 100)]
    yield session(cells, 'two refusals at once', two, window_file([(0, DAY, EVENING), (1, 100, 200)]), before + wrong + mixed + wrong)
    yield session(cells, 'two refusals at once, no window', two, b'', [((1, 1), 150), ((0, 1), late)] + wrong + mixed[:3] + [((1, 2), late)] + wrong)
    minutes = [150, 9050, 9050, 9060, WEEK - 1, WEEK, WEEK + 99, 150, WEEK + 150]
    yield session(cells, 'a wait over the end of the week', two, window_file([(0, 9000, 9100), (1, 100, 200)]), minutes)
    yield session(cells, 'a wait of a week but a minute', two, window_file([(0, 7, 8), (1, 6, 7)]), [6, 8, 7, 6, 7, 8, WEEK + 5, WEEK + 7, WEEK + 6])
    minutes = [0, WEEK - 1, WEEK - 1, WEEK, 0, WEEK, 2 * WEEK - 1, 2 * WEEK, 3 * WEEK - 1, 3 * WEEK]
    four = in_turn(cells, [1, 0, 1, 0], (1, 1))
    yield session(cells, 'the first and the last minute of the week', four, window_file([(0, 0, 1), (1, WEEK - 1, WEEK)]), minutes)


def edges_of_leaves(cells):
    """skips, throws and actions without a window come at any minute; leaves of one action have one window, and an undo has its action's: name, body"""
    tiny = window_file([(0, 5000, 5001), (1, 100, 200)])
    plan = lambda types, tree: cells.encode(types, [], cells.nodes_of(tree), [0])
    at_all = [0, 0, 99, 5000, WEEK, 2 * WEEK + 5000, MOST_MINUTE, 5, MOST_MINUTE]
    yield session(cells, 'skips at any minute', in_turn(cells, ['skip'] * 10, (1, 1)), tiny, at_all)
    handled = functools.reduce(lambda tree, _: ('handler', tree, ('throw',)), range(9), ('throw',))
    yield session(cells, 'throws at any minute', plan([1, 1], handled), tiny, at_all)
    yield session(cells, 'actions without a window', in_turn(cells, [2] * 10, (1, 1, 1)), tiny, at_all)
    yield session(cells, 'a skip, and actions with and without a window', in_turn(cells, ['skip', 0, 'skip', 1, 2, 'throw'], (1, 1, 1)), tiny,
                  [4999, 4999, 5000, 5000, 5000, WEEK, WEEK + 100, WEEK + 200, WEEK + 201])
    # one of the leaves comes where the other has failed
    again = ('handler', ('act', 0), ('seq', ('act', 1), ('act', 0)))
    minutes = [((0, 2), 4999), ((0, 2), 5000), 5000, WEEK, WEEK + 100, WEEK + 100, WEEK + 5001, WEEK + 5000]
    yield session(cells, 'an action at two leaves', plan([3, 1], again), tiny, minutes)
    undone = ('seq', ('comp', ('act', 0), ('act', 1)), ('throw',))
    yield session(cells, 'an undo has its action\'s window', plan([1, 1], undone), tiny, [100, 5000, 5000, 5000, WEEK + 99, WEEK + 100])


def edges_of_windows(cells):
    """several windows, in other orders than the actions and the leaves: an entry at another's hours is refused: name, body"""
    hours = {0: (100, 200), 1: (300, 400), 2: (500, 600)}
    backwards = whole([1, 1, 1], (), [(0, 2, 0), (0, 1, 0), (0, 0, 0), (3, 0, 1), (3, 3, 2)])
    for order in itertools.permutations(hours):
        file = window_file((a, *hours[a]) for a in order)
        for name, plan, leaves in (('012', in_turn(cells, [0, 1, 2], [1] * 3), [0, 1, 2]), ('210', backwards, [2, 1, 0])):
            minutes = [week * WEEK + hours[a][0] for week, own in enumerate(leaves) for a in [b for b in hours if b != own] + [own]]
            yield session(cells, f'windows {"".join(map(str, order))}, leaves {name}', plan, file, minutes)
    ten = {a: (1000 * a, 1000 * a + 10 + a) for a in range(10)}
    for order in (range(10), range(9, -1, -1), (3, 1, 4, 0, 5, 9, 2, 6, 8, 7)):
        name, file = f'ten windows, {"".join(map(str, order))}', window_file((a, *ten[a]) for a in order)
        minutes = [m for a in ten for m in beside(ten[a], [0]) if m != ten[a][0]]
        yield session(cells, name, ten_actions(cells), file, minutes)
        minutes = [m for a in ten for m in (ten[a][1], ten[a][0] + WEEK * a)]
        yield session(cells, f'{name}, one left out', ten_actions(cells), file[:20] + file[25:], minutes)
    # one after the other, each as soon as it may, and nearly a week later than the one before it
    yield session(cells, 'a week later each', descent(cells), DESCENT, soonest_of(cells, descent(cells), DESCENT))


# ten windows of a minute each, every one before the one of the action before it
DESCENT = window_file((a, 9 - a, 10 - a) for a in range(10))


def descent(cells):
    """as many actions in turn as a plan can have, of which each but every tenth has to wait for the next week"""
    return in_turn(cells, [n % 10 for n in range(32)], [1] * 10)


def soonest_of(cells, file, windows):
    """the minutes at which the leaves of a plan without choices can come, each a minute too early and then as soon as may be"""
    model, offers = Timed(cells, file, windows), []
    while permitted(model):
        entry = permitted(model)[0]
        soon = earliest(model.windows[entry[0]], model.minute)
        offers += [(entry, soon - 1), (entry, soon)] if soon else [(entry, soon)]
        model.add(entry, soon)
    return offers


# both sides of each limit of from and to, and of the bytes of these
LIMITS = [(9000, WEEK), (9000, WEEK + 1), (9000, 65535), (699, 700), (700, 700), (701, 700), (0, 0), (0, 1), (WEEK - 1, WEEK), (WEEK, WEEK), (WEEK, WEEK + 1),
          (65535, 65535), (65535, 0), (0, WEEK), (256, 1), (1, 256), (255, 256), (256, 255), (0, 0x275F), (0, 0x2761), (0, 0x2860), (0, 0x6027)]


# ten windows, one for each action
ROWS = [(a, 100 * a, 100 * a + 50) for a in range(10)]


def ten_actions(cells):
    return in_turn(cells, range(10), [1] * 10)


def lengths_of_files(cells):
    """window files of each length, of windows that are sound as far as they go, and longer ones than any: name, body"""
    ten, good = ten_actions(cells), window_file(ROWS)
    for length in range(56):
        yield session(cells, f'{length} bytes of windows', ten, (good + window(10, 0, 1))[:length], [50, 0, 149, 150, 250, 260])
    for length in (55, 60, 255, 256, 261, 1280):
        yield refused(cells, f'{length} bytes of windows, again from the first', ten, (good * 26)[:length])
        yield refused(cells, f'{length} bytes of windows, all 0', ten, bytes(length))


def limits_of_files(cells):
    """from and to on both sides of each limit, in the first, the fifth and the last of ten windows, and in one alone: name, body"""
    ten, three = ten_actions(cells), in_turn(cells, [0] * 3)
    for opens, closes in LIMITS:
        for place in (0, 4, 9):
            rows = ROWS[:place] + [(place, opens, closes)] + ROWS[place + 1:]
            yield refused(cells, f'window {place} of ten from {opens} to {closes}', ten, window_file(rows))
        yield session(cells, f'one window from {opens} to {closes}', three, window(0, opens, closes), [opens, closes - 1, closes])


def actions_of_files(cells):
    """actions at and past what a plan has, and windows of one action, next to each other and far apart: name, body"""
    for count in (1, 2, 5, 9, 10):
        plan = in_turn(cells, range(count), [1] * count)
        for action in sorted({0, count - 1, count, count + 1, 127, 128, 255}):
            yield refused(cells, f'a window of action {action} of {count}', plan, window(action, 5, 6))
            yield refused(cells, f'windows, the last of action {action} of {count}', plan, window_file(ROWS[:count - 1] + [(action, 5, 6)]))
        yield refused(cells, f'a window too many for {count} actions', plan, window_file(ROWS[:count] + [(0, 5, 6)]))
        yield refused(cells, f'as many windows as {count} actions', plan, window_file(ROWS[:count]))
    ten = ten_actions(cells)
    for first, second in ((0, 1), (4, 5), (8, 9), (0, 9), (1, 9), (0, 5), (2, 7)):
        same, other = ROWS[first], (first, *ROWS[second][1:])
        yield refused(cells, f'windows {first} and {second} of one action', ten, window_file(ROWS[:second] + [other] + ROWS[second + 1:]))
        yield refused(cells, f'windows {first} and {second} of one action, alike', ten, window_file(ROWS[:second] + [same] + ROWS[second + 1:]))


# window files for two actions, with two faults or with one action twice
FAULTY = {'one twice': [(0, 1, 2), (0, 1, 2)], 'one twice, other hours': [(1, 1, 2), (1, 3, 4)], 'twice and too large': [(2, 1, 2), (2, 1, 2)],
          'from is to and to 10081': [(0, 7, 7), (1, 7, WEEK + 1)], 'all three bytes': [(9, 20000, WEEK + 1)]}


def faults_of_files(cells, numbered):
    """two faults of a window file, and a plan file that is refused first; `numbered` has one for each number that such is refused by: name, body"""
    two = in_turn(cells, [0, 1], [1, 1])
    for name, rows in FAULTY.items():
        yield refused(cells, f'two actions, windows: {name}', two, window_file(rows))
        yield refused(cells, f'two actions, windows: {name}, a byte more', two, window_file(rows) + b'\0')
    for number, file in sorted(numbered.items()):
        if number_of(cells, file) != number:
            sys.exit(f'a plan file of number {number} is due')
        for name, windows in {'sound windows': window(0, 5, 6), 'no window': b'', 'a window from its end': window(0, 5, 5), 'a byte of windows': b'\0'}.items():
            yield refused(cells, f'a plan file of number {number}, {name}', file, windows)


def edges_of_kinds(cells):
    """entries with a minute for an untimed job, and without one for a timed job: name, body"""
    three = in_turn(cells, [0, 'skip', 1], (3, 1))
    model = Model(cells, three)
    steps = [((0, 1), 0), ((0, 1), None), ((1, 1), 0), ((1, 1), 5), ((1, 1), MOST_MINUTE), ((1, 1), None), ((0, 1), 0), ((3, 1), 600), ((3, 1), None),
             ((3, 1), None), ((3, 1), 0)]
    yield 'minutes for an untimed job', started(three, model.told, list(offered(model, steps)))
    for name, windows in {'no window': b'', 'windows': window_file([(0, 0, 10), (1, 0, 10)])}.items():
        turns = [((0, 1), None), ((0, 1), 0), ((0, 1), None), ((1, 1), None), ((1, 1), 0), ((1, 1), None), ((3, 1), None), ((3, 2), None), ((3, 1), 5), ((3, 1), None)]
        yield session(cells, f'entries without a minute for a timed job, {name}', three, windows, turns)


def random_session(rng, cells, file, most):
    """a session at random, one of twenty entries without a minute: plan file, window file, what the start tells, steps"""
    windows = random_windows(rng, len(cells.parse(file)[0]))
    model = Timed(cells, file, windows)
    start = model.told
    return file, windows, start, list(random_entries(rng, model, most, lambda leaf: random_minute(rng, model, leaf) if rng.randrange(20) else None))


def long_session(rng, cells, name, make, most):
    """of some sessions at random the longest, each with a plan of its own; one of many with a window file that is broken: name, body"""
    if rng.randrange(ONE_BROKEN) == 0:
        actions = len(cells.parse(file := make())[0])
        return refused(cells, name, file, damaged_windows(rng, random_windows(rng, actions), actions))
    one = max((random_session(rng, cells, make(), most) for _ in range(LONGEST_OF)), key=lambda one: len(one[3]))
    held(cells, name, *one)
    return name, timed_started(*one)


def random_sessions(cells):
    """sessions with small and large plans: name, body"""
    rng = random.Random(SEED_FEW)
    for n in range(FEW):
        yield long_session(rng, cells, f'plan {n} of few leaves, seed {SEED_FEW}', lambda: random_plan(cells, rng, rng.randrange(1, 7)), 24)
    rng = random.Random(SEED_MANY)
    for n in range(MANY):
        leaves = rng.choice([8, 13, 21, 32])
        yield long_session(rng, cells, f'plan {n} of {leaves} leaves, seed {SEED_MANY}', lambda: random_plan(cells, rng, leaves), 60)
    rng = random.Random(SEED_NESTED)
    for n in range(NESTED):
        leaves = rng.choice([5, 6, 8, 21])
        yield long_session(rng, cells, f'plan {n} of {leaves} leaves, seed {SEED_NESTED}', lambda: nested_plan(cells, rng, leaves), 40)
    rng = random.Random(SEED_UNTIMED)
    for n in range(UNTIMED):
        model = Model(cells, file := random_plan(cells, rng, rng.randrange(1, 7)))
        start = model.told
        steps = list(random_entries(rng, model, 16, lambda leaf: rng.choice([None, None, 0, rng.randrange(2 ** 32)])))
        yield f'plan {n}, untimed, seed {SEED_UNTIMED}', started(file, start, steps)


def real_one(rng, cells, n):
    """a real timed job with entries taken, and one that may come; of three of four the last entry has a window, and of half of all it cannot have come in the first week:
    file, window file, model"""
    while True:
        file = nested_plan(cells, rng, rng.choice([5, 6, 8])) if n % 5 == 4 else random_plan(cells, rng, rng.choice([3, 4, 6, 6, 8, 32]))
        windows = random_windows(rng, len(cells.parse(file)[0]))
        model = Timed(cells, file, windows)
        for _ in range(rng.randrange(1, 8)):
            if permitted(model):
                entry = rng.choice(permitted(model))
                model.answer(entry, earliest(model.windows[entry[0]], model.minute) + rng.choice([0, 0, 1, WEEK]))
        if not windows or not model.record or not permitted(model) or (n % 5 == 4 and deepest(model.tree, model.record) < 1):
            continue
        of_record = model.windows_of_record()
        if (n % 4 == 0 or of_record[-1] != ANY_MINUTE) and (n % 2 == 0 or soonest(of_record)[-1] >= WEEK):
            return file, windows, model


def offers_to(job, model, entry, hours):
    """what is offered to a job, real or not: an entry with a minute at which a real one takes it, and without one; to a real one at an earlier minute too, and
    outside the window"""
    if model and entry not in permitted(model):
        entry = permitted(model)[0]
    if model and model.timed:
        hours = model.windows[entry[0]]
    soon = min(earliest(hours, job.minute), MOST_MINUTE)
    if model is None:
        return [(entry, soon), (entry, None)]
    monday = soon - soon % WEEK
    outside = [(entry, m) for m in (monday + hours[1], monday + WEEK + hours[0] - 1) if m <= MOST_MINUTE and not inside(hours, m)]
    return [(entry, max(0, job.minute - 1))] + outside[:1] + [((entry[0], 0), soon), (entry, soon), (entry, None)]


def job_body(cells, name, job, entry, hours):
    """a job, and what is answered to what is offered to it. Of a real timed one the model has to take the record at the least minutes, and to answer alike: name, body"""
    model = real_job(cells, job)
    offers = offers_to(job, model, entry, hours)
    steps = list(offered(model, offers)) if model else [(entry, minute, 11) for entry, minute in offers]
    if model and model.timed:
        file, windows = job.file[:job.file_len], job.windows[:job.windows_len]
        fresh = Timed(cells, file, windows)
        record = model.record[:job.taken]
        minutes = soonest([model.windows[leaf] for leaf, _ in record[:-1]]) + [job.minute] * bool(record)
        before = list(offered(fresh, zip(record, minutes)))
        if any(isinstance(answer, int) for _, _, answer in before):
            sys.exit(f'{name}: the job is no real one')
        held(cells, name, file, windows, Timed(cells, file, windows).told, before + steps)
    return name, made_up_job(job, steps)


# what is real, what is false, and what may be either
REAL = ('as it is', 'the least minute', 'the last window\'s last minute', 'no entry', 'no windows', 'untimed')
EITHER = ('the last window\'s end', 'the next window\'s end', 'before the next window', 'the next window', 'minute 0', 'the largest minute')


def neighbours(rng, cells, n, file, windows, model):
    """a real timed job, and jobs that are nearly it: of those with a fault of the plan file, the record or the window file some, in turn: what it is, and the job"""
    job = job_of(file, model.record, windows, model.minute)
    yield 'as it is', job
    yield from at_least_minute(job, model)
    yield from in_turn_of(at_other_minutes(job, model), n, AT_MINUTES)
    yield from in_turn_of(list(with_other_windows(rng, job, len(cells.parse(file)[0]))), n, OF_WINDOWS)
    yield from in_turn_of(list(as_untimed(rng, job)), n, AS_UNTIMED)
    yield from in_turn_of(list(fresh_ones(job, file, windows)), n, FRESH)
    yield from in_turn_of(list(broken(rng, job, model.count)), n, OF_RECORD)
    if n % 4 == 0:
        yield 'no windows', job_of(file, model.record, b'', model.minute)


def in_turn_of(things, n, count):
    """so many of the things, the next ones for each n"""
    return [things[(n * count + k) % len(things)] for k in range(count)]


def made_up(cells):
    """timed jobs, real and false: name, body"""
    rng = random.Random(SEED_MADE_UP)
    ones = [(f'{n} of seed {SEED_MADE_UP}', real_one(rng, cells, n)) for n in range(MADE_UP)]
    # a window that ends where the one before it begins, so that it has to be waited for, and then no window
    meeting = in_turn(cells, [0, 1, 2, 2], [1] * 3), window_file([(0, 100, 101), (1, 50, 100)])
    for name, (file, windows) in {'of 31 entries': (descent(cells), DESCENT), 'of windows that meet': meeting}.items():
        model = Timed(cells, file, windows)
        for entry, minute in soonest_of(cells, file, windows)[:-1]:
            model.answer(entry, minute)
        ones.append((name, (file, windows, model)))
    for n, (name, (file, windows, model)) in enumerate(ones):
        entry = rng.choice(permitted(model))
        for kind, job in neighbours(rng, cells, n, file, windows, model):
            if kind not in EITHER and (real_job(cells, job) is not None) != (kind in REAL):
                sys.exit(f'job {name}, {kind}: real or false, where the other is due')
            yield job_body(cells, f'job {name}, {kind}', job, entry, model.windows[entry[0]])


def hours_vectors(cells, numbered):
    """name and body of each vector"""
    check_came_by()
    for part in (edges_of_hours, edges_of_order, edges_of_leaves, edges_of_windows, lengths_of_files, limits_of_files, actions_of_files):
        yield from part(cells)
    yield from faults_of_files(cells, numbered)
    for part in (edges_of_kinds, random_sessions, made_up):
        yield from part(cells)
