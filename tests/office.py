"""The office's own story, as five plans, a window file and a rule as people type it: a sweep is measured, stored, a reverberation time computed from it, and the figure filed.

What make_vectors.py writes beside P1 to P8. Actions: 0 sweep, 1 store, 2 reverberation time, 3 file; in WITHDRAWN 4 withdraw by the server, 5 withdraw by
hand; and in RESTORED 4 delete the recording, 5 tell the archive, 6 restore the recording.
"""
from plans import SKIP, whole
from windows import window_file

SWEEP, STORE, TIME, FILE, SERVER, HAND = range(6)


def action(a):
    return (0, a, 0)


def story(instead):
    """sweep; store, and `instead` where that fails; reverberation time; file. The rule, "not 3, or 1": a figure is filed only where the sweep was stored"""
    nodes = [action(SWEEP), action(STORE), instead, (7, 1, 2), (3, 0, 3), action(TIME), (3, 4, 5), action(FILE), (3, 6, 7)]
    return whole([3, 3, 1, 1], (), nodes, [FILE, 0x80, STORE, 0x82])


# the handler skips: a failed store is swallowed, and the figure is filed with nothing behind it
SWALLOWED = story(SKIP)
# its rule, as people type it: d is filed, b stored
TYPED = b'not d or b'
# the handler stores again: where that fails too, the plan fails, and no figure is filed
MENDED = story(action(STORE))

# A store is undone by the server, whose failure is passed over, and then by hand all the same. The rule, "1 or not 1": a recording is there, or was
# withdrawn just once, or was never stored.
UNDO = [action(SERVER), SKIP, (7, 2, 3), action(HAND), (3, 4, 5)]
WITHDRAWN = whole([3, 3, 3, 1, 3, 3], [(STORE, SERVER), (STORE, HAND)],
                  [action(SWEEP), action(STORE)] + UNDO + [(6, 1, 6), (3, 0, 7), action(TIME), (3, 8, 9), action(FILE), (3, 10, 11)],
                  [STORE, STORE, 0x80, 0x82])

# The recording is stored by cable, and once more where that fails, or else over the hall's network, in up to five tries. Where none of them succeeds a
# skip passes over it, and the figure is filed. So a run that breaks the rule has two failed entries, or five.
CABLE = [action(STORE), action(STORE), SKIP, (7, 2, 3), (7, 1, 4)]
NETWORK = [action(STORE)] * 5 + [SKIP, (7, 10, 11), (7, 9, 12), (7, 8, 13), (7, 7, 14), (7, 6, 15)]
RETRIED = whole([3, 3, 1, 1], (), [action(SWEEP)] + CABLE + NETWORK + [(5, 5, 16), (3, 0, 17), action(TIME), (3, 18, 19), action(FILE), (3, 20, 21)],
                [FILE, 0x80, STORE, 0x82])

# A store is undone in two parts: the recording is deleted, and the archive told. A deletion is undone by a restore, so that where the archive cannot be told the
# recording is there again. The rule, "3, or 4, or not 1": a recording that is there has a figure; the restore, being an undo of the deletion, takes it back.
DELETE, TELL, RESTORE = range(4, 7)
WITHDRAWAL = [action(DELETE), action(RESTORE), (6, 2, 3), action(TELL), (3, 4, 5)]
RESTORED = whole([3, 3, 3, 1, 1, 3, 1], [(DELETE, RESTORE)],
                 [action(SWEEP), action(STORE)] + WITHDRAWAL + [(6, 1, 6), (3, 0, 7), action(TIME), (3, 8, 9), action(FILE), (3, 10, 11)],
                 [FILE, DELETE, 0x82, STORE, 0x80, 0x82])

# The hours of the hall, with minute 0 on Monday at 00:00: the sweep from Monday 08:00 to Friday 18:00, the store on Tuesday from 08:00 to 18:00. The time and the filing
# may come at any minute.
HALL = window_file([(SWEEP, 480, 6840), (STORE, 1920, 2520)])
