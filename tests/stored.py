"""What the programs are to write, by the model, and the stored cases: commands of ./vodjimar, each with what it is to write.

What make_vectors.py writes to tests/stored and tests/files.
"""
import sys

from classes import HEADING, LENT, MOST_FILES, MOST_LENT, PLACE, ROOM_AT
from office import HALL
from plans import number_of
from sessions import Model, Timed, session_of, start_number
from shown import shown_run
from typed import MOST_RULE, MOST_TEXT, rule_of
from windows import window, window_file

FORMS = {'sequence': 'seq', 'parallel': 'par', 'choice': 'choice', 'compensation': 'comp', 'handler': 'handler'}


def verdict_lines(cells, file):
    """what `verdict` writes: the verdict and, of a violation, the run that is shown"""
    answer = cells.verdict(bytes(file))
    lines = [answer]
    if answer[0] == 'violated':
        lines += shown_run(cells, file, answer[1])
    return ''.join(' '.join(str(part) for part in line) + '\n' for line in lines)


def inspect_lines(cells, file):
    number = number_of(cells, file)
    return f'refused {number}\n' if number else 'accepted\n'


def run_lines(cells, file, text, windows=None):
    """what `run` writes, with a window file where there is one"""
    number = number_of(cells, file) if windows is None else start_number(cells, file, windows)
    if number:
        return f'refused {number}\n'
    return session_of(Model(cells, file) if windows is None else Timed(cells, file, windows), text)


def rule_lines(cells, given):
    """what `postfix` writes, and what it tells on standard error. A newline at the very end of what it is given is not part of the text"""
    text = given.removesuffix(b'\n')
    if len(text) > MOST_TEXT:
        return '', f'postfix: the text is too long: {MOST_TEXT:,} bytes at most\n'
    answer = rule_of(cells, text)
    return (f'refused {answer}\n' if isinstance(answer, int) else answer.hex(' ') + '\n'), ''


def chart_lines(cells):
    """a table for each form: a row for each left code, a number for each right code"""
    table = lambda form: ''.join(' '.join(str(cells.cell(form, left, right)) for right in range(7)) + '\n' for left in range(7))
    return '\n'.join(f'{name}\n{table(form)}' for name, form in FORMS.items())


# where the bytes that a vector expects stand in its body
RECORD_AT, RULE_AT = 5, 4


def with_another_byte(body, at):
    """a vector that expects the same number and, at this place of its body, another byte"""
    return body[:at] + bytes([body[at] ^ 3]) + body[at + 1:]


def other_rules(formulas):
    """likewise vectors of the group `formulas`: a byte of the rule, the last one after it, and one after a refusal"""
    rule = formulas[0][1]
    refused = next(body for _, body in formulas if body[1] > 0)
    vectors = [('as it is', rule)] + [(f'another byte {at}', with_another_byte(body, RULE_AT + at)) for body, at in ((rule, 2), (rule, MOST_RULE - 1), (refused, 0))]
    return vectors, f'formulas: vector 2 (another byte 2): expected {MOST_RULE}, found 2\nformulas: 4 vectors, 1 agree\n'


def other_places(classes):
    """likewise vectors of the group `classes`: a byte of a place, of the run that it shows, one of those after that run, one past the places, and one after a refusal;
    and one with a longer answer area than there can be, which damages the data file"""
    of = dict(classes)
    body, refused = of['P2, then refused 6'], of['P2 alone, -1 bytes more than a place']
    room = int.from_bytes(body[ROOM_AT:HEADING], 'little')
    others = [(body, at) for at in (1, 5, PLACE - 1, 2 * PLACE)] + [(refused, 0)]
    vectors = [('as it is', body)] + [(f'{"a refusal, " if of_body is refused else ""}another byte {at}', with_another_byte(of_body, HEADING + at)) for of_body, at in others]
    lines = f'classes: vector 2 (another byte 1): expected {room}, found 1\nclasses: {len(vectors)} vectors, 1 agree\nclasses: the data file is damaged after these\n'
    return vectors + [('too long an area', bytes(ROOM_AT) + (MOST_LENT + 1).to_bytes(2, 'little') + bytes([LENT]) * (MOST_LENT + 1))], lines


def other_records(verdicts):
    """vectors of the group `verdicts` with the right number, of which some expect another byte in the record area, in the run of a violation, after "consistent"
    or after a refusal; and the lines of `compare` on them"""
    of = dict(verdicts)
    vectors = [(name, of[name]) for name in ('P1', 'P2')]
    vectors += [(f'{name}, another byte {at}', with_another_byte(of[name], RECORD_AT + at)) for name, at in (('P2', 3), ('P1', 125), ('P1, areas 3 too short', 0))]
    return vectors, 'verdicts: vector 3 (P2, another byte 3): expected 126, found 3\nverdicts: 5 vectors, 2 agree\n'


# Sessions by hand: the plan, the lines, and how the last that is told ends.
SESSIONS = {
    # each action finishes
    'succeeds': ('p1', b'0 1\n3 1\n', 'may end succeeded'),
    # the first fails, and there is nothing to undo
    'fails': ('p1', b'0 2\n', 'may end failed'),
    # the second fails, and the first is undone, to the end
    'undone': ('p1', b'0 1\n3 2\n1 1\n', 'may end failed'),
    # the right's undo fails, and the left's is not run
    'undo-fails': ('p6', b'0 1\n3 1\n7 2\n4 2\n1 1\n', 'may end failed'),
    # the outer undo runs in the inner one's place
    'undo-replaced': ('p5', b'0 1\n5 2\n1 1\n3 1\n', 'may end failed'),
    # a handler goes on where the undo of what failed has failed
    'handled': ('p4', b'0 1\n3 2\n5 1\n1 2\n5 1\n', 'may end succeeded'),
    # one side of a parallel has failed: the run may not end before the other has come
    'parallel': ('p3', b'0 2\n1 1\n', 'may end failed'),
    # the undos of a parallel's sides: one has failed, and the run may not end before the other has come
    'parallel-undo-fails': ('undone-together', b'0 1\n3 1\n7 2\n1 2\n4 1\n', 'may end failed'),
    # entries out of turn, with outcomes that there are not, of nodes that are no leaves or are not there; what was told still holds
    'refused-entries': ('p1', b'3 1\n1 1\n2 1\n4 1\n5 1\n63 1\n255 255\n0 0\n0 3\n0 1\n0 1\n0 2\n1 1\n3 0\n3 2\n3 1\n1 2\n1 1\n1 1\n', 'may end failed'),
    # almost entries, a long line, bytes of all kinds; then an entry without a newline
    'no-entries': ('p1', b'\n \n0\n0 \n 0 1\n0  1\n0 1 \n0 1 2\n0\t1\n0 1\r\n00 1\n0 01\n+0 1\n-0 1\n0,1\n0 256\n256 1\n0 4294967297\n'
                   b'0 18446744073709551617\nzero one\n\0\n0\0 1\n\xff\n\xc2\xa00 1\n' + b'0 1' * 2000 + b'\n' + b'0' * 5000 + b' 1\n0 1', 'open'),
    # no line at all
    'no-input': ('p1', b'', 'open'),
    # entries with a minute, where there is no window file
    'three-numbers': ('p1', b'0 1 0\n0 1 600\n0 1\n3 1 600\n3 1 \n3 1\n', 'may end succeeded'),
    # a recording is withdrawn by the server, and then by hand as well
    'withdrawn-twice': ('withdrawn', b'0 1\n1 1\n9 2\n2 1\n5 1\n', 'may end failed'),
    # an undo has succeeded, and its own undo is dropped
    'undo-of-undo-dropped': ('q1', b'0 1\n5 2\n1 1\n2 1\n', 'may end failed'),
    # a later part of an undo fails: the earlier part's undo comes, not before that, and only then the run may end
    'undo-of-undo': ('q2', b'0 1\n7 2\n1 1\n2 1\n4 2\n2 1\n', 'may end failed'),
    # the same, and a handler goes on, but not before the undo has been undone
    'undo-of-undo-handled': ('q3', b'0 1\n7 2\n1 1\n4 2\n9 1\n2 1\n9 1\n', 'may end succeeded'),
    # of two undos side by side one fails: the other is undone, once both have ended
    'undo-of-undo-parallel': ('q4', b'0 1\n5 1\n9 2\n6 2\n2 1\n1 1\n2 1\n', 'may end failed'),
    # a withdrawal half succeeds, and the recording is restored
    'restored': ('restored', b'0 1\n1 1\n9 2\n2 1\n5 2\n3 1\n', 'may end failed'),
    # as many entries as a run can have
    'largest': ('largest', b''.join(b'%d 1\n' % n for n in [0] + list(range(1, 63, 2))), 'may end succeeded'),
}
# Rules as people type them
RULES = {
    'example': b'not a or (b and c)',
    # implies groups to the right and binds least; brackets in the place of blanks
    'implies': b'not(a)and b implies c or d implies(e)',
    # as long a rule as there can be, and one that is a byte longer
    'longest': b'not ' * 126 + b'a',
    'refused-15': b'not ' * 127 + b'a',
    'refused-14': b'nota',
    'empty': b'',
    # what a shell could take for something else: an option, and what would come to sound rules, a format and escapes
    'dash': b'-n',
    'percent': b'a%.0s',
    'backslash': b'a\\040or\\040b',
    # a newline that was typed is part of the text, and outside the grammar
    'newline': b'a or b\n',
    'two-newlines': b'a\n\n',
    'return': b'a\r',
    'tab': b'a\tor b',
    'capital': b'A',
    # as long a text as is answered, and the same with one newline and with two, which is too long
    'longest-text': b'a'.rjust(MOST_TEXT),
    'longest-text-newline': b'a'.rjust(MOST_TEXT) + b'\n',
    'longest-text-newlines': b'a'.rjust(MOST_TEXT) + b'\n\n',
    # a rule, if it were cut where the room ends
    'too-long': b'a'.ljust(MOST_TEXT + 1),
}
# Window files beside the office's: one without a window, one whose window ends before it begins, and one longer than any, of which ten windows are sound.
WINDOWS = {'none': b'', 'refused-23': window(0, 700, 600), 'too-long': window_file((a % 10, 480, 1020) for a in range(12))}

# Sessions by hand with a window file: the plan, the window file, the lines, and how the last that is told ends.
TIMED_SESSIONS = {
    # the sweep may not come before eight, and comes on Monday at two; the store may not come at night, nor at a minute before the sweep, which is 21 and not 22; node 3 is no leaf, which is 11 and not 21; the store fails
    # on Tuesday at eight, may not come again from six in the evening on, and does on the next Tuesday; the time comes at the same minute, the filing late on a Sunday
    'hours': ('mended', 'hall', b'0 1 479\n0 1 840\n1 1 1380\n1 1 839\n3 1 839\n1 2 1920\n2 1 2520\n2 1 1919\n2 1 12000\n5 1 12000\n7 1 11999\n7 1 20159\n',
              'may end succeeded'),
    # entries that may not come, at minutes that could be refused as well: 11 before 21 and 22
    'hours-two-refusals': ('p1', 'hall', b'0 1 0\n0 1 600\n0 1 599\n0 1 0\n0 1 9000\n3 1 0\n3 1 599\n3 1 600\n3 1 700\n', 'may end succeeded'),
    # any minute, but none earlier; equal ones
    'hours-no-window': ('p1', 'none', b'0 1 9\n3 1 8\n3 2 9\n1 1 9\n', 'may end failed'),
    # lines of two numbers and of four, and what is nearly an entry
    'hours-no-entries': ('mended', 'hall', b'0 1\n0 1 840 1\n0 1  840\n0  1 840\n 0 1 840\n0 1 840 \n0 1 +840\n0 1 -840\n0 1 0840\n0 1 00\n0 1 4294967296\n'
                         b'0 1 18446744073709552456\n0 1 10000000000\n0 1 ' + b'9' * 5000 +
                         b'\n0 256 840\n256 1 840\n0 01 840\n0 1 840\r\n0\t1\t840\n0 1 \n\n0 1 840\n1 1\n1 1 1920\n', 'open'),
    # a last line without a newline
    'hours-no-newline': ('mended', 'hall', b'0 1 840\n1 1 1920', 'open'),
    # the largest minute, on a Monday before eight, and one more, which is none; what has no window may come at it, and once more
    'hours-largest-minute': ('mended', 'hall', b'0 1 4294967296\n0 1 4294967295\n0 1 4294967040\n0 1 840\n1 1 4294967295\n1 1 4294958880\n5 1 4294967295\n'
                             b'7 1 4294967294\n7 1 4294967295\n', 'may end succeeded'),
    # no line at all
    'hours-no-input': ('mended', 'hall', b'', 'open'),
}
# starts with a window file that are refused: the plan, the window file, the number
TIMED_REFUSED = {'hours-refused-23': ('mended', 'refused-23', 23), 'hours-too-long': ('largest', 'too-long', 23), 'hours-too-large': ('p8', 'hall', 23),
                 'hours-plan-first': ('refused-4', 'refused-23', 4), 'hours-plan-first-9': ('refused-9', 'too-long', 9), 'hours-plan-alone': ('refused-6', 'hall', 6)}
# of p3 and undone-together a program that lets a side never begin has a set that breaks the rule; of retried and taken-in-turns there are runs that are not
# the plainest: more of it fails, or one side of a parallel is done before the other; all-ten leaves the largest set
CONSISTENT = ('p1', 'p3', 'mended', 'undone-together', 'q3')
VIOLATED = ('p2', 'p7', 'swallowed', 'withdrawn', 'largest', 'retried', 'taken-in-turns', 'restored', 'second-level', 'all-ten')


# Classes handed in together, by the names of their plans: the front door's `class`, and with --table
CLASSES = {
    # the guide's
    'evening': ('swallowed', 'broken', 'mended'),
    # refused plans between others, and the same plan twice
    'mixed': ('swallowed', 'broken', 'mended', 'swallowed', 'refused-1', 'p7'),
    # a run after a longer one, and none after it
    'shorter-after-longer': ('largest', 'p7', 'p1', 'refused-9', 'p2'),
    'one': ('all-ten',),
    'all-refused': tuple(f'refused-{n}' for n in (1, 2, 3, 4, 5, 6, 7, 9)) + ('broken', 'fourth-undo'),
    # longer than any plan, between others
    'too-long': ('p2', 'too-long', 'p1'),
    'sixteen': ('p2',) * 15 + ('swallowed',),
    'seventeen': ('p2',) * 17,
    # as much as is read of seventeen files, which has to have room
    'seventeen-too-long': ('too-long',) * 17,
}
# Tables: the guide's; one with a long run; and so many plans that it takes three calls, of which the last has one plan
TABLES = {'evening-table': ('swallowed', 'broken', 'mended'), 'table': ('swallowed', 'broken', 'mended', 'largest', 'refused-1'), 'table-of-sixteen': ('p7',) * 16, 'table-of-many': ('swallowed', 'broken', 'p2', 'mended') * 8 + ('p7',)}


def class_lines(cells, files):
    """what `class` writes: for each plan its number and what `verdict` writes; of more than sixteen the one refusal"""
    if len(files) > MOST_FILES:
        return 'refused 19\n'
    return ''.join(f'plan {i}\n{verdict_lines(cells, file)}' for i, file in enumerate(files))


def table_lines(cells, names, files):
    """what `class --table` writes: a heading, and for each plan its name, verdict, number and run"""
    rows = [('name', 'verdict', 'number', 'run')]
    for name, file in zip(names, files):
        kind, *number = cells.verdict(bytes(file))
        run = shown_run(cells, file, number[0]) if kind == 'violated' else []
        rows.append((name, kind, ''.join(map(str, number)), ' '.join(f'{leaf}:{outcome}' for leaf, outcome in run)))
    return ''.join('\t'.join(row) + '\n' for row in rows)


def last_told(lines):
    """whether the run may end, as it was told last"""
    return [line for line in lines.splitlines() if line.startswith(('open', 'may end'))][-1]


def stored_cases(cells, of_course, own):
    """the name of each case, its words, what it reads and what it is to write. of_course and own have the files of plans/ and of tests/files"""
    files = {**of_course, **own}
    path = lambda name: f'{"tests/files" if name in own else "plans"}/{name}.plan'

    for name, number in [(f'refused-{n}', n) for n in range(1, 10) if n != 8] + [('broken', 8), ('fourth-undo', 5), ('too-long', 1)]:
        case = 'refused-8' if name == 'broken' else name
        if number_of(cells, files[name]) != number:
            sys.exit(f'{name}: the model does not say {number}')
        yield f'verdict-{case}', ['verdict', path(name)], None, verdict_lines(cells, files[name]).encode()
        yield f'inspect-{case}', ['inspect', path(name)], None, inspect_lines(cells, files[name]).encode()
        # a line that is not heard
        yield f'run-{case}', ['run', path(name)], b'0 1\n', run_lines(cells, files[name], b'').encode()
    for kind, names in (('consistent', CONSISTENT), ('violated', VIOLATED)):
        for name in names:
            lines = verdict_lines(cells, files[name])
            if not lines.startswith(kind):
                sys.exit(f'{name}: the model does not say {kind}')
            yield f'verdict-{kind}-{name}', ['verdict', path(name)], None, lines.encode()
    for case, names in CLASSES.items():
        yield f'class-{case}', ['class', *map(path, names)], None, class_lines(cells, [files[name] for name in names]).encode()
    for case, names in TABLES.items():
        paths = [path(name) for name in names]
        yield f'class-{case}', ['class', '--table', *paths], None, table_lines(cells, paths, [files[name] for name in names]).encode()
    # files that no length of two bytes can tell the end of, and one of no bytes
    yield 'class-endless', ['class', '/dev/zero', path('p2'), '/dev/null', path('p7')], None, class_lines(cells, [bytes(70000), files['p2'], b'', files['p7']]).encode()
    for name in ('p1', 'withdrawn', 'largest', 'q3', 'restored', 'second-level'):
        yield f'inspect-accepted-{name}', ['inspect', path(name)], None, inspect_lines(cells, files[name]).encode()
    for case, (name, text, end) in SESSIONS.items():
        lines = run_lines(cells, files[name], text)
        if last_told(lines) != end:
            sys.exit(f'session {case}: the model does not end with {end}')
        yield f'run-{case}', ['run', path(name)], text, lines.encode()
    windows = WINDOWS | {'hall': HALL}
    window_path = lambda name: f'{"tests/files" if name in WINDOWS else "plans"}/{name}.windows'
    for case, (name, hours, text, end) in TIMED_SESSIONS.items():
        lines = run_lines(cells, files[name], text, windows[hours])
        if last_told(lines) != end:
            sys.exit(f'session {case}: the model does not end with {end}')
        yield f'run-{case}', ['run', path(name), window_path(hours)], text, lines.encode()
    for case, (name, hours, number) in TIMED_REFUSED.items():
        if start_number(cells, files[name], windows[hours]) != number:
            sys.exit(f'{case}: the model does not say {number}')
        yield f'run-{case}', ['run', path(name), window_path(hours)], b'0 1 840\n', run_lines(cells, files[name], b'', windows[hours]).encode()
    yield 'chart', ['chart'], None, chart_lines(cells).encode()
