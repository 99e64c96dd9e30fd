"""The bodies of the groups `runs` and `hours`: a start or a job that is made up, and then steps, entries with the answers to them.

What make_vectors.py and hours.py write. docs/VECTORS.md has the format. An answer is what is told, or the number of a refusal.
"""
SESSION, MADE_UP, TIMED_SESSION = 0, 1, 2
# the bytes of an answer, of a step, and of a job that is made up
ANSWER, STEP, JOB = 10, 17, 384 + 8 + 126 + 8 + 1 + 50 + 8 + 4


def answer_of(answer):
    """the number where it is a refusal, and else 0, the leaves that may come, the end"""
    if isinstance(answer, int):
        return bytes([answer]) + bytes(9)
    return bytes([0]) + sum(1 << n for n in answer[0]).to_bytes(8, 'little') + bytes([(None, 'ok', 'fail').index(answer[1])])


def step_of(entry, minute, answer):
    """an entry, with its minute or without one, and the answer to it"""
    return bytes([minute is not None, *entry]) + (minute or 0).to_bytes(4, 'little') + answer_of(answer)


def steps_of(steps):
    return b''.join(step_of(*step) for step in steps)


def started(file, start, steps=()):
    """a plan file, the answer to the start, and steps"""
    return bytes([SESSION]) + len(file).to_bytes(2, 'little') + file + answer_of(start) + steps_of(steps)


def timed_started(file, windows, start, steps=()):
    """a plan file and a window file, the answer to the start, and steps"""
    lengths = len(file).to_bytes(2, 'little') + len(windows).to_bytes(2, 'little')
    return bytes([TIMED_SESSION]) + lengths + file + windows + answer_of(start) + steps_of(steps)


def made_up_job(job, steps):
    """the bytes of a job, and steps"""
    numbers = (job.file_len.to_bytes(8, 'little'), job.taken.to_bytes(8, 'little'), job.windows_len.to_bytes(8, 'little'), job.minute.to_bytes(4, 'little'))
    body = job.file + numbers[0] + job.entries + numbers[1] + bytes([job.timed]) + job.windows + numbers[2] + numbers[3]
    return bytes([MADE_UP]) + body + steps_of(steps)


def start_of(body):
    """where the answer to the start stands in the body of a session"""
    sizes = [int.from_bytes(body[at:at + 2], 'little') for at in (1, 3)]
    return 3 + sizes[0] if body[0] == SESSION else 5 + sum(sizes)


def steps_in(body):
    """the bytes of each step of a body"""
    first = 1 + JOB if body[0] == MADE_UP else start_of(body) + ANSWER
    return [body[at:at + STEP] for at in range(first, len(body), STEP)]


def answers_in(body):
    """how many answers a body has"""
    return len(steps_in(body)) + (body[0] != MADE_UP)


def number_in(step):
    """the number that a step's entry is refused by, or 0"""
    return step[-ANSWER]
