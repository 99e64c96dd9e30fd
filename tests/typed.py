"""Rules as people type them (document 02, N1): a reader of them, written anew, and texts made at random and damaged at random.

What formulas.py, stored.py and fuzz_rule.py share. A text is bytes. What becomes of it is its postfix bytes, or the number that it is refused by.
"""
import re
import sys
import threading
from concurrent.futures import ThreadPoolExecutor

# brackets that may be open at once, the bytes of the longest rule, and the bytes of the longest text that the program `postfix` takes
MOST_OPEN, MOST_RULE, MOST_TEXT = 16, 127, 65536
OUTSIDE, TOO_LONG = 14, 15
LETTERS = [bytes([letter]) for letter in b'abcdefghij']
BINARY = [b'and', b'or', b'implies']
TOKENS = LETTERS + BINARY + [b'not', b'(', b')']
NOT = 0x80
# the byte that each operator becomes behind its operands; implies becomes a not behind the first of them too
BYTE = {b'not': NOT, b'and': 0x81, b'or': 0x82, b'implies': 0x82}
# how tightly each binds
BINDS = {b'not': 4, b'and': 3, b'or': 2, b'implies': 1}

# a letter or a word has a blank, a bracket or the end behind it
TOKEN = rb'[()]|(?:not|and|or|implies|[a-j])(?![^ ()])'
WHOLE = re.compile(rb'(?: |%s)*' % TOKEN)


def goes_before(waiting, operator):
    """whether an operator that waits for its right side has it whole when the other comes: it binds tighter, or as tightly and groups to the left"""
    return waiting != b'(' and (BINDS[waiting] > BINDS[operator] or waiting == operator != b'implies')


def read(text):
    """what becomes of a text, by one pass: operators and opening brackets wait on a stack for what ends their right sides"""
    if not WHOLE.fullmatch(text):
        return OUTSIDE
    out, waiting, opened, operand_due = [], [], 0, True
    for token in re.findall(TOKEN, text):
        if operand_due == (token in BINARY or token == b')'):
            return OUTSIDE
        if token in LETTERS:
            out.append(LETTERS.index(token))
            operand_due = False
        elif token == b')':
            while waiting and waiting[-1] != b'(':
                out.append(BYTE[waiting.pop()])
            if not waiting:
                return OUTSIDE
            waiting.pop()
            opened -= 1
        else:
            opened += token == b'('
            if opened > MOST_OPEN:
                return OUTSIDE
            if token in BINARY:
                while waiting and goes_before(waiting[-1], token):
                    out.append(BYTE[waiting.pop()])
                out += [NOT] * (token == b'implies')
            waiting.append(token)
            operand_due = True
    if operand_due or opened:
        return OUTSIDE
    out += [BYTE[operator] for operator in reversed(waiting)]
    return bytes(out) if len(out) <= MOST_RULE else TOO_LONG


# the model calls itself for each not and each implies of a text: where such calls need the machine's stack, a thread has more of it
threading.stack_size(64 << 20)
DEEP = ThreadPoolExecutor(1)


def by_model(cells, text):
    """what becomes of a text, by the model"""
    try:
        return bytes(DEEP.submit(cells.rule_text, text).result())
    except cells.Bad as refused:
        return refused.args[0]


def rule_of(cells, text):
    """what becomes of a text; the script ends where the model and the reader differ"""
    found, expected = by_model(cells, text), read(text)
    if found != expected:
        sys.exit(f'the model says {found!r}, the reader {expected!r}, of the text\n{text!r}')
    return found


def spelled(tokens, blanks=lambda: 1):
    """the text of some tokens, with so many blanks between each two: one more where two letters or words would run together and there would be none"""
    out = b''
    for token in tokens:
        count = blanks() if out else 0
        out += b' ' * (count or (out[-1:].isalpha() and token.isalpha())) + token
    return out


def random_rule(rng, letters, depth=MOST_OPEN):
    """the tokens of a rule of so many letters, with brackets up to so deep"""
    tokens = []
    while letters:
        inner = rng.randrange(1, letters + 1) if depth and rng.randrange(3) == 0 else 0
        tokens += [b'not'] * rng.choice([0, 0, 0, 1, 1, 2])
        tokens += [b'(', *random_rule(rng, inner, depth - 1), b')'] if inner else [rng.choice(LETTERS)]
        letters -= inner or 1
        tokens += [rng.choice(BINARY)] if letters else []
    return tokens


def random_blanks(rng, tokens):
    """the text of some tokens: in the usual manner, with as few blanks as can be, or with any number of them, around it too"""
    manner = rng.choice([[1], [0], [0, 0, 0, 1, 3]])
    around = [b' ' * rng.choice([0, *manner]) if len(manner) > 1 else b'' for _ in range(2)]
    return around[0] + spelled(tokens, lambda: rng.choice(manner)) + around[1]


def with_another_token(rng, tokens):
    """the tokens with one thing done to them: one is left out, doubled, put in or replaced, or changes places with the next; or brackets go around some"""
    what, at, other = rng.randrange(6), rng.randrange(len(tokens)), rng.choice(TOKENS)
    if what == 5:
        count, end = rng.choice([1, 2, MOST_OPEN, MOST_OPEN + 1]), rng.randrange(at, len(tokens)) + 1
        return tokens[:at] + [b'('] * count + tokens[at:end] + [b')'] * count + tokens[end:]
    here = [[], tokens[at:at + 1] * 2, [other] + tokens[at:at + 1], [other], tokens[at:at + 2][::-1]][what]
    return tokens[:at] + here + tokens[at + (2 if what == 4 else 1):]


def with_another_byte(rng, text):
    """the text with one byte left out, put in or replaced, in another case, or cut off there; or without one of its blanks"""
    blanks = [n for n, byte in enumerate(text) if byte == 32]
    what, at = rng.randrange(6), rng.randrange(len(text) + 1)
    if what == 5 and blanks:
        at = rng.choice(blanks)
    other = bytes([rng.choice([*b'abjkz()  notandorimplies', *b'AZ019\t\n\r\0', 31, 33, 96, 123, 127, 128, 160, 255, rng.randrange(256)])])
    here = [b'', other + text[at:at + 1], other, text[at:at + 1].upper(), None, b''][what]
    return text[:at] if here is None else text[:at] + here + text[at + 1:]


def damaged_rule(rng, tokens):
    """a text from some tokens with one to three things done to it"""
    count = rng.choice([1, 1, 2, 3])
    of_tokens = rng.randrange(count + 1)
    for _ in range(of_tokens):
        tokens = with_another_token(rng, tokens) or tokens
    text = random_blanks(rng, tokens)
    for _ in range(count - of_tokens):
        text = with_another_byte(rng, text)
    return text
