"""The vectors of the group `formulas`: texts, and the postfix bytes that each becomes or the number that it is refused by (document 02, N1).

What make_vectors.py writes. A vector's body is the number expected, four bytes, the lowest first: the count of the postfix bytes, or 256 and the refusal's
number; then 127 bytes, the postfix bytes and zeros; then the text. What becomes of a text is the model's, and typed.py's reader has to say the same.
"""
import itertools
import random
import sys

from typed import BINARY, MOST_RULE, damaged_rule, random_blanks, random_rule, rule_of

SEED_GOOD, GOOD = 20093, 500
SEED_DAMAGED, DAMAGED = 20094, 500
REFUSED = 256
# how many letters a text at random has: 42 make about as long a rule as there can be
LETTERS_OF_RANDOM = [1, 2, 2, 3, 3, 3, 4, 4, 4, 5, 5, 5, 6, 6, 7, 7, 8, 9, 10, 12, 34, 42, 48]

OPERATORS = [word.decode() for word in BINARY]
# a text that each word stands in
IN_USE = {'not': 'not a', 'and': 'a and b', 'or': 'a or b', 'implies': 'a implies b'}
# texts that the request has or describes, and what becomes of each
EXAMPLES = {
    'not a or (b and c)': '00 80 01 02 81 82', 'a implies b': '00 80 01 82', 'not a or b': '00 80 01 82', 'a': '00', 'j': '09', 'not a': '00 80', 'a and b': '00 01 81',
    'a or b': '00 01 82', 'nota': 14, 'a b': 14, 'not(a)': '00 80', 'a and(b)': '00 01 81',
    # and and or group to the left, implies to the right
    'a and b and c': '00 01 81 02 81', 'a or b or c': '00 01 82 02 82', 'a implies b implies c': '00 80 01 80 02 82 82',
    # not binds tightest, then and, or, implies
    'not a and b': '00 80 01 81', 'a or b and c': '00 01 02 81 82', 'a and b or c': '00 01 81 02 82', 'a implies b or c': '00 80 01 02 82 82',
    'a or b implies c': '00 01 82 80 02 82', 'not a implies b': '00 80 80 01 82'}


def told(what, texts):
    """each text with a name that has it: name, text"""
    for text in texts:
        yield f'{what}: {text}', text


def neighbours():
    """each token next to each other one, with a blank between them and without: alone, and in a text that has besides what is due before and behind them"""
    tokens = ['a', 'b', 'not', *OPERATORS, '(', ')']
    before = {'a': 'c and ', 'b': 'c and ', 'not': 'c and ', '(': 'c and ', ')': '(c '}
    behind = {'a': ' or d', 'b': ' or d', ')': ' or d', '(': ' d)'}
    for left, right in itertools.product(tokens, repeat=2):
        for blank in ('', ' '):
            yield f'side by side: {left}{blank}{right}', f'{left}{blank}{right}'
            opening, closing = '(' * (right == ')' and left != '('), ')' * (left == '(' and right != ')')
            yield (f'side by side, in a text: {left}{blank}{right}',
                   f'{opening}{before.get(left, "c ")}{left}{blank}{right}{behind.get(right, " d")}{closing}')
    # no letter parts a word or a letter from what is behind it
    for left, letter in itertools.product(['a', 'not', *(f'a {word}' for word in OPERATORS)], 'abcdefghijklmnopqrstuvwxyz'):
        yield f'run together: {left}{letter}', left + letter


def short_texts():
    """every text of up to three of some tokens, with blanks, and of up to four letters and brackets without"""
    for count in (1, 2, 3):
        yield from told(f'{count} tokens', map(' '.join, itertools.product(['a', 'not', 'and', 'implies', '(', ')'], repeat=count)))
    for count in (1, 2, 3, 4):
        yield from told(f'{count} bytes', map(''.join, itertools.product('a()', repeat=count)))


# a text with so many brackets open at once, by where its letter stands in them
NESTS = {
    'around a letter': lambda n: '(' * n + 'a' + ')' * n,
    'to the left': lambda n: '(' * n + 'a' + ' and b)' * n,
    'to the right': lambda n: '(b implies ' * n + 'a' + ')' * n,
    'in the middle': lambda n: '(b or ' * n + 'a' + ' and c)' * n,
    'with nots': lambda n: 'not(' * n + 'a' + ')' * n,
    'around a not': lambda n: '(' * n + 'not a' + ')' * n,
    'behind two nots': lambda n: 'not not(' * n + 'a' + ')' * n,
    'behind and': lambda n: '(b and ' * n + 'a' + ')' * n,
    'behind or': lambda n: '(b or ' * n + 'a' + ')' * n,
    'before or': lambda n: '(' * n + 'a' + ' or b)' * n,
    'before implies': lambda n: '(' * n + 'a' + ' implies b)' * n,
    'with blanks': lambda n: '( ' * n + 'a' + ' )' * n}


def depths():
    """both sides of the limit of open brackets"""
    for count in (15, 16, 17, 18):
        for where, nest in NESTS.items():
            yield f'{count} brackets {where}', nest(count)
        deep = NESTS['around a letter'](count)
        yield f'{count} brackets at the beginning', f'{deep} and b or c'
        yield f'{count} brackets between', f'b and {deep} or c'
        yield f'{count} brackets at the end', f'b and c or {deep}'
        for other in (15, 16, 17):
            again = NESTS['around a letter'](other)
            yield f'{count} brackets closed, then {other}', f'{deep} implies {again}'
            yield f'{count} brackets closed, then {other}, in one more', f'({deep} or {again})'
        yield f'{count} brackets, one not closed', deep[:-1]
        yield f'{count} brackets, one closed twice', deep + ')'
        yield f'{count} brackets around nothing', deep.replace('a', '')
        yield f'{count} brackets closed first', ')' * count + 'a' + '(' * count
    # what a count of one byte would take for less
    for count in (32, 33, 255, 256, 257, 272):
        yield f'{count} brackets around a letter', NESTS['around a letter'](count)
    for count in (1, 16, 17, 272):
        yield f'{count} opening brackets alone', '(' * count
        yield f'{count} closing brackets alone', ')' * count
    yield '40 brackets, one after another', ' and '.join(['(a)'] * 40)
    yield '30 times two brackets', ' or '.join(['((a))'] * 30)
    yield '60 times 16 brackets', ' and '.join([NESTS['around a letter'](16)] * 60)


def chain(length, operators, place='first', brackets=0):
    """a text of so many postfix bytes, by these operators in turn; the bytes that they leave over are nots before a letter"""
    tokens, count = ['a'], 1
    for letter, operator in zip(itertools.cycle('bcdefghija'), itertools.cycle(operators)):
        weight = 3 if operator == 'implies' else 2
        if count + weight > length:
            break
        tokens += [operator, letter]
        count += weight
    at = place_in(tokens)[place]
    tokens[at] = 'not ' * (length - count) + tokens[at]
    return '(' * brackets + ' '.join(tokens) + ')' * brackets


def place_in(tokens):
    """where some letters stand among the tokens of a chain"""
    return {'first': 0, 'middle': len(tokens) // 4 * 2, 'last': len(tokens) - 1}


MIXTURES = [(), ('and',), ('or',), ('implies',), ('and', 'or'), ('or', 'and'), ('implies', 'and'), ('and', 'or', 'implies')]


def lengths():
    """both sides of the limit of postfix bytes"""
    for operators in MIXTURES:
        name = ' '.join(operators) or 'not'
        for length in (126, 127, 128, 129, 200)[:5 if len(operators) < 2 else 3]:
            yield f'{length} bytes by {name}', chain(length, operators)
        for length, place in itertools.product((126, 127), ('middle', 'last')):
            yield f'{length} bytes by {name}, nots at the {place} letter', chain(length, operators, place)
    # what a count of one byte would take for less
    for length in (255, 256, 257, 258, 383, 384, 512, 513):
        yield f'{length} bytes by not', chain(length, ())
    for length in (255, 256, 257):
        yield f'{length} bytes by or', chain(length, ('or',))
    for length, count in itertools.product((127, 128), (16, 17)):
        yield f'{length} bytes by not, in {count} brackets', chain(length, (), brackets=count)


# what makes a text one outside the grammar, in the place of a letter
FAULTS = {'the letter k': 'k', 'a capital': 'A', 'no letter': '', 'two letters': 'a a', 'a word': 'and', 'empty brackets': '()',
          'an opening bracket': '(a', 'a closing bracket': 'a)', 'byte 255': '\xff', '17 brackets': NESTS['around a letter'](17)}


def two_faults():
    """texts outside the grammar, or too deep, that are too long as well: 14 comes before 15"""
    for (what, fault), place in itertools.product((FAULTS | {'16 brackets': NESTS['around a letter'](16)}).items(), ('first', 'middle', 'last')):
        tokens = chain(201, ('or',)).split(' ')
        tokens[place_in(tokens)[place]] = fault
        yield f'201 bytes, {what} at the {place} letter', ' '.join(tokens)
    for length, (what, more) in itertools.product((127, 128), {'an operator': ' and', 'a letter': ' a', 'a newline': '\n', 'a closing bracket': ')'}.items()):
        yield f'{length} bytes, and {what}', chain(length, ('and',)) + more
    yield '200 nots without a letter', 'not ' * 200
    yield '200 letters without an operator', 'a ' * 200
    for count in (16, 17):
        yield f'201 bytes in {count} brackets', chain(201, ('or',), brackets=count)


# brackets in a text of three and of four letters
WAYS = ['a {} b {} c', '(a {} b) {} c', 'a {} (b {} c)']
WAYS_OF_FOUR = ['a {} b {} c {} d', '(a {} b) {} c {} d', 'a {} (b {} c) {} d', 'a {} b {} (c {} d)', '(a {} b {} c) {} d', 'a {} (b {} c {} d)', '(a {} b) {} (c {} d)',
                '((a {} b) {} c) {} d', '(a {} (b {} c)) {} d', 'a {} ((b {} c) {} d)', 'a {} (b {} (c {} d))']


def with_nots(way, places):
    """the way with a not before the letters and opening brackets of these places"""
    starts = itertools.count()
    return ''.join(('not ' if c in '(abcd' and next(starts) in places else '') + c for c in way)


def orders():
    """operators in every order, with brackets in each way, and with nots: two operators with one at each place and with all, three with one"""
    for operators in itertools.product(OPERATORS, repeat=2):
        for way in WAYS:
            count = 3 + way.count('(')
            for places in [(), *((place,) for place in range(count)), range(count)]:
                yield from told('order', [with_nots(way, places).format(*operators)])
    for number, operators in enumerate(itertools.product(OPERATORS, repeat=3)):
        for turn, way in enumerate(WAYS_OF_FOUR):
            yield from told('order', [way.format(*operators)])
            if (number + turn) % 5 == 0:
                yield from told('order', [with_nots(way, [(number // 5 + turn) % (4 + way.count('('))]).format(*operators)])


def blanks():
    """blanks where they may be, as many as one likes, and nowhere where they need not be"""
    for count in (1, 2, 3, 300):
        yield f'{count} blanks alone', ' ' * count
        yield f'{count} blanks before', ' ' * count + 'not a or b'
        yield f'{count} blanks behind', 'not a or b' + ' ' * count
        yield f'{count} blanks around a letter', f'{" " * count}a{" " * count}'
        yield f'{count} blanks for each', '( not ( a ) or b ) implies c'.replace(' ', ' ' * count)
    # a text may be of any length
    yield '30,000 blanks before, between and behind', 'a or b'.join([' ' * 30000] * 2).replace('or', ' ' * 30000 + 'or')
    yield 'no text', ''
    yield from told('blanks', ['(a)and(b)', '(a)or(b)', '(a)implies(b)', 'not(a)', 'not(not(a))', '(not(a))and(not(b))', '( a )', '(a )', '( a)', 'a and ( b )', 'a and( b)',
                               'a and (b )or c', '(a) and(b)or (c)', '(a)and b', 'a and(b)and c', 'not (a)', 'not  a', 'not(a)or(b and c)', ' not a or ( b and c ) '])


def other_bytes():
    """each byte alone; and those that are no part of a text, in the place of a blank, before, behind and between blanks"""
    for byte in range(256):
        yield f'byte {byte} alone', chr(byte)
    for byte in range(256):
        yield f'byte {byte} for a blank', f'a or{chr(byte)}b'
        yield f'byte {byte} between a blank and a letter', f'a or {chr(byte)}b'
    for byte in (0, 9, 10, 13, 31, 33, 127, 128, 160, 255):
        yield f'byte {byte} before', f'{chr(byte)}a'
        yield f'byte {byte} behind', f'a{chr(byte)}'
        yield f'byte {byte} behind a blank', f'a {chr(byte)}'
        yield f'byte {byte} between blanks', f'a or {chr(byte)} b'
        yield f'byte {byte} in a word', f'a o{chr(byte)}r b'
        yield f'byte {byte} in brackets', f'(a{chr(byte)})'
    for text in ('a\n\n', '\n', '\n\n', 'a\r\n', '(a)\n', 'a or\nb', 'a\0b'):
        yield f'text {text.encode().hex(" ")}', text


def letters():
    """each letter of the alphabet, small and capital, as an operand; all ten actions, in both orders"""
    for letter in 'abcdefghijklmnopqrstuvwxyz':
        yield from told('letter', [f'not {letter}', f'a and {letter.upper()}'])
    yield 'ten actions', ' and '.join('abcdefghij')
    yield 'ten actions from the last on', ' implies '.join('jihgfedcba')


def words():
    """each word with a letter changed, left out, doubled, in another case or with a blank behind it, and with two letters in the other's place"""
    for word, text in IN_USE.items():
        for at, letter in enumerate(word):
            for other in ('', letter * 2, letter.upper(), letter + ' ', chr(ord(letter) - 1), chr(ord(letter) + 1), 'a'):
                yield from told('word', [text.replace(word, word[:at] + other + word[at + 1:])])
            if at:
                yield from told('word', [text.replace(word, word[:at - 1] + letter + word[at - 1] + word[at + 1:])])
        yield from told('word', [word, word + ' ', ' ' + word, word.upper(), text.upper(), text.replace(word, word.capitalize()), text.replace(word, word + 's'),
                                 f'({word})', f'a {word}', f'{word} a', f'a {word} {word} b', text.replace(' ', '')])
    yield from told('words', ['anot', 'aand b', 'a andb', 'a orb', 'aor b', 'a impliesb', 'aimplies b', 'a implie b', 'a impliess b', 'a or(b)', 'a(or)b', 'a (and) b', '(a)(b)',
                              '(a) (b)', '(a)b', 'a(b)', '()', ')(', '(a', 'a)', '(a))', '((a)', '(a) or', '(and)', 'not()', '()a', 'a()', 'not', 'not not', 'not not a',
                              'not not not a', 'notnot a', 'not nota', 'a not', 'a not b', 'a not and b', 'a and not b', 'a or not not b', 'a implies not b', 'not a not b',
                              'a and and b', 'a and or b', 'and a', 'or a b', 'a b and', 'a & b', 'a | b', 'a && b', 'a || b', 'a + b', 'a * b', 'a und b', 'a oder b', 'nicht a', 'a OR b', 'a Or b', '!a', '~a', 'a -> b', 'a => b', 'a xor b', 'a nor b', 'a nand b',
                              'a iff b', 'if a b', 'true', 'false', 'ab', 'aa', 'a a', 'a and b c', 'a, b', 'a.', '[a]', '{a}', '"a"', 'a or b;', '-a', '%s', '*', '0', '00',
                              '00 80', 'a0', 'a1 and b', 'A', 'NOT a', 'Not a', 'a AND b', 'a And b', 'a oR b', 'a IMPLIES b', 'a implies', 'implies a', 'noa', 'no a', 'n', 'no',
                              'an', 'i', 'im', 'imp', 'impl', 'impli', 'implie', 'o', 'an d', 'no t a', 'a o r b', 'a im plies b', 'a and d', 'a or r', 'i implies i', 'd and d'])


def random_texts():
    """texts at random, from small ones to such that are too long; good ones and damaged ones"""
    rng = random.Random(SEED_GOOD)
    for n in range(GOOD):
        yield f'text {n} of seed {SEED_GOOD}', random_blanks(rng, random_rule(rng, rng.choice(LETTERS_OF_RANDOM))).decode()
    rng = random.Random(SEED_DAMAGED)
    for n in range(DAMAGED):
        yield f'damaged text {n} of seed {SEED_DAMAGED}', damaged_rule(rng, random_rule(rng, rng.choice(LETTERS_OF_RANDOM))).decode('latin-1')


def made_by_hand():
    """all that is not at random; a text that has come is not taken again"""
    taken = set()
    for name, text in itertools.chain(told('example', EXAMPLES), neighbours(), short_texts(), depths(), lengths(), two_faults(), orders(), blanks(), other_bytes(), letters(),
                                      words()):
        if text not in taken:
            taken.add(text)
            yield name, text


def formula_vectors(cells):
    """name and body of each vector"""
    for text, due in EXAMPLES.items():
        found = rule_of(cells, text.encode())
        if found != (due if isinstance(due, int) else bytes.fromhex(due)):
            sys.exit(f'{text}: the model says {found!r}, document 02 {due}')
    for name, text in itertools.chain(made_by_hand(), random_texts()):
        text = text.encode('latin-1')
        answer = rule_of(cells, text)
        number, rule = (REFUSED + answer, b'') if isinstance(answer, int) else (len(answer), answer)
        yield name, number.to_bytes(4, 'little') + rule.ljust(MOST_RULE, b'\0') + text
