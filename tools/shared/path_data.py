"""Path data by the document, apart from the port: curves as one subpath of SVG's, and a subpath as curves. Numbers are decimals of Python's; the grammar is one regular expression."""
import math
import re
from decimal import ROUND_HALF_UP, Decimal

from shared.table import Refused
from shared.words import bits

LARGEST = 10 ** 9            # a number in magnitude, on either way
THOUSANDTH = Decimal('0.001')
NOT_FINITE, NO_ROOM, TOO_LARGE, NO_PATH, APART = 5, 4, 10, 11, 12

# SVG 1.1's grammar of path data (8.3.9) for one subpath of M, L, C and Z, with three places at most and no exponent. A number is taken as long as it goes: behind it stands no digit,
# and behind one without a point no point either.
SPACE = r'[\x20\x09\x0D\x0A]'
NUMBER = r'[+-]?(?:[0-9]+(?![0-9.])|[0-9]+\.[0-9]{0,3}(?![0-9])|\.[0-9]{1,3}(?![0-9]))'
BETWEEN = f'(?:{SPACE}+(?:,{SPACE}*)?|,{SPACE}*)?'
PAIR = f'{NUMBER}{BETWEEN}{NUMBER}'
PAIRS = f'{PAIR}(?:{BETWEEN}{PAIR})*'
THREE = f'{PAIR}{BETWEEN}{PAIR}{BETWEEN}{PAIR}'
SUBPATH = re.compile(f'{SPACE}*M{SPACE}*{PAIRS}(?:{SPACE}*(?:L{SPACE}*{PAIRS}|C{SPACE}*{THREE}(?:{BETWEEN}{THREE})*))*(?:{SPACE}*Z)?{SPACE}*')
TOKEN = re.compile(f'[MLCZ]|{NUMBER}')


# ---- curves to text

def written(value):
    """A finite number in thousandths, halves away from zero."""
    rounded = Decimal(value).quantize(THOUSANDTH, ROUND_HALF_UP)
    text = f'{rounded:f}'.rstrip('0').rstrip('.')
    return '0' if text == '-0' else text


def same(point, other):
    return [bits(value) for value in point] == [bits(value) for value in other]


def exported(curves, ring):
    """The path data of curves of eight numbers; each test is made of all curves before the next one."""
    numbers = [value for curve in curves for value in curve]
    if not all(map(math.isfinite, numbers)):
        raise Refused(NOT_FINITE)
    if any(abs(value) > LARGEST for value in numbers):
        raise Refused(TOO_LARGE)
    follow = curves[1:] + curves[:1] if ring else curves[1:]
    if not curves or not all(same(curve[6:], after[:2]) for curve, after in zip(curves, follow)):
        raise Refused(APART)
    words = ['M', *map(written, curves[0][:2])]
    for curve in curves:
        words += ['C', *map(written, curve[2:])]
    return ' '.join(words + ['Z'] * ring)


# ---- text to curves

def line(start, end):
    """The two-mark line, as fit.rs works it out."""
    steps = [b - a for a, b in zip(start, end)]
    return [*start, *(a + step * 0.33 for a, step in zip(start, steps)), *(a + step * 0.66 for a, step in zip(start, steps)), *end]


def value_of(text):
    """The float nearest a decimal; a minus zero is plus zero."""
    return float(text) + 0.0


def imported(text, room=math.inf):
    """The curves of a path, and whether it is closed. `room` is how many numbers there is room for."""
    if not SUBPATH.fullmatch(text):
        raise Refused(NO_PATH)
    tokens = TOKEN.findall(text)
    if any(abs(Decimal(token)) > LARGEST for token in tokens if token not in 'MLCZ'):
        raise Refused(TOO_LARGE)
    curves, first, here = [], None, None
    letter, waiting = 'M', []
    for token in tokens:
        if token in 'MLC':
            letter = token
            continue
        if token == 'Z':
            if here != first:
                curves.append(line(here, first))
            continue
        waiting.append(value_of(token))
        if len(waiting) < (6 if letter == 'C' else 2):
            continue
        end, before = waiting[-2:], here
        if letter == 'C':
            curves.append([*before, *waiting])
        elif before is not None:
            curves.append(line(before, end))
        first, here, waiting = first or end, end, []
    if 8 * len(curves) > room:
        raise Refused(NO_ROOM)
    return curves, tokens[-1] == 'Z'
