"""sqrt_cases: square roots.

The first 56 patterns are published and are read from the kept input; `published` holds them against the tables that they are from. Edge
patterns follow. The roots are worked out from whole numbers, by math.isqrt on the exact value and one rounding."""
import math
import random
import re

from shared import kept
from shared.command import Stop
from shared.words import INFINITY, MINUS, NAN, bits, number, one_nan

NAME = 'sqrt_cases'
PUBLISHED = 56
HIDDEN = 1 << 52  # the digit that a normal number's pattern leaves out


def exact(pattern):
    """The root's pattern, correctly rounded."""
    if pattern == MINUS:
        return pattern
    if pattern > INFINITY:
        return NAN
    if pattern in (0, INFINITY):
        return pattern
    field, digits = pattern >> 52, pattern % HIDDEN
    whole, power = (digits, -1074) if field == 0 else (digits + HIDDEN, field - 1075)
    shift = 2 * 60 + power % 2  # √(whole·2^power) = √(whole·2^shift)·2^((power - shift)/2)
    square = whole << shift
    root = math.isqrt(square)
    power = (power - shift) // 2
    drop = root.bit_length() - 53  # a root is never subnormal
    kept_digits, low, half = root >> drop, root % (1 << drop), 1 << (drop - 1)
    if low > half or (low == half and (root * root != square or kept_digits % 2)):
        kept_digits += 1
    if kept_digits >> 53:
        kept_digits, power = kept_digits >> 1, power + 1
    return ((power + drop + 1075 - 1) << 52) + kept_digits


FIXED = (
    0, 1, 2, 3, 4, HIDDEN - 1, HIDDEN, HIDDEN + 1, 0x3FF0000000000000, 0x3FEFFFFFFFFFFFFF, 0x3FF0000000000001, 0x4010000000000000,
    0x400FFFFFFFFFFFFF, 0x4010000000000001, 0x7FEFFFFFFFFFFFFF, INFINITY, NAN, 0x7FF0000000000001, MINUS, MINUS + 1, 0xBFF0000000000000,
    0xFFF0000000000000, 0xFFF8000000000000)


def near_middles(hand):
    """Numbers next to a square whose root lies in the middle of two values."""
    for _ in range(60):
        odd = 2 * hand.randrange(1 << 52, 1 << 53) + 1
        square = odd * odd
        drop = square.bit_length() - 53
        for digits in (square >> drop, (square >> drop) + 1):
            if not digits >> 53:
                yield ((1023 + 52 + drop % 2) << 52) + digits % HIDDEN


def edges():
    hand = random.Random(754)
    yield from FIXED
    for place in range(52):  # every subnormal power of two
        yield 1 << place
    for field in range(1, 2047, 61):  # both ends of a binade
        yield field << 52
        yield (field << 52) + HIDDEN - 1
    yield from near_middles(hand)
    for _ in range(60):  # squares and their neighbours
        root = hand.randrange(1 << 25, 1 << 26)
        square = bits(float(root * root))
        yield from (square - 1, square, square + 1)
    for _ in range(100):
        yield hand.randrange(INFINITY)


def inputs():
    source = kept.Words(NAME)
    return source.take(len(source.data) // 8)


def roots():
    """Every pattern of this program's input with its root."""
    first = kept.at_least(inputs()[:PUBLISHED], PUBLISHED, NAME)
    return [(pattern, exact(pattern)) for pattern in first + list(edges())]


def make(rust):
    pairs = roots()
    stdout = ''.join('%016x %016x\n' % (one_nan(pattern), root) for pattern, root in pairs)
    return kept.Made(NAME, kept.packed([pattern for pattern, _ in pairs]), stdout, len(pairs), len(inputs()), f'{PUBLISHED} published')


# ---- the published tables

SPECIAL = {'Inf(-1)': -math.inf, '-Pi': -math.pi, 'Copysign(0, -1)': -0.0, 'Inf(1)': math.inf, 'NaN()': math.nan}


def go_value(text):
    text = text.split('//')[0].strip().rstrip(',').strip()
    by_bits = re.search(r'frombits\((\d+)\)', text)
    if by_bits:
        return number(int(by_bits[1]))
    return SPECIAL[text] if text in SPECIAL else float(text)


def go_table(text, name):
    table = re.search(r'var %s = \[\]float64{(.*?)\n}' % name, text, re.S)
    if not table:
        raise Stop(f'there is no table {name}: give math/all_test.go of golang-1.19-src')
    return [go_value(entry) for entry in table[1].split(',\n') if entry.strip()]


def go_pairs(text):
    yield from zip([abs(value) for value in go_table(text, 'vf')], go_table(text, 'sqrt'))
    yield from zip(go_table(text, 'vfsqrtSC'), go_table(text, 'sqrtSC'))


def python_pairs(text):
    """The lines on the real axis: √(-a) is i·√a, so that a's root stands in one part or the other."""
    for line in text.split('\n'):
        found = re.match(r'sqrt\d+ sqrt (\S+) (\S+) -> (\S+) (\S+)', line)
        if not found:
            continue
        real, imaginary, real_root, imaginary_root = (float(word) for word in found.groups())
        if imaginary == 0 and math.copysign(1, imaginary) > 0 and not math.isnan(real):
            yield abs(real), abs(imaginary_root) if real < 0 else real_root


def published(go_path, python_path):
    """Holds the first patterns, and their roots, against the tables; how many there are."""
    with open(go_path, encoding='utf-8', errors='replace') as file:
        pairs = list(go_pairs(file.read()))
    with open(python_path, encoding='utf-8', errors='replace') as file:
        pairs += python_pairs(file.read())
    tables = [(one_nan(bits(value)), one_nan(bits(root))) for value, root in pairs]
    mine = [(one_nan(pattern), root) for pattern, root in roots()[:PUBLISHED]]
    if tables != mine:
        raise Stop(f'the tables have {len(tables)} roots, and not the {PUBLISHED} that are kept', 1)
    return len(tables)
