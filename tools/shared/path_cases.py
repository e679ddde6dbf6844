"""Lists to export and texts to import: numbers at both sides of every rounding, every form of the grammar and its near misses, every refusal beside every other, and random ones."""
import math

NAN, INF, LEAST, MOST = math.nan, math.inf, 5e-324, 1e9
BEYOND = math.nextafter(MOST, INF)


def both(values):
    return [signed for value in values for signed in (value, -value)]


def about(value):
    """A number and its neighbours."""
    return [math.nextafter(value, -INF), value, math.nextafter(value, INF)]


# ---- numbers to export

# A number lies halfway between two thousandths only where it is an odd number of sixteenths; the even thousandth is the nearer to zero of the first, the farther of the second.
SIXTEENTHS = [k + part / 16 for k in (0, 1, 12345, 999999999) for part in (1, 3, 5, 15)]
NEAR_HALVES = [(k + 0.5) / 1000 for k in (0, 1, 2, 3, 4, 124, 999, 1000, 1001, 1005, 2000, 65535, 1234567, 987654321012)]
# Taken times 1000 as floats, the first three would come to a half; rounded to six places first, so would the others.
ROUNDED_TWICE = [1.0005, 0.0045, 98765.4325, 0.0004999999, 0.0624999999, 5.4994999999, 0.00049999999999, 0.9994999999]
CARRIES = [0.9995, 9.9995, 9.9996, 99.9999, 999.9995, 999999.9999, 999999999.9994, 999999999.9996, 999999999.9999]
SPELT = [0.0, 0.5, 5.0, 0.12, 0.1, 0.01, 0.001, 10.0, 10.01, 20.02, 100.0, 120.0, 1200.05, 1000000.0, 0.25, 0.125, 3.14, 2.718, 7.007, 1e8, 123456789.012]
TINY = [LEAST, 2.2250738585072014e-308, 1e-300, 1e-20, 0.0004, 0.0001, 2.0 ** -12]
SIZES = [MOST, math.nextafter(MOST, 0.0), 2.0 ** 29, 2.0 ** 29 + 0.001, 536870912.0625]
NUMBERS = both([*SIXTEENTHS, *[one for half in SIXTEENTHS[:8] for one in about(half)[::2]], *[one for half in NEAR_HALVES[:8] for one in about(half)], *NEAR_HALVES[8:], *ROUNDED_TWICE, *CARRIES,
                *SPELT, *TINY, *SIZES])


def meeting(values, ring=False):
    """Curves that meet, with these numbers one behind the other: the first two are where they start, and each further six a curve's own. What is wanting is filled with zeros; a ring's last curve
    ends where the first begins."""
    whole = values + [0.0] * (max(8 - len(values), 0) or -(len(values) - 2) % 6)
    curves = [whole[at:at + 8] for at in range(0, len(whole) - 2, 6)]
    return curves[:-1] + [curves[-1][:6] + curves[0][:2]] if ring else curves


ARCH = [0.0, 0.0, 0.0, 1.0, 1.0, 1.0, 1.0, 0.0]
BACK = [1.0, 0.0, 1.0, -1.0, 0.0, -1.0, 0.0, 0.0]
FAR = [5.0, 5.0, 5.0, 6.0, 6.0, 6.0, 6.0, 5.0]  # meets neither


def put(curves, place, value):
    """Curves with another number at a place, counted over all of them."""
    k, at = divmod(place, 8)
    return [*curves[:k], [*curves[k][:at], value, *curves[k][at + 1:]], *curves[k + 1:]]


def number_lists():
    """Every number in an open list, and some in a ring's."""
    for at in range(0, len(NUMBERS), 14):
        yield False, meeting(NUMBERS[at:at + 14])
    for at in range(0, len(NUMBERS), 56):
        yield True, meeting(NUMBERS[at:at + 26], True)


def apart_lists():
    """No curves, gaps of one bit, of a zero's sign and of a whole unit, between two curves and where a ring comes back."""
    above, minus = math.nextafter(1.0, 2.0), -0.0
    for curves in ([], [ARCH], [BACK], [ARCH, BACK], [BACK, ARCH], [ARCH, ARCH], [ARCH, FAR], [ARCH, BACK, ARCH], [ARCH, BACK, BACK], put([ARCH, BACK], 6, above), put([ARCH, BACK], 8, above),
                   put([ARCH, BACK], 7, minus), put([ARCH, BACK], 9, minus), put([ARCH, BACK], 14, minus), put([ARCH, BACK], 0, minus), put([ARCH, BACK], 15, LEAST), put([ARCH, BACK], 1, minus),
                   put(put([ARCH, BACK], 0, minus), 14, minus), put(put([ARCH, BACK], 7, minus), 9, minus), [[0.0] * 8], [[0.0] * 8] * 3, [[-0.0] * 8]):
        for ring in (False, True):
            yield ring, curves


def refused_lists():
    """A number that is not finite or too large, at every place of two curves; and two or three refusals at once, the later one of the order first in the list."""
    for place in range(16):
        for value in ((NAN, BEYOND), (INF, -BEYOND), (-INF, 1e300))[place % 3]:
            yield bool(place % 2), put([ARCH, BACK], place, value)
    for first, second in ((BEYOND, NAN), (-INF, BEYOND), (-BEYOND, INF), (1.7e308, -NAN)):
        yield False, put(put([ARCH, BACK], 2, first), 13, second)
        yield True, put(put([ARCH, FAR], 3, first), 12, second)
    for value in (NAN, INF, BEYOND, -BEYOND):
        yield False, put([ARCH, FAR], 13, value)
        yield False, put([ARCH, ARCH, BACK], 20, value)
        yield True, put([ARCH], 4, value)
        yield False, put(put([ARCH, BACK], 6, value), 8, value)
    for value in (MOST, -MOST):
        yield False, put([ARCH, BACK], 4, value)
        yield False, put([ARCH, FAR], 4, value)


def lists():
    """(ring, curves) of every list that is made here."""
    yield from number_lists()
    yield from apart_lists()
    yield from refused_lists()


def random_number(hand):
    """Near a thousandth or halfway between two, of any size up to the largest, or anything."""
    size = hand.choice([1, 10, 10 ** 3, 10 ** 6, 10 ** 9, 10 ** 12 - 1])
    whole = hand.randint(-size, size)
    way = hand.randrange(6)
    if way < 2:
        return (whole + 0.5 * way) / 1000
    if way == 2:
        return hand.choice(about((whole + 0.5) / 1000))
    if way == 3:
        return whole // 1000 + hand.randrange(16) / 16
    return hand.uniform(-1.0, 1.0) * 10 ** hand.randint(-12, 9 if way == 4 else 3)


def random_list(hand):
    """Curves that meet, and now and then not, or with a number that is refused."""
    ring = hand.random() < 0.5
    curves = meeting([random_number(hand) for _ in range(2 + 6 * hand.choice([1, 1, 2, 3, 7]))], ring)
    if hand.random() < 0.2:
        curves = put(curves, hand.randrange(8 * len(curves)), hand.choice([NAN, INF, BEYOND, -BEYOND, 0.0, -0.0, random_number(hand)]))
    return ring, curves


# ---- texts to import

TAKEN = [
    # one number beside the next: what parts them, and where nothing has to
    'M 1 2', 'M1 2', 'M1,2', 'M1 ,2', 'M1, 2', 'M 1 , 2', 'M1\t,\r2', 'M  1  2', 'M1-2', 'M1+2', 'M-1-2', 'M+1+2', 'M+1,-2', 'M.5.5', 'M5..5', 'M5.5.5', 'M1.25.375', 'M5. 5.', 'M5.,5.', 'M5.-5.',
    'M.5-.5', 'M-.001+.010', ' M 1 2 ', '\t\r M\t1\r2\t\r', 'M 0.1 0.2', 'M 0.100 0.120', 'M 007 00.5', 'M 000.000 0', 'M -0 -0', 'M -0.000 +0', 'M -.0 -0.', 'M 123456789.123 999999999.999',
    'M 536870912.001 -536870912.999', 'M 0.001 -0.001',
    # pairs behind M and L, and threes of pairs behind C
    'M 1 2 3 4', 'M1,2,3,4', 'M1 2,3 4', 'M1 2-3-4', 'M1 2 3 4 5 6', 'M1 2L3 4', 'M1 2 L 3 4', 'M 1 2 L 3 4 5 6', 'M1 2L3,4,5,6', 'M1 2L3 4L5 6', 'M1 2 3 4L5 6', 'M1 2\tL\r3 4', 'M0 0L-0 -0', 'M-0 0L0 -0',
    'M1 2C3 4 5 6 7 8', 'M1 2C3 4,5 6,7 8', 'M1,2C3,4,5,6,7,8', 'M 1 2 C 3 4 5 6 7 8', 'M1 2C3-4-5.5.6.7+8', 'M1 2C3 4 5 6 7 8 9 10 11 12 13 14', 'M1 2C3 4 5 6 7 8,9 10 11 12 13 14', 'M1 2C3 4 5 6 7 8C9 10 11 12 13 14',
    'M1 2L3 4C5 6 7 8 9 10L11 12', 'M1 2C3 4 5 6 7 8L9 10C11 12 13 14 15 16', 'M0.1 0.2L0.3 0.7L-123.456 789.012', 'M 1 1 1 1', 'M 0 0 C 0 0 0 0 0 0',
    # Z, where the path is there already and where it is not
    'M 1 2 Z', 'M1 2Z', 'M1 2 \t\r Z \t\r', 'M 0 0 L 4 0 Z', 'M 0 0 4 0 4 4 Z', 'M0 0L4 0L4 4Z', 'M0 0L4 0L0 0Z', 'M0 0L4 0L0 3Z', 'M0 0L4 0L3 0Z', 'M 0 0 C 1 1 2 2 0 0 Z', 'M 0 0 C 1 1 2 2 3 3 Z', 'M 0.5 0 L 4 0 L .500 -0 Z',
    'M -0 0 4 0 0 -0.00 Z', 'M 0.1 7 L 1 0 L 00.100 7. Z', 'M 0 0 0 0 Z', 'M 0 0 0 0.001 Z', 'M 5 5 L 5 5.001 Z', 'M 1000000000 0 L 0 0 L 1000000000. 0 Z', 'M 999999999.999 0 L 1000000000 0 Z', 'M 0 0 0 4 0 0 4 0 Z',
    # as large as a number may be, however it is written
    'M 1000000000 -1000000000', 'M 1000000000.000 -1000000000.', 'M 00000000001000000000.000 0', f'M {"0" * 60}1 {"0" * 60}.5', f'M {"0" * 400}1000000000 -{"0" * 400}1', 'M 1000000000 1000000000 L -1000000000 -1000000000 Z']

OUTSIDE = [
    # nothing, or not one M at the front
    '', ' ', '\t', '\r', 'x', '0', 'M', 'M ', 'Z', ' Z', 'L 1 2', 'C 1 2 3 4 5 6', '1 2', ',M 1 2', 'MM 1 2', 'M M 1 2', 'm 1 2', 'm1 2', 'M 1 2 M 3 4', 'M 1 2 L 3 4 M 5 6', 'M 1 2 Z M 3 4', 'LM 1 2', '+M 1 2',
    # letters that are not taken
    'M 1 2 z', 'M 1 2 l 3 4', 'M 1 2 L 3 4 z', 'M 1 2 c 3 4 5 6 7 8', 'M 1 2 H 3', 'M 1 2 V 3', 'M 1 2 S 3 4 5 6', 'M 1 2 Q 3 4 5 6', 'M 1 2 T 3 4', 'M 1 2 A 1 1 0 0 0 3 4', 'M 1 2 LL 3 4', 'M 1 2 L L 3 4', 'M 1 2 LC 3 4 5 6 7 8', 'M 1 2 N 3 4',
    # too few numbers, or too many
    'M 1', 'M 12', 'M12', 'M 1 2 3', 'M 1 2 3 4 5', 'M 1 2 L', 'M 1 2 L 3', 'M 1 2 L 3 4 5', 'M 1 2 C', 'M 1 2 C 3 4', 'M 1 2 C 3 4 5 6', 'M 1 2 C 3 4 5 6 7', 'M 1 2 C 3 4 5 6 7 8 9', 'M 1 2 C 3 4 5 6 7 8 9 10', 'M 1 2 C 3 4 5 6 7 8 9 10 11 12', 'M 1 2 C 3 4 5 6 7 8 9 10 11 12 13',
    'M 1 2 L Z', 'M 1 2 C Z', 'M Z', 'M 1 Z', 'M L 3 4', 'M 1 2 L 34', 'M 1 2 C 3 4 5 6 78', 'M 1 2 C 3 4 5 6 7 8 L 9',
    # what is behind Z
    'M 1 2 Z Z', 'M 1 2 ZZ', 'M 1 2 Z 3', 'M 1 2 Z 3 4', 'M 1 2 Z L 3 4', 'M 1 2 Z,', 'M 1 2 Z .', 'M 1 2 Z C 3 4 5 6 7 8', 'M 1 2 Z x', 'M 1 2 Z\0', 'M 1 2 Z z',
    # commas
    'M,1 2', 'M ,1 2', 'M 1,,2', 'M 1, ,2', 'M 1 ,, 2', 'M 1 2,', 'M 1 2 ,', 'M 1 2,L 3 4', 'M 1 2 , L 3 4', 'M 1 2 L,3 4', 'M 1 2 L ,3 4', 'M 1 2,Z', 'M 1 2 ,Z', 'M 1 2 L 3 4,', 'M 1 2 C,3 4 5 6 7 8', 'M 1 2 C 3 4,,5 6 7 8', 'M 1 2 C 3 4 5 6 7 8,', 'M 1 2,,3 4', 'M 1;2', ',',
    # places, exponents, signs and points
    'M 1.2345 6', 'M 1 2.3456', 'M .1234 5', 'M 1.2340 5', 'M 0.0000 5', 'M 1 2 L 3 4.0000', 'M 1.2345', 'M 1.2345.6', 'M 1.23456.7', 'M 1e3 2', 'M 1E3 2', 'M 1 2e0', 'M 1 2E+0', 'M 1.5e-1 2', 'M 1e 2', 'M .e1 2', 'M . 2', 'M 1 .', 'M .. 2', 'M 1...2', 'M + 2', 'M 1 +', 'M 1 -', 'M - 1 2',
    'M + 1 2', 'M +-1 2', 'M --1 2', 'M ++1 2', 'M 1 2-', 'M 1-+2', 'M +.', 'M 1 -.', 'M 0x1 2', 'M 1_0 2', 'M inf 2', 'M nan 2', 'M 1 2 L 3. .', 'M 1 2 L .3 4. 5',
    # other white space, and what is no text
    'M\x0b1 2', 'M 1\x0c2', 'M\xa01 2', 'M 1 2\0', '\0', 'M 1 2\x0b', '\x0cM 1 2', 'M \xb2 2', 'M 1 \xb92', '\xef\xbb\xbfM 1 2', '\xffM 1 2', 'M 1 2 L 3\x1f4', 'M 1 2"', '"M 1 2"', '<path d="M 1 2"/>', 'M 1 2 # end', 'M 1/2 3', 'M 1:2', 'M(1 2)']

LARGE = [
    'M 1000000000.001 0', 'M -1000000000.001 0', 'M 1000000001 0', 'M 0 10000000000', 'M 0 -1000000000.1', 'M 0 1000000000.010', f'M {"9" * 40} 0', f'M 0 {"9" * 400}', f'M {"0" * 40}1000000000.001 0', 'M 18446744073709551616 0', 'M 18446744073709551617 0', 'M 4294967296000 1',
    'M 9223372036854775808.5 0', f'M 1{"0" * 38} 0', f'M -{"1" + "0" * 39}.000 0', 'M 0 0 L 1000000000.001 0 Z', 'M 0 0 C 1 1 2 2 3 1000000000.001', 'M 0 0 C 2000000000 1 2 2 3 3', 'M 0 0 L 0 0 L 2000000000 0 0 0 Z', 'M 340282366920938463463374607431768211456 0',
    'M 340282366920938463463374607431768.211 0', 'M 1000000000.001 1000000000.001']

BOTH = ['M 1000000000.001 0 x', 'M 1000000000.001', 'M 2000000000 0 z', 'x M 2000000000 0', 'M 2000000000 0 Z Z', 'M 1 2 L 2000000000 0.0001', f'M {"9" * 40}', 'M 1000000000.0010 0', f'M {"9" * 400}e0 0', 'M 2000000000 0 M 0 0']  # outside the grammar, and a number too large

TEXTS = TAKEN + OUTSIDE + LARGE + BOTH
SPACES, ODD = ' \t\r', '\x0b\x0c\0;e\xa0'


def random_decimal(hand):
    """A number in one of its spellings."""
    size = hand.choice([10, 1000, 10 ** 6, 10 ** 9, 10 ** 12])
    text = f'{hand.randint(0, size) / 1000:.3f}'
    way = hand.randrange(5)
    if way == 0:
        text = text.rstrip('0')
    elif way == 1:
        text = text[:-4]
    elif way == 2:
        text = text.lstrip('0') if not text.startswith('0.000') else '0'
    elif way == 3:
        text = '0' * hand.randint(0, 3) + text[:-1]
    return hand.choice(['', '', '-', '+']) + text


def random_between(hand, before, after):
    """What parts two numbers: often as little as may be."""
    spaces = ''.join(hand.choices(SPACES, k=hand.choice([0, 0, 1, 1, 2])))
    text = spaces if hand.random() < 0.6 else f'{spaces},{hand.choice(["", " "])}'
    if not text and not (after[0] in '+-' or (after[0] == '.' and '.' in before)):
        return ' '
    return text


def random_numbers(hand, count):
    words = [random_decimal(hand) for _ in range(count)]
    return words[0] + ''.join(random_between(hand, before, after) + after for before, after in zip(words, words[1:]))


def random_text(hand):
    """A path in some spelling, closed or not, now and then back where it began; and every third one with a byte changed, put in or taken out."""
    def space():
        return ''.join(hand.choices(SPACES, k=hand.choice([0, 0, 1, 2])))
    text = space() + 'M' + space() + random_numbers(hand, 2 * hand.choice([1, 1, 2, 3]))
    first = text.strip(SPACES)[1:]
    for _ in range(hand.randrange(4)):
        letter = hand.choice('LC')
        text += space() + letter + space() + random_numbers(hand, (2 if letter == 'L' else 6) * hand.choice([1, 1, 2]))
    if hand.random() < 0.2 and first.count('.') < 3:
        text += f'L{first}'
    if hand.random() < 0.5:
        text += space() + 'Z'
    text += space()
    if hand.random() < 0.35:
        at = hand.randrange(len(text))
        new = hand.choice(['', *'MLCZzlcm0159.+-, \t', *ODD])
        text = text[:at] + new + text[at + hand.randrange(2):]
    return text


SOUP = ['M', 'L', 'C', 'Z', '0', '1', '5', '.', '-', '+', ',', ' ', ' ', '\t', '12', '0.5', '.25', '1000000000', 'z', 'e']


def random_soup(hand):
    """Pieces of the grammar in any order, behind an M as a rule."""
    return hand.choice(['M', 'M', 'M0 0', 'M 1 2L3 4', 'M1 2C3 4 5 6 7 8', '']) + ''.join(hand.choices(SOUP, k=hand.randint(0, 9)))
