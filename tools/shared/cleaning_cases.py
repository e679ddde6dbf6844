"""House files to clean: both sides of every line of the document, and random ones."""
import itertools
import math

from shared import house, pack_cases
from shared.cleaning import salvage
from shared.table import LARGEST, Refused
from shared.words import INFINITY, MINUS, NAN, bits, patterns_of

HALF = bits(0.5)
LIMIT = bits(LARGEST)
ABOVE, BELOW = (bits(math.nextafter(LARGEST, to)) for to in (math.inf, 0))
EVERY_BIT = (1 << 64) - 1
NANS = [NAN, NAN + 1, INFINITY + 1, MINUS + NAN, MINUS + INFINITY + 1, EVERY_BIT]  # quiet and signalling, of both signs
WILD = [*NANS, INFINITY, MINUS + INFINITY, ABOVE, MINUS + ABOVE, bits(1e300)]
TAME = [LIMIT, MINUS + LIMIT, BELOW, MINUS + BELOW, 0, MINUS, 1, MINUS + 1]        # the last two are next to zero
A, B, C = (patterns_of(*mark) for mark in ((1, 2), (3, -4), (-5, 0.5)))


# ---- files

def trace(*marks, tolerance=HALF):
    """A file of these marks and no curves."""
    return house.build(tolerance, [pattern for mark in marks for pattern in mark])


def with_marks(data, marks):
    """A file with other marks, as many as it has, that is packed if it was."""
    held = house.parse(data)
    held.marks = marks
    return house.pack(held.bytes()) if held.packed else held.bytes()


def shaken(count):
    """So many marks: every third one rests, and every seventh is no number."""
    marks = [[bits(i - (i % 3 == 2)), bits(0.5)] for i in range(count)]
    marks[6::7] = [[NAN, MINUS] for _ in marks[6::7]]
    return [pattern for mark in marks for pattern in mark]


# ---- which marks are dropped

def limits():
    """Each coordinate at and beyond the ends of its range, between two other marks and alone; and both at once."""
    for pattern in WILD + TAME:
        for mark in ([pattern, A[1]], [A[0], pattern], [pattern, pattern]):
            yield trace(B, mark, A)
            yield trace(mark)


def neighbours():
    """Two marks that are equal, by the signs of their zeros too, in one coordinate only, or not by a bit."""
    signs = list(itertools.product((0, MINUS), repeat=2))
    yield from (trace(list(first), list(second), A) for first in signs for second in signs)
    for other in (A, [A[0], B[1]], [B[0], A[1]], A[::-1], [A[0] ^ 1, A[1]], [A[0], A[1] ^ 1], [A[0] ^ MINUS, A[1]], [A[0], A[1] ^ MINUS]):
        yield trace(A, other)
        yield trace(other, A)
    for first, second in ((0, 1), (1, MINUS + 1), (LIMIT, BELOW), (LIMIT, LIMIT), (LIMIT, MINUS + LIMIT)):
        yield trace([first, 0], [second, 0])
        yield trace([0, first], [0, second])


def last_ones():
    """What counts is the last mark kept: not the one before, if that was dropped, and not one before it that was kept."""
    yield from (trace(A, B, A), trace(A, B, C, A), trace(A, A, B, B, A, A), trace(A, B, B, A))
    for pattern in (NAN, INFINITY, MINUS + ABOVE):
        wild, other = [pattern, A[1]], [A[0], pattern]
        for marks in ((A, wild, A), (A, other, A), (A, wild, wild, A), (A, wild, other, A), (A, wild, B), (wild, A, A), (A, A, wild), (wild, A), (A, wild), (wild, wild),
                      (A, B, wild, A), (A, B, wild, B), (wild, A, wild, A, wild, B, wild), ([0, 0], wild, [MINUS, 0], [0, MINUS], A)):
            yield trace(*marks)


def runs():
    """Marks that pile up: at the beginning, at the end, all of them; with numbers and counts of one digit, of two and of three."""
    wild = [ABOVE, 0]
    for count in (2, 3, 9, 10, 11, 12):
        yield from (trace(*[A] * count), trace(*[wild] * count), trace(*[A] * count, B), trace(B, *[A] * count), trace(*[wild] * count, A), trace(A, *[wild] * count))
    yield from (trace(*[A] * 101, B, B), trace(*[A, wild] * 50, B), trace(*[A, B] * 50, B), trace(*[wild] * 100))


def tolerances():
    """The tolerance stays whatever its bits are."""
    for pattern in (0, MINUS, 1, MINUS + 1, bits(-1.0), bits(1e300), INFINITY, MINUS + INFINITY, *NANS):
        yield trace(A, A, B, tolerance=pattern)


def with_curves():
    """Files of few marks with curves of each kind, packed and not, whose marks are shaken: none of the curves is left. Curves that do not meet, and numbers in them that are none."""
    for kept in (False, True):
        whole = [pack_cases.list_of(count, curves, kept) for count, curves in ((2, 1), (3, 2), (9, 1), (14, 13))]
        for data in [*whole, *map(house.pack, whole)]:
            yield with_marks(data, shaken(house.parse(data).count))
        yield with_marks(whole[1], (A * 3))
        yield with_marks(house.pack(whole[1]), patterns_of(*[math.nan] * 6))
        yield with_marks(pack_cases.joint(pack_cases.list_of(9, 4, kept), 1, 0, NAN, ABOVE), shaken(9))


def plain():
    """Marks of which none is dropped, from none on."""
    yield from (pack_cases.marks_alone(count) for count in (0, 1, 2, 9, 10, 99))


def no_files():
    """What is no house file to any call; and what is put in the place of a packed file's curves, which is one in a few cases."""
    yield from pack_cases.no_files()
    yield from pack_cases.malformed()


def cleaned(files):
    """What comes of those that are files, which is cleaned to itself."""
    for data in files:
        try:
            yield salvage(data)[0]
        except Refused:
            pass


def files():
    """All files of few marks, each once."""
    chosen = [*limits(), *neighbours(), *last_ones(), *runs(), *tolerances(), *with_curves(), *plain()]
    return list(dict.fromkeys([*chosen, *cleaned(chosen), *no_files()]))


SMALL = [trace(A, A, [NAN, 0]), with_marks(pack_cases.list_of(2, 1), A + A), with_marks(house.pack(pack_cases.list_of(3, 2, True)), A + A + [0, ABOVE])]


def damaged_small():
    """Every prefix of three small files, and each with one bit changed in every byte."""
    for data in SMALL:
        yield from (data[:end] for end in range(len(data)))
        yield from (data[:at] + bytes([data[at] ^ 1 << at % 8]) + data[at + 1:] for at in range(len(data)))


# ---- many marks

def teeth(count):
    """So many marks, small whole numbers: every tenth one rests, and one in a thousand is out of range."""
    steps = (i - (i % 10 == 9) for i in range(count))
    marks = [patterns_of(i % 4, i % 3) for i in steps]
    marks[500::1000] = [[MINUS + INFINITY, 0] for _ in marks[500::1000]]
    return [pattern for mark in marks for pattern in mark]


def long_trace(count):
    """These, and no curves."""
    return house.build(HALF, teeth(count))


def with_more_curves(count):
    """So many marks with curves, with worst marks and without, packed and not."""
    for kept in (False, True):
        data = with_marks(pack_cases.list_of(count, 3, kept), teeth(count))
        yield from (data, house.pack(data))


def large_files():
    """As many marks as the program takes, one more, and more than any program does; and files on both sides of the marks from which on mark numbers have four bytes, whole ones and broken ones."""
    yield from map(long_trace, (512, 513, 5000, 10000))
    for count in (pack_cases.FEW, pack_cases.MANY):
        for data in with_more_curves(count):
            yield from (data, data[:-1])


def heavy_files():
    """Files of which nearly all is dropped, so that the list is about as long as they are: of equal marks, of marks out of range, and with curves."""
    yield from (house.build(HALF, [0] * 2 * count) for count in (600, pack_cases.MANY, 5000))
    yield house.build(HALF, [NAN, 0] * 3000)
    yield pack_cases.list_of(pack_cases.MANY, 2, True)


# ---- random ones

def random_marks(hand, count):
    """So many marks of few values, so that many are equal, some by a zero's sign, and some out of range."""
    marks = []
    while len(marks) < 2 * count:
        pool = WILD if hand.random() < 0.1 else [0, MINUS, A[0], A[0], B[0]]
        marks += marks[-2:] if hand.random() < 0.2 else [hand.choice(pool), hand.choice(pool if hand.random() < 0.5 else TAME)]
    return marks


def random_file(hand):
    """A file of few marks of any tolerance, with curves or without, packed or not."""
    data = pack_cases.random_file(hand)
    packed = pack_cases.either(house.pack, data)
    data = packed if isinstance(packed, bytes) and hand.random() < 0.5 else data
    return with_marks(data, random_marks(hand, house.parse(data).count))


def random_cases(hand, count):
    """So many files, and each of them damaged."""
    for _ in range(count):
        data = random_file(hand)
        yield from (data, pack_cases.damaged(hand, data))
