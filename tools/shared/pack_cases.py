"""House files to pack and to unpack: both sides of every line of the document, and random ones."""
import struct

from shared import house
from shared.table import Refused
from shared.words import INFINITY, MINUS, NAN, bits, patterns_of

HALF = bits(0.5)
FEW, MANY = house.FEW_MARKS, house.FEW_MARKS + 1  # marks of a file whose mark numbers have two bytes, and four
BEYOND = 1 << 16        # a mark's number that two bytes do not hold
LARGEST = (1 << 32) - 1  # and the largest of four


# ---- files

def marks_alone(count):
    """Few marks are all different; many are zeros, which pack well."""
    return house.build(HALF, patterns_of(*range(2 * count)) if count <= 99 else [0] * 2 * count)


def list_of(count, curves, kept=False, firsts=None, worsts=None):
    """A file of so many marks with curves that meet, whose numbers are all different, and given mark numbers or any."""
    chain = patterns_of(*(i / 8 for i in range(1, 6 * curves + 3)))
    rows = [(first, chain[6 * k:6 * k + 8] + patterns_of(-k) * kept) for k, first in zip(range(curves), firsts or range(curves))]
    held = house.parse(marks_alone(count))
    params = patterns_of(*(i / 4 for i in range(count))) if count <= 99 else [0] * count
    return house.build(held.tolerance, held.marks, rows, params, (worsts or [count - 1 - k for k in range(curves)]) if kept else None)


def bare(count, kept):
    """A file of so many marks with one curve, whose numbers are all zero: heads and mark numbers are all that is given."""
    return house.build(0, [0] * 2 * count, [(0x0102, [0] * (8 + kept))], [0] * count, [0x0304] if kept else None)


def with_number(data, curve, place, pattern):
    """A file with another number in one of its curves."""
    held = house.parse(data)
    first, numbers = held.curves[curve]
    held.curves[curve] = first, numbers[:place] + [pattern] + numbers[place + 1:]
    return held.bytes()


def joint(data, curve, place, before, after):
    """A file with these two patterns where a curve ends and the next one starts: in x for place 0, in y for 1."""
    return with_number(with_number(data, curve, 6 + place, before), curve + 1, place, after)


def again(records):
    return b''.join(house.record(*one) for one in records)


def with_body(data, change):
    """A packed file with another body of its curves."""
    *marks, (kind, body), params = house.records_of(data)
    return again([*marks, (kind, change(body)), params])


def with_mark(data, at, number):
    """The same with another mark number at a place of that body."""
    return with_body(data, lambda body: body[:at] + struct.pack('<I', number) + body[at + 4:])


FIRST_AT = 1  # the first curve's first mark in that body


def next_at(kept, curve):
    return house.START.size + house.PACKED_CURVES[kept].size * curve


def worst_at(curve):
    return next_at(True, curve + 1) - 4


def of_two_flags(kept):
    """Sixteen curves without worst marks are as long as thirteen with them: a body that is well formed by either flag."""
    body = bytearray(house.START.pack(kept, 0, *patterns_of(1, 2)) + bytes(16 * house.PACKED_CURVES[False].size))
    for other, last in ((False, 15), (True, 12)):
        struct.pack_into('<I', body, next_at(other, last), 19)
    return again([*house.records_of(marks_alone(20)), (house.PACKED, bytes(body)), (4, bytes(8 * 20))])


# ---- files to pack

def that_pack():
    """Files of few marks with one curve and with several, and with as many as there can be; first marks that do not rise; mark numbers at the end of their range."""
    for kept in (False, True):
        for count, curves in ((2, 1), (3, 1), (3, 2), (9, 8), (14, 13)):
            yield list_of(count, curves, kept)
        yield list_of(9, 3, kept, [7, 0, 7], [0, 65535, 3])
        yield list_of(9, 3, kept, [65535, 8, 0], [65535, 0, 65535])
        for pattern in (NAN, NAN + 1, MINUS + INFINITY, MINUS, 0):
            yield joint(joint(list_of(9, 3, kept), 0, 0, pattern, pattern), 1, 1, pattern, pattern)


def apart():
    """Curves that do not meet: by the last bit, in x or in y, at the first joint or the last; by the sign of a zero; by two patterns of NaN."""
    for kept in (False, True):
        whole = list_of(9, 4, kept)
        for curve in (0, 2):
            for place in (0, 1):
                here = house.parse(whole).curves[curve][1][6 + place]
                yield joint(whole, curve, place, here ^ 1, here)
                yield joint(whole, curve, place, here, here ^ 1 << 63)
        for before, after in ((0, MINUS), (MINUS, 0), (NAN, NAN + 1), (NAN, MINUS + NAN)):
            for place in (0, 1):
                yield joint(whole, 1, place, before, after)


def many_that_pack():
    """The same of as many marks as have mark numbers of two bytes, and of one more, with mark numbers at the ends of their range."""
    for kept in (False, True):
        for count in (FEW, MANY):
            yield list_of(count, 1, kept)
        yield list_of(FEW, 2, kept, [65535, 0], [4095, 65535])
        yield list_of(MANY, 3, kept, [LARGEST, BEYOND, 0x12345678], [0x01020304, LARGEST, BEYOND])


def many_apart():
    for count in (FEW, MANY):
        for kept in (False, True):
            yield joint(list_of(count, 2, kept), 0, 0, 1, 0)


def alone():
    """Marks without curves, which stay as they are both ways."""
    for count in (0, 1, 2, 9):
        yield marks_alone(count)


def no_files():
    """What is no house file to either call; where curves do not meet either, 9 comes first."""
    yield from (b'', b'\0', b'\n', bytes(52), marks_alone(2)[:-1], marks_alone(2) + b'\0')
    for whole in (list_of(3, 2), list_of(3, 2, True)):
        broken = joint(whole, 0, 0, 0, MINUS)
        yield from (whole[:-1], whole + b'\0', broken[:-1], broken + b'\0')
        *marks, one, two, params = house.records_of(broken)
        yield from map(again, ([*marks, one, two], [*marks, params, one, two], [*marks, one, (5, two[1]), params], [*marks, one, two, params, params]))


# ---- files to unpack

def bodies(kept):
    """Packed files of nine marks with something else in the body of their curves."""
    whole, size = house.pack(list_of(9, 3, kept)), house.PACKED_CURVES[kept].size
    for flag in (2, 3, 128, 255, not kept):
        yield with_body(whole, lambda body: bytes([flag]) + body[1:])
    for length in (0, 1, 20, 21, 22, 21 + size - 1, 21 + size + 1, 21 + 2 * size, 21 + 3 * size - 1):
        yield with_body(whole, lambda body: body[:length])
    yield with_body(whole, lambda body: body + b'\0')
    for number in (0, 7, 9, 8 + BEYOND, LARGEST):
        yield with_mark(whole, next_at(kept, 2), number)
    for at in [FIRST_AT, next_at(kept, 0), next_at(kept, 1)] + [worst_at(k) for k in range(3)] * kept:
        for number in (65535, BEYOND, LARGEST):
            yield with_mark(whole, at, number)


def at_the_side(count, kept):
    """Mark numbers that two bytes hold and ones that they do not, and the last mark's number off by one, in files on both sides of the marks from which on there are four."""
    whole = house.pack(list_of(count, 2, kept))
    for at in [FIRST_AT, next_at(kept, 0)] + [worst_at(1)] * kept:
        for number in (65535, BEYOND):
            yield with_mark(whole, at, number)
    for number in (count - 2, count):
        yield with_mark(whole, next_at(kept, 1), number)


def out_of_turn(kept):
    """Records that are twice there, mixed, missing or in another place, and too many curves."""
    whole = list_of(3, 2, kept)
    packed, (_, _, one, two, _) = house.pack(whole), house.records_of(whole)
    tolerance, marks, curves, params = house.records_of(packed)
    head = [tolerance, marks]
    yield from map(again, (
        [*head, curves, curves, params], [*head, curves, one, params], [*head, one, curves, params], [*head, curves, one, two, params], [*head, curves], [*head, params, curves], [*head, params],
        [curves, *head, params], [tolerance, curves, marks, params], [*head, curves, params, params], [*head, curves, (4, params[1][:-8])], [*head, curves, (4, params[1] + bytes(8))],
        [*head, curves, (8, params[1])], [*head, curves, marks], *([*head, (kind, curves[1]), params] for kind in (3, 5, 6, 7, 9, 264))))
    yield from (packed + b'\0', packed[:-1])
    body = house.packed_curves(house.parse(whole))
    for count, more in ((0, 1), (1, 1), (2, 1), (2, 2), (3, 2), (3, 3), (3, 4)):
        curve = body[-house.PACKED_CURVES[kept].size:]
        rows = house.START.pack(kept, 0, 1, 2) + (struct.pack('<I', (count - 1) % (1 << 32)) + curve[4:]) * more
        yield again([tolerance, (2, bytes(16 * count)), (house.PACKED, rows), (4, bytes(8 * count))])


def malformed():
    """Packed files that are changed in one thing; a few of them are packed files all the same."""
    for kept in (False, True):
        yield from bodies(kept)
        yield from out_of_turn(kept)
        yield of_two_flags(kept)


SMALL = [house.pack(list_of(2, 1)), house.pack(list_of(3, 2, True))]


def damaged_small():
    """Every prefix of two small packed files, and both with one bit changed in every byte."""
    for data in SMALL:
        yield from (data[:end] for end in range(len(data)))
        yield from (data[:at] + bytes([data[at] ^ 1 << at % 8]) + data[at + 1:] for at in range(len(data)))


# ---- one call, and both

def either(call, data, room=None):
    """What a call makes of these bytes, or its refusal."""
    try:
        return call(data, room)
    except Refused as refused:
        return refused.refusal


CALLS = {'pack': house.pack, 'unpack': house.unpack}


def both_ways(that_pack_):
    """(call, bytes) of files that pack: what is packed is unpacked too, and each is given to the wrong call."""
    for data in that_pack_:
        packed = house.pack(data)
        yield from ((call, one) for one in dict.fromkeys((data, packed)) for call in CALLS)


def chosen_files():
    """The cases of few marks that were thought of one by one."""
    yield from both_ways([*that_pack(), *alone()])
    yield from ((call, data) for data in [*apart(), *no_files()] for call in CALLS)
    yield from (('unpack', data) for data in malformed())


def files():
    """All cases of few marks."""
    yield from chosen_files()
    yield from (('unpack', data) for data in damaged_small())


def large_files():
    """Those on both sides of the marks from which on mark numbers have four bytes."""
    yield from both_ways(many_that_pack())
    yield from (('pack', data) for data in many_apart())
    yield from (('unpack', data) for count in (FEW, MANY) for kept in (False, True) for data in at_the_side(count, kept))


# ---- random ones

def random_file(hand):
    """A file of few marks whose curves mostly meet, with numbers of any bits."""
    count = hand.randint(2, 40)
    curves, kept = hand.randint(0, count - 1), hand.random() < 0.5
    chain = [hand.choice([hand.getrandbits(64), 0, MINUS, NAN]) for _ in range(6 * curves + 2)]
    rows = [(hand.choice([k, hand.randrange(BEYOND)]), chain[6 * k:6 * k + 8] + [hand.getrandbits(64)] * kept) for k in range(curves)]
    data = house.build(hand.getrandbits(64), [hand.getrandbits(64) for _ in range(2 * count)], rows, [hand.getrandbits(64) for _ in range(count)], [hand.randrange(BEYOND) for _ in rows] if kept else None)
    return data if curves < 2 or hand.random() < 0.8 else with_number(data, hand.randrange(curves), hand.choice((0, 1, 6, 7)), hand.choice([0, MINUS, NAN]))


def damaged(hand, data):
    """The same with a byte changed, taken out or put in, or cut off somewhere."""
    at = hand.randrange(len(data))
    return hand.choice([
        data[:at] + bytes([data[at] ^ 1 << hand.randrange(8)]) + data[at + 1:], data[:at] + data[at + 1:], data[:at] + bytes([hand.randrange(256)]) + data[at:], data[:at]])


def random_cases(hand, count):
    """So many files to pack, what comes of them to unpack, and damaged ones of both."""
    for _ in range(count):
        data = random_file(hand)
        packed = either(house.pack, data)
        yield 'pack', data
        yield 'pack', damaged(hand, data)
        if isinstance(packed, bytes):
            yield 'unpack', packed
            yield from (('unpack', damaged(hand, packed)) for _ in range(2))
