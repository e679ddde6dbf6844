"""house_cases, listing, save, judge, path_out and path_in: house files that are listed, read and written again, damaged, packed, unpacked, cleaned, fitted, judged, and written as path data.

A record is thirteen words (what to do, the file's three runs, the room in each lent slice) and the file's bytes; a run is so many bytes that are given and so many zeros behind them, so that large
files are kept by their heads. Files are taken apart record by record
(shared/house.py), and refusals are by the document's order; the curves of a listing are those of the Rust's joined fit. Two outlines
are read from the kept input. `listing` is the document's worked example, in its own words. `save` is given an example, and has to write the file of the Rust's
curves; `judge` is given that file. `path_out` is given the same example, and `path_in` the path data of the Rust's ring fit of another."""
import math
import os
import re
import struct

from shared import cleaning, cleaning_cases, house, kept, pack_cases
from shared.checker import PASSED, check
from shared.command import Stop
from shared.path_data import exported, imported
from shared.table import LARGEST, MOST_DIRECT, MOST_MARKS, Refused
from shared.words import INFINITY, MINUS, NAN, bits, digest_of, number, numbers, patterns_of, words
from vectors import outlines

NAME = 'house_cases'
LIST, READ, PREFIXES, CHANGES, WRITE_WORST, WRITE_FIRST, PACK, UNPACK, UNPACK_PREFIXES, UNPACK_CHANGES, SALVAGE = range(11)
CALLS = {PACK: house.pack, UNPACK: house.unpack}
FILLED = b'\7'  # what stands in each byte that is lent to them
HEAD = 13
RUNS = 3
LARGE = 8192                            # bytes of a file of which not all zeros are given
GAP = re.compile(rb'(?<=\0)\0{63,}')  # such zeros; the first one is, as it may be a head's last byte
KEPT = 2  # outlines, of 201 and 512 marks
HALF = bits(0.5)
ROOM = [10240, 1024, 1024, 10240, 5120, 100000]  # marks, first marks, worst marks, curves, parameters and bytes: enough for every file here of up to 4,097 marks
NO_ROOM = [0] * 6
LONGEST, LONGEST_LIST = 163840, 10240  # bytes of a file and of its list that the program has room for
BEYOND = 65536  # a mark's number that two bytes do not hold


def read():
    """(what to do, bytes, rooms) of each record of the kept input."""
    source = kept.Words(NAME)
    while source:
        todo, *rest = source.take(HEAD)
        counts, room = rest[:2 * RUNS], rest[2 * RUNS:]
        yield todo, b''.join(source.bytes(given) + bytes(zeros) for given, zeros in zip(counts[::2], counts[1::2])), room


def runs(data):
    """A file as three pairs of the bytes that are given and of how many zeros are behind them. Of a large one the longest gaps are not given."""
    found = sorted((gap.span() for gap in GAP.finditer(data)), key=lambda gap: gap[0] - gap[1]) if len(data) > LARGE else []
    gaps = sorted(found[:RUNS])
    if len(gaps) == RUNS and gaps[-1][1] != len(data):
        gaps = sorted(found[:RUNS - 1])  # the last run has what is behind them
    gaps += [(len(data), len(data))] * (RUNS - len(gaps))
    return [(data[start:here], end - here) for start, (here, end) in zip([0] + [end for _, end in gaps], gaps)]


def record(todo, data, room):
    parts = runs(data)
    head = [todo] + [count for given, zeros in parts for count in (len(given), zeros)] + room
    return kept.packed(head) + b''.join(given for given, _ in parts)


# ---- the reader, and the writer on what was read

def read_answer(data, room):
    """The reader's answer in words, and the file if it is taken."""
    held = house.parse(data)
    if held is None:
        return [9], None
    marks, firsts, worsts, curves, params, _ = room
    count, numbers_held = len(held.curves), sum(len(row) for _, row in held.curves)
    if held.count > MOST_MARKS:
        return [2], None
    if 2 * held.count > marks or count > firsts or len(held.worsts or []) > worsts or numbers_held > curves or (count and held.count > params):
        return [4], None
    return [0, held.count, count], held


def again(data, held, room, todo):
    """The writer's answer to what was read, and what follows it; the first worst mark, or the first first mark, may have been made too big for two bytes. The bytes have to be the file's own,
    unless one was, or the file was packed."""
    own = held.bytes()
    if own != (house.unpack(data) if held.packed else data):
        raise Stop('a file that is read and written again is another file', 1)
    if len(own) > room[5]:
        return '4\n'
    if todo == WRITE_WORST and held.worsts:
        held.worsts[0] = BEYOND
    elif todo == WRITE_FIRST and held.curves:
        held.curves[0] = BEYOND, held.curves[0][1]
    else:
        return f'0 {len(own)}\n' + 'DIFFERS\n' * (own != data)
    if held.count <= house.FEW_MARKS:
        return '9\n'
    return f'0 {len(own)}\n' + 'DIFFERS\n' * (held.bytes() != data)


# ---- the packer, and the way back

def lent_digest(front, count):
    """A digest of so many bytes that were lent: what was written, and the rest as before."""
    return f'{digest_of(front + FILLED * (count - len(front))):016x}'


def packing_answer(call, data, room):
    """The call's answer, and a digest of all that was lent to it."""
    made = pack_cases.either(call, data, room[5])
    head, front = (f'0 {len(made)}', made) if isinstance(made, bytes) else (str(made), b'')
    return f'{head} {lent_digest(front, room[5])}\n'


# ---- cleaning

def cleaning_answer(data, room):
    """The call's answer, and a digest of each slice that was lent to it."""
    try:
        file, list_ = cleaning.salvage(data, room[5], room[0])
        head = f'0 {len(file)} {len(list_)}'
    except Refused as refusal:
        file, list_, head = b'', b'', str(refusal.refusal)
    return f'{head} {lent_digest(file, room[5])} {lent_digest(list_, room[0])}\n'


# ---- the listing

def refused(refusal):
    return f'REFUSED {refusal}\n'


def listing_refusal(data):
    """9, 1, 2 or 5, in this order, or 0."""
    held = house.parse(data)
    if len(data) > house.MOST_BYTES or held is None:
        return 9
    if held.count < 2:
        return 1
    if held.count > MOST_DIRECT:
        return 2
    tolerance = number(held.tolerance)
    wild = any(not abs(number(mark)) <= LARGEST for mark in held.marks)
    return 5 if wild or not (math.isfinite(tolerance) and tolerance >= 0) else 0


def joined_line(data):
    held = house.parse(data)
    return outlines.Outline('joined', held.tolerance, held.marks).line()


def listing(data, rust):
    refusal = listing_refusal(data)
    if refusal:
        return refused(refusal)
    said = rust.answer_all([joined_line(data)])[0]
    if not said.startswith('0 '):
        return refused(said)
    curves = outlines.Lists(said).curves
    pieces = [f'PIECE {first} {words(nine[:8])}\n' for first, nine in curves]
    return f'OUTLINE {house.parse(data).count} {len(curves)}\n' + ''.join(pieces)


# ---- the cases

class Makers:
    """Files of half circles, with curves of no meaning."""

    def __init__(self, before):
        files = [house.parse(data) for _, data, _ in before]
        self.half_circle = outlines.arcs(held.marks for held in files if held)

    def marks(self, count):
        """Above 513 marks small whole numbers, so that the input packs well."""
        return self.half_circle(count) if count <= 513 else [bits(i % 4) for i in range(2 * count)]

    def plain(self, count):
        """Above 513 marks, where they are not fitted, zeros."""
        return house.build(HALF, self.marks(count) if count <= 513 else [0] * 2 * count)

    def full(self, count, curves, kept=False):
        rows = [(i, patterns_of(*(i + j / 8 for j in range(9 if kept else 8)))) for i in range(curves)]
        params = patterns_of(*(i / count if count <= 513 else i % 8 / 8 for i in range(count)))
        return house.build(HALF, self.marks(count), rows, params, [count - 1 - i for i in range(curves)] if kept else None)


# Mark numbers of the curves of large files, first and worst in turn: the four bytes of one are all others, and two are just beyond two bytes.
NUMBERS = [0x12345678, BEYOND, (1 << 32) - 1, 0x0001FFFF, BEYOND, 0]


def beside(kind, k):
    """The mark numbers of curve k, as its record has them."""
    form = house.KINDS[kind][0]
    numbers_ = NUMBERS[2 * k:2 * k + 2] if '2' in form else NUMBERS[2 * k:2 * k + 1]
    return numbers_ if 'I' in form else [value % BEYOND for value in numbers_]


def around(count, curves):
    """A file of so many marks, all zero, with these records of curves, whether they suit or not."""
    parts = [house.record(1, house.row([HALF])), house.record(2, bytes(16 * count)), *curves]
    return b''.join(parts + [house.record(4, bytes(8 * count))] * bool(curves))


def large(count, *kinds):
    """The same with a curve of each of these kinds."""
    return around(count, [house.curve(kind, beside(kind, k), patterns_of(*(k + j / 8 for j in range(house.KINDS[kind][1])))) for k, kind in enumerate(kinds)])


def bare(count, kind):
    """The same with one curve whose numbers are all zero: heads and mark numbers are all that is given."""
    return around(count, [house.curve(kind, beside(kind, 0), [0] * house.KINDS[kind][1])])


TWO = house.build(HALF, outlines.LINE_OF_TWO)


def listings(makers, collected):
    """From no marks to 513, 4,094 and 4,095; curves in the file do not count, and do not turn 2 into 4."""
    for count in (0, 1, 2, 3, 9):
        yield makers.plain(count)
    yield TWO
    yield from collected
    yield house.build(bits(1e-4), makers.marks(512))
    for count in (513, 4094, 4095):
        yield makers.plain(count)
    for count, curves in ((3, 1), (3, 2), (9, 8), (512, 100), (513, 1), (513, 512), (683, 682), (2726, 1)):
        yield makers.full(count, curves)
    for count, curves in ((3, 2), (512, 100), (618, 617), (619, 618)):  # the last is 22 bytes too long
        yield makers.full(count, curves, True)
    yield house.build(HALF, outlines.LINE_OF_TWO, [(65535, [NAN] * 8)], [INFINITY, NAN])


def listing_numbers():
    """Numbers out of range, and a run that is refused."""
    above = bits(math.nextafter(1e6, math.inf))
    for pattern in (NAN, INFINITY, MINUS + INFINITY, MINUS + NAN, NAN + 1, above, MINUS + INFINITY + 1):
        for place in (0, 5):
            marks = patterns_of(0, 0, 1, 2, 3, 4)
            marks[place] = pattern
            yield house.build(HALF, marks)
    for tolerance in (0, MINUS, 1, MINUS + 1, NAN, INFINITY, MINUS + INFINITY, bits(-1.0), bits(1e300)):
        yield house.build(tolerance, patterns_of(0, 0, 1, 1, 2, 0, 3, 5))
    yield house.build(HALF, outlines.ON_ONE_SPOT)
    yield house.build(HALF, outlines.ON_ONE_SPOT[:4])
    yield house.build(HALF, patterns_of(1e6, -1e6, -1e6, 1e6))


def no_files(makers):
    """What is no file, with 9 before 1 and 2."""
    yield from (b'', b'\0', TWO[:-1], TWO + b'\0', makers.full(513, 1) + b'\0', bytes(65536), bytes(65537))


def list_cases(makers, collected):
    for data in [*listings(makers, collected), *listing_numbers(), *no_files(makers)]:
        yield LIST, data, ROOM
    for data, room in ((TWO, 156), (TWO, 155), (TWO + b'\0', 10), (TWO + b'\0', 9)):  # room for the text, and a byte less
        yield LIST, data, ROOM[:5] + [room]


def out_of_turn():
    """Kinds out of turn or mixed, lengths that do not fit, too few marks for a curve, as many curves as marks."""
    one, marks = house.record(1, house.row([HALF])), house.record(2, house.row(outlines.LINE_OF_TWO))
    three, four, six = house.record(3, bytes(66)), house.record(4, bytes(16)), house.record(6, bytes(76))
    third, fourth = house.record(2, bytes(48)), house.record(4, bytes(24))  # for three marks
    yield from (
        one + marks + four + three, one + marks + three, one + marks + four, marks + one, one + one + marks, one + marks + three + four + four,
        one + marks + four + three + four, one + marks + three + marks, one + house.record(5, b'') + marks, one + marks + three + house.record(4, bytes(8)),
        one + marks + house.record(3, bytes(64)) + four, one + marks + house.record(3, bytes(67)) + four, house.record(1, bytes(7)) + marks,
        one + house.record(2, bytes(8)), one + house.record(2, bytes(16)) + three + house.record(4, bytes(8)),
        one + house.record(2, b'') + three + house.record(4, b''), one + marks + three * 2 + four,
        one + marks + struct.pack('<IH', 66, 3) + bytes(66) + four, one + marks + struct.pack('<IH', 1, 3) + four,
        one + marks + struct.pack('>IH', 68, 3) + bytes(66) + four,
        one + third + three + six + fourth, one + third + six + three + fourth, one + third + six + six + fourth,
        one + third + six + house.record(3, bytes(76)) + fourth, one + third + three + house.record(6, bytes(66)) + fourth, one + marks + six + six + four,
        one + marks + four + six, one + marks + six, one + marks + house.record(6, bytes(66)) + four, one + marks + house.record(6, bytes(74)) + four,
        one + marks + house.record(6, bytes(77)) + four, one + marks + house.record(3, bytes(76)) + four, one + marks + house.record(5, bytes(76)) + four,
        one + marks + house.record(7, bytes(76)) + four, one + house.record(2, bytes(16)) + six + house.record(4, bytes(8)))


def read_cases(makers):
    """Files that are whole; 9, then 2, then 4; each slice one too short."""
    for count, curves in ((0, 0), (1, 0), (2, 0), (2, 1), (9, 8), (512, 511), (513, 512), (4096, 0), (4096, 2), (683, 682)):
        yield READ, makers.full(count, curves), ROOM
    for count, curves in ((2, 1), (9, 8), (512, 511), (4097, 3)):
        yield READ, makers.full(count, curves, True), ROOM
    odd = [NAN + j for j in range(9)]
    for rows, worsts in (([(65535, odd[:8])], None), ([(65535, odd)], [65535])):
        yield READ, house.build(NAN + 1, [MINUS + NAN + 7, 1, INFINITY, MINUS], rows, [MINUS, INFINITY + 1], worsts), ROOM
    for kept_, wide, worsts in ((False, 8, 0), (True, 9, 3)):
        full = makers.full(9, 3, kept_)
        yield READ, full + b'\0', NO_ROOM
        exact = [18, 3, worsts, 3 * wide, 9, len(full)]
        yield from in_rooms(full, exact)
        for todo in (WRITE_WORST, WRITE_FIRST):
            yield todo, full, exact
            yield todo, full, ROOM
            yield todo, full, [*exact[:5], len(full) - 1]  # 4 before 9
    yield READ, makers.full(9, 0), [18, 0, 0, 0, 0, 164]
    yield READ, makers.full(9, 0), [17, 0, 0, 0, 0, 164]
    for todo in (WRITE_WORST, WRITE_FIRST):
        yield todo, makers.full(9, 0), ROOM
    for data in out_of_turn():
        yield READ, data, ROOM


def in_rooms(data, exact):
    """A file in as much room as it wants, and with each slice one too short."""
    yield READ, data, exact
    for place in range(6):
        if exact[place]:
            yield READ, data, [have - (place == i) for i, have in enumerate(exact)]


def large_cases():
    """Both sides of the marks from which on mark numbers have four bytes, and of the most marks."""
    for count, other in ((4096, 4097), (4097, 4096)):
        suits = [house.kind_of(count, kept_) for kept_ in (False, True)]
        for kind in house.KINDS:
            yield READ, large(count, kind, kind), ROOM
        for first, second in ((3, 5), (5, 3), (6, 7), (7, 6), suits, suits[::-1]):
            yield READ, large(count, first, second), ROOM
        for kind, length in zip(suits, (house.BODIES[house.kind_of(other, kept_)] for kept_ in (False, True))):  # as long as those of the other side
            yield READ, around(count, [house.record(kind, bytes(length))]), ROOM
        for todo, kind in ((todo, kind) for todo in (WRITE_WORST, WRITE_FIRST) for kind in suits):
            yield todo, large(count, kind, kind), ROOM
    for kind, wide, worsts in ((5, 8, 0), (7, 9, 3)):
        full = large(4097, kind, kind, kind)
        yield READ, full + b'\0', NO_ROOM
        yield READ, full, NO_ROOM
        yield from in_rooms(full, [8194, 3, worsts, 3 * wide, 4097, len(full)])
    for count in (4097, 100000, 100001):
        for room in (ROOM, NO_ROOM):
            yield READ, large(count), room
    for count in (100000, 100001):
        for kind in house.KINDS:
            yield READ, large(count, kind), ROOM
    for kind in (5, 7):
        yield PREFIXES, bare(4097, kind), ROOM
        yield CHANGES, bare(4097, kind), ROOM


def lent(count):
    """Room for so many bytes, and for nothing else."""
    return NO_ROOM[:5] + [count]


def packing_cases():
    """Files to pack and to unpack in some more room than they want, in as much, and in a byte less; what is refused in some room and in none: 9, then 12, then 4."""
    for todo, call in CALLS.items():
        for name, data in dict.fromkeys([*pack_cases.chosen_files(), *pack_cases.large_files()]):
            if pack_cases.CALLS[name] is call:
                made = pack_cases.either(call, data)
                wants = len(made) if isinstance(made, bytes) else 0
                yield from ((todo, data, lent(count)) for count in ((wants + 3, wants, wants - 1) if wants else (3, 0)))
    for data in (*pack_cases.SMALL, house.pack(pack_cases.bare(pack_cases.MANY, True))):
        yield UNPACK_PREFIXES, data, ROOM
        yield UNPACK_CHANGES, data, ROOM


def for_both(file, list_):
    """Room for so many bytes of a cleaned file, and so many of its list."""
    return [list_, *NO_ROOM[1:5], file]


def cleaning_rooms(data):
    """Just enough room for a file, a byte less in one slice and in the other, less in both, and some more. What is refused has some room, and none."""
    try:
        file, list_ = map(len, cleaning.salvage(data))
    except Refused:
        return [(3, 3), (0, 0)]
    return [(file, list_), (file - 1, list_), (file, list_ - 1), (file - 1, list_ - 1), (file + 3, list_ + 5)]


def clean_cases():
    """Files to clean, the long ones in fewer rooms. Of more marks than any fit takes there is no 2: it is their list that there is no room for."""
    rooms = [(data, room) for data in cleaning_cases.files() for room in cleaning_rooms(data)]
    rooms += [(data, room) for data in map(cleaning_cases.long_trace, (512, 513, 5000)) for room in cleaning_rooms(data)[:3]]
    rooms += [(data, cleaning_rooms(data)[0]) for data in cleaning_cases.with_more_curves(pack_cases.MANY)]
    beyond = large(MOST_MARKS + 1)
    rooms += [(data, (LONGEST, LONGEST_LIST)) for data in [cleaning_cases.long_trace(10000), *cleaning_cases.heavy_files(), beyond, beyond + b'\0']]
    yield from ((SALVAGE, data, for_both(*room)) for data, room in rooms)


def packed_cases():
    """Packed files that are read, in every room, and listed: what is written again is the file that was packed."""
    for data in [*pack_cases.that_pack(), *pack_cases.many_that_pack()]:
        yield READ, house.pack(data), ROOM
    for count in (9, pack_cases.MANY):
        for kept_, wide, worsts in ((False, 8, 0), (True, 9, 3)):
            data = pack_cases.list_of(count, 3, kept_)
            exact = [2 * count, 3, worsts, 3 * wide, count, len(data)]
            yield from in_rooms(house.pack(data), exact)
            yield READ, house.pack(data) + b'\0', NO_ROOM
            yield from ((todo, house.pack(data), exact) for todo in (WRITE_WORST, WRITE_FIRST))
    for data in pack_cases.malformed():
        yield READ, data, ROOM
    for data in pack_cases.SMALL:
        yield LIST, data, ROOM
        yield PREFIXES, data, ROOM
        yield CHANGES, data, ROOM


def collected_in(before, makers):
    """The listed files that are not made here."""
    made = [data for todo, data, _ in [*list_cases(makers, []), *packed_cases()] if todo == LIST]
    files = [data for todo, data, _ in before if todo == LIST]
    return kept.at_least(kept.without(files, made), KEPT, NAME)


def cases(before):
    makers = Makers(before)
    yield from list_cases(makers, collected_in(before, makers))
    yield from read_cases(makers)
    yield from large_cases()
    for data in (TWO, makers.full(2, 1), makers.full(3, 2), makers.full(2, 1, True), makers.full(3, 2, True)):
        yield PREFIXES, data, ROOM
        yield CHANGES, data, ROOM
    yield from packed_cases()
    yield from packing_cases()
    yield from clean_cases()


def prefixes(data):
    return (data[:length] for length in range(len(data)))


def changes(data):
    """Every other value of every byte that is given."""
    at = 0
    for given, zeros in runs(data):
        for place in range(at, at + len(given)):
            for value in range(256):
                if value != data[place]:
                    yield data[:place] + bytes([value]) + data[place + 1:]
        at += len(given) + zeros


def answer(todo, data, room, rust):
    if todo == LIST:
        text = listing(data, rust)
        return text if len(text) <= room[5] else '4\n'
    if todo in (READ, WRITE_WORST, WRITE_FIRST):
        said, held = read_answer(data, room)
        return ' '.join(map(str, said)) + (' ' + again(data, held, room, todo) if held else '\n')
    if todo in CALLS:
        return packing_answer(CALLS[todo], data, room)
    if todo == SALVAGE:
        return cleaning_answer(data, room)
    others = (prefixes if todo in (PREFIXES, UNPACK_PREFIXES) else changes)(data)
    if todo in (PREFIXES, CHANGES):
        heads = [read_answer(other, room)[0][0] for other in others]
    else:
        heads = [made if isinstance(made, int) else 0 for made in (pack_cases.either(house.unpack, other, room[5]) for other in others)]
    return ' '.join(str(heads.count(head)) for head in (0, 2, 4, 9)) + '\n'


def make(rust):
    before = list(read())
    rows = list(cases(before))
    rust.ask([joined_line(data) for todo, data, _ in rows if todo == LIST and not listing_refusal(data)])
    stdin = b''.join(record(*row) for row in rows)
    stdout = ''.join(answer(*row, rust) for row in rows)
    return kept.Made(NAME, stdin, stdout, len(rows), len(before))


# ---- the document's worked example

EXAMPLE = '0A000000 0100 000000000000E03F 22000000 0200' + '00' * 16 + '0000000000001040' + '00' * 8
EXAMPLE_LISTING = (
    'OUTLINE 2 1\n'
    'PIECE 0 0000000000000000 0000000000000000 3FF51EB851EB851F 0000000000000000 40051EB851EB851F 0000000000000000 4010000000000000 0000000000000000\n')


def make_listing(rust):
    data = bytes.fromhex(EXAMPLE)
    if listing(data, rust) != EXAMPLE_LISTING:
        raise Stop('the Rust lists the document\'s example otherwise', 1)
    return kept.Made('listing', data, EXAMPLE_LISTING, 1, 1)


# ---- an example, with the Rust's curves in it

SAVED, CLOSED = 'hood', 'tender'  # three blocks; a cover that comes back to its first mark


def example(name):
    with open(os.path.join(kept.ROOT, 'examples', f'{name}.house'), 'rb') as file:
        return file.read()


def saved(rust):
    """The example, and the file of the Rust's joined fit of it."""
    data = example(SAVED)
    held = house.parse(data)
    said = outlines.Lists(rust.answer_all([joined_line(data)])[0])
    return data, house.File(held.tolerance, held.marks, said.curves, said.params, said.worsts)


def make_save(rust):
    data, fitted = saved(rust)
    return kept.Made('save', data, fitted.bytes(), 1, 1)


def make_judge(rust):
    """The list checker by the document's text says what the line is."""
    fitted = saved(rust)[1]
    curves = numbers([pattern for _, nine in fitted.curves for pattern in nine])
    verdict = check(numbers(fitted.marks), number(fitted.tolerance), len(fitted.curves), curves, fitted.firsts(), numbers(fitted.params), worsts=fitted.worsts)
    if verdict[0] != PASSED:
        raise Stop("the Rust's list does not pass", 1)
    return kept.Made('judge', fitted.bytes(), f'PASSED {fitted.count} {len(fitted.curves)}\n', 1, 1)


def make_path_out(rust):
    data, fitted = saved(rust)
    return kept.Made('path_out', data, exported([numbers(eight) for eight in fitted.eights()], False) + '\n', 1, 1)


def make_path_in(rust):
    """A closed outline, as path data with a line end."""
    held = house.parse(example(CLOSED))
    said = outlines.Lists(rust.answer_all([outlines.Outline('ring', held.tolerance, held.marks).line()])[0])
    text = exported([numbers(nine[:8]) for _, nine in said.curves], True) + '\n'
    curves, closed = imported(text)
    if not closed or len(curves) != len(said.curves):
        raise Stop('path data is not read as what was written', 1)
    pieces = [f'PIECE {k} {words(patterns_of(*curve))}\n' for k, curve in enumerate(curves)]
    return kept.Made('path_in', text.encode('ascii'), f'PATH {len(curves)} CLOSED\n' + ''.join(pieces), 1, 1)
