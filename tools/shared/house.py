"""The house file, taken apart and put together record by record, from the document alone; packed, it stores each joint once."""
import struct

from shared.table import Refused

HEAD = 6            # bytes of a record's length and kind
FEW_MARKS = 4096    # of a file whose mark numbers have two bytes; above it they have four
MOST_BYTES = 65536  # that the listing reads

# A curve's record by its kind: its mark numbers (the first mark; the first and the worst one), and how many numbers stand behind them.
KINDS = {3: ('<H', 8), 6: ('<2H', 9), 5: ('<I', 8), 7: ('<2I', 9)}
BODIES = {kind: struct.calcsize(beside) + 8 * numbers for kind, (beside, numbers) in KINDS.items()}  # in bytes

# The one record of all curves in a packed file. It begins with whether worst marks are kept, the first curve's first mark, and where that curve starts; then each curve has its next mark (the first
# one of the curve behind it, and at last the last mark of all), its two controls and its end, and where they are kept the distance and the worst mark.
PACKED = 8
START = struct.Struct('<BI2Q')
PACKED_CURVES = {False: struct.Struct('<I6Q'), True: struct.Struct('<I7QI')}
LARGEST_LENGTH = (1 << 32) - 1  # that a record's head can say
NO_ROOM, NO_FILE, APART = 4, 9, 12


def kind_of(count, kept):
    """The kind of the curves in a file of so many marks, with their worst marks or without."""
    if count <= FEW_MARKS:
        return 6 if kept else 3
    return 7 if kept else 5


def longest(count):
    """The bytes of the longest file of so many marks that is not packed: a curve between each two, with its worst mark. From three marks on a packed one is shorter."""
    bodies = [8, 16 * count, 8 * count] + [BODIES[kind_of(count, True)]] * (count - 1)
    return sum(bodies) + HEAD * len(bodies)


def record(kind, body):
    return struct.pack('<IH', 2 + len(body), kind) + body


def row(patterns):
    return struct.pack('<%dQ' % len(patterns), *patterns)


def patterns_in(body):
    return list(struct.unpack('<%dQ' % (len(body) // 8), body))


def curve(kind, beside, numbers):
    """The record of one curve: its first mark, or its first and its worst one, and then its patterns."""
    return record(kind, struct.pack(KINDS[kind][0], *beside) + row(numbers))


def build(tolerance, marks, curves=(), params=(), worsts=None, kind=None):
    """The bytes of a file. All numbers are patterns; curves are pairs of a first mark and eight patterns, or nine where worst marks are given. Their kind is the one
    that suits, unless another is asked for."""
    parts = [record(1, row([tolerance])), record(2, row(marks))]
    kind = kind or kind_of(len(marks) // 2, worsts is not None)
    if worsts is None:
        parts += [curve(kind, [first], eight) for first, eight in curves]
    else:
        parts += [curve(kind, [first, worst], nine) for (first, nine), worst in zip(curves, worsts)]
    if curves:
        parts.append(record(4, row(params)))
    return b''.join(parts)


def records_of(data):
    """(kind, body) of each record, or None where a length does not fit."""
    found, at = [], 0
    while at < len(data):
        if at + HEAD > len(data):
            return None
        length, kind = struct.unpack_from('<IH', data, at)
        if length < 2 or at + 4 + length > len(data):
            return None
        found.append((kind, data[at + HEAD:at + 4 + length]))
        at += 4 + length
    return found


class File:
    """What a house file holds, in patterns; worst marks only where they are kept, with nine numbers for each curve. Whether it was packed makes no other difference."""

    def __init__(self, tolerance, marks, curves, params, worsts=None):
        self.tolerance, self.marks, self.curves, self.params, self.worsts = tolerance, marks, curves, params, worsts
        self.count, self.packed = len(marks) // 2, False

    def bytes(self):
        """The file with a record for each curve."""
        return build(self.tolerance, self.marks, self.curves, self.params, self.worsts)

    def eights(self):
        """The curves' own numbers."""
        return [numbers[:8] for _, numbers in self.curves]

    def firsts(self):
        return [first for first, _ in self.curves]


def take_curves(held, kind, bodies):
    """Puts the curves of these records into a file."""
    form = KINDS[kind][0]
    beside, numbers_at = [struct.unpack_from(form, body) for body in bodies], struct.calcsize(form)
    held.curves = [(first, patterns_in(body[numbers_at:])) for (first, *_), body in zip(beside, bodies)]
    if len(beside[0]) > 1:
        held.worsts = [worst for _, worst in beside]


def curve_records(held, records):
    """Takes the records of single curves; whether they are well formed. Their kind has to suit the number of marks."""
    kind = records[0][0]
    if kind not in [kind_of(held.count, kept) for kept in (False, True)]:
        return False
    if any(other != kind or len(body) != BODIES[kind] for other, body in records):
        return False
    take_curves(held, kind, [body for _, body in records])
    return True


def packed_record(held, body):
    """Takes the one record of a packed file; whether it is well formed."""
    if len(body) < START.size or body[0] > 1:
        return False
    kept, first, *here = START.unpack_from(body)
    form = PACKED_CURVES[bool(kept)]
    if len(body) == START.size or (len(body) - START.size) % form.size:
        return False
    held.packed, held.worsts = True, [] if kept else None
    for after, *rest in form.iter_unpack(body[START.size:]):
        if kept:
            held.worsts.append(rest.pop())
        held.curves.append((first, here + rest))
        first, here = after, rest[4:6]
    return first == held.count - 1 and marks_fit(held)


def marks_fit(held):
    """Whether the mark numbers of the curves are such as their records can hold."""
    return held.count > FEW_MARKS or all(mark < 1 << 16 for mark in held.firsts() + (held.worsts or []))


def parse(data):
    """The file that these bytes are, or None."""
    records = records_of(data)
    if records is None or [kind for kind, _ in records[:2]] != [1, 2]:
        return None
    (_, tolerance), (_, marks), *rest = records
    if len(tolerance) != 8 or len(marks) % 16:
        return None
    held = File(patterns_in(tolerance)[0], patterns_in(marks), [], [])
    if not rest:
        return held
    *curves, (last, params) = rest
    if not curves or last != 4 or len(params) != 8 * held.count:
        return None
    held.params = patterns_in(params)
    if not (packed_record(held, curves[0][1]) if [kind for kind, _ in curves] == [PACKED] else curve_records(held, curves)):
        return None
    if held.count < 2 or len(held.curves) >= held.count:
        return None
    return held


# ---- each joint once

def room_for(data, room):
    """The bytes, if they can be put; any number where no room is given."""
    if room is not None and len(data) > room:
        raise Refused(NO_ROOM)
    return data


def packed_curves(held):
    """The body of the record that holds all curves of a file."""
    kept, firsts = held.worsts is not None, held.firsts()
    start = START.pack(kept, firsts[0], *held.curves[0][1][:2])
    besides = [[worst] for worst in held.worsts] if kept else [[]] * len(firsts)
    rest = zip(firsts[1:] + [held.count - 1], held.curves, besides)
    return start + b''.join(PACKED_CURVES[kept].pack(after, *numbers[2:], *beside) for after, (_, numbers), beside in rest)


def packed_length(held):
    """What the head of that record says."""
    return HEAD - 4 + START.size + len(held.curves) * PACKED_CURVES[held.worsts is not None].size


def pack(data, room=None):
    """The file with each joint once; one without curves as it is. Refused: 9, then 12 where a curve does not start with the bits that the one before it ends with, then 4."""
    held = parse(data)
    if held is None or held.packed or packed_length(held) > LARGEST_LENGTH:
        raise Refused(NO_FILE)
    eights = held.eights()
    if any(before[6:] != after[:2] for before, after in zip(eights, eights[1:])):
        raise Refused(APART)
    if not eights:
        return room_for(data, room)
    return room_for(b''.join([build(held.tolerance, held.marks), record(PACKED, packed_curves(held)), record(4, row(held.params))]), room)


def unpack(data, room=None):
    """The file with a record for each curve; one without curves as it is. Refused: 9, then 4."""
    held = parse(data)
    if held is None or (held.curves and not held.packed):
        raise Refused(NO_FILE)
    return room_for(held.bytes(), room)
