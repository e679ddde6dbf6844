"""A house file's marks, cleaned, from the document alone: what is out of range is dropped, and what equals the last mark that was kept."""
from shared import house
from shared.table import BENCH_MARKS, LARGEST, MOST_DIRECT, Refused
from shared.words import numbers

RANGE, EQUAL = 'RANGE', 'EQUAL'
NO_FILE, TOO_MANY, NO_ROOM = 9, 2, 4
MOST_BYTES = house.longest(BENCH_MARKS)  # that the program reads
MOST_MARKS = MOST_DIRECT                 # that it takes


def cause(mark, last):
    """Why a mark is dropped behind the last one that was kept, or None. Minus zero is zero, and what is no number is out of range before it is compared."""
    if not all(abs(value) <= LARGEST for value in mark):
        return RANGE
    return EQUAL if mark == last else None


def clean(marks):
    """Of patterns, x and y in turn, those of the kept marks; and number and cause of each dropped one, in order."""
    kept, drops, last = [], [], None
    for number in range(len(marks) // 2):
        patterns = marks[2 * number:2 * number + 2]
        mark = numbers(patterns)
        why = cause(mark, last)
        if why:
            drops.append((number, why))
        else:
            kept += patterns
            last = mark
    return kept, drops


def report(kept, drops):
    """The list as text."""
    lines = [f'KEPT {len(kept) // 2} DROPPED {len(drops)}'] + [f'DROP {number} {why}' for number, why in drops]
    return ''.join(line + '\n' for line in lines)


def salvage(data, room=None, report_room=None):
    """The cleaned file and the list, both in bytes. Refused: 9, then 4; no room given is any."""
    held = house.parse(data)
    if held is None:
        raise Refused(NO_FILE)
    kept, drops = clean(held.marks)
    file, said = house.build(held.tolerance, kept), report(kept, drops).encode('ascii')
    if any(have is not None and len(made) > have for made, have in ((file, room), (said, report_room))):
        raise Refused(NO_ROOM)
    return file, said


def piped(data):
    """What the program writes to standard output and to standard error."""
    try:
        if len(data) > MOST_BYTES:
            raise Refused(NO_FILE)
        file, said = salvage(data)
        if house.parse(data).count > MOST_MARKS:
            raise Refused(TOO_MANY)
    except Refused as refused:
        return b'', f'REFUSED {refused.refusal}\n'.encode('ascii')
    return file, said
