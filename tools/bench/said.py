"""Plain words: numbers, refusals and faults. The words of the refusals and of the letters stand in docs/BENCH.md and are read from there."""
import math
import os
import re

from shared.checker import same_bits
from shared.command import Stop
from shared.kept import ROOT

PAGE = os.path.join(ROOT, 'docs', 'BENCH.md')
POINTS = ('start', 'first control', 'second control', 'end')


# ---- numbers

def counted(count, noun):
    return f'{count} {noun}{"s" * (count != 1)}'


def plain(value):
    """A number with all its digits and no needless ones."""
    if not math.isfinite(value):
        return 'NaN' if math.isnan(value) else 'infinity' if value > 0 else '-infinity'
    text = repr(value)
    return text[:-2] if text.endswith('.0') else text


def order(a, b):
    return (a > b) - (a < b)


def millimetres(far, tolerance):
    """A distance to three places, or to as many as keep it on its side of the tolerance."""
    for places in range(3, 8):
        text = f'{far:.{places}f}'
        if far < 1e9 and order(float(text), tolerance) == order(far, tolerance):
            return text
    return plain(far)


# ---- docs/BENCH.md

# what the page says in short of a number that has left the table
PAST = 'not given any more'


def rows():
    """The tables of refusals and of faults: for each number or letter what it is in short, what it means and what to do."""
    with open(PAGE, encoding='utf-8') as file:
        found = re.findall(r'^\| ([1-9][0-9]?|[A-E]) \| (.+?) \| (.+?) \| (.+?) \|$', file.read(), re.M)
    return {name: rest for name, *rest in found}


def row(name):
    known = rows()
    if name not in known:
        raise Stop(f'there is no {name!r}: the refusals are 1 to 6 and 8 to 12, and the faults A to E' if known else f'{PAGE} has no table of refusals')
    return known[name]


def refusal(number, marks=None):
    """A refusal in one line. Where there are too many marks nothing is wrong with the file: then how many there are, and what to do, are said too."""
    short, meaning, remedy = row(str(number))
    if marks is None:
        return f'refused {number}, {short}: {meaning}'
    return f'refused {number}, {short} ({marks:,} marks): {meaning} What to do: {remedy}'


def given():
    """The numbers and letters that are given, in their order."""
    return sorted((name for name, (short, *_) in rows().items() if short != PAST), key=lambda name: (name.isalpha(), len(name), name))


def explained(name):
    """What a refusal or a fault means, and what to do."""
    short, meaning, remedy = row(name)
    return f'{name}, {short}\n  {meaning}\n  What to do: {remedy}'


# ---- faults

def fault(listed, letter, curve, mark, measured):
    """What the checker found at the place that it names; `measured` gives the distances of marks from a curve."""
    if letter == 'D':
        return distance_words(listed, curve, mark, *measured([mark], curve))
    if letter == 'E':
        marks = list(range(mark, listed.stops()[curve]))
        return record_words(curve, *listed.kept()[curve], dict(zip(marks, measured(marks, curve))))
    return {'A': first_mark_words, 'B': curve_words, 'C': parameter_words}[letter](listed, curve, mark)


def first_mark_words(listed, curve, _):
    first, last = listed.firsts[curve], len(listed.marks) - 1
    if curve == 0 and first != 0:
        return f'curve 0 begins at mark {first}, not at mark 0'
    if curve > 0 and first <= listed.firsts[curve - 1]:
        return f'curve {curve} begins at mark {first}, and curve {curve - 1} before it at mark {listed.firsts[curve - 1]}: first marks must rise'
    return f'curve {curve} begins at mark {first}, and the last mark is {last}'


def curve_words(listed, curve, first):
    for name, point in zip(POINTS, listed.curves[curve]):
        for axis, value in zip('xy', point):
            if not math.isfinite(value):
                return f"the {axis} of curve {curve}'s {name} is no number (NaN or infinity)"
    start, end = listed.curves[curve][0], listed.curves[curve][3]
    if not same_bits(start, listed.marks[first]):
        before = f', where curve {curve - 1} ended' if curve else ''
        return f'curve {curve} does not begin on mark {first}{before}: {unlike(start, listed.marks[first])}'
    if curve + 1 < len(listed.firsts):
        last = listed.firsts[curve + 1]
        return f'curve {curve} does not end on mark {last}, where curve {curve + 1} begins: {unlike(end, listed.marks[last])}'
    return f'curve {curve} does not end on mark {len(listed.marks) - 1}, the last: {unlike(end, listed.marks[-1])}'


def unlike(point, mark):
    """The coordinates in which a curve's end and its mark part; by all digits, since one bit is a fault."""
    parts = [one for one in zip('xy', point, mark) if not same_bits((one[1], 0), (one[2], 0))]
    return ', '.join(f"its {axis} is {plain(ours)}, the mark's {plain(theirs)}" for axis, ours, theirs in parts)


def parameter_words(listed, curve, mark):
    given = plain(listed.params[mark])
    if mark == listed.firsts[curve]:
        return f'mark {mark} is the first of curve {curve}, and its parameter is {given}, not 0'
    if mark == len(listed.marks) - 1:
        return f'mark {mark} is the last, and its parameter is {given}, not 1'
    return f'the parameter of mark {mark} under curve {curve} is {given}, which is not between 0 and 1'


def record_words(curve, kept, worst, fars):
    """What a curve's record keeps, and what is measured: `fars` has the distance of every mark under the curve. All digits are said, since one bit is a fault."""
    far = max(fars.values())
    mark = next(mark for mark, one in fars.items() if one == far)
    words = f'curve {curve} keeps {plain(kept)} mm at mark {worst}, and '
    if not same_bits((kept, 0), (far, 0)):
        return f'{words}the farthest of its marks, mark {mark}, is {plain(far)} mm from it'
    if worst not in fars:
        return f'{words}that mark is not under it: the farthest of its marks is mark {mark}'
    if fars[worst] != far:
        return f'{words}that mark is {plain(fars[worst])} mm from it: the farthest of its marks is mark {mark}'
    return f'{words}another of its marks is as far: the first of the largest squares counts'


def distance_words(listed, curve, mark, far):
    limit = f'the tolerance is {plain(listed.tolerance)} mm'
    if not math.isfinite(far):
        return f'the distance of mark {mark} from curve {curve} is no number (its sums ran over), and {limit}'
    return f'mark {mark} is {millimetres(far, listed.tolerance)} mm from curve {curve}, and {limit}'
