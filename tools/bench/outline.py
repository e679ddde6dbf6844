"""An outline with its curves: a fit, or the list that a file holds. The programs fit, judge and measure; here their answers are taken apart."""
import math
import re

from bench import files, programs
from shared import house
from shared.checker import closed, first_marks_fault
from shared.command import Stop
from shared.table import FLAT
from shared.words import number, numbers, pattern_of, word, words

WORD = '[0-9A-F]{16}'
LONG = 5  # marks under a curve that is called long
PIECE = f'([0-9]{{1,4}}) ([0-9]{{1,4}})((?: {WORD}){{9}})'  # a curve's first mark, its worst mark, and nine numbers
DECIMAL = r'-?[0-9]+(?:\.[0-9]{1,3})?'  # a number of path data
VERDICT = '(PASSED) ([0-9]+) ([0-9]+)|(FAULT) ([A-E]) ([0-9]+) ([0-9]+)|(NO CURVES) ([0-9]+)|(REFUSED) ([1-9])'


class Refused(Exception):
    """An outline that a program refused, by its number; of too many marks also how many there are."""

    def __init__(self, refusal, marks=None):
        super().__init__(refusal)
        self.refusal, self.marks = int(refusal), marks


class Verdict:
    """What the checker said of a list that came in a file."""

    def __init__(self, passed, words):
        self.passed, self.words = passed, words


class Listed:
    """Marks, and a list of curves for them. `held` has all of it as patterns; a ring has a parameter more than it has marks."""

    def __init__(self, name, held, ring=False):
        self.name, self.held, self.ring = name, held, ring
        self.tolerance = number(held.tolerance)
        self.marks = points(held.marks)
        self.firsts = held.firsts()
        self.curves = [points(eight) for eight in held.eights()]
        self.params = numbers(held.params)
        self.blocks = self.block_size = None  # of a fit alone
        self.worst = None    # for each curve the distance of its worst mark and the mark; None where a distance is no number
        self.verdict = None  # of a list that came in a file
        self.cleaned = None  # what was dropped before the fit
        self.refusal = None  # of cleaned marks that the fit did not take, in words

    def stops(self):
        """For each curve the mark behind those under it: a joint is under its later curve, and a ring's first mark comes again as its last."""
        return self.firsts[1:] + [len(self.marks) + self.ring]

    def ends(self):
        """For each curve the mark that it ends on; a ring's last curve ends on mark 0."""
        return self.firsts[1:] + [0 if self.ring else len(self.marks) - 1]

    def kept(self):
        """For each curve the distance and the worst mark that its record keeps; None in a list that keeps none."""
        if self.held.worsts is None:
            return None
        return [(number(nine[8]), worst) for (_, nine), worst in zip(self.held.curves, self.held.worsts)]

    @property
    def far(self):
        """The largest distance of all, its mark and its curve, the first of equals; None where not every distance is a number."""
        if self.worst is None or None in self.worst:
            return None
        return max(((far, mark, curve) for curve, (far, mark) in enumerate(self.worst)), key=lambda one: one[0])

    @property
    def long(self):
        """Of each long curve that is off a mark its number, the distance of its worst mark, and the mark."""
        spans = zip(self.firsts, self.stops(), self.worst or [])
        return [(curve, *worst) for curve, (first, stop, worst) in enumerate(spans) if worst and worst[0] > 0 and stop - first >= LONG]


def trouble(listed):
    """Why the curves are not to be cut from, or why there are none; None where all is well."""
    return listed.refusal if listed.verdict is None or listed.verdict.passed else listed.verdict.words


def points(patterns):
    values = numbers(patterns)
    return list(zip(values[0::2], values[1::2]))


# ---- asking the programs

def ask(lines):
    """What replay answers to each of these lines."""
    answers = programs.run('replay', ''.join(line + '\n' for line in lines).encode('ascii')).decode('latin-1').split('\n')[:-1]
    if len(answers) != len(lines):
        raise Stop(f'replay gives {len(answers)} answers to {len(lines)} lines')
    return answers


def value(answer, form, what):
    """What stands behind the 0 of an answer of replay."""
    found = re.fullmatch(f'0 ({form})', answer)
    if not found:
        raise Stop(f'replay gives no {what}: it says {answer[:60]!r}')
    return found[1]


def hand_both(program, data):
    """What a program writes to a house file, on standard output and on standard error. Of one that is longer than it reads it gets a byte more than that, and refuses it."""
    return programs.run_both(program, data[:files.TAKEN + 1])


def hand(program, data):
    return hand_both(program, data)[0]


def refused(number, program, data):
    """A program's refusal of a file. To one that is longer than it reads it says 9, whether the file is whole or not; a whole one has too many marks."""
    if number == '2':
        return Refused(2, taken_apart(data, program).count)
    held = house.parse(data) if number == '9' and files.TAKEN < len(data) <= files.LONGEST else None
    return Refused(number) if held is None else Refused(2, held.count)


def judged(data):
    """The words of judge's line: PASSED marks curves, FAULT letter curve mark, or NO CURVES marks."""
    said = hand('judge', data).decode('latin-1')
    found = re.fullmatch(f'(?:{VERDICT})\n', said)
    if not found:
        raise Stop(f'judge gives no verdict: it says {said[:60]!r}')
    kind, *rest = [text for text in found.groups() if text is not None]
    if kind == 'REFUSED':
        raise refused(rest[0], 'judge', data)
    return [kind, *(text if text.isalpha() else int(text) for text in rest)]


def taken_apart(data, program):
    """What a house file holds that a program wrote or took."""
    held = house.parse(data)
    if held is None:
        raise Stop(f'{program} and tools/shared/house.py disagree on what a house file is')
    return held


# ---- measuring

def placed(listed):
    """(mark, curve) of every mark once, as the checker goes through them."""
    return [(mark, curve) for curve, (first, stop) in enumerate(zip(listed.firsts, listed.stops())) for mark in range(first, stop)]


def distance_line(listed, mark, curve):
    """The line that asks replay how far a mark is from its curve."""
    at = 2 * (mark % len(listed.marks))
    return f'distance {words(listed.held.curves[curve][1][:8])} {words(listed.held.marks[at:at + 2])} {word(listed.held.params[mark])}'


def distance(answer):
    return number(pattern_of(value(answer, WORD, 'distance')))


def distances(listed, places):
    """Replay's distances of the marks at these places, each a mark and its curve."""
    return [distance(answer) for answer in ask([distance_line(listed, *place) for place in places])]


def measured(listed):
    """For each curve the largest of replay's distances of the marks under it, and the first mark that has it; None where one is no number."""
    places = placed(listed)
    under = [[] for _ in listed.firsts]
    for far, (mark, curve) in zip(distances(listed, places), places):
        under[curve].append((far, mark % len(listed.marks)))
    return [max(fars, key=lambda one: one[0]) if all(math.isfinite(far) for far, _ in fars) else None for fars in under]


def measure(listed, passed):
    """How far off each curve is, and where. What the records of a list keep counts where the checker has passed it; else every mark is measured."""
    listed.worst = (listed.kept() if passed else None) or measured(listed)


def measure_fit(listed):
    """What a fit keeps of each curve, and into how many blocks it cut its marks, of what size: a ring's first mark counts again as its last."""
    count = len(listed.marks) + listed.ring
    blocks, size = ask([f'blocks {count}', f'size {count}'])
    listed.blocks = int(value(blocks, '[0-9]{1,4}', 'number of blocks'))
    listed.block_size = int(value(size, '[0-9]{1,4}', 'size of a block'))
    listed.worst = listed.kept()


# ---- the three ways to an outline

def hold(listed, program):
    """The curves of a fit run from mark to mark, and each keeps a distance that is a number, and one of its own marks. A program that says something else is not the
    one that was proved."""
    marks = closed(listed.held.marks) if listed.ring else listed.held.marks
    count = len(marks) // 2
    if first_marks_fault(count, len(listed.firsts), listed.firsts):
        raise Stop(f'{program} gives no list of curves for {count} marks')
    for k, (first, end) in enumerate(zip(listed.firsts, listed.firsts[1:] + [count - 1])):
        eight = listed.held.curves[k][1][:8]
        if eight[:2] + eight[6:] != marks[2 * first:2 * first + 2] + marks[2 * end:2 * end + 2]:
            raise Stop(f'curve {k} of {program} does not run from mark {first} to mark {end}')
    if listed.held.worsts is None:
        raise Stop(f'{program} keeps no worst marks')
    for k, (first, stop, (far, worst)) in enumerate(zip(listed.firsts, listed.stops(), listed.kept())):
        if not (first <= worst < min(stop, len(listed.marks)) and math.isfinite(far)):  # a ring's first mark is kept by its own number
            raise Stop(f'curve {k} of {program} keeps no worst mark of its own')


def saved(data):
    """The house file of a file's joined fit."""
    made = hand('save', data)
    found = re.fullmatch(b'REFUSED ([1-9])\n', made)
    if found:
        raise refused(found[1].decode('ascii'), 'save', data)
    return made


def joined(name, made):
    """The joined fit that save wrote."""
    listed = Listed(name, taken_apart(made, 'save'))
    hold(listed, 'save')
    measure_fit(listed)
    return listed


def by_replay(name, data, ring, flat):
    """The fit of a file's marks that replay makes: that of a closed outline, and those of the second engine. Whether the file can be read, and has too many, is judge's answer; the rest is the fit's own."""
    try:
        judged(data)
    except Refused as refusal:
        if refusal.refusal in (2, 9):
            raise
    held = taken_apart(data, 'judge')
    kind, times = ('ring' if ring else 'joined') + FLAT * flat, held.count + ring
    (answer,) = ask([f'{kind} {words([held.tolerance] + held.marks)}'])
    if re.fullmatch('[1-9]', answer):
        raise Refused(answer)
    head = re.match('0 ([0-9]{1,4})(?= )', answer)
    if not head or not re.fullmatch(f'(?: {PIECE}){{{head[1]}}}(?: {WORD}){{{times}}}', answer[head.end():]):
        raise Stop(f'replay gives no curves of {"a closed" if ring else "an"} outline: it says {answer[:60]!r}')
    pieces = list(re.finditer(f' {PIECE}', answer))
    curves, worsts = [(int(piece[1]), patterns(piece[3])) for piece in pieces], [int(piece[2]) for piece in pieces]
    listed = Listed(name, house.File(held.tolerance, held.marks, curves, patterns(answer)[-times:], worsts), ring)
    hold(listed, 'replay')
    measure_fit(listed)
    return listed


def patterns(text):
    """The patterns of a text's words of 16 digits."""
    return [pattern_of(found) for found in re.findall(f'(?<= ){WORD}(?= |$)', text)]


def own(name, data):
    """The list that a file holds, for one that judge took."""
    return Listed(name, taken_apart(data, 'judge'))


def listing(listed):
    """The lines that the program `listing` prints of a fit."""
    return [f'OUTLINE {len(listed.marks)} {len(listed.curves)}'] + [f'PIECE {first} {words(eight)}' for first, eight in zip(listed.firsts, listed.held.eights())]


def path_data(listed):
    """The path data of a fit."""
    numbers_ = words(pattern for eight in listed.held.eights() for pattern in eight)
    (answer,) = ask([f'export {"RING" if listed.ring else "OPEN"} {len(listed.curves)} {numbers_}'])
    if re.fullmatch('[1-9][0-9]?', answer):
        raise Refused(answer)
    return value(answer, f'M(?: {DECIMAL}){{2}}(?: C(?: {DECIMAL}){{6}}){{{len(listed.curves)}}}{" Z" * listed.ring}', 'path data')
