"""check_cases: lists for the checker, sound ones and damaged copies.

A record is ten words (whether the list is a ring's, whether a curve has nine numbers, how many numbers the marks have, the claimed number of curves, the lengths of
the slices of curves, first marks, worst marks and parameters, whether copies are damaged, the tolerance), the numbers of marks, curves and parameters, the first marks
and the worst marks. The answers are by the document's rules (shared/checker.py). First come both sides of each rule (`borders`), then KEPT lists, which are read from the kept input: `hold` asks the Rust for them
again, and looks that the answers are what is known of such lists."""
import math

from shared import kept
from shared.checker import EIGHT, FAULT_B, LETTERS, NINE, PASSED, REFUSED, check, distance, kept_for
from shared.command import Stop
from shared.ties import CURVE, PARAMS, TIES
from shared.words import bits, digest_of, number, numbers, patterns_of, word, words
from vectors import outlines

NAME = 'check_cases'
KEPT = 293
HEAD = 10
LARGEST_FIRST = (1 << 32) - 1


class Claim:
    """A list with what it is claimed to be. Numbers are floats. Worst marks count where a curve has nine numbers; they may be lent where it has eight, too."""

    def __init__(self, tolerance, marks, claimed, curves, firsts, params, ring=False, damage=False, nine=False, worsts=()):
        self.tolerance, self.marks, self.claimed = tolerance, marks, claimed
        self.curves, self.firsts, self.params, self.ring, self.damage = curves, firsts, params, ring, damage
        self.nine, self.worsts = nine, list(worsts)

    def but(self, **other):
        """The same with other things in place of its own."""
        return Claim(**{**vars(self), **other})

    def answer(self, **other):
        """What the checker says, with other things in place of the list's own."""
        parts = {**vars(self), **other}
        del parts['damage']
        if not parts.pop('nine'):
            parts['worsts'] = None
        return check(**parts)

    def wide(self):
        """How many numbers a curve has."""
        return NINE if self.nine else EIGHT

    def rows(self):
        """The numbers of each curve."""
        wide = self.wide()
        return [self.curves[wide * k:wide * k + wide] for k in range(len(self.curves) // wide)]

    def kept(self):
        """A list of eight numbers a curve in the record of nine, with the worst marks and the distances that belong to it."""
        worsts, fars = kept_for(self.marks, self.rows(), self.firsts, self.params, self.ring)
        return self.but(nine=True, worsts=worsts, curves=[value for row, far in zip(self.rows(), fars) for value in row + [far]])

    def places(self):
        """How many marks the curves run over: a ring's first one twice."""
        return len(self.marks) // 2 + self.ring

    def is_whole(self):
        """Whether the slices are as long as they are claimed to be: a line of replay carries no others."""
        lengths = len(self.marks) % 2, len(self.curves), len(self.firsts), len(self.worsts), len(self.params)
        return lengths == (0, self.wide() * self.claimed, self.claimed, self.claimed * self.nine, self.places())

    def line(self):
        """The line of replay."""
        return check_line(self.ring, self.nine, *self.parts())

    def parts(self):
        """In patterns: tolerance, marks, curves as pairs of what stands beside a curve (its first mark, and its worst mark in the record of nine) and its patterns,
        parameters."""
        beside = list(zip(self.firsts, self.worsts)) if self.nine else [(first,) for first in self.firsts]
        pairs = list(zip(beside, [patterns_of(*row) for row in self.rows()]))
        return bits(self.tolerance), patterns_of(*self.marks), pairs, patterns_of(*self.params)

    def record(self):
        head = [int(self.ring), int(self.nine), len(self.marks), self.claimed]
        head += [len(part) for part in (self.curves, self.firsts, self.worsts, self.params)] + [int(self.damage)]
        return kept.packed(head + patterns_of(self.tolerance, *self.marks, *self.curves, *self.params) + self.firsts + self.worsts)


def check_line(ring, nine, tolerance, marks, curves, params):
    """The line of replay for a list in patterns."""
    kind = 'check' + '_worst' * nine + '_ring' * ring
    parts = [kind, word(tolerance), str(len(marks) // 2)] + [word(mark) for mark in marks] + [str(len(curves))]
    parts += [f'{" ".join(map(str, beside))} {words(row)}' for beside, row in curves]
    return ' '.join(parts + [word(t) for t in params])


def line_answer(answer):
    """An answer as replay writes it."""
    kind, curve, mark = answer
    if kind == PASSED:
        return '0'
    return str(curve) if kind == REFUSED else f'FAULT {LETTERS[kind - 1]} {curve} {mark}'


def read():
    """The lists of the kept input."""
    source = kept.Words(NAME)
    while source:
        ring, nine, marks, claimed, curves, firsts, worsts, params, damage, tolerance = source.take(HEAD)
        parts = [numbers(source.take(length)) for length in (marks, curves, params)]
        yield Claim(number(tolerance), parts[0], claimed, parts[1], source.take(firsts), parts[2], bool(ring), bool(damage), bool(nine), source.take(worsts))


# ---- damaged copies

def damaged_numbers(claim):
    """Every number of marks, curves and parameters: its last bit changed, NaN, infinite, minus zero; an answer for each."""
    marks, curves = len(claim.marks), len(claim.curves)
    everything = claim.marks + claim.curves + claim.params
    for damage in (lambda value: number(bits(value) ^ 1), lambda value: math.nan, lambda value: math.inf, lambda value: -0.0):
        said = []
        for place, value in enumerate(everything):
            copy = everything[:place] + [damage(value)] + everything[place + 1:]
            said.append(claim.answer(marks=copy[:marks], curves=copy[marks:marks + curves], params=copy[marks + curves:]))
        yield said


def damaged_beside(claim):
    """Every first mark, and behind them every worst mark, one up, one down, the last mark, the largest u32, equal to the next number's, and swapped with it."""
    last, count = claim.places() - 1, len(claim.firsts)
    everything = claim.firsts + claim.worsts
    for damage in range(6):
        said = []
        for place, here in enumerate(everything):
            copy = list(everything)
            after = (place + 1) % len(copy)
            other = copy[after]
            if damage == 5:
                copy[after] = here
            copy[place] = ((here + 1) % (1 << 32), (here - 1) % (1 << 32), last, LARGEST_FIRST, other, other)[damage]
            said.append(claim.answer(firsts=copy[:count], worsts=copy[count:]))
        yield said


def shorter(values, by):
    return values[:max(len(values) - by, 0)]


def damaged_shapes(claim):
    """Other counts, lengths and tolerances."""
    counts = (claim.claimed + 1, max(claim.claimed - 1, 0), 0, (1 << 64) - 1, 1 << 61)
    said = [claim.answer(claimed=count) for count in counts]
    said += [claim.answer(marks=shorter(claim.marks, by)) for by in (1, 2)]
    said += [claim.answer(curves=shorter(claim.curves, by)) for by in (1, claim.wide())]
    said.append(claim.answer(firsts=shorter(claim.firsts, 1)))
    said.append(claim.answer(worsts=shorter(claim.worsts, 1)))
    said.append(claim.answer(params=shorter(claim.params, 1)))
    said.append(claim.answer(tolerance=-claim.tolerance))
    return said


def copies(claim):
    """For each line of the summary the answers on its damaged copies."""
    yield from damaged_numbers(claim)
    yield from damaged_beside(claim)
    yield damaged_shapes(claim)


def summary(said):
    """How many copies got each answer, and a digest of all of them in turn."""
    kinds = [kind for kind, _, _ in said]
    counts = ''.join(f' {kinds.count(kind)}' for kind in range(REFUSED + 1))
    return counts + ' %016x\n' % digest_of(part for answer in said for part in answer)


def text(claim):
    lines = ''.join(summary(said) for said in copies(claim)) if claim.damage else ''
    return '%d %d %d\n' % claim.answer() + lines


# ---- both sides of each rule

def straight(start, end):
    """A curve's eight numbers, from one mark to another."""
    controls = [[a + (b - a) * part for a, b in zip(start, end)] for part in (0.33, 0.66)]
    return start + controls[0] + controls[1] + end


def put(values, place, value):
    return values[:place] + [value] + values[place + 1:]


# Four marks, two of which have a minus zero. A list of two curves over them, and a ring's of three; each passes as it is.
MARKS = [-0.0, 0.0, 1.0, 0.0, 2.0, 0.0, 4.0, -0.0]
CURVES = straight(MARKS[0:2], MARKS[2:4]) + straight(MARKS[2:4], MARKS[6:8])
FAR = distance(2.0, 0.0, CURVES[8:], 0.5)
OPEN = Claim(FAR, MARKS, 2, CURVES, [0, 1], [0.0, 0.0, 0.5, 1.0])
RING = Claim(FAR, MARKS, 3, CURVES + straight(MARKS[6:8], MARKS[0:2]), [0, 1, 3], [0.0, 0.0, 0.5, 0.0, 1.0], ring=True)
OUT_OF_TURN = {  # of an outline, and of a ring
    False: ([0, 0], [1, 2], [0, 2], [0, 3], [0, 4], [2, 1], [0, LARGEST_FIRST]),
    True: ([0, 0, 3], [1, 2, 3], [0, 2, 3], [0, 1, 2], [0, 1, 1], [0, 1, 4], [0, 1, 5], [0, 3, 1], [0, 1, LARGEST_FIRST])}


def below(value):
    return math.nextafter(value, -math.inf)


def above(value):
    return math.nextafter(value, math.inf)


def border_counts(sound):
    count, curves, firsts, worsts = sound.claimed, sound.curves, sound.firsts, sound.worsts
    for claimed in (0, 1, count + 1, count + 2, (1 << 61) - 1, 1 << 61, (1 << 61) + 2, 1 << 63, (1 << 64) - 1):
        yield sound.but(claimed=claimed)
    yield sound.but(claimed=count + 1, curves=curves + curves[:sound.wide()], firsts=list(range(count + 1)), worsts=worsts + worsts[:1])  # the most that there can be
    yield sound.but(claimed=count + 2, curves=curves + curves, firsts=firsts + firsts, worsts=worsts + worsts)
    yield sound.but(curves=curves + [math.nan], firsts=firsts + [9], params=sound.params + [math.nan], worsts=worsts + [9])  # more than there are
    for other in OUT_OF_TURN[sound.ring]:
        yield sound.but(firsts=other)


def border_numbers(sound):
    curves, params, wide = sound.curves, sound.params, sound.wide()
    for k in range(sound.claimed):
        for place in (0, 1, 6, 7):  # an end by its sign
            yield sound.but(curves=put(curves, wide * k + place, -curves[wide * k + place]))
    for place in (2, 5, wide + 3):
        for value in (1e308, -1.7e308, math.inf, math.nan):
            yield sound.but(curves=put(curves, place, value))
    yield sound.but(curves=put(put(curves, wide + 2, 1.7e308), wide + 4, -1.7e308))
    for place in range(len(params)):
        for t in (0.0, -0.0, 0.5, 1.0, above(1.0), below(1.0), -5e-324, 5e-324, 2.0, math.nan, math.inf):
            yield sound.but(params=put(params, place, t))
    for place, value in ((0, 1e6), (1, above(1e6)), (6, -above(1e6)), (7, math.nan), (3, math.inf)):
        yield sound.but(marks=put(MARKS, place, value))


def border_records(sound):
    """What a list in the record of nine has besides: the worst marks and the distances."""
    curves, worsts = sound.curves, sound.worsts
    for k, worst in enumerate(worsts):
        for other in (0, worst + 1, worst - 1 if worst else 9, 2, 4, LARGEST_FIRST):
            yield sound.but(worsts=put(worsts, k, other))
        at = 9 * k + 8
        far = curves[at]
        for other in (above(far), below(far), far * far, -far, math.nan, math.inf, -math.inf, 1e308):
            yield sound.but(curves=put(curves, at, other))
            yield sound.but(curves=put(curves, at, other), worsts=put(worsts, k, 9))
    wrong = sound.but(curves=put(put(curves, 8, math.nan), 17, math.inf), worsts=[9] * len(worsts))
    yield wrong
    yield wrong.but(tolerance=below(FAR))                                 # E at curve 0 before D at curve 1
    late = wrong.but(curves=put(wrong.curves, 8, 0.0), worsts=put(wrong.worsts, 0, 0))
    yield late
    yield late.but(tolerance=below(FAR))                                  # D before E in curve 1
    yield late.but(params=put(sound.params, 2, above(1.0)))               # and C
    yield late.but(curves=put(late.curves, 9, math.nan))                  # and B
    yield late.but(firsts=OUT_OF_TURN[sound.ring][0])                     # and A
    yield sound.but(worsts=worsts[:-1])
    yield sound.but(curves=curves[:-1])
    yield sound.but(nine=False)                                           # nine numbers taken for eight
    flat = OPEN if not sound.ring else RING
    yield flat.but(nine=True)
    yield flat.but(nine=True, worsts=worsts)
    yield flat.but(worsts=[LARGEST_FIRST] * 9)                            # lent with eight numbers a curve, and not looked at


def border_ties():
    """The first of equal squares, and no other."""
    back = straight(CURVE[6:], CURVE[:2])
    for marks, worst in TIES:
        for ring in (False, True):
            curves, firsts = (CURVE + back, [0, 4]) if ring else (CURVE, [0])
            params = PARAMS[:4] + [0.0, 1.0] if ring else PARAMS
            sound = Claim(0.5, marks, len(firsts), curves, firsts, params, ring).kept()
            if sound.worsts[0] != worst:
                raise Stop(f'mark {sound.worsts[0]} and not {worst} is the worst of a tie', 1)
            yield sound
            for other in range(5):
                yield sound.but(worsts=put(sound.worsts, 0, other))


def border_rings():
    """What a ring alone has."""
    yield RING.but(claimed=2)  # the last curve ends on the last mark that is given
    yield RING.but(params=RING.params[:-1])
    yield RING.but(ring=False)
    yield OPEN.but(ring=True)
    spot = MARKS[6:8] + MARKS[0:2] * 2  # the first mark once more at the end
    yield Claim(FAR, spot, 3, straight(spot[0:2], spot[2:4]) + straight(spot[2:4], spot[4:6]) + straight(spot[4:6], spot[0:2]), [0, 1, 2], [0.0] * 3 + [1.0], ring=True)
    yield Claim(FAR, MARKS[:4], 2, CURVES[:8] + straight(MARKS[2:4], MARKS[0:2]), [0, 1], [0.0, 0.0, 1.0], ring=True)  # two marks
    back = MARKS[:6] + MARKS[:2]
    yield Claim(FAR, back, 1, straight(back[:2], back[:2]), [0], [0.0, 0.5, 0.5, 0.5, 1.0], ring=True)


def borders():
    for sound in (OPEN, RING, OPEN.kept(), RING.kept()):
        yield sound.but(damage=True)
        for tolerance in (below(FAR), above(FAR), 0.0, -0.0, -5e-324, math.inf, math.nan):
            yield sound.but(tolerance=tolerance)
        yield from border_counts(sound)
        yield from border_numbers(sound)
        for length in range(6 if sound.ring else 4):
            yield sound.but(marks=MARKS[:length])
        yield sound.but(marks=MARKS[:7], curves=[], firsts=[], params=[], worsts=[])  # odd before short
        yield sound.but(tolerance=math.nan, params=sound.params[:-1])  # room before range
        yield sound.but(tolerance=math.nan, claimed=0)  # range before A
        if sound.nine == sound.ring:
            many = Claim(0.001, [0.0] * 8194, 1, [0.0] * sound.wide(), [0], [0.0] + [0.5] * (4095 + sound.ring) + [1.0], sound.ring, nine=sound.nine, worsts=[0] * sound.nine)
            yield many
            yield many.but(curves=[], firsts=[], params=[], worsts=[])
            yield many.but(params=many.params[:-1])
        if sound.nine:
            yield from border_records(sound)
    yield from border_rings()
    yield from border_ties()


# ---- what is known of the Rust's lists

def block_size(count):
    return 200 if count < 200 else next((size for size in range(200, 50, -1) if count % size >= 50), 50)


def gap(claim):
    """Fault B at the last curve of the first block whose end is not the next block's first mark, bit for bit; or passed."""
    count = len(claim.marks) // 2
    marks = patterns_of(*claim.marks)
    for k, (first, after) in enumerate(zip(claim.firsts, claim.firsts[1:])):
        if count >= 200 and after % block_size(count) == 0 and marks[2 * after - 2:2 * after] != marks[2 * after:2 * after + 2]:
            return FAULT_B, k, first
    return PASSED, 0, 0


def kept_tangents():
    """The tangents that fit_cases keeps of direct fits, by tolerance and marks."""
    return {(outline.tolerance, tuple(outline.marks)): outline.tangents for outline in outlines.read() if outline.kind == 'direct'}


def makers(claim, rust, tangents):
    """The fits of the Rust that give this list for these marks; the direct one is tried with the outline's own tangents and with kept ones. A ring's list is
    a ring fit's alone."""
    marks = patterns_of(*claim.marks)
    tolerance = bits(claim.tolerance)
    tries = [outlines.Outline(kind, tolerance, marks) for kind in (['ring'] if claim.ring else ['joined', 'source', 'loop'])]
    if not claim.ring:
        tries.append(outlines.taken('direct', tolerance, marks))
        tries.append(outlines.Outline('direct', tolerance, marks, None, tangents.get((tolerance, tuple(marks)))))
    mine = claim.firsts, claim.worsts, patterns_of(*claim.curves), patterns_of(*claim.params)
    found = []
    for fit, (said, _) in zip(tries, rust.ask([fit.line() for fit in tries])):
        lists = outlines.Lists(said)
        beside = (lists.firsts, lists.worsts, lists.nines()) if claim.nine else (lists.firsts, [], lists.eights())
        if (*beside, lists.params) == mine:
            found.append(fit.kind)
    return found


def hold(claims, rust):
    """How many lists the Rust gives again. Those of a direct, a joined or a ring fit pass, and those of blocks that don't meet have fault B there. Lists
    that it does not give again are of direct fits whose tangents are not kept."""
    tangents = kept_tangents()
    again = 0
    for claim in claims:
        found = makers(claim, rust, tangents)
        again += bool(found)
        want = gap(claim) if found and not {'joined', 'direct', 'ring'} & set(found) else (PASSED, 0, 0)
        if claim.answer() != want:
            raise Stop(f'a list of {len(claim.marks) // 2} marks is judged {claim.answer()} and not {want}', 1)
    return again


def hold_checkers(claims, rust):
    """The Rust side has a list checker of its own: the two must agree on every list that a line can carry."""
    whole = [claim for claim in claims if claim.is_whole()]
    said = rust.ask([claim.line() for claim in whole])
    for claim, (answer, _) in zip(whole, said):
        if answer != line_answer(claim.answer()):
            raise Stop(f'the two checkers differ: {answer} and {line_answer(claim.answer())}', 1)


def make(rust):
    before = list(read())
    claims = kept.at_least(before[-KEPT:], KEPT, NAME)
    again = hold(claims, rust)
    claims = list(borders()) + claims
    hold_checkers(claims, rust)
    kinds = [claim.answer()[0] for claim in claims]
    passed, refused = kinds.count(PASSED), kinds.count(REFUSED)
    note = f'{passed} passed, {len(kinds) - passed - refused} with a fault, {refused} refused; the Rust gives {again} lists again'
    return kept.Made(NAME, b''.join(claim.record() for claim in claims), ''.join(map(text, claims)), len(claims), len(before), note)
