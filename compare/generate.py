#!/usr/bin/env python3
"""generate.py [SEED]: prints cases for replay and for the Rust, one a line; the same seed gives the same lines.

Single curves, nearest points, outlines (smooth, noisy, long, damaged; by both engines where both have the fit), distances, numbers of blocks and their sizes, lists for the checker, path data, house files to pack, to unpack and to clean, and both sides of every limit.
"""
import math
import os
import random
import sys

sys.dont_write_bytecode = True
sys.path.insert(0, os.path.join(os.path.dirname(os.path.dirname(os.path.realpath(__file__))), 'tools'))

from shared import cleaning_cases
from shared.basis import point_at
from shared.checker import kept_for
from shared.command import Stop, run
from shared.ends import ENDS, TOLERANCES
from shared.meetings import ABOUTS
from shared.pack_cases import files, large_files, random_cases
from shared.path_cases import TEXTS, meeting, random_list, random_number, random_soup, random_text
from shared.path_cases import lists as path_lists
from shared.path_data import exported
from shared.table import LINE_MARKS, Refused, by_both, flat_line
from shared.ties import CURVE, PARAMS, TIES
from shared.words import word_of

BIG, NAN, INF, LEAST = 1e6, math.nan, math.inf, 5e-324
BLOCKS = ('source', 'loop', 'joined', 'ring')  # the fits that cut an outline into blocks
hand = random.Random()  # main gives it its seed


def spelt(part):
    """A whole number, a number, or several numbers, as words of a line."""
    if isinstance(part, (list, tuple)):
        return [word_of(value) for value in part]
    return [str(part) if isinstance(part, int) else word_of(part)]


def line(kind, *parts):
    return ' '.join([kind] + [text for part in parts for text in spelt(part)])


def above(v):
    return math.nextafter(v, INF)


# ---- outlines: count marks of a shape, x and y in turn

def flat(points):
    return [float(v) for p in points for v in p]


def circle(n, r):
    return flat((r * math.cos(5.6 * i / n), r * math.sin(5.6 * i / n)) for i in range(n))


def luff(n, r):
    return flat((10 * r * i / n, 0.2 * r * math.sin(math.pi * (i / n) ** 0.9)) for i in range(n))


def wave(n, r):
    return flat((r * 0.05 * i, r * math.sin(0.13 * i) * math.cos(0.041 * i)) for i in range(n))


def noisy(n, r):
    return [v + hand.gauss(0, 0.002 * r) for v in wave(n, r)]


def corner(n, r):
    return flat((r * min(i, n // 2) / n, r * max(0, i - n // 2) / n) for i in range(n))


def foldback(n, r):
    return flat((r * (i if i < n // 2 else n - i) / n, 0.0) for i in range(n))


def resting(n, r):
    """Each third mark three times over."""
    return [v for i in range((n + 2) // 3) for v in wave(i + 1, r)[-2:] * 3][:2 * n]


def cloud(n, r):
    return [hand.uniform(-r, r) for _ in range(2 * n)]


def equal(n, r):
    return [r, -r] * n


def straight(n, r):
    return flat((r * i / n, 2 * r * i / n) for i in range(n))


SHAPES = (circle, luff, wave, noisy, corner, foldback, resting, cloud, equal, straight)


def turned(marks, at_end):
    """A unit tangent from an outline's own first or last two marks, or some direction where they are equal."""
    (x, y), (u, v) = (marks[-2:], marks[-4:-2]) if at_end else (marks[:2], marks[2:4])
    far = math.hypot(u - x, v - y)
    return [(u - x) / far, (v - y) / far] if far else [1.0, 0.0]


def fits(marks, tolerance):
    """Every fit of one outline; direct takes the outline's own tangents."""
    yield line('direct', tolerance, turned(marks, False), turned(marks, True), marks)
    for kind in BLOCKS:
        yield line(kind, tolerance, marks)


def outlines():
    for shape in SHAPES:
        for n in (2, 3, 4, 7, 20, 60):
            for r, tolerance in ((100.0, 0.5), (hand.uniform(1, 2000), hand.choice([0.0, 0.05, 1.0, 20.0]))):
                yield from fits(shape(n, r), tolerance)
    for shape in (circle, noisy, luff):
        for n in (199, 200, 201, 249, 250, 400, 511, 512, 513):
            yield from fits(shape(n, 1500.0), 2.0)
    for n in (1000, 4095, 4096, 4097):
        for kind in BLOCKS:
            yield line(kind, 1.0, luff(n, 5000.0))
            yield line(kind, 3.0, noisy(n, 800.0))
    for n in (8191, 16385, 19999, 20000, 20001, LINE_MARKS):
        yield line('joined', 1.0, luff(n, 5000.0))
        for kind in BLOCKS:
            yield line(kind, 3.0, noisy(n, 800.0))
    # sizes at the ends of the range
    for r in (1e-300, 1e-160, 1e-9, BIG / 10):
        for shape in (circle, cloud, corner):
            yield from fits(shape(9, r), r / 100)


def limits():
    good = circle(6, 50.0)
    for bad in (NAN, INF, -INF, BIG, -BIG, above(BIG), -above(BIG), -0.0, LEAST):
        for place in (0, 5, 11):
            yield from fits(good[:place] + [bad] + good[place + 1:], 0.5)
        yield line('direct', 0.5, [bad, 0.0], [1.0, 0.0], good)
        yield from fits(good, bad)
    for tangent in (0.0, 2.0, above(2.0), -2.0, -above(2.0)):
        yield line('direct', 0.5, [tangent, 0.5], [0.5, tangent], good)
    for tolerance in (0.0, -LEAST, LEAST, -1.0, 1e300):
        yield from fits(good, tolerance)
    for kind in BLOCKS + ('direct',):
        ways = [1.0, 0.0, 1.0, 0.0] if kind == 'direct' else []
        for marks in ([], [1.0], [1.0, 2.0], [1.0, 2.0, 3.0], [NAN], [NAN, 2.0], good[:-1], [1.0, 1.0] * 2, [1.0, 1.0] * 3, [1.0, 1.0] * 4, good[:4], good[:6], [1.0, NAN, 3.0]):
            yield line(kind, 0.5, ways, marks)
            yield line(kind, NAN, ways, marks)


def ends():
    """Parts whose end marks are put to the test, at the least tolerances and at a wider one."""
    for marks in ENDS:
        for tolerance in (*TOLERANCES, 0.25):
            yield from fits(marks, tolerance)


def joints():
    """Outlines that fold where two blocks meet. The blocks are of 150, 175 and 200 marks; source and loop, which cut at the same marks and take other
    tangents there, are asked too."""
    for n, size in ((200, 150), (400, 175), (251, 200)):
        marks = wave(n, 800.0)
        for about in ABOUTS:
            for at in range(size, n - 1, size):
                folded = marks[:2 * at - 2] + about + marks[2 * at + 4:]
                for kind in ('joined', 'source', 'loop'):
                    yield line(kind, 1.5, folded)


def pond(n, r):
    """A closed outline: round about, with two bays."""
    return flat((r * (1 + 0.2 * math.cos(2 * a)) * math.cos(a), 0.6 * r * math.sin(a)) for a in (2 * math.pi * i / n for i in range(n)))


def rings():
    """Closed outlines of one block and of several; with the first mark once more, or twice, at the end; and folded about mark 0, where the last block meets the first,
    and where inner blocks meet, as they are cut over one mark more than is given."""
    for n in (3, 4, 5, 8, 30, 198, 199, 200, 201, 249, 250, 399, 400, 512, 4095, 4096, 4097, 19999, 20000, LINE_MARKS):
        for tolerance in (0.0, 0.01, 2.0):
            yield line('ring', tolerance, pond(n, 700.0))
    for n in (2, 3, 4, 9, 198, 199, 200):
        for more in (1, 2):
            marks = pond(n, 300.0)
            yield line('ring', 0.2, marks + marks[:2] * more)
    for n in (3, 4, 7, 100, 199, 250, 399):
        for about in ABOUTS:
            yield line('ring', 1.5, about[2:] + pond(n, 800.0)[4:-2] + about[:2])
    for n, size in ((199, 150), (399, 175), (250, 200)):
        marks = pond(n, 800.0)
        for about in ABOUTS:
            for at in range(size, n - 1, size):
                yield line('ring', 1.5, marks[:2 * at - 2] + about + marks[2 * at + 4:])


# ---- single curves

def curves():
    for i in range(40):
        r = hand.choice([1.0, 30.0, 4000.0, BIG])
        c = [hand.uniform(-r, r) for _ in range(8)]
        yield [round(v) * 1.0 for v in c] if i % 3 == 0 else c
    yield [0.0, 0.0, 0.0, 1.0, 1.0, 1.0, 1.0, 0.0]
    yield [-0.0] * 8
    yield [BIG, -BIG] * 4
    yield [above(BIG)] + [0.0] * 7
    yield [0.0] * 7 + [NAN]
    yield [0.0] * 3 + [INF] + [0.0] * 4


def single():
    for c in curves():
        for t in (0.0, 1.0, 0.5, hand.random(), hand.uniform(-3, 3), hand.choice([-0.0, LEAST, 1e87, 1e150, -1e160, 1e308, NAN, INF])):
            yield line('basis', t, c)
            yield line('de_casteljau4', t, c)
            yield line('de_casteljau3', t, c[:6])
            yield line('de_casteljau2', t, c[:4])
            yield line('subdivide4', t, c)
        for d in (0, 1, 2, 4294967295):
            yield line('coefficients', d, c)
        q = [hand.uniform(-50, 50), hand.uniform(-50, 50)]
        for t, rounds in ((hand.random(), 12), (0.0, 1), (-0.0, 0), (1.5, 0), (-0.5, 2), (0.5, 64), (0.5, 65), (1e87, 1), (-1e120, 3), (1e200, 12), (NAN, 1)):
            yield line('refine', c, q, t, rounds)
        yield line('refine', c, [above(BIG), 0.0], 0.5, 3)
    for v in (0.0, -0.0, 1.0, 2.0, 0.25, LEAST, -LEAST, above(1.0), 1e308, INF, -INF, NAN, -1.0, *(hand.uniform(0, 1e9) for _ in range(200))):
        yield line('sqrt', v)


def near():
    for c in curves():
        yield line('nearest', c, [hand.uniform(-50, 50), hand.uniform(-50, 50)])
        yield line('nearest', c, c[2:4])
        yield line('nearest', c, c[0:2])
    for _ in range(400):
        r = hand.choice([3, 9, 100])
        yield line('nearest', [float(hand.randint(-r, r)) for _ in range(8)], [float(hand.randint(-r, r)) for _ in range(2)])
    for _ in range(400):
        r = 10 ** hand.uniform(-2, 6)
        yield line('nearest', [hand.uniform(-r, r) for _ in range(8)], [hand.uniform(-r, r) for _ in range(2)])
    yield line('nearest', [1.0, 2.0, 1.0, 2.0, 2.0, 2.0, 1.0, 0.0], [1.0, 0.0])      # the Rust never ends
    yield line('nearest', [10.0, 0.0, -10.0, 0.0, 0.0, 0.0, 40.0, 0.0], [0.0, 0.0])  # the Rust drops the root
    yield line('nearest', [0.0] * 8, [NAN, 0.0])


# ---- lists for the checker: curves drawn first, and marks laid on them

def drawn(count, ring):
    """Curves that meet, with 1 to 5 marks each, and the last mark; those of a ring come back to their first mark, which is not given again. Marks, first marks,
    curves, parameters."""
    marks, firsts, curves_, at = [], [], [], []
    start = here = [hand.uniform(-100, 100), hand.uniform(-100, 100)]
    for k in range(count):
        end = start if ring and k == count - 1 else [hand.uniform(-100, 100), hand.uniform(-100, 100)]
        c = here + [hand.uniform(-100, 100) for _ in range(4)] + end
        firsts.append(len(marks) // 2)
        curves_.append(c)
        marks += here
        at.append(hand.choice([0.0, -0.0]))
        for t in sorted(hand.random() for _ in range(hand.randint(0, 4))):
            marks += point_at(c, t)  # at distance 0, since the checkers work it out alike
            at.append(t)
        here = end
    return marks if ring else marks + here, firsts, curves_, at + [1.0]


def checked(ring, tolerance, marks, firsts, curves_, at):
    words = [w for f, c in zip(firsts, curves_) for w in (f, c)]
    return line('check_ring' if ring else 'check', tolerance, len(marks) // 2, marks, len(curves_), *words, at)


def checked_record(ring, tolerance, marks, firsts, curves_, at, worsts, fars):
    """A list in the record of nine: beside the first mark the worst one, and behind the eight numbers its distance."""
    words = [w for parts in zip(firsts, worsts, curves_, fars) for w in parts]
    return line('check_worst_ring' if ring else 'check_worst', tolerance, len(marks) // 2, marks, len(curves_), *words, at)


def damaged(ring, count):
    """A sound list, and the same with one thing changed."""
    marks, firsts, curves_, at = drawn(count, ring)
    n = len(at)  # with a ring's first mark once more
    k = hand.randrange(count)

    def check(tolerance, *parts):
        return checked(ring, tolerance, *parts)

    def with_first(v):
        return check(1e-9, marks, firsts[:k] + [v] + firsts[k + 1:], curves_, at)
    yield check(1e-9, marks, firsts, curves_, at)
    yield check(0.0, marks, firsts, curves_, at)
    for v in (0, firsts[k] + 1, n - 2, n - 1, n, 4294967295):
        yield with_first(v)
    for place in range(8):
        c = curves_[k]
        for v in (math.nextafter(c[place], INF), c[place] + 3.0, NAN, INF, -0.0):
            yield check(1e-9, marks, firsts, curves_[:k] + [c[:place] + [v] + c[place + 1:]] + curves_[k + 1:], at)
    for i in {0, firsts[k], n - 1, hand.randrange(n)}:
        for v in (0.0, 1.0, 0.5, LEAST, -LEAST, above(1.0), NAN, INF):
            yield check(1e-9, marks, firsts, curves_, at[:i] + [v] + at[i + 1:])
        x = 2 * i % len(marks)
        yield check(1e-9, marks[:x] + [marks[x] + 0.25] + marks[x + 1:], firsts, curves_, at)
        yield check(0.3, marks[:x] + [marks[x] + 0.25] + marks[x + 1:], firsts, curves_, at)
        yield check(1e-9, marks[:x] + [above(BIG)] + marks[x + 1:], firsts, curves_, at)
    for tolerance in (-0.0, -LEAST, NAN, INF):
        yield check(tolerance, marks, firsts, curves_, at)
    yield check(1e-9, marks, [], [], at)
    yield check(1e-9, marks, list(range(n)), [curves_[0]] * n, at)
    yield check(1e-9, marks, list(range(n - 1)), [curves_[0]] * (n - 1), at)


def replaced(values, k, value):
    return values[:k] + [value] + values[k + 1:]


def off_the_curves(ring, marks, firsts, by):
    """The same marks, those inside a curve each a little off it; first marks stay where the curves begin."""
    last = len(marks) // 2 - 1 + ring  # where the last curve ends
    inner = [i for i in range(last) if i not in firsts]
    moved = list(marks)
    for place in (place for i in inner for place in (2 * i, 2 * i + 1)):
        moved[place] += hand.uniform(-by, by)
    return moved


def damaged_records(ring, count):
    """A sound list in the record of nine whose marks are off their curves, and the same with one thing changed in what it keeps; then with two, of which the checker
    names the first."""
    drawn_marks, firsts, curves_, at = drawn(count, ring)
    by = hand.choice([0.0, 1e-9, 0.25, 30.0])
    marks = off_the_curves(ring, drawn_marks, firsts, by)
    worsts, fars = kept_for(marks, curves_, firsts, at, ring)
    n, k, wide = len(at), hand.randrange(count), 2 * by
    far, worst = fars[k], worsts[k]
    after = firsts[k + 1] if k + 1 < count else n

    def check(tolerance=wide, marks=marks, firsts=firsts, curves_=curves_, at=at, worsts=worsts, fars=fars):
        return checked_record(ring, tolerance, marks, firsts, curves_, at, worsts, fars)
    yield check()
    yield check(tolerance=max(fars))
    for v in (above(far), math.nextafter(far, -INF), far * far, -far, far + 1.0, NAN, INF, -INF, LEAST):
        yield check(fars=replaced(fars, k, v))
    for v in (worst + 1, max(worst - 1, 0), firsts[k], after - 1, after, n - 1, n, 4294967295):
        yield check(worsts=replaced(worsts, k, v))
    wrong = replaced(fars, k, NAN)
    yield check(fars=wrong, worsts=replaced(worsts, k, n))
    yield check(fars=wrong, tolerance=math.nextafter(max(fars), -INF))            # D of this curve, or of one behind it
    yield check(fars=wrong, at=replaced(at, after - 1, above(1.0)))               # C at the curve's last mark
    yield check(fars=wrong, at=replaced(at, n - 1, 0.5))                          # C at the last mark of all
    yield check(fars=wrong, curves_=replaced(curves_, count - 1, [NAN] * 8))      # B of the last curve
    yield check(fars=wrong, curves_=replaced(curves_, k, curves_[k][:2] + [INF] + curves_[k][3:]))
    yield check(fars=wrong, firsts=replaced(firsts, count - 1, n))                # A
    yield check(fars=wrong, tolerance=-1.0)
    yield check(worsts=list(reversed(worsts)), fars=list(reversed(fars)))
    yield check(curves_=[], firsts=[], worsts=[], fars=[])
    yield check(fars=[0.0] * count, worsts=firsts)


def tied_records():
    """Marks of which several are equally far off: every one is claimed to be the worst."""
    back = [4.0, 0.0, 3.0, 1.0, 1.0, 1.0, 0.0, 0.0]
    for marks, _ in TIES:
        for ring in (False, True):
            curves_, firsts, at = ([CURVE, back], [0, 4], PARAMS[:4] + [0.0, 1.0]) if ring else ([CURVE], [0], PARAMS)
            worsts, fars = kept_for(marks, curves_, firsts, at, ring)
            for claimed in range(len(at)):
                yield checked_record(ring, 0.5, marks, firsts, curves_, at, [claimed] + worsts[1:], fars)
            yield checked_record(ring, 0.5, marks, firsts, curves_, at, worsts, [above(fars[0])] + fars[1:])
            yield checked_record(ring, 0.25, marks, firsts, curves_, at, worsts, fars)


def measures():
    """Distances of points from curves at some parameter, near and far; and how many blocks there are."""
    for _ in range(200):
        r = hand.choice([1e-200, 1.0, 500.0, BIG, 1e170])
        yield line('distance', [hand.uniform(-r, r) for _ in range(10)], hand.choice([0.0, 1.0, hand.random(), hand.uniform(-3, 3), NAN]))
    for n in [*range(5), *range(190, 410), *range(4090, 4100), *range(19990, 20010), *range(30040, 30060), *range(99990, 100010), *(hand.randrange(1 << 40) for _ in range(50))]:
        yield line('blocks', n)


def sizes():
    """Of how many marks a block is: for outlines that a fit takes, and beyond. Up to 20,000 marks the port divides; 30,049 is the first number for which that would not do."""
    near = [*range(19900, 20300), *range(30030, 30060), *range(99990, 100010)]
    for n in [*range(4201), *range(4201, 100000, 83), *near, *(power + k for power in (1 << 32, 1 << 63) for k in (-1, 0, 1)), (1 << 64) - 1]:
        yield line('size', n)


def lists():
    for ring in (False, True):
        for count in (1, 2, 3, 8, 20):
            for _ in range(6):
                yield from damaged(ring, count)
                yield from damaged_records(ring, count)
        yield checked(ring, 0.5, [], [], [], [0.0] if ring else [])
        yield checked_record(ring, 0.5, [], [], [], [0.0] if ring else [], [], [])
        for n in (1, 2, 3, 4095, 4096, 4097, 20000, LINE_MARKS):
            yield checked(ring, 0.5, [0.0] * (2 * n), [0], [[0.0] * 8], [0.0] * (n - 1 + ring) + [1.0])
            yield checked_record(ring, 0.5, [0.0] * (2 * n), [0], [[0.0] * 8], [0.0] * (n - 1 + ring) + [1.0], [n % 2], [0.0])
    yield from tied_records()


def path_line(ring, curves_):
    return line('export RING' if ring else 'export OPEN', len(curves_), *curves_)


def paths():
    """Lists to export, and each text that comes of one to import; texts in every form of the grammar, and beside it. Bytes above 127 are not for cases in ASCII."""
    made = [*path_lists(), *(random_list(hand) for _ in range(400)), (False, meeting([random_number(hand) for _ in range(2 + 6 * 300)])), (True, meeting([random_number(hand) for _ in range(2 + 6 * 500)], True))]
    for ring, curves_ in made:
        yield path_line(ring, curves_)
        try:
            yield f'import {exported(curves_, ring)}'
        except Refused:
            pass
    for text in [*TEXTS, *(random_text(hand) for _ in range(800)), *(random_soup(hand) for _ in range(400))]:
        if text.isascii():
            yield f'import {text}'


def packing():
    """House files to pack and to unpack, on both sides of every line; and random ones, whole and damaged."""
    for call, data in dict.fromkeys([*files(), *large_files(), *random_cases(hand, 400)]):
        yield f'{call} {data.hex()}'


def cleaning():
    """House files to clean, on both sides of every line, of few marks and of many; and random ones, whole and damaged."""
    small = [*cleaning_cases.files(), *cleaning_cases.damaged_small(), *cleaning_cases.random_cases(hand, 400)]
    for data in dict.fromkeys([*small, *cleaning_cases.large_files(), *cleaning_cases.heavy_files()]):
        yield f'salvage {data.hex()}'


def nonsense():
    yield 'bezier 3FF0000000000000'
    yield 'sqrt'
    yield 'sqrt 3ff0000000000000'
    yield 'sqrt 3FF000000000000'
    yield 'sqrt 3FF0000000000000 3FF0000000000000'
    yield 'source'
    yield 'direct 3FF0000000000000 0000000000000000'
    yield 'coefficients 3FF0000000000000 ' + ' '.join(['0000000000000000'] * 8)
    yield 'coefficients 01 ' + ' '.join(['0000000000000000'] * 8)
    yield 'basis ' + ' '.join(['0000000000000000'] * 8)
    yield 'sqrt  3FF0000000000000'
    yield 'check 3FF0000000000000 2 0000000000000000 0000000000000000'
    yield 'ring'
    yield from ['source_flat 3FF0000000000000', 'loop_flat 3FF0000000000000', 'ring_flats 3FF0000000000000']
    yield 'check_ring'
    yield 'check_ringx 3FF0000000000000 0 0 0000000000000000'
    yield 'blocks'
    yield 'blocks 0200'
    yield 'size'
    yield 'size 0200'
    yield 'distance ' + ' '.join(['0000000000000000'] * 10)
    for ring in (False, True):
        other = [0.0] * 3 + [1.0] * (not ring)  # as many parameters as the other one has
        yield checked(ring, 0.5, [0.0] * 6, [0], [[0.0] * 8], other)
        yield checked_record(ring, 0.5, [0.0] * 6, [0], [[0.0] * 8], other, [0], [0.0])
        # the record of the other one
        sound = [0.0] * 6, [0], [[0.0] * 8], [0.0] * (2 + ring) + [1.0]
        yield checked(ring, 0.5, *sound).replace('check', 'check_worst')
        yield checked_record(ring, 0.5, *sound, [0], [0.0]).replace('check_worst', 'check')
        yield checked_record(ring, 0.5, *sound, [4294967296], [0.0])
    yield 'check_worst'
    yield 'check_worsts 3FF0000000000000 0 0'
    yield 'import'
    yield 'imports M 1 2'
    yield 'export'
    yield 'export OPEN'
    yield 'export CLOSED 0'
    yield 'export OPEN 1'
    yield 'export OPEN 01 ' + ' '.join(['0000000000000000'] * 8)
    yield 'export RING 2 ' + ' '.join(['0000000000000000'] * 8)
    yield 'export RING 1 ' + ' '.join(['0000000000000000'] * 9)
    yield from ['pack', 'unpack', 'packs 00', 'unpack 0', 'pack 0A', 'unpack 0g', 'pack 00 00', 'pack  00', 'unpack 00 ', 'repack 00']
    yield from ['salvage', 'salvages 00', 'salvage 0', 'salvage 0A', 'salvage 00 00']


def main(words):
    if len(words) > 1 or not all(text.isdecimal() for text in words):
        raise Stop('usage: compare/generate.py [SEED], SEED a whole number')
    hand.seed(int(words[0]) if words else 1)
    for part in (single, near, outlines, ends, joints, rings, limits, measures, lists, sizes, paths, packing, cleaning, nonsense):
        for case in by_both(part(), flat_line):
            print(case)
    return 0


if __name__ == '__main__':
    run('generate', main)
