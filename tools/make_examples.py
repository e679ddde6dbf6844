#!/usr/bin/env python3
"""make_examples.py [--write]: makes the house files of examples/, the same bytes on every run, and holds them against those that are there.

Shapes are drawn by formula, walked at a given spacing, shaken by a seeded hand where the outline is traced by hand, and put on the
grid of a digitising table (0.05 mm). Units are millimetres. Nothing is written but with --write.
Exit status: 0 the files are as they are made, or were written; 1 some differ; 2 misuse.
"""
import math
import os
import random
import sys

sys.dont_write_bytecode = True
sys.path.insert(0, os.path.dirname(os.path.realpath(__file__)))

from shared.basis import point_at
from shared.checker import kept_for
from shared.command import Stop, run
from shared.house import build, pack, parse
from shared.kept import ROOT, replace
from shared.words import bits, patterns_of

GRID = 20  # marks are whole twentieths of a millimetre


def house(tolerance, marks):
    """A house file of kinds 1 and 2: tolerance and marks."""
    return build(bits(tolerance), [pattern for mark in marks for pattern in patterns_of(*mark)])


def grid(marks):
    return [(round(x * GRID) / GRID, round(y * GRID) / GRID) for x, y in marks]


def walk(shape, spacing, fine=20000):
    """Marks along shape(0..1), spacing(u) apart, with both ends."""
    marks, last, gone = [shape(0.0)], shape(0.0), 0.0
    for i in range(1, fine + 1):
        here = shape(i / fine)
        gone += math.dist(last, here)
        last = here
        if gone >= spacing(i / fine):
            marks.append(here)
            gone = 0.0
    if marks[-1] != shape(1.0):
        marks[-1 if gone < spacing(1.0) / 2 else len(marks):] = [shape(1.0)]
    return marks


def even(shape, count, fine=40000):
    """count marks along shape(0..1), evenly apart."""
    points = [shape(i / fine) for i in range(fine + 1)]
    far = [0.0]
    for a, b in zip(points, points[1:]):
        far.append(far[-1] + math.dist(a, b))
    marks, i = [], 0
    for k in range(count):
        want = far[-1] * k / (count - 1)
        while i < fine and far[i] < want:
            i += 1
        marks.append(points[i])
    return marks


def shake(marks, by, hand):
    """A hand that is off by some `by` millimetres; the two ends stay."""
    def off():
        return by * (sum(hand.random() for _ in range(12)) - 6.0)
    return marks[:1] + [(x + off(), y + off()) for x, y in marks[1:-1]] + marks[-1:]


def chain(*pieces):
    """One shape of several, each (share of 0..1, shape)."""
    total = sum(share for share, _ in pieces)

    def shape(u):
        left = u * total
        for share, piece in pieces:
            if left <= share:
                return piece(left / share)
            left -= share
        return pieces[-1][1](1.0)
    return shape


def cover():
    """A dinghy's cover from above, from the bow round the transom and back."""
    def half(x):
        return 660 * (1 - (x / 3000) ** 2.4) ** 0.8 * (0.88 + 0.12 * math.sin(math.pi / 2 * min(x / 1500, 1)))
    r = 90.0
    y0 = half(r)

    def side(u):
        x = r + (3000 - r) * (1 - u * u * (3 - 2 * u))
        return x, half(x)

    def corner(u):
        a = math.pi / 2 * (1 + u)
        return r + r * math.cos(a), y0 - r + r * math.sin(a)

    def transom(u):
        y = (y0 - r) * (1 - 2 * u)
        return -25 * (1 - (y / (y0 - r)) ** 2), y

    def mirror(piece):
        def turned(u):
            x, y = piece(1 - u)
            return x, -y
        return turned
    shape = chain((4, side), (1, corner), (2, transom), (1, mirror(corner)), (4, mirror(side)))
    return house(1.0, grid(walk(shape, lambda u: 14 if 4 / 12 <= u <= 5 / 12 or 7 / 12 <= u <= 8 / 12 else 58)))


def luff():
    """A mainsail's luff: straight but for 85 mm of round, 0.45 of the way up; it hollows towards the head."""
    hand = random.Random(2)

    def shape(u):
        round_ = 85 * math.sin(math.pi * u ** 0.87) - 14 * math.sin(math.pi * max(0, u - 0.7) / 0.3) ** 2
        return 5200 * u, round_
    marks = [shape(min(1, max(0, (k + hand.uniform(-0.15, 0.15)) / 52))) for k in range(53)]
    return house(0.5, grid([shape(0.0)] + marks[1:-1] + [shape(1.0)]))


def window():
    """A window of a spray hood, traced by hand round a cardboard piece: 180 marks, each off by some 0.2 mm."""
    hand = random.Random(3)

    def shape(u):
        a = 2 * math.pi * u
        c, s = math.cos(a), math.sin(a)
        return (150 * math.copysign(abs(c) ** 0.62, c) + 12 * s, 95 * math.copysign(abs(s) ** 0.62, s) - 10 * c * c)
    return house(0.8, grid(shake(even(shape, 180), 0.2, hand)))


def hood():
    """A spray hood's side panel at the table's full rate: 500 marks, so three blocks."""
    hand = random.Random(4)

    def bay(u):
        return 2400 * u, 300 * math.sin(math.pi * u) ** 0.8 + 120 * u + 26 * math.sin(7 * math.pi * u)

    def front(u):
        return 2400 - 260 * u + 40 * math.sin(math.pi * u), 120 - 700 * u

    def foot(u):
        return 2140 - 2140 * u, -580 + 250 * u + 60 * math.sin(2.5 * math.pi * u) ** 2

    def back(u):
        return -60 * math.sin(math.pi * u), -270 + 270 * u
    shape = chain((5, bay), (1.4, front), (4.5, foot), (0.8, back))
    return house(0.6, grid(shake(even(shape, 500), 0.08, hand)))


def tender():
    """A tender's cover, traced by hand all the way round and begun amidships: 260 marks, each off by some 0.15 mm. The first one is not given again at the end."""
    hand = random.Random(5)

    def shape(u):
        a = 2 * math.pi * u + math.pi / 2
        c, s = math.cos(a), math.sin(a)
        x = math.copysign(abs(c) ** 0.8, c)
        return 1200 * x, 720 * (1 - 0.18 * x) * math.copysign(abs(s) ** 0.75, s)
    return house(0.8, grid(shake(even(shape, 261), 0.15, hand)[:-1]))


def genoa():
    """A genoa's leech at the table's full rate, 180 mm hollow, with bulges between its battens: 630 marks, so blocks of 193."""
    hand = random.Random(6)

    def shape(u):
        return 9600 * u, -180 * math.sin(math.pi * u ** 0.8) + 9 * math.sin(5 * math.pi * u) ** 2
    return house(0.6, grid(shake(even(shape, 630), 0.08, hand)))


def dart():
    """A hood's flap with a curved dart, 28 mm wide at the hem: traced along the hem, down one side of the dart and up the other, 250 marks off by some 0.06 mm. The tip is mark 200,
    where two blocks meet. There the dart is narrower than the puck can tell, and the mark after the tip lies on the mark before it."""
    hand = random.Random(7)

    def side(turn):
        def shape(u):
            a = 1.1 * u
            off = 14 * turn * (1 - u) ** 1.5
            return 1500 - 180 * (1 - math.cos(a)) + off * math.cos(a), -30 - 180 * math.sin(a) - off * math.sin(a)
        return shape

    def hem(start, end):
        def shape(u):
            x = start + (end - start) * u
            return x, 45 * math.sin(math.pi * x / 1500) - 30
        return shape
    down, up = (shake(even(side(turn), 41), 0.06, hand) for turn in (-1, 1))
    marks = shake(even(hem(0, 1486), 161), 0.06, hand)[:-1] + down + up[-2::-1] + even(hem(1514, 1604), 10)[1:]
    marks[201] = marks[199]
    return house(0.5, grid(marks))


def mainsail():
    """A whole mainsail at the table's full rate: up the luff, down the leech with its five battens, and back along the foot; 6,000 marks off by some 0.05 mm, more than the bench's programs take."""
    hand = random.Random(8)

    def luff(u):
        return 90 * math.sin(math.pi * u ** 0.87), 13200 * u

    def head(u):
        return 180 * u, 13200 - 12 * math.sin(math.pi * u)

    def leech(u):
        roach = 620 * math.sin(math.pi * u ** 0.9) + 8 * math.sin(6 * math.pi * u) ** 2
        return 180 + 4500 * u + roach, 13188 - 13060 * u

    def foot(u):
        return 4680 - 4680 * u, 128 - 128 * u - 160 * math.sin(math.pi * u) ** 1.3
    shape = chain((13, luff), (0.2, head), (13, leech), (4.6, foot))
    return house(0.6, grid(shake(even(shape, 6000, 240000), 0.05, hand)))


def flat(points):
    """Points as their coordinates, x and y in turn."""
    return [value for point in points for value in point]


def rounded(corners, radius):
    """The curves about a shape with rounded corners, from behind the first one and back: a side and a corner in turn, all four points of each on the grid."""
    def towards(p, q, far):
        return tuple(a + (b - a) * far / math.dist(p, q) for a, b in zip(p, q))
    ends = [(towards(at, before, radius), at, towards(at, after, radius)) for before, at, after in zip(corners[-1:] + corners, corners, corners[1:] + corners[:1])]
    for (_, _, start), (end, at, after) in zip(ends, ends[1:] + ends[:1]):
        side, turn = math.dist(start, end), radius * 0.5523
        yield grid([start, towards(start, end, side / 3), towards(start, end, side * 2 / 3), end])
        yield grid([end, towards(end, at, turn), towards(after, at, turn), after])


def cushion():
    """A berth's cushion out of an archive, packed: four sides and four rounded corners, each a curve with its worst mark; 85 marks, off their curves by the grid alone."""
    curves = [flat(curve) for curve in rounded([(0, 0), (1900, 90), (1900, 560), (0, 650)], 110)]
    marks, firsts, params = [], [], []
    for curve in curves:
        count = 18 if math.dist(curve[:2], curve[6:]) > 300 else 6
        firsts.append(len(params))
        marks += grid([curve[:2]] + [point_at(curve, k / count) for k in range(1, count)])
        params += [k / count for k in range(count)]
    marks, params = flat(marks) + curves[-1][6:], params + [1.0]
    worsts, fars = kept_for(marks, curves, firsts, params)
    rows = [(first, patterns_of(*curve, far)) for first, curve, far in zip(firsts, curves, fars)]
    return pack(build(bits(0.5), patterns_of(*marks), rows, patterns_of(*params), worsts))


def lost():
    """A foot tape whose puck lost the table at mark 11."""
    marks = grid([(80.0 * k, 40 * math.sin(0.28 * k)) for k in range(24)])
    marks[11] = (math.nan, marks[11][1])
    return house(0.5, marks)


def pressed():
    """The button pressed three times with the puck at rest."""
    return house(0.5, [(412.35, 118.6)] * 3)


def rested():
    """A bimini's edge of 2.4 m at the table's full rate, with the hand at rest on the puck at mark 185: 480 marks, of which 231 are one. From 200 to 400, a whole block, nothing moves."""
    hand = random.Random(9)

    def shape(u):
        return 2400 * u, 150 * math.sin(math.pi * u) - 35 * math.sin(3 * math.pi * u) ** 2
    marks = grid(shake(even(shape, 250), 0.08, hand))
    return house(0.6, marks[:186] + marks[185:186] * 230 + marks[186:])


def settle(make, write):
    """Says how an example stands, and puts it in place if asked to; whether all is well."""
    data = make()
    path = os.path.join(ROOT, 'examples', make.__name__ + '.house')
    about = f'{make.__name__}.house: {len(data)} bytes, {parse(data).count} marks'
    before = b''
    if os.path.isfile(path):
        with open(path, 'rb') as file:
            before = file.read()
    if before == data:
        print(f'{about}: as kept')
    elif write:
        replace(path, data)
        print(f'{about}: written')
    else:
        print(f'{about}: not as kept')
    return write or before == data


def main(words):
    if words not in ([], ['--write']):
        raise Stop('usage: tools/make_examples.py [--write]')
    well = [settle(make, bool(words)) for make in (cover, luff, window, hood, genoa, dart, tender, mainsail, cushion, lost, pressed, rested)]
    return 0 if all(well) else 1


if __name__ == '__main__':
    run('make_examples', main)
