#!/usr/bin/env python3
"""make_long.py FLO_CURVES [--write]: what the Rust makes of outlines of up to 100,000 marks, as digests, for the tests of bindings/c and bindings/rust.

    bindings/make_long.py ../flo_curves             makes bindings/long.txt anew, and holds it against the kept one
    bindings/make_long.py ../flo_curves --write     puts it in its place

FLO_CURVES is a checkout of the crate, as for compare/run, whose Rust side gives the answers; the port is not asked. The outlines are whole numbers over
a power of two, which are the same numbers in Python, C and Rust: bindings/c/long.c and bindings/rust/tests/long.rs make them again.
Exit status: 0 the digests are as kept, or were written; 1 they are not; 2 they could not be made.
"""
import os
import struct
import sys

sys.dont_write_bytecode = True
HERE = os.path.dirname(os.path.realpath(__file__))
sys.path.insert(0, os.path.join(os.path.dirname(HERE), 'tools'))

from shared import house
from shared.command import Stop, run
from shared.kept import replace, unlike
from shared.rust import answers, build
from shared.words import bits, word, words

KEPT = os.path.join(HERE, 'long.txt')
RECORD = 11  # words of a curve in a fit's answer: first mark, worst mark, nine numbers
FITS = ('source', 'loop', 'joined', 'ring')
MOST = 100000
HEAD = '''\
# What the Rust makes of long outlines: bindings/make_long.py has it from compare's Rust side, and bindings/c/long.c and bindings/rust/tests/long.rs hold the
# port against it. A line has an outline's shape, its number of marks and its tolerance (the bits of the f64), and then one of
#     marks               the marks: how many numbers they are
#     source loop joined ring
#                         a fit: 0 and how many curves, or 6 and none
#     nine eight          the house file of the joined fit, with nine or eight numbers a curve: how many bytes it has
#     closed              that of the ring fit, with mark 0 again behind the last mark, and nine numbers a curve
# and a digest, FNV-1a of 64 bits: of the marks' numbers; of the count of curves, all first marks, all worst marks, nine numbers a curve and the parameters; of
# the file. A count is eight bytes, a mark's number four, any other number its eight, lowest first.
'''


# ---- the outlines: whole numbers, and by which power of two they are divided

class Dice:
    """Knuth's linear congruential generator: its highest bits."""

    def __init__(self):
        self.state = 1

    def roll(self, count):
        self.state = (self.state * 6364136223846793005 + 1442695040888963407) % (1 << 64)
        return self.state >> (64 - count)


def wave(half, at):
    """In the place of a sine: a parabola above zero, `half` wide, and one below."""
    at %= 2 * half
    return at * (half - at) if at < half else -(at - half) * (2 * half - at)


def round_one(n):
    """Once round, whatever the number of marks."""
    turn = [(i << 22) // n for i in range(n)]
    return [(wave(1 << 21, at + (1 << 20)), wave(1 << 21, at)) for at in turn], 26


def traced(n):
    """The same by a shaking hand: each mark is off by up to a quarter each way."""
    dice, (marks, scale) = Dice(), round_one(n)
    off = lambda: 2 * (dice.roll(24) - (1 << 23))
    return [(x + off(), y + off()) for x, y in marks], scale


def rested(n):
    """The same again, but that the hand rests on the mark that is 400 from the end. A block of equal marks is refused by 6."""
    marks, scale = traced(n)
    return marks[:n - 400] + [marks[n - 400]] * 400, scale


def spiral(n):
    """Some 76 marks a turn, wider with every mark."""
    return [((64 + i) * wave(1 << 11, 54 * i + (1 << 10)), (64 + i) * wave(1 << 11, 54 * i)) for i in range(n)], 22


def shaken(n):
    """Up and down with every mark, so that at tolerance 0 nearly each has a curve of its own."""
    return [(i, 2 * (i * 7919 % 101)) for i in range(n)], 1


def scribble(n):
    """A walk on a grid, in eight directions: it turns hard, and folds back at many marks, among them marks where two blocks meet."""
    dice, x, y, marks = Dice(), 0, 0, []
    for _ in range(n):
        step = dice.roll(3)
        x, y = x + (1, 1, 0, -1, -1, -1, 0, 1)[step], y + (0, 1, 1, 1, 0, -1, -1, -1)[step]
        marks.append((x, y))
    return marks, 0


SHAPES = {'round': round_one, 'traced': traced, 'rested': rested, 'spiral': spiral, 'shaken': shaken, 'scribble': scribble}

# Both sides of the house file's kinds, of the division of the block's size and of where it would part from the count-down; and the most marks.
FILES = ('nine', 'eight')
SHORTER = [(shape, n, tolerance, FITS + FILES if n < 5000 else FITS)
           for n in (4096, 4097, 20000, 20001, 30049) for shape, tolerance in (('traced', 0.5), ('scribble', 0.75))]
LONGEST = [('round', MOST, 0.0625, FITS), ('traced', MOST, 0.5, FITS + FILES), ('traced', MOST, 0.25, FITS), ('spiral', MOST, 0.0625, FITS),
           ('shaken', MOST, 0.0, FITS + FILES), ('scribble', MOST, 0.75, FITS), ('rested', MOST, 0.5, FITS)]
OUTLINES = SHORTER + [('traced', MOST - 1, 0.5, ('ring', 'closed'))] + LONGEST


# ---- the Rust's answers, and their digests

def digest(data):
    """FNV-1a."""
    found = 0xCBF29CE484222325
    for byte in data:
        found = (found ^ byte) * 0x100000001B3 & 0xFFFFFFFFFFFFFFFF
    return word(found)


class Fit:
    """What the Rust answers to a fit, taken apart."""

    def __init__(self, program, kind, tolerance, marks):
        case = f'{kind} {word(tolerance)} {words(marks)}'
        said, _, note = answers([program], [case], 'Rust')[0].partition('\t')
        taken = said.split(' ')
        if taken[0] != '0' or note not in ('', 'lost'):
            raise Stop(f'the Rust says {said[:100]} to: {case[:100]}')
        self.refusal = 6 if note == 'lost' else 0
        self.count = 0 if self.refusal else int(taken[1])
        records = [taken[at:at + RECORD] for at in range(2, 2 + RECORD * self.count, RECORD)]
        self.firsts, self.worsts = [int(record[0]) for record in records], [int(record[1]) for record in records]
        self.curves = [[int(number, 16) for number in record[2:]] for record in records]
        self.params = [int(number, 16) for number in taken[2 + RECORD * self.count:]] if self.refusal == 0 else []

    def digest(self):
        marks = struct.pack(f'<{2 * self.count}I', *self.firsts, *self.worsts)
        return digest(struct.pack('<Q', self.count) + marks + b''.join(house.row(curve) for curve in self.curves) + house.row(self.params))

    def file(self, tolerance, marks, width):
        curves = [(first, curve[:width]) for first, curve in zip(self.firsts, self.curves)]
        return house.build(tolerance, marks, curves, self.params, self.worsts if width == 9 else None)


def lines_of(program, shape, n, tolerance, asked):
    """The lines of one outline."""
    pairs, scale = SHAPES[shape](n)
    marks = [bits(x / (1 << scale)) for pair in pairs for x in pair]
    tolerance = bits(tolerance)
    told = [('marks', 0, len(marks), digest(house.row(marks)))]
    fits = {kind: Fit(program, kind, tolerance, marks) for kind in asked if kind in FITS}
    told += [(kind, fit.refusal, fit.count, fit.digest()) for kind, fit in fits.items()]
    files = {'nine': ('joined', marks, 9), 'eight': ('joined', marks, 8), 'closed': ('ring', marks + marks[:2], 9)}
    for kind in asked:
        if kind in files:
            of, held, width = files[kind]
            file = fits[of].file(tolerance, held, width)
            told.append((kind, 0, len(file), digest(file)))
    return [f'{shape} {n} {word(tolerance)} {kind} {refusal} {count} {found}' for kind, refusal, count, found in told]


def main(given):
    write = '--write' in given
    given = [one for one in given if one != '--write']
    if len(given) != 1 or given[0].startswith('-'):
        raise Stop('usage: bindings/make_long.py FLO_CURVES [--write]')
    program, made = build(given[0]), HEAD
    for outline in OUTLINES:
        lines = lines_of(program, *outline)
        print('\n'.join(lines), flush=True)
        made += ''.join(line + '\n' for line in lines)
    if write:
        replace(KEPT, made.encode('ascii'))
        return 0
    with open(KEPT, 'rb') as file:
        kept = file.read()
    if kept == made.encode('ascii'):
        return 0
    print(f'bindings/long.txt is not as kept, first at {unlike(kept, made.encode("ascii"))}')
    return 1


if __name__ == '__main__':
    run('make_long', main)
