#!/usr/bin/env python3
"""draw_joint.py FILE.house MARK REACH < LISTING: draws the curves of a listing about one mark, with the controls of the two curves that meet there.

    ./wesalondo fit --listing examples/dart.house | tools/draw_joint.py examples/dart.house 200 44 > docs/fold-after.svg

The listing is what `./wesalondo fit --listing` prints for the file. The drawing, an SVG on standard output, shows so many marks before and after the one that is named.
Exit status: 0 drawn; 2 misuse, or a listing that is none of this file's.
"""
import math
import os
import re
import sys

sys.dont_write_bytecode = True
sys.path.insert(0, os.path.dirname(os.path.realpath(__file__)))

from bench.curves import box_of
from bench.svg import COLOURS, FONTS, INK, RED, WHITE, circle, group, line, look, num, path, plus, text
from shared.command import Stop, run
from shared.house import parse
from shared.words import number, numbers, pattern_of

WIDE, HIGH, EDGE, FOOT = 440, 300, 20, 24  # of the drawing, in its own units; the foot has the words
MOST_BYTES = 1 << 20                       # of a file and of a listing: more than any of 4,096 marks has
LEAST = 1e-6                               # mm, that a box is wide and high at least


def marks_of(path):
    with open(path, 'rb') as file:
        held = parse(file.read(MOST_BYTES))
    if held is None:
        raise Stop(f'{path} is no house file')
    values = numbers(held.marks)
    return list(zip(values[::2], values[1::2]))


def curve_of(line):
    """First mark and four points of a line of a listing, or None."""
    found = re.fullmatch('PIECE ([0-9]{1,5})((?: [0-9A-F]{16}){8})', line)
    if not found:
        return None
    eight = [number(pattern_of(word)) for word in found[2].split()]
    return (int(found[1]), list(zip(eight[::2], eight[1::2]))) if all(map(math.isfinite, eight)) else None


def listed(text, marks):
    """The curves of a listing of these marks: each begins on its first one."""
    head, *lines = text.split('\n')[:-1] or ['']
    curves = [curve_of(line) for line in lines]
    if head != f'OUTLINE {len(marks)} {len(lines)}' or not all(curve and marks[curve[0]:curve[0] + 1] == curve[1][:1] for curve in curves):
        raise Stop('standard input is no listing of this file')
    return curves


class View:
    """A box on paper; x runs right and y up."""

    def __init__(self, box):
        self.left, low, right, self.high = box
        self.scale = min((WIDE - 2 * EDGE) / max(right - self.left, LEAST), (HIGH - 2 * EDGE) / max(self.high - low, LEAST))

    def at(self, point):
        return EDGE + (point[0] - self.left) * self.scale, EDGE + (self.high - point[1]) * self.scale

    def shows(self, point):
        x, y = self.at(point)
        return 0 <= x <= WIDE and 0 <= y <= HIGH


def drawn_curve(view, k, points):
    a, b, c, d = (' '.join(map(num, view.at(point))) for point in points)
    return path(f'M{a} C{b} {c} {d}', f'stroke="{COLOURS[k % 2]}"')


def handle(view, mark, control):
    """A control and the line to it from its mark; one that lies on the mark is a ring about it."""
    if control == mark:
        return [circle(*view.at(mark), 9, look('none', RED, 1.4))]
    return [line(*view.at(mark), *view.at(control), RED, 1), circle(*view.at(control), 2.5, f'fill="{RED}"')]


def meeting(curves, mark):
    """The curve that ends at a mark, and the one that starts there."""
    for (_, before), (first, after) in zip(curves, curves[1:]):
        if first == mark:
            return before, after
    raise Stop(f'no two curves meet at mark {mark}')


def drawing(marks, curves, mark, reach):
    left, right = meeting(curves, mark)
    view, here = View(box_of(marks[max(mark - reach, 0):mark + reach + 1])), marks[mark]
    joints = [points[0] for _, points in curves if view.shows(points[0])]
    inside = [k for k, (_, points) in enumerate(curves) if view.shows(points[0]) and view.shows(points[3])]
    bare = [left[2], right[1]].count(here)
    words = f'{len(inside)} whole curves here; at mark {mark} ' + ('both have a direction (red)', 'one of two has no direction (ring)', 'neither of two has a direction (ring)')[bare]
    return '\n'.join([
        f'<svg xmlns="http://www.w3.org/2000/svg" viewBox="0 0 {WIDE} {HIGH + FOOT}" width="{WIDE}" height="{HIGH + FOOT}" font-family="{FONTS}">',
        f'<rect width="{WIDE}" height="{HIGH + FOOT}" fill="{WHITE}"/>',
        group('fill="none" stroke-width="1.6"', [drawn_curve(view, k, points) for k, (_, points) in enumerate(curves) if any(map(view.shows, points))]),
        group(look('none', INK, 0.5), [path(''.join(plus(*view.at(point), 2) for point in marks if view.shows(point)))]),
        group(f'fill="{INK}"', [circle(*view.at(point), 3) for point in joints]), *handle(view, here, left[2]), *handle(view, here, right[1]),
        f'<rect y="{HIGH}" width="{WIDE}" height="{FOOT}" fill="{WHITE}"/>', text(8, HIGH + 16, 12, words), '</svg>', ''])


def main(words):
    if len(words) != 3 or not all(re.fullmatch('[0-9]{1,5}', word) for word in words[1:]):
        raise Stop('usage: tools/draw_joint.py FILE.house MARK REACH < LISTING')
    marks = marks_of(words[0])
    text_given = sys.stdin.buffer.read(MOST_BYTES).decode('ascii', errors='replace')
    sys.stdout.write(drawing(marks, listed(text_given, marks), int(words[1]), int(words[2])))
    return 0


if __name__ == '__main__':
    run('draw_joint', main)
