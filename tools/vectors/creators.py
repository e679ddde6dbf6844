"""creators: the counts of the finite lemma in docs/SECTIONS.md, worked out apart from the program.

Sections of six heights whose right half has every sign bit set and no height below the smallest value under zero, looked for in the lemma's box
and a margin around it. Binary64 is Python's own, and the heights are so small that a product with 0.5 rounds."""
import math
import struct

from shared import kept

NAME = 'creators'
LEAST = 5e-324
BOX = (1, 2, 6, 18, 54, 162)  # how many smallest values a height may be in size, from the last height to the first
MARGIN = 3
DEPTHS = 64


def middle(a, b):
    return a * 0.5 + b * 0.5


def is_signed(height):
    return math.copysign(1.0, height) < 0


def values(most):
    """Every height up to so many smallest values in size, in rising order, minus zero before plus zero."""
    sizes = [k * LEAST for k in range(most + 1)]
    return [-size for size in reversed(sizes)] + sizes


HEIGHTS = [values(size + MARGIN) for size in BOX]


def changes(section, belongs):
    """How often neighbours differ in belonging to a class."""
    inside = [belongs(height) for height in section]
    return sum(here != there for here, there in zip(inside, inside[1:]))


def is_below(height):
    return height < 0.0


def is_deep(height):
    return height <= -2 * LEAST


def is_live(section):
    return changes(section, is_below) > 0


def stands(height):
    """Whether a height may be one of the right half."""
    return is_signed(height) and height >= -LEAST


def diagonal(height, before):
    """The next diagonal of the triangle of midpoints, from a height down, beside the one before."""
    found = [height]
    for other in before:
        found.append(middle(found[-1], other))
    return found


def lowest(heights, before):
    """Where the heights begin whose diagonal does not end too deep: an end never falls where a height rises."""
    low, high = 0, len(heights)
    while low < high:
        mid = (low + high) // 2
        if diagonal(heights[mid], before)[-1] < -LEAST:
            low = mid + 1
        else:
            high = mid
    return low


def sections(place=0, before=(), heights=(), ends=()):
    """(section, its right half) of all of them, filled from the last height to the first."""
    if place == len(BOX):
        yield heights[::-1], ends[::-1]
        return
    for height in HEIGHTS[place][lowest(HEIGHTS[place], before):]:
        line = diagonal(height, before)
        if not stands(line[-1]):
            return
        yield from sections(place + 1, line, heights + (height,), ends + (line[-1],))


def halves(section):
    """The live ones of a section's halves."""
    rows = [section]
    while len(rows[-1]) > 1:
        last = rows[-1]
        rows.append(tuple(middle(a, b) for a, b in zip(last, last[1:])))
    both = tuple(row[0] for row in rows), tuple(row[-1] for row in reversed(rows))
    return [half for half in both if is_live(half)]


def key_of(section):
    """A section's bits: zeros of either sign are two heights."""
    return struct.pack('<6d', *section)


class Known:
    """Live halves by keys, each section's worked out once."""

    def __init__(self):
        self.found = {}

    def below(self, key):
        if key not in self.found:
            self.found[key] = [key_of(half) for half in halves(struct.unpack('<6d', key))]
        return self.found[key]


def stays_within(section, most, known):
    """Whether no depth below a section has more live sections than so many, where every live one is halved."""
    level = [key_of(section)]
    for _ in range(DEPTHS):
        if len(level) > most:
            return False
        below = [half for live in level for half in known.below(live)]
        if below == level:
            return True  # and so it goes on
        level = below
    return True


def in_box(section):
    return all(abs(height) <= size * LEAST for height, size in zip(section, reversed(BOX)))


def make(rust):
    known = Known()
    count = outside = creators = beyond = 0
    for section, right in sections():
        count += 1
        outside += not in_box(section)
        deep = changes(section, is_deep)
        if deep and is_live(section) and is_live(right):
            creators += 1
            most = 2 * deep + changes(section, is_signed)
            beyond += not (stays_within(section, most, known) and stays_within(section[::-1], most, known))
    return kept.Made(NAME, b'', f'SECTIONS {count} OUTSIDE {outside} CREATORS {creators} BEYOND {beyond}\n', 1, 1)
