"""The nearest point of a curve by the document's formulas. It shares nothing with the port: binary64 is Python's own."""
import math

from shared.basis import point_at
from shared.words import bits, number, word

WEIGHTS = ((1.0, 0.6, 0.3, 0.1), (0.4, 0.6, 0.6, 0.4), (0.1, 0.3, 0.6, 1.0))
FLAT_ENOUGH = 0.1
EPSILON = 1e-10
MOST_ROUNDS = 30
DEEPEST = 64
MOST_SECTIONS = 2048


class Refused(Exception):
    """The run's refusal: 6 or 8."""


class Watched(float):
    """A number whose operations have to be finite."""

    def __add__(self, other):
        return watched(float(self) + float(other))

    def __sub__(self, other):
        return watched(float(self) - float(other))

    def __rsub__(self, other):
        return watched(float(other) - float(self))

    def __mul__(self, other):
        return watched(float(self) * float(other))

    def __truediv__(self, other):
        if other == 0:
            raise Refused(6)
        return watched(float(self) / float(other))

    def __neg__(self):
        return Watched(-float(self))

    def __abs__(self):
        return Watched(abs(float(self)))


def watched(value):
    if not math.isfinite(value):
        raise Refused(6)
    return Watched(value)


def dot(p, q):
    return p[0] * q[0] + p[1] * q[1]


def minus(p, q):
    return p[0] - q[0], p[1] - q[1]


def signum(value):
    return math.copysign(1.0, value)


def heights_of(curve, point):
    """The quintic's six heights: dot products of (next - this)·3 and the offsets from the point, weighted, summed in rising i."""
    offsets = [minus(corner, point) for corner in curve]
    steps = [minus(after, before) for before, after in zip(curve, curve[1:])]
    steps = [(x * 3.0, y * 3.0) for x, y in steps]
    products = [[dot(step, offset) for offset in offsets] for step in steps]
    heights = []
    for k in range(6):
        height = Watched(0.0)
        for i in range(max(0, k - 2), min(k, 3) + 1):
            height = height + products[k - i][i] * WEIGHTS[k - i][i]
        heights.append(height)
    return heights


def between(p, q, t):
    """A row of de Casteljau's triangle: numbers or points."""
    if isinstance(p, tuple):
        return tuple(between(a, b, t) for a, b in zip(p, q))
    return p * (1.0 - t) + q * t


def rows(values, t):
    """De Casteljau's triangle, from the values themselves to the one at t."""
    triangle = [list(values)]
    while len(triangle[-1]) > 1:
        last = triangle[-1]
        triangle.append([between(p, q, t) for p, q in zip(last, last[1:])])
    return triangle


def halves(section):
    triangle = rows(section, Watched(0.5))
    return [row[0] for row in triangle], [row[-1] for row in reversed(triangle)]


def crossings(section):
    signs = [y < 0.0 for _, y in section]
    return sum(here != there for here, there in zip(signs, signs[1:]))


def baseline(section):
    """a, b and c of the line through a section's first and last point."""
    (x0, y0), (x1, y1) = section[0], section[-1]
    a, b = y1 - y0, x0 - x1
    return a, b, -(a * x0 + b * y0)


def flat_enough(section):
    direction = signum(section[1][1] - section[0][1])
    for (_, here), (_, there) in zip(section[1:], section[2:]):
        if signum(there - here) != direction:
            return False
    a, b, c = baseline(section)
    factor = watched(math.sqrt(a * a + b * b))
    return max(abs(a * x + b * y + c) / factor for x, y in section) <= FLAT_ENOUGH


def intercept(section):
    """Newton's rounds from where the baseline meets the axis."""
    a, _, c = baseline(section)
    left, right = section[0][0], section[-1][0]
    t = ((-c) / a - left) / (right - left)
    heights = [y for _, y in section]
    slopes = [(after - before) * 5.0 for before, after in zip(heights, heights[1:])]
    for _ in range(MOST_ROUNDS):
        height, slope = rows(heights, t)[-1][0], rows(slopes, t)[-1][0]
        if abs(height) <= EPSILON or slope == 0.0:
            break
        t = t - height / slope
    return t


def roots_of(section):
    """Where the heights are zero, in the order found: sections are halved, left first."""
    waiting, taken, found = [(section, 0)], 0, []
    while waiting:
        if taken == MOST_SECTIONS:
            raise Refused(8)
        taken += 1
        section, depth = waiting.pop()
        count = crossings(section)
        if count == 0:
            continue
        if count == 1 and flat_enough(section):
            found.append(rows(section, intercept(section))[-1][0][0])
            continue
        if depth == DEEPEST:
            raise Refused(8)
        left, right = halves(section)
        waiting += [(right, depth + 1), (left, depth + 1)]
    return found


def nearest(curve, point):
    """Parameter and squared distance: of 0, the roots strictly between 0 and 1, and 1; the later wins a tie."""
    eight = [value for corner in curve for value in corner]
    heights = heights_of(curve, point)
    roots = roots_of([(Watched(k / 5), height) for k, height in enumerate(heights)])
    best = None
    for t in [Watched(0.0)] + [root for root in roots if 0.0 < root < 1.0] + [Watched(1.0)]:
        offset = minus(point_at(eight, t), point)
        far = dot(offset, offset)
        if best is None or far <= best[1]:
            best = t, far
    return best


def answer(patterns):
    """The document's answer to a curve of eight patterns and a point of two, as a line's words."""
    values = [Watched(number(pattern)) for pattern in patterns]
    if any(not abs(value) <= 1e6 for value in values):
        return '5'
    corners = list(zip(values[0::2], values[1::2]))
    try:
        t, far = nearest(corners[:4], corners[4])
    except Refused as refused:
        return str(refused)
    return f'0 {word(bits(t))} {word(bits(far))}'
