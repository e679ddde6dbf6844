"""Curves on paper: their points, their extent, and the small boxes that cover them."""
import math

from shared.basis import point_at


def at(curve, t):
    """The point at t of a curve's four points."""
    return point_at([v for point in curve for v in point], t)


def box_of(points):
    """Left, top, right and bottom of points (with y up: left, low, right and high)."""
    xs, ys = zip(*points)
    return min(xs), min(ys), max(xs), max(ys)


def grown(box, by):
    return box[0] - by, box[1] - by, box[2] + by, box[3] + by


def shared(a, b):
    """What two boxes have in common; it is turned inside out where they have nothing."""
    return max(a[0], b[0]), max(a[1], b[1]), min(a[2], b[2]), min(a[3], b[3])


def meet(a, b):
    return a[0] <= b[2] and b[0] <= a[2] and a[1] <= b[3] and b[1] <= a[3]


def inside(a, b):
    """Whether the box a lies in the box b."""
    return b[0] <= a[0] and b[1] <= a[1] and a[2] <= b[2] and a[3] <= b[3]


def turns(a, b, c, d):
    """The parameters between 0 and 1 where one coordinate of a curve turns back."""
    square, middle, rest = d - 3 * c + 3 * b - a, 2 * (c - 2 * b + a), b - a
    under = middle * middle - 4 * square * rest
    if under < 0:
        return []
    q = -(middle + math.copysign(math.sqrt(under), middle)) / 2  # the sum whose terms have one sign loses nothing
    return [above / below for above, below in ((q, square), (rest, q)) if below and 0 < above / below < 1]


def extent(curve):
    """The box of a curve itself, not of its controls."""
    ends = [curve[0], curve[3]]
    return box_of(ends + [at(curve, t) for axis in zip(*curve) for t in turns(*axis)])


def halves(curve):
    """A curve's two halves."""
    def middle(p, q):
        return (p[0] + q[0]) / 2, (p[1] + q[1]) / 2
    a, b, c, d = curve
    ab, bc, cd = middle(a, b), middle(b, c), middle(c, d)
    abc, bcd = middle(ab, bc), middle(bc, cd)
    centre = middle(abc, bcd)
    return (a, ab, abc, centre), (centre, bcd, cd, d)


def cover(curve, region, small):
    """Boxes no longer than `small` that cover what a curve has in the region. Each is that of a part's four points, which the part never leaves."""
    waiting = [curve]
    while waiting:
        part = waiting.pop()
        box = box_of(part)
        if not meet(box, region):
            continue
        if max(box[2] - box[0], box[3] - box[1]) <= small:
            yield box
        else:
            waiting += halves(part)


def reach(curve):
    """How long the way over a curve's four points is: the curve is no longer."""
    return sum(math.dist(p, q) for p, q in zip(curve, curve[1:]))


def direction(start, end):
    """The unit vector from one point to another, or None where they are one."""
    (x, y), (u, v) = start, end
    far = math.hypot(u - x, v - y)
    return ((u - x) / far, (v - y) / far) if far else None


def seam_angle(curves):
    """By how many degrees the outline turns where its last curve arrives at its first; None if one of the two has no direction there, its control lying on the mark."""
    arrives, leaves = direction(*curves[-1][2:]), direction(*curves[0][:2])
    if not arrives or not leaves:
        return None
    (a, b), (c, d) = arrives, leaves
    return math.degrees(abs(math.atan2(a * d - b * c, a * c + b * d)))
