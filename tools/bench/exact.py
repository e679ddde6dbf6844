"""The largest distance of a list in exact fractions, with no rounding before its last digit."""
import math
from decimal import Context, Decimal
from fractions import Fraction

from bench.outline import placed

DIGITS = 20  # that are shown; doubles have 17 at most


def point(curve, t):
    """The curve's point at t by its Bernstein form."""
    s = 1 - t
    weights = s * s * s, 3 * s * s * t, 3 * s * t * t, t * t * t
    return [sum(weight * Fraction(corner[axis]) for weight, corner in zip(weights, curve)) for axis in (0, 1)]


def square(listed, mark, curve):
    """The square of a mark's distance from its curve at its parameter."""
    at = point(listed.curves[curve], Fraction(listed.params[mark]))
    return sum((Fraction(ours) - theirs) ** 2 for ours, theirs in zip(listed.marks[mark], at))


def root(value, digits=2 * DIGITS):
    """The square root of a fraction, short by less than one part in 10 to the power of digits."""
    if value == 0:
        return Fraction(0)
    shift = digits + max(0, len(str(value.denominator)) - len(str(value.numerator)))
    return Fraction(math.isqrt(value.numerator * 10 ** (2 * shift) // value.denominator), 10 ** shift)


def largest(listed):
    """The largest distance, its mark and its curve; the first of equals. None if a number that it needs is not finite."""
    needed = [value for corners in listed.curves + [listed.marks] for corner in corners for value in corner] + listed.params
    if not all(map(math.isfinite, needed)):
        return None
    far, mark, curve = max(((square(listed, mark, curve), mark, curve) for mark, curve in placed(listed)), key=lambda one: one[0])
    return root(far), mark, curve


def written(value, digits=DIGITS):
    """A fraction to so many digits, as a decimal number."""
    return str(Context(prec=digits).divide(Decimal(value.numerator), Decimal(value.denominator))).replace('E', 'e')
