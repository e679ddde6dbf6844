"""Marks about one where two blocks meet: before it, at it and after it, x and y of each."""
import math

BIG, LEAST = 1e6, 5e-324
SMALL = 2.0 ** -537                       # its square is the smallest number
OVER = math.ldexp(math.sqrt(2.0), -538)   # and so is this one's, rounded; it is the least of which that is so
UNDER = math.nextafter(OVER, 0.0)         # the square of this one is 0

# They turn hard, fold back, rest, or lie so near that their difference is lost. Half the sum of the two legs has no direction where they fold back or rest, where they differ by
# less than is kept beside a million, and where its square is 0; the chords to the neighbours, which are not halved, then have one on both sides, on one, or on none.
ABOUTS = (
    [3.0, 4.0, 5.0, 6.0, 3.0, 4.0], [3.0, 4.0] * 3, [3.0, 4.0, 3.0, 4.0, 5.0, 6.0], [3.0, 4.0, 5.0, 6.0, 5.0, 6.0],
    [3.0, 0.0, -0.0, 0.0, 3.0, 0.0], [0.0, 0.0, 1e-320, 0.0, 2e-320, 0.0], [1e-170, 0.0, 0.0, 0.0, 0.0, 1e-170],
    [BIG, BIG, -BIG, -BIG, BIG, -BIG], [-BIG, 0.0, BIG, 0.0, -BIG, LEAST],
    [1.0, 0.5, 0.0, 0.0, 1.0, 0.5], [1.0, 0.5, 0.0, 0.0, math.nextafter(1.0, 2.0), 0.5],
    [4e-12, -7e-12, BIG, -BIG, -2e-12, 0.0], [0.0, 5.0, -0.0, -0.0, -0.0, 5.0], [0.0, -0.0, -0.0, -0.0, -0.0, 0.0], [0.0, 5.0, -0.0, 5.0, -0.0, 5.0],
    [2 * UNDER, 0.0] + [0.0] * 4, [2 * OVER, 0.0] + [0.0] * 4, [0.0] * 4 + [0.0, -1.2 * SMALL], [0.9 * SMALL, 0.0, 0.0, 0.0, 0.0, 0.8 * SMALL],
    [UNDER, 0.0] + [0.0] * 4, [-LEAST, 0.0, 0.0, 0.0, 0.0, 3.0])
