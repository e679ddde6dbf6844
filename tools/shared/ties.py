"""One curve along the x axis with three marks beside it, of which two or more are the same distance off: the first of equal squares is the worst mark. No number here is rounded."""

CURVE = [0.0, 0.0, 0.0, 0.0, 4.0, 0.0, 4.0, 0.0]
PARAMS = [0.0, 0.25, 0.5, 0.75, 1.0]
HALF = 0.5  # how far off the worst mark is
NEAR = 2.0 ** -27  # beside a half it makes the square larger by its last bit, and leaves the root as it is

# marks, x and y in turn, and which is the worst
TIES = (
    ([0.0, 0.0, 0.625, HALF, 2.0, -HALF, 3.375, HALF, 4.0, 0.0], 1),
    ([0.0, 0.0, 0.625, 0.25, 2.0, -HALF, 3.375, HALF, 4.0, 0.0], 2),
    ([0.0, 0.0, 0.625, HALF, 2.0 + NEAR, HALF, 3.375, HALF, 4.0, 0.0], 2),   # equal distances, and the second square is the largest
    ([0.0, 0.0, 0.625, HALF, 2.0 + NEAR, HALF, 3.375 - NEAR, -HALF, 4.0, 0.0], 2),
    ([0.0, 0.0, 0.625, 0.0, 2.0, -0.0, 3.375, 0.0, 4.0, 0.0], 0))            # all are on the curve
