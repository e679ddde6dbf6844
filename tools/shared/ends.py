"""Outlines that put a part's two ends to the test, x and y of each mark: a cut must fall between them."""
BIG, LEAST = 1e6, 5e-324

# No mark is off by anything, also by minus zeros; marks rest on the first or on the last one, or come back to it; the worst mark is the second or the last but one, after one cut or after many;
# and marks lie as far out, or as near to each other, as they may.
ENDS = (
    [0.0, 0.0, 1.0, 0.0, 2.0, 0.0], [-0.0, -0.0, 1.0, 0.0, 2.0, -0.0], [-2.0, 4.0, -0.0, 0.0, 2.0, -4.0], [4.0, -0.0, 0.0, 0.0, -4.0, 0.0, -8.0, -0.0],
    [0.0, 0.0, 0.0, 0.0, 4.0, 0.0, 8.0, 3.0], [0.0, 0.0, 4.0, 0.0, 8.0, 3.0, 8.0, 3.0], [3.0, 5.0, 3.0, 5.0, 3.0, 5.0, 9.0, 5.0], [0.0, 0.0, 3.0, 4.0, 0.0, 0.0], [0.0, 0.0, 3.0, 4.0, 6.0, 0.0, 0.0, 0.0],
    [0.0, 0.0, 0.0, 9.0, 16.0, 9.0, 32.0, 9.0], [0.0, 9.0, 16.0, 9.0, 32.0, 9.0, 32.0, 0.0], [0.0, 0.0, 8.0, 0.0, 1.0, 0.0, 9.0, 0.0], [v for i in range(12) for v in (37.0 * i % 32, i * i % 11.0)],
    [BIG, -BIG, -BIG, BIG, BIG, BIG, -BIG, -BIG], [BIG, 0.0, BIG, 1e-9, BIG, 3e-9, BIG, 4e-9], [0.0, 0.0, 1e-160, 0.0, 1e-160, 1e-160, 0.0, 1e-160], [0.0, 0.0, LEAST, 0.0, 1.0, 0.0, 1.0, LEAST])
TOLERANCES = (0.0, -0.0, LEAST)
