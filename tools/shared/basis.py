"""A curve's point, as basis.rs works it out."""


def point_at(curve, t):
    """The point at t of a curve's eight numbers, operation by operation in the Rust's order."""
    s = 1.0 - t
    t2, s2 = t * t, s * s
    t3, s3 = t2 * t, s2 * s
    return tuple(curve[axis] * s3 + curve[axis + 2] * 3.0 * s2 * t + curve[axis + 4] * 3.0 * s * t2 + curve[axis + 6] * t3 for axis in (0, 1))
