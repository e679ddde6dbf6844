//! Points and curves, laid out as the library takes them: as plain numbers, x before y.
use std::mem::{align_of, offset_of, size_of};

/// A mark, or any other point of the plane.
#[repr(C)]
#[derive(Clone, Copy, Debug, Default, PartialEq)]
pub struct Point {
    /// To the right.
    pub x: f64,
    /// Up.
    pub y: f64,
}

/// A cubic curve.
#[repr(C)]
#[derive(Clone, Copy, Debug, Default, PartialEq)]
pub struct Curve {
    /// Where it starts.
    pub start: Point,
    /// The control point of its start.
    pub cp1: Point,
    /// The control point of its end.
    pub cp2: Point,
    /// Where it ends.
    pub end: Point,
}

// A slice of points is a slice of twice as many numbers, and a curve is eight numbers: the casts below rest on this.
const _: () = assert!(size_of::<Point>() == size_of::<[f64; 2]>() && align_of::<Point>() == align_of::<f64>());
const _: () = assert!(offset_of!(Point, x) == 0 && offset_of!(Point, y) == size_of::<f64>());
const _: () = assert!(size_of::<Curve>() == size_of::<[f64; 8]>() && align_of::<Curve>() == align_of::<f64>());
const _: () = assert!(offset_of!(Curve, start) == 0 && offset_of!(Curve, cp1) == size_of::<Point>());
const _: () = assert!(offset_of!(Curve, cp2) == 2 * size_of::<Point>() && offset_of!(Curve, end) == 3 * size_of::<Point>());

impl Point {
    /// The point (x, y).
    pub const fn new(x: f64, y: f64) -> Point {
        Point { x, y }
    }
}

/// The numbers of points, x and y in turn.
pub(crate) fn numbers(points: &[Point]) -> &[f64] {
    // SAFETY: a point is two numbers and nothing else (asserted above), and a slice that is there has no more bytes than an isize holds.
    unsafe { std::slice::from_raw_parts(points.as_ptr().cast(), 2 * points.len()) }
}

/// The same, to be written; every pair of numbers is a point.
pub(crate) fn numbers_mut(points: &mut [Point]) -> &mut [f64] {
    // SAFETY: as for `numbers`, and the numbers are borrowed as the points were.
    unsafe { std::slice::from_raw_parts_mut(points.as_mut_ptr().cast(), 2 * points.len()) }
}

impl From<[f64; 2]> for Point {
    fn from([x, y]: [f64; 2]) -> Point {
        Point { x, y }
    }
}

impl From<Point> for [f64; 2] {
    fn from(p: Point) -> [f64; 2] {
        [p.x, p.y]
    }
}

impl From<(f64, f64)> for Point {
    fn from((x, y): (f64, f64)) -> Point {
        Point { x, y }
    }
}

impl From<Point> for (f64, f64) {
    fn from(p: Point) -> (f64, f64) {
        (p.x, p.y)
    }
}

impl From<[Point; 4]> for Curve {
    fn from([start, cp1, cp2, end]: [Point; 4]) -> Curve {
        Curve { start, cp1, cp2, end }
    }
}

impl From<Curve> for [Point; 4] {
    fn from(c: Curve) -> [Point; 4] {
        [c.start, c.cp1, c.cp2, c.end]
    }
}

impl From<[f64; 8]> for Curve {
    fn from([a, b, c, d, e, f, g, h]: [f64; 8]) -> Curve {
        Curve { start: Point::new(a, b), cp1: Point::new(c, d), cp2: Point::new(e, f), end: Point::new(g, h) }
    }
}

impl From<Curve> for [f64; 8] {
    fn from(c: Curve) -> [f64; 8] {
        [c.start.x, c.start.y, c.cp1.x, c.cp1.y, c.cp2.x, c.cp2.y, c.end.x, c.end.y]
    }
}
