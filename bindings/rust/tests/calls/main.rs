//! Every call accepted and refused, through the safe calls and through `sys`, with a look at what a refused one leaves behind.
mod checks;
#[path = "../common/mod.rs"]
mod common;
mod files;
mod fits;
mod flat;
mod kinds;
mod packing;
mod paths;
mod salvaging;
mod single;
mod texts;
mod types;

use wesalondo::Point;

/// A smooth outline of n marks.
fn wave(n: usize) -> Vec<Point> {
    (0..n).map(|i| i as f64 * 0.07).map(|a| Point::new(120.0 * a, 90.0 * (a * 1.3).sin())).collect()
}

/// Tangents for an outline that goes to the right.
const ALONG: Point = Point::new(1.0, 0.0);
const BACK: Point = Point::new(-1.0, 0.0);

/// Numbers that no call takes for a coordinate.
const OUT: [f64; 5] = [f64::NAN, f64::INFINITY, f64::NEG_INFINITY, 1_000_000.000_1, -1e300];
