//! The calls on one curve.
use crate::point::{numbers, Curve, Point};
use crate::refusal::{answered, Refusal};
use crate::sys;
use std::ptr::{from_mut, from_ref};

/// The point of a curve that is nearest to another one.
#[derive(Clone, Copy, Debug, Default, PartialEq)]
pub struct Nearest {
    /// Its parameter.
    pub t: f64,
    /// The square of its distance.
    pub distance_sq: f64,
}

/// A curve's eight numbers, for the calls that take it.
fn eight(curve: &Curve) -> *const [f64; 8] {
    from_ref(curve).cast()
}

/// A point that a call writes.
fn point_by(call: impl FnOnce(*mut [f64; 2]) -> u32) -> Result<Point, Refusal> {
    let mut point = Point::default();
    answered(call(from_mut(&mut point).cast()))?;
    Ok(point)
}

/// The point of a curve at `t`: flo_curves' `basis`, which is its `point_at_pos`.
pub fn basis(curve: &Curve, t: f64) -> Result<Point, Refusal> {
    // SAFETY: a curve is eight numbers and a point two, and the point is apart from the curve.
    point_by(|point| unsafe { sys::wes_basis(eight(curve), t, point) })
}

/// The same point by other roundings: flo_curves' `de_casteljau4`.
pub fn de_casteljau4(curve: &Curve, t: f64) -> Result<Point, Refusal> {
    // SAFETY: as in `basis`.
    point_by(|point| unsafe { sys::wes_de_casteljau4(eight(curve), t, point) })
}

/// The point at `t` of a quadratic curve of three points.
pub fn de_casteljau3(curve: &[Point; 3], t: f64) -> Result<Point, Refusal> {
    // SAFETY: three points are six numbers, and the point is apart from them.
    point_by(|point| unsafe { sys::wes_de_casteljau3(numbers(curve).as_ptr().cast(), t, point) })
}

/// The point at `t` of the line of two points.
pub fn de_casteljau2(curve: &[Point; 2], t: f64) -> Result<Point, Refusal> {
    // SAFETY: two points are four numbers, and the point is apart from them.
    point_by(|point| unsafe { sys::wes_de_casteljau2(numbers(curve).as_ptr().cast(), t, point) })
}

/// The four coefficients of a curve, that of the cube first, in x (dimension 0) or in y (dimension 1).
pub fn bezier_coefficients(curve: &Curve, dimension: usize) -> Result<[f64; 4], Refusal> {
    let mut coefficients = [0.0; 4];
    // SAFETY: a curve is eight numbers, and the coefficients are apart from it.
    answered(unsafe { sys::wes_bezier_coefficients(eight(curve), dimension, &mut coefficients) })?;
    Ok(coefficients)
}

/// The two parts of a curve that is cut at `t`.
pub fn subdivide4(curve: &Curve, t: f64) -> Result<(Curve, Curve), Refusal> {
    let (mut left, mut right) = (Curve::default(), Curve::default());
    // SAFETY: a curve is eight numbers, and the three of them are apart.
    answered(unsafe { sys::wes_subdivide4(eight(curve), t, from_mut(&mut left).cast(), from_mut(&mut right).cast()) })?;
    Ok((left, right))
}

/// The point of a curve that is nearest to `point`.
pub fn nearest_point_on_curve(curve: &Curve, point: Point) -> Result<Nearest, Refusal> {
    let mut nearest = Nearest::default();
    // SAFETY: a curve is eight numbers, and the two that are written are apart from it and from each other.
    answered(unsafe { sys::wes_nearest_point_on_curve(eight(curve), point.x, point.y, &mut nearest.t, &mut nearest.distance_sq) })?;
    Ok(nearest)
}

/// A better parameter for the point nearest to `point` than `estimated_t`, in at most `num_iterations` rounds of Newton's, up to 64.
pub fn nearest_point_on_curve_newton_raphson_with_estimate(
    curve: &Curve,
    point: Point,
    estimated_t: f64,
    num_iterations: usize,
) -> Result<f64, Refusal> {
    let mut t = 0.0;
    let raw = sys::wes_nearest_point_on_curve_newton_raphson_with_estimate;
    // SAFETY: a curve is eight numbers, and `t` is apart from it.
    answered(unsafe { raw(eight(curve), point.x, point.y, estimated_t, num_iterations, &mut t) })?;
    Ok(t)
}
