//! The calls on one curve and on numbers.
use crate::OUT;
use wesalondo::*;

const CURVE: [f64; 8] = [1.0, 2.0, 2.0, 0.0, 3.0, 5.0, 4.0, 2.0];

/// A curve with one number changed.
fn with(at: usize, bad: f64) -> [f64; 8] {
    let mut curve = CURVE;
    curve[at] = bad;
    curve
}

fn points<const N: usize>(curve: &[f64]) -> [Point; N] {
    std::array::from_fn(|i| Point::new(curve[2 * i], curve[2 * i + 1]))
}

#[test]
fn points_of_a_curve() {
    let curve = Curve::from(CURVE);
    assert_eq!(basis(&curve, 0.0), Ok(curve.start));
    assert_eq!(basis(&curve, 1.0), Ok(curve.end));
    assert_eq!(basis(&curve, 0.5), Ok(Point::new(2.5, 2.375)));
    assert_eq!(de_casteljau4(&curve, 0.5), Ok(Point::new(2.5, 2.375)));
    assert_eq!(de_casteljau3(&points(&CURVE), 0.5), Ok(Point::new(2.0, 1.75)));
    assert_eq!(de_casteljau2(&points(&CURVE), 0.5), Ok(Point::new(1.5, 1.0)));
    assert_eq!(bezier_coefficients(&curve, 0), Ok([0.0, 0.0, 3.0, 1.0]));
    assert_eq!(bezier_coefficients(&curve, 1), Ok([-15.0, 21.0, -6.0, 2.0]));
    let (left, right) = subdivide4(&curve, 0.5).unwrap();
    assert_eq!((left.start, left.end, right.start, right.end), (curve.start, Point::new(2.5, 2.375), left.end, curve.end));
}

/// flo_curves' own sums, in Rust, so that calls which round differently can't stand in for each other.
#[test]
fn bits_of_flo_curves() {
    let sum = |p: Point, s: f64, q: Point, t: f64| Point::new(p.x * s + q.x * t, p.y * s + q.y * t);
    let curve = Curve::from(CURVE);
    let [w1, w2, w3, w4] = <[Point; 4]>::from(curve);
    let mut apart = 0;
    for i in 0..=1000 {
        let t = f64::from(i) / 1000.0;
        let between = |p, q| sum(p, 1.0 - t, q, t);
        let (a, b, c) = (between(w1, w2), between(w2, w3), between(w3, w4));
        let (d, e) = (between(a, b), between(b, c));
        let middle = between(d, e);
        assert_eq!(de_casteljau2(&[w1, w2], t), Ok(a));
        assert_eq!(de_casteljau3(&[w1, w2, w3], t), Ok(d));
        assert_eq!(de_casteljau4(&curve, t), Ok(middle));
        assert_eq!(subdivide4(&curve, t), Ok(([w1, a, d, middle].into(), [middle, e, c, w4].into())));
        let s = 1.0 - t;
        let along = |w1: f64, w2: f64, w3: f64, w4: f64| w1 * (s * s * s) + w2 * 3.0 * (s * s) * t + w3 * 3.0 * s * (t * t) + w4 * (t * t * t);
        let by_basis = Point::new(along(w1.x, w2.x, w3.x, w4.x), along(w1.y, w2.y, w3.y, w4.y));
        assert_eq!(basis(&curve, t), Ok(by_basis));
        apart += usize::from(by_basis != middle);
    }
    assert!(apart > 100, "{apart} of the points are rounded differently");
}

#[test]
fn nearest_points() {
    let curve = Curve::from(CURVE);
    let found = nearest_point_on_curve(&curve, Point::new(2.5, 2.375)).unwrap();
    assert!((found.t - 0.5).abs() < 1e-6 && found.distance_sq < 1e-12);
    let refined = nearest_point_on_curve_newton_raphson_with_estimate(&curve, Point::new(2.5, 2.375), 0.4, 64).unwrap();
    assert!((refined - 0.5).abs() < 1e-6);
    assert_eq!(nearest_point_on_curve_newton_raphson_with_estimate(&curve, curve.start, 0.4, 0), Ok(0.4));
}

/// The refusals of all calls that take a curve of eight numbers and a parameter; what they hand back is zeros.
fn all_refuse(curve: &[f64; 8], t: f64, refusal: Refusal) {
    let safe = Curve::from(*curve);
    assert_eq!(basis(&safe, t), Err(refusal));
    assert_eq!(de_casteljau4(&safe, t), Err(refusal));
    assert_eq!(subdivide4(&safe, t), Err(refusal));
    let (mut p, mut q, mut left, mut right) = ([7.0; 2], [7.0; 2], [7.0; 8], [7.0; 8]);
    // SAFETY: the arrays are apart.
    let answers =
        unsafe { [sys::wes_basis(curve, t, &mut p), sys::wes_de_casteljau4(curve, t, &mut q), sys::wes_subdivide4(curve, t, &mut left, &mut right)] };
    assert_eq!(answers, [refusal.number(); 3]);
    assert_eq!((p, q, left, right), ([0.0; 2], [0.0; 2], [0.0; 8], [0.0; 8]));
}

#[test]
fn evaluation_is_refused() {
    for bad in OUT {
        for at in 0..8 {
            all_refuse(&with(at, bad), 0.5, Refusal::OutOfRange);
        }
    }
    for t in [f64::NAN, f64::INFINITY, f64::NEG_INFINITY] {
        all_refuse(&CURVE, t, Refusal::OutOfRange);
    }
    all_refuse(&CURVE, 1e200, Refusal::NotFinite);
}

#[test]
fn smaller_curves_are_refused() {
    let small = |curve: &[f64; 6], t: f64| {
        let line: [f64; 4] = std::array::from_fn(|i| curve[i]);
        let (mut p, mut q) = ([7.0; 2], [7.0; 2]);
        // SAFETY: the arrays are apart.
        let answers = unsafe { [sys::wes_de_casteljau3(curve, t, &mut p), sys::wes_de_casteljau2(&line, t, &mut q)] };
        assert_eq!(answers, [5, 5]);
        assert_eq!((p, q), ([0.0; 2], [0.0; 2]));
        assert_eq!(de_casteljau3(&points(curve), t), Err(Refusal::OutOfRange));
        assert_eq!(de_casteljau2(&points(curve), t), Err(Refusal::OutOfRange));
    };
    for bad in OUT {
        small(&[1.0, 2.0, 3.0, bad, 5.0, 6.0], 0.5);
    }
    small(&[1.0, 2.0, 3.0, 4.0, 5.0, 6.0], f64::NAN);
    assert_eq!(de_casteljau3(&[Point::new(1.0, 2.0), Point::new(3.0, 4.0), Point::new(-5.0, 6.0)], 1e300), Err(Refusal::NotFinite));
    assert_eq!(de_casteljau2(&[Point::new(1e6, 2.0), Point::new(-1e6, 4.0)], 1e305), Err(Refusal::NotFinite));
}

#[test]
fn coefficients_are_refused() {
    let refused = |curve: &[f64; 8], dimension: usize| {
        let mut coefficients = [7.0; 4];
        // SAFETY: the arrays are apart.
        assert_eq!(unsafe { sys::wes_bezier_coefficients(curve, dimension, &mut coefficients) }, 5);
        assert_eq!(coefficients, [0.0; 4]);
        assert_eq!(bezier_coefficients(&Curve::from(*curve), dimension), Err(Refusal::OutOfRange));
    };
    refused(&CURVE, 2);
    refused(&CURVE, usize::MAX);
    OUT.into_iter().for_each(|bad| refused(&with(5, bad), 1));
}

/// A refusal of the nearest point.
fn far_refuses(curve: &[f64; 8], point: Point, refusal: Refusal) {
    let (mut t, mut distance_sq) = (7.0, 7.0);
    // SAFETY: the numbers are apart.
    assert_eq!(unsafe { sys::wes_nearest_point_on_curve(curve, point.x, point.y, &mut t, &mut distance_sq) }, refusal.number());
    assert_eq!((t, distance_sq), (0.0, 0.0));
    assert_eq!(nearest_point_on_curve(&Curve::from(*curve), point), Err(refusal));
}

/// A refusal of Newton's rounds.
fn refinement_refuses(curve: &[f64; 8], point: Point, estimate: f64, rounds: usize, refusal: Refusal) {
    let mut t = 7.0;
    let raw = sys::wes_nearest_point_on_curve_newton_raphson_with_estimate;
    // SAFETY: the number is apart from the curve.
    assert_eq!(unsafe { raw(curve, point.x, point.y, estimate, rounds, &mut t) }, refusal.number());
    assert_eq!(t, 0.0);
    assert_eq!(nearest_point_on_curve_newton_raphson_with_estimate(&Curve::from(*curve), point, estimate, rounds), Err(refusal));
}

#[test]
fn nearest_points_are_refused() {
    let point = Point::new(1.0, 1.0);
    for bad in OUT {
        far_refuses(&with(4, bad), point, Refusal::OutOfRange);
        far_refuses(&CURVE, Point::new(bad, 1.0), Refusal::OutOfRange);
        far_refuses(&CURVE, Point::new(1.0, bad), Refusal::OutOfRange);
        refinement_refuses(&with(3, bad), point, 0.5, 12, Refusal::OutOfRange);
        refinement_refuses(&CURVE, Point::new(bad, 1.0), 0.5, 12, Refusal::OutOfRange);
        refinement_refuses(&CURVE, Point::new(1.0, bad), 0.5, 12, Refusal::OutOfRange);
    }
    refinement_refuses(&CURVE, point, f64::NAN, 12, Refusal::OutOfRange);
    refinement_refuses(&CURVE, point, 0.5, 65, Refusal::OutOfRange);
    refinement_refuses(&CURVE, point, 1e100, 12, Refusal::NotFinite);
    // Both are in docs/DIFFERENCES.md.
    far_refuses(&[1.0, 2.0, 1.0, 2.0, 2.0, 2.0, 1.0, 0.0], Point::new(1.0, 0.0), Refusal::TooDeep);
    let query = Point::new(-88.39299610894942, -67.16828793774319);
    far_refuses(&[7.0, 4.0, -19.0, -7.0, 12.0, -17.0, -11.0, 7.0], query, Refusal::NotFinite);
}

#[test]
fn numbers() {
    // The sheet of docs/BENCH.md.
    assert_eq!([500, 400, 630, 199, 0].map(max_points_to_fit), [200, 175, 193, 200, 200]);
    assert_eq!([500, 400, 630, 199].map(joined_blocks), [3, 3, 4, 1]);
    for x in [0.0, -0.0, 1.0, 2.0, 5e-324, 1e308, 0.1, f64::INFINITY] {
        assert_eq!(sqrt(x).to_bits(), x.sqrt().to_bits(), "the root of {x}");
    }
    assert!(sqrt(-1.0).is_nan() && sqrt(f64::NAN).is_nan());
    // SAFETY: these take any number.
    assert_eq!(unsafe { (sys::wes_max_points_to_fit(400), sys::wes_joined_blocks(400), sys::wes_sqrt(4.0)) }, (175, 3, 2.0));
    // They end on any number.
    let _ = (max_points_to_fit(usize::MAX), joined_blocks(usize::MAX));
}
