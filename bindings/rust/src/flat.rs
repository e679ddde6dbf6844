//! The flat fits: those of the second engine, which never calls itself. The parts that wait lie in a slice, and not on the stack.
use crate::check::List;
use crate::fit::{fit_with, MOST_MARKS};
use crate::fitted::{Fit, RECORD};
use crate::lent::{Lent, Wanted};
use crate::point::{numbers, Point};
use crate::refusal::{answered, Refusal};
use crate::sys;

/// A flat fit into lent room: `call` has the marks' numbers, the room, and where to put how many curves it made.
fn in_lent<'a>(
    ring: bool,
    marks: &[Point],
    mut lent: Lent<'a>,
    call: impl FnOnce(&[f64], &mut Lent<'_>, &mut usize) -> u32,
) -> Result<List<'a>, Refusal> {
    let mut made = 0;
    answered(call(numbers(marks), &mut lent, &mut made))?;
    let Lent { curves, firsts, worsts, params, .. } = lent;
    let params = &params[..Wanted::of(ring, marks.len()).params];
    Ok(List { count: made, curves: &curves[..RECORD * made], firsts: &firsts[..made], worsts: &worsts[..made], params })
}

/// The same into room of its own.
fn in_own(ring: bool, marks: &[Point], call: impl FnOnce(&[f64], &mut Lent<'_>, &mut usize) -> u32) -> Result<Fit, Refusal> {
    fit_with(ring, marks, |m, fit, made| {
        let Fit { curves, firsts, worsts, params, .. } = fit;
        let mut open = vec![0; Wanted::of(ring, marks.len().min(MOST_MARKS)).open];
        call(m, &mut Lent { curves, firsts, worsts, params, open: &mut open }, made)
    })
}

/// One of the two flat fits that take nothing but marks and a tolerance.
fn by(raw: sys::FlatFitCall, tolerance: f64) -> impl FnOnce(&[f64], &mut Lent<'_>, &mut usize) -> u32 {
    move |m, lent, made| {
        let Lent { curves: c, firsts: f, worsts: w, params: p, open: o } = lent;
        let (cl, fl, wl, pl, ol) = (c.len(), f.len(), w.len(), p.len(), o.len());
        let (cp, fp, wp, pp, op) = (c.as_mut_ptr(), f.as_mut_ptr(), w.as_mut_ptr(), p.as_mut_ptr(), o.as_mut_ptr());
        // SAFETY: each pointer is to that many elements, and what is written is borrowed mutably, so it overlaps nothing; the call asks no more.
        unsafe { raw(m.as_ptr(), m.len(), tolerance, cp, cl, fp, fl, wp, wl, pp, pl, op, ol, made) }
    }
}

/// The flat fit with given tangents.
fn by_tangents(start: Point, end: Point, tolerance: f64) -> impl FnOnce(&[f64], &mut Lent<'_>, &mut usize) -> u32 {
    move |m, lent, made| {
        let Lent { curves: c, firsts: f, worsts: w, params: p, open: o } = lent;
        let (ml, cl, fl, wl, pl, ol) = (m.len(), c.len(), f.len(), w.len(), p.len(), o.len());
        let (mp, cp, fp, wp, pp, op) = (m.as_ptr(), c.as_mut_ptr(), f.as_mut_ptr(), w.as_mut_ptr(), p.as_mut_ptr(), o.as_mut_ptr());
        let (sx, sy, ex, ey) = (start.x, start.y, end.x, end.y);
        // SAFETY: as in `by`.
        unsafe { sys::wes_fit_curve_cubic_flat(mp, ml, sx, sy, ex, ey, tolerance, cp, cl, fp, fl, wp, wl, pp, pl, op, ol, made) }
    }
}

/// Fits as [`fit_joined`](crate::fit_joined) does, with the same answer to every input, on a small stack.
pub fn fit_joined_flat(marks: &[Point], tolerance: f64) -> Result<Fit, Refusal> {
    in_own(false, marks, by(sys::wes_fit_joined_flat, tolerance))
}

/// Fits as [`fit_ring`](crate::fit_ring) does, with the same answer to every input, on a small stack.
pub fn fit_ring_flat(marks: &[Point], tolerance: f64) -> Result<Fit, Refusal> {
    in_own(true, marks, by(sys::wes_fit_ring_flat, tolerance))
}

/// Fits as [`fit_curve_cubic`](crate::fit_curve_cubic) does, with the same answer to every input, on a small stack.
pub fn fit_curve_cubic_flat(marks: &[Point], start: Point, end: Point, tolerance: f64) -> Result<Fit, Refusal> {
    in_own(false, marks, by_tangents(start, end, tolerance))
}

/// [`fit_joined_flat`] into lent room, with none of its own: [`Wanted::for_marks`] says how much. [`check_worst`](crate::check_worst) judges the list.
pub fn fit_joined_flat_in<'a>(marks: &[Point], tolerance: f64, lent: Lent<'a>) -> Result<List<'a>, Refusal> {
    in_lent(false, marks, lent, by(sys::wes_fit_joined_flat, tolerance))
}

/// [`fit_ring_flat`] into lent room, with none of its own: [`Wanted::for_ring`] says how much. [`check_worst_ring`](crate::check_worst_ring) judges the list.
pub fn fit_ring_flat_in<'a>(marks: &[Point], tolerance: f64, lent: Lent<'a>) -> Result<List<'a>, Refusal> {
    in_lent(true, marks, lent, by(sys::wes_fit_ring_flat, tolerance))
}

/// [`fit_curve_cubic_flat`] into lent room, with none of its own: [`Wanted::for_marks`] says how much. [`check_worst`](crate::check_worst) judges the list.
pub fn fit_curve_cubic_flat_in<'a>(marks: &[Point], start: Point, end: Point, tolerance: f64, lent: Lent<'a>) -> Result<List<'a>, Refusal> {
    in_lent(false, marks, lent, by_tangents(start, end, tolerance))
}
