//! The five fits.
use crate::fitted::Fit;
use crate::lent::Wanted;
use crate::point::{numbers, Point};
use crate::refusal::{answered, Refusal};
use crate::sys;

/// The most marks that any call takes.
pub(crate) const MOST_MARKS: usize = 100_000;

/// A fit into room of its own: `call` has the marks' numbers, the room, and where to put how many curves it made.
pub(crate) fn fit_with(ring: bool, marks: &[Point], call: impl FnOnce(&[f64], &mut Fit, &mut usize) -> u32) -> Result<Fit, Refusal> {
    let mut fit = Fit::with_room(ring, Wanted::of(ring, marks.len()));
    let mut made = 0;
    answered(call(numbers(marks), &mut fit, &mut made))?;
    fit.keep(made);
    Ok(fit)
}

/// One of the four fits that take nothing but marks and a tolerance.
fn fit_by(raw: sys::FitCall, ring: bool, marks: &[Point], tolerance: f64) -> Result<Fit, Refusal> {
    fit_with(ring, marks, |m, fit, made| {
        let Fit { curves: c, firsts: f, worsts: w, params: p, .. } = fit;
        let (cl, fl, wl, pl) = (c.len(), f.len(), w.len(), p.len());
        // SAFETY: each pointer is to that many elements, and what is written is borrowed mutably, so it overlaps nothing; the call asks no more.
        unsafe { raw(m.as_ptr(), m.len(), tolerance, c.as_mut_ptr(), cl, f.as_mut_ptr(), fl, w.as_mut_ptr(), wl, p.as_mut_ptr(), pl, made) }
    })
}

/// Fits an open outline, of up to 100,000 marks, without gaps, and without a kink where its blocks meet.
pub fn fit_joined(marks: &[Point], tolerance: f64) -> Result<Fit, Refusal> {
    fit_by(sys::wes_fit_joined, false, marks, tolerance)
}

/// Fits a closed outline, of up to 100,000 marks: mark 0 counts again behind the last one, and the last curve comes back to it. Do not give it twice.
pub fn fit_ring(marks: &[Point], tolerance: f64) -> Result<Fit, Refusal> {
    fit_by(sys::wes_fit_ring, true, marks, tolerance)
}

/// Fits as flo_curves' `fit_curve` does: from 200 marks on in blocks that do not meet, and such a list the checkers do not pass.
pub fn fit_curve(marks: &[Point], tolerance: f64) -> Result<Fit, Refusal> {
    fit_by(sys::wes_fit_curve, false, marks, tolerance)
}

/// Fits as flo_curves' `fit_curve_loop` does: with tangents from beyond the blocks' ends, and no curve from the last mark to the first.
pub fn fit_curve_loop(marks: &[Point], tolerance: f64) -> Result<Fit, Refusal> {
    fit_by(sys::wes_fit_curve_loop, false, marks, tolerance)
}

/// Fits up to 512 marks in one piece with the tangents at its two ends given, as flo_curves' `fit_curve_cubic` does.
/// They are unit vectors towards the control points, so `end` points backwards.
pub fn fit_curve_cubic(marks: &[Point], start: Point, end: Point, tolerance: f64) -> Result<Fit, Refusal> {
    fit_with(false, marks, |m, fit, made| {
        let Fit { curves: c, firsts: f, worsts: w, params: p, .. } = fit;
        let (cl, fl, wl, pl) = (c.len(), f.len(), w.len(), p.len());
        let (cp, fp, wp, pp) = (c.as_mut_ptr(), f.as_mut_ptr(), w.as_mut_ptr(), p.as_mut_ptr());
        // SAFETY: as in `fit_by`.
        unsafe { sys::wes_fit_curve_cubic(m.as_ptr(), m.len(), start.x, start.y, end.x, end.y, tolerance, cp, cl, fp, fl, wp, wl, pp, pl, made) }
    })
}
