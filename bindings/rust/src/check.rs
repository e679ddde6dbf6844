//! The checkers: whether a list of curves is sound for its marks and its tolerance, whoever made it.
use crate::point::{numbers, Point};
use crate::refusal::{given, Refusal};
use crate::sys;
use crate::verdict::{Fault, FaultKind, Verdict};

/// A list of curves from wherever it came. Slices may be longer than the list; too short ones are refused.
#[derive(Clone, Copy, Debug, Default, PartialEq)]
pub struct List<'a> {
    /// How many curves there are.
    pub count: usize,
    /// Nine numbers a curve (start, first control, second control, end, each x then y, and the distance of the worst mark), or the first eight alone.
    pub curves: &'a [f64],
    /// The number of each curve's first mark.
    pub firsts: &'a [u32],
    /// The number of each curve's worst mark; with curves of eight numbers it is not looked at.
    pub worsts: &'a [u32],
    /// Each mark's parameter on its curve; for a ring one more, of mark 0 again.
    pub params: &'a [f64],
}

/// Judges curves of nine numbers with their worst marks, as the fits give them, over an open outline.
pub fn check_worst(marks: &[Point], tolerance: f64, list: &List<'_>) -> Result<Verdict, Refusal> {
    check(false, true, marks, tolerance, list)
}

/// Judges curves of nine numbers with their worst marks over a closed outline.
pub fn check_worst_ring(marks: &[Point], tolerance: f64, list: &List<'_>) -> Result<Verdict, Refusal> {
    check(true, true, marks, tolerance, list)
}

/// Judges curves of eight numbers over an open outline.
pub fn check_list(marks: &[Point], tolerance: f64, list: &List<'_>) -> Result<Verdict, Refusal> {
    check(false, false, marks, tolerance, list)
}

/// Judges curves of eight numbers over a closed outline.
pub fn check_ring(marks: &[Point], tolerance: f64, list: &List<'_>) -> Result<Verdict, Refusal> {
    check(true, false, marks, tolerance, list)
}

/// Any of the other four: `ring` for a closed outline, `nine` for curves of nine numbers with worst marks.
pub fn check(ring: bool, nine: bool, marks: &[Point], tolerance: f64, list: &List<'_>) -> Result<Verdict, Refusal> {
    let m = numbers(marks);
    let List { count, curves: c, firsts: f, worsts: w, params: p } = *list;
    let (cp, fp, wp, pp) = (c.as_ptr(), f.as_ptr(), w.as_ptr(), p.as_ptr());
    let (mut curve, mut mark) = (0, 0);
    let (at, on) = (&mut curve, &mut mark);
    // SAFETY: each pointer is to that many elements, and the two numbers that are written are apart from them; the call asks no more.
    let answer =
        unsafe { sys::wes_check(ring, nine, m.as_ptr(), m.len(), tolerance, count, cp, c.len(), fp, f.len(), wp, w.len(), pp, p.len(), at, on) };
    if answer == 0 {
        return Ok(Verdict::Sound);
    }
    match char::from_u32(answer).and_then(FaultKind::of_letter) {
        Some(kind) => Ok(Verdict::Faulty(Fault { kind, curve, mark })),
        None => Err(given(answer)),
    }
}
