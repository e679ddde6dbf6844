//! The house file: a tolerance and up to 100,000 marks, and with them the curves of an open outline or none.
use crate::check::{check, List};
use crate::fit::MOST_MARKS;
use crate::fitted::Fit;
use crate::point::{numbers, numbers_mut, Point};
use crate::refusal::{answered, Refusal};
use crate::sys;
use crate::verdict::Verdict;

/// The bytes of a file without marks: the tolerance's record, and the head of that of the marks.
const LEAST: usize = 20;

/// The bytes of a mark, and of a parameter.
pub(crate) const MARK: usize = 16;
const PARAM: usize = 8;

/// The bytes of a record's head.
const HEAD: usize = 6;

/// The most marks of a file whose mark numbers have two bytes; above it they have four.
const NARROW_MARKS: usize = 4096;

/// The bytes of a curve in a packed file, of eight numbers and of nine. In no file it has fewer.
pub(crate) const PACKED_EIGHT: usize = 52;
const PACKED_NINE: usize = 64;

/// The bytes of a curve's record, with mark numbers of so many.
const fn record(nine: bool, number: usize) -> usize {
    HEAD + if nine { 2 * number + 72 } else { number + 64 }
}

/// What a house file holds. No number in it is judged, so any may be NaN. A file of up to 4,096 marks has two bytes for a mark's number and a longer one four, which
/// [`write_file`] sees to.
#[derive(Clone, Debug, Default, PartialEq)]
pub struct House {
    /// How far a mark may be off its curve.
    pub tolerance: f64,
    /// The marks.
    pub marks: Vec<Point>,
    /// Whether curves have nine numbers and worst marks; else they have eight and none.
    pub nine: bool,
    /// Nine or eight numbers a curve, as in a [`List`].
    pub curves: Vec<f64>,
    /// The number of each curve's first mark.
    pub firsts: Vec<u32>,
    /// The number of each curve's worst mark.
    pub worsts: Vec<u32>,
    /// Each mark's parameter on its curve; none where there are no curves.
    pub params: Vec<f64>,
}

impl House {
    /// An outline without curves.
    pub fn new(tolerance: f64, marks: Vec<Point>) -> House {
        House { tolerance, marks, ..House::default() }
    }

    /// Marks with the fit that was made of them. A file knows no rings: the marks of one get mark 0 again at their end, and then its list is a sound
    /// one of an open outline.
    pub fn with_fit(tolerance: f64, marks: &[Point], fit: &Fit) -> House {
        let again = if fit.is_ring() { marks.first() } else { None };
        let Fit { curves, firsts, worsts, params, .. } = fit.clone();
        House { tolerance, marks: marks.iter().chain(again).copied().collect(), nine: true, curves, firsts, worsts, params }
    }

    /// How many curves there are.
    pub fn len(&self) -> usize {
        self.firsts.len()
    }

    /// Whether there are no curves.
    pub fn is_empty(&self) -> bool {
        self.firsts.is_empty()
    }

    /// The curves as the checkers take them.
    pub fn list(&self) -> List<'_> {
        List { count: self.len(), curves: &self.curves, firsts: &self.firsts, worsts: &self.worsts, params: &self.params }
    }

    /// Judges the curves over the marks and the tolerance; without curves that is fault A.
    pub fn check(&self) -> Result<Verdict, Refusal> {
        check(false, self.nine, &self.marks, self.tolerance, &self.list())
    }

    /// How many bytes its file has.
    fn size(&self) -> usize {
        let marks = LEAST + MARK * self.marks.len();
        if self.is_empty() {
            return marks;
        }
        let number = if self.marks.len() > NARROW_MARKS { 4 } else { 2 };
        marks + record(self.nine, number) * self.len() + HEAD + PARAM * self.marks.len()
    }
}

/// Takes a house file apart, packed or not, of up to 100,000 marks.
pub fn read_file(file: &[u8]) -> Result<House, Refusal> {
    // The bytes of a file say how many marks and curves it has at most; more than the library takes are refused before room is asked for.
    let most = MOST_MARKS.min(file.len() / MARK);
    let (eights, nines) = ((file.len() / PACKED_EIGHT).min(most), (file.len() / PACKED_NINE).min(most));
    let (mut marks, mut curves, mut params) = (vec![Point::default(); most], vec![0.0; (8 * eights).max(9 * nines)], vec![0.0; most]);
    let (mut firsts, mut worsts) = (vec![0; eights], vec![0; nines]);
    let (mut tolerance, mut mark_count, mut curve_count, mut nine) = (0.0, 0, 0, false);
    let m = numbers_mut(&mut marks);
    let (mp, ml, fp, fl, wp, wl) = (m.as_mut_ptr(), m.len(), firsts.as_mut_ptr(), firsts.len(), worsts.as_mut_ptr(), worsts.len());
    let (cp, cl, pp, pl) = (curves.as_mut_ptr(), curves.len(), params.as_mut_ptr(), params.len());
    let (mc, cc) = (&mut mark_count, &mut curve_count);
    // SAFETY: each pointer is to that many elements, and what is written is borrowed mutably, so it overlaps nothing; the call asks no more.
    answered(unsafe { sys::wes_read_file(file.as_ptr(), file.len(), &mut tolerance, mp, ml, fp, fl, wp, wl, cp, cl, pp, pl, mc, cc, &mut nine) })?;
    marks.truncate(mark_count);
    firsts.truncate(curve_count);
    worsts.truncate(if nine { curve_count } else { 0 });
    curves.truncate(if nine { 9 } else { 8 } * curve_count);
    params.truncate(if curve_count == 0 { 0 } else { mark_count });
    Ok(House { tolerance, marks, nine, curves, firsts, worsts, params })
}

/// Puts a house file together, which is not packed: the bytes that [`read_file`] takes apart into the same numbers.
pub fn write_file(house: &House) -> Result<Vec<u8>, Refusal> {
    let House { tolerance, marks, nine, curves: c, firsts: f, worsts: w, params: p } = house;
    let m = numbers(marks);
    let (fp, wp, cp, pp) = (f.as_ptr(), w.as_ptr(), c.as_ptr(), p.as_ptr());
    let (mut out, mut size) = (vec![0; house.size()], 0);
    let (op, ol) = (out.as_mut_ptr(), out.len());
    let (mp, ml, count) = (m.as_ptr(), m.len(), house.len());
    // SAFETY: each pointer is to that many elements, and what is written is borrowed mutably, so it overlaps nothing; the call asks no more.
    answered(unsafe { sys::wes_write_file(*nine, tolerance, mp, ml, count, fp, f.len(), wp, w.len(), cp, c.len(), pp, p.len(), op, ol, &mut size) })?;
    out.truncate(size);
    Ok(out)
}
