//! Cleaning a shaky trace.
use crate::house::MARK;
use crate::refusal::{answered, Refusal};
use crate::sys;
use crate::text::{newer, numeral};

/// Room for the first line of a list, and for the line of each mark; wesalondo.h has these numbers.
const COUNTS_ROOM: usize = 55;
const DROP_ROOM: usize = 21;

/// Why a mark was dropped.
#[derive(Clone, Copy, Debug, PartialEq, Eq, Hash)]
pub enum Cause {
    /// A coordinate is not finite or exceeds 1,000,000 in magnitude.
    Range,
    /// It is equal in both coordinates to the last mark kept. Minus zero equals zero.
    Equal,
}

/// A mark that was dropped.
#[derive(Clone, Copy, Debug, PartialEq, Eq, Hash)]
pub struct Dropped {
    /// Its number in the file that was cleaned.
    pub mark: usize,
    /// Why it was dropped; a mark that is out of range and equal to another is out of range.
    pub cause: Cause,
}

/// A house file, cleaned.
#[must_use]
#[derive(Clone, Debug, PartialEq, Eq)]
pub struct Salvaged {
    /// The file of the tolerance and the marks kept, with their bits as they were. It has no curves.
    pub file: Vec<u8>,
    /// How many marks were kept.
    pub kept: usize,
    /// The others, in order.
    pub dropped: Vec<Dropped>,
    /// The list as the library writes it: a line `KEPT` with how many are kept and dropped, and a line `DROP` for each that is, its number and `RANGE` or `EQUAL`.
    pub report: String,
}

/// Cleans a house file of any length, packed or not: drops each mark with a coordinate that is not finite or exceeds 1,000,000 in magnitude, and else each that is
/// equal to the last one kept, as marks are that pile up when the hand rests. A cleaned file that is cleaned again stays as it is. The one refusal is
/// [`Refusal::BadlyFormed`].
///
/// ```
/// use wesalondo::{salvage, save_fit, write_file, Cause, Dropped, House, Point, Refusal};
///
/// let marks = [(0.0, 0.0), (0.0, -0.0), (f64::NAN, 5.0), (50.0, 31.0), (100.0, 55.0)].map(Point::from);
/// let cleaned = salvage(&write_file(&House::new(0.5, marks.to_vec()))?)?;
/// assert_eq!(cleaned.dropped, [Dropped { mark: 1, cause: Cause::Equal }, Dropped { mark: 2, cause: Cause::Range }]);
/// assert_eq!(cleaned.report, "KEPT 3 DROPPED 2\nDROP 1 EQUAL\nDROP 2 RANGE\n");
/// assert!(save_fit(&cleaned.file).is_ok());
/// # Ok::<(), Refusal>(())
/// ```
///
/// That a fit takes what is kept is not promised. It says no where there is one mark left, where the tolerance is out of range, and where marks are so near to each other
/// that their distances vanish:
///
/// ```
/// # use wesalondo::{salvage, save_fit, write_file, House, Point, Refusal};
/// let pressed = House::new(0.5, vec![Point::new(7.0, 7.0); 3]);
/// let cleaned = salvage(&write_file(&pressed)?)?;
/// assert_eq!((cleaned.kept, save_fit(&cleaned.file)), (1, Err(Refusal::TooFew)));
///
/// let crowded = House::new(0.5, [0.0, 1e-200, 2e-200].map(|x| Point::new(x, 0.0)).to_vec());
/// let cleaned = salvage(&write_file(&crowded)?)?;
/// assert_eq!((cleaned.kept, save_fit(&cleaned.file)), (3, Err(Refusal::NotFinite)));
/// # Ok::<(), Refusal>(())
/// ```
pub fn salvage(file: &[u8]) -> Result<Salvaged, Refusal> {
    let (mut out, mut report) = (vec![0; file.len()], vec![0; COUNTS_ROOM + DROP_ROOM * (file.len() / MARK)]);
    let (mut size, mut report_size) = (0, 0);
    let (op, ol, rp, rl) = (out.as_mut_ptr(), out.len(), report.as_mut_ptr(), report.len());
    // SAFETY: each pointer is to that many bytes, and what is written is borrowed mutably, so it overlaps nothing; the call asks no more.
    answered(unsafe { sys::wes_salvage(file.as_ptr(), file.len(), op, ol, rp, rl, &mut size, &mut report_size) })?;
    out.truncate(size);
    out.shrink_to_fit();
    let report = String::from_utf8_lossy(&report[..report_size]).into_owned();
    let mut lines = report.lines();
    let kept = kept_in(lines.next().unwrap_or_default());
    Ok(Salvaged { file: out, kept, dropped: lines.map(dropped_in).collect(), report })
}

/// How many marks were kept, by the first line of a list.
fn kept_in(line: &str) -> usize {
    match *line.split(' ').collect::<Vec<_>>() {
        ["KEPT", kept, "DROPPED", _] => numeral(kept),
        _ => newer(line),
    }
}

/// The mark of any other line.
fn dropped_in(line: &str) -> Dropped {
    match *line.split(' ').collect::<Vec<_>>() {
        ["DROP", mark, "RANGE"] => Dropped { mark: numeral(mark), cause: Cause::Range },
        ["DROP", mark, "EQUAL"] => Dropped { mark: numeral(mark), cause: Cause::Equal },
        _ => newer(line),
    }
}
