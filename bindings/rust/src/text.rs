//! The calls from a house file's bytes to a text, or to another file.
use crate::house::PACKED_EIGHT;
use crate::refusal::{answered, given, Refusal};
use crate::sys;
use crate::verdict::{Fault, FaultKind};

/// Room for every listing, every line of the judge and every file; wesalondo.h has these numbers.
const LISTING_ROOM: usize = 78_233;
const LINE_ROOM: usize = 64;
const FILE_ROOM: usize = 434_120;

/// By how many bytes a packed file can be longer than the file, and by how many for each curve the file can be longer than the packed one.
const MORE_PACKED: usize = 9;
const MORE_UNPACKED: usize = 22;

/// What a refused file's answer begins with. No house file does: its first byte is 10, and other texts have other words.
const REFUSED: &str = "REFUSED ";

/// What the judge says of a house file.
#[must_use]
#[derive(Clone, Copy, Debug, PartialEq, Eq)]
pub enum Judgement {
    /// The curves are sound.
    Passed {
        /// How many marks there are.
        marks: usize,
        /// How many curves there are.
        curves: usize,
    },
    /// The first fault.
    Faulty(Fault),
    /// There are no curves.
    NoCurves {
        /// How many marks there are.
        marks: usize,
    },
}

/// What a call writes about a file, or the refusal that it names.
fn told(call: sys::FileCall, file: &[u8], room: usize) -> Result<Vec<u8>, Refusal> {
    let (mut out, mut size) = (vec![0; room], 0);
    // SAFETY: each pointer is to that many bytes, and what is written is borrowed mutably, so it overlaps nothing; the call asks no more.
    answered(unsafe { call(file.as_ptr(), file.len(), out.as_mut_ptr(), out.len(), &mut size) })?;
    out.truncate(size);
    match out.strip_prefix(REFUSED.as_bytes()) {
        Some(number) => Err(given(numeral(&words(number)))),
        None => {
            out.shrink_to_fit();
            Ok(out)
        }
    }
}

/// A text of the library's, which is ASCII, without the end of its line.
fn words(text: &[u8]) -> String {
    String::from_utf8_lossy(text).trim_end().to_owned()
}

/// A number in such a text.
pub(crate) fn numeral<N: std::str::FromStr>(word: &str) -> N {
    word.parse().unwrap_or_else(|_| panic!("{word:?} is no number: libwesalondo.a is newer than this crate"))
}

/// Fits the marks of a house file, up to 512, by the joined fit, and lists the curves: a line `OUTLINE` with marks and curves, and a line `PIECE` for
/// each curve, its first mark and the bits of its eight numbers.
pub fn list_outline(file: &[u8]) -> Result<String, Refusal> {
    let text = told(sys::wes_list_outline, file, LISTING_ROOM)?;
    Ok(String::from_utf8_lossy(&text).into_owned())
}

/// Says whether a house file's curves are sound for its marks and its tolerance, up to 4,096 marks and 434,120 bytes. Of a longer file [`read_file`](crate::read_file)
/// and [`House::check`](crate::House::check) say it.
pub fn judge_file(file: &[u8]) -> Result<Judgement, Refusal> {
    let line = words(&told(sys::wes_judge_file, file, LINE_ROOM)?);
    match *line.split(' ').collect::<Vec<_>>() {
        ["PASSED", marks, curves] => Ok(Judgement::Passed { marks: numeral(marks), curves: numeral(curves) }),
        ["NO", "CURVES", marks] => Ok(Judgement::NoCurves { marks: numeral(marks) }),
        ["FAULT", letter, curve, mark] => match letter.chars().next().and_then(FaultKind::of_letter) {
            Some(kind) => Ok(Judgement::Faulty(Fault { kind, curve: numeral(curve), mark: numeral(mark) })),
            None => newer(&line),
        },
        _ => newer(&line),
    }
}

/// Says that a line is none that this crate knows.
pub(crate) fn newer(line: &str) -> ! {
    panic!("the line {line:?} is not known: libwesalondo.a is newer than this crate")
}

/// Fits the marks of a house file, up to 4,096, by the joined fit, and gives the file with its curves; [`judge_file`] passes every one. For more marks there are
/// [`read_file`](crate::read_file), [`fit_joined`](crate::fit_joined) and [`write_file`](crate::write_file).
pub fn save_fit(file: &[u8]) -> Result<Vec<u8>, Refusal> {
    told(sys::wes_save_fit, file, FILE_ROOM)
}

/// Packs a house file of any length for keeping: one record, in which each joint stands once, in place of those of its curves. A file without curves stays as it
/// is. Curves that do not meet bit for bit are [`Refusal::NotJoined`], and a packed file with curves is [`Refusal::BadlyFormed`].
pub fn pack_file(file: &[u8]) -> Result<Vec<u8>, Refusal> {
    told(sys::wes_pack_file, file, file.len() + MORE_PACKED)
}

/// Unpacks a house file: gives the bytes that [`pack_file`] was given. A file without curves stays as it is, and one with curves that is not packed is
/// [`Refusal::BadlyFormed`]. Nothing has to be unpacked to be read: [`read_file`](crate::read_file) and all calls on files take packed ones too.
pub fn unpack_file(file: &[u8]) -> Result<Vec<u8>, Refusal> {
    told(sys::wes_unpack_file, file, file.len() + MORE_UNPACKED * (file.len() / PACKED_EIGHT))
}
