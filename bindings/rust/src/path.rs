//! Path data, as SVG 1.1 has it: curves to a text for a cutter, and a text to curves.
use crate::fitted::Fit;
use crate::point::Curve;
use crate::refusal::{answered, Refusal};
use crate::sys;

/// Room for the text of each curve, and for the first point and a ring's Z; wesalondo.h has these numbers.
const CURVE_ROOM: usize = 92;
const ENDS_ROOM: usize = 33;
/// A line of path data has this many bytes at least, as `-0-0` has, and so has the M; the Z that adds a curve has one.
const LEAST_LINE: usize = 4;

/// What path data draws.
#[derive(Clone, Debug, Default, PartialEq)]
pub struct Path {
    /// Its curves, each starting where the one before it ends, bit for bit. A path that is an M alone has none.
    pub curves: Vec<Curve>,
    /// Whether a Z closed it; then the last curve ends where the first one starts.
    pub closed: bool,
}

/// Writes curves as path data: an absolute M, a C for each curve, and Z for a ring, the numbers rounded to thousandths, halves away from zero. Curves have to meet bit
/// for bit, of a ring the last one and the first too; there is at least one.
///
/// ```
/// use wesalondo::{export_path, import_path, Curve};
///
/// let arch = Curve::from([0.0, 0.0, 0.0, 10.0625, 10.0, 10.0, 10.0, -0.0]);
/// let text = export_path(&[arch], false)?;
/// assert_eq!(text, "M 0 0 C 0 10.063 10 10 10 0");
/// assert_eq!(import_path(&text)?.curves, [Curve::from([0.0, 0.0, 0.0, 10.063, 10.0, 10.0, 10.0, 0.0])]);
/// # Ok::<(), wesalondo::Refusal>(())
/// ```
pub fn export_path(curves: &[Curve], ring: bool) -> Result<String, Refusal> {
    // SAFETY: a curve is eight numbers and nothing else (asserted in point.rs), and a slice that is there has no more bytes than an isize holds.
    let numbers = unsafe { std::slice::from_raw_parts(curves.as_ptr().cast(), 8 * curves.len()) };
    written(false, numbers, curves.len(), ring)
}

impl Fit {
    /// The curves as path data, closed if the fit is a ring's: see [`export_path`]. Of [`fit_curve`](crate::fit_curve) and [`fit_curve_loop`](crate::fit_curve_loop),
    /// whose blocks do not meet, it is refused where there are several.
    pub fn export_path(&self) -> Result<String, Refusal> {
        written(true, &self.curves, self.len(), self.is_ring())
    }
}

fn written(nine: bool, curves: &[f64], count: usize, ring: bool) -> Result<String, Refusal> {
    let (mut out, mut size) = (vec![0; CURVE_ROOM * count + ENDS_ROOM], 0);
    // SAFETY: each pointer is to that many elements, and what is written is borrowed mutably, so it overlaps nothing; the call asks no more.
    answered(unsafe { sys::wes_export_path(nine, curves.as_ptr(), curves.len(), count, ring, out.as_mut_ptr(), out.len(), &mut size) })?;
    out.truncate(size);
    Ok(String::from_utf8_lossy(&out).into_owned())
}

/// Reads path data: one subpath of absolute M, L, C and Z by SVG 1.1's grammar, with at most three places and no exponent. Each number is the nearest to its decimal, a minus
/// zero plus zero. A line becomes the curve that a fit makes of two marks; Z adds one back to the M, if the path is not there already.
pub fn import_path(text: impl AsRef<[u8]>) -> Result<Path, Refusal> {
    let text = text.as_ref();
    let mut curves = vec![Curve::default(); text.len() / LEAST_LINE];
    let (mut count, mut closed) = (0, false);
    // SAFETY: a curve is eight numbers (asserted in point.rs), each pointer is to as many elements as are said, and what is written is borrowed mutably, so it overlaps nothing.
    answered(unsafe { sys::wes_import_path(text.as_ptr(), text.len(), curves.as_mut_ptr().cast(), 8 * curves.len(), &mut count, &mut closed) })?;
    curves.truncate(count);
    curves.shrink_to_fit();
    Ok(Path { curves, closed })
}
