//! The library's own calls, as bindings/c/wesalondo.h declares them, under the same names. That header is the authority on what they mean.
//!
//! A call answers 0 or the number of a refusal ([`Refusal::number`](crate::Refusal::number)); the checkers also the letter of a fault, in ASCII.
//! Where a call refuses, every single value and every array of fixed length that it hands back is zeros; slices stay as they were, but refusal 6
//! leaves every number of the slices lent to a fit zero. Where several refusals would do, the first of 9, 3, 1, 2, 4, 5 is given, and 6 or 8 only where
//! none of these is; `wes_write_file`, `wes_pack_file`, `wes_export_path` and `wes_import_path` have orders of their own.
//!
//! A slice is a pointer and how many elements it has (`marks`, `marks_len`); marks are x and y in turn. For n marks a fit wants 9(n-1) numbers in
//! `curves`, n-1 in `firsts` and in `worsts`, and n in `params`; for a ring 9n, n, n and n+1. A flat fit, of a ring too, also wants 2n in `open`.
//!
//! More marks than a call takes are refusal 2: the fits by blocks, the checkers, `wes_read_file` and `wes_write_file` take 100,000, `wes_fit_curve_cubic`,
//! `wes_fit_curve_cubic_flat` and `wes_list_outline` 512, `wes_judge_file` and `wes_save_fit` 4,096, `wes_pack_file`, `wes_unpack_file` and
//! `wes_salvage` any number.
//!
//! # Safety
//!
//! Of every call here the caller owes that
//!
//! - each pointer is valid for as many elements as its length, or its array type, says, and aligned; one to an empty slice may be null;
//! - what is written (`*mut`) overlaps nothing else of the call's;
//! - the float environment is the default one, as it is in Rust unless something foreign has changed it;
//! - the stack has room for the call; the header says how much it takes.
//!
//! Nothing else is asked: no value of any number is wrong, and calls from several threads at once are fine, on different slices.

/// The type of the four fits that take nothing but marks and a tolerance.
#[rustfmt::skip]
pub type FitCall = unsafe extern "C" fn(
    marks: *const f64, marks_len: usize, tolerance: f64, curves: *mut f64, curves_len: usize, firsts: *mut u32, firsts_len: usize,
    worsts: *mut u32, worsts_len: usize, params: *mut f64, params_len: usize, made: *mut usize,
) -> u32;

/// The type of the two flat fits that take nothing but marks and a tolerance.
#[rustfmt::skip]
pub type FlatFitCall = unsafe extern "C" fn(
    marks: *const f64, marks_len: usize, tolerance: f64, curves: *mut f64, curves_len: usize, firsts: *mut u32, firsts_len: usize,
    worsts: *mut u32, worsts_len: usize, params: *mut f64, params_len: usize, open: *mut u32, open_len: usize, made: *mut usize,
) -> u32;

/// The type of the five calls from a house file's bytes to other bytes.
pub type FileCall = unsafe extern "C" fn(file: *const u8, file_len: usize, out: *mut u8, out_len: usize, size: *mut usize) -> u32;

// Not formatted, so that a pointer and its length stay side by side, as in the header.
#[rustfmt::skip]
extern "C" {
    // ---- fits

    /// Fits an outline without gaps, and without a kink where its blocks meet. This is the one to use for an open outline.
    pub fn wes_fit_joined(
        marks: *const f64, marks_len: usize, tolerance: f64, curves: *mut f64, curves_len: usize, firsts: *mut u32, firsts_len: usize,
        worsts: *mut u32, worsts_len: usize, params: *mut f64, params_len: usize, made: *mut usize,
    ) -> u32;

    /// Fits a closed outline: mark 0 counts again behind the last one, and the last curve comes back to it.
    pub fn wes_fit_ring(
        marks: *const f64, marks_len: usize, tolerance: f64, curves: *mut f64, curves_len: usize, firsts: *mut u32, firsts_len: usize,
        worsts: *mut u32, worsts_len: usize, params: *mut f64, params_len: usize, made: *mut usize,
    ) -> u32;

    /// Fits as flo_curves' fit_curve does: in blocks that do not meet. The checkers do not pass such a list of more than one block.
    pub fn wes_fit_curve(
        marks: *const f64, marks_len: usize, tolerance: f64, curves: *mut f64, curves_len: usize, firsts: *mut u32, firsts_len: usize,
        worsts: *mut u32, worsts_len: usize, params: *mut f64, params_len: usize, made: *mut usize,
    ) -> u32;

    /// Fits as flo_curves' fit_curve_loop does: the same blocks, with tangents from beyond their ends, the last mark being followed by the
    /// first.
    pub fn wes_fit_curve_loop(
        marks: *const f64, marks_len: usize, tolerance: f64, curves: *mut f64, curves_len: usize, firsts: *mut u32, firsts_len: usize,
        worsts: *mut u32, worsts_len: usize, params: *mut f64, params_len: usize, made: *mut usize,
    ) -> u32;

    /// Fits up to 512 marks in one piece, with the tangents at its two ends given, as flo_curves' fit_curve_cubic does. They are unit vectors from
    /// the first and the last mark towards the curve's controls, so the second one points backwards.
    pub fn wes_fit_curve_cubic(
        marks: *const f64, marks_len: usize, start_x: f64, start_y: f64, end_x: f64, end_y: f64, tolerance: f64, curves: *mut f64, curves_len: usize,
        firsts: *mut u32, firsts_len: usize, worsts: *mut u32, worsts_len: usize, params: *mut f64, params_len: usize, made: *mut usize,
    ) -> u32;

    // ---- the same fits by the second engine, which never calls itself: the parts that wait lie in `open`, and the answers are the same. A refusal from 1
    // to 5 leaves `open` as it was; 6 and a fit that is made leave every number of it zero

    /// As wes_fit_curve_cubic, on a small stack.
    pub fn wes_fit_curve_cubic_flat(
        marks: *const f64, marks_len: usize, start_x: f64, start_y: f64, end_x: f64, end_y: f64, tolerance: f64, curves: *mut f64, curves_len: usize,
        firsts: *mut u32, firsts_len: usize, worsts: *mut u32, worsts_len: usize, params: *mut f64, params_len: usize,
        open: *mut u32, open_len: usize, made: *mut usize,
    ) -> u32;

    /// As wes_fit_joined, on a small stack.
    pub fn wes_fit_joined_flat(
        marks: *const f64, marks_len: usize, tolerance: f64, curves: *mut f64, curves_len: usize, firsts: *mut u32, firsts_len: usize,
        worsts: *mut u32, worsts_len: usize, params: *mut f64, params_len: usize, open: *mut u32, open_len: usize, made: *mut usize,
    ) -> u32;

    /// As wes_fit_ring, on a small stack.
    pub fn wes_fit_ring_flat(
        marks: *const f64, marks_len: usize, tolerance: f64, curves: *mut f64, curves_len: usize, firsts: *mut u32, firsts_len: usize,
        worsts: *mut u32, worsts_len: usize, params: *mut f64, params_len: usize, open: *mut u32, open_len: usize, made: *mut usize,
    ) -> u32;

    // ---- checkers

    /// Judges curves of nine numbers with their worst marks, as the fits hand them out, over an open outline.
    pub fn wes_check_worst(
        marks: *const f64, marks_len: usize, tolerance: f64, count: usize, curves: *const f64, curves_len: usize,
        firsts: *const u32, firsts_len: usize, worsts: *const u32, worsts_len: usize, params: *const f64, params_len: usize, curve: *mut usize,
        mark: *mut usize,
    ) -> u32;

    /// The same over a closed outline, with n+1 parameters for n marks.
    pub fn wes_check_worst_ring(
        marks: *const f64, marks_len: usize, tolerance: f64, count: usize, curves: *const f64, curves_len: usize,
        firsts: *const u32, firsts_len: usize, worsts: *const u32, worsts_len: usize, params: *const f64, params_len: usize, curve: *mut usize,
        mark: *mut usize,
    ) -> u32;

    /// Judges curves of eight numbers, without worst marks, over an open outline.
    pub fn wes_check_list(
        marks: *const f64, marks_len: usize, tolerance: f64, count: usize, curves: *const f64, curves_len: usize,
        firsts: *const u32, firsts_len: usize, params: *const f64, params_len: usize, curve: *mut usize, mark: *mut usize,
    ) -> u32;

    /// The same over a closed outline.
    pub fn wes_check_ring(
        marks: *const f64, marks_len: usize, tolerance: f64, count: usize, curves: *const f64, curves_len: usize,
        firsts: *const u32, firsts_len: usize, params: *const f64, params_len: usize, curve: *mut usize, mark: *mut usize,
    ) -> u32;

    /// Any of these four: `ring` for a closed outline, `nine` for curves of nine numbers with worst marks (else `worsts` is not looked at).
    pub fn wes_check(
        ring: bool, nine: bool, marks: *const f64, marks_len: usize, tolerance: f64, count: usize, curves: *const f64, curves_len: usize,
        firsts: *const u32, firsts_len: usize, worsts: *const u32, worsts_len: usize, params: *const f64, params_len: usize, curve: *mut usize,
        mark: *mut usize,
    ) -> u32;

    // ---- one curve

    /// The point of a curve at t.
    pub fn wes_basis(curve: *const [f64; 8], t: f64, point: *mut [f64; 2]) -> u32;

    /// The same point by other roundings: flo_curves' de_casteljau4.
    pub fn wes_de_casteljau4(curve: *const [f64; 8], t: f64, point: *mut [f64; 2]) -> u32;

    /// The point at t of a quadratic curve of three points.
    pub fn wes_de_casteljau3(curve: *const [f64; 6], t: f64, point: *mut [f64; 2]) -> u32;

    /// The point at t of a line of two points.
    pub fn wes_de_casteljau2(curve: *const [f64; 4], t: f64, point: *mut [f64; 2]) -> u32;

    /// The four coefficients of a curve, that of the cube first, in x (dimension 0) or in y (dimension 1).
    pub fn wes_bezier_coefficients(curve: *const [f64; 8], dimension: usize, coefficients: *mut [f64; 4]) -> u32;

    /// The two parts of a curve that is cut at t.
    pub fn wes_subdivide4(curve: *const [f64; 8], t: f64, left: *mut [f64; 8], right: *mut [f64; 8]) -> u32;

    /// The point of a curve that is nearest to (x, y): its parameter, and the square of its distance.
    pub fn wes_nearest_point_on_curve(curve: *const [f64; 8], x: f64, y: f64, t: *mut f64, distance_sq: *mut f64) -> u32;

    /// A better parameter than an estimated one, in at most num_iterations rounds of Newton's (up to 64).
    pub fn wes_nearest_point_on_curve_newton_raphson_with_estimate(
        curve: *const [f64; 8], x: f64, y: f64, estimated_t: f64, num_iterations: usize, t: *mut f64,
    ) -> u32;

    // ---- house files

    /// Takes a file apart. For n marks and k curves lend 2n numbers in `marks`, k in `firsts`, 9k in `curves` and k in `worsts` (8k and none
    /// where `nine` is false), and n in `params`; a file without curves wants no room but that of its marks, and `nine` is false then. Files of no
    /// mark or one are taken. Refusals: 9, 2, 4; a kind that does not suit the number of marks is 9.
    pub fn wes_read_file(
        file: *const u8, file_len: usize, tolerance: *mut f64, marks: *mut f64, marks_len: usize, firsts: *mut u32, firsts_len: usize,
        worsts: *mut u32, worsts_len: usize, curves: *mut f64, curves_len: usize, params: *mut f64, params_len: usize, mark_count: *mut usize,
        curve_count: *mut usize, nine: *mut bool,
    ) -> u32;

    /// Puts a file together, with `count` curves, in the first `size` bytes of `out`: 20 + 16n of n marks, and with k curves 6 + 8n more and for
    /// each curve 82, or 72 of eight numbers, up to 4,096 marks, and above them 86, or 74. `nine` is as for wes_check. Refusals: 3, 2, 4, 9, in this
    /// order; 9 is as many curves as marks, or more, and up to 4,096 marks also a mark number above 65,535.
    pub fn wes_write_file(
        nine: bool, tolerance: *const f64, marks: *const f64, marks_len: usize, count: usize, firsts: *const u32, firsts_len: usize,
        worsts: *const u32, worsts_len: usize, curves: *const f64, curves_len: usize, params: *const f64, params_len: usize,
        out: *mut u8, out_len: usize, size: *mut usize,
    ) -> u32;

    /// Fits a file of up to 512 marks and lists its curves as text, in the first `size` bytes of `out`; 78,233 bytes are room for every listing.
    /// A refused file is the text "REFUSED n\n", one of more than 65,536 bytes "REFUSED 9\n"; the call itself, as the two below, then answers 0,
    /// and refuses by 4 alone.
    pub fn wes_list_outline(file: *const u8, file_len: usize, out: *mut u8, out_len: usize, size: *mut usize) -> u32;

    /// Says in one line whether a file's curves are sound: "PASSED marks curves\n", "FAULT A curve mark\n", "NO CURVES marks\n" (whatever its
    /// marks are) or "REFUSED n\n" (2 for more than 4,096 marks, 9 for more than 434,120 bytes, too). 64 bytes are room for it.
    pub fn wes_judge_file(file: *const u8, file_len: usize, out: *mut u8, out_len: usize, size: *mut usize) -> u32;

    /// Fits a file's marks, up to 4,096, and writes them with their curves, as a file. 434,120 bytes are room for every file, and no longer one is
    /// taken; a refused one gives the text "REFUSED n\n" instead.
    pub fn wes_save_fit(file: *const u8, file_len: usize, out: *mut u8, out_len: usize, size: *mut usize) -> u32;

    /// Packs a file, in the first `size` bytes of `out`: one record of kind 8, with each joint once, in place of those of its curves. 9 bytes more than
    /// the file has are room for every one. A file without curves stays as it is. Refusals: 9 (also a packed file with curves), 12 where a curve does not
    /// start with the very bits that the one before it ends with, 4, in this order.
    pub fn wes_pack_file(file: *const u8, file_len: usize, out: *mut u8, out_len: usize, size: *mut usize) -> u32;

    /// Unpacks a file: gives the bytes that were packed, for which 22 more for each curve are room. A file without curves stays as it is. Refusals: 9
    /// (also a file with curves that is not packed), 4, in this order.
    pub fn wes_unpack_file(file: *const u8, file_len: usize, out: *mut u8, out_len: usize, size: *mut usize) -> u32;

    /// Cleans a file's marks: drops each with a coordinate that is not finite or exceeds 1,000,000 in magnitude, and else each that is equal to the last one
    /// kept. The file of the others goes into the first `size` bytes of `out`, for which as many as the file has are room, and the list of what was dropped
    /// into the first `report_size` bytes of `report`, for which 55 and 21 for each mark are. That a fit takes what is kept is not promised. Refusals: 9, 4,
    /// in this order.
    pub fn wes_salvage(
        file: *const u8, file_len: usize, out: *mut u8, out_len: usize, report: *mut u8, report_len: usize, size: *mut usize,
        report_size: *mut usize,
    ) -> u32;

    // ---- path data, as SVG 1.1 has it: one subpath of absolute M, L, C and Z

    /// Writes `count` curves as path data, in the first `size` bytes of `out`: "M x y", for each curve " C x1 y1 x2 y2 x y", and " Z" for a
    /// ring, in thousandths, halves away from zero. `nine` is as for `wes_check`. 92 bytes for each curve and 33 more are room for every text.
    /// Refusals: 5 (here only a number that is not finite), 10, 12, 4, in this order.
    pub fn wes_export_path(
        nine: bool, curves: *const f64, curves_len: usize, count: usize, ring: bool, out: *mut u8, out_len: usize, size: *mut usize,
    ) -> u32;

    /// Reads path data into curves of eight numbers, `count` of them, and says whether a Z closed it. A text has at most a quarter as many
    /// curves as bytes. Refusals: 11, 10, 4, in this order.
    pub fn wes_import_path(
        text: *const u8, text_len: usize, curves: *mut f64, curves_len: usize, count: *mut usize, closed: *mut bool,
    ) -> u32;

    // ---- numbers, which refuse nothing

    /// How many marks a block of the fits has, where n marks are cut (a ring's mark 0 counts twice).
    pub fn wes_max_points_to_fit(n: usize) -> usize;

    /// How many blocks a joined fit of n marks has; for a ring of n marks ask for n+1.
    pub fn wes_joined_blocks(n: usize) -> usize;

    /// The square root, rounded to the nearest number; NaN below zero.
    pub fn wes_sqrt(x: f64) -> f64;
}
