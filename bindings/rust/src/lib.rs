//! Wesalondo turns the marks of a digitising table into smooth cubic curves. This crate calls its proved library, libwesalondo.a: a port of the
//! fitting, evaluation, subdivision and nearest-point modules of flo_curves, in which every function is proved to meet its contract.
//!
//! ```
//! use wesalondo::{fit_joined, Point};
//!
//! let marks: Vec<Point> = (0..100).map(|i| f64::from(i) * 0.05).map(|a| Point::new(300.0 * a, 200.0 * a.sin())).collect();
//! let fit = fit_joined(&marks, 0.5)?;
//! for piece in &fit {
//!     println!("{:?} is {} off at mark {}", piece.curve, piece.distance, piece.worst);
//!     assert!(piece.distance <= 0.5);
//! }
//! assert!(fit.check(&marks, 0.5)?.is_sound());
//! # Ok::<(), wesalondo::Refusal>(())
//! ```
//!
//! - Fits: [`fit_joined`] for an open outline, [`fit_ring`] for a closed one; [`fit_curve`], [`fit_curve_loop`] and [`fit_curve_cubic`] as in
//!   flo_curves ([coming from flo_curves](coming_from_flo_curves)).
//! - The same on a small stack: [`fit_joined_flat`], [`fit_ring_flat`], [`fit_curve_cubic_flat`]; and into room that is lent, [`fit_joined_flat_in`] and others.
//! - Checkers, of any list of curves: [`Fit::check`], [`check_worst`], [`check_list`] and others.
//! - One curve: [`basis`], [`subdivide4`], [`nearest_point_on_curve`] and others.
//! - Path data for a cutter: [`Fit::export_path`], [`export_path`], [`import_path`].
//! - House files: [`read_file`], [`write_file`], [`save_fit`], [`judge_file`], [`list_outline`]; for keeping [`pack_file`], [`unpack_file`]; of a hand that shook or
//!   rested [`salvage`].
//! - [`sys`] has the library's own calls.
//!
//! A call ends on every input, and says no by a [`Refusal`]. Outlines, lists and house files have up to 100,000 marks; 512 are taken by [`fit_curve_cubic`],
//! [`fit_curve_cubic_flat`] and [`list_outline`], 4,096 by [`judge_file`] and [`save_fit`], and any number by [`pack_file`], [`unpack_file`] and [`salvage`]. A fit of n marks asks for some 88n bytes of memory, a flat one
//! for 96n, and keeps what its curves take.
//!
//! # What the caller still owes
//!
//! - The default float environment: rounding to nearest, subnormals kept. Rust itself asks for it too; a C library that was linked with `-ffast-math`
//!   breaks it for the whole program, and then what is proved no longer holds.
//! - A stack with room for the call: a fit wants up to 0.3 MB, however many marks there are, a flat fit 6 KB, [`judge_file`] and [`save_fit`] up to 1.3 MB;
//!   bindings/c/wesalondo.h has the figures. The main thread's 8 MB and the 2 MB of Rust's other threads will do; a thread that was given less may not, and for it there are the flat fits.
#![deny(missing_docs)]
#![warn(unsafe_op_in_unsafe_fn)]

#[cfg(not(all(target_arch = "x86_64", target_os = "linux", target_pointer_width = "64")))]
compile_error!("the proved library, libwesalondo.a, is for x86-64 Linux");

mod check;
mod curve;
mod fit;
mod fitted;
mod flat;
mod house;
mod lent;
mod numbers;
mod path;
mod point;
mod refusal;
mod salvage;
pub mod sys;
mod text;
mod verdict;

#[doc = include_str!("../COMING_FROM_FLO_CURVES.md")]
pub mod coming_from_flo_curves {}

pub use check::{check, check_list, check_ring, check_worst, check_worst_ring, List};
pub use curve::{
    basis, bezier_coefficients, de_casteljau2, de_casteljau3, de_casteljau4, nearest_point_on_curve,
    nearest_point_on_curve_newton_raphson_with_estimate, subdivide4, Nearest,
};
pub use fit::{fit_curve, fit_curve_cubic, fit_curve_loop, fit_joined, fit_ring};
pub use fitted::{Fit, Piece, Pieces};
pub use flat::{fit_curve_cubic_flat, fit_curve_cubic_flat_in, fit_joined_flat, fit_joined_flat_in, fit_ring_flat, fit_ring_flat_in};
pub use house::{read_file, write_file, House};
pub use lent::{Lent, Wanted};
pub use numbers::{joined_blocks, max_points_to_fit, sqrt};
pub use path::{export_path, import_path, Path};
pub use point::{Curve, Point};
pub use refusal::{Refusal, UnknownNumber};
pub use salvage::{salvage, Cause, Dropped, Salvaged};
pub use text::{judge_file, list_outline, pack_file, save_fit, unpack_file, Judgement};
pub use verdict::{Fault, FaultKind, Verdict};
