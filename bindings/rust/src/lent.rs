//! Room that a caller lends to a fit, and how much of it a fit wants.
use crate::fit::MOST_MARKS;
use crate::fitted::RECORD;

/// The slices that are lent to a flat fit. They may be longer than [`Wanted`] says; too short ones are [`Refusal::NoRoom`](crate::Refusal::NoRoom).
///
/// What is in them before does not matter. A fit that is made leaves the places behind its list as they were, and every number of `open` zero. Of the refusals
/// [`NotFinite`](crate::Refusal::NotFinite) leaves every number of all five zero, and any other all as it was.
#[derive(Debug)]
pub struct Lent<'a> {
    /// For the curves, nine numbers each.
    pub curves: &'a mut [f64],
    /// For the number of each curve's first mark.
    pub firsts: &'a mut [u32],
    /// For the number of each curve's worst mark.
    pub worsts: &'a mut [u32],
    /// For each mark's parameter on its curve.
    pub params: &'a mut [f64],
    /// For the numbers of the marks at which parts end that are still to be fitted: it stands in for the stack of the other fits.
    pub open: &'a mut [u32],
}

/// How many elements a flat fit wants in each slice of [`Lent`]. It is known when a program is built, so arrays can have these lengths.
///
/// ```
/// use wesalondo::{fit_joined_flat_in, Lent, Point, Wanted};
///
/// const WANTED: Wanted = Wanted::for_marks(64);
/// let (mut curves, mut params) = ([0.0; WANTED.curves], [0.0; WANTED.params]);
/// let (mut firsts, mut worsts, mut open) = ([0; WANTED.firsts], [0; WANTED.worsts], [0; WANTED.open]);
///
/// let marks: [Point; 64] = std::array::from_fn(|i| i as f64 * 0.1).map(|a| Point::new(100.0 * a, 80.0 * a.cos()));
/// let lent = Lent { curves: &mut curves, firsts: &mut firsts, worsts: &mut worsts, params: &mut params, open: &mut open };
/// let list = fit_joined_flat_in(&marks, 0.5, lent)?;
/// for piece in list.pieces() {
///     println!("{:?} is {} off at mark {}", piece.curve, piece.distance, piece.worst);
///     assert!(piece.distance <= 0.5);
/// }
/// assert!(wesalondo::check_worst(&marks, 0.5, &list)?.is_sound());
/// # Ok::<(), wesalondo::Refusal>(())
/// ```
#[derive(Clone, Copy, Debug, PartialEq, Eq)]
pub struct Wanted {
    /// Numbers for the curves.
    pub curves: usize,
    /// Numbers of first marks.
    pub firsts: usize,
    /// Numbers of worst marks.
    pub worsts: usize,
    /// Parameters.
    pub params: usize,
    /// Numbers of marks at which open parts end.
    pub open: usize,
}

impl Wanted {
    /// For an open outline of `n` marks. More than 100,000 are refused whatever is lent, and want no more than these.
    pub const fn for_marks(n: usize) -> Wanted {
        Wanted::of(false, n)
    }

    /// For a ring of `n` marks, mark 0 given once.
    pub const fn for_ring(n: usize) -> Wanted {
        Wanted::of(true, n)
    }

    pub(crate) const fn of(ring: bool, n: usize) -> Wanted {
        let given = if n < MOST_MARKS { n } else { MOST_MARKS };
        let counted = if ring { given + 1 } else { given };
        let most = counted.saturating_sub(1);
        Wanted { curves: RECORD * most, firsts: most, worsts: most, params: counted, open: 2 * given }
    }
}
