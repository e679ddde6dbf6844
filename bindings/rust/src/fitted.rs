//! What a fit makes.
use crate::check::{check, List};
use crate::lent::Wanted;
use crate::point::{Curve, Point};
use crate::refusal::Refusal;
use crate::verdict::Verdict;
use std::iter::FusedIterator;
use std::ops::Range;

/// How many numbers a curve of a fit has: its own eight, and its distance.
pub(crate) const RECORD: usize = 9;

/// The curves of an outline, in its order, and where on them each mark lies.
#[derive(Clone, Debug, PartialEq)]
pub struct Fit {
    pub(crate) ring: bool,
    pub(crate) curves: Vec<f64>,
    pub(crate) firsts: Vec<u32>,
    pub(crate) worsts: Vec<u32>,
    pub(crate) params: Vec<f64>,
}

/// One curve of a fit, with what is known of the marks under it.
#[derive(Clone, Copy, Debug, PartialEq)]
pub struct Piece {
    /// The curve.
    pub curve: Curve,
    /// How far the worst mark under it is off: from the mark to the curve's point at the mark's parameter.
    pub distance: f64,
    /// The number of the mark on which it starts.
    pub first: usize,
    /// The number of the mark that is `distance` off: the first of equals, and the first mark where none is off.
    pub worst: usize,
}

impl Fit {
    /// The room that a fit wants.
    pub(crate) fn with_room(ring: bool, wanted: Wanted) -> Fit {
        let Wanted { curves, firsts, worsts, params, .. } = wanted;
        Fit { ring, curves: vec![0.0; curves], firsts: vec![0; firsts], worsts: vec![0; worsts], params: vec![0.0; params] }
    }

    /// Gives back the room that the curves do not take.
    pub(crate) fn keep(&mut self, made: usize) {
        self.curves.truncate(RECORD * made);
        self.curves.shrink_to_fit();
        self.firsts.truncate(made);
        self.firsts.shrink_to_fit();
        self.worsts.truncate(made);
        self.worsts.shrink_to_fit();
    }

    /// How many curves there are.
    pub fn len(&self) -> usize {
        self.firsts.len()
    }

    /// Whether there are none, which no fit gives.
    pub fn is_empty(&self) -> bool {
        self.firsts.is_empty()
    }

    /// Whether it is the fit of a closed outline.
    pub fn is_ring(&self) -> bool {
        self.ring
    }

    /// Curve number `j` with its marks, if there is one.
    pub fn get(&self, j: usize) -> Option<Piece> {
        self.list().get(j)
    }

    /// The curves alone.
    pub fn curves(&self) -> impl ExactSizeIterator<Item = Curve> + DoubleEndedIterator + FusedIterator + '_ {
        self.pieces().map(|piece| piece.curve)
    }

    /// The curves, each with its marks.
    pub fn pieces(&self) -> Pieces<'_> {
        self.list().pieces()
    }

    /// Where on its curve each mark lies; of a ring mark 0 comes again at the end. A mark in two curves has the later one's, which is 0.
    pub fn params(&self) -> &[f64] {
        &self.params
    }

    /// The list as the checkers take it.
    pub fn list(&self) -> List<'_> {
        List { count: self.len(), curves: &self.curves, firsts: &self.firsts, worsts: &self.worsts, params: &self.params }
    }

    /// Judges the list over these marks and this tolerance, as one of a ring if the fit was.
    pub fn check(&self, marks: &[Point], tolerance: f64) -> Result<Verdict, Refusal> {
        check(self.ring, true, marks, tolerance, &self.list())
    }
}

impl<'a> List<'a> {
    /// How many curves of nine numbers are whole.
    fn whole(&self) -> usize {
        self.count.min(self.firsts.len()).min(self.worsts.len()).min(self.curves.len() / RECORD)
    }

    /// Curve number `j` of a list of nine numbers a curve, with its marks, if there is one.
    pub fn get(&self, j: usize) -> Option<Piece> {
        if j >= self.whole() {
            return None;
        }
        let [a, b, c, d, e, f, g, h, distance] = *self.curves[RECORD * j..].first_chunk::<RECORD>()?;
        let curve = Curve::from([a, b, c, d, e, f, g, h]);
        Some(Piece { curve, distance, first: self.firsts[j] as usize, worst: self.worsts[j] as usize })
    }

    /// The curves of a list of nine numbers a curve, as the fits give it, each with its marks.
    pub fn pieces(&self) -> Pieces<'a> {
        Pieces { list: *self, left: 0..self.whole() }
    }
}

/// The curves of a fit in turn; see [`Fit::pieces`] and [`List::pieces`].
#[derive(Clone, Debug)]
pub struct Pieces<'a> {
    list: List<'a>,
    left: Range<usize>,
}

impl Iterator for Pieces<'_> {
    type Item = Piece;

    fn next(&mut self) -> Option<Piece> {
        self.left.next().and_then(|j| self.list.get(j))
    }

    fn size_hint(&self) -> (usize, Option<usize>) {
        self.left.size_hint()
    }

    fn nth(&mut self, n: usize) -> Option<Piece> {
        self.left.nth(n).and_then(|j| self.list.get(j))
    }
}

impl DoubleEndedIterator for Pieces<'_> {
    fn next_back(&mut self) -> Option<Piece> {
        self.left.next_back().and_then(|j| self.list.get(j))
    }
}

impl ExactSizeIterator for Pieces<'_> {}

impl FusedIterator for Pieces<'_> {}

impl<'a> IntoIterator for &'a Fit {
    type Item = Piece;
    type IntoIter = Pieces<'a>;

    fn into_iter(self) -> Pieces<'a> {
        self.pieces()
    }
}
