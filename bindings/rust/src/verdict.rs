//! What the checkers say of a list.
use std::error::Error;
use std::fmt;

/// Whether a list is sound.
#[must_use]
#[derive(Clone, Copy, Debug, PartialEq, Eq)]
pub enum Verdict {
    /// The curves meet, no mark is farther off than the tolerance, and what the list keeps of its distances is right.
    Sound,
    /// The first fault.
    Faulty(Fault),
}

/// What is wrong with a list, and where; curves and marks count from 0.
#[derive(Clone, Copy, Debug, PartialEq, Eq, Hash)]
pub struct Fault {
    /// What is wrong.
    pub kind: FaultKind,
    /// The number of the curve.
    pub curve: usize,
    /// The number of the mark.
    pub mark: usize,
}

/// What can be wrong with a list.
#[derive(Clone, Copy, Debug, PartialEq, Eq, Hash, PartialOrd, Ord)]
pub enum FaultKind {
    /// The count is wrong, or the first marks of the curves do not rise from mark 0.
    A,
    /// A curve does not begin and end on its own marks, to the last bit, or one of its numbers is not finite.
    B,
    /// A mark's parameter is not 0 at the first mark of a curve, not 1 at the last mark of all, or not between 0 and 1 elsewhere.
    C,
    /// A mark is farther than the tolerance from the point of its curve at its parameter.
    D,
    /// The worst mark that is kept with a curve, or its distance, is not what the checker measures, to the last bit.
    E,
}

impl Verdict {
    /// Whether the list is sound.
    pub fn is_sound(&self) -> bool {
        *self == Verdict::Sound
    }

    /// The fault, if there is one.
    pub fn fault(&self) -> Option<Fault> {
        match self {
            Verdict::Sound => None,
            Verdict::Faulty(fault) => Some(*fault),
        }
    }
}

impl FaultKind {
    /// The letter by which the library gives it, and `./wesalondo explain` explains it.
    pub const fn letter(self) -> char {
        match self {
            FaultKind::A => 'A',
            FaultKind::B => 'B',
            FaultKind::C => 'C',
            FaultKind::D => 'D',
            FaultKind::E => 'E',
        }
    }

    /// The kind with this letter.
    pub(crate) fn of_letter(letter: char) -> Option<FaultKind> {
        [FaultKind::A, FaultKind::B, FaultKind::C, FaultKind::D, FaultKind::E].into_iter().find(|kind| kind.letter() == letter)
    }

    fn words(self) -> &'static str {
        match self {
            FaultKind::A => "the curves are out of turn: their first marks do not rise from mark 0",
            FaultKind::B => "the curve does not begin and end on its own marks, or one of its numbers is none",
            FaultKind::C => "the mark's parameter is not 0 at a curve's first mark, 1 at the last mark or between 0 and 1",
            FaultKind::D => "the mark is farther off than the tolerance",
            FaultKind::E => "the worst mark or its distance is not what is measured",
        }
    }
}

impl fmt::Display for Fault {
    fn fmt(&self, f: &mut fmt::Formatter<'_>) -> fmt::Result {
        write!(f, "fault {} at curve {}, mark {}: {}", self.kind.letter(), self.curve, self.mark, self.kind.words())
    }
}

impl Error for Fault {}
