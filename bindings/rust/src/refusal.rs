//! Why a call gives no answer.
use std::error::Error;
use std::fmt;

/// Why a call gives no answer. Nothing of a refused call's result is to be had.
#[non_exhaustive]
#[derive(Clone, Copy, Debug, PartialEq, Eq, Hash)]
pub enum Refusal {
    /// Fewer than 2 marks; fewer than 3 of a ring.
    TooFew,
    /// More than 100,000 marks; more than 512 for `fit_curve_cubic`, its flat form and the listing, more than 4,096 for `judge_file` and `save_fit`.
    TooMany,
    /// A mark with an x and no y, which slices of [`Point`](crate::Point) can't have.
    Odd,
    /// A slice is too short for what the call is to do; of this crate's calls only those that take a [`List`](crate::List), a
    /// [`House`](crate::House) or [`Lent`](crate::Lent) room can find one.
    NoRoom,
    /// An input number is out of range.
    OutOfRange,
    /// An operation of the run gave NaN or infinity; with a fit nearly always because three or more marks lie on one spot; [`salvage`](crate::salvage) drops
    /// marks that pile up.
    NotFinite,
    /// The search for the nearest point went too deep.
    TooDeep,
    /// A house file is badly formed, as one is whose curves' kind does not suit its number of marks, or too long for the call; or it was to be packed and is
    /// packed, or to be unpacked and is not; or a house does not fit into a file.
    BadlyFormed,
    /// A number of path data, or on the way to it, is above 1,000,000,000 in magnitude.
    TooLarge,
    /// A text is not path data that is read.
    NoPath,
    /// Curves do not meet bit for bit, on the way to path data or to a packed file; or there are none, on the way to path data.
    NotJoined,
}

impl Refusal {
    const ALL: [Refusal; 11] = [
        Refusal::TooFew,
        Refusal::TooMany,
        Refusal::Odd,
        Refusal::NoRoom,
        Refusal::OutOfRange,
        Refusal::NotFinite,
        Refusal::TooDeep,
        Refusal::BadlyFormed,
        Refusal::TooLarge,
        Refusal::NoPath,
        Refusal::NotJoined,
    ];

    /// The number by which the library gives it, and `./wesalondo explain` explains it. 7 is given to nothing.
    pub const fn number(self) -> u32 {
        match self {
            Refusal::TooFew => 1,
            Refusal::TooMany => 2,
            Refusal::Odd => 3,
            Refusal::NoRoom => 4,
            Refusal::OutOfRange => 5,
            Refusal::NotFinite => 6,
            Refusal::TooDeep => 8,
            Refusal::BadlyFormed => 9,
            Refusal::TooLarge => 10,
            Refusal::NoPath => 11,
            Refusal::NotJoined => 12,
        }
    }

    fn words(self) -> &'static str {
        match self {
            Refusal::TooFew => "there are fewer than 2 marks, or fewer than 3 of a ring",
            Refusal::TooMany => {
                "there are more than 100,000 marks, or than the 512 of the direct fit and the listing, or the 4,096 of the judge and of save_fit"
            }
            Refusal::Odd => "a mark has an x and no y",
            Refusal::NoRoom => "a slice is too short",
            Refusal::OutOfRange => "an input number is out of range",
            Refusal::NotFinite => "an operation gave NaN or infinity; of a fit, three or more marks may lie on one spot",
            Refusal::TooDeep => "the search for the nearest point went too deep",
            Refusal::BadlyFormed => "the house file is badly formed, or too long for the call",
            Refusal::TooLarge => "a number of the path is above 1,000,000,000 in magnitude",
            Refusal::NoPath => "the text is not path data of one subpath of M, L, C and Z, with three places at most and no exponent",
            Refusal::NotJoined => "there are no curves, or they do not meet bit for bit",
        }
    }
}

impl fmt::Display for Refusal {
    fn fmt(&self, f: &mut fmt::Formatter<'_>) -> fmt::Result {
        write!(f, "refusal {}: {}", self.number(), self.words())
    }
}

impl Error for Refusal {}

/// A number that no refusal has.
#[derive(Clone, Copy, Debug, PartialEq, Eq)]
pub struct UnknownNumber(pub u32);

impl fmt::Display for UnknownNumber {
    fn fmt(&self, f: &mut fmt::Formatter<'_>) -> fmt::Result {
        write!(f, "{} is the number of no refusal that this crate knows", self.0)
    }
}

impl Error for UnknownNumber {}

impl TryFrom<u32> for Refusal {
    type Error = UnknownNumber;

    fn try_from(number: u32) -> Result<Refusal, UnknownNumber> {
        Refusal::ALL.into_iter().find(|refusal| refusal.number() == number).ok_or(UnknownNumber(number))
    }
}

/// The refusal that the library gave by its number.
pub(crate) fn given(number: u32) -> Refusal {
    match Refusal::try_from(number) {
        Ok(refusal) => refusal,
        Err(unknown) => panic!("{unknown}: libwesalondo.a is newer than this crate"),
    }
}

/// What a call's answer says: 0, or a refusal.
pub(crate) fn answered(number: u32) -> Result<(), Refusal> {
    match number {
        0 => Ok(()),
        refused => Err(given(refused)),
    }
}
