//! Why a call was refused.

use crate::Clause;
use std::fmt;

/// What a call says when it is not done, with document 01's number in `number()`. Every refusal leaves the net as it was.
#[derive(Clone, Copy, Debug, PartialEq)]
#[non_exhaustive]
pub enum Refusal {
    /// 1: the counts do not fit the arrays, one another or the bounds.
    Shape,
    /// 2: a work buffer, list or spare is too short. This crate lends them long enough and never says it.
    ShortBuffer,
    /// 3: the net is not sound.
    Unsound {
        /// the least row that is not in order
        row: usize,
        /// the first clause of "in order" that it breaks
        clause: Clause,
    },
    /// 4: a number that names no half-edge in use or no vertex in use, or that has no next.
    Number,
    /// 5: a named half-edge is dead.
    Dead,
    /// 6: the next append would pass a bound.
    NoRoom,
    /// 7: the next step would read or write a row that isn't there, or a walk never ends.
    Stopped,
    /// 8: the edge is not short.
    Long {
        /// the squared length of the edge
        squared_length: f64,
        /// what it had to be below
        limit: f64,
    },
    /// 9: a fan does not close. It is never said of a sound net.
    OpenFan,
    /// 10: the owner scan met a pair that does not point back, or an eligible half-edge whose fan is open.
    NoOwners,
    /// An answer that this crate has no case for. The library that it was made with gives none.
    Other {
        /// the answer's number
        number: u32,
    },
}

/// What an answer may carry besides its number.
#[derive(Clone, Copy)]
pub(crate) struct Carried {
    pub row: usize,
    pub clause: Clause,
    pub squared_length: f64,
    pub limit: f64,
}

impl Carried {
    pub const NOTHING: Carried = Carried::row(0);

    /// A row alone; which clause it breaks is asked of the arrays.
    pub const fn row(row: usize) -> Carried {
        Carried { row, clause: Clause::InOrder, squared_length: 0.0, limit: 0.0 }
    }

    /// The bits of a squared length and of a limit.
    pub fn lengths(self, squared_length: u64, limit: u64) -> Carried {
        Carried { squared_length: f64::from_bits(squared_length), limit: f64::from_bits(limit), ..self }
    }
}

/// Each number and its case, with what it carries.
macro_rules! table {
    ($($number:literal: $case:ident $({ $($value:ident),* })?),* $(,)?) => {
        impl Refusal {
            /// The number of the answer.
            pub fn number(&self) -> u32 {
                match self {
                    $(Refusal::$case { .. } => $number,)*
                    Refusal::Other { number } => *number,
                }
            }

            fn of(number: u32, carried: Carried) -> Refusal {
                match number {
                    $($number => Refusal::$case $({ $($value: carried.$value),* })?,)*
                    _ => Refusal::Other { number },
                }
            }
        }
    };
}

table! {
    1: Shape,
    2: ShortBuffer,
    3: Unsound { row, clause },
    4: Number,
    5: Dead,
    6: NoRoom,
    7: Stopped,
    8: Long { squared_length, limit },
    9: OpenFan,
    10: NoOwners,
}

impl Refusal {
    /// The value where the number is 0, else the refusal of that number, which carries nothing.
    pub(crate) fn unless_done<T>(number: u32, done: T) -> Result<T, Refusal> {
        Refusal::carrying(number, Carried::NOTHING, done)
    }

    /// The value where the number is 0, else the refusal of that number with what it carries.
    pub(crate) fn carrying<T>(number: u32, carried: Carried, done: T) -> Result<T, Refusal> {
        if number == 0 {
            Ok(done)
        } else {
            Err(Refusal::of(number, carried))
        }
    }
}

impl fmt::Display for Refusal {
    fn fmt(&self, f: &mut fmt::Formatter<'_>) -> fmt::Result {
        match self {
            Refusal::Shape => write!(
                f,
                "shape (1): the half-edges are not a multiple of 3, a used count or num_prop is above its capacity or bound, or \
                 references or normals are neither 0 nor one a triangle"
            ),
            Refusal::ShortBuffer => write!(f, "short buffer (2): a work buffer, list or spare is too short"),
            Refusal::Unsound { row, clause } => write!(f, "unsound (3): row {row} is the least row that is not in order: {clause}"),
            Refusal::Number => write!(f, "number (4): a number that names no half-edge in use or no vertex in use, or that has no next"),
            Refusal::Dead => write!(f, "dead (5): a named half-edge is dead"),
            Refusal::NoRoom => write!(f, "no room (6): the next append would pass a capacity"),
            Refusal::Stopped => {
                write!(f, "stopped (7): the next step would read or write a row that isn't there, or a walk never ends")
            }
            Refusal::Long { squared_length, limit } => {
                write!(f, "long (8): the squared length {squared_length} is not below the limit {limit}")
            }
            Refusal::OpenFan => write!(f, "open fan (9): a fan does not close within as many turns as there are half-edges"),
            Refusal::NoOwners => write!(
                f,
                "no owners (10): a pair of 0 or more names no half-edge in use or does not point back, or an eligible half-edge, after \
                 no or more turns, is at a row without pair"
            ),
            Refusal::Other { number } => write!(f, "refused ({number}): docs/MANUAL.md has a page a number"),
        }
    }
}

impl std::error::Error for Refusal {}
