//! Why a row is not in order.

use std::fmt;

/// The first clause of "in order" that a row breaks, in document 01's order of clauses, with the other row that this concerns. It prints as a sentence.
#[derive(Clone, Copy, Debug, PartialEq, Eq)]
#[non_exhaustive]
pub enum Clause {
    /// none: the row is in order
    InOrder,
    /// 1: its pair names no half-edge in use
    NoPartner,
    /// 2: its partner's pair is another row
    NotBack {
        /// the partner
        partner: usize,
    },
    /// 3: its start or its end names no vertex in use
    NoVertex,
    /// 4: another row of its triangle has no pair
    Unpaired {
        /// the row that has none
        row: usize,
    },
    /// 5: its end is not the start of its next
    NotJoined {
        /// the next
        next: usize,
    },
    /// 6: its partner's ends are not its own, exchanged
    NotMirrored {
        /// the partner
        partner: usize,
    },
    /// 7: two of its triangle's three starts agree
    StartsAlike,
    /// 8: it is empty, and another row of its triangle is not
    PartlyDead {
        /// the row that is not
        row: usize,
    },
    /// A clause that this crate has no case for. The library that it was made with names none.
    Other {
        /// the clause's number
        number: u32,
        /// the other row
        row: usize,
    },
}

/// Each number and its case, with what the other row is to it.
macro_rules! table {
    ($($number:literal: $case:ident $({ $other:ident })?),* $(,)?) => {
        impl Clause {
            /// The number of the clause, as docs/MANUAL.md has it under answer 3.
            pub fn number(&self) -> u32 {
                match self {
                    $(Clause::$case { .. } => $number,)*
                    Clause::Other { number, .. } => *number,
                }
            }

            /// The other row that it concerns, where there is one.
            pub fn row(&self) -> Option<usize> {
                match self {
                    $(Clause::$case $({ $other })? => None$(.or(Some(*$other)))?,)*
                    Clause::Other { row, .. } => Some(*row),
                }
            }

            /// The clause of that number, with the other row.
            pub(crate) fn of(number: u32, row: usize) -> Clause {
                match number {
                    $($number => Clause::$case $({ $other: row })?,)*
                    _ => Clause::Other { number, row },
                }
            }
        }
    };
}

table! {
    0: InOrder,
    1: NoPartner,
    2: NotBack { partner },
    3: NoVertex,
    4: Unpaired { row },
    5: NotJoined { next },
    6: NotMirrored { partner },
    7: StartsAlike,
    8: PartlyDead { row },
}

impl fmt::Display for Clause {
    fn fmt(&self, f: &mut fmt::Formatter<'_>) -> fmt::Result {
        match self {
            Clause::InOrder => write!(f, "the row is in order"),
            Clause::NoPartner => write!(f, "its pair names no half-edge in use"),
            Clause::NotBack { partner } => write!(f, "its partner, row {partner}, has another row as its pair"),
            Clause::NoVertex => write!(f, "its start or its end names no vertex in use"),
            Clause::Unpaired { row } => write!(f, "row {row} of its triangle has no pair"),
            Clause::NotJoined { next } => write!(f, "it does not end where its next, row {next}, starts"),
            Clause::NotMirrored { partner } => write!(f, "its partner, row {partner}, does not run the opposite way between the same two vertices"),
            Clause::StartsAlike => write!(f, "two of its triangle's three corners are at the same vertex"),
            Clause::PartlyDead { row } => write!(f, "it is empty, and row {row} of its triangle is not"),
            Clause::Other { number, row } => write!(f, "it breaks clause {number}, with row {row}"),
        }
    }
}
