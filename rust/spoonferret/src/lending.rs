//! How a net's rows are lent to the static library, and what is kept of them afterwards. All of the crate's unsafe code about rows is here: the pointers, the
//! calls made with them, and the lengths of vectors after a call.

use crate::raw::Used;
use crate::refusal::Carried;
use crate::{Clause, Halfedge, HalfedgeRow, Layout, Refusal};
use std::marker::PhantomData;
use std::mem::MaybeUninit;
use std::ptr::NonNull;

pub(crate) const MOST_TRIANGLES: usize = 1_000_000;
pub(crate) const MOST_VERTICES: usize = 1_000_000;

/// The five arrays as the library takes them: each pointer is good for its length, of initialised elements, for `'n`, and is to be written through only where it
/// was made from an exclusive borrow.
pub(crate) struct Arrays<'n> {
    pub used: Used,
    pub halfedges: *mut i32,
    pub halfedges_length: usize,
    pub positions: *mut u64,
    pub positions_length: usize,
    pub normals: *mut u64,
    pub normals_length: usize,
    pub references: *mut i32,
    pub references_length: usize,
    pub properties: *const u64,
    pub properties_length: usize,
    pub borrowed: PhantomData<&'n ()>,
}

/// Makes a call with the arrays and what else it takes.
///
/// SAFETY of every use: `Arrays` says what its pointers are good for. A function that writes an array is called with arrays from `lend`, which borrows the
/// net exclusively, or from rows borrowed so; buffers are vectors of their own, passed with their lengths. So nothing that is written overlaps anything else, no pointer is null
/// (that of an empty vector is not), and all are aligned, which is all that include/spoonferret.h asks of a caller.
macro_rules! call {
    ($entry:ident, $arrays:expr $(, $more:expr)* $(,)?) => {{
        let a = &$arrays;
        unsafe {
            $crate::raw::$entry(
                a.used,
                a.halfedges,
                a.halfedges_length,
                a.positions,
                a.positions_length,
                a.normals,
                a.normals_length,
                a.references,
                a.references_length,
                a.properties,
                a.properties_length,
                $($more),*
            )
        }
    }};
}

impl Arrays<'_> {
    /// The value where an entry that asks for a sound net, called with these arrays, said 0; else the refusal of that number with what it carries. Of 3 and its row
    /// the arrays, which are as they were, say which clause the row breaks.
    pub fn unless_done<T>(&self, number: u32, carried: Carried, done: T) -> Result<T, Refusal> {
        let clause = if number == 3 { self.clause(carried.row) } else { carried.clause };
        Refusal::carrying(number, Carried { clause, ..carried }, done)
    }

    /// The first clause that a row breaks, as explain_row tells it.
    fn clause(&self, row: usize) -> Clause {
        let told = call!(spoonferret_explain_row, self, row as i32);
        Clause::of(told.clause, told.other)
    }

    /// Where half-edge `h` starts: `h` is in use, and its start is a vertex.
    pub fn start(&self, h: usize) -> usize {
        assert!(h < self.used.halfedges);
        // SAFETY: the elements of a row in use are good for reading
        unsafe { *self.halfedges.add(Halfedge::NUMBERS * h) as usize }
    }
}

/// A net's rows, borrowed for reading. What is written through the pointers made from it is nothing: check_net, explain_row and orbit_owners alone are called with them.
pub(crate) struct Shared<'n, L: Layout> {
    pub halfedges: &'n [L::Halfedge],
    pub positions: &'n [L::Vector],
    pub normals: &'n [L::Vector],
    pub references: usize,
    pub properties: &'n [f64],
    pub num_prop: usize,
}

impl<'n, L: Layout> Shared<'n, L> {
    /// The counts; refused where the references are not a row for each triangle, or the properties no whole number of rows. The references themselves are not lent where
    /// a call does not look at them, so their count is tested here.
    pub fn used(&self) -> Result<Used, Refusal> {
        let rows = match self.num_prop {
            0 => (self.properties.is_empty()).then_some(0),
            n => (self.properties.len() % n == 0).then_some(self.properties.len() / n),
        };
        match rows {
            Some(properties) if self.references == 0 || 3 * self.references == self.halfedges.len() => Ok(Used {
                halfedges: self.halfedges.len(),
                vertices: self.positions.len(),
                normals: self.normals.len(),
                references: 0,
                properties,
                num_prop: self.num_prop,
            }),
            _ => Err(Refusal::Shape),
        }
    }

    pub fn arrays(&self) -> Result<Arrays<'n>, Refusal> {
        Ok(Arrays {
            used: self.used()?,
            halfedges: self.halfedges.as_ptr().cast_mut().cast(),
            halfedges_length: Halfedge::NUMBERS * self.halfedges.len(),
            positions: self.positions.as_ptr().cast_mut().cast(),
            positions_length: 3 * self.positions.len(),
            normals: self.normals.as_ptr().cast_mut().cast(),
            normals_length: 3 * self.normals.len(),
            references: none(),
            references_length: 0,
            properties: self.properties.as_ptr().cast(),
            properties_length: self.properties.len(),
            borrowed: PhantomData,
        })
    }
}

/// Half-edge rows alone, for pair_up.
pub(crate) fn halfedges_alone<L, H: HalfedgeRow<L>>(rows: &mut [H]) -> Arrays<'_> {
    Arrays {
        used: Used { halfedges: rows.len(), vertices: 0, normals: 0, references: 0, properties: 0, num_prop: 0 },
        halfedges: rows.as_mut_ptr().cast(),
        halfedges_length: Halfedge::NUMBERS * rows.len(),
        positions: none(),
        positions_length: 0,
        normals: none(),
        normals_length: 0,
        references: none(),
        references_length: 0,
        properties: none(),
        properties_length: 0,
        borrowed: PhantomData,
    }
}

/// The place of an array without elements.
pub(crate) fn none<T>() -> *mut T {
    NonNull::dangling().as_ptr()
}

/// Free rows behind those in use.
#[derive(Clone, Copy, Debug, PartialEq)]
pub(crate) struct Room {
    pub triangles: usize,
    pub vertices: usize,
}

impl Room {
    /// All that the bounds leave.
    pub const ALL: Room = Room { triangles: usize::MAX, vertices: usize::MAX };

    /// Of each the less.
    pub fn least(self, other: Room) -> Room {
        Room { triangles: self.triangles.min(other.triangles), vertices: self.vertices.min(other.vertices) }
    }
}

/// The rows in use after a call that was done.
#[derive(Clone, Copy, Debug, PartialEq)]
pub(crate) struct InUse {
    pub halfedges: usize,
    pub vertices: usize,
}

/// The vector's rows and so many free ones behind them, which read zero: the place, and the rows in all. The vector has room for them.
pub(crate) fn with_free<T: Copy>(rows: &mut Vec<T>, free: usize) -> (*mut T, usize) {
    rows.spare_capacity_mut()[..free].fill(MaybeUninit::zeroed());
    (rows.as_mut_ptr(), rows.len() + free)
}

/// Takes the vector's rows up to `length` for in use, after a call.
///
/// # Safety
///
/// `T` is a type of a `Layout`, and so many rows were lent by `with_free`.
pub(crate) unsafe fn keep<T: Copy>(rows: &mut Vec<T>, length: usize) {
    // the rows in use and the free ones that were lent are initialised, and of a layout's type any bits are a value: it is integers or floats and nothing besides
    assert!(length <= rows.capacity());
    rows.set_len(length);
}
