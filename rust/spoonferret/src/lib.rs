//! Mesh surgery on half-edges, proved.
//!
//! Each function here calls one of the static library's, whose contract is proved for every input: what it answers, and what it
//! leaves in everything that was lent to it. This crate sizes and lends what a call needs, and turns answers into `Result`. It has no dependency and
//! builds the static library itself, by `rt`; where that is built already, the variable `SPOONFERRET_LIB` names the folder of libstation.a or libspoonferret.a, absolute or
//! relative to where cargo is run, and nothing is built.
//!
//! Three ways in, one beneath the other:
//!
//! - [`Net`] owns its vectors, of the crate's own row types.
//! - [`NetMut`] borrows the caller's vectors, of the caller's types where [`layout!`] proves that they fit, and works in a [`Workspace`] whose buffers are kept.
//! - [`edge_op`] has the names and arguments of manifold-rust's module, over a mesh that implements [`edge_op::Mesh`].
//!
//! [`raw`] has the library's functions themselves. Calls on different nets may run at once, on any threads: nothing is shared between them.
//!
//! ```
//! use spoonferret::{Clause, Halfedge, Net, Refusal, Vec3};
//!
//! // two triangles back to back
//! let rows = [[0, 1, 3], [1, 2, 5], [2, 0, 4], [1, 0, 0], [0, 2, 2], [2, 1, 1]];
//! let mut net = Net {
//!     halfedges: rows.iter().map(|r| Halfedge::new(r[0], r[1], r[2], -1)).collect(),
//!     positions: vec![Vec3::new(0.0, 0.0, 0.0), Vec3::new(1.0, 0.0, 0.0), Vec3::new(0.0, 1.0, 0.0)],
//!     ..Net::default()
//! };
//! assert_eq!(net.check(), Ok(()));
//!
//! net.halfedges[4].end_vert = 7;
//! let refusal = net.check().unwrap_err();
//! assert_eq!(refusal, Refusal::Unsound { row: 2, clause: Clause::NotMirrored { partner: 4 } });
//! assert_eq!(
//!     refusal.to_string(),
//!     "unsound (3): row 2 is the least row that is not in order: its partner, row 4, does not run the opposite way between the same two vertices"
//! );
//! ```

#![warn(missing_docs)]

#[macro_use]
mod lending;
pub mod edge_op;
mod layout;
mod clause;
mod net;
mod net_mut;
pub mod raw;
mod refusal;
mod rows;
mod workspace;

pub use clause::Clause;
#[doc(hidden)]
pub use layout::fits;
pub use layout::{HalfedgeRow, Layout, Own};
pub use net::{Eligible, Net};
pub use net_mut::{NetMut, Split};
pub use refusal::Refusal;
pub use rows::{Halfedge, Reference, Vec3};
pub use workspace::{release_kept, Workspace};

/// The next half-edge of its triangle: `h + 1`, or `h - 2` where `h + 1` divides by 3. It is wanted on every `i32` but two.
///
/// # Errors
///
/// `Number` for 2147483647 and −2147483647, which have none.
///
/// ```
/// use spoonferret::{next_halfedge, Refusal};
/// assert_eq!(next_halfedge(2), Ok(0));
/// assert_eq!(next_halfedge(3), Ok(4));
/// assert_eq!(next_halfedge(-1), Ok(-3));
/// assert_eq!(next_halfedge(i32::MAX), Err(Refusal::Number));
/// ```
pub fn next_halfedge(h: i32) -> Result<i32, Refusal> {
    let told = unsafe { raw::spoonferret_next_halfedge(h) };
    Refusal::unless_done(told.number, told.next)
}

/// The triangle of `h`, from `h` on.
///
/// # Errors
///
/// `Number` where one of the two nexts is not there.
///
/// ```
/// use spoonferret::tri_of;
/// assert_eq!(tri_of(4), Ok([4, 5, 3]));
/// ```
pub fn tri_of(h: i32) -> Result<[i32; 3], Refusal> {
    let told = unsafe { raw::spoonferret_tri_of(h) };
    Refusal::unless_done(told.number, [told.first, told.second, told.third])
}

/// Whether the edge between two positions is short: its squared length is strictly below `tol * tol` where
/// `end_vert < first_new_vert`, else below `epsilon * epsilon`. A `tol` below 0 stands for `epsilon`.
///
/// # Errors
///
/// `Long` with the squared length and the limit, also where there is a NaN.
///
/// ```
/// use spoonferret::{short_test, Refusal, Vec3};
/// let (from, to) = (Vec3::new(0.0, 0.0, 0.0), Vec3::new(3.0, 4.0, 0.0));
/// assert_eq!(short_test(from, to, 1, 2, 5.0, 0.0), Err(Refusal::Long { squared_length: 25.0, limit: 25.0 }));
/// assert_eq!(short_test(from, to, 1, 2, -1.0, 6.0), Ok(()));
/// ```
pub fn short_test(from: Vec3, to: Vec3, end_vert: i32, first_new_vert: i32, tol: f64, epsilon: f64) -> Result<(), Refusal> {
    let told = unsafe { raw::spoonferret_short_test(from, to, end_vert, first_new_vert, tol, epsilon) };
    Refusal::carrying(told.number, refusal::Carried::NOTHING.lengths(told.squared_length, told.limit), ())
}
