//! Buffers that are kept from call to call.

use crate::lending::Arrays;
use crate::Halfedge;
use std::cell::Cell;

/// The work buffers, lists and spares that operations borrow. They grow when a call needs more, and stay: a second call on a net of the same size allocates
/// nothing. Of a net of T triangles and V vertices the dearest call keeps 48 T + 24 V bytes for spares, 24 T + 4 V for its work buffer and list, and 12 T in
/// the place of references.
///
/// ```
/// use spoonferret::Workspace;
/// let mut work = Workspace::new();
/// // ..calls..
/// work.release();
/// ```
#[derive(Debug, Default)]
pub struct Workspace {
    pub(crate) words: Vec<u32>,
    pub(crate) list: Vec<u32>,
    pub(crate) bytes: Vec<u8>,
    pub(crate) spare_halfedges: Vec<i32>,
    pub(crate) spare_positions: Vec<u64>,
    /// row t holds t, 0, 0: lent in the place of references that are copied and not read
    pub(crate) triangles: Vec<i32>,
    /// references that are read
    pub(crate) faces: Vec<i32>,
}

fn grow<T: Clone + Default>(buffer: &mut Vec<T>, length: usize) {
    if buffer.len() < length {
        buffer.resize(length, T::default());
    }
}

impl Workspace {
    /// A workspace that holds nothing yet.
    pub fn new() -> Self {
        Workspace::default()
    }

    /// Gives all memory back.
    pub fn release(&mut self) {
        *self = Workspace::default();
    }

    pub(crate) fn spares(&mut self, halfedges: usize, vertices: usize) {
        grow(&mut self.spare_halfedges, Halfedge::NUMBERS * halfedges);
        grow(&mut self.spare_positions, 3 * vertices);
    }

    pub(crate) fn words(&mut self, length: usize) {
        grow(&mut self.words, length);
    }

    pub(crate) fn list(&mut self, length: usize) {
        grow(&mut self.list, length);
    }

    pub(crate) fn bytes(&mut self, length: usize) {
        grow(&mut self.bytes, length);
    }

    /// Rows of `triangles` for so many triangles.
    pub(crate) fn triangles(&mut self, rows: usize) {
        for t in self.triangles.len() / 3..rows {
            self.triangles.extend([t as i32, 0, 0]);
        }
    }

    /// The triangles whose references stand in these rows; the rows hold their own numbers again.
    pub(crate) fn copied(&mut self, rows: std::ops::Range<usize>) -> impl Iterator<Item = usize> + '_ {
        rows.map(|t| std::mem::replace(&mut self.triangles[3 * t], t as i32) as usize)
    }

    /// How many vertices splitting a sound net appends: its fans, less the vertices at which there are any.
    pub(crate) fn copies(&mut self, arrays: &Arrays<'_>) -> usize {
        let used = arrays.used;
        self.bytes(used.halfedges.max(used.vertices));
        self.list(used.halfedges);
        let told = call!(spoonferret_orbit_owners, arrays, self.bytes.as_mut_ptr(), self.bytes.len(), self.list.as_mut_ptr(), self.list.len(), false);
        // the scan left its bytes zero, and they are left so
        let mut vertices = 0;
        for &owner in &self.list[..told.count] {
            let at = &mut self.bytes[arrays.start(owner as usize)];
            vertices += usize::from(*at == 0);
            *at = 1;
        }
        self.bytes[..used.vertices].fill(0);
        told.count - vertices
    }
}

thread_local! {
    static KEPT: Cell<Workspace> = Cell::new(Workspace::default());
}

/// Works in the buffers that this thread keeps for calls that are not given any.
pub(crate) fn with_kept<T>(work: impl FnOnce(&mut Workspace) -> T) -> T {
    let mut kept = KEPT.take();
    let said = work(&mut kept);
    KEPT.set(kept);
    said
}

/// Gives back the memory that this thread keeps for [`Net`](crate::Net) and [`edge_op`](crate::edge_op), which are not lent a [`Workspace`].
pub fn release_kept() {
    KEPT.set(Workspace::default());
}
