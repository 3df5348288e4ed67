//! The rows of a net, laid out as the library reads them.

/// A half-edge row. Its fields are those of the Rust crate's `Halfedge`.
///
/// ```
/// use spoonferret::Halfedge;
/// let row = Halfedge::new(0, 1, 3, -1);
/// let (start_vert, end_vert, paired_halfedge, prop_vert) = row.into();
/// assert_eq!(Halfedge::from((start_vert, end_vert, paired_halfedge, prop_vert)), row);
/// ```
#[repr(C)]
#[derive(Clone, Copy, Debug, Default, PartialEq, Eq)]
pub struct Halfedge {
    /// The vertex where it starts, or -1.
    pub start_vert: i32,
    /// The vertex where it ends, or -1.
    pub end_vert: i32,
    /// Its partner, the half-edge that runs the other way along the same edge, or -1.
    pub paired_halfedge: i32,
    /// The property row of its corner.
    pub prop_vert: i32,
}

impl Halfedge {
    /// The numbers in a row.
    pub const NUMBERS: usize = std::mem::size_of::<Halfedge>() / std::mem::size_of::<i32>();

    /// A row of these fields.
    pub fn new(start_vert: i32, end_vert: i32, paired_halfedge: i32, prop_vert: i32) -> Self {
        Halfedge { start_vert, end_vert, paired_halfedge, prop_vert }
    }
}

impl From<(i32, i32, i32, i32)> for Halfedge {
    fn from((start_vert, end_vert, paired_halfedge, prop_vert): (i32, i32, i32, i32)) -> Self {
        Halfedge { start_vert, end_vert, paired_halfedge, prop_vert }
    }
}

impl From<Halfedge> for (i32, i32, i32, i32) {
    fn from(h: Halfedge) -> Self {
        (h.start_vert, h.end_vert, h.paired_halfedge, h.prop_vert)
    }
}

/// A position or a normal. Its fields are those of the Rust crate's `Vec3`; the bits of a NaN stay as they are.
#[repr(C)]
#[derive(Clone, Copy, Debug, Default, PartialEq)]
pub struct Vec3 {
    /// The first coordinate.
    pub x: f64,
    /// The second coordinate.
    pub y: f64,
    /// The third coordinate.
    pub z: f64,
}

impl Vec3 {
    /// A vector of these coordinates.
    pub fn new(x: f64, y: f64, z: f64) -> Self {
        Vec3 { x, y, z }
    }
}

impl From<[f64; 3]> for Vec3 {
    fn from([x, y, z]: [f64; 3]) -> Self {
        Vec3 { x, y, z }
    }
}

impl From<Vec3> for [f64; 3] {
    fn from(v: Vec3) -> Self {
        [v.x, v.y, v.z]
    }
}

/// A face reference: the three fields of the Rust crate's `TriRef` by which two triangles are the same face. The fourth,
/// `original_id`, is not carried.
///
/// ```
/// use spoonferret::Reference;
/// // mesh_id, original_id, face_id, coplanar_id, in the order of `TriRef`
/// let reference = Reference::from_tri_ref(1, 9, 2, 3);
/// assert_eq!(reference, Reference { mesh_id: 1, coplanar_id: 3, face_id: 2 });
/// assert_eq!(reference.to_tri_ref(9), (1, 9, 2, 3));
/// ```
#[repr(C)]
#[derive(Clone, Copy, Debug, Default, PartialEq, Eq)]
pub struct Reference {
    /// The mesh instance that the triangle belongs to.
    pub mesh_id: i32,
    /// Triangles in one plane have it in common.
    pub coplanar_id: i32,
    /// The face of the source.
    pub face_id: i32,
}

impl Reference {
    /// From the fields of a `TriRef`, in its order; `original_id` is dropped.
    pub fn from_tri_ref(mesh_id: i32, _original_id: i32, face_id: i32, coplanar_id: i32) -> Self {
        Reference { mesh_id, coplanar_id, face_id }
    }

    /// To the fields of a `TriRef`, in its order, with the `original_id` that the caller kept.
    pub fn to_tri_ref(self, original_id: i32) -> (i32, i32, i32, i32) {
        (self.mesh_id, original_id, self.face_id, self.coplanar_id)
    }
}
