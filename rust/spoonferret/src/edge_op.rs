//! The Rust's own names: the functions of manifold-rust's `edge_op` with the same arguments, over any mesh whose type says where its rows are. A program that holds a
//! `ManifoldImpl` writes [`layout!`](crate::layout) and [`Mesh`] once, and then changes its `use` lines; docs/MIGRATING.md goes through it function by function.
//!
//! Each function here returns a `Result`: where the Rust would have panicked, run for ever or worked on a net that is not sound, it is refused, and the mesh is as it
//! was. Where the Rust returns without a word because the half-edge is dead, so does the function here. Each call reads the whole net first, to refuse one that is not sound: its
//! time is linear in the net.
//!
//! The work buffers are kept by the thread ([`release_kept`](crate::release_kept) gives them back): a second call allocates nothing.

use crate::lending::halfedges_alone;
use crate::workspace::with_kept;
use crate::{HalfedgeRow, Layout, NetMut, Refusal};

/// A mesh that holds a net: where its rows are, and its epsilon. `L` is the layout that [`layout!`](crate::layout) made, so the mesh may be another crate's type.
///
/// ```
/// use spoonferret::{edge_op, layout, Halfedge, NetMut, Reference, Vec3};
///
/// #[derive(Default)]
/// struct Mesh { epsilon: f64, num_prop: usize, vert_pos: Vec<Vec3>, halfedge: Vec<Halfedge>, properties: Vec<f64>, face_normal: Vec<Vec3>, tri_ref: Vec<Reference> }
///
/// layout! {
///     struct Rows;
///     halfedge: Halfedge { start_vert, end_vert, paired_halfedge, prop_vert },
///     vector: Vec3 { x, y, z },
///     reference: Reference { mesh_id, coplanar_id, face_id },
/// }
///
/// impl edge_op::Mesh<Rows> for Mesh {
///     fn net(&mut self) -> NetMut<'_, Rows> {
///         NetMut {
///             halfedges: &mut self.halfedge,
///             positions: &mut self.vert_pos,
///             normals: &mut self.face_normal,
///             references: &mut self.tri_ref,
///             properties: &self.properties,
///             num_prop: self.num_prop,
///         }
///     }
///
///     fn epsilon(&self) -> f64 {
///         self.epsilon
///     }
/// }
///
/// let mut mesh = Mesh::default();
/// edge_op::split_pinched_verts(&mut mesh)?;
/// # Ok::<(), spoonferret::Refusal>(())
/// ```
pub trait Mesh<L: Layout> {
    /// The mesh's rows.
    fn net(&mut self) -> NetMut<'_, L>;

    /// The length below which an edge of old vertices is short.
    fn epsilon(&self) -> f64;
}

/// A number of the Rust's as the library takes it; one that no half-edge has stays one that none has.
fn number(edge: usize) -> i32 {
    i32::try_from(edge).unwrap_or(-1)
}

/// Where the Rust returns without a word at a dead half-edge, so does this.
fn unless_dead<T>(said: Result<T, Refusal>, dead: T) -> Result<T, Refusal> {
    match said {
        Err(Refusal::Dead) => Ok(dead),
        said => said,
    }
}

/// Pairs two half-edges.
///
/// # Errors
///
/// `Shape` where the slice is no multiple of 3 or longer than 3,000,000; `Number` for a half-edge beyond it.
pub fn pair_up<L: Layout, H: HalfedgeRow<L>>(halfedge: &mut [H], e0: usize, e1: usize) -> Result<(), Refusal> {
    let told = call!(spoonferret_pair_up, halfedges_alone(halfedge), number(e0), number(e1));
    Refusal::unless_done(told.number, ())
}

/// Goes from `start_edge` to `end_edge` about the vertex where they end and sets `vert` on the way.
///
/// # Errors
///
/// `Shape`; `Unsound`; `Number` where `vert` is no vertex of the mesh or a half-edge is none of its; `Dead`; `Stopped` where the walk does not come to `end_edge`.
pub fn update_vert<L: Layout>(mesh: &mut impl Mesh<L>, vert: i32, start_edge: usize, end_edge: usize) -> Result<(), Refusal> {
    mesh.net().update_vert(vert, number(start_edge), number(end_edge))
}

/// Duplicates the ends of two half-edges between the same two vertices, and joins the mesh the other way across them.
///
/// # Errors
///
/// `Shape`; `Unsound`; `Number`; `Dead`; `NoRoom` at the bound of 1,000,000 vertices; `Stopped` where a walk from one to the other does not come there.
pub fn form_loop<L: Layout>(mesh: &mut impl Mesh<L>, current: usize, end: usize) -> Result<(), Refusal> {
    with_kept(|work| mesh.net().form_loop(work, number(current), number(end)))
}

/// Takes a triangle out, whose half-edges are `tri_edge`: a half-edge, the next and the next of that. Unlike the Rust's it takes the mesh and not its half-edges
/// alone: whether they are sound is a matter of its vertices too. A triangle that is dead already stays so.
///
/// # Errors
///
/// `Shape`; `Unsound`; `Number` where a half-edge is none of the mesh's or the three are not a triangle in this order.
pub fn collapse_tri<L: Layout>(mesh: &mut impl Mesh<L>, tri_edge: [usize; 3]) -> Result<(), Refusal> {
    let first = number(tri_edge[0]);
    let in_order = crate::tri_of(first).is_ok_and(|tri| tri == tri_edge.map(number));
    unless_dead(mesh.net().collapse_tri(if in_order { first } else { -1 }), ())
}

/// Takes out the two triangles at an edge where they lie on one another. At a dead half-edge nothing is done.
///
/// # Errors
///
/// `Shape`; `Unsound`; `Number`.
pub fn remove_if_folded<L: Layout>(mesh: &mut impl Mesh<L>, edge: usize) -> Result<(), Refusal> {
    unless_dead(mesh.net().remove_if_folded(number(edge)), ())
}

/// Gives each fan a start vertex of its own.
///
/// # Errors
///
/// `Shape`; `Unsound`; `NoRoom` at the bound of 1,000,000 vertices.
pub fn split_pinched_verts<L: Layout>(mesh: &mut impl Mesh<L>) -> Result<(), Refusal> {
    with_kept(|work| mesh.net().split_pinched_verts(work).map(|_| ()))
}

/// Takes a duplicate edge apart. At a dead half-edge nothing is done.
///
/// # Errors
///
/// `Shape`; `Unsound`; `Number`; `NoRoom` at the bounds of 1,000,000 triangles and vertices.
pub fn dedupe_edge<L: Layout>(mesh: &mut impl Mesh<L>, edge: usize) -> Result<(), Refusal> {
    with_kept(|work| unless_dead(mesh.net().dedupe_edge(work, number(edge)), ()))
}

/// Takes the duplicate edges apart, in rounds.
///
/// # Errors
///
/// `Shape`; `Unsound`; `NoRoom` at the bounds of 1,000,000 triangles and vertices.
pub fn dedupe_edges<L: Layout>(mesh: &mut impl Mesh<L>) -> Result<(), Refusal> {
    with_kept(|work| mesh.net().dedupe_edges(work))
}

/// Splits, and then takes the duplicate edges apart.
///
/// # Errors
///
/// `Shape`; `Unsound`; `NoRoom` at the bounds of 1,000,000 triangles and vertices.
pub fn cleanup_topology<L: Layout>(mesh: &mut impl Mesh<L>) -> Result<(), Refusal> {
    with_kept(|work| mesh.net().cleanup_topology(work))
}

/// Takes a short edge out, by the mesh's epsilon: `Ok(true)`; `Ok(false)` at a dead half-edge, as the Rust says it. `scratch` is not looked at and stays as it is: the list
/// of neighbours is one of the kept buffers.
///
/// # Errors
///
/// `Long` where the edge is not short: what the Rust does then is not here yet. `Shape`; `Unsound`; `Number`; `NoRoom` at the bound of 1,000,000 vertices; `Stopped` where a walk
/// does not end.
pub fn collapse_edge<L: Layout>(mesh: &mut impl Mesh<L>, edge: usize, scratch: &mut Vec<usize>, tol: f64, first_new_vert: i32) -> Result<bool, Refusal> {
    let _ = scratch;
    let epsilon = mesh.epsilon();
    let said = with_kept(|work| mesh.net().collapse_edge(work, number(edge), first_new_vert, tol, epsilon));
    unless_dead(said.map(|()| true), false)
}
