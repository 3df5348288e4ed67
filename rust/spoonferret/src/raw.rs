//! The functions of the static library, as include/spoonferret.h declares them, for a caller that keeps arrays of its own. What a caller
//! owes stands there.

use crate::Vec3;

/// `spoonferret_used`
#[repr(C)]
#[derive(Clone, Copy, Debug)]
pub struct Used {
    /// half-edge rows in use
    pub halfedges: usize,
    /// vertex rows in use
    pub vertices: usize,
    /// normal rows in use
    pub normals: usize,
    /// reference rows in use
    pub references: usize,
    /// property rows in use
    pub properties: usize,
    /// numbers in a property row
    pub num_prop: usize,
}

/// `spoonferret_answer`
#[repr(C)]
#[derive(Clone, Copy, Debug)]
pub struct Answer {
    /// the answer's number
    pub number: u32,
}

/// `spoonferret_next_answer`
#[repr(C)]
#[derive(Clone, Copy, Debug)]
pub struct NextAnswer {
    /// the answer's number
    pub number: u32,
    /// the next half-edge
    pub next: i32,
}

/// `spoonferret_tri_answer`
#[repr(C)]
#[derive(Clone, Copy, Debug)]
pub struct TriAnswer {
    /// the answer's number
    pub number: u32,
    /// the first half-edge
    pub first: i32,
    /// the second
    pub second: i32,
    /// the third
    pub third: i32,
}

/// `spoonferret_length_answer`
#[repr(C)]
#[derive(Clone, Copy, Debug)]
pub struct LengthAnswer {
    /// the answer's number
    pub number: u32,
    /// the squared length's bits
    pub squared_length: u64,
    /// the limit's bits
    pub limit: u64,
}

/// `spoonferret_row_answer`
#[repr(C)]
#[derive(Clone, Copy, Debug)]
pub struct RowAnswer {
    /// the answer's number
    pub number: u32,
    /// the least row that is not in order
    pub row: usize,
}

/// `spoonferret_update_answer`
#[repr(C)]
#[derive(Clone, Copy, Debug)]
pub struct UpdateAnswer {
    /// the answer's number
    pub number: u32,
    /// the least row that is not in order
    pub row: usize,
}

/// `spoonferret_split_answer`
#[repr(C)]
#[derive(Clone, Copy, Debug)]
pub struct SplitAnswer {
    /// the answer's number
    pub number: u32,
    /// the least row that is not in order
    pub row: usize,
    /// vertices copied
    pub added: usize,
    /// half-edges visited
    pub steps: usize,
}

/// `spoonferret_owners_answer`
#[repr(C)]
#[derive(Clone, Copy, Debug)]
pub struct OwnersAnswer {
    /// the answer's number
    pub number: u32,
    /// half-edges listed
    pub count: usize,
}

/// `spoonferret_loop_answer`
#[repr(C)]
#[derive(Clone, Copy, Debug)]
pub struct LoopAnswer {
    /// the answer's number
    pub number: u32,
    /// the least row that is not in order
    pub row: usize,
    /// vertex rows in use
    pub vertices: usize,
}

/// `spoonferret_dedupe_edge_answer`
#[repr(C)]
#[derive(Clone, Copy, Debug)]
pub struct DedupeEdgeAnswer {
    /// the answer's number
    pub number: u32,
    /// the least row that is not in order
    pub row: usize,
    /// half-edge rows in use
    pub halfedges: usize,
    /// vertex rows in use
    pub vertices: usize,
}

/// `spoonferret_dedupe_edges_answer`
#[repr(C)]
#[derive(Clone, Copy, Debug)]
pub struct DedupeEdgesAnswer {
    /// the answer's number
    pub number: u32,
    /// the least row that is not in order
    pub row: usize,
    /// half-edge rows in use
    pub halfedges: usize,
    /// vertex rows in use
    pub vertices: usize,
}

/// `spoonferret_cleanup_topology_answer`
#[repr(C)]
#[derive(Clone, Copy, Debug)]
pub struct CleanupTopologyAnswer {
    /// the answer's number
    pub number: u32,
    /// the least row that is not in order
    pub row: usize,
    /// half-edge rows in use
    pub halfedges: usize,
    /// vertex rows in use
    pub vertices: usize,
}

/// `spoonferret_collapse_edge_answer`
#[repr(C)]
#[derive(Clone, Copy, Debug)]
pub struct CollapseEdgeAnswer {
    /// the answer's number
    pub number: u32,
    /// the least row that is not in order
    pub row: usize,
    /// vertex rows in use
    pub vertices: usize,
    /// the squared length's bits
    pub squared_length: u64,
    /// the limit's bits
    pub limit: u64,
}

/// `spoonferret_explain_answer`
#[repr(C)]
pub struct ExplainAnswer {
    /// the answer
    pub number: u32,
    /// the first clause that the row breaks, 0 for none
    pub clause: u32,
    /// the other row that this concerns
    pub other: usize,
}

extern "C" {
    /// `spoonferret_next_halfedge`
    pub fn spoonferret_next_halfedge(h: i32) -> NextAnswer;

    /// `spoonferret_tri_of`
    pub fn spoonferret_tri_of(h: i32) -> TriAnswer;

    /// `spoonferret_short_test`
    pub fn spoonferret_short_test(
        from: Vec3,
        to: Vec3,
        end_vert: i32,
        first_new_vert: i32,
        tol: f64,
        epsilon: f64,
    ) -> LengthAnswer;

    /// `spoonferret_check_net`
    pub fn spoonferret_check_net(
        used: Used,
        halfedges: *const i32,
        halfedges_length: usize,
        positions: *const u64,
        positions_length: usize,
        normals: *const u64,
        normals_length: usize,
        references: *const i32,
        references_length: usize,
        properties: *const u64,
        properties_length: usize,
    ) -> RowAnswer;

    /// `spoonferret_explain_row`
    pub fn spoonferret_explain_row(
        used: Used,
        halfedges: *const i32,
        halfedges_length: usize,
        positions: *const u64,
        positions_length: usize,
        normals: *const u64,
        normals_length: usize,
        references: *const i32,
        references_length: usize,
        properties: *const u64,
        properties_length: usize,
        row: i32,
    ) -> ExplainAnswer;

    /// `spoonferret_pair_up`
    pub fn spoonferret_pair_up(
        used: Used,
        halfedges: *mut i32,
        halfedges_length: usize,
        positions: *const u64,
        positions_length: usize,
        normals: *const u64,
        normals_length: usize,
        references: *const i32,
        references_length: usize,
        properties: *const u64,
        properties_length: usize,
        first: i32,
        second: i32,
    ) -> Answer;

    /// `spoonferret_update_vert`
    pub fn spoonferret_update_vert(
        used: Used,
        halfedges: *mut i32,
        halfedges_length: usize,
        positions: *const u64,
        positions_length: usize,
        normals: *const u64,
        normals_length: usize,
        references: *const i32,
        references_length: usize,
        properties: *const u64,
        properties_length: usize,
        vertex: i32,
        start: i32,
        end: i32,
    ) -> UpdateAnswer;

    /// `spoonferret_collapse_tri`
    pub fn spoonferret_collapse_tri(
        used: Used,
        halfedges: *mut i32,
        halfedges_length: usize,
        positions: *const u64,
        positions_length: usize,
        normals: *const u64,
        normals_length: usize,
        references: *const i32,
        references_length: usize,
        properties: *const u64,
        properties_length: usize,
        halfedge: i32,
    ) -> RowAnswer;

    /// `spoonferret_remove_if_folded`
    pub fn spoonferret_remove_if_folded(
        used: Used,
        halfedges: *mut i32,
        halfedges_length: usize,
        positions: *mut u64,
        positions_length: usize,
        normals: *const u64,
        normals_length: usize,
        references: *const i32,
        references_length: usize,
        properties: *const u64,
        properties_length: usize,
        halfedge: i32,
    ) -> RowAnswer;

    /// `spoonferret_form_loop`
    pub fn spoonferret_form_loop(
        used: Used,
        halfedges: *mut i32,
        halfedges_length: usize,
        positions: *mut u64,
        positions_length: usize,
        normals: *const u64,
        normals_length: usize,
        references: *const i32,
        references_length: usize,
        properties: *const u64,
        properties_length: usize,
        spare_halfedges: *mut i32,
        spare_halfedges_length: usize,
        spare_positions: *mut u64,
        spare_positions_length: usize,
        first: i32,
        second: i32,
    ) -> LoopAnswer;

    /// `spoonferret_orbit_owners`
    pub fn spoonferret_orbit_owners(
        used: Used,
        halfedges: *const i32,
        halfedges_length: usize,
        positions: *const u64,
        positions_length: usize,
        normals: *const u64,
        normals_length: usize,
        references: *const i32,
        references_length: usize,
        properties: *const u64,
        properties_length: usize,
        work: *mut u8,
        work_length: usize,
        list: *mut u32,
        list_length: usize,
        end_too: bool,
    ) -> OwnersAnswer;

    /// `spoonferret_split_pinched_verts`
    pub fn spoonferret_split_pinched_verts(
        used: Used,
        halfedges: *mut i32,
        halfedges_length: usize,
        positions: *mut u64,
        positions_length: usize,
        normals: *const u64,
        normals_length: usize,
        references: *const i32,
        references_length: usize,
        properties: *const u64,
        properties_length: usize,
        work: *mut u32,
        work_length: usize,
        visit: *mut u32,
        visit_length: usize,
    ) -> SplitAnswer;

    /// `spoonferret_dedupe_edge`
    pub fn spoonferret_dedupe_edge(
        used: Used,
        halfedges: *mut i32,
        halfedges_length: usize,
        positions: *mut u64,
        positions_length: usize,
        normals: *mut u64,
        normals_length: usize,
        references: *mut i32,
        references_length: usize,
        properties: *const u64,
        properties_length: usize,
        spare_halfedges: *mut i32,
        spare_halfedges_length: usize,
        spare_positions: *mut u64,
        spare_positions_length: usize,
        halfedge: i32,
    ) -> DedupeEdgeAnswer;

    /// `spoonferret_dedupe_edges`
    pub fn spoonferret_dedupe_edges(
        used: Used,
        halfedges: *mut i32,
        halfedges_length: usize,
        positions: *mut u64,
        positions_length: usize,
        normals: *mut u64,
        normals_length: usize,
        references: *mut i32,
        references_length: usize,
        properties: *const u64,
        properties_length: usize,
        spare_halfedges: *mut i32,
        spare_halfedges_length: usize,
        spare_positions: *mut u64,
        spare_positions_length: usize,
        work: *mut u32,
        work_length: usize,
        list: *mut u32,
        list_length: usize,
    ) -> DedupeEdgesAnswer;

    /// `spoonferret_cleanup_topology`
    pub fn spoonferret_cleanup_topology(
        used: Used,
        halfedges: *mut i32,
        halfedges_length: usize,
        positions: *mut u64,
        positions_length: usize,
        normals: *mut u64,
        normals_length: usize,
        references: *mut i32,
        references_length: usize,
        properties: *const u64,
        properties_length: usize,
        spare_halfedges: *mut i32,
        spare_halfedges_length: usize,
        spare_positions: *mut u64,
        spare_positions_length: usize,
        work: *mut u32,
        work_length: usize,
        list: *mut u32,
        list_length: usize,
    ) -> CleanupTopologyAnswer;

    /// `spoonferret_collapse_edge`
    pub fn spoonferret_collapse_edge(
        used: Used,
        halfedges: *mut i32,
        halfedges_length: usize,
        positions: *mut u64,
        positions_length: usize,
        normals: *const u64,
        normals_length: usize,
        references: *const i32,
        references_length: usize,
        properties: *const u64,
        properties_length: usize,
        spare_halfedges: *mut i32,
        spare_halfedges_length: usize,
        spare_positions: *mut u64,
        spare_positions_length: usize,
        list: *mut u32,
        list_length: usize,
        halfedge: i32,
        first_new_vert: i32,
        tol: f64,
        epsilon: f64,
    ) -> CollapseEdgeAnswer;
}
