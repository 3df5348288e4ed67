//! The original Rust, reached: the unchanged files, the stand-ins (README.md says which), and a way in to what is private.
#![allow(dead_code, unused_imports, clippy::all)]

pub mod cancel;
pub mod face_op;
pub mod impl_mesh;
pub mod linalg;
pub mod math;
pub mod moves;
pub mod par;
pub mod polygon;

mod types_unchanged {
    include!("types.rs");
}

/// types.rs, with next_halfedge counted.
pub mod types {
    pub use crate::types_unchanged::*;

    #[inline(always)]
    pub fn next_halfedge(current: i32) -> i32 {
        crate::moves::count();
        crate::types_unchanged::next_halfedge(current)
    }
}

pub mod edge_op {
    include!("edge_op.rs");

    /// What is private in edge_op.rs and edge_op_orbits.rs.
    pub mod private {
        use super::*;

        pub fn tri_of(edge: usize) -> [usize; 3] {
            super::tri_of(edge)
        }

        pub fn is_still_duplicated(mesh: &ManifoldImpl, edge: usize) -> bool {
            super::is_still_duplicated(mesh, edge)
        }

        pub fn orbit_owners(halfedge: &[Halfedge], both_ends: bool) -> Option<Vec<usize>> {
            super::orbit_owners(halfedge, 0, move |h| h.start_vert >= 0 && (!both_ends || h.end_vert >= 0))
        }

        pub fn dedupe_orbit(mesh: &ManifoldImpl, i: usize) -> Vec<usize> {
            let mut duplicates = Vec::new();
            super::dedupe_orbit(mesh, i, mesh.halfedge.len(), |_| {}, &mut duplicates);
            duplicates
        }
    }
}

/// Runs f where rayon has one thread, f among what it runs.
#[cfg(feature = "parallel")]
pub fn on_one_thread<T: Send>(f: impl FnOnce() -> T + Send) -> T {
    rayon::ThreadPoolBuilder::new().num_threads(1).build().expect("a thread").install(f)
}
