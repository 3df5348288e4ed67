//! Stand-in: the fields that edge_op.rs reads and writes.

use crate::linalg::Vec3;
use crate::types::{Halfedge, MeshRelationD};

#[derive(Clone, Debug, Default)]
pub struct ManifoldImpl {
    pub epsilon: f64,
    pub tolerance: f64,
    pub num_prop: usize,
    pub vert_pos: Vec<Vec3>,
    pub halfedge: Vec<Halfedge>,
    pub properties: Vec<f64>,
    pub face_normal: Vec<Vec3>,
    pub mesh_relation: MeshRelationD,
}
