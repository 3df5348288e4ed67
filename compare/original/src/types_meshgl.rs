// Stand-in.

pub trait MeshIndex {}

pub trait MeshPrecision {}

#[derive(Clone, Debug, Default)]
pub struct MeshGLP;

pub type MeshGL = MeshGLP;

pub type MeshGL64 = MeshGLP;
