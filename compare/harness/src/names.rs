//! The Rust crate's module `edge_op`, a side of its own: each of its functions on the Rust's own `ManifoldImpl`, beside the Rust's function of the same name on the
//! same mesh. Where it is done, the Rust returns and every field is the same, bit for bit, `original_id` among them; where it is refused, the mesh is as it was,
//! and the refusal is the one owed with room to the bounds; of a net that is not sound with the clause that the row breaks, as the second reading has it.

use crate::chance::Chance;
use crate::entries::{self, Entry};
use crate::lent::{Asked, Lent, Said};
use crate::{nets, reading};
use original::edge_op as theirs;
use original::impl_mesh::ManifoldImpl;
use original::types::{Halfedge, TriRef};
use spoonferret::{edge_op as ours, NetMut, Refusal};

spoonferret::layout! {
    /// The rows of the Rust's mesh.
    pub struct Rows;
    halfedge: Halfedge { start_vert, end_vert, paired_halfedge, prop_vert },
    vector: original::linalg::Vec3 { x, y, z },
    reference: TriRef { mesh_id, coplanar_id, face_id },
}

impl ours::Mesh<Rows> for ManifoldImpl {
    fn net(&mut self) -> NetMut<'_, Rows> {
        NetMut {
            halfedges: &mut self.halfedge,
            positions: &mut self.vert_pos,
            normals: &mut self.face_normal,
            references: &mut self.mesh_relation.tri_ref,
            properties: &self.properties,
            num_prop: self.num_prop,
        }
    }

    fn epsilon(&self) -> f64 {
        self.epsilon
    }
}

type Ours = fn(&mut ManifoldImpl, &Asked) -> Result<bool, Refusal>;
type Theirs = fn(&mut ManifoldImpl, &Asked) -> bool;

/// A half-edge's number as the Rust takes it.
fn at(asked: &Asked, k: usize) -> usize {
    asked.numbers[k] as usize
}

fn triangle(asked: &Asked) -> [usize; 3] {
    spoonferret::tri_of(asked.numbers[0]).map_or([usize::MAX; 3], |tri| tri.map(|h| h as usize))
}

/// By the entry's name: the function here and the Rust's, from what the entry is asked. Both say whether the edge is gone, which is collapse_edge's to say.
const NAMES: &[(&str, Ours, Theirs)] = &[
    ("pair_up", |m, a| ours::pair_up(&mut m.halfedge, at(a, 0), at(a, 1)).map(|()| true), |m, a| {
        theirs::pair_up(&mut m.halfedge, at(a, 0), at(a, 1));
        true
    }),
    ("update_vert", |m, a| ours::update_vert(m, a.numbers[0], at(a, 1), at(a, 2)).map(|()| true), |m, a| {
        theirs::update_vert(m, a.numbers[0], at(a, 1), at(a, 2));
        true
    }),
    ("collapse_tri", |m, a| ours::collapse_tri(m, triangle(a)).map(|()| true), |m, a| {
        theirs::collapse_tri(&mut m.halfedge, triangle(a));
        true
    }),
    ("remove_if_folded", |m, a| ours::remove_if_folded(m, at(a, 0)).map(|()| true), |m, a| {
        theirs::remove_if_folded(m, at(a, 0));
        true
    }),
    ("form_loop", |m, a| ours::form_loop(m, at(a, 0), at(a, 1)).map(|()| true), |m, a| {
        theirs::form_loop(m, at(a, 0), at(a, 1));
        true
    }),
    ("split_pinched_verts", |m, _| ours::split_pinched_verts(m).map(|()| true), |m, _| {
        theirs::split_pinched_verts(m);
        true
    }),
    ("dedupe_edge", |m, a| ours::dedupe_edge(m, at(a, 0)).map(|()| true), |m, a| {
        theirs::dedupe_edge(m, at(a, 0));
        true
    }),
    ("dedupe_edges", |m, _| ours::dedupe_edges(m).map(|()| true), |m, _| {
        theirs::dedupe_edges(m);
        true
    }),
    ("cleanup_topology", |m, _| ours::cleanup_topology(m).map(|()| true), |m, _| {
        theirs::cleanup_topology(m);
        true
    }),
    (
        "collapse_edge",
        |m, a| ours::collapse_edge(m, at(a, 0), &mut vec![], f64::from_bits(a.floats[0]), a.numbers[1]),
        |m, a| theirs::collapse_edge(m, at(a, 0), &mut vec![], f64::from_bits(a.floats[0]), a.numbers[1]),
    ),
];

/// Where two meshes differ, if they do: bit for bit.
fn differ(said: &ManifoldImpl, owed: &ManifoldImpl) -> Option<String> {
    fn first<T, U: PartialEq + std::fmt::Debug>(name: &str, said: &[T], owed: &[T], of: impl Fn(&T) -> U) -> Option<String> {
        let i = (0..said.len().max(owed.len())).find(|&i| said.get(i).map(&of) != owed.get(i).map(&of))?;
        Some(format!("{name}[{i}]: {:?}, owed {:?}", said.get(i).map(&of), owed.get(i).map(&of)))
    }
    let bits = |v: &original::linalg::Vec3| [v.x.to_bits(), v.y.to_bits(), v.z.to_bits()];
    first("halfedge", &said.halfedge, &owed.halfedge, |h| *h)
        .or_else(|| first("vert_pos", &said.vert_pos, &owed.vert_pos, bits))
        .or_else(|| first("face_normal", &said.face_normal, &owed.face_normal, bits))
        .or_else(|| first("tri_ref", &said.mesh_relation.tri_ref, &owed.mesh_relation.tri_ref, |r| *r))
        .or_else(|| first("properties", &said.properties, &owed.properties, |x| x.to_bits()))
}

/// The rows in use alone, with free rows for whatever the Rust appends, to the bounds where `all`; and buffers that are long enough.
fn roomy(net: &Lent, all: bool) -> Lent {
    let chance = &mut Chance::new(1);
    let mut l = nets::bare(net);
    let room = if all { 1_000_001 } else { l.used.halfedges + 2 };
    nets::add_room(&mut l, room, room, chance);
    entries::lend_enough(&mut l, chance);
    l
}

/// What the module's function of this entry said, and how it differs from what is owed; nothing where there is none, or the net is not one that vectors can hold.
pub fn beside(entry: &Entry, net: &Lent, asked: &Asked) -> Option<(u32, Option<String>)> {
    let (_, ours, theirs) = NAMES.iter().find(|(name, ..)| *name == entry.name)?;
    if reading::misshapen(net) || net.used.num_prop == 0 && net.used.properties > 0 {
        return None;
    }
    let mut before = reading::mesh_of(net);
    before.epsilon = asked.floats.get(1).map_or(0.0, |&bits| f64::from_bits(bits));
    for (t, reference) in before.mesh_relation.tri_ref.iter_mut().enumerate() {
        reference.original_id = 1000 + t as i32;
    }
    let mut mesh = before.clone();
    let said = ours(&mut mesh, asked);
    let number = said.map_or_else(|refusal| refusal.number(), |_| 0);
    let wrong = match said {
        Ok(said) => {
            let rows = net.used.halfedges as u64;
            let moves = match entry.name {
                "collapse_edge" => 100 + 10 * rows * rows.min(1_000),
                "dedupe_edge" | "dedupe_edges" | "cleanup_topology" => u64::MAX,
                _ => 100 + 10 * rows,
            };
            original::moves::allow(moves);
            let owed = reading::caught(|| theirs(&mut before, asked));
            original::moves::allow(u64::MAX);
            match owed {
                None => Some("done, and the Rust does not return".into()),
                Some(owed) if owed != said => Some(format!("said {said}, the Rust {owed}")),
                Some(_) => differ(&mesh, &before),
            }
        }
        Err(refusal) => {
            let owed = (entry.owed)(&mut roomy(net, refusal == Refusal::NoRoom), asked);
            let values = match refusal {
                Refusal::Unsound { row, .. } => Said::with(3, &[row as u64]).values,
                Refusal::Long { squared_length, limit } => vec![squared_length.to_bits(), limit.to_bits()],
                _ => vec![],
            };
            let carried = if values.is_empty() { true } else { owed.values.ends_with(&values) || owed.values.starts_with(&values) };
            let explained = match refusal {
                Refusal::Unsound { row, clause } => reading::clause(net, row) == (clause.number(), clause.row()),
                _ => true,
            };
            if owed.number != number || !carried || !explained {
                Some(format!("refused by {refusal}, owed {owed:?}"))
            } else {
                differ(&mesh, &before)
            }
        }
    };
    Some((number, wrong.map(|wrong| format!("edge_op::{}: {wrong}", entry.name))))
}
