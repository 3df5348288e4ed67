//! A net over vectors of other types than the crate's own, and buffers that are kept: the same as `Net` does, bit for bit, and a second call that allocates
//! nothing.

use spoonferret::{edge_op, layout, Clause, Eligible, Net, NetMut, Refusal, Workspace};
use std::alloc::{GlobalAlloc, Layout, System};
use std::cell::Cell;

thread_local! {
    static ALLOCATIONS: Cell<usize> = const { Cell::new(0) };
}

/// Counts what this thread allocates.
struct Counting;

// SAFETY: the system's, with a count beside it
unsafe impl GlobalAlloc for Counting {
    unsafe fn alloc(&self, layout: Layout) -> *mut u8 {
        ALLOCATIONS.with(|n| n.set(n.get() + 1));
        System.alloc(layout)
    }

    unsafe fn realloc(&self, at: *mut u8, layout: Layout, size: usize) -> *mut u8 {
        ALLOCATIONS.with(|n| n.set(n.get() + 1));
        System.realloc(at, layout, size)
    }

    unsafe fn dealloc(&self, at: *mut u8, layout: Layout) {
        System.dealloc(at, layout)
    }
}

#[global_allocator]
static COUNTING: Counting = Counting;

fn allocations() -> usize {
    ALLOCATIONS.with(Cell::get)
}

#[derive(Clone, Copy, Debug, PartialEq)]
struct Edge {
    from: i32,
    to: i32,
    twin: i32,
    prop: i32,
}

#[derive(Clone, Copy, Debug, PartialEq)]
#[repr(C)]
struct Point(f64, f64, f64);

/// As the Rust's `TriRef`, and a field that only a copy of the whole can keep.
#[derive(Clone, Copy, Debug, PartialEq)]
struct TriRef {
    mesh_id: i32,
    original_id: i32,
    face_id: i32,
    coplanar_id: i32,
    mark: char,
}

layout! {
    struct Rows;
    halfedge: Edge { from, to, twin, prop },
    vector: Point { 0, 1, 2 },
    reference: TriRef { mesh_id, coplanar_id, face_id },
}

#[derive(Clone, Debug, Default, PartialEq)]
struct Mesh {
    epsilon: f64,
    num_prop: usize,
    points: Vec<Point>,
    edges: Vec<Edge>,
    properties: Vec<f64>,
    normals: Vec<Point>,
    references: Vec<TriRef>,
}

impl edge_op::Mesh<Rows> for Mesh {
    fn net(&mut self) -> NetMut<'_, Rows> {
        NetMut {
            halfedges: &mut self.edges,
            positions: &mut self.points,
            normals: &mut self.normals,
            references: &mut self.references,
            properties: &self.properties,
            num_prop: self.num_prop,
        }
    }

    fn epsilon(&self) -> f64 {
        self.epsilon
    }
}

fn mesh(rows: &[[i32; 3]], vertices: usize) -> Mesh {
    Mesh {
        edges: rows.iter().enumerate().map(|(h, r)| Edge { from: r[0], to: r[1], twin: r[2], prop: 100 + h as i32 }).collect(),
        points: (0..vertices).map(|v| Point(v as f64, 0.5, -1.0)).collect(),
        ..Mesh::default()
    }
}

/// Each triangle's reference and normal by its number.
fn dressed(mut mesh: Mesh) -> Mesh {
    let triangles = mesh.edges.len() as i32 / 3;
    let reference = |t: i32| TriRef { mesh_id: t / 2, original_id: 1000 + t, face_id: 7, coplanar_id: -t, mark: char::from(b'a' + t as u8) };
    mesh.references = (0..triangles).map(reference).collect();
    mesh.normals = (0..triangles).map(|t| Point(0.0, 0.0, f64::from(t))).collect();
    mesh.properties = vec![0.0; 8];
    mesh.num_prop = 1;
    mesh
}

fn owned(mesh: &Mesh) -> Net {
    let vector = |p: &Point| spoonferret::Vec3::new(p.0, p.1, p.2);
    Net {
        halfedges: mesh.edges.iter().map(|e| spoonferret::Halfedge::new(e.from, e.to, e.twin, e.prop)).collect(),
        positions: mesh.points.iter().map(vector).collect(),
        normals: mesh.normals.iter().map(vector).collect(),
        references: mesh.references.iter().map(|r| spoonferret::Reference { mesh_id: r.mesh_id, coplanar_id: r.coplanar_id, face_id: r.face_id }).collect(),
        properties: mesh.properties.clone(),
        num_prop: mesh.num_prop,
    }
}

/// Everything, with the bits of floats.
fn bits(net: &Net) -> (Vec<[i32; spoonferret::Halfedge::NUMBERS]>, Vec<[u64; 3]>, Vec<[u64; 3]>, Vec<[i32; 3]>) {
    let vectors = |all: &[spoonferret::Vec3]| all.iter().map(|v| [v.x, v.y, v.z].map(f64::to_bits)).collect();
    (
        net.halfedges.iter().map(|h| [h.start_vert, h.end_vert, h.paired_halfedge, h.prop_vert]).collect(),
        vectors(&net.positions),
        vectors(&net.normals),
        net.references.iter().map(|r| [r.mesh_id, r.coplanar_id, r.face_id]).collect(),
    )
}

const EXAMPLE: [[i32; 3]; 12] = [
    [0, 1, 3], [1, 2, 5], [2, 0, 4], [1, 0, 0], [0, 2, 2], [2, 1, 1],
    [0, 3, 9], [3, 4, 11], [4, 0, 10], [3, 0, 6], [0, 4, 8], [4, 3, 7],
];

/// The edge from 0 to 1 twice: half-edges 0 and 9, and 3 and 6 the other way.
const PILLOWS: [[i32; 3]; 12] = [
    [0, 1, 6], [1, 2, 5], [2, 0, 4], [1, 0, 9], [0, 2, 2], [2, 1, 1],
    [1, 0, 0], [0, 3, 11], [3, 1, 10], [0, 1, 3], [1, 3, 8], [3, 0, 7],
];

/// The edge from 0 to 1 twice: half-edges 0 and 6.
const TWICE: [[i32; 3]; 12] = [
    [0, 1, 9], [1, 2, 5], [2, 0, 4], [1, 0, 6], [0, 2, 2], [2, 1, 1],
    [0, 1, 3], [1, 3, 11], [3, 0, 10], [1, 0, 0], [0, 3, 8], [3, 1, 7],
];

type Op = (&'static str, fn(&mut NetMut<'_, Rows>, &mut Workspace, i32, i32) -> Result<(), Refusal>, fn(&mut Net, i32, i32) -> Result<(), Refusal>);

const OPS: &[Op] = &[
    ("check", |net, _, _, _| net.check(), |net, _, _| net.check()),
    ("pair_up", |net, _, a, b| net.pair_up(a, b), |net, a, b| net.pair_up(a, b)),
    ("update_vert", |net, _, a, b| net.update_vert(3, a, b), |net, a, b| net.update_vert(3, a, b)),
    ("collapse_tri", |net, _, a, _| net.collapse_tri(a), |net, a, _| net.collapse_tri(a)),
    ("remove_if_folded", |net, _, a, _| net.remove_if_folded(a), |net, a, _| net.remove_if_folded(a)),
    ("form_loop", |net, work, a, b| net.form_loop(work, a, b), |net, a, b| net.form_loop(a, b)),
    ("split_pinched_verts", |net, work, _, _| net.split_pinched_verts(work).map(|_| ()), |net, _, _| net.split_pinched_verts().map(|_| ())),
    ("dedupe_edges", |net, work, _, _| net.dedupe_edges(work), |net, _, _| net.dedupe_edges()),
    ("cleanup_topology", |net, work, _, _| net.cleanup_topology(work), |net, _, _| net.cleanup_topology()),
    ("collapse_edge", |net, work, a, b| net.collapse_edge(work, a, b, 1.5, 0.5), |net, a, b| net.collapse_edge(a, b, 1.5, 0.5)),
    ("dedupe_edge", |net, work, a, _| net.dedupe_edge(work, a), |net, a, _| net.dedupe_edge(a)),
];

#[test]
fn as_a_net_that_owns() {
    let mut work = Workspace::new();
    for (rows, vertices) in [(&EXAMPLE[..], 5), (&EXAMPLE[..6], 4), (&PILLOWS[..], 4), (&TWICE[..], 4), (&EXAMPLE[..5], 5), (&[][..], 0)] {
        for worn in [false, true] {
            for &(name, borrowed, owning) in OPS {
                for a in -1..=12 {
                    for b in if ["pair_up", "update_vert", "form_loop"].contains(&name) { -1..=12 } else { 0..=0 } {
                        let plain = mesh(rows, vertices);
                        let mut ours = if worn { dressed(plain) } else { plain };
                        let before = ours.clone();
                        let mut net = owned(&ours);
                        let owed = owning(&mut net, a, b);
                        let said = borrowed(&mut edge_op::Mesh::net(&mut ours), &mut work, a, b);
                        assert_eq!(said, owed, "{name} {a} {b}");
                        assert_eq!(bits(&owned(&ours)), bits(&net), "{name} {a} {b}");
                        // a new triangle's reference is an old one's, whole
                        for (t, reference) in ours.references.iter().enumerate() {
                            let from = before.references.iter().find(|r| *r == reference);
                            assert!(from.is_some() && (t >= before.references.len() || *reference == before.references[t]), "{name} {a} {b}: reference {t}");
                        }
                        if said.is_err() {
                            assert_eq!(format!("{ours:?}"), format!("{before:?}"), "{name} {a} {b}");
                        }
                    }
                }
            }
        }
    }
}

/// So many of the example beside one another: one pinched vertex each.
fn many(pieces: i32) -> Mesh {
    let rows: Vec<[i32; 3]> = (0..pieces).flat_map(|i| EXAMPLE.map(|r| [r[0] + 5 * i, r[1] + 5 * i, r[2] + 12 * i])).collect();
    mesh(&rows, 5 * pieces as usize)
}

#[test]
fn positions_grow_by_count() {
    let mut work = Workspace::new();
    for spare in [0, 1, 99, 100, 5000] {
        let mut mesh = many(100);
        mesh.points.shrink_to_fit();
        mesh.points.reserve_exact(spare);
        let capacity = mesh.points.capacity();
        let mut net = edge_op::Mesh::net(&mut mesh);
        let split = net.split_pinched_verts(&mut work).expect("sound");
        assert_eq!((split.added, split.visited.len()), (100, 1200));
        assert_eq!(mesh.points.len(), 600);
        assert_eq!(mesh.points.capacity(), if spare < 100 { 600 } else { capacity });
        for i in 0..100 {
            assert_eq!(mesh.points[500 + i], mesh.points[5 * i]);
            assert_eq!(mesh.edges[12 * i + 6].from, 500 + i as i32);
        }
    }
}

#[test]
fn at_the_bounds_alone() {
    let mut work = Workspace::new();
    for vertices in [1_000_000, 999_999, 999_998] {
        let mut mesh = dressed(mesh(&PILLOWS, 4));
        mesh.points.resize(vertices, Point(1.0, 2.0, 3.0));
        mesh.points.shrink_to_fit();
        let before = mesh.clone();
        let left = 1_000_000 - vertices;
        assert_eq!(edge_op::dedupe_edge(&mut mesh, 9).is_ok(), left >= 1, "{left}");
        if left == 0 {
            assert_eq!((mesh.points.capacity(), mesh == before), (vertices, true));
        }
        let mut mesh = before.clone();
        let said = edge_op::Mesh::net(&mut mesh).form_loop(&mut work, 0, 0);
        assert_eq!(said, if left < 2 { Err(Refusal::NoRoom) } else { Ok(()) });
        assert_eq!(mesh == before, left < 2);
    }
    let mut mesh = mesh(&EXAMPLE, 1_000_000);
    let before = mesh.clone();
    assert_eq!(edge_op::split_pinched_verts(&mut mesh), Err(Refusal::NoRoom));
    assert_eq!(mesh, before);
    mesh.points.pop();
    assert_eq!(edge_op::split_pinched_verts(&mut mesh), Ok(()));
    assert_eq!((mesh.points.len(), mesh.edges[6].from), (1_000_000, 999_999));
}

#[test]
fn a_second_call_allocates_nothing() {
    let mut work = Workspace::new();
    let mut counts = vec![];
    for _ in 0..3 {
        let mut mesh = many(50);
        let mut pillows = dressed(self::mesh(&PILLOWS, 4));
        mesh.points.reserve(100);
        pillows.points.reserve(10);
        pillows.edges.reserve(30);
        pillows.normals.reserve(10);
        pillows.references.reserve(10);
        let before = allocations();
        let mut net = edge_op::Mesh::net(&mut mesh);
        net.check().expect("sound");
        net.split_pinched_verts(&mut work).expect("sound");
        net.orbit_owners(&mut work, Eligible::Start).expect("closed");
        net.form_loop(&mut work, 0, 0).expect("room");
        edge_op::dedupe_edge(&mut pillows, 9).expect("room");
        edge_op::split_pinched_verts(&mut pillows).expect("sound");
        edge_op::cleanup_topology(&mut pillows).expect("sound");
        assert!(edge_op::collapse_edge(&mut pillows, 1, &mut vec![], 0.0, 0).is_err());
        counts.push(allocations() - before);
    }
    assert!(counts[0] > 0);
    assert_eq!(counts[1..], [0, 0]);
    work.release();
    spoonferret::release_kept();
}

#[test]
fn rows_that_are_not_whole() {
    let mut mesh = mesh(&EXAMPLE, 5);
    mesh.properties = vec![0.0; 7];
    for (num_prop, fits) in [(0, false), (1, true), (2, false), (7, true), (8, false)] {
        mesh.num_prop = num_prop;
        assert_eq!(edge_op::Mesh::net(&mut mesh).check(), if fits { Ok(()) } else { Err(Refusal::Shape) }, "{num_prop}");
    }
    mesh = dressed(mesh);
    assert_eq!(edge_op::split_pinched_verts(&mut mesh), Ok(()));
    mesh.references.pop();
    assert_eq!(edge_op::split_pinched_verts(&mut mesh), Err(Refusal::Shape));
    mesh.references.clear();
    mesh.normals.pop();
    assert_eq!(edge_op::split_pinched_verts(&mut mesh), Err(Refusal::Shape));
}

#[test]
fn the_rusts_own_names() {
    let p = || mesh(&EXAMPLE[..6], 4);
    let mut net = p();
    assert_eq!(edge_op::pair_up(&mut net.edges, 0, 5), Ok(()));
    assert_eq!((net.edges[0].twin, net.edges[5].twin), (5, 0));
    assert_eq!(edge_op::pair_up(&mut net.edges, 0, 6), Err(Refusal::Number));
    assert_eq!(edge_op::pair_up(&mut net.edges, usize::MAX, 0), Err(Refusal::Number));
    assert_eq!(edge_op::pair_up(&mut net.edges[..5], 0, 1), Err(Refusal::Shape));

    let mut net = p();
    assert_eq!(edge_op::update_vert(&mut net, 3, 0, 1), Err(Refusal::Stopped));
    assert_eq!(edge_op::update_vert(&mut net, 3, 0, 5), Ok(()));
    assert_eq!((net.edges[0].to, net.edges[1].from), (3, 3));
    assert_eq!(edge_op::update_vert(&mut net, 3, 0, 5), Err(Refusal::Unsound { row: 0, clause: Clause::NotMirrored { partner: 3 } }));

    // the triangle in its order, from any of its half-edges; nothing at a dead one
    let mut net = p();
    assert_eq!(edge_op::collapse_tri(&mut net, [4, 3, 5]), Err(Refusal::Number));
    assert_eq!(edge_op::collapse_tri(&mut net, [4, 5, 6]), Err(Refusal::Number));
    assert_eq!(net, p());
    assert_eq!(edge_op::collapse_tri(&mut net, [4, 5, 3]), Ok(()));
    assert_eq!((net.edges[0].twin, net.edges[1].twin, net.edges[3].twin, net.edges[3].prop), (1, 0, -1, 103));
    let mut net = p();
    assert_eq!(edge_op::remove_if_folded(&mut net, 2), Ok(()));
    let gone = net.clone();
    for said in [edge_op::collapse_tri(&mut net, [0, 1, 2]), edge_op::remove_if_folded(&mut net, 2), edge_op::dedupe_edge(&mut net, 2)] {
        assert_eq!(said, Ok(()));
    }
    assert_eq!(format!("{net:?}"), format!("{gone:?}"));
    assert_eq!(edge_op::remove_if_folded(&mut net, 6), Err(Refusal::Number));
    assert_eq!(edge_op::form_loop(&mut net, 0, 0), Err(Refusal::Dead));
}
