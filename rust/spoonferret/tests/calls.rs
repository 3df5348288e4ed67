//! Each function on the cases that document 01 works out, through the crate's own interface.

use spoonferret::{next_halfedge, short_test, tri_of, Clause, Eligible, Halfedge, Net, Reference, Refusal, Vec3};

/// Two two-sided triangles that meet at vertex 0: document 01's example.
fn example() -> Net {
    let rows = [
        [0, 1, 3],
        [1, 2, 5],
        [2, 0, 4],
        [1, 0, 0],
        [0, 2, 2],
        [2, 1, 1],
        [0, 3, 9],
        [3, 4, 11],
        [4, 0, 10],
        [3, 0, 6],
        [0, 4, 8],
        [4, 3, 7],
    ];
    let points = [[0.0, 0.0], [1.0, 0.0], [0.0, 1.0], [-1.0, 0.0], [0.0, 2.0]];
    Net {
        halfedges: rows.iter().map(|r| Halfedge::new(r[0], r[1], r[2], -1)).collect(),
        positions: points.iter().map(|p| Vec3::new(p[0], p[1], 0.0)).collect(),
        ..Net::default()
    }
}

#[test]
fn next() {
    for (h, next) in [(2, Ok(0)), (3, Ok(4)), (-1, Ok(-3)), (-2, Ok(-1)), (i32::MAX, Err(Refusal::Number)), (-i32::MAX, Err(Refusal::Number))] {
        assert_eq!(next_halfedge(h), next, "next of {h}");
    }
}

#[test]
fn tri() {
    assert_eq!(tri_of(4), Ok([4, 5, 3]));
    assert_eq!(tri_of(-1), Ok([-1, -3, -2]));
    assert_eq!(tri_of(2147483645), Ok([2147483645, 2147483643, 2147483644]));
    for h in [2147483646, i32::MIN, -2147483647] {
        assert_eq!(tri_of(h), Err(Refusal::Number), "triangle of {h}");
    }
}

#[test]
fn short() {
    let (from, to) = (Vec3::new(0.0, 0.0, 0.0), Vec3::new(3.0, 4.0, 0.0));
    assert_eq!(short_test(from, to, 1, 2, 5.0, 0.0), Err(Refusal::Long { squared_length: 25.0, limit: 25.0 }));
    assert_eq!(short_test(from, to, 1, 2, -1.0, 6.0), Ok(()));
    assert_eq!(short_test(from, to, 2, 2, 100.0, 5.0), Err(Refusal::Long { squared_length: 25.0, limit: 25.0 }));
    let Err(Refusal::Long { squared_length, limit }) = short_test(from, to, 1, 2, f64::NAN, 6.0) else { panic!("a NaN is long") };
    assert_eq!((squared_length, limit.to_bits()), (25.0, 0x7FF8_0000_0000_0000));
    // each coordinate of each point told from every other, the squared length from the limit, tol from epsilon
    let (from, to) = (Vec3::new(1.0, 2.0, 4.0), Vec3::new(3.0, 10.0, 20.0));
    assert_eq!(short_test(from, to, 1, 2, 3.0, 5.0), Err(Refusal::Long { squared_length: 324.0, limit: 9.0 }));
    assert_eq!(short_test(from, to, 2, 1, 3.0, 5.0), Err(Refusal::Long { squared_length: 324.0, limit: 25.0 }));
    // the order of the sum: in another it rounds up twice
    let large = Err(Refusal::Long { squared_length: 18014398509481988.0, limit: 9.0 });
    assert_eq!(short_test(Vec3::default(), Vec3::new(1.5, 1.5, 134217728.0), 1, 2, 3.0, 5.0), large);
}

#[test]
fn check() {
    let mut net = example();
    assert_eq!(net.check(), Ok(()));
    assert_eq!(Net::default().check(), Ok(()));
    net.references = vec![Reference::default(); 3];
    assert_eq!(net.check(), Err(Refusal::Shape));
    net.references.push(Reference::default());
    assert_eq!(net.check(), Ok(()));
    net.num_prop = 33;
    assert_eq!(net.check(), Err(Refusal::Shape));
    // more rows of properties than a row may have numbers; normals where there are no references
    (net.num_prop, net.properties) = (1, vec![0.0; 33]);
    assert_eq!(net.check(), Ok(()));
    (net.references, net.normals) = (vec![], vec![Vec3::default(); 4]);
    assert_eq!(net.check(), Ok(()));
    net.normals.pop();
    assert_eq!(net.check(), Err(Refusal::Shape));
    net.normals.clear();
    net.halfedges[10].paired_halfedge = 6;
    assert_eq!(net.check(), Err(Refusal::Unsound { row: 8, clause: Clause::NotBack { partner: 10 } }));
}

#[test]
fn pair() {
    let mut net = example();
    assert_eq!(net.pair_up(3, 3), Ok(()));
    assert_eq!(net.halfedges[3].paired_halfedge, 3);
    let before = net.clone();
    for (a, b) in [(-1, 0), (0, -1), (12, 0), (0, 12), (i32::MIN, i32::MAX)] {
        assert_eq!(net.pair_up(a, b), Err(Refusal::Number));
    }
    net.halfedges.pop();
    assert_eq!(net.pair_up(0, 1), Err(Refusal::Shape));
    net.halfedges.push(before.halfedges[11]);
    assert_eq!(net, before);
}

/// The first six rows of the example alone, with their three vertices and a loose one: document 01's P.
fn p() -> Net {
    let mut net = example();
    net.halfedges.truncate(6);
    net.positions.truncate(4);
    net
}

/// Bit for bit: a NaN is the same as itself.
fn same(a: &Net, b: &Net) -> bool {
    let bits = |net: &Net| -> Vec<[u64; 3]> { net.positions.iter().map(|p| [p.x, p.y, p.z].map(f64::to_bits)).collect() };
    a.halfedges == b.halfedges && bits(a) == bits(b)
}

const NONE: Halfedge = Halfedge { start_vert: -1, end_vert: -1, paired_halfedge: -1, prop_vert: -1 };

#[test]
fn update() {
    let mut net = p();
    let before = net.clone();
    assert_eq!(net.update_vert(0, 0, 0), Ok(()));
    for (asked, refusal) in [
        ([0, 0, 1], Refusal::Stopped),
        ([-1, 0, 1], Refusal::Number),
        ([4, 0, 1], Refusal::Number),
        ([0, 6, 1], Refusal::Number),
        ([0, 0, -1], Refusal::Number),
    ] {
        assert_eq!(net.update_vert(asked[0], asked[1], asked[2]), Err(refusal), "{asked:?}");
    }
    assert_eq!(net, before);
    // 0 and 5 end at vertex 1
    assert_eq!(net.update_vert(3, 0, 5), Ok(()));
    let mut owed = before.clone();
    owed.halfedges[0].end_vert = 3;
    owed.halfedges[1].start_vert = 3;
    assert_eq!(net, owed);
    assert_eq!(net.update_vert(3, 0, 5), Err(Refusal::Unsound { row: 0, clause: Clause::NotMirrored { partner: 3 } }));
    net = before;
    net.halfedges.extend([NONE; 3]);
    assert_eq!(net.update_vert(3, 0, 6), Err(Refusal::Dead));
    net.halfedges.pop();
    assert_eq!(net.update_vert(3, 0, 5), Err(Refusal::Shape));
}

#[test]
fn collapse() {
    let mut net = p();
    net.halfedges[1].prop_vert = 9;
    let mut owed = net.clone();
    assert_eq!(net.collapse_tri(6), Err(Refusal::Number));
    assert_eq!(net, owed);
    // second and third of 4 are 5 and 3, whose partners are 1 and 0
    assert_eq!(net.collapse_tri(4), Ok(()));
    owed.halfedges[1].paired_halfedge = 0;
    owed.halfedges[0].paired_halfedge = 1;
    owed.halfedges[3..].fill(NONE);
    assert_eq!(net, owed);
    assert_eq!(net.collapse_tri(4), Err(Refusal::Unsound { row: 0, clause: Clause::NotMirrored { partner: 1 } }));
    net = p();
    net.halfedges.extend([NONE; 3]);
    assert_eq!(net.collapse_tri(7), Err(Refusal::Dead));
}

#[test]
fn remove() {
    let mut net = p();
    net.halfedges[1].prop_vert = 9;
    assert_eq!(net.remove_if_folded(-1), Err(Refusal::Number));
    assert_eq!(net.remove_if_folded(0), Ok(()));
    assert_eq!(net.halfedges, [NONE; 6]);
    let bits: Vec<u64> = net.positions.iter().flat_map(|p| [p.x, p.y, p.z]).map(f64::to_bits).collect();
    assert_eq!(bits[..9], [0x7FF8_0000_0000_0000; 9]);
    assert_eq!(net.positions[3], example().positions[3]);
    assert_eq!(net.remove_if_folded(0), Err(Refusal::Dead));

    // a tetrahedron is not folded anywhere
    let rows = [[0, 1, 6], [1, 2, 9], [2, 0, 3], [0, 2, 2], [2, 3, 11], [3, 0, 7], [1, 0, 0], [0, 3, 5], [3, 1, 10], [2, 1, 1], [1, 3, 8], [3, 2, 4]];
    let mut net = Net {
        halfedges: rows.iter().map(|r| Halfedge::new(r[0], r[1], r[2], -1)).collect(),
        positions: example().positions,
        ..Net::default()
    };
    let before = net.clone();
    for h in 0..12 {
        assert_eq!(net.remove_if_folded(h), Ok(()));
    }
    assert_eq!(net, before);
}

#[test]
fn loops() {
    // the edge from 0 to 1 twice, half-edges 0 and 6
    let rows = [
        [0, 1, 9],
        [1, 2, 5],
        [2, 0, 4],
        [1, 0, 6],
        [0, 2, 2],
        [2, 1, 1],
        [0, 1, 3],
        [1, 3, 11],
        [3, 0, 10],
        [1, 0, 0],
        [0, 3, 8],
        [3, 1, 7],
    ];
    let mut net = Net {
        halfedges: rows.iter().map(|r| Halfedge::new(r[0], r[1], r[2], -1)).collect(),
        positions: example().positions[..4].to_vec(),
        ..Net::default()
    };
    let before = net.clone();
    assert_eq!(net.form_loop(0, 12), Err(Refusal::Number));
    assert_eq!(net.form_loop(0, 1), Err(Refusal::Stopped));
    assert_eq!(net, before);
    assert_eq!(net.form_loop(0, 6), Ok(()));
    assert_eq!(net.positions.len(), 6);
    assert_eq!(net.halfedges[6..], [NONE; 6]);
    // the copies went to the second's triangles, and are lost with them
    assert_eq!(net.halfedges[..6], p().halfedges);
    assert_eq!(net.positions[..3], before.positions[..3]);
    assert!(net.positions[3..].iter().all(|p| p.x.is_nan()));
    assert_eq!(net.check(), Ok(()));

    // the same half-edge twice: two copies that nothing uses, and the fold at P is taken out
    let mut net = p();
    assert_eq!(net.form_loop(0, 0), Ok(()));
    assert_eq!(net.halfedges, [NONE; 6]);
    assert_eq!(net.positions.len(), 6);
    assert_eq!(net.form_loop(0, 0), Err(Refusal::Dead));

    // no room for two copies, and for one
    for vertices in [1_000_000, 999_999] {
        let mut net = p();
        net.positions.resize(vertices, Vec3::default());
        let before = net.clone();
        assert_eq!(net.form_loop(0, 0), Err(Refusal::NoRoom));
        assert!(same(&net, &before));
    }
}

#[test]
fn owners() {
    let mut net = example();
    assert_eq!(net.orbit_owners(Eligible::Start), Ok(vec![0, 1, 2, 6, 7, 8]));
    assert_eq!(Net::default().orbit_owners(Eligible::Start), Ok(vec![]));
    net.halfedges[0].end_vert = -2;
    assert_eq!(net.orbit_owners(Eligible::Start), Ok(vec![0, 1, 2, 6, 7, 8]));
    assert_eq!(net.orbit_owners(Eligible::StartAndEnd), Ok(vec![1, 2, 4, 6, 7, 8]));
    net.halfedges[3].paired_halfedge = 1;
    assert_eq!(net.orbit_owners(Eligible::Start), Err(Refusal::NoOwners));
    net.halfedges.pop();
    assert_eq!(net.orbit_owners(Eligible::Start), Err(Refusal::Shape));
}

#[test]
fn split() {
    let mut net = example();
    assert_eq!(net.split_pinched_verts(), Ok(vec![4, 0, 3, 1, 5, 2, 10, 6, 9, 7, 11, 8]));
    assert_eq!(net.positions.len(), 6);
    assert_eq!(net.split_pinched_verts().map(|visited| visited.len()), Ok(12));
    assert_eq!(net.positions.len(), 6);
    assert_eq!(Net::default().split_pinched_verts(), Ok(vec![]));
    net.halfedges[10].end_vert = 0;
    let before = net.clone();
    assert_eq!(net.split_pinched_verts(), Err(Refusal::Unsound { row: 8, clause: Clause::NotMirrored { partner: 10 } }));
    assert_eq!(net, before);
    // the bound of the vertices leaves no room
    let mut net = example();
    net.positions.resize(1_000_000, Vec3::default());
    let before = net.clone();
    assert_eq!(net.split_pinched_verts(), Err(Refusal::NoRoom));
    assert!(same(&net, &before));
}

/// The edge from 0 to 1 twice: half-edges 0 and 9, and 3 and 6 the other way. Vertex v is at v.
fn pillows() -> Net {
    let rows = [
        [0, 1, 6],
        [1, 2, 5],
        [2, 0, 4],
        [1, 0, 9],
        [0, 2, 2],
        [2, 1, 1],
        [1, 0, 0],
        [0, 3, 11],
        [3, 1, 10],
        [0, 1, 3],
        [1, 3, 8],
        [3, 0, 7],
    ];
    Net {
        halfedges: rows.iter().enumerate().map(|(h, r)| Halfedge::new(r[0], r[1], r[2], h as i32)).collect(),
        positions: (0..4).map(|v| Vec3::new(v as f64, 0.0, 0.0)).collect(),
        ..Net::default()
    }
}

/// Starts, ends and pairs.
fn plain(net: &Net) -> Vec<[i32; 3]> {
    net.halfedges.iter().map(|h| [h.start_vert, h.end_vert, h.paired_halfedge]).collect()
}

/// What taking the edge of the pillows apart leaves.
const APART: [[i32; 3]; 18] = [
    [0, 1, 6],
    [1, 2, 14],
    [2, 0, 4],
    [4, 0, 9],
    [0, 2, 2],
    [2, 4, 13],
    [1, 0, 0],
    [0, 3, 11],
    [3, 1, 16],
    [0, 4, 3],
    [4, 3, 17],
    [3, 0, 7],
    [1, 4, 15],
    [4, 2, 5],
    [2, 1, 1],
    [4, 1, 12],
    [1, 3, 8],
    [3, 4, 10],
];

#[test]
fn dedupe() {
    let mut net = pillows();
    net.references = (0..4).map(|t| Reference { mesh_id: t, coplanar_id: 0, face_id: 0 }).collect();
    net.normals = (0..4).map(|t| Vec3::new(0.0, 0.0, t as f64)).collect();
    let before = net.clone();
    for (h, refusal) in [(-1, Refusal::Number), (12, Refusal::Number)] {
        assert_eq!(net.dedupe_edge(h), Err(refusal));
        assert_eq!(net, before);
    }
    assert_eq!(net.dedupe_edge(9), Ok(()));
    assert_eq!(plain(&net), APART);
    assert_eq!(net.positions.len(), 5);
    assert_eq!(net.positions[4], net.positions[1]);
    // each new triangle has the face of the one beside which it stands
    assert_eq!((net.references.len(), net.normals.len()), (6, 6));
    assert_eq!(net.references[4..].iter().map(|r| r.mesh_id).collect::<Vec<_>>(), [1, 2].map(|t| before.references[t].mesh_id));
    assert_eq!(net.check(), Ok(()));

    // P: nothing is there twice, and the start's fan gets a copy of the END's position
    let mut net = p();
    net.positions.truncate(3);
    assert_eq!(net.dedupe_edge(0), Ok(()));
    assert_eq!(plain(&net), [[4, 3, 3], [3, 2, 5], [2, 4, 4], [3, 4, 0], [4, 2, 2], [2, 3, 1]]);
    assert_eq!(net.positions[3..], [net.positions[1]; 2]);

    let mut net = pillows();
    net.halfedges.extend([NONE; 3]);
    assert_eq!(net.dedupe_edge(12), Err(Refusal::Dead));
    net.halfedges[1].end_vert = 3;
    assert_eq!(net.dedupe_edge(0), Err(Refusal::Unsound { row: 1, clause: Clause::NotJoined { next: 2 } }));
    net.halfedges.pop();
    assert_eq!(net.dedupe_edge(0), Err(Refusal::Shape));
}

#[test]
fn dedupe_all() {
    let mut net = pillows();
    assert_eq!(net.dedupe_edges(), Ok(()));
    assert_eq!(plain(&net), APART);
    assert_eq!(Net::default().dedupe_edges(), Ok(()));

    // a torus of two by two: every edge is there twice
    let at = |i: usize, j: usize| ((i % 2) * 2 + j % 2) as i32;
    let mut starts = vec![];
    for (i, j) in [(0, 0), (0, 1), (1, 0), (1, 1)] {
        starts.extend([at(i, j), at(i + 1, j), at(i + 1, j + 1), at(i, j), at(i + 1, j + 1), at(i, j + 1)]);
    }
    let ends = |h: usize| (starts[h], starts[h / 3 * 3 + (h + 1) % 3]);
    let mut pairs = vec![-1; 24];
    for h in 0..24 {
        if pairs[h] < 0 {
            let g = (0..24).find(|&g| pairs[g] < 0 && ends(g) == (ends(h).1, ends(h).0)).expect("a row the other way");
            (pairs[h], pairs[g]) = (g as i32, h as i32);
        }
    }
    let mut net = Net {
        halfedges: (0..24).map(|h| Halfedge::new(ends(h).0, ends(h).1, pairs[h], -1)).collect(),
        positions: vec![Vec3::default(); 4],
        ..Net::default()
    };
    assert_eq!(net.check(), Ok(()));
    assert_eq!(net.cleanup_topology(), Ok(()));
    assert_eq!(net.check(), Ok(()));
    let before = net.clone();
    assert_eq!(net.dedupe_edges(), Ok(()));
    assert_eq!(net, before);

    // the bounds leave no room
    let mut net = pillows();
    net.positions.resize(1_000_000, Vec3::default());
    let before = net.clone();
    assert_eq!(net.dedupe_edges(), Err(Refusal::NoRoom));
    assert!(same(&net, &before));
}

#[test]
fn cleanup() {
    let mut net = example();
    assert_eq!(net.cleanup_topology(), Ok(()));
    let mut owed = example();
    assert_eq!(owed.split_pinched_verts().map(|visited| visited.len()), Ok(12));
    assert_eq!(net, owed);
    let mut net = pillows();
    assert_eq!(net.cleanup_topology(), Ok(()));
    assert_eq!(plain(&net), APART);
    assert_eq!(Net::default().cleanup_topology(), Ok(()));
    net.halfedges[0].end_vert = 2;
    assert_eq!(net.cleanup_topology(), Err(Refusal::Unsound { row: 0, clause: Clause::NotJoined { next: 1 } }));
}

#[test]
fn collapse_short() {
    // P, collapse of edge 0: all rows dead, props kept, position 0 NaN
    let mut net = p();
    for (h, row) in net.halfedges.iter_mut().enumerate() {
        row.prop_vert = h as i32;
    }
    let before = net.clone();
    assert_eq!(net.collapse_edge(6, 0, 9.0, 9.0), Err(Refusal::Number));
    // 1 is not below 1, and the other limit is epsilon's
    assert_eq!(net.collapse_edge(0, 2, 1.0, 0.0), Err(Refusal::Long { squared_length: 1.0, limit: 1.0 }));
    assert_eq!(net.collapse_edge(0, 1, 9.0, 0.5), Err(Refusal::Long { squared_length: 1.0, limit: 0.25 }));
    let Err(Refusal::Long { limit, .. }) = net.collapse_edge(0, 2, f64::NAN, 9.0) else { panic!("a NaN is long") };
    assert_eq!(limit.to_bits(), 0x7FF8_0000_0000_0000);
    assert_eq!(net, before);
    assert_eq!(net.collapse_edge(0, 2, 1.5, 0.0), Ok(()));
    assert_eq!(net.halfedges, (0..6).map(|h| Halfedge::new(-1, -1, -1, h)).collect::<Vec<_>>());
    assert_eq!([net.positions[0].x, net.positions[0].y, net.positions[0].z].map(f64::to_bits), [0x7FF8_0000_0000_0000; 3]);
    assert_eq!(net.positions[1..], before.positions[1..]);
    assert_eq!(net.collapse_edge(0, 2, 1.5, 0.0), Err(Refusal::Dead));

    // three triangles between two apexes: a loop at vertex 2, and nothing is left
    let rows = [
        [0, 1, 3],
        [1, 3, 8],
        [3, 0, 13],
        [1, 0, 0],
        [0, 4, 17],
        [4, 1, 10],
        [1, 2, 9],
        [2, 3, 14],
        [3, 1, 1],
        [2, 1, 6],
        [1, 4, 5],
        [4, 2, 16],
        [2, 0, 15],
        [0, 3, 2],
        [3, 2, 7],
        [0, 2, 12],
        [2, 4, 11],
        [4, 0, 4],
    ];
    let mut net = Net {
        halfedges: rows.iter().map(|r| Halfedge::new(r[0], r[1], r[2], -1)).collect(),
        positions: (0..5).map(|v| Vec3::new(v as f64, 0.0, 0.0)).collect(),
        ..Net::default()
    };
    assert_eq!(net.collapse_edge(0, 9, 100.0, 100.0), Ok(()));
    assert!(net.halfedges.iter().all(|h| h.paired_halfedge == -1));
    assert_eq!(net.positions.len(), 7);
    assert!(net.positions.iter().all(|p| p.x.is_nan()));

    // a walk that does not end
    let rows = [
        [0, 1, 3],
        [1, 2, 5],
        [2, 0, 6],
        [1, 0, 0],
        [0, 2, 9],
        [2, 1, 1],
        [0, 2, 2],
        [2, 1, 11],
        [1, 0, 10],
        [2, 0, 4],
        [0, 1, 8],
        [1, 2, 7],
    ];
    let mut net = Net {
        halfedges: rows.iter().map(|r| Halfedge::new(r[0], r[1], r[2], -1)).collect(),
        positions: (0..3).map(|v| Vec3::new(v as f64, 0.0, 0.0)).collect(),
        ..Net::default()
    };
    let before = net.clone();
    assert_eq!(net.collapse_edge(2, 9, 100.0, 100.0), Err(Refusal::Stopped));
    assert_eq!(net, before);
    net.halfedges[0].end_vert = 2;
    assert_eq!(net.collapse_edge(2, 9, 100.0, 100.0), Err(Refusal::Unsound { row: 0, clause: Clause::NotJoined { next: 1 } }));
}

/// What breaks P at row 0, or a row that stands for it, in each clause's way.
type Damage = fn(&mut Net);

#[test]
fn refusals_say_the_clause() {
    let damages: [(Damage, Clause, &str); 8] = [
        (|net| net.halfedges[0].paired_halfedge = 6, Clause::NoPartner, "names no half-edge"),
        (|net| net.halfedges[3].paired_halfedge = 1, Clause::NotBack { partner: 3 }, "row 3, has another row as its pair"),
        (|net| net.halfedges[0].end_vert = 4, Clause::NoVertex, "names no vertex"),
        (|net| net.halfedges[1].paired_halfedge = -1, Clause::Unpaired { row: 1 }, "row 1 of its triangle has no pair"),
        (|net| net.halfedges[0].end_vert = 2, Clause::NotJoined { next: 1 }, "its next, row 1, starts"),
        (|net| net.halfedges[3].start_vert = 2, Clause::NotMirrored { partner: 3 }, "row 3, does not run the opposite way"),
        (|net| net.halfedges.iter_mut().for_each(|h| (h.start_vert, h.end_vert) = (0, 0)), Clause::StartsAlike, "at the same vertex"),
        (|net| net.halfedges[0] = NONE, Clause::PartlyDead { row: 1 }, "row 1 of its triangle is not"),
    ];
    for (i, (damage, clause, words)) in damages.into_iter().enumerate() {
        let mut net = p();
        damage(&mut net);
        let before = net.clone();
        let refusal = Refusal::Unsound { row: 0, clause };
        assert_eq!((clause.number() as usize, clause.row()), (i + 1, [None, Some(3), None, Some(1), Some(1), Some(3), None, Some(1)][i]));
        assert_eq!(net.explain_row(0), Ok(clause));
        assert!(refusal.to_string().ends_with(&clause.to_string()) && clause.to_string().contains(words), "{refusal}");
        let said = [
            ("check", net.check()),
            ("update_vert", net.update_vert(0, 0, 0)),
            ("collapse_tri", net.collapse_tri(0)),
            ("remove_if_folded", net.remove_if_folded(0)),
            ("form_loop", net.form_loop(0, 0)),
            ("split_pinched_verts", net.split_pinched_verts().map(|_| ())),
            ("dedupe_edge", net.dedupe_edge(0)),
            ("dedupe_edges", net.dedupe_edges()),
            ("cleanup_topology", net.cleanup_topology()),
            ("collapse_edge", net.collapse_edge(0, 0, 9.0, 9.0)),
        ];
        for (name, said) in said {
            assert_eq!(said, Err(refusal), "{name}");
        }
        assert_eq!(net, before);
    }
    assert_eq!(p().explain_row(0).map(|clause| clause.number()), Ok(0));
}

#[test]
fn refusals_say_their_number() {
    let all = [
        Refusal::Shape,
        Refusal::ShortBuffer,
        Refusal::Unsound { row: 4, clause: Clause::NoPartner },
        Refusal::Number,
        Refusal::Dead,
        Refusal::NoRoom,
        Refusal::Stopped,
        Refusal::Long { squared_length: 25.0, limit: 25.0 },
        Refusal::OpenFan,
        Refusal::NoOwners,
    ];
    for (i, refusal) in all.iter().enumerate() {
        assert_eq!(refusal.number() as usize, i + 1);
        assert!(refusal.to_string().contains(&format!("({})", i + 1)), "{refusal}");
    }
}
