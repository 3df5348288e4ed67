//! Times each entry beside the original Rust: the same nets, one run, the two sides by turns, by the thread's own clock, the best and the
//! middle of the rounds. Writes SPEED.md and speed.svg into a folder.
//!
//! bench FOLDER [TRIANGLES [COMPILERS [PROCESSOR [COMMIT]]]]: on nets of at most so many triangles; the page names compilers, processor and the state of the crates so
#![allow(dead_code)]

#[path = "../../harness/src/chance.rs"]
mod chance;
#[path = "../../harness/src/lent.rs"]
mod lent;
#[path = "../../harness/src/nets.rs"]
mod nets;
mod plot;

use chance::Chance;
use lent::{Lent, Row, ROW};
use original::edge_op;
use original::impl_mesh::ManifoldImpl;
use spoonferret::{edge_op as safe, raw};
use std::collections::HashMap;
use std::fmt::Write;
use std::hint::black_box;
use std::time::Instant;

/// One net for both sides, and the half-edges that surgery works at.
struct Course {
    name: String,
    /// the curve of the plot that it is a point of
    curve: Option<&'static str>,
    net: Lent,
    mesh: ManifoldImpl,
    /// the same rows for the build with the feature `parallel`
    rows: Vec<parallel::types::Halfedge>,
    /// and for that build with nothing shared out
    sequential_rows: Vec<sequential::types::Halfedge>,
    /// a half-edge, and one that update_vert comes to from it in two moves
    from: usize,
    to: usize,
    /// a half-edge of two triangles that have folded onto each other, the last two
    folded: usize,
    /// the rows that a collapse at `from` may write, as they are
    beside_start: Vec<(usize, Row)>,
    /// the list that the Rust's collapse is given
    scratch: Vec<usize>,
    /// for the entries that work in rounds alone
    wide: bool,
}

/// One entry beside what is done in its place. Each call leaves the net as it was: what surgery changed is put back.
struct Race {
    entry: &'static str,
    beside: &'static str,
    ours: fn(&mut Course),
    theirs: fn(&mut Course),
    /// what the Rust does not do, as work of the same size by itself
    shares: &'static [(&'static str, fn(&mut Course))],
    /// what its time is told of, and beside what
    told: Told,
    /// on the largest torus, by its order, or on the net of that name: the most that was wanted of the Rust's time
    wanted: &'static [(&'static str, f64)],
    /// said where that is passed
    why: &'static str,
}

#[derive(Clone, Copy, PartialEq)]
enum Told {
    /// both grow with the net: time of a half-edge, and the ratio
    OfRows,
    /// the Rust's call takes a time that does not grow with the net: time of a call, and what the shares are of it
    OfShares,
    /// neither grows: time of a call, and the ratio
    OfCalls,
}

const WIDE: &str = "bipyramid of valence 100,000";

const RACES: &[Race] = &[
    Race {
        entry: "check_net",
        beside: "the Rust's split_pinched_verts",
        ours: check_net,
        theirs: |c| edge_op::split_pinched_verts(&mut c.mesh),
        shares: &[],
        told: Told::OfRows,
        wanted: &[("in order", 0.8), ("shuffled", 0.25)],
        why: CHECK_WHY,
    },
    Race {
        entry: "split_pinched_verts",
        beside: "the Rust's split_pinched_verts",
        ours: split_pinched_verts,
        theirs: |c| edge_op::split_pinched_verts(&mut c.mesh),
        shares: &[("soundness", check_net), ("clearing", clear_words)],
        told: Told::OfRows,
        wanted: &[("in order", 2.05), ("shuffled", 0.85)],
        why: SPLIT_WHY,
    },
    Race {
        entry: "orbit_owners",
        beside: "the Rust's orbit_owners",
        ours: orbit_owners,
        theirs: |c| assert!(black_box(parallel::edge_op::private::orbit_owners(&c.rows, false)).is_some()),
        shares: &[("clearing", clear_bytes)],
        told: Told::OfRows,
        wanted: &[],
        why: "",
    },
    Race {
        entry: "orbit_owners",
        beside: "the Rust's orbit_owners, made one after another",
        ours: orbit_owners,
        theirs: |c| assert!(black_box(sequential::edge_op::private::orbit_owners(&c.sequential_rows, false)).is_some()),
        shares: &[("clearing", clear_bytes)],
        told: Told::OfRows,
        wanted: &[("in order", 0.38), ("shuffled", 0.55)],
        why: OWNERS_WHY,
    },
    Race {
        entry: "update_vert",
        beside: "the Rust's update_vert",
        ours: update_vert,
        theirs: |c| edge_op::update_vert(&mut c.mesh, c.net.halfedges[ROW * c.from + 1], c.from, c.to),
        shares: &[("soundness", check_net)],
        told: Told::OfShares,
        wanted: &[],
        why: "",
    },
    Race {
        entry: "collapse_tri",
        beside: "the Rust's collapse_tri",
        ours: collapse_tri,
        theirs: |c| {
            let rows = touched(&c.net, c.from);
            let kept = rows.map(|h| c.mesh.halfedge[h]);
            edge_op::collapse_tri(&mut c.mesh.halfedge, [rows[0], rows[1], rows[2]]);
            for (h, row) in rows.into_iter().zip(kept) {
                c.mesh.halfedge[h] = row;
            }
        },
        shares: &[("soundness", check_net)],
        told: Told::OfShares,
        wanted: &[],
        why: "",
    },
    Race {
        entry: "remove_if_folded",
        beside: "the Rust's remove_if_folded",
        ours: remove_if_folded,
        theirs: |c| {
            let kept: [_; 6] = c.mesh.halfedge[c.folded..].try_into().expect("six rows");
            edge_op::remove_if_folded(&mut c.mesh, c.folded);
            c.mesh.halfedge[c.folded..].copy_from_slice(&kept);
        },
        shares: &[("soundness", check_net)],
        told: Told::OfShares,
        wanted: &[],
        why: "",
    },
    Race {
        entry: "form_loop",
        beside: "the Rust's form_loop",
        ours: form_loop,
        theirs: |c| {
            edge_op::form_loop(&mut c.mesh, c.from, c.from);
            c.mesh.vert_pos.truncate(c.net.used.vertices);
        },
        shares: &[("soundness", check_net), ("the spare", fill_spare)],
        told: Told::OfShares,
        wanted: &[],
        why: "",
    },
    Race {
        entry: "dedupe_edges",
        beside: "the Rust's dedupe_edges",
        ours: dedupe_edges,
        theirs: |c| edge_op::dedupe_edges(&mut c.mesh),
        shares: &[("soundness", check_net), ("the spare", fill_spare), ("clearing", clear_words_and_list)],
        told: Told::OfRows,
        wanted: &[("in order", 0.8), ("shuffled", 0.8), (WIDE, 0.002)],
        why: ROUNDS_WHY,
    },
    Race {
        entry: "cleanup_topology",
        beside: "the Rust's cleanup_topology",
        ours: cleanup_topology,
        theirs: |c| edge_op::cleanup_topology(&mut c.mesh),
        shares: &[("soundness", check_net), ("the spare", fill_spare), ("clearing", clear_words_and_list)],
        told: Told::OfRows,
        wanted: &[("in order", 0.9), ("shuffled", 0.9)],
        why: ROUNDS_WHY,
    },
    Race {
        entry: "dedupe_edge",
        beside: "the Rust's dedupe_edge",
        ours: dedupe_edge,
        theirs: |c| {
            let kept: [_; 6] = c.mesh.halfedge[c.folded..].try_into().expect("six rows");
            edge_op::dedupe_edge(&mut c.mesh, c.folded);
            c.mesh.halfedge[c.folded..].copy_from_slice(&kept);
            c.mesh.vert_pos.truncate(c.net.used.vertices);
        },
        shares: &[("soundness", check_net), ("the spare", fill_spare)],
        told: Told::OfShares,
        wanted: &[],
        why: "",
    },
    Race {
        entry: "collapse_edge",
        beside: "the Rust's collapse_edge",
        ours: collapse_edge,
        theirs: collapsed_by_the_rust,
        shares: &[("soundness", check_net), ("the spare", fill_spare)],
        told: Told::OfShares,
        wanted: &[],
        why: "",
    },
    Race {
        entry: "the work of collapse_edge past its checks",
        beside: "the Rust's collapse_edge",
        ours: collapse_work,
        theirs: collapsed_by_the_rust,
        shares: &[],
        told: Told::OfCalls,
        wanted: &[("in order", 1.5), ("shuffled", 1.5)],
        why: "",
    },
    Race {
        entry: "the crate's split_pinched_verts",
        beside: "split_pinched_verts",
        ours: |c| safe::split_pinched_verts(&mut c.mesh).expect("a sound net"),
        theirs: split_pinched_verts,
        shares: &[],
        told: Told::OfRows,
        wanted: &[("in order", 1.1), ("shuffled", 1.1)],
        why: "",
    },
    Race {
        entry: "the crate's form_loop",
        beside: "form_loop",
        ours: |c| {
            safe::form_loop(&mut c.mesh, c.from, c.from).expect("a sound net");
            c.mesh.vert_pos.truncate(c.net.used.vertices);
        },
        theirs: form_loop,
        shares: &[],
        told: Told::OfRows,
        wanted: &[("in order", 1.1), ("shuffled", 1.1)],
        why: "",
    },
];

spoonferret::layout! {
    /// The rows of the Rust's mesh, as the crate works on them.
    struct Rows;
    halfedge: original::types::Halfedge { start_vert, end_vert, paired_halfedge, prop_vert },
    vector: original::linalg::Vec3 { x, y, z },
    reference: original::types::TriRef { mesh_id, coplanar_id, face_id },
}

impl safe::Mesh<Rows> for ManifoldImpl {
    fn net(&mut self) -> spoonferret::NetMut<'_, Rows> {
        spoonferret::NetMut {
            halfedges: &mut self.halfedge,
            positions: &mut self.vert_pos,
            normals: &mut self.face_normal,
            references: &mut self.mesh_relation.tri_ref,
            properties: &self.properties,
            num_prop: self.num_prop,
        }
    }

    fn epsilon(&self) -> f64 {
        self.epsilon
    }
}

/// Calls an entry of the library: the counts, the five arrays, and what else it takes.
macro_rules! call {
    ($entry:ident, $l:expr $(, $more:expr)*) => {
        unsafe {
            raw::$entry(
                $l.used,
                $l.halfedges.as_mut_ptr(),
                $l.halfedges.len(),
                $l.positions.as_mut_ptr(),
                $l.positions.len(),
                $l.normals.as_mut_ptr(),
                $l.normals.len(),
                $l.references.as_mut_ptr(),
                $l.references.len(),
                $l.properties.as_ptr(),
                $l.properties.len()
                $(, $more)*
            )
        }
    };
}

fn check_net(c: &mut Course) {
    let l = &mut c.net;
    assert_eq!(call!(spoonferret_check_net, l).number, 0);
}

fn split_pinched_verts(c: &mut Course) {
    let l = &mut c.net;
    let told = call!(spoonferret_split_pinched_verts, l, l.work_words.as_mut_ptr(), l.work_words.len(), l.list.as_mut_ptr(), l.list.len());
    assert_eq!((told.number, told.added, told.steps), (0, 0, l.used.halfedges));
}

fn orbit_owners(c: &mut Course) {
    let l = &mut c.net;
    let told = call!(spoonferret_orbit_owners, l, l.work_bytes.as_mut_ptr(), l.work_bytes.len(), l.list.as_mut_ptr(), l.list.len(), false);
    assert_eq!((told.number, told.count), (0, l.used.vertices));
}

fn update_vert(c: &mut Course) {
    let l = &mut c.net;
    let vertex = l.halfedges[ROW * c.from + 1];
    assert_eq!(call!(spoonferret_update_vert, l, vertex, c.from as i32, c.to as i32).number, 0);
}

/// The rows that collapse_tri writes: its triangle, and the partners of the second and third.
fn touched(l: &Lent, h: usize) -> [usize; 5] {
    let (second, third) = (next(h), next(next(h)));
    [h, second, third, l.halfedges[ROW * second + 2] as usize, l.halfedges[ROW * third + 2] as usize]
}

fn collapse_tri(c: &mut Course) {
    let l = &mut c.net;
    let rows = touched(l, c.from);
    let kept: [Row; 5] = rows.map(|h| *l.row(h));
    assert_eq!(call!(spoonferret_collapse_tri, l, c.from as i32).number, 0);
    for (h, row) in rows.into_iter().zip(kept) {
        *l.row_mut(h) = row;
    }
}

fn remove_if_folded(c: &mut Course) {
    let l = &mut c.net;
    let kept: [i32; 6 * ROW] = l.halfedges[ROW * c.folded..][..6 * ROW].try_into().expect("six rows");
    assert_eq!(call!(spoonferret_remove_if_folded, l, c.folded as i32).number, 0);
    l.halfedges[ROW * c.folded..][..6 * ROW].copy_from_slice(&kept);
}

fn form_loop(c: &mut Course) {
    let l = &mut c.net;
    let told = call!(
        spoonferret_form_loop,
        l,
        l.spare_halfedges.as_mut_ptr(),
        l.spare_halfedges.len(),
        l.spare_positions.as_mut_ptr(),
        l.spare_positions.len(),
        c.from as i32,
        c.from as i32
    );
    assert_eq!(told.number, 0);
}

/// The entries that take the spares, the work buffer and the list; there is nothing to do.
macro_rules! in_rounds {
    ($name:ident, $entry:ident, $work:expr) => {
        fn $name(c: &mut Course) {
            let l = &mut c.net;
            let work: usize = $work(l);
            let told = call!(
                $entry,
                l,
                l.spare_halfedges.as_mut_ptr(),
                l.spare_halfedges.len(),
                l.spare_positions.as_mut_ptr(),
                l.spare_positions.len(),
                l.work_words.as_mut_ptr(),
                work,
                l.list.as_mut_ptr(),
                l.list.len()
            );
            assert_eq!((told.number, told.halfedges, told.vertices), (0, l.used.halfedges, l.used.vertices));
        }
    };
}

in_rounds!(dedupe_edges, spoonferret_dedupe_edges, |l: &Lent| l.used.halfedges);
in_rounds!(cleanup_topology, spoonferret_cleanup_topology, |l: &Lent| l.used.halfedges + l.used.vertices);

fn dedupe_edge(c: &mut Course) {
    let l = &mut c.net;
    let kept: [i32; 6 * ROW] = l.halfedges[ROW * c.folded..][..6 * ROW].try_into().expect("six rows");
    let told = call!(
        spoonferret_dedupe_edge,
        l,
        l.spare_halfedges.as_mut_ptr(),
        l.spare_halfedges.len(),
        l.spare_positions.as_mut_ptr(),
        l.spare_positions.len(),
        c.folded as i32
    );
    assert_eq!((told.number, told.vertices), (0, l.used.vertices + 2));
    l.halfedges[ROW * c.folded..][..6 * ROW].copy_from_slice(&kept);
}

/// A collapse at `from` on our side is put back: the rows beside the start, and its position.
fn put_back(c: &mut Course) {
    let l = &mut c.net;
    for (h, row) in &c.beside_start {
        *l.row_mut(*h) = *row;
    }
    let v = l.halfedges[ROW * c.from] as usize;
    l.positions[3 * v..3 * v + 3].fill(START.to_bits());
}

fn collapse_edge(c: &mut Course) {
    let l = &mut c.net;
    let told = call!(
        spoonferret_collapse_edge,
        l,
        l.spare_halfedges.as_mut_ptr(),
        l.spare_halfedges.len(),
        l.spare_positions.as_mut_ptr(),
        l.spare_positions.len(),
        l.list.as_mut_ptr(),
        l.list.len(),
        c.from as i32,
        i32::MAX,
        LONG,
        LONG
    );
    assert_eq!((told.number, told.vertices), (0, l.used.vertices));
    put_back(c);
}

#[repr(C)]
struct StepAnswer {
    number: u32,
    vertices: usize,
}

extern "C" {
    /// The work of collapse_edge past its checks: crates/innersteps exports it for the comparison and for this.
    fn innersteps_try(
        used: raw::Used,
        halfedges: *mut i32,
        halfedges_length: usize,
        positions: *mut u64,
        positions_length: usize,
        normals: *const u64,
        normals_length: usize,
        references: *const i32,
        references_length: usize,
        properties: *const u64,
        properties_length: usize,
        list: *mut u32,
        list_length: usize,
        halfedge: i32,
        first_new_vert: i32,
        tol: f64,
        epsilon: f64,
    ) -> StepAnswer;
}

fn collapse_work(c: &mut Course) {
    let l = &mut c.net;
    let told = unsafe {
        innersteps_try(
            l.used,
            l.halfedges.as_mut_ptr(),
            l.halfedges.len(),
            l.positions.as_mut_ptr(),
            l.positions.len(),
            l.normals.as_ptr(),
            l.normals.len(),
            l.references.as_ptr(),
            l.references.len(),
            l.properties.as_ptr(),
            l.properties.len(),
            l.list.as_mut_ptr(),
            l.list.len(),
            c.from as i32,
            i32::MAX,
            LONG,
            LONG,
        )
    };
    assert_eq!((told.number, told.vertices), (0, l.used.vertices));
    put_back(c);
}

fn collapsed_by_the_rust(c: &mut Course) {
    c.scratch.clear();
    assert!(edge_op::collapse_edge(&mut c.mesh, c.from, &mut c.scratch, LONG, i32::MAX));
    for (h, r) in &c.beside_start {
        c.mesh.halfedge[*h] = original::types::Halfedge { start_vert: r[0], end_vert: r[1], paired_halfedge: r[2], prop_vert: r[3] };
    }
    let v = c.net.halfedges[ROW * c.from] as usize;
    c.mesh.vert_pos[v] = original::linalg::Vec3::new(START, START, START);
}

/// Above every length there is; every coordinate of the vertex where `from` starts.
const LONG: f64 = 1e9;
const START: f64 = 0.5;

/// The rows of the triangles at the start of h and their partners: what a collapse that forms no loop may write.
fn rows_beside_start(l: &Lent, h: usize) -> Vec<(usize, Row)> {
    let partner = |g: usize| l.halfedges[ROW * g + 2] as usize;
    let mut all = vec![];
    let mut c = h;
    loop {
        for g in [c, next(c), next(next(c))] {
            all.extend([g, partner(g)]);
        }
        c = next(partner(c));
        if c == h {
            break;
        }
    }
    all.sort_unstable();
    all.dedup();
    all.into_iter().map(|g| (g, *l.row(g))).collect()
}

/// Work buffer and list are cleared before and after.
fn clear_words_and_list(c: &mut Course) {
    clear_words(c);
    black_box(&mut c.net.list).fill(0);
    black_box(&mut c.net.list).fill(0);
}

/// The work buffer is cleared before and after.
fn clear_words(c: &mut Course) {
    black_box(&mut c.net.work_words).fill(0);
    black_box(&mut c.net.work_words).fill(0);
}

fn clear_bytes(c: &mut Course) {
    black_box(&mut c.net.work_bytes).fill(0);
    black_box(&mut c.net.work_bytes).fill(0);
}

fn fill_spare(c: &mut Course) {
    let l = &mut c.net;
    black_box(&mut l.spare_halfedges).copy_from_slice(&l.halfedges);
    let rows = l.spare_positions.len();
    black_box(&mut l.spare_positions).copy_from_slice(&l.positions[..rows]);
}

fn next(h: usize) -> usize {
    h / 3 * 3 + (h + 1) % 3
}

/// A net of these closed pieces, two folded triangles behind them, and room for two vertices.
fn course(name: String, curve: Option<&'static str>, pieces: Vec<[usize; 3]>, in_order: bool, chance: &mut Chance) -> Course {
    let mut net = nets::built(pieces, in_order, chance);
    let (folded, v) = (net.used.halfedges, net.used.vertices);
    let from = folded / 2;
    let start = net.halfedges[ROW * from] as usize;
    net.positions[3 * start..3 * start + 3].fill(START.to_bits());
    for (k, pair) in [3, 5, 4, 0, 2, 1].into_iter().enumerate() {
        let (start, end) = ([0, 1, 2, 1, 0, 2][k], [1, 2, 0, 0, 2, 1][k]);
        net.push([(v + start) as i32, (v + end) as i32, (folded + pair) as i32, -1]);
    }
    net.used.halfedges += 6;
    net.used.vertices += 3;
    net.positions.resize(3 * net.used.vertices, 0x3FF0_0000_0000_0000);
    let mesh = mesh_of(&net);
    net.positions.resize(3 * net.used.vertices + 6, 0);
    net.work_words = vec![0; net.used.halfedges + net.used.vertices];
    net.work_bytes = vec![0; net.used.halfedges];
    net.list = vec![0; net.used.halfedges];
    net.spare_halfedges = vec![0; ROW * net.used.halfedges];
    net.spare_positions = vec![0; 3 * net.used.vertices];
    let rows = mesh
        .halfedge
        .iter()
        .map(|h| parallel::types::Halfedge { start_vert: h.start_vert, end_vert: h.end_vert, paired_halfedge: h.paired_halfedge, prop_vert: h.prop_vert })
        .collect();
    let sequential_rows = mesh
        .halfedge
        .iter()
        .map(|h| sequential::types::Halfedge { start_vert: h.start_vert, end_vert: h.end_vert, paired_halfedge: h.paired_halfedge, prop_vert: h.prop_vert })
        .collect();
    let onward = |h: usize| net.halfedges[ROW * next(h) + 2] as usize;
    let to = onward(onward(from));
    let beside_start = rows_beside_start(&net, from);
    let wide = name == WIDE;
    Course { name, curve, net, mesh, rows, sequential_rows, from, to, folded, beside_start, scratch: vec![], wide }
}

fn courses(most: usize, chance: &mut Chance) -> Vec<Course> {
    let mut all = vec![];
    for triangles in [1_000, 10_000, 100_000, 1_000_000].into_iter().filter(|&t| t <= most) {
        let side = (triangles as f64 / 2.0).sqrt() as usize;
        for (in_order, curve) in [(true, "in order"), (false, "shuffled")] {
            eprintln!("a torus of {} triangles, {curve}", with_commas(triangles));
            all.push(course(format!("torus of {} triangles, {curve}", with_commas(triangles)), Some(curve), nets::torus(side, triangles / 2 / side), in_order, chance));
        }
    }
    let valence = 10_000.min(most / 2);
    all.push(course(format!("bipyramid of valence {}", with_commas(valence)), None, nets::bipyramid(valence), true, chance));
    if most >= 200_000 {
        all.push(course(WIDE.to_string(), None, nets::bipyramid(100_000), true, chance));
    }
    let count = 10_000.min(most / 10);
    for (in_order, how) in [(true, "in order"), (false, "shuffled")] {
        let pieces = (0..count).flat_map(|i| nets::bipyramid(5).into_iter().map(move |t| t.map(|v| v + 7 * i))).collect();
        all.push(course(format!("{} pieces of 10 triangles, {how}", with_commas(count)), None, pieces, in_order, chance));
    }
    all
}

fn with_commas(n: usize) -> String {
    let digits = n.to_string();
    let mut out = String::new();
    for (i, c) in digits.chars().enumerate() {
        if i > 0 && (digits.len() - i) % 3 == 0 {
            out.push(',');
        }
        out.push(c);
    }
    out
}

fn mesh_of(l: &Lent) -> ManifoldImpl {
    let vector = |b: &[u64]| original::linalg::Vec3::new(f64::from_bits(b[0]), f64::from_bits(b[1]), f64::from_bits(b[2]));
    ManifoldImpl {
        vert_pos: l.positions.chunks_exact(3).map(vector).collect(),
        halfedge: l
            .rows()
            .map(|&[start_vert, end_vert, paired_halfedge, prop_vert]| original::types::Halfedge { start_vert, end_vert, paired_halfedge, prop_vert })
            .collect(),
        ..ManifoldImpl::default()
    }
}

/// Nanoseconds that this thread has worked: what other programs take of the machine is not in it.
fn own_time() -> f64 {
    const THREAD: i32 = 3;
    extern "C" {
        fn clock_gettime(clock: i32, time: *mut [i64; 2]) -> i32;
    }
    let mut time = [0; 2];
    assert_eq!(unsafe { clock_gettime(THREAD, &mut time) }, 0, "the thread's clock is read");
    time[0] as f64 * 1e9 + time[1] as f64
}

/// Nanoseconds of one call, of one round.
fn timed(times: usize, course: &mut Course, f: fn(&mut Course)) -> f64 {
    let start = own_time();
    for _ in 0..times {
        f(black_box(course));
    }
    (own_time() - start) / times as f64
}

/// Two digits behind the point, more of what is small.
fn digits(x: f64) -> String {
    if x < 0.02 {
        format!("{x:.5}")
    } else {
        format!("{x:.2}")
    }
}

/// Nanoseconds of one call, over the rounds.
#[derive(Clone)]
struct Time {
    best: f64,
    middle: f64,
}

impl Time {
    fn of(mut rounds: Vec<f64>) -> Time {
        rounds.sort_by(f64::total_cmp);
        Time { best: rounds[0], middle: rounds[rounds.len() / 2] }
    }

    /// Best and middle, each for one of so many.
    fn of_each(&self, count: f64) -> String {
        format!("{} / {}", digits(self.best / count), digits(self.middle / count))
    }

    /// Best and middle of a call, in the unit that the best wants.
    fn of_a_call(&self) -> String {
        let (unit, name) = [(1e6, "ms"), (1e3, "µs")].into_iter().find(|(unit, _)| self.best >= *unit).unwrap_or((1.0, "ns"));
        format!("{} {name}", self.of_each(unit))
    }
}

/// What was timed on each net, by its name: one figure for one thing, in whatever tables it stands.
type Known = HashMap<(String, usize), Time>;

/// Times of one entry on one net: ours, what it is beside, and each share by itself; what is known already is not timed again. A round has each of them once, long enough to
/// be timed; at least fifteen rounds (three where these take half a minute), at most sixty, and past fifteen no new one after three seconds.
fn raced(race: &Race, course: &mut Course, number: usize, known: &mut Known) -> (Time, Time, Vec<Time>) {
    let times = (200_000 / course.net.used.halfedges).max(1);
    let calls = |grows: bool| if grows { times } else { 1_000 };
    let mut runs = vec![
        (race.entry.to_string(), race.ours, calls(race.told != Told::OfCalls)),
        (race.beside.to_string(), race.theirs, calls(race.told == Told::OfRows)),
    ];
    for &(name, share) in race.shares {
        let name = if name == "soundness" { "check_net".into() } else { format!("{name} of {}", race.entry) };
        runs.push((name, share, times));
    }
    let new: Vec<_> = runs.iter().filter(|(name, ..)| !known.contains_key(&(name.clone(), number))).collect();
    let mut rounds = vec![vec![]; new.len()];
    let began = Instant::now();
    for round in 0..60 {
        let seconds = began.elapsed().as_secs();
        if round >= 15 && seconds >= 3 || round >= 3 && seconds >= 30 || new.is_empty() {
            break;
        }
        for (taken, (_, f, times)) in rounds.iter_mut().zip(&new) {
            taken.push(timed(*times, course, *f));
        }
    }
    for (taken, (name, ..)) in rounds.into_iter().zip(&new) {
        known.insert((name.clone(), number), Time::of(taken));
    }
    let mut all = runs.iter().map(|(name, ..)| known[&(name.clone(), number)].clone());
    (all.next().expect("ours"), all.next().expect("what it is beside"), all.collect())
}

fn main() {
    let words: Vec<String> = std::env::args().collect();
    parallel::on_one_thread(|| run(&words));
}

fn run(words: &[String]) {
    let folder = std::path::Path::new(words.get(1).expect("bench FOLDER [TRIANGLES]"));
    let most = words.get(2).and_then(|w| w.parse().ok()).unwrap_or(1_000_000);
    let mut courses = courses(most, &mut Chance::new(1));
    let mut page = String::from(OPENING);
    let named = |i: usize| words.get(i).map_or("not named", String::as_str);
    let _ = writeln!(page, "\nProcessor: {}. Compilers: {}. The crates are those of commit {}.", named(4), named(3), named(5));
    let mut curves = vec![];
    let mut known = Known::new();
    for race in RACES {
        let shares: String = race.shares.iter().map(|(name, _)| format!(" of which {name} |")).collect();
        let each = if race.told == Told::OfRows { "ns a half-edge" } else { "a call" };
        let _ = write!(
            page,
            "\n## {} beside {}\n\n| net | half-edges | {}, {each} |{shares}{}\n|---|---|---|{}---|---|\n",
            race.entry,
            race.beside,
            race.entry,
            if race.told == Told::OfShares { format!(" these of the whole | {}, a call |", race.beside) } else { format!(" {}, {each} | ratio |", race.beside) },
            "---|".repeat(race.shares.len())
        );
        eprintln!("{} beside {}", race.entry, race.beside);
        let mut wanted = vec![];
        let mut grown: HashMap<&str, Vec<(f64, f64)>> = HashMap::new();
        // the Rust's rounds are quadratic in the valence: the widest net shows that, and it is for them alone
        let goes_round = ["dedupe_edges", "cleanup_topology"].contains(&race.entry);
        for (number, course) in courses.iter_mut().enumerate().filter(|(_, c)| goes_round || !c.wide) {
            let rows = course.net.used.halfedges as f64;
            let (ours, theirs, shares) = raced(race, course, number, &mut known);
            let cell = |time: &Time| if race.told == Told::OfRows { time.of_each(rows) } else { time.of_a_call() };
            let shown: String = shares.iter().map(|s| format!(" {} |", cell(s))).collect();
            let apart = Time { best: shares.iter().map(|s| s.best).sum(), middle: shares.iter().map(|s| s.middle).sum() };
            let (over, under) = if race.told == Told::OfShares { (&apart, &ours) } else { (&ours, &theirs) };
            let ratio = Time { best: over.best / under.best, middle: over.middle / under.middle };
            let (one, other) = if race.told == Told::OfShares { (ratio.of_each(1.0), cell(&theirs)) } else { (cell(&theirs), ratio.of_each(1.0)) };
            let line = format!("| {} | {} | {} |{shown} {one} | {other} |", course.name, with_commas(rows as usize), cell(&ours));
            eprintln!("{line}");
            let _ = writeln!(page, "{line}");
            if let (Some(curve), Told::OfRows) = (course.curve, race.told) {
                grown.entry(curve).or_default().push((ours.best / rows, theirs.best / rows));
            }
            let named = |order: &str| course.name == order || course.name == format!("torus of 1,000,000 triangles, {order}");
            if let Some((order, most)) = race.wanted.iter().find(|(order, _)| named(order)) {
                let beyond = if ratio.best <= *most { String::new() } else { format!(", {:.0} % more", 100.0 * (ratio.best / most - 1.0)) };
                wanted.push(format!("{order} at most {}, and it is {}{beyond}", digits(*most), ratio.of_each(1.0)));
            }
            // the others of surgery take the time of these shares, cleanup that of split and dedupe_edges, and the Rust's split is there once
            let drawn = !race.entry.starts_with("the ") && race.entry != "cleanup_topology" && (race.told == Told::OfRows || race.entry == "form_loop");
            if let Some(curve) = course.curve.filter(|_| drawn) {
                // orbit_owners runs twice
                if race.beside != "the Rust's orbit_owners, made one after another" {
                    curves.push((race.entry.to_string(), curve, rows / 3.0, ours.best));
                }
                if race.told == Told::OfRows && race.entry != "check_net" {
                    curves.push((race.beside.to_string(), curve, rows / 3.0, theirs.best));
                }
            }
        }
        if most >= 1_000_000 {
            let factors: Vec<String> = ["in order", "shuffled"]
                .iter()
                .filter_map(|order| {
                    let all = grown.get(order)?;
                    let (first, last) = (all.first()?, all.last()?);
                    Some(format!("{order} {:.2} times (the other {:.2})", last.0 / first.0, last.1 / first.1))
                })
                .collect();
            if !factors.is_empty() {
                let _ = writeln!(page, "\nFrom the torus of 1,000 triangles to that of 1,000,000 the time of a half-edge grows: {}.", factors.join("; "));
            }
        }
        if !wanted.is_empty() {
            let why = if wanted.iter().any(|w| w.ends_with("more")) { race.why } else { "" };
            let _ = writeln!(page, "\nWanted on the torus of 1,000,000 triangles: {}.{why}", wanted.join("; "));
        }
    }
    page += CLOSING;
    std::fs::write(folder.join("SPEED.md"), page).expect("the page is written");
    std::fs::write(folder.join("speed.svg"), plot::drawn(&curves)).expect("the plot is written");
}

// Why a figure that was wanted is passed, of the Arm that the page was written on.
const CHECK_WHY: &str = " The figures wanted were set on an x86-64 on which the Rust's split took 96 to 110 ns a half-edge on the shuffled torus; on the Arm it takes less than half of that, and the check, \
whose reads of the partners do not wait for each other, gains less.";
const SPLIT_WHY: &str = " Shuffled, the Rust's split gains more by the Arm's caches than ours: its marks are one byte a half-edge and stay there, our entries are four, and are written as the fans come; and the check reads each partner's row \
once more. What the check takes by itself is in the table.";
const OWNERS_WHY: &str = " Comparing the partner's pair without reading it as a number first (tried without proof on the Arm) gives 0.30 in order and 0.43 shuffled.";
const ROUNDS_WHY: &str = " Shuffled, both wait for memory at each turn about a vertex; ours goes about each twice, to fill the table and to clear it, and has the check and the spare before.";

const OPENING: &str = "# Speed

`scripts/bench` writes this page: both sides in one run on the same nets, by turns, one thread, release builds. A time is the thread's own, so that other programs on the machine cost \
it cache and no waiting; each cell has the best and the middle of at least 15 rounds (three on the widest net, where one of the Rust's takes seconds), and a ratio is that of the two bests and that of the two middles. What stands in several \
tables was timed once. Each net has two folded triangles besides, and no vertex of it is pinched.

**A step of surgery costs a pass over the net.** update_vert, collapse_tri, remove_if_folded, form_loop, dedupe_edge and collapse_edge read the whole net before they touch it, to refuse one that is not sound; the Rust's touch a \
few rows. On a million triangles that is milliseconds beside nanoseconds, whatever the edge. It is the price of a call that may be made on any net at any time. A job uses what goes over the \
whole net in one call (split_pinched_verts, dedupe_edges, cleanup_topology), where the check is a share of the work; a loop over edges wants a batch, which comes by request.

What the Rust does not do is shown by itself, as the time of work of the same size: soundness is check_net on the same net, the spare a copy of the half-edge \
and position rows in use, clearing the two fills of the work buffer, and of the list where there is one.
";

const CLOSING: &str = "
![time against size](speed.svg)

The Rust has no soundness check: check_net is what it does not do. So check_net is put beside the Rust's split, which reads the same rows \
unchecked. The check goes by triangle and reads each row once and two numbers of its partner; where a row does not pass, a second pass looks for the least \
one that is not in order. The Rust's split walks every fan.

Our split_pinched_verts begins with that check. Then it walks each fan once, writes the order of the visits into the work buffer and counts the copies, so that a \
refusal leaves the net as it was. Where nothing is to be copied, as here, it lists that order and is done. Where the copies find room it goes over the order from front to end: \
it writes the visit list, and splits a later fan when it comes to its last half-edge. It clears the work buffer before and after. The Rust does the walk alone. What is neither soundness nor clearing is that walk and the pass over the order. The walk is bound by one read after \
the other (the pair, then next of it), as the Rust's is; what it has more is the entry of each half-edge, four bytes where the Rust has one.

On a shuffled net the rows of a fan lie anywhere. Past the caches each turn then waits for memory, on both sides: so the time of a half-edge grows there between the sizes of the caches, and not beyond them.

orbit_owners is for nets that need not be sound, so it has no such check; it clears its work buffer before and after. The Rust's is the build with the feature \
`parallel`, threshold 0: once over rayon with one thread, and once over a stand-in that makes one after another what rayon would share out.

dedupe_edges and cleanup_topology are asked of nets with nothing to do: one round, which lists no duplicate, and before it cleanup's split. The Rust finds the least half-edge of each end by going \
through a list of the ends met before, so its time grows with the square of the valence; ours keeps a table in the work buffer.

The operations of surgery are asked at one half-edge, and what they change is put back before the next call. The Rust's calls touch a few rows and take the same time \
whatever the net; ours read the whole net first, to refuse one that is not sound, and form_loop, dedupe_edge and collapse_edge copy it into the spare, to put it back where they are refused. So their time is that \
of these shares: their own work is too small beside it to be measured here.

The work of collapse_edge past its checks is what the entry calls between the copy into the spare and the end of the call (crates/innersteps exports it for the comparison); it lists the neighbours into a lent list, and tests each \
number of a row before it goes by it, which the Rust does by the bounds of its vectors.

The Rust crate's calls are those of its module edge_op over the Rust's own mesh, in kept buffers, beside the library's own functions on arrays of the same rows: what the crate adds is the room that it \
lends and clears, and the answer turned into a Result.

## Earlier, on x86-64

The figures wanted were set by runs on an x86-64 (torus of 1,000,000 triangles, whole call, ratio to the Rust, in order / shuffled; three runs). They are of other code than the tables above:

| state of the code | check_net | split_pinched_verts | orbit_owners, made one after another |
|---|---|---|---|
| commit 60c57db, before the quick pass of the check | 0.93 to 0.99 / 0.27 to 0.30 | 2.34 to 2.40 / 0.94 to 1.09 | 0.43 / 0.6 |
| the form that the check and the split have now, tried before it was proved | 0.72 to 0.84 / 0.22 | 2.09 to 2.16 / 0.68 to 0.83 | unchanged |
";
