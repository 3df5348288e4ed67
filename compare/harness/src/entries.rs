//! Each entry: how it is called between guards, what is owed, and what it is asked. A new entry is a line of `ALL` and these functions.

use crate::chance::Chance;
use crate::lent::{signed, Asked, Guarded, GuardedNet, Lent, Said, ROW};
use crate::reading::{self, bits_of, caught, Ran, Shortness};
use original::impl_mesh::ManifoldImpl;
use original::linalg::{dot, Vec3};
use spoonferret::raw;

pub struct Entry {
    pub name: &'static str,
    /// it works on a net; else on numbers alone
    pub on_nets: bool,
    /// the values that its answer tells, by name; 0 where they do not come
    pub fields: &'static [Field],
    pub ours: fn(&mut Lent, &Asked) -> Result<Said, String>,
    pub owed: fn(&mut Lent, &Asked) -> Said,
    pub asks: fn(&Lent, &mut Chance) -> Vec<Asked>,
    /// everything inside the limits that a small net can be asked
    pub all: fn(&Lent, &mut Chance) -> Vec<Asked>,
    /// the buffers that it takes, one short, exact, long, and filled with anything
    pub lends: fn(&mut Lent, &mut Chance),
}

fn no_buffers(_: &mut Lent, _: &mut Chance) {}

/// Calls an entry that works on a net, between guards: the counts, the five arrays, and what else it takes.
macro_rules! call {
    ($entry:ident, $g:ident $(, $more:expr)*) => {
        unsafe {
            raw::$entry(
                $g.used,
                $g.halfedges.at(),
                $g.halfedges.length(),
                $g.positions.at(),
                $g.positions.length(),
                $g.normals.at(),
                $g.normals.length(),
                $g.references.at(),
                $g.references.length(),
                $g.properties.at(),
                $g.properties.length()
                $(, $more)*
            )
        }
    };
}

pub enum Field {
    Signed(&'static str),
    Plain(&'static str),
}

use Field::{Plain, Signed};

fn nothing_asked(_: &Lent, _: &mut Chance) -> Vec<Asked> {
    Asked::nothing()
}

fn three_times(_: &Lent, _: &mut Chance) -> Vec<Asked> {
    vec![Asked::default(); 3]
}

pub const ALL: &[Entry] = &[
    Entry { name: "next_halfedge", on_nets: false, fields: &[Signed("next")], ours: next_ours, owed: next_owed, asks: edge_numbers, all: nothing_asked, lends: no_buffers },
    Entry { name: "tri_of", on_nets: false, fields: &[Signed("first"), Signed("second"), Signed("third")], ours: tri_ours, owed: tri_owed, asks: edge_numbers, all: nothing_asked, lends: no_buffers },
    Entry { name: "short_test", on_nets: false, fields: &[Plain("squared_length"), Plain("limit")], ours: short_ours, owed: short_owed, asks: short_asks, all: nothing_asked, lends: no_buffers },
    Entry { name: "check_net", on_nets: true, fields: &[Plain("row")], ours: check_ours, owed: check_owed, asks: nothing_asked, all: nothing_asked, lends: no_buffers },
    Entry { name: "pair_up", on_nets: true, fields: &[], ours: pair_ours, owed: pair_owed, asks: pair_asks, all: each_pair, lends: no_buffers },
    Entry {
        name: "split_pinched_verts",
        on_nets: true,
        fields: &[Plain("row"), Plain("added"), Plain("steps")],
        ours: split_ours,
        owed: split_owed,
        asks: three_times,
        all: nothing_asked,
        lends: split_lends,
    },
    Entry { name: "orbit_owners", on_nets: true, fields: &[Plain("count")], ours: owners_ours, owed: owners_owed, asks: owners_asks, all: owners_asks, lends: owners_lends },
    Entry { name: "update_vert", on_nets: true, fields: &[Plain("row")], ours: update_ours, owed: update_owed, asks: update_asks, all: each_update, lends: no_buffers },
    Entry { name: "collapse_tri", on_nets: true, fields: &[Plain("row")], ours: collapse_ours, owed: collapse_owed, asks: halfedge_asks, all: each_halfedge, lends: no_buffers },
    Entry { name: "remove_if_folded", on_nets: true, fields: &[Plain("row")], ours: fold_ours, owed: fold_owed, asks: halfedge_asks, all: each_halfedge, lends: no_buffers },
    Entry { name: "form_loop", on_nets: true, fields: &[Plain("row"), Plain("vertices")], ours: loop_ours, owed: loop_owed, asks: loop_asks, all: each_pair, lends: loop_lends },
    Entry { name: "dedupe_edge", on_nets: true, fields: GROWN, ours: dedupe_ours, owed: dedupe_owed, asks: halfedge_asks, all: each_halfedge, lends: loop_lends },
    Entry { name: "dedupe_edges", on_nets: true, fields: GROWN, ours: rounds_ours, owed: rounds_owed, asks: three_times, all: nothing_asked, lends: rounds_lends },
    Entry { name: "cleanup_topology", on_nets: true, fields: GROWN, ours: cleanup_ours, owed: cleanup_owed, asks: three_times, all: nothing_asked, lends: cleanup_lends },
    Entry {
        name: "collapse_edge",
        on_nets: true,
        fields: &[Plain("row"), Plain("vertices"), Plain("squared_length"), Plain("limit")],
        ours: edge_ours,
        owed: edge_owed,
        asks: edge_asks,
        all: each_edge,
        lends: edge_lends,
    },
];

/// What the entries that append triangles and vertices tell.
const GROWN: &[Field] = &[Plain("row"), Plain("halfedges"), Plain("vertices")];

// next_halfedge, tri_of: the Rust's sum that wraps is answer 4

fn next_ours(_: &mut Lent, a: &Asked) -> Result<Said, String> {
    let told = unsafe { raw::spoonferret_next_halfedge(a.numbers[0]) };
    Ok(Said::with(told.number, &[signed(told.next)]))
}

fn next_owed(_: &mut Lent, a: &Asked) -> Said {
    match caught(|| original::types::next_halfedge(a.numbers[0])) {
        Some(n) => Said::with(0, &[signed(n)]),
        None => Said::refused(4),
    }
}

fn tri_ours(_: &mut Lent, a: &Asked) -> Result<Said, String> {
    let told = unsafe { raw::spoonferret_tri_of(a.numbers[0]) };
    Ok(Said::with(told.number, &[signed(told.first), signed(told.second), signed(told.third)]))
}

fn tri_owed(_: &mut Lent, a: &Asked) -> Said {
    match caught(|| original::edge_op::private::tri_of(a.numbers[0] as usize)) {
        Some(t) => Said::with(0, &[signed(t[0] as i32), signed(t[1] as i32), signed(t[2] as i32)]),
        None => Said::refused(4),
    }
}

/// For the entries of one number: the answer's number at h, where both sides agree.
pub const EVERY_NUMBER: &[(&str, fn(i32) -> Option<u32>)] = &[
    ("next_halfedge", |h| {
        let told = unsafe { raw::spoonferret_next_halfedge(h) };
        let owed = caught(|| original::types::next_halfedge(h));
        let agree = match owed {
            Some(next) => (told.number, told.next) == (0, next),
            None => (told.number, told.next) == (4, 0),
        };
        agree.then_some(told.number)
    }),
    ("tri_of", |h| {
        let told = unsafe { raw::spoonferret_tri_of(h) };
        let owed = caught(|| original::edge_op::private::tri_of(h as usize));
        let tri = [told.first, told.second, told.third];
        let agree = match owed {
            Some(t) => told.number == 0 && tri == t.map(|x| x as i32),
            None => told.number == 4 && tri == [0; 3],
        };
        agree.then_some(told.number)
    }),
];

/// Numbers at and beside every limit, and others.
fn edge_numbers(_: &Lent, chance: &mut Chance) -> Vec<Asked> {
    let near = [i32::MIN, -2147483646, -1, 0, 3_000_000, i32::MAX];
    let mut all: Vec<i32> = near.iter().flat_map(|&n| (-4..=4).map(move |d| n.wrapping_add(d))).collect();
    all.extend((0..200).map(|_| chance.bits() as i32));
    all.iter().map(|&n| Asked::numbers(&[n])).collect()
}

// short_test: the Rust has it inside collapse_edge, so its expression stands here over the Rust's own difference and dot, and where the
// end vertex can be a row of a net of two triangles, collapse_edge itself is asked: with no references a long edge panics there

fn vector(b: &[u64]) -> Vec3 {
    Vec3::new(f64::from_bits(b[0]), f64::from_bits(b[1]), f64::from_bits(b[2]))
}

fn short_ours(_: &mut Lent, a: &Asked) -> Result<Said, String> {
    let point = |b: &[u64]| spoonferret::Vec3::new(f64::from_bits(b[0]), f64::from_bits(b[1]), f64::from_bits(b[2]));
    let f = &a.floats;
    let told = unsafe {
        raw::spoonferret_short_test(
            point(&f[0..3]),
            point(&f[3..6]),
            a.numbers[0],
            a.numbers[1],
            f64::from_bits(f[6]),
            f64::from_bits(f[7]),
        )
    };
    Ok(Said::with(told.number, &[told.squared_length, told.limit]))
}

fn short_owed(_: &mut Lent, a: &Asked) -> Said {
    let f = &a.floats;
    let (end_vert, first_new_vert) = (a.numbers[0], a.numbers[1]);
    let (tol, epsilon) = (f64::from_bits(f[6]), f64::from_bits(f[7]));
    let kept = if tol < 0.0 { epsilon } else { tol };
    let delta = vector(&f[3..6]) - vector(&f[0..3]);
    let limit = if end_vert < first_new_vert { kept * kept } else { epsilon * epsilon };
    let length = dot(delta, delta);
    let short = length < limit;
    if (1..=8).contains(&end_vert) && collapses(f, end_vert, first_new_vert, tol, epsilon) != short {
        return Said::refused(99); // the expression is not collapse_edge's: shows as a difference
    }
    if short {
        Said::done()
    } else {
        Said::with(8, &[bits_of(length), bits_of(limit)])
    }
}

/// Whether the original's collapse_edge takes the edge from vertex 0 to `end` of two triangles back to back for short.
fn collapses(f: &[u64], end: i32, first_new_vert: i32, tol: f64, epsilon: f64) -> bool {
    let third = if end == 9 { 8 } else { 9 };
    let rows = [[0, end, 3], [end, third, 5], [third, 0, 4], [end, 0, 0], [0, third, 2], [third, end, 1]];
    let mut mesh = ManifoldImpl {
        epsilon,
        vert_pos: vec![Vec3::new(0.5, 0.5, 0.5); 10],
        halfedge: rows
            .iter()
            .map(|r| original::types::Halfedge { start_vert: r[0], end_vert: r[1], paired_halfedge: r[2], prop_vert: -1 })
            .collect(),
        ..Default::default()
    };
    mesh.vert_pos[0] = vector(&f[0..3]);
    mesh.vert_pos[end as usize] = vector(&f[3..6]);
    caught(|| original::edge_op::collapse_edge(&mut mesh, 0, &mut vec![], tol, first_new_vert)) == Some(true)
}

fn short_asks(_: &Lent, chance: &mut Chance) -> Vec<Asked> {
    let special = [
        0.0,
        -0.0,
        1.0,
        -1.0,
        3.0,
        4.0,
        5.0,
        -5.0,
        6.0,
        1e-200,
        1e-160,
        1e160,
        1e200,
        f64::MIN_POSITIVE,
        5e-324,
        f64::MAX,
        f64::INFINITY,
        f64::NEG_INFINITY,
        f64::NAN,
        0.1,
        1.0 + f64::EPSILON,
    ];
    let mut patterns: Vec<u64> = special.iter().map(|x: &f64| x.to_bits()).collect();
    patterns.extend([0x7FF0_0000_0000_0001, 0xFFF8_0000_0000_0000, 0xFFF0_0000_0000_0002, 0x7FFF_FFFF_FFFF_FFFF, 0x8000_0000_0000_0001]);
    let ends = [-1, 0, 1, 2, 8, i32::MIN, i32::MAX];
    let beside = |x: u64, chance: &mut Chance| x.wrapping_add(chance.below(3) as u64).wrapping_sub(1);
    (0..400)
        .map(|i| {
            let mut floats: Vec<u64> = match i % 4 {
                // any patterns
                0 => (0..8).map(|_| chance.bits()).collect(),
                // patterns of interest
                1 => (0..8).map(|_| *chance.pick(&patterns)).collect(),
                // plain numbers of like size
                2 => (0..8).map(|_| ((chance.bits() % 2001) as f64 / 64.0 - 15.0).to_bits()).collect(),
                // 3, 4, 5 scaled, so that length and limit are equal
                _ => {
                    let s = f64::from_bits((1023 - 20 + chance.below(40) as u64) << 52);
                    [0.0, 0.0, 0.0, 3.0 * s, 4.0 * s, 0.0, 5.0 * s, 5.0 * s].iter().map(|x| x.to_bits()).collect()
                }
            };
            if i % 4 == 3 {
                // and one step beside that
                for k in [3, 6, 7] {
                    floats[k] = beside(floats[k], chance);
                }
            }
            if chance.once_in(6) {
                floats[6] = (-1.0f64).to_bits();
            }
            let end = *chance.pick(&ends);
            let first = *chance.pick(&[end, end.saturating_add(1), end.saturating_sub(1), 0, i32::MAX, i32::MIN]);
            Asked { numbers: vec![end, first], floats, choice: false }
        })
        .collect()
}

// check_net: added by document 01, so the second reading alone says what is owed

fn check_ours(l: &mut Lent, _: &Asked) -> Result<Said, String> {
    let mut g = GuardedNet::of(l);
    let told = call!(spoonferret_check_net, g);
    g.back(l)?;
    Ok(Said::with(told.number, &[told.row as u64]))
}

fn check_owed(l: &mut Lent, _: &Asked) -> Said {
    reading::refused_as_net(l).unwrap_or_else(Said::done)
}

// pair_up

fn pair_ours(l: &mut Lent, a: &Asked) -> Result<Said, String> {
    let mut g = GuardedNet::of(l);
    let told = call!(spoonferret_pair_up, g, a.numbers[0], a.numbers[1]);
    g.back(l)?;
    Ok(Said::refused(told.number))
}

fn pair_owed(l: &mut Lent, a: &Asked) -> Said {
    if reading::misshapen(l) {
        return Said::refused(1);
    }
    let (first, second) = (a.numbers[0], a.numbers[1]);
    if reading::no_halfedge(l, first) || reading::no_halfedge(l, second) {
        return Said::refused(4);
    }
    match reading::run(l, |mesh| original::edge_op::pair_up(&mut mesh.halfedge, first as usize, second as usize)) {
        Ran::Done(()) => Said::done(),
        Ran::NoRoom => Said::refused(6),
        Ran::Stopped => Said::refused(7),
    }
}

/// Numbers at and beside the limits of 0..count, and one inside.
fn beside(count: usize, chance: &mut Chance) -> [i32; 6] {
    let most = count.min(i32::MAX as usize) as i32;
    [-1, 0, most.saturating_sub(1), most, inside(count, chance), *chance.pick(&[i32::MIN, i32::MAX, most.saturating_add(1), -2])]
}

/// One of 0..count, where there is one.
fn inside(count: usize, chance: &mut Chance) -> i32 {
    let most = count.min(i32::MAX as usize);
    if most > 0 {
        chance.below(most) as i32
    } else {
        0
    }
}

fn pair_asks(l: &Lent, chance: &mut Chance) -> Vec<Asked> {
    let (a, b) = (beside(l.used.halfedges, chance), beside(l.used.halfedges, chance));
    let mut all: Vec<Asked> = (0..6).map(|i| Asked::numbers(&[a[i], b[(i + 1 + chance.below(5)) % 6]])).collect();
    all.push(Asked::numbers(&[a[4], b[4]]));
    all.push(Asked::numbers(&[a[4], a[4]]));
    all
}

fn halfedge_asks(l: &Lent, chance: &mut Chance) -> Vec<Asked> {
    let mut all: Vec<Asked> = beside(l.used.halfedges, chance).iter().map(|&h| Asked::numbers(&[h])).collect();
    all.extend((0..2).map(|_| Asked::numbers(&[inside(l.used.halfedges, chance)])));
    all
}

fn each_halfedge(l: &Lent, _: &mut Chance) -> Vec<Asked> {
    (0..l.used.halfedges as i32).map(|h| Asked::numbers(&[h])).collect()
}

fn each_pair(l: &Lent, _: &mut Chance) -> Vec<Asked> {
    let rows = l.used.halfedges as i32;
    (0..rows).flat_map(|a| (0..rows).map(move |b| Asked::numbers(&[a, b]))).collect()
}

// split_pinched_verts: the Rust's sequential arm; the visit list and the work buffer are document 01's own

/// So many elements, mostly enough, holding anything.
fn lent_about<T>(needed: usize, chance: &mut Chance, of: impl Fn(u64) -> T) -> Vec<T> {
    // counts that no net can have are answer 1 whatever is lent
    let needed = if needed > 12_000_000 { 20 } else { needed };
    let length = match chance.below(8) {
        0 => needed.saturating_sub(1),
        1 => 0,
        2 | 3 => needed,
        _ => needed + 1 + chance.below(4),
    };
    (0..length).map(|_| of(chance.bits() | 1)).collect()
}

/// How many half-edges there is room for, those in use among them.
fn halfedge_capacity(l: &Lent) -> usize {
    3 * reading::triangle_capacity(l)
}

/// Every buffer that an entry takes, long enough.
pub fn lend_enough(l: &mut Lent, chance: &mut Chance) {
    let (rows, vertices) = (l.used.halfedges, l.used.vertices);
    let capacity = rows.max(halfedge_capacity(l));
    let mut anything = |needed: usize| -> Vec<u64> { (0..needed + chance.below(2)).map(|_| chance.bits() | 1).collect() };
    l.work_bytes = anything(rows).iter().map(|&b| b as u8).collect();
    l.work_words = anything(capacity + vertices).iter().map(|&b| b as u32).collect();
    l.list = anything(capacity).iter().map(|&b| b as u32).collect();
    l.spare_halfedges = anything(ROW * rows).iter().map(|&b| b as i32).collect();
    l.spare_positions = anything(3 * vertices);
}

fn split_lends(l: &mut Lent, chance: &mut Chance) {
    l.work_words = lent_about(l.used.halfedges.saturating_add(l.used.vertices), chance, |b| b as u32);
    l.list = lent_about(l.used.halfedges, chance, |b| b as u32);
}

fn split_ours(l: &mut Lent, _: &Asked) -> Result<Said, String> {
    let mut g = GuardedNet::of(l);
    let (mut work, mut list) = (Guarded::new(&l.work_words), Guarded::new(&l.list));
    let told = call!(spoonferret_split_pinched_verts, g, work.at(), work.length(), list.at(), list.length());
    g.back(l)?;
    work.back("work buffer", &mut l.work_words)?;
    list.back("visit list", &mut l.list)?;
    l.used.vertices += told.added;
    Ok(Said::with(told.number, &[told.row as u64, told.added as u64, told.steps as u64]))
}

fn split_owed(l: &mut Lent, _: &Asked) -> Said {
    let refused = |number: u32, row: u64| Said::with(number, &[row, 0, 0]);
    if reading::misshapen(l) {
        return refused(1, 0);
    }
    let (rows, vertices) = (l.used.halfedges, l.used.vertices);
    if l.work_words.len() < rows + vertices || l.list.len() < rows {
        return refused(2, 0);
    }
    if let Some(row) = reading::first_unsound(l) {
        return refused(3, row as u64);
    }
    let visited = reading::visited(l);
    l.work_words[..rows + vertices].fill(0);
    match reading::run(l, original::edge_op::split_pinched_verts) {
        Ran::Done(()) => {
            for (entry, h) in l.list.iter_mut().zip(&visited) {
                *entry = *h as u32;
            }
            Said::with(0, &[0, (l.used.vertices - vertices) as u64, visited.len() as u64])
        }
        Ran::NoRoom => {
            // the steps had filled every free vertex row
            let most = reading::vertex_capacity(l);
            l.positions[3 * vertices..3 * most].fill(0);
            refused(6, 0)
        }
        Ran::Stopped => refused(7, 0),
    }
}

/// What the original leaves past the answers 1 to 5, and the second reading besides: where the two are not the same, 99, which shows as a difference.
fn agreed(l: &mut Lent, read: impl FnOnce(&mut Lent) -> Said, original: impl FnOnce(&mut ManifoldImpl)) -> Said {
    let moves = 100 + 10 * l.used.halfedges.min(10_000_000) as u64;
    agreed_within(l, moves, read, original)
}

/// The same, where the original's walks together may make so many moves before they count as endless.
fn agreed_within(l: &mut Lent, moves: u64, read: impl FnOnce(&mut Lent) -> Said, original: impl FnOnce(&mut ManifoldImpl)) -> Said {
    let mut left = l.clone();
    let said = read(&mut left);
    let agree = match said.number {
        0 => matches!(reading::run_within(l, moves, original), Ran::Done(())) && {
            // the Rust has no such buffers
            (l.spare_halfedges, l.spare_positions) = (left.spare_halfedges.clone(), left.spare_positions.clone());
            (l.work_words, l.list) = (left.work_words.clone(), left.list.clone());
            l.differs(&left).is_none()
        },
        6 => matches!(reading::run_within(l, moves, original), Ran::NoRoom),
        7 => matches!(reading::run_within(l, moves, original), Ran::Stopped),
        _ => true,
    };
    *l = left;
    if agree {
        said
    } else {
        Said::refused(99)
    }
}

// orbit_owners: the Rust built with its feature `parallel`, threshold 0, on one thread

fn owners_asks(_: &Lent, _: &mut Chance) -> Vec<Asked> {
    [false, true, false, true].map(|choice| Asked { choice, ..Asked::default() }).to_vec()
}

fn owners_lends(l: &mut Lent, chance: &mut Chance) {
    l.work_bytes = lent_about(l.used.halfedges, chance, |b| b as u8);
    l.list = lent_about(l.used.halfedges, chance, |b| b as u32);
}

fn owners_ours(l: &mut Lent, a: &Asked) -> Result<Said, String> {
    let mut g = GuardedNet::of(l);
    let (mut work, mut list) = (Guarded::new(&l.work_bytes), Guarded::new(&l.list));
    let told = call!(spoonferret_orbit_owners, g, work.at(), work.length(), list.at(), list.length(), a.choice);
    g.back(l)?;
    work.back("work buffer", &mut l.work_bytes)?;
    list.back("list", &mut l.list)?;
    Ok(Said::with(told.number, &[told.count as u64]))
}

fn owners_owed(l: &mut Lent, a: &Asked) -> Said {
    let rows: Vec<parallel::types::Halfedge> = l
        .rows()
        .take(l.used.halfedges)
        .map(|&[start_vert, end_vert, paired_halfedge, prop_vert]| parallel::types::Halfedge { start_vert, end_vert, paired_halfedge, prop_vert })
        .collect();
    let said = reading::orbit_owners(l, a.choice);
    let owned = |said: &Said| match said.number {
        0 => Some(l.list[..said.values[0] as usize].iter().map(|&h| h as usize).collect::<Vec<usize>>()),
        _ => None,
    };
    let agree = said.number < 3 && said.number > 0 || caught(|| parallel::edge_op::private::orbit_owners(&rows, a.choice)) == Some(owned(&said));
    if agree {
        said
    } else {
        Said::refused(99)
    }
}

// update_vert

/// Where a walk of update_vert is after so many moves, as long as there is a row.
fn on_the_way(l: &Lent, start: i32, moves: usize) -> i32 {
    let mut at = start;
    for _ in 0..moves {
        let next = at as usize / 3 * 3 + (at as usize + 1) % 3;
        match l.halfedges.get(ROW * next + 2) {
            Some(&p) if p >= 0 => at = p,
            _ => break,
        }
    }
    at
}

fn update_asks(l: &Lent, chance: &mut Chance) -> Vec<Asked> {
    let (rows, vertices) = (l.used.halfedges, l.used.vertices);
    let mut all = vec![];
    for i in 0..9 {
        let start = inside(rows, chance);
        let mut numbers = [inside(vertices, chance), start, on_the_way(l, start, chance.below(6))];
        if i < 6 {
            let limits = beside(if i % 3 == 0 { vertices } else { rows }, chance);
            numbers[i % 3] = *chance.pick(&limits);
        }
        all.push(Asked::numbers(&numbers));
    }
    all
}

/// Every start and end, in the smallest nets with every vertex.
fn each_update(l: &Lent, chance: &mut Chance) -> Vec<Asked> {
    let vertices = l.used.vertices as i32;
    each_pair(l, chance)
        .iter()
        .flat_map(|a| {
            let named = if l.used.halfedges > 6 { vec![chance.below(vertices as usize) as i32] } else { (0..vertices).collect() };
            named.into_iter().map(|v| Asked::numbers(&[v, a.numbers[0], a.numbers[1]])).collect::<Vec<_>>()
        })
        .collect()
}

fn update_ours(l: &mut Lent, a: &Asked) -> Result<Said, String> {
    let mut g = GuardedNet::of(l);
    let told = call!(spoonferret_update_vert, g, a.numbers[0], a.numbers[1], a.numbers[2]);
    g.back(l)?;
    Ok(Said::with(told.number, &[told.row as u64]))
}

fn update_owed(l: &mut Lent, a: &Asked) -> Said {
    let [vertex, start, end] = [a.numbers[0], a.numbers[1], a.numbers[2]];
    agreed(
        l,
        |l| reading::update_vert(l, vertex, start, end),
        |mesh| original::edge_op::update_vert(mesh, vertex, start as usize, end as usize),
    )
}

// collapse_tri: the Rust takes the three numbers of tri_of

fn collapse_ours(l: &mut Lent, a: &Asked) -> Result<Said, String> {
    let mut g = GuardedNet::of(l);
    let told = call!(spoonferret_collapse_tri, g, a.numbers[0]);
    g.back(l)?;
    Ok(Said::with(told.number, &[told.row as u64]))
}

fn collapse_owed(l: &mut Lent, a: &Asked) -> Said {
    let h = a.numbers[0];
    agreed(
        l,
        |l| reading::collapse_tri(l, h),
        |mesh| original::edge_op::collapse_tri(&mut mesh.halfedge, original::edge_op::private::tri_of(h as usize)),
    )
}

// remove_if_folded

fn fold_ours(l: &mut Lent, a: &Asked) -> Result<Said, String> {
    let mut g = GuardedNet::of(l);
    let told = call!(spoonferret_remove_if_folded, g, a.numbers[0]);
    g.back(l)?;
    Ok(Said::with(told.number, &[told.row as u64]))
}

fn fold_owed(l: &mut Lent, a: &Asked) -> Said {
    let h = a.numbers[0];
    agreed(l, |l| reading::remove_if_folded(l, h), |mesh| original::edge_op::remove_if_folded(mesh, h as usize))
}

// form_loop

/// A row that starts and ends where h does, h itself among them.
fn alongside(l: &Lent, h: i32, chance: &mut Chance) -> i32 {
    let Some(row) = l.halfedges.get(ROW * h as usize..ROW * h as usize + 2) else {
        return h;
    };
    let all: Vec<usize> = (0..l.used.halfedges.min(l.rows_lent())).filter(|&g| &l.row(g)[..2] == row).collect();
    all.get(inside(all.len(), chance) as usize).map_or(h, |&g| g as i32)
}

fn loop_asks(l: &Lent, chance: &mut Chance) -> Vec<Asked> {
    let rows = l.used.halfedges;
    let mut all = vec![];
    for i in 0..8 {
        let limits = beside(rows, chance);
        let first = limits[4];
        let mut numbers = [first, if i % 2 == 0 { first } else { alongside(l, first, chance) }];
        match i {
            0..=3 => numbers[i % 2] = *chance.pick(&limits),
            4 => numbers[1] = inside(rows, chance),
            _ => {}
        }
        all.push(Asked::numbers(&numbers));
    }
    all
}

fn loop_lends(l: &mut Lent, chance: &mut Chance) {
    l.spare_halfedges = lent_about(l.used.halfedges.saturating_mul(ROW), chance, |b| b as i32);
    l.spare_positions = lent_about(l.used.vertices.saturating_mul(3), chance, |b| b);
}

fn loop_ours(l: &mut Lent, a: &Asked) -> Result<Said, String> {
    let mut g = GuardedNet::of(l);
    let (mut saved, mut held) = (Guarded::new(&l.spare_halfedges), Guarded::new(&l.spare_positions));
    let told = call!(
        spoonferret_form_loop,
        g,
        saved.at(),
        saved.length(),
        held.at(),
        held.length(),
        a.numbers[0],
        a.numbers[1]
    );
    g.back(l)?;
    saved.back("spare half-edges", &mut l.spare_halfedges)?;
    held.back("spare positions", &mut l.spare_positions)?;
    if told.number == 0 {
        l.used.vertices = told.vertices;
    }
    Ok(Said::with(told.number, &[told.row as u64, told.vertices as u64]))
}

fn loop_owed(l: &mut Lent, a: &Asked) -> Said {
    let (first, second) = (a.numbers[0], a.numbers[1]);
    agreed(l, |l| reading::form_loop(l, first, second), |mesh| original::edge_op::form_loop(mesh, first as usize, second as usize))
}

// dedupe_edge, dedupe_edges, cleanup_topology: on a sound net the Rust is always done, so its moves need no limit

/// Writes back what a call between guards left in the spares, the work buffer and the list.
fn buffers_back(l: &mut Lent, saved: Guarded<i32>, held: Guarded<u64>, work: Guarded<u32>, list: Guarded<u32>) -> Result<(), String> {
    saved.back("spare half-edges", &mut l.spare_halfedges)?;
    held.back("spare positions", &mut l.spare_positions)?;
    work.back("work buffer", &mut l.work_words)?;
    list.back("list", &mut l.list)
}

/// What a call that appends triangles and vertices tells, with the counts that it leaves.
fn grown(l: &mut Lent, number: u32, row: usize, halfedges: usize, vertices: usize) -> Said {
    if number == 0 {
        (l.used.halfedges, l.used.vertices) = (halfedges, vertices);
        for faces in [&mut l.used.normals, &mut l.used.references].into_iter().filter(|n| **n != 0) {
            *faces = halfedges / 3;
        }
    }
    Said::with(number, &[row as u64, halfedges as u64, vertices as u64])
}

fn dedupe_ours(l: &mut Lent, a: &Asked) -> Result<Said, String> {
    let mut g = GuardedNet::of(l);
    let (mut saved, mut held) = (Guarded::new(&l.spare_halfedges), Guarded::new(&l.spare_positions));
    let told = call!(spoonferret_dedupe_edge, g, saved.at(), saved.length(), held.at(), held.length(), a.numbers[0]);
    g.back(l)?;
    saved.back("spare half-edges", &mut l.spare_halfedges)?;
    held.back("spare positions", &mut l.spare_positions)?;
    Ok(grown(l, told.number, told.row, told.halfedges, told.vertices))
}

fn dedupe_owed(l: &mut Lent, a: &Asked) -> Said {
    let h = a.numbers[0];
    agreed_within(l, u64::MAX, |l| reading::dedupe_edge(l, h), |mesh| original::edge_op::dedupe_edge(mesh, h as usize))
}

/// Spares, a work buffer and a list that need so much, mostly enough; one of them short now and then.
fn lent_together(l: &mut Lent, work: usize, list: usize, chance: &mut Chance) {
    let sizes = [l.used.halfedges.saturating_mul(ROW), l.used.vertices.saturating_mul(3), work, list];
    let one_short = chance.once_in(3).then(|| chance.below(4));
    let mut filled = |k: usize| -> Vec<u64> {
        if one_short == Some(k) {
            return lent_about(sizes[k], chance, |b| b);
        }
        let enough = if sizes[k] > 12_000_000 { 20 } else { sizes[k] + chance.below(3) };
        (0..enough).map(|_| chance.bits() | 1).collect()
    };
    l.spare_halfedges = filled(0).iter().map(|&b| b as i32).collect();
    l.spare_positions = filled(1);
    l.work_words = filled(2).iter().map(|&b| b as u32).collect();
    l.list = filled(3).iter().map(|&b| b as u32).collect();
}

fn rounds_lends(l: &mut Lent, chance: &mut Chance) {
    let capacity = halfedge_capacity(l);
    lent_together(l, capacity, capacity, chance);
}

fn cleanup_lends(l: &mut Lent, chance: &mut Chance) {
    let capacity = halfedge_capacity(l);
    lent_together(l, capacity.saturating_add(l.used.vertices), capacity, chance);
}

/// The entries that take the spares, a work buffer and a list, and no number.
macro_rules! on_the_whole {
    ($ours:ident, $entry:ident) => {
        fn $ours(l: &mut Lent, _: &Asked) -> Result<Said, String> {
            let mut g = GuardedNet::of(l);
            let (mut saved, mut held) = (Guarded::new(&l.spare_halfedges), Guarded::new(&l.spare_positions));
            let (mut work, mut list) = (Guarded::new(&l.work_words), Guarded::new(&l.list));
            let told = call!(
                $entry,
                g,
                saved.at(),
                saved.length(),
                held.at(),
                held.length(),
                work.at(),
                work.length(),
                list.at(),
                list.length()
            );
            g.back(l)?;
            buffers_back(l, saved, held, work, list)?;
            Ok(grown(l, told.number, told.row, told.halfedges, told.vertices))
        }
    };
}

on_the_whole!(rounds_ours, spoonferret_dedupe_edges);
on_the_whole!(cleanup_ours, spoonferret_cleanup_topology);

fn rounds_owed(l: &mut Lent, _: &Asked) -> Said {
    agreed_within(l, u64::MAX, reading::dedupe_edges, original::edge_op::dedupe_edges)
}

fn cleanup_owed(l: &mut Lent, _: &Asked) -> Said {
    agreed_within(l, u64::MAX, reading::cleanup_topology, original::edge_op::cleanup_topology)
}

// collapse_edge: the short arm; the Rust takes epsilon from its mesh, and with no references its long arm panics

/// The half-edge with numbers that make its edge surely short, short or long, or long by a NaN.
fn edge_asked(l: &Lent, h: i32, surely: bool, chance: &mut Chance) -> Asked {
    let row = l.halfedges.get(ROW * (h.max(0) as usize)..).and_then(|r| r.get(..2)).unwrap_or(&[0, 0]);
    let end = row[1];
    let (mut first, mut floats) = (*chance.pick(&[i32::MAX, end.saturating_add(1), end, 0]), [1e9, 1e9]);
    if !surely {
        first = *chance.pick(&[end, end.saturating_add(1), end.saturating_sub(1), 0, i32::MIN, i32::MAX]);
        // the length itself: equal is long
        let at = |v: i32, k: usize| l.positions.get((v.max(0) as usize).saturating_mul(3) + k).map_or(0.0, |&b| f64::from_bits(b));
        let length: f64 = (0..3).map(|k| (at(row[1], k) - at(row[0], k)).powi(2)).sum();
        let any = [length.sqrt(), length.sqrt(), 4.0, 8.0, 12.0, 1e9, f64::INFINITY, -1.0, -8.0, -0.0, 0.0, f64::NAN, 1e-300];
        floats = [*chance.pick(&any), *chance.pick(&any)];
    }
    Asked { numbers: vec![h, first], floats: floats.map(f64::to_bits).to_vec(), choice: false }
}

fn edge_asks(l: &Lent, chance: &mut Chance) -> Vec<Asked> {
    let mut all: Vec<Asked> = beside(l.used.halfedges, chance).iter().map(|&h| edge_asked(l, h, false, chance)).collect();
    for surely in [true, true, false] {
        let h = inside(l.used.halfedges, chance);
        all.push(edge_asked(l, h, surely, chance));
    }
    all
}

fn each_edge(l: &Lent, chance: &mut Chance) -> Vec<Asked> {
    (0..l.used.halfedges as i32).flat_map(|h| [edge_asked(l, h, true, chance), edge_asked(l, h, false, chance)]).collect()
}

fn edge_lends(l: &mut Lent, chance: &mut Chance) {
    let capacity = halfedge_capacity(l);
    lent_together(l, 0, capacity, chance);
    l.work_words.clear();
}

fn edge_ours(l: &mut Lent, a: &Asked) -> Result<Said, String> {
    let mut g = GuardedNet::of(l);
    let (mut saved, mut held) = (Guarded::new(&l.spare_halfedges), Guarded::new(&l.spare_positions));
    let mut list = Guarded::new(&l.list);
    let told = call!(
        spoonferret_collapse_edge,
        g,
        saved.at(),
        saved.length(),
        held.at(),
        held.length(),
        list.at(),
        list.length(),
        a.numbers[0],
        a.numbers[1],
        f64::from_bits(a.floats[0]),
        f64::from_bits(a.floats[1])
    );
    g.back(l)?;
    saved.back("spare half-edges", &mut l.spare_halfedges)?;
    held.back("spare positions", &mut l.spare_positions)?;
    list.back("list", &mut l.list)?;
    if told.number == 0 {
        l.used.vertices = told.vertices;
    }
    Ok(Said::with(told.number, &[told.row as u64, told.vertices as u64, told.squared_length, told.limit]))
}

fn edge_owed(l: &mut Lent, a: &Asked) -> Said {
    let (h, first_new_vert) = (a.numbers[0], a.numbers[1]);
    let [tol, epsilon] = [0, 1].map(|k| f64::from_bits(a.floats[k]));
    let collapsed = |mesh: &mut ManifoldImpl| {
        mesh.epsilon = epsilon;
        assert!(original::edge_op::collapse_edge(mesh, h as usize, &mut vec![], tol, first_new_vert));
    };
    // a loop begins the count of moves anew, and there are at most as many as half-edges listed
    let rows = l.used.halfedges.min(10_000_000) as u64;
    let moves = 100 + 10 * rows * rows.min(1_000);
    let mut bare = l.clone();
    let said = agreed_within(l, moves, |l| reading::collapse_edge(l, h, Shortness { first_new_vert, tol, epsilon }), collapsed);
    if said.number == 8 {
        (bare.used.references, bare.used.normals) = (0, 0);
        if !matches!(reading::run_within(&mut bare, moves, collapsed), Ran::Stopped) {
            return Said::refused(99); // the original takes it for short: shows as a difference
        }
    }
    said
}
