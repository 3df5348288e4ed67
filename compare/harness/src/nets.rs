//! Nets to call on: all small sound ones, random sound ones, large ones, damaged ones, and counts at and beside their limits.

use crate::chance::Chance;
use crate::lent::{Lent, ROW};
use std::collections::HashMap;

fn next(h: usize) -> usize {
    h / 3 * 3 + (h + 1) % 3
}

/// A net from starts and pairs, every triangle live.
pub fn net_of(starts: &[usize], pairs: &[usize], vertices: usize) -> Lent {
    let mut l = Lent::default();
    for (h, &start) in starts.iter().enumerate() {
        l.push([start as i32, starts[next(h)] as i32, pairs[h] as i32, -1]);
    }
    l.positions = (0..3 * vertices).map(|i| (i as f64 / 4.0).to_bits()).collect();
    l.used.halfedges = starts.len();
    l.used.vertices = vertices;
    l
}

/// Every sound net of so many live triangles, up to the names of vertices: every pairing, and every way to let fans share vertices that
/// keeps the three starts of each triangle apart.
pub fn all_sound(triangles: usize, each: &mut impl FnMut(Lent)) {
    let rows = 3 * triangles;
    pair_on(&mut vec![usize::MAX; rows], &mut |pairs| {
        // fans: the half-edges that turning joins
        let mut fan = vec![usize::MAX; rows];
        let mut fans = 0;
        for h in 0..rows {
            if fan[h] == usize::MAX {
                let mut c = h;
                while fan[c] == usize::MAX {
                    fan[c] = fans;
                    c = next(pairs[c]);
                }
                fans += 1;
            }
        }
        share(&fan, fans, &mut vec![], 0, &mut |vertex_of, vertices| {
            let starts: Vec<usize> = fan.iter().map(|&f| vertex_of[f]).collect();
            each(net_of(&starts, pairs, vertices));
        });
    });
}

fn pair_on(pairs: &mut Vec<usize>, each: &mut impl FnMut(&[usize])) {
    let Some(h) = pairs.iter().position(|&p| p == usize::MAX) else {
        return each(pairs);
    };
    for g in h + 1..pairs.len() {
        // a pair within a triangle would make two of its starts one
        if pairs[g] == usize::MAX && g / 3 != h / 3 {
            (pairs[h], pairs[g]) = (g, h);
            pair_on(pairs, each);
            (pairs[h], pairs[g]) = (usize::MAX, usize::MAX);
        }
    }
}

fn share(fan: &[usize], fans: usize, vertex_of: &mut Vec<usize>, vertices: usize, each: &mut impl FnMut(&[usize], usize)) {
    let apart = fan.chunks(3).all(|t| {
        let at = |k: usize| vertex_of.get(t[k]);
        (0..3).all(|k| at(k).is_none() || at(k) != at((k + 1) % 3)) && t[0] != t[1] && t[1] != t[2] && t[2] != t[0]
    });
    if !apart {
        return;
    }
    if vertex_of.len() == fans {
        return each(vertex_of, vertices);
    }
    for v in 0..=vertices {
        vertex_of.push(v);
        share(fan, fans, vertex_of, vertices.max(v + 1), each);
        vertex_of.pop();
    }
}

/// A closed piece as triangles over its own vertices.
fn piece(chance: &mut Chance) -> Vec<[usize; 3]> {
    match chance.below(5) {
        0 => vec![[0, 1, 2], [2, 1, 0]],
        1 => vec![[0, 1, 2], [0, 3, 1], [1, 3, 2], [2, 3, 0]],
        2 | 3 => bipyramid(3 + chance.below(6)),
        _ => torus(3 + chance.below(3), 3 + chance.below(3)),
    }
}

pub fn bipyramid(valence: usize) -> Vec<[usize; 3]> {
    let (top, bottom) = (valence, valence + 1);
    (0..valence).flat_map(|i| { let j = (i + 1) % valence; [[i, j, top], [j, i, bottom]] }).collect()
}

pub fn torus(a: usize, b: usize) -> Vec<[usize; 3]> {
    let at = |i: usize, j: usize| (i % a) * b + j % b;
    (0..a)
        .flat_map(|i| (0..b).map(move |j| (i, j)))
        .flat_map(|(i, j)| {
            [[at(i, j), at(i + 1, j), at(i + 1, j + 1)], [at(i, j), at(i + 1, j + 1), at(i, j + 1)]]
        })
        .collect()
}

/// Pairs by the ends: each row with one that runs the opposite way, the first there is, or any.
fn paired_by_ends(triangles: &[[usize; 3]], chance: Option<&mut Chance>) -> Vec<usize> {
    let mut waiting: HashMap<(usize, usize), Vec<usize>> = HashMap::new();
    for (t, tri) in triangles.iter().enumerate() {
        for k in 0..3 {
            waiting.entry((tri[k], tri[(k + 1) % 3])).or_default().push(3 * t + k);
        }
    }
    let mut edges: Vec<(usize, usize)> = waiting.keys().copied().filter(|(a, b)| a < b).collect();
    edges.sort_unstable();
    let mut pairs = vec![0; 3 * triangles.len()];
    let mut chance = chance;
    for (a, b) in edges {
        let one = waiting[&(a, b)].clone();
        let mut other = waiting[&(b, a)].clone();
        if let Some(chance) = chance.as_deref_mut() {
            chance.shuffle(&mut other);
        }
        for (&h, &g) in one.iter().zip(&other) {
            (pairs[h], pairs[g]) = (g, h);
        }
    }
    pairs
}

/// Triangles in another order, each begun at another corner; pairs follow.
fn shuffled(triangles: &mut [[usize; 3]], pairs: &mut [usize], chance: &mut Chance) {
    let count = triangles.len();
    let mut order: Vec<usize> = (0..count).collect();
    chance.shuffle(&mut order);
    let turns: Vec<usize> = (0..count).map(|_| chance.below(3)).collect();
    let mut place = vec![0; 3 * count];
    for (to, &from) in order.iter().enumerate() {
        for k in 0..3 {
            place[3 * from + (k + turns[to]) % 3] = 3 * to + k;
        }
    }
    let (old_triangles, old_pairs) = (triangles.to_vec(), pairs.to_vec());
    for h in 0..3 * count {
        triangles[place[h] / 3][place[h] % 3] = old_triangles[h / 3][h % 3];
        pairs[place[h]] = place[old_pairs[h]];
    }
}

/// A random sound net: pieces, vertices pinched together, pairs exchanged among rows with the same ends, dead triangles, loose vertices,
/// references, normals, properties, and free rows that hold anything.
pub fn random_sound(chance: &mut Chance) -> Lent {
    let mut triangles: Vec<[usize; 3]> = vec![];
    let mut vertices = 0;
    for _ in 0..1 + chance.below(4) {
        let piece = piece(chance);
        let most = piece.iter().flatten().max().map_or(0, |m| m + 1);
        triangles.extend(piece.iter().map(|t| t.map(|v| v + vertices)));
        vertices += most;
    }
    let mut pairs = paired_by_ends(&triangles, None);
    for _ in 0..chance.below(1 + 2 * vertices) {
        let (kept, lost) = (chance.below(vertices), chance.below(vertices));
        if kept != lost && !triangles.iter().any(|t| t.contains(&kept) && t.contains(&lost)) {
            for v in triangles.iter_mut().flatten().filter(|v| **v == lost) {
                *v = kept;
            }
        }
    }
    if chance.once_in(2) {
        pairs = paired_by_ends(&triangles, Some(chance));
    }
    shuffled(&mut triangles, &mut pairs, chance);
    // other names, with gaps: loose vertices
    let rows = vertices + chance.below(4);
    let mut names: Vec<usize> = (0..rows).collect();
    chance.shuffle(&mut names);
    let starts: Vec<usize> = triangles.iter().flatten().map(|&v| names[v]).collect();
    let mut l = with_dead(&net_of(&starts, &pairs, rows), chance);
    dress(&mut l, chance);
    l
}

/// Dead triangles put between the live ones.
pub fn with_dead(l: &Lent, chance: &mut Chance) -> Lent {
    let mut place = vec![]; // of each old triangle, or none: dead
    let count = l.used.halfedges / 3;
    let mut to = vec![0; count];
    for (t, at) in to.iter_mut().enumerate() {
        while chance.once_in(6) {
            place.push(None);
        }
        *at = place.len();
        place.push(Some(t));
    }
    let mut out = l.clone();
    out.halfedges.clear();
    for from in &place {
        for k in 0..3 {
            let prop = chance.below(9) as i32 - 1;
            match from {
                None => out.push([-1, -1, -1, prop]),
                Some(t) => {
                    let r = l.row(3 * t + k);
                    let p = r[2] as usize;
                    out.push([r[0], r[1], (3 * to[p / 3] + p % 3) as i32, prop]);
                }
            }
        }
    }
    out.used.halfedges = 3 * place.len();
    out
}

/// References, normals, properties, positions of any bits, and free rows.
pub fn dress(l: &mut Lent, chance: &mut Chance) {
    let triangles = l.used.halfedges / 3;
    for bits in &mut l.positions {
        *bits = if chance.once_in(8) { chance.bits() } else { (chance.below(64) as f64 / 8.0).to_bits() };
    }
    if chance.once_in(2) {
        l.references = (0..3 * triangles).map(|_| chance.below(3) as i32).collect();
        l.used.references = triangles;
    }
    if chance.once_in(2) {
        l.normals = (0..3 * triangles).map(|_| chance.bits()).collect();
        l.used.normals = triangles;
    }
    if chance.once_in(2) {
        l.used.num_prop = chance.below(5);
        l.used.properties = 1 + chance.below(9);
        l.properties = (0..l.used.num_prop * l.used.properties).map(|_| chance.bits()).collect();
    }
    let free = chance.below(9);
    add_room(l, free, chance.below(9), chance);
}

/// So many free triangles and vertices, holding anything; a part of a row besides.
pub fn add_room(l: &mut Lent, triangles: usize, vertices: usize, chance: &mut Chance) {
    let mut anything = |n: usize| -> Vec<u64> { (0..n).map(|_| chance.bits() | 1).collect() };
    l.halfedges.extend(anything(3 * ROW * triangles + 3).iter().map(|&b| b as i32));
    l.positions.extend(anything(3 * vertices + 2));
    if l.used.references != 0 {
        l.references.extend(anything(3 * triangles + 1).iter().map(|&b| b as i32));
    }
    if l.used.normals != 0 {
        l.normals.extend(anything(3 * triangles + 2));
    }
    l.properties.extend(anything(3));
}

/// Many small nets side by side, with everything that they have of pinches and duplicate edges.
pub fn together(nets: &[Lent], count: usize, chance: &mut Chance) -> Lent {
    let mut l = Lent::default();
    for _ in 0..count {
        let net = chance.pick(nets);
        let (rows, vertices) = (l.used.halfedges as i32, l.used.vertices as i32);
        for r in net.rows().take(net.used.halfedges) {
            l.push([r[0] + vertices, r[1] + vertices, r[2] + rows, r[3]]);
        }
        l.positions.extend(&net.positions[..3 * net.used.vertices]);
        l.used.halfedges += net.used.halfedges;
        l.used.vertices += net.used.vertices;
    }
    l
}

/// Nets on which a collapse forms loops: a bipyramid, or two with some of their rims' vertices in common.
pub fn with_loops(chance: &mut Chance) -> Lent {
    let mut triangles = bipyramid(3 + chance.below(5));
    let vertices = triangles.iter().flatten().max().map_or(0, |m| m + 1);
    if chance.once_in(2) {
        let other = bipyramid(3 + chance.below(5));
        let shared = 1 + chance.below(3);
        triangles.extend(other.iter().map(|t| t.map(|v| if v < shared { v } else { v + vertices })));
    }
    let mut pairs = paired_by_ends(&triangles, Some(chance));
    shuffled(&mut triangles, &mut pairs, chance);
    // names with no gap
    let mut names = HashMap::new();
    let starts: Vec<usize> = triangles.iter().flatten().map(|&v| { let next = names.len(); *names.entry(v).or_insert(next) }).collect();
    let mut l = net_of(&starts, &pairs, names.len());
    dress(&mut l, chance);
    l
}

/// Every room from none to so much, of triangles with vertices enough, of vertices with triangles enough, and of both by chance. The net has no free row.
pub fn every_room(l: &Lent, triangles: usize, vertices: usize, chance: &mut Chance, each: &mut impl FnMut(&Lent, &mut Chance)) {
    let mut rooms: Vec<(usize, usize)> = (0..=triangles).map(|t| (t, vertices)).chain((0..=vertices).map(|v| (triangles, v))).collect();
    rooms.extend((0..4).map(|_| (chance.below(triangles + 1), chance.below(vertices + 1))));
    for (t, v) in rooms {
        let mut net = l.clone();
        add_room(&mut net, t, v, chance);
        each(&net, chance);
    }
}

/// The rows in use alone.
pub fn bare(l: &Lent) -> Lent {
    let mut l = l.clone();
    l.halfedges.truncate(ROW * l.used.halfedges);
    l.positions.truncate(3 * l.used.vertices);
    l.normals.truncate(3 * l.used.normals);
    l.references.truncate(3 * l.used.references);
    l
}

/// A large torus of about so many triangles, in order or shuffled.
pub fn large(triangles: usize, in_order: bool, chance: &mut Chance) -> Lent {
    let side = ((triangles as f64 / 2.0).sqrt() as usize).max(3);
    built(torus(side, triangles / 2 / side), in_order, chance)
}

/// Triangles of closed pieces as a net.
pub fn built(mut triangles: Vec<[usize; 3]>, in_order: bool, chance: &mut Chance) -> Lent {
    let vertices = triangles.iter().flatten().max().map_or(0, |m| m + 1);
    let mut pairs = paired_by_ends(&triangles, None);
    if !in_order {
        shuffled(&mut triangles, &mut pairs, chance);
    }
    let mut names: Vec<usize> = (0..vertices).collect();
    if !in_order {
        chance.shuffle(&mut names);
    }
    let starts: Vec<usize> = triangles.iter().flatten().map(|&v| names[v]).collect();
    net_of(&starts, &pairs, vertices)
}

/// Each field of each row set wrong in turn (or, by chance, right).
pub fn damaged(l: &Lent, chance: &mut Chance, each: &mut impl FnMut(&Lent, &mut Chance)) {
    let (rows, vertices) = (l.used.halfedges as i32, l.used.vertices as i32);
    let mut l = l.clone();
    for i in 0..ROW * l.used.halfedges {
        let was = l.halfedges[i];
        let wrong = [-1, -2, 0, was.wrapping_add(1), was.wrapping_sub(1), rows, rows - 1, vertices, vertices - 1, i32::MIN, i32::MAX, chance.below(rows as usize) as i32];
        for w in wrong {
            l.halfedges[i] = w;
            each(&l, chance);
        }
        l.halfedges[i] = was;
    }
}

/// A net for the owner scan, not sound: some edges opened, or each side of them paired with itself, and rows whose start or end is below 0.
/// Every pair that is there still points back.
pub fn opened(l: &Lent, chance: &mut Chance) -> Lent {
    let mut l = l.clone();
    let rows = l.used.halfedges;
    for _ in 0..chance.below(4) {
        let h = chance.below(rows);
        let p = l.row(h)[2];
        if p >= 0 {
            let negative = *chance.pick(&[-1, -2, i32::MIN]);
            let open = chance.once_in(2);
            for g in [h, p as usize] {
                l.row_mut(g)[2] = if open { negative } else { g as i32 };
            }
        }
    }
    // none, a few, or most of the starts and ends
    let below = *chance.pick(&[0, 1, 1, 7]);
    for h in 0..rows {
        for k in 0..2 {
            if chance.below(8) < below {
                l.row_mut(h)[k] = *chance.pick(&[-1, -2, i32::MIN]);
            }
        }
    }
    l
}

/// Each count at and beside what it may be, and far from it.
pub fn counts_beside(l: &Lent, chance: &mut Chance, each: &mut impl FnMut(&Lent, &mut Chance)) {
    let around = |n: usize| [n.wrapping_sub(3), n.wrapping_sub(1), n, n + 1, n + 2, n + 3];
    let far = [0, 1, 2, 3, 33, 1 << 31, 1 << 32, 1 << 62, 1 << 63, (1 << 63) - 1, usize::MAX, usize::MAX / 3, usize::MAX / 3 + 1, usize::MAX / 4 * 3, usize::MAX - 2];
    let lent = [l.rows_lent(), l.positions.len() / 3, l.normals.len() / 3, l.references.len() / 3, l.properties.len(), 32];
    let mut l = l.clone();
    for k in 0..6 {
        let was = *count_mut(&mut l, k);
        let values = around(was).into_iter().chain(around(lent[k])).chain(far);
        for v in values {
            *count_mut(&mut l, k) = v;
            each(&l, chance);
            // with another count to go with it
            if k == 0 {
                let kept = (l.used.references, l.used.normals);
                (l.used.references, l.used.normals) = (v / 3, v / 3);
                each(&l, chance);
                (l.used.references, l.used.normals) = (0, 0);
                each(&l, chance);
                (l.used.references, l.used.normals) = kept;
            }
            if k == 5 {
                let kept = l.used.properties;
                for rows in [0, 1, l.properties.len().checked_div(v).unwrap_or(3_000_000), l.properties.len().checked_div(v).unwrap_or(3_000_000) + 1] {
                    l.used.properties = rows;
                    each(&l, chance);
                }
                l.used.properties = kept;
            }
        }
        *count_mut(&mut l, k) = was;
    }
}

fn count_mut(l: &mut Lent, k: usize) -> &mut usize {
    let u = &mut l.used;
    [&mut u.halfedges, &mut u.vertices, &mut u.normals, &mut u.references, &mut u.properties, &mut u.num_prop].into_iter().nth(k).unwrap()
}

/// Each array cut from none to what it was, the counts kept.
pub fn room_from_none(l: &Lent, chance: &mut Chance, each: &mut impl FnMut(&Lent, &mut Chance)) {
    let cuts = |n: usize| (0..=n).rev().take(14).chain([n / 2, 1.min(n), 0]);
    for n in cuts(l.halfedges.len()) {
        let mut m = l.clone();
        m.halfedges.truncate(n);
        each(&m, chance);
    }
    for n in cuts(l.positions.len()) {
        let mut m = l.clone();
        m.positions.truncate(n);
        each(&m, chance);
    }
    for n in cuts(l.normals.len()) {
        let mut m = l.clone();
        m.normals.truncate(n);
        each(&m, chance);
    }
    for n in cuts(l.references.len()) {
        let mut m = l.clone();
        m.references.truncate(n);
        each(&m, chance);
    }
    for n in cuts(l.properties.len()) {
        let mut m = l.clone();
        m.properties.truncate(n);
        each(&m, chance);
    }
}
