//! A second reading of document 01, written for this comparison and from its text alone: what is owed where the Rust has no
//! answer. And the way to the original Rust, with panics and endless walks caught.

use crate::lent::{Lent, Said, ROW};
use original::impl_mesh::ManifoldImpl;
use original::linalg::Vec3;
use original::types::{Halfedge, TriRef};
use std::panic::{catch_unwind, AssertUnwindSafe};

const MOST_TRIANGLES: usize = 1_000_000;
const MOST_VERTICES: usize = 1_000_000;
const MOST_NUM_PROP: usize = 32;
const MOST_PROPERTY_ROWS: usize = 3_000_000;

/// "A capacity is the lent rows or the bound, whichever is less; triangle capacity is the least over half-edges (by thirds) and
/// non-empty references and normals."
pub fn triangle_capacity(l: &Lent) -> usize {
    let mut most = (l.rows_lent() / 3).min(MOST_TRIANGLES);
    if l.used.references != 0 {
        most = most.min(l.references.len() / 3);
    }
    if l.used.normals != 0 {
        most = most.min(l.normals.len() / 3);
    }
    most
}

pub fn vertex_capacity(l: &Lent) -> usize {
    (l.positions.len() / 3).min(MOST_VERTICES)
}

pub fn property_capacity(l: &Lent) -> usize {
    match l.used.num_prop {
        0 => MOST_PROPERTY_ROWS,
        n => (l.properties.len() / n).min(MOST_PROPERTY_ROWS),
    }
}

/// Answer 1: "H not a multiple of 3, a used count or num_prop above its capacity or bound, or references or normals neither 0 nor T."
pub fn misshapen(l: &Lent) -> bool {
    let u = &l.used;
    let triangles = u.halfedges / 3;
    u.halfedges % 3 != 0
        || triangles > triangle_capacity(l)
        || u.vertices > vertex_capacity(l)
        || u.num_prop > MOST_NUM_PROP
        || u.properties > property_capacity(l)
        || (u.references != 0 && u.references != triangles)
        || (u.normals != 0 && u.normals != triangles)
}

struct Row {
    start: i32,
    end: i32,
    pair: i32,
}

fn row(l: &Lent, h: usize) -> Row {
    let &[start, end, pair, _] = l.row(h);
    Row { start, end, pair }
}

/// Row h is in order, "in one of two ways".
fn in_order(l: &Lent, h: usize) -> bool {
    let (rows, vertices) = (l.used.halfedges as i64, l.used.vertices as i64);
    let base = h / 3 * 3;
    let three = [row(l, base), row(l, base + 1), row(l, base + 2)];
    if three.iter().all(|r| r.start == -1 && r.end == -1 && r.pair == -1) {
        return true;
    }
    let me = &three[h - base];
    let next = &three[(h - base + 1) % 3];
    let p = me.pair as i64;
    if p < 0 || p >= rows {
        return false;
    }
    let partner = row(l, p as usize);
    let is_vertex = |v: i32| 0 <= v as i64 && (v as i64) < vertices;
    partner.pair as i64 == h as i64
        && is_vertex(me.start)
        && is_vertex(me.end)
        && three.iter().all(|r| r.pair >= 0)
        && me.end == next.start
        && partner.start == me.end
        && partner.end == me.start
        && three[0].start != three[1].start
        && three[1].start != three[2].start
        && three[2].start != three[0].start
}

/// Why row h is not in order: the first clause that it breaks, in the order of the sentence, with the other row that this concerns (of the two beside it in its
/// triangle, its next before the last). 8 is an empty row in a triangle that is not dead; 0 is a row in order.
pub fn clause(l: &Lent, h: usize) -> (u32, Option<usize>) {
    let (rows, vertices) = (l.used.halfedges as i64, l.used.vertices as i64);
    let (j, k) = (next(h), next(next(h)));
    let (me, second, third) = (row(l, h), row(l, j), row(l, k));
    let empty = |r: &Row| r.start == -1 && r.end == -1 && r.pair == -1;
    if empty(&me) {
        return [(j, &second), (k, &third)].iter().find(|(_, r)| !empty(r)).map_or((0, None), |&(g, _)| (8, Some(g)));
    }
    if !(0..rows).contains(&me.pair.into()) {
        return (1, None);
    }
    let p = me.pair as usize;
    let partner = row(l, p);
    if i64::from(partner.pair) != h as i64 {
        (2, Some(p))
    } else if ![me.start, me.end].iter().all(|&v| (0..vertices).contains(&v.into())) {
        (3, None)
    } else if second.pair < 0 || third.pair < 0 {
        (4, Some(if second.pair < 0 { j } else { k }))
    } else if me.end != second.start {
        (5, Some(j))
    } else if (partner.start, partner.end) != (me.end, me.start) {
        (6, Some(p))
    } else if me.start == second.start || second.start == third.start || third.start == me.start {
        (7, None)
    } else {
        (0, None)
    }
}

/// Answer 3: the least row that is not in order.
pub fn first_unsound(l: &Lent) -> Option<usize> {
    (0..l.used.halfedges).find(|&h| !in_order(l, h))
}

/// Answer 4: a half-edge number outside 0..H.
pub fn no_halfedge(l: &Lent, h: i32) -> bool {
    h < 0 || h as usize >= l.used.halfedges
}

/// Answers 1 and 3, where there is one.
pub fn refused_as_net(l: &Lent) -> Option<Said> {
    if misshapen(l) {
        return Some(Said::refused(1));
    }
    first_unsound(l).map(|row| Said::with(3, &[row as u64]))
}

/// The rows in use as the Rust's mesh.
pub fn mesh_of(l: &Lent) -> ManifoldImpl {
    let u = &l.used;
    let vector = |b: &[u64]| Vec3::new(f64::from_bits(b[0]), f64::from_bits(b[1]), f64::from_bits(b[2]));
    let mut mesh = ManifoldImpl {
        num_prop: u.num_prop,
        vert_pos: l.positions.chunks_exact(3).take(u.vertices).map(vector).collect(),
        face_normal: l.normals.chunks_exact(3).take(u.normals).map(vector).collect(),
        halfedge: l
            .rows()
            .take(u.halfedges)
            .map(|&[start_vert, end_vert, paired_halfedge, prop_vert]| Halfedge { start_vert, end_vert, paired_halfedge, prop_vert })
            .collect(),
        properties: l.properties.iter().take(u.properties * u.num_prop).map(|&b| f64::from_bits(b)).collect(),
        ..ManifoldImpl::default()
    };
    mesh.mesh_relation.tri_ref = l
        .references
        .chunks_exact(3)
        .take(u.references)
        .map(|r| TriRef { mesh_id: r[0], original_id: 77, coplanar_id: r[1], face_id: r[2] })
        .collect();
    mesh
}

/// What the Rust's mesh holds, written back into the lent rows, with the counts; it fits (see `run`).
pub fn leave(mesh: &ManifoldImpl, l: &mut Lent) {
    let bits = |v: &Vec3| [v.x.to_bits(), v.y.to_bits(), v.z.to_bits()];
    for (row, h) in l.halfedges.chunks_exact_mut(ROW).zip(&mesh.halfedge) {
        row.copy_from_slice(&[h.start_vert, h.end_vert, h.paired_halfedge, h.prop_vert]);
    }
    for (row, v) in l.positions.chunks_exact_mut(3).zip(&mesh.vert_pos) {
        row.copy_from_slice(&bits(v));
    }
    for (row, v) in l.normals.chunks_exact_mut(3).zip(&mesh.face_normal) {
        row.copy_from_slice(&bits(v));
    }
    for (row, r) in l.references.chunks_exact_mut(3).zip(&mesh.mesh_relation.tri_ref) {
        row.copy_from_slice(&[r.mesh_id, r.coplanar_id, r.face_id]);
    }
    for (number, p) in l.properties.iter_mut().zip(&mesh.properties) {
        *number = p.to_bits();
    }
    l.used.halfedges = mesh.halfedge.len();
    l.used.vertices = mesh.vert_pos.len();
    l.used.normals = mesh.face_normal.len();
    l.used.references = mesh.mesh_relation.tri_ref.len();
}

/// How the original Rust ended.
pub enum Ran<T> {
    Done(T),
    /// it appended a row past a capacity, before anything else went wrong: answer 6
    NoRoom,
    /// it panicked or walked for ever: answer 7
    Stopped,
}

/// Whether f panics. The hook that prints panics is off in the whole program.
pub fn caught<T>(f: impl FnOnce() -> T) -> Option<T> {
    catch_unwind(AssertUnwindSafe(f)).ok()
}

/// Runs the original on the rows in use. Where it is done, what it leaves is written back; else nothing is.
pub fn run<T>(l: &mut Lent, f: impl FnOnce(&mut ManifoldImpl) -> T) -> Ran<T> {
    // more moves than these make where every walk ends: one passes a half-edge at most once
    let moves = 100 + 10 * l.used.halfedges as u64;
    run_within(l, moves, f)
}

/// The same, with so many moves after which a walk counts as endless.
pub fn run_within<T>(l: &mut Lent, moves: u64, f: impl FnOnce(&mut ManifoldImpl) -> T) -> Ran<T> {
    let mut mesh = mesh_of(l);
    original::moves::allow(moves);
    let ended = caught(|| f(&mut mesh));
    original::moves::allow(u64::MAX);
    if mesh.halfedge.len() > 3 * triangle_capacity(l) || mesh.vert_pos.len() > vertex_capacity(l) {
        return Ran::NoRoom;
    }
    match ended {
        None => Ran::Stopped,
        Some(result) => {
            leave(&mesh, l);
            Ran::Done(result)
        }
    }
}

/// The visit list of a sound net: "rising over half-edges", of each fan not yet visited "each half-edge after a turn, so a fan's first comes last".
pub fn visited(l: &Lent) -> Vec<usize> {
    let mut seen = vec![false; l.used.halfedges];
    let mut list = vec![];
    for h in 0..l.used.halfedges {
        if seen[h] || row(l, h).pair < 0 {
            continue;
        }
        let mut c = h;
        loop {
            c = next(row(l, c).pair as usize);
            seen[c] = true;
            list.push(c);
            if c == h {
                break;
            }
        }
    }
    list
}

fn next(h: usize) -> usize {
    h / 3 * 3 + (h + 1) % 3
}

fn tri_of(h: usize) -> [usize; 3] {
    [h, next(h), next(next(h))]
}

/// Answers 1 to 5 of an operation on a sound net, in their order, for the half-edges and vertices that its caller names; with 3 its row.
fn refused_before(l: &Lent, fits: bool, halfedges: &[i32], vertices: &[i32]) -> Option<(u32, u64)> {
    if misshapen(l) {
        return Some((1, 0));
    }
    if !fits {
        return Some((2, 0));
    }
    if let Some(row) = first_unsound(l) {
        return Some((3, row as u64));
    }
    if halfedges.iter().any(|&h| no_halfedge(l, h)) || vertices.iter().any(|&v| v < 0 || v as usize >= l.used.vertices) {
        return Some((4, 0));
    }
    // of a sound net: a row without pair is dead
    halfedges.iter().any(|&h| row(l, h as usize).pair < 0).then_some((5, 0))
}

/// Module 9, the entry: "The answer lists, rising, the least eligible half-edge of each fan that has one."
pub fn orbit_owners(l: &mut Lent, end_too: bool) -> Said {
    let rows = l.used.halfedges;
    if misshapen(l) {
        return Said::with(1, &[0]);
    }
    if l.work_bytes.len() < rows || l.list.len() < rows {
        return Said::with(2, &[0]);
    }
    l.work_bytes[..rows].fill(0);
    let Some(owners) = owners(l, end_too) else {
        return Said::with(10, &[0]);
    };
    for (entry, &h) in l.list.iter_mut().zip(&owners) {
        *entry = h as u32;
    }
    Said::with(0, &[owners.len() as u64])
}

fn owners(l: &Lent, end_too: bool) -> Option<Vec<usize>> {
    let rows = l.used.halfedges;
    let eligible = |h: usize| row(l, h).start >= 0 && (!end_too || row(l, h).end >= 0);
    let points_back = |h: usize| match row(l, h).pair {
        p if p < 0 => true,
        p => (p as usize) < rows && row(l, p as usize).pair as i64 == h as i64,
    };
    if !(0..rows).all(points_back) {
        return None;
    }
    let mut seen = vec![false; rows];
    let mut owners = vec![];
    for h in (0..rows).filter(|&h| eligible(h)) {
        if seen[h] {
            continue;
        }
        owners.push(h);
        let mut c = h;
        loop {
            let p = row(l, c).pair;
            if p < 0 {
                return None;
            }
            c = next(p as usize);
            seen[c] = true;
            if c == h {
                break;
            }
        }
    }
    Some(owners)
}

/// The partner of h, where there is one among the rows in use.
fn partner(l: &Lent, h: usize) -> Option<usize> {
    let p = row(l, h).pair;
    (p >= 0 && (p as usize) < l.used.halfedges).then_some(p as usize)
}

/// The rows from start to end, end not among them: "go to that next row's pair". None where it "has made H moves and has not finished", or
/// where there is no such row.
fn way(l: &Lent, start: usize, end: usize) -> Option<Vec<usize>> {
    let mut way = vec![];
    let mut current = start;
    while current != end {
        if way.len() == l.used.halfedges {
            return None;
        }
        way.push(current);
        current = partner(l, next(current))?;
    }
    Some(way)
}

/// "Set end of the current row, start of its next row", from start to end; whether it gets there.
fn updated(l: &mut Lent, vertex: i32, start: usize, end: usize) -> bool {
    let Some(way) = way(l, start, end) else {
        return false;
    };
    for h in way {
        l.row_mut(h)[1] = vertex;
        l.row_mut(next(h))[0] = vertex;
    }
    true
}

/// Module 5, the entry. There is no spare: nothing is written where it is refused.
pub fn update_vert(l: &mut Lent, vertex: i32, start: i32, end: i32) -> Said {
    if let Some((number, row)) = refused_before(l, true, &[start, end], &[vertex]) {
        return Said::with(number, &[row]);
    }
    let number = if updated(l, vertex, start as usize, end as usize) { 0 } else { 7 };
    Said::with(number, &[0])
}

fn paired(l: &mut Lent, a: usize, b: usize) {
    l.row_mut(a)[2] = b as i32;
    l.row_mut(b)[2] = a as i32;
}

/// Module 6, the entry: "pairs the partners of its second and third rows, then empties three rows and keeps prop_vert".
pub fn collapse_tri(l: &mut Lent, halfedge: i32) -> Said {
    if let Some((number, row)) = refused_before(l, true, &[halfedge], &[]) {
        return Said::with(number, &[row]);
    }
    emptied(l, halfedge as usize);
    Said::with(0, &[0])
}

fn emptied(l: &mut Lent, halfedge: usize) {
    let three = tri_of(halfedge);
    let partners = three.map(|h| row(l, h).pair as usize);
    paired(l, partners[1], partners[2]);
    for h in three {
        l.row_mut(h)[..3].fill(-1);
    }
}

/// Module 7: the two triangles at e, taken out where they have folded.
fn unfolded(l: &mut Lent, e: usize) {
    let (one, other) = (tri_of(e), tri_of(row(l, e).pair as usize));
    let pair = |h: usize| row(l, h).pair as usize;
    let (former, latter) = (pair(one[1]) == other[2], pair(one[2]) == other[1]);
    if row(l, one[1]).end != row(l, other[1]).end || !(former || latter) {
        return;
    }
    let lost: &[usize] = match (former, latter) {
        (true, true) => &one,
        (true, false) => &one[1..2],
        _ => &other[1..2],
    };
    let outer = [(pair(one[1]), pair(other[2])), (pair(one[2]), pair(other[1]))];
    for &h in lost {
        let v = row(l, h).start as usize;
        l.positions[3 * v..3 * v + 3].fill(0x7FF8_0000_0000_0000);
    }
    for (a, b) in outer {
        paired(l, a, b);
    }
    for h in one.into_iter().chain(other) {
        l.row_mut(h).fill(-1);
    }
}

/// Module 7, the entry.
pub fn remove_if_folded(l: &mut Lent, halfedge: i32) -> Said {
    if let Some((number, row)) = refused_before(l, true, &[halfedge], &[]) {
        return Said::with(number, &[row]);
    }
    unfolded(l, halfedge as usize);
    Said::with(0, &[0])
}

/// "A spare of the size of the half-edge and position rows in use" is there.
fn spare_fits(l: &Lent) -> bool {
    l.spare_halfedges.len() / ROW >= l.used.halfedges && l.spare_positions.len() / 3 >= l.used.vertices
}

/// "Past the checks it holds the rows as at entry."
fn spare_taken(l: &mut Lent) {
    let (rows, positions) = (ROW * l.used.halfedges, 3 * l.used.vertices);
    l.spare_halfedges[..rows].copy_from_slice(&l.halfedges[..rows]);
    l.spare_positions[..positions].copy_from_slice(&l.positions[..positions]);
}

/// Answers 1 to 5 of form_loop and dedupe_edge; past them the spare is taken.
fn refused_with_spare(l: &mut Lent, halfedges: &[i32]) -> Option<(u32, u64)> {
    let refused = refused_before(l, spare_fits(l), halfedges, &[]);
    if refused.is_none() {
        spare_taken(l);
    }
    refused
}

/// Why the steps of an operation end before their time.
enum Halt {
    /// "the next append of the steps would pass a capacity"
    NoRoom,
    /// "the next step would read or write a row that isn't there, or a walk never ends"
    Stopped,
}

/// The steps, from the rows as they are; where they halt, the rows in use are put back, "free rows that the steps had filled read zero", and the counts are as at
/// entry. What is said: 0, 6 or 7.
fn settled(l: &mut Lent, steps: impl FnOnce(&mut Lent) -> Result<(), Halt>) -> u32 {
    let (was, before) = (l.used, l.clone());
    let Err(halt) = steps(l) else {
        return 0;
    };
    fn back<T: Copy + Default>(lent: &mut [T], before: &[T], width: usize, was: usize, now: usize) {
        lent[..width * was].copy_from_slice(&before[..width * was]);
        lent[width * was..width * now].fill(T::default());
    }
    let triangles = l.used.halfedges / 3;
    back(&mut l.halfedges, &before.halfedges, 4, was.halfedges, l.used.halfedges);
    back(&mut l.positions, &before.positions, 3, was.vertices, l.used.vertices);
    if was.normals != 0 {
        back(&mut l.normals, &before.normals, 3, was.normals, triangles);
    }
    if was.references != 0 {
        back(&mut l.references, &before.references, 3, was.references, triangles);
    }
    l.used = was;
    match halt {
        Halt::NoRoom => 6,
        Halt::Stopped => 7,
    }
}

/// A vertex more, where v is.
fn appended_vertex(l: &mut Lent, v: i32) -> Result<i32, Halt> {
    let new = l.used.vertices;
    if new == vertex_capacity(l) {
        return Err(Halt::NoRoom);
    }
    let v = v as usize;
    l.positions.copy_within(3 * v..3 * v + 3, 3 * new);
    l.used.vertices += 1;
    Ok(new as i32)
}

/// Module 8: "Appends positions of start and end of the first edge, updates both sides, exchanges the two pairs, then remove_if_folded on the second."
fn looped(l: &mut Lent, a: usize, b: usize) -> Result<(), Halt> {
    let (start, end) = (row(l, a).start, row(l, a).end);
    let (start, end) = (appended_vertex(l, start)?, appended_vertex(l, end)?);
    let (Some(p), Some(q)) = (partner(l, a), partner(l, b)) else {
        return Err(Halt::Stopped);
    };
    if !(updated(l, start, p, q) && updated(l, end, b, a)) {
        return Err(Halt::Stopped);
    }
    paired(l, a, q);
    paired(l, b, p);
    unfolded(l, b);
    Ok(())
}

/// Module 8, the entry: it says the vertices in use where it is done.
pub fn form_loop(l: &mut Lent, first: i32, second: i32) -> Said {
    if let Some((number, row)) = refused_with_spare(l, &[first, second]) {
        return Said::with(number, &[row, 0]);
    }
    match settled(l, |l| looped(l, first as usize, second as usize)) {
        0 => Said::with(0, &[0, l.used.vertices as u64]),
        number => Said::with(number, &[0, 0]),
    }
}

/// The half-edges of h's fan, h first, by turning; a fan of a net in order closes.
fn fan(l: &Lent, h: usize) -> Result<Vec<usize>, Halt> {
    let mut fan = vec![h];
    let mut c = h;
    loop {
        c = next(partner(l, c).ok_or(Halt::Stopped)?);
        if c == h {
            return Ok(fan);
        }
        if fan.len() > l.used.halfedges {
            return Err(Halt::Stopped);
        }
        fan.push(c);
    }
}

/// "An appended copy of the position, set on every start in the fan and on the end of every partner."
fn fan_copied(l: &mut Lent, v: i32, h: usize) -> Result<(), Halt> {
    let new = appended_vertex(l, v)?;
    for c in fan(l, h)? {
        let p = partner(l, c).ok_or(Halt::Stopped)?;
        l.row_mut(c)[0] = new;
        l.row_mut(p)[1] = new;
    }
    Ok(())
}

/// A triangle more, beside h: from a to b to where h starts, with the props of e, e and h, its second row paired with h and its third with the partner that h
/// had; the reference and the normal of h's triangle.
fn triangle_beside(l: &mut Lent, capacity: usize, a: i32, b: i32, h: usize, e: usize) -> Result<usize, Halt> {
    let k = l.used.halfedges;
    if k + 3 > capacity {
        return Err(Halt::NoRoom);
    }
    let (outside, prop_e, prop_h) = (row(l, h).start, l.row(e)[3], l.row(h)[3]);
    let p = partner(l, h).ok_or(Halt::Stopped)?;
    let rows = [[a, b, -1, prop_e], [b, outside, -1, prop_e], [outside, a, -1, prop_h]];
    l.halfedges[ROW * k..][..3 * ROW].copy_from_slice(rows.as_flattened());
    l.used.halfedges += 3;
    paired(l, k + 2, p);
    paired(l, k + 1, h);
    let (from, to) = (h / 3, k / 3);
    if l.used.references != 0 {
        l.references.copy_within(3 * from..3 * from + 3, 3 * to);
        l.used.references += 1;
    }
    if l.used.normals != 0 {
        l.normals.copy_within(3 * from..3 * from + 3, 3 * to);
        l.used.normals += 1;
    }
    Ok(k)
}

/// Module 11: from where it stands by `next, pair` until it is home or at a row that starts at v; where it stands then.
fn sought(l: &Lent, v: i32, home: usize) -> Result<usize, Halt> {
    let mut current = home;
    for _ in 0..=l.used.halfedges {
        current = partner(l, next(current)).ok_or(Halt::Stopped)?;
        if current == home || row(l, current).start == v {
            return Ok(current);
        }
    }
    Err(Halt::Stopped)
}

/// Module 11, dedupe_edge: "its search stops the moment it meets a matching start vertex or comes back round; where it then holds the edge, even after
/// inserting, the end vertex is copied". Then the search about the start, which the Rust makes besides.
fn deduped(l: &mut Lent, capacity: usize, e: usize) -> Result<(), Halt> {
    let (start, end) = (row(l, e).start, row(l, e).end);
    let mut current = sought(l, start, e)?;
    if current != e {
        let new = appended_vertex(l, end)?;
        current = partner(l, next(current)).ok_or(Halt::Stopped)?;
        let opposite = partner(l, next(e)).ok_or(Halt::Stopped)?;
        if !updated(l, new, current, opposite) {
            return Err(Halt::Stopped);
        }
        let first = triangle_beside(l, capacity, end, new, current, next(e))?;
        let second = triangle_beside(l, capacity, new, end, opposite, next(e))?;
        paired(l, second, first);
    }
    if current == e {
        fan_copied(l, end, next(e))?;
    }
    let pair = partner(l, e).ok_or(Halt::Stopped)?;
    if sought(l, end, pair)? == pair {
        fan_copied(l, end, next(pair))?;
    }
    Ok(())
}

/// Module 11, the entry: it says the half-edges and the vertices in use where it is done.
pub fn dedupe_edge(l: &mut Lent, halfedge: i32) -> Said {
    if let Some((number, row)) = refused_with_spare(l, &[halfedge]) {
        return Said::with(number, &[row, 0, 0]);
    }
    let capacity = 3 * triangle_capacity(l);
    let number = settled(l, |l| deduped(l, capacity, halfedge as usize));
    grown(l, number)
}

fn grown(l: &Lent, number: u32) -> Said {
    match number {
        0 => Said::with(0, &[0, l.used.halfedges as u64, l.used.vertices as u64]),
        _ => Said::with(number, &[0, 0, 0]),
    }
}

/// Fan by fan, rising, each from its least half-edge on: those of which a smaller one of the fan ends at the same vertex.
fn duplicates(l: &Lent) -> Result<Vec<usize>, Halt> {
    let mut seen = vec![false; l.used.halfedges];
    let mut list = vec![];
    for h in 0..l.used.halfedges {
        if seen[h] || row(l, h).pair < 0 {
            continue;
        }
        let fan = fan(l, h)?;
        let mut least = std::collections::HashMap::new();
        for &c in &fan {
            seen[c] = true;
            let least = least.entry(row(l, c).end).or_insert(c);
            *least = c.min(*least);
        }
        list.extend(fan.iter().filter(|&&c| least[&row(l, c).end] != c));
    }
    Ok(list)
}

/// Module 11, dedupe_edges: "At most as many rounds as half-edges at entry", each over the duplicates listed at its beginning that are so still.
fn deduped_all(l: &mut Lent, capacity: usize) -> Result<(), Halt> {
    for _ in 0..l.used.halfedges {
        let list = duplicates(l)?;
        if list.is_empty() {
            return Ok(());
        }
        for d in list {
            let end = row(l, d).end;
            if fan(l, d)?[1..].iter().any(|&c| row(l, c).end == end) {
                deduped(l, capacity, d)?;
            }
        }
    }
    Ok(())
}

/// Module 10 by itself: "Rising over half-edges, the first fan at a vertex keeps it; each later fan gets an appended copy."
fn split(l: &mut Lent) -> Result<(), Halt> {
    let mut seen = vec![false; l.used.halfedges];
    let mut kept = vec![false; l.used.vertices];
    for h in 0..l.used.halfedges {
        if seen[h] || row(l, h).pair < 0 {
            continue;
        }
        for c in fan(l, h)? {
            seen[c] = true;
        }
        let v = row(l, h).start;
        if std::mem::replace(&mut kept[v as usize], true) {
            fan_copied(l, v, h)?;
        }
    }
    Ok(())
}

/// Modules 11 and 13, the entries: "work buffers (at entry: .. dedupe_edges the half-edge capacity, cleanup that and V)", the list "of the half-edge capacity"; they
/// "read zero over that length" past the checks.
fn rounds_after(l: &mut Lent, first: fn(&mut Lent) -> Result<(), Halt>, work: usize) -> Said {
    // counts that no net can have are answer 1 before any length is asked for
    let capacity = if misshapen(l) { 0 } else { 3 * triangle_capacity(l) };
    let work = capacity.saturating_add(work);
    let fits = spare_fits(l) && l.work_words.len() >= work && l.list.len() >= capacity;
    if let Some((number, row)) = refused_before(l, fits, &[], &[]) {
        return Said::with(number, &[row, 0, 0]);
    }
    spare_taken(l);
    l.work_words[..work].fill(0);
    l.list[..capacity].fill(0);
    let number = settled(l, |l| first(l).and_then(|()| deduped_all(l, capacity)));
    grown(l, number)
}

pub fn dedupe_edges(l: &mut Lent) -> Said {
    rounds_after(l, |_| Ok(()), 0)
}

pub fn cleanup_topology(l: &mut Lent) -> Said {
    let vertices = l.used.vertices;
    rounds_after(l, split, vertices)
}

/// What collapse is asked beside the half-edge: module 3's numbers.
#[derive(Clone, Copy, Debug)]
pub struct Shortness {
    pub first_new_vert: i32,
    pub tol: f64,
    pub epsilon: f64,
}

/// Module 3: the squared length and the limit where the edge is long.
pub fn long(l: &Lent, e: usize, s: Shortness) -> Option<(f64, f64)> {
    let at = |v: i32| [0, 1, 2].map(|k| f64::from_bits(l.positions[3 * v as usize + k]));
    let (from, to) = (at(row(l, e).start), at(row(l, e).end));
    let [x, y, z] = [0, 1, 2].map(|k| to[k] - from[k]);
    let length = x * x + y * y + z * z;
    let tol = if s.tol < 0.0 { s.epsilon } else { s.tol };
    let limit = if row(l, e).end < s.first_new_vert { tol * tol } else { s.epsilon * s.epsilon };
    // with a NaN it is long
    if length < limit {
        None
    } else {
        Some((length, limit))
    }
}

/// Module 12: "Neighbours of the kept vertex are listed; a shared one forms a loop and cuts the list to its place."
fn collapsed(l: &mut Lent, e: usize) -> Result<(), Halt> {
    let rows = l.used.halfedges;
    let [_, e1, e2] = tri_of(e);
    let p = partner(l, e).ok_or(Halt::Stopped)?;
    let [_, p1, p2] = tri_of(p);
    let (start, kept) = (row(l, e).start, row(l, e).end);

    let mut list = vec![];
    let mut c = partner(l, e1).ok_or(Halt::Stopped)?;
    while c != p2 {
        if list.len() == rows {
            return Err(Halt::Stopped);
        }
        c = next(c);
        list.push(c);
        match partner(l, c) {
            Some(on) => c = on,
            None => break,
        }
    }

    let mut first = partner(l, p1).ok_or(Halt::Stopped)?;
    l.positions[3 * start as usize..3 * start as usize + 3].fill(0x7FF8_0000_0000_0000);
    emptied(l, p);

    let face = |l: &Lent, t: usize| l.references[3 * t..3 * t + 3].to_vec();
    let (mut c, mut moves) = (first, 0);
    while c != e2 {
        if moves == rows {
            return Err(Halt::Stopped);
        }
        moves += 1;
        c = next(c);
        // "prop_vert follows the edge's face, else the partner's, and only if num_prop > 0 and references exist"
        if l.used.num_prop > 0 && l.used.references > 0 {
            let mine = face(l, c / 3);
            if mine == face(l, e / 3) {
                l.row_mut(c)[3] = l.row(e1)[3];
            } else if mine == face(l, p / 3) {
                l.row_mut(c)[3] = l.row(p)[3];
            }
        }
        let Some(on) = partner(l, c) else { break };
        if let Some(k) = list.iter().position(|&g| row(l, g).end == row(l, c).end) {
            looped(l, list[k], c)?;
            list.truncate(k);
            first = on;
            moves = 0;
        }
        c = on;
    }
    if !updated(l, kept, first, e2) {
        return Err(Halt::Stopped);
    }
    if row(l, e1).pair >= 0 {
        emptied(l, e);
    }
    if row(l, first).pair >= 0 && row(l, next(first)).pair >= 0 {
        unfolded(l, first);
    }
    Ok(())
}

/// Module 12, the entry: it says the vertices in use where it is done, the squared length and the limit where the edge is long.
pub fn collapse_edge(l: &mut Lent, halfedge: i32, s: Shortness) -> Said {
    let capacity = if misshapen(l) { 0 } else { 3 * triangle_capacity(l) };
    let fits = spare_fits(l) && l.list.len() >= capacity;
    if let Some((number, row)) = refused_before(l, fits, &[halfedge], &[]) {
        return Said::with(number, &[row, 0, 0, 0]);
    }
    if let Some((length, limit)) = long(l, halfedge as usize, s) {
        return Said::with(8, &[0, 0, bits_of(length), bits_of(limit)]);
    }
    spare_taken(l);
    l.list[..capacity].fill(0);
    match settled(l, |l| collapsed(l, halfedge as usize)) {
        0 => Said::with(0, &[0, l.used.vertices as u64, 0, 0]),
        number => Said::with(number, &[0, 0, 0, 0]),
    }
}

/// A float as 64 bits; a NaN is always the same.
pub fn bits_of(x: f64) -> u64 {
    if x.is_nan() {
        0x7FF8_0000_0000_0000
    } else {
        x.to_bits()
    }
}
