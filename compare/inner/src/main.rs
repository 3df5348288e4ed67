//! The steps of surgery as an operation meets them in its middle, beside the original Rust, on nets that are not sound; and the work of collapse_edge past its
//! checks, on the nets that earlier collapses left too. Where the Rust
//! returns, the step goes on and everything lent is the same, bit for bit; where it panics or walks for ever, the step has stopped, with as
//! many vertices in use; where it appends past the capacity, there is no room. Nothing of the station's library is in this program.
//!
//! inner smoke|quick|whole [SEED]
#![allow(dead_code)]

#[path = "../../harness/src/chance.rs"]
mod chance;
#[path = "../../harness/src/lent.rs"]
mod lent;
#[path = "../../harness/src/nets.rs"]
mod nets;
#[path = "../../harness/src/reading.rs"]
mod reading;

use chance::Chance;
use lent::{Guarded, GuardedNet, Lent, ROW};
use original::impl_mesh::ManifoldImpl;
use reading::Shortness;
use std::io::Write;

#[repr(C)]
struct StepAnswer {
    number: u32,
    vertices: usize,
}

/// Declares a step of the library, `pub extern "C"` in crates/innersteps, and how it is called between guards.
macro_rules! step {
    ($ours:ident, $name:ident, $($number:ident),+) => {
        extern "C" {
            fn $name(
                used: spoonferret::raw::Used,
                halfedges: *mut i32,
                halfedges_length: usize,
                positions: *mut u64,
                positions_length: usize,
                normals: *const u64,
                normals_length: usize,
                references: *const i32,
                references_length: usize,
                properties: *const u64,
                properties_length: usize,
                $($number: i32),+
            ) -> StepAnswer;
        }

        fn $ours(l: &mut Lent, numbers: &[i32]) -> Result<StepAnswer, String> {
            let [$($number),+] = *numbers else { panic!("so many numbers") };
            let mut g = GuardedNet::of(l);
            let told = unsafe {
                $name(
                    g.used,
                    g.halfedges.at(),
                    g.halfedges.length(),
                    g.positions.at(),
                    g.positions.length(),
                    g.normals.at(),
                    g.normals.length(),
                    g.references.at(),
                    g.references.length(),
                    g.properties.at(),
                    g.properties.length(),
                    $($number),+
                )
            };
            g.back(l)?;
            Ok(told)
        }
    };
}

step!(collapse, innersteps_collapse, halfedge);
step!(update, innersteps_update, vertex, start, end);
step!(fold, innersteps_fold, halfedge);
step!(form, innersteps_loop, first, second);

extern "C" {
    fn innersteps_try(
        used: spoonferret::raw::Used,
        halfedges: *mut i32,
        halfedges_length: usize,
        positions: *mut u64,
        positions_length: usize,
        normals: *const u64,
        normals_length: usize,
        references: *const i32,
        references_length: usize,
        properties: *const u64,
        properties_length: usize,
        list: *mut u32,
        list_length: usize,
        halfedge: i32,
        first_new_vert: i32,
        tol: f64,
        epsilon: f64,
    ) -> StepAnswer;
}

/// Tolerances that a try is asked, by their place: the first is above every length.
const TOLERANCES: [f64; 10] = [1e9, 4.0, 8.0, 12.0, 0.0, -0.0, -1.0, -8.0, f64::INFINITY, f64::NAN];

/// A try is asked of a half-edge with first_new_vert and the places of tol and epsilon.
fn shortness(numbers: &[i32]) -> Shortness {
    Shortness { first_new_vert: numbers[1], tol: TOLERANCES[numbers[2] as usize], epsilon: TOLERANCES[numbers[3] as usize] }
}

fn attempt(l: &mut Lent, numbers: &[i32]) -> Result<StepAnswer, String> {
    let s = shortness(numbers);
    let mut list = Guarded::new(&l.list);
    let mut g = GuardedNet::of(l);
    let told = unsafe {
        innersteps_try(
            g.used,
            g.halfedges.at(),
            g.halfedges.length(),
            g.positions.at(),
            g.positions.length(),
            g.normals.at(),
            g.normals.length(),
            g.references.at(),
            g.references.length(),
            g.properties.at(),
            g.properties.length(),
            list.at(),
            list.length(),
            numbers[0],
            s.first_new_vert,
            s.tol,
            s.epsilon,
        )
    };
    g.back(l)?;
    list.back("list", &mut l.list)?;
    Ok(told)
}

/// The Rust's collapse_edge returns true where the edge went; else the edge has no pair, or the fan of its start is open.
fn attempted(mesh: &mut ManifoldImpl, list: &mut Vec<usize>, numbers: &[i32]) -> u32 {
    let (e, s) = (numbers[0] as usize, shortness(numbers));
    mesh.epsilon = s.epsilon;
    let dead = mesh.halfedge[e].paired_halfedge < 0;
    match original::edge_op::collapse_edge(mesh, e, list, s.tol, s.first_new_vert) {
        true => 0,
        false if dead => 5,
        false => 9,
    }
}

/// Whether the Rust comes to its long arm: rows and positions are there, the fan is not seen to be open, and the edge is long.
fn long(l: &Lent, numbers: &[i32]) -> bool {
    let at = |h: usize, column: usize| l.row(h)[column];
    let e = numbers[0] as usize;
    let p = at(e, 2);
    !reading::no_halfedge(l, p)
        && [at(e, 0), at(e, 1)].iter().all(|&v| v >= 0 && (v as usize) < l.used.vertices)
        && at(p as usize / 3 * 3 + (p as usize + 1) % 3, 2) >= 0
        && reading::long(l, e, shortness(numbers)).is_some()
}

struct Step {
    name: &'static str,
    ours: fn(&mut Lent, &[i32]) -> Result<StepAnswer, String>,
    /// what the Rust does, with its list, and what that is called where it returns
    theirs: fn(&mut ManifoldImpl, &mut Vec<usize>, &[i32]) -> u32,
    /// the first of its numbers is a vertex; all others are half-edges
    vertex: bool,
    halfedges: usize,
    /// it is a try: it takes the list and what short means
    tries: bool,
}

const STEPS: &[Step] = &[
    Step {
        name: "collapse_tri",
        ours: collapse,
        theirs: |mesh, _, n| {
            original::edge_op::collapse_tri(&mut mesh.halfedge, original::edge_op::private::tri_of(n[0] as usize));
            0
        },
        vertex: false,
        halfedges: 1,
        tries: false,
    },
    Step {
        name: "update_vert",
        ours: update,
        theirs: |mesh, _, n| {
            original::edge_op::update_vert(mesh, n[0], n[1] as usize, n[2] as usize);
            0
        },
        vertex: true,
        halfedges: 2,
        tries: false,
    },
    Step {
        name: "remove_if_folded",
        ours: fold,
        theirs: |mesh, _, n| {
            original::edge_op::remove_if_folded(mesh, n[0] as usize);
            0
        },
        vertex: false,
        halfedges: 1,
        tries: false,
    },
    Step {
        name: "form_loop",
        ours: form,
        theirs: |mesh, _, n| {
            original::edge_op::form_loop(mesh, n[0] as usize, n[1] as usize);
            0
        },
        vertex: false,
        halfedges: 2,
        tries: false,
    },
    Step { name: "collapse_edge", ours: attempt, theirs: attempted, vertex: false, halfedges: 1, tries: true },
];

/// What is owed: the number, the vertices in use, and the rows where something is said of them, with what the Rust's list begins with.
struct Owed {
    number: u32,
    vertices: usize,
    rows: Option<Lent>,
    list: Vec<usize>,
}

impl Owed {
    fn number(number: u32, vertices: usize, rows: Option<Lent>) -> Owed {
        Owed { number, vertices, rows, list: vec![] }
    }
}

fn owed(step: &Step, l: &Lent, numbers: &[i32]) -> Owed {
    let refused = |number| Owed::number(number, 0, Some(l.clone()));
    if reading::misshapen(l) {
        return refused(1);
    }
    if step.tries && l.list.len() < l.used.halfedges {
        return refused(2);
    }
    let (vertices, halfedges) = numbers.split_at(step.vertex as usize);
    if vertices.iter().any(|&v| v < 0 || v as usize >= l.used.vertices) || halfedges[..step.halfedges].iter().any(|&h| reading::no_halfedge(l, h)) {
        return refused(4);
    }
    if step.tries && long(l, numbers) {
        // with no references the Rust's long arm panics
        let mut bare = l.clone();
        (bare.used.references, bare.used.normals) = (0, 0);
        let arm = reading::caught(|| attempted(&mut reading::mesh_of(&bare), &mut vec![], numbers)).is_none();
        return Owed::number(if arm { 8 } else { 99 }, l.used.vertices, Some(l.clone()));
    }
    let mut mesh = reading::mesh_of(l);
    let mut list = vec![];
    // a loop of a collapse begins the count of moves anew, and there are at most as many as half-edges listed
    let rows = l.used.halfedges as u64;
    original::moves::allow(100 + 10 * rows * if step.tries { rows } else { 1 });
    let returned = reading::caught(|| (step.theirs)(&mut mesh, &mut list, numbers));
    original::moves::allow(u64::MAX);
    let in_use = mesh.vert_pos.len();
    if in_use > reading::vertex_capacity(l) {
        // the last append that fitted
        return Owed::number(6, reading::vertex_capacity(l), None);
    }
    let Some(number) = returned else { return Owed::number(7, in_use, None) };
    let mut left = l.clone();
    reading::leave(&mesh, &mut left);
    Owed { number, vertices: in_use, rows: Some(left), list }
}

/// The first difference of docs/DIFFERENCES.md: at a pair whose triangle the Rust cannot count, and a second row's pair of −1, the step is done.
fn listed(step: &Step, l: &Lent, numbers: &[i32]) -> bool {
    step.name == "remove_if_folded" && {
        let h = numbers[0] as usize;
        l.row(h)[2] >= i32::MAX - 1 && l.row(h / 3 * 3 + (h + 1) % 3)[2] == -1
    }
}

#[derive(Default)]
struct Line {
    calls: u64,
    by_number: [u64; 11],
    listed: u64,
    differences: u64,
    smallest: Option<(usize, String)>,
}

impl Line {
    /// One call on both sides. What ours left where it went on is given back.
    fn take(&mut self, step: &Step, net: &Lent, numbers: &[i32]) -> Option<Lent> {
        self.calls += 1;
        let mut ours = net.clone();
        let said = (step.ours)(&mut ours, numbers);
        let mut owed = owed(step, net, numbers);
        if owed.number == 7 && listed(step, net, numbers) {
            self.listed += 1;
            owed = Owed::number(0, net.used.vertices, Some(net.clone()));
        }
        let mut wrong = differs(&said, &ours, &owed);
        if wrong.is_some() && step.tries && said.is_ok() && beyond(net) {
            // the second listed difference: to ours such a pair is one that isn't there, as −1 is
            let as_missing = self::owed(step, &blunted(net), numbers);
            if differs(&said, &blunted(&ours), &as_missing).is_none() {
                self.listed += 1;
                (owed, wrong) = (as_missing, None);
            }
        }
        self.by_number[(owed.number as usize).min(10)] += 1;
        if let Some(wrong) = wrong {
            self.differences += 1;
            let size = net.size();
            if self.smallest.as_ref().is_none_or(|(least, _)| size < *least) {
                self.smallest = Some((size, format!("the step of {}, numbers {numbers:?}: {wrong}\n{net:?}\n", step.name)));
            }
        }
        let said = said.ok().filter(|said| said.number == 0)?;
        ours.used.vertices = said.vertices;
        Some(ours)
    }
}

/// Where what was said and left is not what is owed. A list begins with what the Rust's is cut to, and behind the half-edges in use it is kept.
fn differs(said: &Result<StepAnswer, String>, left: &Lent, owed: &Owed) -> Option<String> {
    let said = match said {
        Err(wrong) => return Some(wrong.clone()),
        Ok(said) => said,
    };
    if (said.number, said.vertices) != (owed.number, owed.vertices) {
        return Some(format!("said {} with {} vertices, owed {} with {}", said.number, said.vertices, owed.number, owed.vertices));
    }
    let rows = owed.rows.as_ref()?;
    let mut left = left.clone();
    if said.number == 0 {
        left.used.vertices = said.vertices;
    }
    if left.list.iter().zip(&owed.list).any(|(&ours, &theirs)| ours as usize != theirs) {
        return Some(format!("list {:?} begins otherwise than {:?}", left.list, owed.list));
    }
    if (1..8).contains(&said.number) && left.list != rows.list {
        return Some("a list written".into());
    }
    let used = left.used.halfedges.min(left.list.len());
    left.list[..used].copy_from_slice(&rows.list[..used]);
    left.differs(rows)
}

/// Whether a pair of a row in use is beyond the half-edges in use.
fn beyond(l: &Lent) -> bool {
    l.rows().take(l.used.halfedges).any(|r| r[2] >= 0 && reading::no_halfedge(l, r[2]))
}

/// Each such pair as −1.
fn blunted(l: &Lent) -> Lent {
    let mut blunt = l.clone();
    for r in blunt.halfedges.chunks_exact_mut(4).take(l.used.halfedges) {
        if r[2] >= 0 && reading::no_halfedge(l, r[2]) {
            r[2] = -1;
        }
    }
    blunt
}

/// What a step is asked of a net: everything where that is little, else some; numbers at and beside their limits now and then.
fn asks(step: &Step, l: &Lent, most: usize, chance: &mut Chance) -> Vec<Vec<i32>> {
    let rows = l.used.halfedges.min(l.rows_lent());
    let vertices = l.used.vertices.min(l.positions.len() / 3);
    let mut all: Vec<Vec<i32>> = match step.halfedges {
        1 => (0..rows as i32).map(|h| vec![h]).collect(),
        _ if rows * rows <= 4 * most => (0..(rows * rows) as i32).map(|i| vec![i / rows as i32, i % rows as i32]).collect(),
        _ => (0..most)
            .map(|_| {
                let first = chance.below(rows);
                // often one that starts and ends where the first does, so that a walk may come to it
                let same = (0..rows).filter(|&g| l.row(g)[..2] == l.row(first)[..2]).collect::<Vec<_>>();
                let second = if chance.once_in(3) { chance.below(rows) } else { *chance.pick(&same) };
                vec![first as i32, second as i32]
            })
            .collect(),
    };
    if all.len() > 4 * most {
        chance.shuffle(&mut all);
        all.truncate(most);
    }
    if chance.once_in(8) {
        let beside = [-1, 0, rows as i32 - 1, rows as i32, i32::MIN, i32::MAX];
        all.push((0..step.halfedges).map(|_| *chance.pick(&beside)).collect());
    }
    if step.tries {
        for numbers in &mut all {
            let end = usize::try_from(numbers[0]).ok().and_then(|h| l.halfedges.get(ROW * h + 1)).map_or(0, |&v| v);
            let any = chance.once_in(8);
            let place = |chance: &mut Chance| if any { chance.below(TOLERANCES.len()) as i32 } else { 0 };
            let first = *chance.pick(&[i32::MAX, end.saturating_add(1), end, 0]);
            numbers.extend([first, place(chance), place(chance)]);
        }
    }
    if step.vertex {
        for numbers in &mut all {
            let v = if chance.once_in(50) { *chance.pick(&[-1, vertices as i32, i32::MIN, i32::MAX]) } else { chance.below(vertices.max(1)) as i32 };
            numbers.insert(0, v);
        }
    }
    all
}

struct Table {
    lines: Vec<Line>,
    shown: std::time::Instant,
}

impl Table {
    fn on(&mut self, net: &Lent, most: usize, chance: &mut Chance) {
        for (step, line) in STEPS.iter().zip(&mut self.lines) {
            let lent = if step.tries { &with_list(net, chance) } else { net };
            for numbers in asks(step, net, most, chance) {
                line.take(step, lent, &numbers);
            }
        }
        self.show();
    }

    fn show(&mut self) {
        if self.shown.elapsed().as_secs() >= 5 {
            self.shown = std::time::Instant::now();
            eprintln!("  {} calls", self.lines.iter().map(|l| l.calls).sum::<u64>());
        }
    }

    /// Collapses one after the other, sound or not what they leave; at each net in between every half-edge is tried.
    fn in_turn(&mut self, net: &Lent, collapses: usize, chance: &mut Chance) {
        let which = STEPS.len() - 1;
        let (step, line) = (&STEPS[which], &mut self.lines[which]);
        let mut net = with_list(net, chance);
        for _ in 0..collapses {
            let mut left: Vec<Lent> = asks(step, &net, usize::MAX / 8, chance).iter().filter_map(|numbers| line.take(step, &net, numbers)).collect();
            if left.is_empty() {
                break;
            }
            let i = chance.below(left.len());
            net = with_list(&left.swap_remove(i), chance);
        }
        self.show();
    }
}

/// The net with a list that holds its half-edges, anything in it; now and then it is one short.
fn with_list(net: &Lent, chance: &mut Chance) -> Lent {
    let mut l = net.clone();
    let enough = l.used.halfedges.min(l.rows_lent());
    let length = if chance.once_in(40) { enough.saturating_sub(1) } else { enough + chance.below(3) };
    l.list = (0..length).map(|_| chance.bits() as u32).collect();
    l
}

/// Some fields of some rows set wrong at once.
fn damaged_often(net: &Lent, chance: &mut Chance) -> Lent {
    let mut l = net.clone();
    let (rows, vertices) = (l.used.halfedges, l.used.vertices);
    for _ in 0..2 + chance.below(4) {
        let i = chance.below(ROW * rows);
        let other = chance.below(rows) as i32;
        let vertex = chance.below(vertices + 2) as i32;
        l.halfedges[i] = *chance.pick(&[-1, -2, other, other, vertex, vertex, rows as i32, i32::MAX, i32::MAX - 1, i32::MIN]);
    }
    l
}

fn main() {
    std::panic::set_hook(Box::new(|_| {}));
    let words: Vec<String> = std::env::args().collect();
    let chance = &mut Chance::new(words.last().and_then(|w| w.parse().ok()).unwrap_or(1));
    let times = match words.get(1).map(String::as_str) {
        Some("smoke") => 0,
        Some("quick") => 1,
        Some("whole") => 10,
        _ => {
            eprintln!("inner smoke|quick|whole [SEED]");
            std::process::exit(2);
        }
    };
    let mut table = Table { lines: STEPS.iter().map(|_| Line::default()).collect(), shown: std::time::Instant::now() };
    let mut small = vec![];
    for triangles in if times == 0 { vec![2] } else { vec![2, 4] } {
        nets::all_sound(triangles, &mut |net| small.push(net));
    }
    for net in &mut small {
        nets::add_room(net, 0, *chance.pick(&[0, 1, 2, 2, 2, 3]), chance);
    }

    eprintln!("all sound nets of two and of four triangles, as they are");
    for net in &small {
        table.on(net, 40, chance);
    }
    eprintln!("collapses of them one after the other");
    for net in small.iter().step_by(if times > 0 { 1 } else { 40 }) {
        table.in_turn(net, 4, chance);
    }
    eprintln!("each field of each row of those set wrong in turn");
    for net in small.iter().take(3).chain(small.iter().skip(3).step_by(if times > 1 { 4 } else { 80 })) {
        nets::damaged(net, chance, &mut |net, chance| table.on(net, 8, chance));
    }
    eprintln!("some fields of them set wrong at once");
    for _ in 0..(times * 20_000).max(20) {
        let net = damaged_often(chance.pick(&small), chance);
        table.on(&net, 8, chance);
    }
    eprintln!("random nets, whole and damaged, and their counts moved");
    for i in 0..(times * 400).max(3) {
        let net = nets::random_sound(chance);
        table.on(&net, 8, chance);
        table.in_turn(&net, 6, chance);
        for _ in 0..20 {
            let net = damaged_often(&net, chance);
            table.on(&net, 8, chance);
        }
        if i % 80 == 0 {
            nets::damaged(&net, chance, &mut |net, chance| table.on(net, 2, chance));
            nets::counts_beside(&net, chance, &mut |net, chance| table.on(net, 1, chance));
        }
    }
    report(&table);
}

fn report(table: &Table) {
    let (mut passed, mut failed) = (0, 0);
    println!(
        "{:<20}{:>10}{:>10}{:>10}{:>10}{:>9}{:>9}{:>11}{:>8}{:>12}",
        "inner step", "calls", "going", "no room", "stopped", "shape", "number", "left alone", "listed", "differences"
    );
    for (step, line) in STEPS.iter().zip(&table.lines) {
        let n = &line.by_number;
        let alone = n[5] + n[8] + n[9];
        println!(
            "{:<20}{:>10}{:>10}{:>10}{:>10}{:>9}{:>9}{:>11}{:>8}{:>12}",
            step.name, line.calls, n[0], n[6], n[7], n[1] + n[2], n[4], alone, line.listed, line.differences
        );
        passed += line.calls - line.differences;
        failed += line.differences;
    }
    for (_, smallest) in table.lines.iter().filter_map(|l| l.smallest.as_ref()) {
        println!("\nthe smallest input of a difference:\n{smallest}");
        if let Ok(mut file) = std::fs::OpenOptions::new().create(true).append(true).open("differences.txt") {
            let _ = writeln!(file, "{smallest}");
        }
    }
    println!("{passed} passed, {failed} failed");
    if failed > 0 {
        std::process::exit(1);
    }
}

/// The comparison itself: a wrong answer, a wrong count and a row written that should not be are each seen.
#[cfg(test)]
mod tests {
    use super::*;

    fn differences(ours: fn(&mut Lent, &[i32]) -> Result<StepAnswer, String>) -> u64 {
        let step = Step { name: "remove_if_folded", ours, theirs: STEPS[2].theirs, vertex: false, halfedges: 1, tries: false };
        let mut line = Line::default();
        nets::all_sound(2, &mut |net| {
            line.take(&step, &net, &[0]);
        });
        assert_eq!(line.calls, 3);
        line.differences
    }

    #[test]
    fn right_steps_are_passed() {
        assert_eq!(differences(fold), 0);
    }

    #[test]
    fn a_wrong_answer_is_seen() {
        assert_eq!(differences(|l, n| fold(l, n).map(|told| StepAnswer { number: 7, ..told })), 3);
        assert_eq!(differences(|l, n| fold(l, n).map(|told| StepAnswer { vertices: told.vertices + 1, ..told })), 3);
    }

    #[test]
    fn a_row_written_is_seen() {
        assert_eq!(
            differences(|l, n| {
                let told = fold(l, n);
                l.halfedges[3] ^= 1;
                told
            }),
            3
        );
    }
}
