//! The comparison: every entry beside the original Rust and a second reading of document 01, bit for bit in everything lent.
//!
//! harness smoke|quick|whole [SEED [ENTRY]]: the comparison, in three sizes; of one entry, the same calls of it alone
//! harness replay DIR [SEED]: writes the calls of the gate's program `replay` and what it must print

mod chance;
mod entries;
mod lent;
mod names;
mod nets;
mod reading;
mod replay;

use chance::Chance;
use entries::{Entry, ALL};
use lent::{Asked, Lent, Row, ROW};
use std::io::Write;
use std::time::Instant;

#[derive(Default)]
struct Line {
    calls: u64,
    by_number: [u64; 12],
    differences: u64,
    smallest: Option<(usize, String)>,
}

impl Line {
    /// One call on both sides.
    fn take(&mut self, entry: &Entry, which: usize, net: &Lent, asked: &Asked) {
        let (mut ours, mut owed) = (net.clone(), net.clone());
        let said = (entry.ours)(&mut ours, asked);
        let wanted = (entry.owed)(&mut owed, asked);
        let wrong = match said {
            Err(wrong) => Some(wrong),
            Ok(said) if said != wanted => Some(format!("said {said:?}, owed {wanted:?}")),
            Ok(_) => ours.differs(&owed),
        };
        self.count(wanted.number, wrong, entry, which, net, asked);
    }

    /// Counts a call that was answered so, and keeps the smallest that was wrong.
    fn count(&mut self, number: u32, wrong: Option<String>, entry: &Entry, which: usize, net: &Lent, asked: &Asked) {
        self.calls += 1;
        self.by_number[(number as usize).min(11)] += 1;
        let Some(wrong) = wrong else { return };
        self.differences += 1;
        let size = net.size();
        if self.smallest.as_ref().is_none_or(|(least, _)| size < *least) {
            let buffers = (&net.work_bytes, &net.work_words, &net.work_longs, &net.list, &net.spare_halfedges, &net.spare_positions);
            self.smallest = Some((size, format!("{}: {wrong}\n{}{buffers:?}\n", entry.name, replay::call(which, net, asked))));
        }
    }
}

struct Table {
    lines: Vec<Line>,
    /// the module edge_op of the Rust crate, on the same nets
    names: Vec<Line>,
    /// of each entry one call in so many is made there too
    share: u64,
    only: Option<usize>,
    began: Instant,
    shown: Instant,
}

impl Table {
    fn new(only: Option<usize>, share: u64) -> Table {
        let lines = || ALL.iter().map(|_| Line::default()).collect();
        Table { lines: lines(), names: lines(), share, only, began: Instant::now(), shown: Instant::now() }
    }

    fn run(&mut self, which: usize, net: &Lent, asked: &Asked) {
        if self.only.is_some_and(|only| only != which) {
            return;
        }
        self.lines[which].take(&ALL[which], which, net, asked);
        if self.lines[which].calls % self.share == 0 {
            if let Some((number, wrong)) = names::beside(&ALL[which], net, asked) {
                self.names[which].count(number, wrong, &ALL[which], which, net, asked);
            }
        }
        if self.shown.elapsed().as_secs() >= 5 {
            self.shown = Instant::now();
            eprintln!("  {} calls", self.calls());
        }
    }

    fn calls(&self) -> u64 {
        self.lines.iter().chain(&self.names).map(|l| l.calls).sum()
    }

    fn stage(&self, what: &str) {
        eprintln!("{what} ({} calls so far, {} s)", self.calls(), self.began.elapsed().as_secs());
    }

    /// Every entry that works on nets, on one.
    fn on(&mut self, net: &Lent, chance: &mut Chance) {
        self.on_with(net, usize::MAX, chance);
    }

    /// Every entry, asked everything that there is: for small nets.
    fn on_all(&mut self, net: &Lent, chance: &mut Chance) {
        for (which, entry) in ALL.iter().enumerate().filter(|(_, e)| e.on_nets) {
            let mut lent = net.clone();
            for asked in (entry.all)(net, chance) {
                entries::lend_enough(&mut lent, chance);
                self.run(which, &lent, &asked);
            }
        }
    }

    /// The same, asked at most so much: for large nets.
    fn on_with(&mut self, net: &Lent, most: usize, chance: &mut Chance) {
        for which in (0..ALL.len()).filter(|&i| ALL[i].on_nets) {
            self.one(which, net, most, chance);
        }
    }

    /// One entry, the same.
    fn one(&mut self, which: usize, net: &Lent, most: usize, chance: &mut Chance) {
        let mut asks = (ALL[which].asks)(net, chance);
        chance.shuffle(&mut asks);
        let mut lent = net.clone();
        for asked in asks.iter().take(most) {
            (ALL[which].lends)(&mut lent, chance);
            self.run(which, &lent, asked);
        }
    }
}

fn main() {
    std::panic::set_hook(Box::new(|_| {}));
    let words: Vec<String> = std::env::args().collect();
    parallel::on_one_thread(|| called(&words));
}

fn called(words: &[String]) {
    let seed = words.iter().skip(2).find_map(|w| w.parse().ok()).unwrap_or(1);
    let chance = &mut Chance::new(seed);
    let only = || words.get(3).map(|name| entry_named(name));
    match words.get(1).map(String::as_str) {
        Some("quick") => compare(1, only(), chance),
        Some("whole") => compare(10, only(), chance),
        Some("smoke") => compare(0, only(), chance),
        Some("replay") if words.len() > 2 => replay::write(std::path::Path::new(&words[2]), chance),
        _ => {
            eprintln!("harness smoke|quick|whole [SEED [ENTRY]], harness replay DIR [SEED]");
            std::process::exit(2);
        }
    }
}

fn entry_named(name: &str) -> usize {
    ALL.iter().position(|e| e.name == name).expect("an entry's name")
}

/// `times` is the size: 1 quick, 10 whole, 0 a few calls of each kind (for a run under memcheck).
fn compare(times: usize, only: Option<usize>, chance: &mut Chance) {
    let table = &mut Table::new(only, if times == 1 { 4 } else { 1 });
    // how much each entry is asked of each of many nets that are nearly the same
    let few = if times > 1 { 3 } else { 2 };

    table.stage("numbers alone");
    for (which, entry) in ALL.iter().enumerate().filter(|(_, e)| !e.on_nets) {
        for _ in 0..(times * 100).max(1) {
            for asked in (entry.asks)(&Lent::default(), chance) {
                table.run(which, &Lent::default(), &asked);
            }
        }
    }
    if times > 1 {
        table.stage("every number of 32 bits");
        for (name, every) in entries::EVERY_NUMBER {
            let which = entry_named(name);
            if only.is_some_and(|only| only != which) {
                continue;
            }
            for h in i32::MIN..=i32::MAX {
                if h & 0x1FFF_FFFF == 0 {
                    eprintln!("  {name} from {h}");
                }
                match every(h) {
                    Some(number) => {
                        table.lines[which].calls += 1;
                        table.lines[which].by_number[number as usize] += 1;
                    }
                    // once more, to say what differs
                    None => table.run(which, &Lent::default(), &Asked::numbers(&[h])),
                }
            }
        }
    }

    table.stage("the empty net, and no array at all");
    table.on(&Lent::default(), chance);
    nets::counts_beside(&Lent::default(), chance, &mut |net, chance| table.on(net, chance));

    table.stage("all sound nets of two and of four triangles");
    let mut small = vec![];
    for triangles in if times == 0 { vec![2] } else { vec![2, 4] } {
        let before = small.len();
        nets::all_sound(triangles, &mut |net| small.push(net));
        eprintln!("  {} of {triangles} triangles", small.len() - before);
    }
    for net in &small {
        table.on(net, chance);
        let mut roomy = net.clone();
        nets::add_room(&mut roomy, chance.below(2), 2 + chance.below(2), chance);
        table.on_all(&roomy, chance);
    }

    table.stage("random sound nets, with their counts moved and their room cut");
    let mut random = vec![];
    for i in 0..(times * 2000).max(3) {
        let net = nets::random_sound(chance);
        table.on(&net, chance);
        if i % 8 == 0 {
            nets::counts_beside(&net, chance, &mut |net, chance| table.on_with(net, few, chance));
            nets::room_from_none(&net, chance, &mut |net, chance| table.on_with(net, few, chance));
        }
        if i % 16 == 0 {
            random.push(net);
        }
    }

    table.stage("every room from none to enough, for what appends triangles and vertices");
    for (i, net) in small.iter().enumerate().filter(|(i, _)| times > 1 || i % 8 == 0) {
        let mut net = net.clone();
        if i % 2 == 0 {
            nets::dress(&mut net, chance);
        }
        rooms(table, &nets::bare(&net), ALL.len(), chance);
    }
    for _ in 0..(times * 150).max(1) {
        let net = match chance.below(3) {
            0 => nets::with_loops(chance),
            _ => nets::random_sound(chance),
        };
        rooms(table, &nets::bare(&net), 3, chance);
    }

    table.stage("nets on which a collapse forms loops");
    for _ in 0..(times * 400).max(2) {
        let mut net = nets::with_loops(chance);
        nets::add_room(&mut net, 0, 2 * chance.below(9), chance);
        let which = entry_named("collapse_edge");
        for asked in (ALL[which].all)(&net, chance) {
            (ALL[which].lends)(&mut net, chance);
            table.run(which, &net, &asked);
        }
    }

    table.stage("damaged nets");
    for net in small.iter().step_by(if times > 1 { 1 } else { 40 }).chain(random.iter().take(times * 20)) {
        nets::damaged(net, chance, &mut |net, chance| table.on_with(net, few, chance));
    }

    table.stage("nets with open edges and long fans, for the owner scan");
    for i in 0..(times * 6000).max(6) {
        let net = match i % 3 {
            0 => chance.pick(&small).clone(),
            1 => nets::random_sound(chance),
            // longer than the 64 steps after which the Rust's first walks stop
            _ => nets::built(nets::bipyramid(3 + chance.below(150)), false, chance),
        };
        let net = nets::opened(&net, chance);
        table.one(entry_named("orbit_owners"), &net, usize::MAX, chance);
    }

    table.stage("large nets");
    let sizes: &[usize] = match times {
        0 => &[100],
        1 => &[1_000, 100_000],
        _ => &[1_000, 10_000, 100_000, 999_998, 1_000_000],
    };
    for &triangles in sizes {
        for in_order in [true, false] {
            let mut net = nets::large(triangles, in_order, chance);
            nets::dress(&mut net, chance);
            table.on_with(&net, 3, chance);
            for _ in 0..3 {
                let (i, k) = (chance.below(net.used.halfedges), chance.below(3));
                let was = net.row(i)[k];
                net.row_mut(i)[k] = *chance.pick(&[-1, was + 1, was - 1, i32::MAX]);
                table.on_with(&net, 1, chance);
                net.row_mut(i)[k] = was;
            }
        }
    }

    table.stage("large nets with much to do");
    for &triangles in sizes.iter().filter(|&&t| t <= 100_000) {
        let pieces = nets::together(&small, triangles / 4, chance);
        // every edge across is there twice
        let narrow = nets::built(nets::torus(2, triangles / 4), false, chance);
        let wheel = nets::built(nets::bipyramid((triangles / 2).min(5_000)), false, chance);
        for mut net in [pieces, narrow, wheel] {
            nets::dress(&mut net, chance);
            nets::add_room(&mut net, 3 * triangles, 3 * triangles, chance);
            for name in ["dedupe_edge", "dedupe_edges", "cleanup_topology", "collapse_edge"] {
                table.one(entry_named(name), &net, 2, chance);
            }
        }
    }

    if times > 0 {
        table.stage("the bounds themselves");
        bounds(table, times > 1, chance);
    }
    report(table);
}

/// The entries that append, on one net with every room from none to what cleanup wants of it; of each at most so much is asked.
fn rooms(table: &mut Table, net: &Lent, most: usize, chance: &mut Chance) {
    let mut mesh = reading::mesh_of(net);
    original::edge_op::cleanup_topology(&mut mesh);
    let triangles = ((mesh.halfedge.len() - net.used.halfedges) / 3).clamp(2, 12);
    let vertices = (mesh.vert_pos.len() - net.used.vertices).clamp(2, 12);
    nets::every_room(net, triangles, vertices, chance, &mut |net, chance| {
        for name in ["dedupe_edge", "dedupe_edges", "cleanup_topology", "collapse_edge"] {
            let which = entry_named(name);
            let mut asks = (ALL[which].all)(net, chance);
            chance.shuffle(&mut asks);
            let mut lent = net.clone();
            for asked in asks.iter().take(most) {
                entries::lend_enough(&mut lent, chance);
                table.run(which, &lent, asked);
            }
        }
    });
}

/// Document 01's example, one vertex pinched, with so many vertices in use and room for more.
fn pinched_with(vertices: usize, lent: usize) -> Lent {
    let starts = [0, 1, 2, 1, 0, 2, 0, 3, 4, 3, 0, 4];
    let pairs = [3, 5, 4, 0, 2, 1, 9, 11, 10, 6, 8, 7];
    let mut net = nets::net_of(&starts, &pairs, vertices);
    net.positions.resize(3 * lent, 0x4008_0000_0000_0000);
    net
}

/// Arrays as long as the bounds and a row longer, counts at and beside them; every entry on each, or one by turns.
fn bounds(table: &mut Table, every: bool, chance: &mut Chance) {
    // an edge that is there twice, and dead triangles up to the bound or a few below it
    for triangles in [999_998, 999_999, 1_000_000] {
        let starts = [0, 1, 2, 1, 0, 2, 1, 0, 3, 0, 1, 3];
        let pairs = [6, 5, 4, 9, 2, 1, 0, 11, 10, 3, 8, 7];
        let mut net = nets::net_of(&starts, &pairs, 4);
        net.halfedges.resize(ROW * 3_000_003, -1);
        net.used.halfedges = 3 * triangles;
        net.positions.resize(3 * 8, 5);
        for name in ["dedupe_edges", "cleanup_topology"] {
            table.one(entry_named(name), &net, 1, chance);
        }
    }
    let entries: Vec<usize> = (0..ALL.len()).filter(|&i| ALL[i].on_nets).collect();
    let mut turn = 0;
    let mut on = |net: &Lent, chance: &mut Chance| {
        for _ in 0..if every { entries.len() } else { 1 } {
            table.one(entries[turn % entries.len()], net, 1, chance);
            turn += 1;
        }
    };
    for vertices in [999_998, 999_999, 1_000_000] {
        for _ in 0..entries.len() {
            on(&pinched_with(vertices, 1_000_002), chance);
        }
    }
    let mut net = Lent::default();
    let dead: Row = [-1, -1, -1, 7];
    net.halfedges = dead.repeat(3_000_003);
    net.positions = vec![0x3FF0_0000_0000_0000; 3_000_003];
    net.properties = vec![1; 3_000_001];
    for halfedges in [2_999_997, 3_000_000, 3_000_001, 3_000_003] {
        for vertices in [1_000_000, 1_000_001] {
            for (properties, num_prop) in [(0, 0), (3_000_000, 1), (3_000_001, 1), (3_000_000, 0), (3_000_001, 0), (93_750, 32), (93_751, 32), (0, 33)] {
                net.used.halfedges = halfedges;
                net.used.vertices = vertices;
                net.used.properties = properties;
                net.used.num_prop = num_prop;
                if (halfedges, vertices) == (3_000_000, 1_000_000) || num_prop == 0 && properties == 0 {
                    on(&net, chance);
                }
            }
        }
    }
}

fn report(table: &Table) {
    let (mut passed, mut failed) = (0, 0);
    println!("{:<30}{:>12}{:>12}{:>12}  refused by number", "entry", "calls", "done", "differences");
    let lines = ALL.iter().zip(&table.lines).map(|(entry, line)| (entry.name.to_string(), line));
    let names = ALL.iter().zip(&table.names).filter(|(_, line)| line.calls > 0).map(|(entry, line)| (format!("edge_op::{}", entry.name), line));
    for (name, line) in lines.chain(names) {
        let refused: Vec<String> =
            (1..12).filter(|&n| line.by_number[n] > 0).map(|n| format!("{n}: {}", line.by_number[n])).collect();
        println!("{:<30}{:>12}{:>12}{:>12}  {}", name, line.calls, line.by_number[0], line.differences, refused.join(", "));
        passed += line.calls - line.differences;
        failed += line.differences;
    }
    for (_, smallest) in table.lines.iter().chain(&table.names).filter_map(|l| l.smallest.as_ref()) {
        println!("\nthe smallest input of a difference:\n{smallest}");
        if let Ok(mut file) = std::fs::OpenOptions::new().create(true).append(true).open("differences.txt") {
            let _ = writeln!(file, "{smallest}");
        }
    }
    println!("{passed} passed, {failed} failed");
    if failed > 0 {
        std::process::exit(1);
    }
}

/// The comparison itself: a wrong answer, a row written that should not be and a write outside what was lent are each seen.
#[cfg(test)]
mod tests {
    use super::*;
    use crate::lent::{Guarded, Said};

    fn differences(ours: fn(&mut Lent, &Asked) -> Result<Said, String>) -> u64 {
        let entry = Entry { ours, ..ALL.iter().find(|e| e.name == "check_net").map(|e| Entry { ..*e }).expect("an entry") };
        let mut line = Line::default();
        nets::all_sound(2, &mut |net| line.take(&entry, 3, &net, &Asked::default()));
        assert_eq!(line.calls, 3);
        line.differences
    }

    #[test]
    fn right_answers_are_passed() {
        assert_eq!(differences(|_, _| Ok(Said::done())), 0);
    }

    #[test]
    fn a_wrong_answer_is_seen() {
        assert_eq!(differences(|_, _| Ok(Said::refused(1))), 3);
        assert_eq!(differences(|_, _| Ok(Said::with(0, &[1]))), 3);
    }

    #[test]
    fn a_row_written_is_seen() {
        assert_eq!(
            differences(|l, _| {
                l.positions[0] ^= 1;
                Ok(Said::done())
            }),
            3
        );
    }

    #[test]
    fn a_write_outside_is_seen() {
        for at in [-1, 6] {
            let mut lent = vec![1i32; 6];
            let mut guarded = Guarded::new(&lent);
            unsafe { *guarded.at().offset(at) = 5 };
            assert!(guarded.back("rows", &mut lent).is_err());
        }
    }
}
