//! Calls and what is owed, as text: the input of the gate's program `replay` and its stored output.

use crate::chance::Chance;
use crate::entries::{Field, ALL};
use crate::lent::{counts, Asked, Lent, Row, ROW};
use crate::nets;
use crate::reading;
use std::collections::{BTreeMap, BTreeSet};
use std::fmt::Write;
use std::path::Path;

fn list<T: std::fmt::Display>(name: &str, values: &[T], out: &mut String) {
    let _ = write!(out, "{name} {}:", values.len());
    for v in values {
        let _ = write!(out, " {v}");
    }
    out.push('\n');
}

/// One call: the entry's place in the table, what is lent, what is asked, and the buffers that the entry takes. A reader needs the numbers
/// alone.
pub fn call(which: usize, net: &Lent, asked: &Asked) -> String {
    let mut out = String::new();
    let _ = writeln!(out, "{} {which}", ALL[which].name);
    list("used", &counts(&net.used), &mut out);
    list("halfedges", &net.halfedges, &mut out);
    list("positions", &net.positions, &mut out);
    list("normals", &net.normals, &mut out);
    list("references", &net.references, &mut out);
    list("properties", &net.properties, &mut out);
    list("numbers", &asked.numbers, &mut out);
    list("floats", &asked.floats, &mut out);
    let _ = writeln!(out, "choice {}", asked.choice as u8);
    for (name, values) in buffers(which, net) {
        list(name, &values, &mut out);
    }
    out
}

/// The buffers that an entry takes, by name, in the order of its arguments.
fn buffers(which: usize, net: &Lent) -> Vec<(&'static str, Vec<i128>)> {
    fn all<T: Copy + Into<i128>>(values: &[T]) -> Vec<i128> {
        values.iter().map(|&v| v.into()).collect()
    }
    match ALL[which].name {
        "split_pinched_verts" => vec![("work", all(&net.work_words)), ("visit", all(&net.list))],
        "orbit_owners" => vec![("work", all(&net.work_bytes)), ("list", all(&net.list))],
        "form_loop" | "dedupe_edge" => vec![("spare_halfedges", all(&net.spare_halfedges)), ("spare_positions", all(&net.spare_positions))],
        "dedupe_edges" | "cleanup_topology" => vec![
            ("spare_halfedges", all(&net.spare_halfedges)),
            ("spare_positions", all(&net.spare_positions)),
            ("work", all(&net.work_words)),
            ("list", all(&net.list)),
        ],
        "collapse_edge" => {
            vec![("spare_halfedges", all(&net.spare_halfedges)), ("spare_positions", all(&net.spare_positions)), ("list", all(&net.list))]
        }
        _ => vec![],
    }
}

/// What is told apart among the calls of an entry: the number of the answer, whether anything was written, and of what appends whether the net is empty, how
/// many vertices and half-edges were appended, or had been when it was refused and read zero now, and whether there was room for another vertex then. Of the
/// rest, what `apart` says stands in the place of how many.
type Kind = (u32, bool, bool, usize, usize, bool);

fn kind(which: usize, net: &Lent, left: &Lent, asked: &Asked, number: u32) -> Kind {
    let written = left.differs(net).is_some();
    if !appends(which) {
        let (some, more) = apart(which, net, left, asked, number);
        return (number, written, false, some, more, false);
    }
    let empty = net.used.halfedges == 0;
    // of a refusal the rows that were not zero and are now
    fn emptied<T: PartialEq + Default>(before: &[T], after: &[T], width: usize) -> usize {
        let zero = |row: &[T]| row.iter().all(|x| *x == T::default());
        before.chunks_exact(width).zip(after.chunks_exact(width)).filter(|(b, a)| !zero(b) && zero(a)).count()
    }
    let (vertices, rows) = match number {
        0 => (left.used.vertices - net.used.vertices, left.used.halfedges - net.used.halfedges),
        6 | 7 => (emptied(&net.positions, &left.positions, 3), emptied(&net.halfedges, &left.halfedges, ROW)),
        _ => (0, 0),
    };
    let room = number == 6 && net.used.vertices + vertices < reading::vertex_capacity(net);
    (number, written, empty, vertices.min(4), rows.min(12), room)
}

/// What else is told apart: the least number of all; at how many vertices a split appends, and how many; rows with a start and an end below 0, by the choice;
/// loops formed of two half-edges where nothing folds, by where they stand.
fn apart(which: usize, net: &Lent, left: &Lent, asked: &Asked, number: u32) -> (usize, usize) {
    let rows = |l: &Lent| -> Vec<Row> { l.rows().take(net.used.halfedges).copied().collect() };
    match (ALL[which].name, number) {
        ("next_halfedge" | "tri_of", _) => ((asked.numbers[0] == i32::MIN) as usize, 0),
        ("split_pinched_verts", 0) => {
            let moved: BTreeSet<(i32, i32)> = rows(net).iter().zip(rows(left)).map(|(b, a)| (b[0], a[0])).filter(|(b, a)| a != b).collect();
            let from: BTreeSet<i32> = moved.iter().map(|m| m.0).collect();
            (from.len().min(2), moved.len().min(5))
        }
        ("orbit_owners", 0 | 10) => match rows(net).iter().any(|r| r[0] >= 0 && r[1] < 0) {
            true => (1, asked.choice as usize),
            false => (0, 0),
        },
        ("form_loop", 0) => {
            let [first, second] = [asked.numbers[0], asked.numbers[1]];
            let dead = |l: &Lent| rows(l).iter().filter(|r| r[2] < 0).count();
            match first != second && dead(net) == dead(left) {
                true => (1, 2 * (first > second) as usize + (first % 2 == second % 2) as usize),
                false => (0, 0),
            }
        }
        _ => (0, 0),
    }
}

/// The entries that append triangles or vertices as their steps go; form_loop, which always appends two, is not told apart by them.
fn appends(which: usize) -> bool {
    which > ALL.iter().position(|e| e.name == "form_loop").expect("an entry")
}

/// What the entry must say and leave, as the program `replay` prints it; with its kind.
fn printed(which: usize, net: &Lent, asked: &Asked) -> (Kind, String) {
    let entry = &ALL[which];
    let mut left = net.clone();
    let said = (entry.owed)(&mut left, asked);
    let mut out = format!("{} answer={}", entry.name, said.number);
    for (i, field) in entry.fields.iter().enumerate() {
        let value = said.values.get(i).copied().unwrap_or(0);
        let _ = match field {
            Field::Signed(name) => write!(out, " {name}={}", value as i64),
            Field::Plain(name) => write!(out, " {name}={value}"),
        };
    }
    out.push('\n');
    if entry.on_nets {
        for (name, values) in buffers(which, &left) {
            row(name, &values, &mut out);
        }
        row("halfedges", &left.halfedges, &mut out);
        row("positions", &left.positions, &mut out);
        row("normals", &left.normals, &mut out);
        row("references", &left.references, &mut out);
        row("properties", &left.properties, &mut out);
    }
    (kind(which, net, &left, asked, said.number), out)
}

fn row<T: std::fmt::Display>(name: &str, values: &[T], out: &mut String) {
    out.push_str(name);
    for v in values {
        let _ = write!(out, " {v}");
    }
    out.push('\n');
}

/// Numbers mostly short, so that more calls can be stored: those that are free or a buffer's are never 0.
fn shorten(net: &mut Lent, chance: &mut Chance) {
    let used = net.used;
    let free = |array: usize, rows: usize, width: usize| rows.saturating_mul(width).min(array);
    let halfedges = free(net.halfedges.len(), used.halfedges, ROW);
    let references = free(net.references.len(), used.references, 3);
    for n in net.halfedges[halfedges..].iter_mut().chain(&mut net.references[references..]).chain(&mut net.spare_halfedges) {
        if !chance.once_in(16) {
            *n = 1 + n.rem_euclid(99);
        }
    }
    for n in net.work_words.iter_mut().chain(&mut net.list) {
        if !chance.once_in(16) {
            *n = 1 + *n % 99;
        }
    }
    for bits in net.positions.iter_mut().chain(&mut net.normals).chain(&mut net.properties).chain(&mut net.spare_positions) {
        if !chance.once_in(16) {
            *bits = 1 + *bits % 99;
        }
    }
}

/// A net as it is, damaged, with a count moved, or cut short; small enough to store.
fn any_net(chance: &mut Chance) -> Lent {
    let net = loop {
        let net = nets::random_sound(chance);
        if net.used.halfedges <= MOST_HALFEDGES {
            break net;
        }
    };
    varied(net, chance)
}

/// The same for what appends: most of the nets have references, normals and properties, some have loops to form, and some are empty.
fn any_growing(small: &[Lent], chance: &mut Chance) -> Lent {
    let faces = !chance.once_in(4);
    let net = loop {
        let mut net = match chance.below(8) {
            0 | 1 => nets::with_loops(chance),
            2 => nets::random_sound(chance),
            3 => Lent::default(),
            4 => nets::with_dead(chance.pick(small), chance),
            _ => chance.pick(small).clone(),
        };
        if net.used.num_prop == 0 {
            nets::dress(&mut net, chance);
        }
        let whole = net.used.num_prop > 0 && (net.used.halfedges == 0 || net.used.references > 0 && net.used.normals > 0);
        if net.used.halfedges <= MOST_HALFEDGES && (whole || !faces) {
            break nets::bare(&net);
        }
    };
    let mut net = if net.used.halfedges > 0 && chance.once_in(3) { varied(net, chance) } else { net };
    let (triangles, vertices) = (chance.below(5), chance.below(5));
    nets::add_room(&mut net, triangles, vertices, chance);
    net
}

fn varied(net: Lent, chance: &mut Chance) -> Lent {
    let mut all = vec![];
    match chance.below(6) {
        0 => nets::damaged(&net, chance, &mut |l, _| all.push(l.clone())),
        1 => nets::counts_beside(&net, chance, &mut |l, _| all.push(l.clone())),
        2 => nets::room_from_none(&net, chance, &mut |l, _| all.push(l.clone())),
        _ => all.push(net),
    }
    let which = chance.below(all.len());
    all.swap_remove(which)
}

/// How large a net is stored, how many calls of each entry, and how large the file may be that holds them (the program reads 65,536 bytes).
const MOST_HALFEDGES: usize = 24;
const CALLS: usize = 100;
const MOST_BYTES: usize = 65_000;
/// How large a call of what appends may be, so that there are 60 and more.
const MOST_OF_ONE: usize = 1_250;

/// What stands at the head of a file: no digit and no minus sign, which would be read.
fn head(name: &str) -> String {
    let mut out = format!("Calls of {name}: made by the comparison's harness (its command replay), which draws nets and questions by chance\n");
    out += "and takes each answer that the entry gives in turn. What is owed, in the program's stored output, is what the original Rust\n";
    out += "left, and for a refusal what a second reading of the scope document says.\n";
    if name == "split_pinched_verts" {
        out += "Open fan is not among the answers: it cannot be given once the net is sound.\n";
    }
    if ["dedupe_edge", "dedupe_edges", "cleanup_topology"].contains(&name) {
        out += "Stopped is not among the answers: it cannot be given once the net is sound.\n";
    }
    out
}

/// Writes data/ENTRY, args and stdout of the program's folder: for each entry 100 calls or as many as its file holds, the kinds of its answers in
/// turn, so that each is there as often as it comes.
pub fn write(folder: &Path, chance: &mut Chance) {
    let mut stdout = String::new();
    let mut args = String::new();
    let mut total = 0;
    let mut small = vec![];
    nets::all_sound(2, &mut |net| small.push(net));
    nets::all_sound(4, &mut |net| small.push(net));
    for (which, entry) in ALL.iter().enumerate() {
        // calls by what is owed
        let mut by_answer: BTreeMap<Kind, Vec<(String, String)>> = BTreeMap::new();
        for _ in 0..match entry.name {
            "split_pinched_verts" | "form_loop" => 3000,
            _ if entry.on_nets => 600,
            _ => 4,
        } {
            let net = match entry.on_nets {
                true if appends(which) || entry.name == "form_loop" && chance.once_in(2) => any_growing(&small, chance),
                true if entry.name == "orbit_owners" && chance.once_in(2) => {
                    let net = any_net(chance);
                    if reading::misshapen(&net) || net.used.halfedges == 0 {
                        net
                    } else {
                        nets::opened(&net, chance)
                    }
                }
                true => any_net(chance),
                false => Lent::default(),
            };
            let mut asks = (entry.asks)(&net, chance);
            if entry.on_nets && !reading::misshapen(&net) && net.used.vertices > 0 {
                asks.extend((entry.all)(&net, chance));
            }
            for asked in asks {
                let mut lent = net.clone();
                (entry.lends)(&mut lent, chance);
                shorten(&mut lent, chance);
                let (answer, text) = printed(which, &lent, &asked);
                let stored = (call(which, &lent, &asked), text);
                let rare = entry.name == "form_loop" && answer.3 == 1;
                if (appends(which) || entry.name == "form_loop" && !rare) && stored.0.len() > MOST_OF_ONE {
                    continue;
                }
                let share = by_answer.entry(answer).or_default();
                if !entry.on_nets && share.contains(&stored) {
                    continue;
                }
                // a sample of each, of no more than so many
                if share.len() < 2 * CALLS {
                    share.push(stored);
                } else if chance.once_in(8) {
                    let i = chance.below(share.len());
                    share[i] = stored;
                }
            }
        }
        let (mut file, mut calls) = (head(entry.name), 0);
        let mut given: BTreeMap<u32, usize> = BTreeMap::new();
        let mut shares: Vec<_> = by_answer.iter_mut().collect();
        for (_, share) in shares.iter_mut() {
            chance.shuffle(share);
        }
        'full: while calls < CALLS && shares.iter().any(|(_, s)| !s.is_empty()) {
            for ((number, ..), share) in shares.iter_mut() {
                let Some((input, output)) = share.pop() else { continue };
                if file.len() + input.len() > MOST_BYTES {
                    break 'full;
                }
                file += &input;
                stdout += &output;
                calls += 1;
                *given.entry(*number).or_default() += 1;
            }
        }
        eprintln!("{}: {calls} calls of {} kinds, answers {given:?}, {} bytes", entry.name, by_answer.len(), file.len());
        std::fs::write(folder.join("data").join(entry.name), file).expect("the file of calls is written");
        args += entry.name;
        args.push('\n');
        total += calls;
    }
    eprintln!("{total} calls");
    std::fs::write(folder.join("args"), args).expect("the arguments are written");
    std::fs::write(folder.join("stdout"), stdout).expect("the output is written");
}
