//! Reads a mesh file (form 1, docs/MANUAL.md), checks the net, cleans it and says what happened.
//!   clean FILE        0: cleaned; 1: the net was refused, and why; 2: the file cannot be read

use spoonferret::{Halfedge, Net, Refusal, Vec3};
use std::process::ExitCode;

fn read_net(text: &str) -> Option<Net> {
    let mut lines = text.lines();
    let mut after = |name: &str| lines.next().and_then(|line| line.strip_prefix(name));
    (after("form=")? == "1").then_some(())?;
    let vertices: usize = after("verts=")?.parse().ok()?;
    let triangles: usize = after("tris=")?.parse().ok()?;
    let mut net = Net::default();
    for _ in 0..vertices {
        let bits: Option<Vec<u64>> = after("p=")?.split(',').map(|x| u64::from_str_radix(x, 16).ok()).collect();
        let [x, y, z] = bits?[..] else { return None };
        net.positions.push(Vec3::new(f64::from_bits(x), f64::from_bits(y), f64::from_bits(z)));
    }
    for _ in 0..3 * triangles {
        let row: Option<Vec<i32>> = after("h=")?.split(',').map(|n| n.parse().ok()).collect();
        let [start, end, pair, prop] = row?[..] else { return None };
        net.halfedges.push(Halfedge::new(start, end, pair, prop));
    }
    Some(net)
}

fn cleaned(net: &mut Net) -> Result<(), Refusal> {
    let (vertices, triangles) = (net.positions.len(), net.halfedges.len() / 3);
    net.check()?;
    println!("sound: {vertices} vertices, {triangles} triangles");
    net.cleanup_topology()?;
    println!("cleaned: {} vertices more, {} triangles more", net.positions.len() - vertices, net.halfedges.len() / 3 - triangles);
    for (v, at) in net.positions.iter().enumerate().skip(vertices) {
        println!("vertex {v} at {} {} {}", at.x, at.y, at.z);
    }
    Ok(())
}

fn main() -> ExitCode {
    let text = std::env::args().nth(1).and_then(|file| std::fs::read_to_string(file).ok());
    let Some(text) = text else {
        eprintln!("clean FILE");
        return ExitCode::from(2);
    };
    let Some(mut net) = read_net(&text) else {
        eprintln!("not a mesh file of form 1");
        return ExitCode::from(2);
    };
    if let Err(refusal) = cleaned(&mut net) {
        println!("refused by {}", refusal.number());
        if let Refusal::Unsound { row, .. } = refusal {
            println!("row {row}, in triangle {}", row / 3);
        }
        eprintln!("{refusal}");
        return ExitCode::from(1);
    }
    ExitCode::SUCCESS
}
