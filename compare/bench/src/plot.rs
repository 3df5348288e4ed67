//! Time against size, both by powers of ten, as an SVG.

use std::fmt::Write;

const COLOURS: [&str; 9] = ["#1b6ca8", "#c0392b", "#e59866", "#27ae60", "#7dcea0", "#a9dfbf", "#8e44ad", "#2c3e50", "#95a5a6"];

/// Points of named curves, in order or shuffled (dashed): size in triangles, time in nanoseconds.
pub fn drawn(points: &[(String, &str, f64, f64)]) -> String {
    let (left, top, width, height) = (90.0, 40.0, 480.0, 330.0);
    // a little more than the sizes, so that each point is inside
    let size = |pick: fn(f64, f64) -> f64, from: f64| points.iter().map(|p| p.2.log10()).fold(from, pick);
    let (x0, x1) = (size(f64::min, 6.0) - 0.1, size(f64::max, 3.0) + 0.1);
    let low = points.iter().map(|p| p.3.log10().floor()).fold(f64::MAX, f64::min);
    let high = points.iter().map(|p| p.3.log10().ceil()).fold(f64::MIN, f64::max);
    let at = |size: f64, time: f64| {
        (left + (size.log10() - x0) / (x1 - x0) * width, top + height - (time.log10() - low) / (high - low) * height)
    };
    let mut out = String::from("<svg xmlns=\"http://www.w3.org/2000/svg\" width=\"900\" height=\"430\" font-family=\"sans-serif\" font-size=\"12\">\n<rect width=\"900\" height=\"430\" fill=\"white\"/>\n");
    let _ = writeln!(out, "<text x=\"{:.1}\" y=\"22\" text-anchor=\"middle\" font-size=\"15\">Time of one call against the size of the net</text>", left + width / 2.0);
    let _ = writeln!(out, "<rect x=\"{left}\" y=\"{top}\" width=\"{width}\" height=\"{height}\" fill=\"none\" stroke=\"#999\"/>");
    for e in x0.ceil() as i32..=x1.floor() as i32 {
        let (x, _) = at(10f64.powi(e), 10f64.powf(low));
        let _ = writeln!(out, "<line x1=\"{x:.1}\" y1=\"{top}\" x2=\"{x:.1}\" y2=\"{:.1}\" stroke=\"#ddd\"/><text x=\"{x:.1}\" y=\"{:.1}\" text-anchor=\"middle\">10^{e}</text>", top + height, top + height + 18.0);
    }
    for e in low as i32..=high as i32 {
        let (_, y) = at(1.0, 10f64.powi(e));
        let name = match e {
            3 => "1 µs".to_string(),
            4 | 5 => format!("{} µs", 10i32.pow(e as u32 - 3)),
            6..=8 => format!("{} ms", 10i32.pow(e as u32 - 6)),
            9 => "1 s".to_string(),
            _ => format!("10^{e} ns"),
        };
        let _ = writeln!(out, "<line x1=\"{left}\" y1=\"{y:.1}\" x2=\"{:.1}\" y2=\"{y:.1}\" stroke=\"#ddd\"/><text x=\"{:.1}\" y=\"{:.1}\" text-anchor=\"end\">{name}</text>", left + width, left - 8.0, y + 4.0);
    }
    let _ = writeln!(out, "<text x=\"{:.1}\" y=\"{:.1}\" text-anchor=\"middle\">size of the net (triangles)</text>", left + width / 2.0, top + height + 38.0);
    let _ = writeln!(out, "<text transform=\"translate(20 {:.1}) rotate(-90)\" text-anchor=\"middle\">time of one call (µs, ms), best of the rounds</text>", top + height / 2.0);
    let mut names: Vec<&String> = vec![];
    for (name, ..) in points {
        if !names.contains(&name) {
            names.push(name);
        }
    }
    for (i, name) in names.iter().enumerate() {
        let colour = COLOURS[i % COLOURS.len()];
        for (order, dashes) in [("in order", ""), ("shuffled", " stroke-dasharray=\"6 4\"")] {
            let dots: Vec<(f64, f64)> = points.iter().filter(|p| &&p.0 == name && p.1 == order).map(|p| at(p.2, p.3)).collect();
            let line: Vec<String> = dots.iter().map(|(x, y)| format!("{x:.1},{y:.1}")).collect();
            let _ = writeln!(out, "<polyline points=\"{}\" fill=\"none\" stroke=\"{colour}\" stroke-width=\"2\"{dashes}/>", line.join(" "));
            for (x, y) in dots {
                let _ = writeln!(out, "<circle cx=\"{x:.1}\" cy=\"{y:.1}\" r=\"3\" fill=\"{colour}\"/>");
            }
        }
        let y = top + 14.0 + 20.0 * i as f64;
        let _ = writeln!(out, "<line x1=\"{:.1}\" y1=\"{:.1}\" x2=\"{:.1}\" y2=\"{:.1}\" stroke=\"{colour}\" stroke-width=\"2\"/><text x=\"{:.1}\" y=\"{y:.1}\">{name}</text>", left + width + 14.0, y - 4.0, left + width + 38.0, y - 4.0, left + width + 44.0);
    }
    let y = top + 14.0 + 20.0 * names.len() as f64;
    let _ = writeln!(out, "<text x=\"{:.1}\" y=\"{y:.1}\">dashed: shuffled</text>", left + width + 14.0);
    out.push_str("</svg>\n");
    out
}
