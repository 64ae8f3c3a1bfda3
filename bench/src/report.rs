//! The tables and the plots.

use std::fs;
use std::io;
use std::path::Path;

use crate::measure::{Bench, Figures};
use crate::plot::{svg, Line};
use crate::shapes::{Drill, Shape};
use crate::sides::{LIBRARY, PEER, PEER_CHECKS, QUEUES, SINGLES};

/// The five rows, whole drills and single calls.
pub fn rows(bench: &mut Bench) -> io::Result<()> {
    let mut whole = String::new();
    let mut single = String::new();
    for shape in Shape::rows() {
        let drill = shape.drill();
        bench.agreed(&drill)?;
        eprintln!(
            "{}: {} events, {} turns, {} failures, {} in flight at the end",
            drill.name, drill.events, drill.turns, drill.failures, drill.flying
        );
        whole += &row(bench, &drill, &[LIBRARY, PEER, QUEUES])?;
        single += &row(bench, &drill, &[SINGLES, PEER_CHECKS])?;
    }
    println!(
        "| whole drills | library | peer | ratio | queues | library, M/s | peer, M/s | queues, M/s |\n\
         |---|---|---|---|---|---|---|---|\n{whole}\n\
         | single calls | proved | peer, checking | ratio | proved, M/s | peer, M/s |\n\
         |---|---|---|---|---|---|\n{single}"
    );
    Ok(())
}

/// Instructions of each side, the ratio of the first two after these, and then
/// the speeds.
fn row(bench: &mut Bench, drill: &Drill, sides: &[&str]) -> io::Result<String> {
    let figures: Vec<Figures> = sides
        .iter()
        .map(|side| bench.figures(side, drill))
        .collect::<io::Result<_>>()?;
    let mut cells = vec![drill.name.clone()];
    cells.extend(figures.iter().map(|side| format!("{:.0}", side.counted)));
    let ratio = figures[0].counted / figures[1].counted;
    cells.insert(3, format!("{ratio:.2}"));
    let speeds = figures.iter().map(|side| side.speed / 1e6);
    cells.extend(speeds.map(|speed| format!("{speed:.2}")));
    Ok(format!("| {} |\n", cells.join(" | ")))
}

const SIDES: [(&str, &str, &str); 5] = [
    (LIBRARY, "library", "#1f5fbf"),
    (PEER, "peer", "#d9822b"),
    (QUEUES, "peer with queues", "#999999"),
    (SINGLES, "single calls", "#0a2a66"),
    (PEER_CHECKS, "peer, checking", "#8a3b00"),
];

/// Instructions for each event as one number grows.
pub fn sweep(
    bench: &mut Bench,
    across: &str,
    shapes: Vec<Shape>,
    number: fn(&Shape) -> u32,
    svg_path: &Path,
) -> io::Result<()> {
    let mut lines: Vec<Line> = SIDES
        .iter()
        .map(|&(_, name, colour)| Line {
            name,
            colour,
            points: Vec::new(),
        })
        .collect();
    let mut table = String::new();
    for shape in shapes {
        let drill = shape.drill();
        bench.agreed(&drill)?;
        let at = number(&shape);
        table += &format!("| {at} |");
        for ((side, _, _), line) in SIDES.iter().zip(&mut lines) {
            let counted = bench.counted_only(side, &drill)?;
            table += &format!(" {counted:.0} |");
            line.points.push((at.into(), counted));
        }
        table += "\n";
    }
    let names = SIDES.map(|(_, name, _)| name).join(" | ");
    println!("| {across} | {names} |\n|---|---|---|---|---|---|\n{table}");
    fs::write(svg_path, svg("instructions for each event", across, &lines))
}
