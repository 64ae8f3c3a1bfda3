//! A plot of lines over a scale of powers of ten, as SVG.

use std::fmt::Write;

pub struct Line {
    pub name: &'static str,
    pub colour: &'static str,
    pub points: Vec<(f64, f64)>,
}

const WIDTH: f64 = 720.0;
const HEIGHT: f64 = 420.0;
const LEFT: f64 = 70.0;
const RIGHT: f64 = 190.0;
const TOP: f64 = 40.0;
const BOTTOM: f64 = 50.0;

/// The scale upwards: its lowest, its highest, and what is written beside it.
const LOW: f64 = 100.0;
const HIGH: f64 = 10_000.0;
const SCALE: [f64; 7] = [100.0, 200.0, 500.0, 1000.0, 2000.0, 5000.0, 10_000.0];

/// Where a value stands in the picture.
struct Frame {
    most: f64,
}

impl Frame {
    fn of(lines: &[Line]) -> Frame {
        let all = lines.iter().flat_map(|line| &line.points);
        let most = all.map(|point| point.0).fold(1.0, f64::max);
        Frame { most }
    }

    fn x(&self, value: f64) -> f64 {
        LEFT + value / self.most * (WIDTH - LEFT - RIGHT)
    }

    fn y(&self, value: f64) -> f64 {
        let up = (value.max(LOW) / LOW).ln() / (HIGH / LOW).ln();
        HEIGHT - BOTTOM - up * (HEIGHT - TOP - BOTTOM)
    }
}

pub fn svg(title: &str, across: &str, lines: &[Line]) -> String {
    let frame = Frame::of(lines);
    let mut out = format!(
        "<svg xmlns=\"http://www.w3.org/2000/svg\" viewBox=\"0 0 {WIDTH} {HEIGHT}\" \
         font-family=\"sans-serif\" font-size=\"12\">\n\
         <rect width=\"{WIDTH}\" height=\"{HEIGHT}\" fill=\"white\"/>\n"
    );
    text(&mut out, (LEFT, 22.0), "start", title);
    let middle = LEFT + (WIDTH - LEFT - RIGHT) / 2.0;
    text(&mut out, (middle, HEIGHT - 12.0), "middle", across);
    numbers(&mut out, &frame, lines);
    names(&mut out, lines);
    for value in SCALE {
        let (y, end) = (frame.y(value), WIDTH - RIGHT);
        // Writing to a string cannot fail; so below.
        let _ = writeln!(out, "<path d=\"M{LEFT} {y:.1}H{end}\" stroke=\"#ddd\"/>");
    }
    for (number, line) in lines.iter().enumerate() {
        sample(&mut out, number, line);
        polyline(&mut out, &frame, line);
    }
    out + "</svg>\n"
}

fn text(out: &mut String, at: (f64, f64), anchor: &str, words: &str) {
    let (x, y) = at;
    let _ = writeln!(
        out,
        "<text x=\"{x:.1}\" y=\"{y:.1}\" text-anchor=\"{anchor}\">{words}</text>"
    );
}

/// The numbers beside the scale, and under the points of the first line.
fn numbers(out: &mut String, frame: &Frame, lines: &[Line]) {
    for value in SCALE {
        let at = (LEFT - 8.0, frame.y(value) + 4.0);
        text(out, at, "end", &format!("{value}"));
    }
    for (value, _) in lines.first().map_or(&[][..], |line| &line.points) {
        let at = (frame.x(*value), HEIGHT - BOTTOM + 18.0);
        text(out, at, "middle", &format!("{value}"));
    }
}

fn names(out: &mut String, lines: &[Line]) {
    for (number, line) in lines.iter().enumerate() {
        let row = TOP + 14.0 + 18.0 * number as f64;
        text(out, (WIDTH - RIGHT + 44.0, row), "start", line.name);
    }
}

/// A piece of the line before its name.
fn sample(out: &mut String, number: usize, line: &Line) {
    let row = TOP + 10.0 + 18.0 * number as f64;
    let from = WIDTH - RIGHT + 14.0;
    let colour = line.colour;
    let _ = writeln!(
        out,
        "<path d=\"M{from} {row}h24\" stroke=\"{colour}\" stroke-width=\"2\"/>"
    );
}

fn polyline(out: &mut String, frame: &Frame, line: &Line) {
    let points = line.points.iter();
    let points = points.map(|&(a, b)| format!("{:.1},{:.1}", frame.x(a), frame.y(b)));
    let points = points.collect::<Vec<_>>().join(" ");
    let colour = line.colour;
    let _ = writeln!(
        out,
        "<polyline points=\"{points}\" fill=\"none\" stroke=\"{colour}\" stroke-width=\"2\"/>"
    );
}
