//! The program `bench`.

mod measure;
mod plot;
mod report;
mod shapes;
mod sides;

use std::fs;
use std::io;
use std::path::Path;
use std::process::ExitCode;

use measure::Bench;
use shapes::Shape;
use sides::Buffers;

const HELP: &str = "\
bench                       all tables; the plots go to docs/
bench rows                  the five rows alone
bench once SIDE FILE        one side once on a file, for callgrind
bench files FOLDER          writes the drills of the five rows
";

fn main() -> ExitCode {
    let words: Vec<String> = std::env::args().skip(1).collect();
    let words: Vec<&str> = words.iter().map(String::as_str).collect();
    let done = match words[..] {
        [] => all(),
        ["rows"] => started().and_then(|mut bench| report::rows(&mut bench)),
        ["once", side, file] => once(side, Path::new(file)),
        ["files", folder] => files(Path::new(folder)),
        _ => {
            eprint!("{HELP}");
            return ExitCode::from(2);
        }
    };
    match done {
        Ok(()) => ExitCode::SUCCESS,
        Err(error) => {
            eprintln!("{error}");
            ExitCode::FAILURE
        }
    }
}

fn started() -> io::Result<Bench> {
    Bench::new(
        Path::new("bench/target/drills"),
        Path::new("crates/singles/out/singles"),
    )
}

fn all() -> io::Result<()> {
    let mut bench = started()?;
    report::rows(&mut bench)?;
    report::sweep(
        &mut bench,
        "links (16 nodes, 24 in flight)",
        Shape::by_links(),
        |shape| shape.links,
        Path::new("docs/performance-links.svg"),
    )?;
    report::sweep(
        &mut bench,
        "in flight (64 nodes, 256 links)",
        Shape::by_flight(),
        |shape| shape.flying,
        Path::new("docs/performance-flight.svg"),
    )
}

fn once(side: &str, file: &Path) -> io::Result<()> {
    let file = fs::read(file)?;
    match Buffers::new().run(side, &file) {
        Some(result) => {
            std::hint::black_box(result);
            Ok(())
        }
        None => Err(io::Error::other(format!("no side is named {side}"))),
    }
}

fn files(folder: &Path) -> io::Result<()> {
    fs::create_dir_all(folder)?;
    for (row, shape) in Shape::rows().iter().enumerate() {
        let drill = shape.drill();
        fs::write(folder.join(format!("{row}-short")), &drill.short)?;
        fs::write(folder.join(format!("{row}-long")), &drill.long)?;
    }
    Ok(())
}
