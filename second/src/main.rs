//! The program `second`.

use std::io::{ErrorKind, Read, Write};
use std::path::Path;
use std::process::ExitCode;

use second::calls;
use second::claims::Claims;
use second::drills;
use second::judge::told_apart;
use second::limits::FILE;
use second::make;
use second::survey::Survey;
use second::text::drill;
use second::watch::Watch;
use second::wrong::{self, Program, RIGHT};

const HELP: &str = "\
second                      a drill from standard input, its text to standard output
second --no-claims          the same without checking the claims
second --wrong NAME         the same by a wrong program
second wrong [FROM COUNT]   how many made drills tell each wrong program
second check FROM COUNT     claims over made drills
second survey FROM COUNT    how often things come up in made drills
second make SEED            a made drill file
second make KIND SEED       one of a kind
second make edge NAME       a named edge
second make                 the kinds and the edges
second calls SEED [PART]    calls that no file can make
second drills               the stored drills, each with its reason
second drills DIR           writes them and their list into a folder
second show DIR             what is printed of the drills of a folder
";

fn main() -> ExitCode {
    let words: Vec<String> = std::env::args().skip(1).collect();
    let words: Vec<&str> = words.iter().map(String::as_str).collect();
    match words[..] {
        [] => run_drill(RIGHT, true),
        ["--no-claims"] => run_drill(RIGHT, false),
        ["--wrong", name] => match wrong::named(name) {
            Some(program) => run_drill(Some(program), false),
            None => usage(),
        },
        ["make", ref rest @ ..] => run_make(rest),
        ["wrong"] => run_wrong(1, 1000),
        ["wrong", from, count] => numbered(from, count, run_wrong),
        ["check", from, count] => numbered(from, count, run_check),
        ["survey", from, count] => numbered(from, count, run_survey),
        ["drills"] => put(drills::list().as_bytes()),
        ["drills", folder] => done(write_drills(Path::new(folder))),
        ["show", folder] => done(show_drills(Path::new(folder))),
        ["calls", seed] => run_calls(seed, None),
        ["calls", seed, part] => run_calls(seed, Some(part)),
        _ => usage(),
    }
}

/// Writes bytes and says whether that went well; a closed pipe is no panic.
fn put(bytes: &[u8]) -> ExitCode {
    let mut out = std::io::stdout().lock();
    match out.write_all(bytes).and_then(|()| out.flush()) {
        Ok(()) => ExitCode::SUCCESS,
        Err(_) => ExitCode::FAILURE,
    }
}

fn usage() -> ExitCode {
    eprint!("{HELP}");
    ExitCode::from(2)
}

fn numbered(from: &str, count: &str, run: fn(u64, u64) -> ExitCode) -> ExitCode {
    match (from.parse(), count.parse()) {
        (Ok(from), Ok(count)) => run(from, count),
        _ => usage(),
    }
}

/// One byte over the limit is enough to know that a file is too long.
fn run_drill(program: Program, with_claims: bool) -> ExitCode {
    let mut bytes = Vec::new();
    let mut input = std::io::stdin().lock().take(FILE as u64 + 1);
    if input.read_to_end(&mut bytes).is_err() {
        eprintln!("standard input could not be read");
        return ExitCode::FAILURE;
    }
    let mut claims = Claims::default();
    let watch: Option<&mut dyn Watch> = if with_claims { Some(&mut claims) } else { None };
    let written = put(drill(&bytes, program, watch).as_bytes());
    for broken in &claims.broken {
        eprintln!("claim broken at {broken}");
    }
    if claims.broken.is_empty() {
        written
    } else {
        ExitCode::FAILURE
    }
}

fn run_make(words: &[&str]) -> ExitCode {
    let made = match *words {
        [] => Some(make_help().into_bytes()),
        [seed] => seed.parse().ok().map(make::by_seed),
        ["edge", name] if name.parse::<u64>().is_err() => make::edges::named(name),
        [kind, seed] => match (make::named(kind), seed.parse()) {
            (Some(kind), Ok(seed)) => Some(make::by_kind(kind, seed)),
            _ => None,
        },
        _ => None,
    };
    match made {
        Some(bytes) => put(&bytes),
        None => usage(),
    }
}

fn run_calls(seed: &str, part: Option<&str>) -> ExitCode {
    let seed = seed.parse().ok();
    match seed.and_then(|seed| calls::lines(seed, part)) {
        Some(lines) => put(lines.as_bytes()),
        None => usage(),
    }
}

/// The exit status of a work with files; what went wrong is said.
fn done(result: std::io::Result<()>) -> ExitCode {
    match result {
        Ok(()) => ExitCode::SUCCESS,
        Err(error) => {
            eprintln!("{error}");
            ExitCode::FAILURE
        }
    }
}

fn write_drills(folder: &Path) -> std::io::Result<()> {
    for (number, drill) in drills::all().iter().enumerate() {
        std::fs::write(folder.join(drills::file_name(number)), &drill.bytes)?;
    }
    std::fs::write(folder.join("list.txt"), drills::list())
}

/// Files by their numbers, up to the first that is missing.
fn show_drills(folder: &Path) -> std::io::Result<()> {
    let mut out = std::io::stdout().lock();
    for number in 0.. {
        match std::fs::read(folder.join(drills::file_name(number))) {
            Ok(bytes) => out.write_all(drills::shown(number, &bytes).as_bytes())?,
            Err(error) if error.kind() == ErrorKind::NotFound => break,
            Err(error) => return Err(error),
        }
    }
    out.flush()
}

fn make_help() -> String {
    let mut text = String::from("kinds (second make KIND SEED):\n");
    for kind in &make::KINDS {
        text += &format!("  {:10} {}\n", kind.name, kind.about);
    }
    text += "edges (second make edge NAME):\n";
    for (name, _) in make::edges::all() {
        text += &format!("  {name}\n");
    }
    text
}

fn seeds(from: u64, count: u64) -> impl Iterator<Item = u64> {
    from..from.saturating_add(count)
}

fn run_check(from: u64, count: u64) -> ExitCode {
    let (mut events, mut accepted, mut broken) = (0, 0, 0);
    for seed in seeds(from, count) {
        let mut claims = Claims::default();
        drill(&make::by_seed(seed), RIGHT, Some(&mut claims));
        events += claims.events;
        accepted += claims.accepted;
        for claim in &claims.broken {
            eprintln!("seed {seed}: claim broken at {claim}");
            broken += 1;
        }
    }
    put(format!("drills {count}\nevents {events}\naccepted {accepted}\n").as_bytes());
    if broken == 0 {
        ExitCode::SUCCESS
    } else {
        ExitCode::FAILURE
    }
}

fn run_survey(from: u64, count: u64) -> ExitCode {
    let mut survey = Survey::default();
    for seed in seeds(from, count) {
        survey.next_drill();
        drill(&make::by_seed(seed), RIGHT, Some(&mut survey));
    }
    put(survey.table().as_bytes())
}

/// Fails if a wrong program is told by no drill at all.
fn run_wrong(from: u64, count: u64) -> ExitCode {
    let told = told_apart(from, count);
    let mut text = String::new();
    for (name, drills) in &told {
        text += &format!("{name} {drills}\n");
    }
    let written = put(text.as_bytes());
    if told.iter().all(|(_, drills)| *drills > 0) {
        written
    } else {
        ExitCode::FAILURE
    }
}
