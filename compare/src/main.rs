//! The program `compare`.

use std::io::{stdout, Write};
use std::path::PathBuf;
use std::process::ExitCode;
use std::time::Duration;

use compare::plan::{compare, fuzz, Done, Plan};
use compare::watch::{watched, AT, WORKER};
use second::wrong::{self, RIGHT};

const HELP: &str = "\
compare [WORDS]             made drills: the program drill, the library, and second
compare fuzz SECONDS [WORDS]
                            damaged files for so long: the library and second
words:
  --long                    100,000 drills, 2,000 of them through the program
  --from SEED               the first seed (1)
  --drills COUNT            so many drills (6,000)
  --files COUNT             so many of them through the program (400)
  --program PATH            the program (crates/drill/out/drill)
  --wrong NAME              a wrong program of second in its place: must fail
";

fn main() -> ExitCode {
    let mut words: Vec<String> = std::env::args().skip(1).collect();
    let works = words.last().is_some_and(|word| word == WORKER);
    if works {
        words.pop();
    }
    let Some((seconds, plan)) = parsed(&words) else {
        eprint!("{HELP}");
        return ExitCode::from(2);
    };
    if !works {
        return watched(&words);
    }
    let mut at = |name: &str| say(&format!("{AT}{name}\n"));
    match seconds {
        Some(time) => ended(fuzz(plan.judge, plan.from, time, &mut at)),
        None => ended(compare(&plan, &mut at)),
    }
}

/// Nobody reads on where the pipe is closed, so nothing is lost then.
fn say(words: &str) {
    let mut out = stdout().lock();
    let _ = out.write_all(words.as_bytes()).and_then(|()| out.flush());
}

fn parsed(words: &[String]) -> Option<(Option<Duration>, Plan)> {
    let mut plan = Plan {
        from: 1,
        drills: 6_000,
        files: 400,
        program: PathBuf::from("crates/drill/out/drill"),
        judge: RIGHT,
    };
    let mut words = words.iter().map(String::as_str).peekable();
    let mut seconds = None;
    if words.next_if_eq(&"fuzz").is_some() {
        seconds = Some(Duration::from_secs(words.next()?.parse().ok()?));
    }
    while let Some(word) = words.next() {
        match word {
            "--long" => (plan.drills, plan.files) = (100_000, 2_000),
            "--from" => plan.from = words.next()?.parse().ok()?,
            "--drills" => plan.drills = words.next()?.parse().ok()?,
            "--files" => plan.files = words.next()?.parse().ok()?,
            "--program" => plan.program = PathBuf::from(words.next()?),
            "--wrong" => plan.judge = Some(wrong::named(words.next()?)?),
            _ => return None,
        }
    }
    Some((seconds, plan))
}

fn ended(done: Done) -> ExitCode {
    match done {
        Ok(tally) => {
            say(&format!(
                "edges {}\ndrills {}\nfiles through the program {}\ndamaged files {}\n\
                 refused headers {}\nspoilt files {}\nevents {}\nno difference\n",
                tally.edges,
                tally.drills,
                tally.programs,
                tally.mutants,
                tally.refused,
                tally.spoilt,
                tally.events
            ));
            ExitCode::SUCCESS
        }
        Err(words) => {
            say(&words);
            ExitCode::FAILURE
        }
    }
}
