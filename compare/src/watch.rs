//! The work is done by a second process, so that a file on which it crashes
//! or hangs is known.

use std::io::{self, BufRead, BufReader};
use std::process::{Child, Command, ExitCode, Stdio};
use std::sync::mpsc::{channel, Receiver, RecvTimeoutError};
use std::thread::spawn;
use std::time::Duration;

use crate::differ::decimal;
use crate::plan::Made;

/// The word that makes this program the worker.
pub const WORKER: &str = "--worker";

/// The front of the line that names the file in hand.
pub const AT: &str = "at ";

const PATIENCE: Duration = Duration::from_secs(30);
const LONG_PATIENCE: Duration = Duration::from_secs(600);

/// Runs the worker with these words and passes on what it says.
pub fn watched(words: &[String]) -> ExitCode {
    let mut worker = match started(words) {
        Ok(worker) => worker,
        Err(error) => {
            println!("the worker could not be started: {error}");
            return ExitCode::FAILURE;
        }
    };
    let said = lines_of(&mut worker);
    let mut last = String::new();
    if let Err(patience) = passed_on(&said, &mut last) {
        let seconds = patience.as_secs();
        println!("no answer for {seconds} seconds, {}", of(&last));
        // Where it cannot be stopped it has just ended.
        let _ = worker.kill();
        let _ = worker.wait();
        return ExitCode::FAILURE;
    }
    ended(worker, &last)
}

fn started(words: &[String]) -> io::Result<Child> {
    Command::new(std::env::current_exe()?)
        .args(words)
        .arg(WORKER)
        .stdout(Stdio::piped())
        .spawn()
}

/// What the worker says, by a thread of its own: a read alone has no time limit.
fn lines_of(worker: &mut Child) -> Receiver<String> {
    let (say, said) = channel();
    if let Some(out) = worker.stdout.take() {
        spawn(move || {
            for line in BufReader::new(out).lines().map_while(Result::ok) {
                if say.send(line).is_err() {
                    return;
                }
            }
        });
    }
    said
}

/// Passes lines on until the worker ends, and keeps the name of the file in
/// hand; fails with the time for which no line came.
fn passed_on(said: &Receiver<String>, last: &mut String) -> Result<(), Duration> {
    let mut patience = PATIENCE;
    loop {
        match said.recv_timeout(patience) {
            Ok(line) => match line.strip_prefix(AT) {
                // A difference is being made small after a line with no name.
                Some("") => patience = LONG_PATIENCE,
                Some(name) => *last = name.into(),
                None => println!("{line}"),
            },
            Err(RecvTimeoutError::Timeout) => return Err(patience),
            Err(RecvTimeoutError::Disconnected) => return Ok(()),
        }
    }
}

/// How the worker ended; it has told a difference itself where its status is 1.
fn ended(mut worker: Child, last: &str) -> ExitCode {
    match worker.wait() {
        Ok(status) if status.success() => return ExitCode::SUCCESS,
        Ok(status) if status.code() == Some(1) => {}
        Ok(status) => println!("ended with {status}, {}", of(last)),
        Err(error) => println!("the worker is lost: {error}"),
    }
    ExitCode::FAILURE
}

/// The file in hand, by its name and its bytes.
fn of(name: &str) -> String {
    match Made::named(name) {
        Some(made) => format!("on {name}:\n{}", decimal(&made.file())),
        None => "before the first file".into(),
    }
}
