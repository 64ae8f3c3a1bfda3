//! Instructions by callgrind and time by the clock, of one side on one drill.

use std::fs::{self, File};
use std::io;
use std::path::{Path, PathBuf};
use std::process::{Command, Stdio};
use std::time::{Duration, Instant};

use crate::shapes::Drill;
use crate::sides::{Buffers, LIBRARY, PEER, PEER_CHECKS, QUEUES, SINGLES};

/// Callgrind counts a `rep movsb` once for each byte: large copies are made by
/// vector moves, as they would be counted on any other machine.
const TUNABLES: &str =
    "glibc.cpu.x86_rep_movsb_threshold=100000000:glibc.cpu.x86_rep_stosb_threshold=100000000";

const ROUNDS: usize = 7;

pub struct Figures {
    /// Instructions for each event.
    pub counted: f64,
    /// Events in a second.
    pub speed: f64,
}

/// Where the files of a run stand, and the program of crates/singles.
pub struct Bench {
    pub folder: PathBuf,
    pub singles: PathBuf,
    pub buffers: Buffers,
}

impl Bench {
    pub fn new(folder: &Path, singles: &Path) -> io::Result<Bench> {
        fs::create_dir_all(folder)?;
        Ok(Bench {
            folder: folder.to_path_buf(),
            singles: singles.to_path_buf(),
            buffers: Buffers::new(),
        })
    }

    /// Every side gives what `second` gives, or the same sum.
    pub fn agreed(&mut self, drill: &Drill) -> io::Result<()> {
        let right = second::text::drill(&drill.long, None, None);
        for side in [LIBRARY, PEER, QUEUES] {
            let length = self.buffers.run(side, &drill.long).unwrap_or(0);
            if self.buffers.text(side, length) != right.as_bytes() {
                return Err(io::Error::other(format!("{side} differs: {}", drill.name)));
            }
        }
        let sum = self.buffers.run(PEER_CHECKS, &drill.long).unwrap_or(0);
        fs::write(self.path("long"), &drill.long)?;
        let mut command = Command::new(&self.singles);
        let own = command.stdin(File::open(self.path("long"))?).output()?;
        if own.stdout != format!("{sum}\n").into_bytes() {
            let words = format!("singles differ: {}", drill.name);
            return Err(io::Error::other(words));
        }
        Ok(())
    }

    /// Instructions for each event by which the long file exceeds the short.
    pub fn counted_only(&mut self, side: &str, drill: &Drill) -> io::Result<f64> {
        fs::write(self.path("short"), &drill.short)?;
        fs::write(self.path("long"), &drill.long)?;
        let more = self.counted(side, "long")? - self.counted(side, "short")?;
        Ok(more / drill.events as f64)
    }

    pub fn figures(&mut self, side: &str, drill: &Drill) -> io::Result<Figures> {
        let counted = self.counted_only(side, drill)?;
        // Opening is a small part of a call, but the start of a process is not.
        let speed = match side {
            SINGLES => {
                let time = self.time_run("long")?;
                let start = self.time_run("short")?;
                drill.events as f64 / time.saturating_sub(start).as_secs_f64()
            }
            _ => drill.all as f64 / self.time_called(side, &drill.long).as_secs_f64(),
        };
        Ok(Figures { counted, speed })
    }

    fn path(&self, length: &str) -> PathBuf {
        self.folder.join(length)
    }

    /// All instructions of a process that runs the side once.
    fn counted(&self, side: &str, length: &str) -> io::Result<f64> {
        let mut command = Command::new("valgrind");
        command.args(["--tool=callgrind", "--callgrind-out-file=/dev/null"]);
        command.env("GLIBC_TUNABLES", TUNABLES);
        if side == SINGLES {
            command.arg(&self.singles);
            command.stdin(File::open(self.path(length))?);
        } else {
            command.arg(std::env::current_exe()?);
            command.args(["once", side]).arg(self.path(length));
        }
        let said = String::from_utf8_lossy(&command.output()?.stderr).into_owned();
        said.lines()
            .find_map(|line| line.split_once("Collected : "))
            .and_then(|(_, count)| count.trim().parse().ok())
            .ok_or_else(|| io::Error::other(format!("callgrind said: {said}")))
    }

    /// The best of some rounds, each of enough calls to be seen by the clock.
    fn time_called(&mut self, side: &str, file: &[u8]) -> Duration {
        let calls = 30;
        let mut best = Duration::MAX;
        for _ in 0..ROUNDS {
            let start = Instant::now();
            for _ in 0..calls {
                self.buffers.run(side, file);
            }
            best = best.min(start.elapsed() / calls);
        }
        best
    }

    fn time_run(&self, length: &str) -> io::Result<Duration> {
        let mut best = Duration::MAX;
        for _ in 0..ROUNDS {
            let input = File::open(self.path(length))?;
            let start = Instant::now();
            Command::new(&self.singles)
                .stdin(input)
                .stdout(Stdio::null())
                .status()?;
            best = best.min(start.elapsed());
        }
        Ok(best)
    }
}
