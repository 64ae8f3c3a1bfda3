//! The programs that are compared, each by the text that it gives for a file.

use std::fs::{self, File};
use std::io::{Seek, Write};
use std::path::{Path, PathBuf};
use std::process::{Child, Command, ExitStatus, Stdio};
use std::sync::atomic::{AtomicU64, Ordering};
use std::thread::sleep;
use std::time::{Duration, Instant};

use link::{text_into, TEXT_MOST};
use peer::{Queues, Row, ROOM};
use second::text::drill;
use second::wrong::Program;

pub trait Side {
    fn name(&self) -> String;
    fn text(&mut self, file: &[u8]) -> Vec<u8>;
}

/// The judge: second, or one of its wrong programs.
pub struct Second(pub Program);

impl Side for Second {
    fn name(&self) -> String {
        match self.0 {
            None => "second".into(),
            Some(wrong) => format!("second as {wrong:?}"),
        }
    }

    fn text(&mut self, file: &[u8]) -> Vec<u8> {
        drill(file, self.0, None).into_bytes()
    }
}

/// The proved function through the static library, over one lent part.
pub struct Library {
    out: Box<[u8; TEXT_MOST]>,
}

impl Library {
    pub fn new() -> Library {
        Library {
            out: vec![0; TEXT_MOST].try_into().expect("so many bytes"),
        }
    }
}

impl Default for Library {
    fn default() -> Library {
        Library::new()
    }
}

impl Side for Library {
    fn name(&self) -> String {
        "the library".into()
    }

    fn text(&mut self, file: &[u8]) -> Vec<u8> {
        let length = text_into(file, &mut self.out);
        self.out[..length].to_vec()
    }
}

type PeerText = fn(&[u8], &mut [u8; ROOM]) -> usize;

/// The fast peer, one of its forms.
pub struct Peer {
    name: &'static str,
    text: PeerText,
    out: Box<[u8; ROOM]>,
}

impl Peer {
    /// Every form: the record's order without and with the check, and queues.
    pub fn all() -> Vec<Peer> {
        let forms: [(&str, PeerText); 3] = [
            ("the peer", peer::text::<Row, false>),
            ("the peer that checks", peer::text::<Row, true>),
            ("the peer with queues", peer::text::<Queues, false>),
        ];
        let room = || vec![0; ROOM].try_into().expect("so many bytes");
        forms
            .map(|(name, text)| Peer {
                name,
                text,
                out: room(),
            })
            .into()
    }
}

impl Side for Peer {
    fn name(&self) -> String {
        self.name.into()
    }

    fn text(&mut self, file: &[u8]) -> Vec<u8> {
        let length = (self.text)(file, &mut self.out);
        self.out[..length].to_vec()
    }
}

/// A program, run once for each file. Its input and output are plain files,
/// so that neither can wait for the other.
pub struct Run {
    program: PathBuf,
    input: PathBuf,
    output: PathBuf,
}

const PATIENCE: Duration = Duration::from_secs(10);

/// Two runs in one process have files of their own.
static RUNS: AtomicU64 = AtomicU64::new(0);

impl Run {
    pub fn new(program: &Path) -> Run {
        let run = RUNS.fetch_add(1, Ordering::Relaxed);
        let own = |part: &str| {
            let name = format!("fiddleroost-{}-{run}-{part}", std::process::id());
            std::env::temp_dir().join(name)
        };
        Run {
            program: program.to_path_buf(),
            input: own("in"),
            output: own("out"),
        }
    }

    fn run(&self, file: &[u8]) -> std::io::Result<Vec<u8>> {
        let mut input = File::options()
            .create(true)
            .truncate(true)
            .read(true)
            .write(true)
            .open(&self.input)?;
        input.write_all(file)?;
        input.rewind()?;
        let child = Command::new(&self.program)
            .stdin(input)
            .stdout(File::create(&self.output)?)
            .stderr(Stdio::null())
            .spawn()?;
        let text = match wait(child)? {
            Some(status) if status.success() => fs::read(&self.output)?,
            Some(status) => format!("(ended with {status})\n").into_bytes(),
            None => b"(did not end)\n".to_vec(),
        };
        Ok(text)
    }
}

/// How a program ended; none if it had to be stopped.
fn wait(mut child: Child) -> std::io::Result<Option<ExitStatus>> {
    let start = Instant::now();
    while start.elapsed() < PATIENCE {
        if let Some(status) = child.try_wait()? {
            return Ok(Some(status));
        }
        sleep(Duration::from_micros(100));
    }
    child.kill()?;
    child.wait()?;
    Ok(None)
}

impl Side for Run {
    fn name(&self) -> String {
        format!("the program {}", self.program.display())
    }

    fn text(&mut self, file: &[u8]) -> Vec<u8> {
        self.run(file)
            .unwrap_or_else(|error| format!("(could not be run: {error})\n").into_bytes())
    }
}

impl Drop for Run {
    fn drop(&mut self) {
        // Nothing is lost where they were never made.
        let _ = fs::remove_file(&self.input);
        let _ = fs::remove_file(&self.output);
    }
}
