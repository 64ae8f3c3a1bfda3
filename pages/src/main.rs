//! The program `pages`.

use std::path::Path;
use std::process::ExitCode;

use pages::tree::Tree;
use pages::{checked, example};

const HELP: &str = "\
pages ROOT                  the names and the links of the pages
pages ROOT PROGRAM..        the README's drill, by each of these programs
";

fn main() -> ExitCode {
    let words: Vec<String> = std::env::args().skip(1).collect();
    let faults = match &words[..] {
        [] => {
            eprint!("{HELP}");
            return ExitCode::from(2);
        }
        [root] => checked::faults(&Tree::new(Path::new(root))),
        [root, programs @ ..] => compared(&Tree::new(Path::new(root)), programs),
    };
    for fault in &faults {
        eprintln!("{fault}");
    }
    if faults.is_empty() {
        ExitCode::SUCCESS
    } else {
        ExitCode::FAILURE
    }
}

fn compared(tree: &Tree, programs: &[String]) -> Vec<String> {
    let readme = tree.read("README.md").unwrap_or_default();
    let Some(example) = example::read(&readme) else {
        return vec!["README.md: no drill made by hand".to_string()];
    };
    let programs = programs.iter().map(Path::new);
    programs
        .filter_map(|program| example::fault(&example, program))
        .collect()
}
