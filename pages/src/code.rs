//! Declarations of the code's files.

const BEFORE: [&str; 3] = ["pub ", "pub(crate) ", "extern \"C\" "];
const KINDS: [&str; 4] = ["fn ", "struct ", "enum ", "const "];

/// The name that a line declares, whatever stands before its kind.
fn declared(line: &str) -> Option<&str> {
    let mut rest = line;
    while let Some(less) = BEFORE.iter().find_map(|word| rest.strip_prefix(word)) {
        rest = less;
    }
    let rest = KINDS.iter().find_map(|kind| rest.strip_prefix(kind))?;
    let end = rest.find(|c: char| !c.is_alphanumeric() && c != '_');
    Some(&rest[..end.unwrap_or(rest.len())])
}

pub fn declares(text: &str, name: &str) -> bool {
    text.lines().any(|line| declared(line) == Some(name))
}

/// The module that a name is handed on from: `pub use module::name;`, or
/// `pub use module::{name, ..};` over any number of lines.
pub fn handed_on<'a>(text: &'a str, name: &str) -> Option<&'a str> {
    let starts = text.match_indices("pub use ");
    let starts = starts.filter(|(at, _)| *at == 0 || text[..*at].ends_with('\n'));
    let mut paths = starts.filter_map(|(at, start)| text[at + start.len()..].split_once(';'));
    paths.find_map(|(path, _)| {
        let (module, last) = path.rsplit_once("::")?;
        let names = match last.strip_prefix('{') {
            Some(list) => list.strip_suffix('}')?,
            None => last,
        };
        let mut names = names.split(',').map(str::trim);
        names.any(|handed| handed == name).then_some(module)
    })
}

/// A function of a type: in the lines of its `impl`, up to the closing brace.
pub fn has_method(text: &str, owner: &str, name: &str) -> bool {
    let starts = [
        format!("impl {owner} {{"),
        format!("impl<'a> {owner}<'a> {{"),
    ];
    text.lines()
        .skip_while(|line| starts.iter().all(|start| start != line))
        .take_while(|line| *line != "}")
        .filter_map(|line| line.strip_prefix("    "))
        .any(|line| declared(line) == Some(name))
}

/// What a public function says of its callers and of its result.
pub struct Contract<'a> {
    pub name: &'a str,
    pub requires: bool,
    pub ensures: bool,
}

/// The word of a clause that begins in a line: `requires { P }`, `ensures { P }`,
/// `ensures name { P }`, and with a star after the word.
fn clause(line: &str) -> Option<&str> {
    let end = line.find(|c: char| !c.is_alphanumeric() && c != '_')?;
    let word = &line[..end];
    (word == "requires" || word == "ensures").then_some(word)
}

/// The words of the clauses that stand between the line that names a function
/// and the brace that opens its body; a clause goes over any number of lines.
fn clauses<'a>(lines: &[&'a str]) -> Vec<&'a str> {
    let mut words = Vec::new();
    let mut depth = 0;
    for line in lines {
        let word = clause(line).filter(|_| depth == 0);
        if depth == 0 && word.is_none() && line.ends_with('{') {
            break;
        }
        if depth > 0 || word.is_some() {
            depth += line.matches('{').count();
            depth -= line.matches('}').count().min(depth);
        }
        words.extend(word);
    }
    words
}

/// The contracts of a file's public functions.
pub fn contracts(text: &str) -> Vec<Contract<'_>> {
    let lines: Vec<&str> = text.lines().map(str::trim).collect();
    let public = |line: &str| line.starts_with("pub fn ") || line.starts_with("pub extern ");
    let starts = (0..lines.len()).filter(|&at| public(lines[at]));
    starts
        .filter_map(|at| {
            let words = clauses(&lines[at..]);
            Some(Contract {
                name: declared(lines[at])?,
                requires: words.contains(&"requires"),
                ensures: words.contains(&"ensures"),
            })
        })
        .collect()
}
