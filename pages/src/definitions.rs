//! Declarations of the proof language's files.

const WORDS: [&str; 5] = ["abbrev", "unfoldable", "pub", "record", "data"];

/// The name that a line declares: a signature, never a clause of a definition.
fn declared(line: &str) -> Option<&str> {
    let mut typed = false;
    let mut words = line.split_whitespace().peekable();
    while let Some(word) = words.next_if(|word| WORDS.contains(word)) {
        typed |= word == "record" || word == "data";
    }
    let name = words.next()?;
    let signed = words
        .next()
        .is_some_and(|word| word == ":" || word.starts_with('{'));
    (typed || signed).then_some(name)
}

/// The name that a line makes public; modules are no declarations.
fn made_public(line: &str) -> Option<&str> {
    let words: Vec<&str> = line.split_whitespace().collect();
    let at = words.iter().position(|word| !WORDS.contains(word))?;
    let public = words[..at].contains(&"pub") && !["mod", "use"].contains(&words[at]);
    public.then(|| words[at])
}

/// The names of a file's public declarations; not of fields and cases.
pub fn public(text: &str) -> Vec<&str> {
    let lines = text.lines().filter(|line| top(line));
    lines.filter_map(made_public).collect()
}

fn top(line: &str) -> bool {
    !line.is_empty() && !line.starts_with([' ', '-'])
}

/// A field of a record or a case of a data type: in the lines under it, up to
/// the next declaration.
fn holds(text: &str, owner: &str, name: &str) -> bool {
    text.lines()
        .skip_while(|line| !(top(line) && declared(line) == Some(owner)))
        .skip(1)
        .take_while(|line| !top(line))
        .any(|line| {
            let inner = line.strip_prefix("  ");
            inner.is_some_and(|inner| !inner.starts_with(' ') && declared(inner) == Some(name))
        })
}

/// Whether a file declares `name`, or `Owner.name`.
pub fn declares(text: &str, path: &[&str]) -> bool {
    match *path {
        [name] => text
            .lines()
            .any(|line| top(line) && declared(line) == Some(name)),
        [owner, name] => holds(text, owner, name),
        _ => false,
    }
}
