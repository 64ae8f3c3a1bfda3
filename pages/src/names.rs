//! What a name of a page stands for, by the column that it is in.

#[derive(Clone, Copy)]
pub enum Column {
    /// Words and links alone.
    Words,
    /// Words, and code that is not looked for.
    Any,
    Stated,
    MustFail,
    Run,
    /// Declarations of the model's specs, one at least.
    Definition,
    /// Promises of the model, and rows of its cases.
    Promise,
    ModelEdit,
    /// Public functions of the code, one at least.
    Function,
}

pub enum Name<'a> {
    /// `File.name`, `crate/File.name`, `crate/proofs/File.name`
    Declared { file: String, path: Vec<&'a str> },
    /// `crate::module::name`
    Code { owner: &'a str, path: Vec<&'a str> },
    /// `crate::name`, of any file of the crate
    Function { owner: &'a str, path: Vec<&'a str> },
    /// `crate/name`
    Edit(&'a str, &'a str),
    /// `held/name`
    Held(&'a str),
    /// `row WORDS`
    Row(&'a str),
    /// `drill NAME`
    Drill(&'a str),
    /// `calls PART`
    Calls(&'a str),
    /// `test crate/file name`
    Test { file: String, name: &'a str },
    /// `wrong NAME`
    Wrong(&'a str),
}

pub fn parse(column: Column, text: &str) -> Option<Name<'_>> {
    match column {
        Column::Words | Column::Any => None,
        Column::Stated => stated(text),
        Column::MustFail => {
            let (owner, name) = text.split_once('/')?;
            Some(Name::Edit(owner, name))
        }
        Column::Run => run(text),
        Column::Definition if text.contains(['/', ':']) => None,
        Column::Definition => stated(text),
        Column::Promise => promise(text),
        Column::ModelEdit => model_edit(text),
        Column::Function => {
            let (owner, path) = text.split_once("::")?;
            let path = path.split("::").collect();
            Some(Name::Function { owner, path })
        }
    }
}

/// What is told of a name that is not there.
pub fn missing(name: &str) -> String {
    format!("`{name}` is not in the tree")
}

/// A row of the cases, or a promise or a field of one.
fn promise(text: &str) -> Option<Name<'_>> {
    match text.strip_prefix("row ") {
        Some(words) => Some(Name::Row(words)),
        None if text.starts_with("Promises.") => parse(Column::Definition, text),
        None => None,
    }
}

/// An edit that must fail, or one that is held.
fn model_edit(text: &str) -> Option<Name<'_>> {
    match text.split_once('/')? {
        ("model", name) => Some(Name::Edit("model", name)),
        ("held", name) => Some(Name::Held(name)),
        _ => None,
    }
}

fn stated(text: &str) -> Option<Name<'_>> {
    if let Some((owner, rest)) = text.split_once("::") {
        let path = rest.split("::").collect();
        return Some(Name::Code { owner, path });
    }
    let (owner, rest) = match text.split_once('/') {
        Some((owner, rest)) => (owner, rest),
        None => ("model", text),
    };
    let (folder, rest) = match rest.split_once('/') {
        Some((folder, rest)) => (folder, rest),
        None => ("specs", rest),
    };
    let (file, path) = rest.split_once('.')?;
    Some(Name::Declared {
        file: format!("crates/{owner}/{folder}/{file}.antt"),
        path: path.split('.').collect(),
    })
}

fn run(text: &str) -> Option<Name<'_>> {
    let (kind, rest) = text.split_once(' ')?;
    match kind {
        "row" => Some(Name::Row(rest)),
        "drill" => Some(Name::Drill(rest)),
        "calls" => Some(Name::Calls(rest)),
        "wrong" => Some(Name::Wrong(rest)),
        "test" => {
            let (place, name) = rest.split_once(' ')?;
            let (owner, file) = place.split_once('/')?;
            let file = format!("{owner}/tests/{file}.rs");
            Some(Name::Test { file, name })
        }
        _ => None,
    }
}
