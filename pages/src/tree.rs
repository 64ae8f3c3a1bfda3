//! The tree, asked whether something that a page names stands in it.

use std::fs;
use std::path::{Path, PathBuf};

use crate::names::Name;
use crate::{code, definitions};

pub struct Tree {
    pub root: PathBuf,
}

impl Tree {
    pub fn new(root: &Path) -> Tree {
        Tree {
            root: root.to_path_buf(),
        }
    }

    pub fn read(&self, path: &str) -> Option<String> {
        fs::read_to_string(self.root.join(path)).ok()
    }

    /// Whether some line of a file passes a test; never where the file is not there.
    fn some_line(&self, path: &str, test: impl Fn(&str) -> bool) -> bool {
        self.read(path).is_some_and(|text| text.lines().any(test))
    }

    pub fn has(&self, name: &Name) -> bool {
        match name {
            Name::Declared { file, path } => self
                .read(file)
                .is_some_and(|text| definitions::declares(&text, path)),
            Name::Code { owner, path } => self.has_code(owner, path),
            Name::Function { owner, path } => self.has_function(owner, path),
            Name::Edit(owner, name) => {
                let file = format!("crates/{owner}/must-fail/{name}.edit");
                self.root.join(file).is_file()
            }
            Name::Held(name) => {
                let file = format!("crates/model/held/{name}.edit");
                self.root.join(file).is_file()
            }
            Name::Row(words) => self.has_row(words),
            Name::Drill(name) => self.has_drill(name),
            Name::Calls(part) => {
                let heading = format!("## Part {part}");
                self.some_line("docs/CALLS.md", |line| line == heading)
            }
            Name::Test { file, name } => self.has_test(file, name),
            Name::Wrong(name) => {
                let end = format!(", \"{name}\"),");
                self.some_line("second/src/wrong.rs", |line| line.ends_with(&end))
            }
        }
    }

    /// The file of a crate's root, or of one of its modules.
    fn source(&self, owner: &str, module: Option<&str>) -> Option<String> {
        let src = format!("crates/{owner}/src");
        match module {
            Some(module) => self.read(&format!("{src}/{module}.rt")),
            None => ["lib", "main"]
                .iter()
                .find_map(|file| self.read(&format!("{src}/{file}.rt"))),
        }
    }

    /// The module from which a crate's root hands a name on.
    fn handed_on(&self, owner: &str, root: &str, name: &str) -> Option<String> {
        let module = code::handed_on(root, name)?;
        self.source(owner, Some(module))
    }

    fn has_code(&self, owner: &str, path: &[&str]) -> bool {
        let Some(root) = self.source(owner, None) else {
            return false;
        };
        match *path {
            [name] if code::declares(&root, name) => true,
            [name] => self
                .handed_on(owner, &root, name)
                .is_some_and(|text| code::declares(&text, name)),
            [first, name] => match self.source(owner, Some(first)) {
                Some(module) => code::declares(&module, name),
                None => {
                    let module = code::handed_on(&root, first);
                    let module = module.and_then(|module| self.source(owner, Some(module)));
                    let mut texts = module.iter().chain([&root]);
                    texts.any(|text| code::has_method(text, first, name))
                }
            },
            _ => false,
        }
    }

    /// A public function of a crate; where its module or its type is told, of that.
    fn has_function(&self, owner: &str, path: &[&str]) -> bool {
        let sources = self.sources_of(owner);
        let mut contracts = sources.iter().flat_map(|text| code::contracts(text));
        let public = contracts.any(|contract| path.last() == Some(&contract.name));
        public && (path.len() == 1 || self.has_code(owner, path))
    }

    /// Rows of the tables of cases stand under comments that say what they are.
    fn has_row(&self, words: &str) -> bool {
        self.some_line("crates/model/specs/Cases.antt", |line| {
            let rest = line
                .strip_prefix("    -- ")
                .and_then(|line| line.strip_prefix(words));
            rest.is_some_and(|rest| !rest.starts_with(char::is_alphanumeric))
        })
    }

    fn has_drill(&self, name: &str) -> bool {
        let folder = "crates/drills/data";
        let list = self.read(&format!("{folder}/list.txt")).unwrap_or_default();
        list.lines().any(|line| {
            let entry = line
                .split_once(": ")
                .and_then(|(entry, _)| entry.split_once(' '));
            entry.is_some_and(|(number, listed)| {
                let file = format!("{folder}/{number}.drill");
                listed == name && self.root.join(file).is_file()
            })
        })
    }

    fn has_test(&self, file: &str, name: &str) -> bool {
        let text = self.read(file).unwrap_or_default();
        let lines: Vec<&str> = text.lines().collect();
        let start = format!("fn {name}() {{");
        lines
            .windows(2)
            .any(|pair| pair[0] == "#[test]" && pair[1] == start)
    }

    /// Every must-fail edit, as `crate/name`.
    pub fn edits(&self) -> Vec<String> {
        let mut edits = Vec::new();
        for owner in entries(&self.root.join("crates")) {
            let names = self.named(&format!("crates/{owner}/must-fail"), ".edit");
            edits.extend(names.iter().map(|name| format!("{owner}/{name}")));
        }
        edits
    }

    /// Every edit of the model, as `model/name`, or `held/name`.
    pub fn model_edits(&self) -> Vec<String> {
        let refused = self.named("crates/model/must-fail", ".edit");
        let held = self.named("crates/model/held", ".edit");
        let refused = refused.iter().map(|name| format!("model/{name}"));
        let held = held.iter().map(|name| format!("held/{name}"));
        refused.chain(held).collect()
    }

    /// Every public declaration of the model's specs, as `File.name`; Lib.antt has none.
    pub fn definitions(&self) -> Vec<String> {
        let specs = "crates/model/specs";
        let mut found = Vec::new();
        for file in self.named(specs, ".antt") {
            let text = self.read(&format!("{specs}/{file}.antt"));
            let text = text.filter(|_| file != "Lib").unwrap_or_default();
            let names = definitions::public(&text).into_iter();
            found.extend(names.map(|name| format!("{file}.{name}")));
        }
        found
    }

    /// The files of a folder that end so, by what stands before that.
    fn named(&self, folder: &str, end: &str) -> Vec<String> {
        let files = entries(&self.root.join(folder));
        let names = files.iter().filter_map(|file| file.strip_suffix(end));
        names.map(str::to_string).collect()
    }

    /// The text of every file of code, with its crate.
    pub fn sources(&self) -> Vec<(String, String)> {
        let mut sources = Vec::new();
        for owner in self.crates() {
            let texts = self.sources_of(&owner).into_iter();
            sources.extend(texts.map(|text| (owner.clone(), text)));
        }
        sources
    }

    /// The text of every file of a crate's code.
    fn sources_of(&self, owner: &str) -> Vec<String> {
        let src = format!("crates/{owner}/src");
        let files = entries(&self.root.join(&src)).into_iter();
        files
            .filter_map(|file| self.read(&format!("{src}/{file}")))
            .collect()
    }

    /// The crates of crates.txt, which names each with those that it uses: `name: dep ..`,
    /// or `name staticlib: dep ..`; what follows `#` is a comment.
    pub fn crates(&self) -> Vec<String> {
        let list = self.read("crates.txt").unwrap_or_default();
        let lines = list.lines().filter_map(|line| line.split('#').next());
        let heads = lines.filter_map(|line| line.split_once(':'));
        let names = heads.filter_map(|(head, _)| head.split_whitespace().next());
        names.map(str::to_string).collect()
    }

    /// The pages that a reader goes through, README.md first.
    pub fn pages(&self) -> Vec<String> {
        let docs = entries(&self.root.join("docs")).into_iter();
        let docs = docs.filter(|name| name.ends_with(".md"));
        let docs = docs.map(|name| format!("docs/{name}"));
        std::iter::once("README.md".to_string())
            .chain(docs)
            .collect()
    }
}

/// The names in a folder, sorted; none where there is no such folder.
fn entries(folder: &Path) -> Vec<String> {
    let found = fs::read_dir(folder).into_iter().flatten().flatten();
    let mut names: Vec<String> = found
        .filter_map(|entry| entry.file_name().into_string().ok())
        .collect();
    names.sort();
    names
}
