//! A small tree made up for a test, and gone after it.

use std::fs;
use std::sync::atomic::{AtomicUsize, Ordering};

use pages::tree::Tree;

/// How many trees this run of tests has made.
static COUNT: AtomicUsize = AtomicUsize::new(0);

/// The tree, in a folder of its own.
pub struct Made {
    pub tree: Tree,
}

impl Made {
    /// A tree of these files, each with its text.
    pub fn new(files: &[(&str, &str)]) -> Made {
        let number = COUNT.fetch_add(1, Ordering::Relaxed);
        let name = format!("pages-{}-tree-{number}", std::process::id());
        let root = std::env::temp_dir().join(name);
        for (path, text) in files {
            let file = root.join(path);
            fs::create_dir_all(file.parent().expect("a folder")).expect("a folder");
            fs::write(file, text).expect("a file");
        }
        let tree = Tree::new(&root);
        Made { tree }
    }
}

impl Drop for Made {
    fn drop(&mut self) {
        let _ = fs::remove_dir_all(&self.tree.root);
    }
}

/// A page of a small tree, and the check that is made of it.
pub struct Page {
    pub files: &'static [(&'static str, &'static str)],
    pub text: &'static str,
    pub check: fn(&Tree, &str) -> Vec<String>,
}

impl Page {
    /// Asserts what is told of a text of the page.
    pub fn gives(&self, text: &str, expected: &[&str]) {
        assert_eq!((self.check)(&Made::new(self.files).tree, text), expected);
    }

    /// Asserts what is told where one text of the page is another, once.
    pub fn told(&self, right: &str, wrong: &str, expected: &[&str]) {
        assert!(self.text.contains(right), "{right}");
        self.gives(&self.text.replacen(right, wrong, 1), expected);
    }
}
