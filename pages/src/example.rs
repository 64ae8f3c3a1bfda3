//! The drill that README.md makes by hand: its bytes and the text it promises.

use std::io::{self, Write};
use std::path::Path;
use std::process::{Command, Stdio};

/// The section of README.md that makes it.
pub const SECTION: &str = "## A drill of your own";

#[derive(Clone, Debug, PartialEq)]
pub struct Example {
    pub bytes: Vec<u8>,
    pub text: String,
}

/// The fenced blocks of the section, without their fences.
fn blocks(page: &str) -> Vec<String> {
    let mut blocks = Vec::new();
    let mut block: Option<String> = None;
    let lines = page.lines().skip_while(|line| *line != SECTION).skip(1);
    for line in lines.take_while(|line| !line.starts_with("## ")) {
        let fence = line.starts_with("```");
        block = match block.take() {
            None if fence => Some(String::new()),
            None => None,
            Some(text) if fence => {
                blocks.push(text);
                None
            }
            Some(text) => Some(text + line + "\n"),
        };
    }
    blocks
}

/// The bytes of octal escapes, as the shell's printf writes them.
fn escapes(text: &str) -> Option<Vec<u8>> {
    let digits = text.strip_prefix('\\')?.split('\\');
    let byte = |digits: &str| match digits.len() {
        1..=3 => u8::from_str_radix(digits, 8).ok(),
        _ => None,
    };
    digits.map(byte).collect()
}

/// Every `printf '..'` of the section's first block, and its last block.
pub fn read(page: &str) -> Option<Example> {
    let blocks = blocks(page);
    let [script, .., text] = &blocks[..] else {
        return None;
    };
    let mut bytes = Vec::new();
    for line in script.lines() {
        if let Some((_, rest)) = line.split_once("printf '") {
            bytes.extend(escapes(rest.split_once('\'')?.0)?);
        }
    }
    let text = text.clone();
    (!bytes.is_empty()).then_some(Example { bytes, text })
}

/// What a program writes of the bytes.
fn output(program: &Path, bytes: &[u8]) -> io::Result<Vec<u8>> {
    let mut child = Command::new(program)
        .stdin(Stdio::piped())
        .stdout(Stdio::piped())
        .spawn()?;
    if let Some(mut input) = child.stdin.take() {
        input.write_all(bytes)?;
    }
    Ok(child.wait_with_output()?.stdout)
}

/// What is wrong with the example by a program; nothing where it writes the text.
pub fn fault(example: &Example, program: &Path) -> Option<String> {
    let name = program.display();
    match output(program, &example.bytes) {
        Ok(text) if text == example.text.as_bytes() => None,
        Ok(text) => Some(format!(
            "{name} writes of the README's drill\n{}and not\n{}",
            String::from_utf8_lossy(&text),
            example.text
        )),
        Err(error) => Some(format!("{name}: {error}")),
    }
}
