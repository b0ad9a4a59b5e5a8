//! A program held against the oracle, one process for each input.

use std::fs::{self, File};
use std::io;
use std::path::Path;
use std::process::{Command, Stdio};

use crate::answer::Sourced;
use crate::generate::Kind;

/// What was compared, in words, and how many inputs differ.
pub struct Compared {
    pub counts: String,
    pub differences: usize,
}

/// A program to be run on inputs, and the folder where each difference is written.
pub struct Trial<'c> {
    folder: &'c Path,
    command: &'c [String],
}

fn say(error: io::Error) -> String {
    error.to_string()
}

impl<'c> Trial<'c> {
    pub fn new(folder: &'c Path, command: &'c [String]) -> Result<Self, String> {
        fs::create_dir_all(folder).map_err(say)?;
        Ok(Trial { folder, command })
    }

    /// What the program prints for an input.
    pub fn printed(&self, input: &[u8]) -> Result<String, String> {
        let stdin = self.folder.join("stdin");
        fs::write(&stdin, input).map_err(say)?;
        let mut run = Command::new(&self.command[0]);
        run.args(&self.command[1..]).stdin(File::open(&stdin).map_err(say)?).stderr(Stdio::inherit());
        let output = run.output().map_err(|error| format!("{}: {error}", self.command[0]))?;
        Ok(String::from_utf8_lossy(&output.stdout).into())
    }

    /// Writes down an input with what it should have come to and what it did.
    pub fn note(&self, kind: Kind, seed: u64, input: &[u8], expected: &str, got: &str) -> Result<(), String> {
        let note = [b"input\n", input, b"expected\n", expected.as_bytes(), b"got\n", got.as_bytes()].concat();
        fs::write(self.folder.join(format!("{}-{seed}", kind.name())), note).map_err(say)
    }
}

/// Runs `command` on the inputs from `from` to below `to` of a kind and counts the answers that differ from those given by `answered`. Each difference is
/// written to `folder`.
pub fn compare(
    kind: Kind,
    (from, to): (u64, u64),
    folder: &Path,
    command: &[String],
    answered: fn(&[u8]) -> Sourced,
) -> Result<Compared, String> {
    let trial = Trial::new(folder, command)?;
    let (mut sources, mut differences) = ([0; 3], 0);
    for (seed, input) in kind.inputs(from, to) {
        let got = trial.printed(&input)?;
        let (source, expected) = answered(&input)?;
        sources[source as usize] += 1;
        if got != expected {
            differences += 1;
            trial.note(kind, seed, &input, &expected, &got)?;
        }
    }
    Ok(Compared { counts: counted(sources), differences })
}

fn counted([rust, reader, far]: [usize; 3]) -> String {
    let cut = if far > 0 { format!(", {far} that the Rust cuts with the second reading of 15") } else { String::new() };
    format!("{rust} compared with the Rust, {reader} with the plain reader{cut}")
}
