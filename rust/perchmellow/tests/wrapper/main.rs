//! What the wrapper adds to the library: its numbers, its sentences and its pages, and that it does without std.

mod bare;
mod header;
mod numbers;
mod pages;

use std::path::{Path, PathBuf};
use std::process::Command;

/// A file of the repository.
fn at(path: &str) -> PathBuf {
    Path::new(env!("CARGO_MANIFEST_DIR")).join("../..").join(path)
}

/// What a program says. It has to end well.
fn said(command: &mut Command) -> String {
    let done = command.output().unwrap_or_else(|why| panic!("{command:?}: {why}"));
    assert!(done.status.success(), "{command:?}: {}", String::from_utf8_lossy(&done.stderr));
    String::from_utf8(done.stdout).expect("UTF-8")
}
