//! `perchmellow`, the bench tool: cards and posts in files, over the proved library.

mod args;
mod cards;
mod demo;
mod files;
mod help;
mod picture;
mod posts;
mod record;
mod refused;
mod ride;
mod run;
mod say;
mod show;
mod svg;

use std::ffi::OsString;
use std::process::ExitCode;

fn main() -> ExitCode {
    let words: Vec<OsString> = std::env::args_os().skip(1).collect();
    let status = args::perform(&words).unwrap_or_else(|trouble| {
        let status = trouble.status();
        trouble.tell(words.iter().any(|word| word == "--json"));
        status
    });
    ExitCode::from(status)
}
