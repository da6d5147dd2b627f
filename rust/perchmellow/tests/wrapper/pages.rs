//! What the pages and the documentation say of the same thing is the same.

use std::fs::read_to_string;
use std::process::Command;

use perchmellow::Refusal;

use crate::{at, said};

fn text(path: &str) -> String {
    read_to_string(at(path)).unwrap_or_else(|why| panic!("{path}: {why}"))
}

/// What stands between two lines.
fn between<'a>(text: &'a str, before: &str, behind: &str) -> &'a str {
    let (_, rest) = text.split_once(before).unwrap_or_else(|| panic!("there is no {before:?}"));
    rest.split_once(behind).unwrap_or_else(|| panic!("there is no {behind:?}")).0
}

/// README.md's example is the first of the crate's documentation, which is compiled and run there.
#[test]
fn readme_example() {
    let readme = text("README.md");
    let source = text("rust/perchmellow/src/lib.rs");
    let documented = between(&source, "//! ```\n", "//! # Ok::<(), perchmellow::Refusal>(())\n");
    let documented: Vec<&str> = documented.lines().map(|line| line.trim_start_matches("//!").strip_prefix(' ').unwrap_or("")).collect();
    assert_eq!(between(&readme, "```rust\n", "```\n").lines().collect::<Vec<_>>(), documented);
}

/// The name of a call in docs/RULES.md and here.
const CALLS: [(&str, &str); 10] = [
    ("start", "start"),
    ("rebuild", "rebuild"),
    ("start of n ticks", "start_ticks"),
    ("position list", "positions"),
    ("anchor", "anchor"),
    ("enrol", "enrol"),
    ("anchor of n ticks", "anchor_ticks"),
    ("settle", "settle"),
    ("round", "round"),
    ("offer", "offer"),
];

/// The refusals that a call's documentation names are those of docs/RULES.md, in their order.
#[test]
fn errors_are_in_order() {
    let rules = text("docs/RULES.md");
    let orders = between(&rules, "| Call | Order |\n|---|---|\n", "\n\n");
    let source = text("rust/perchmellow/src/lib.rs");
    for (ruled, call) in CALLS {
        let order = orders.lines().find_map(|row| {
            let (calls, order) = row.trim_matches(['|', ' ']).split_once(" | ")?;
            calls.split(", ").any(|name| name == ruled).then_some(order)
        });
        let order = order.unwrap_or_else(|| panic!("docs/RULES.md has no order for {ruled}"));
        let numbers = order.split([',', ';']).filter_map(|test| test.trim_start().split(' ').next()?.parse().ok());
        let wanted: Vec<String> = numbers.map(|number| format!("{:?}", Refusal::of(number).unwrap())).collect();

        let above = source.split_once(&format!("\npub fn {call}(")).unwrap_or_else(|| panic!("there is no {call}")).0;
        let errors = above.rsplit_once("/// # Errors\n").unwrap().1;
        assert!(errors.lines().all(|line| line.starts_with("///")), "{call} has no section of errors");
        let named: Vec<&str> = errors.split("[`Refusal::").skip(1).filter_map(|rest| rest.split_once('`')).map(|(name, _)| name).collect();
        assert_eq!(named, wanted, "{call}");
    }
}

#[test]
fn proved_by() {
    let version = said(Command::new("rt").arg("version"));
    let wanted = version.lines().next().unwrap().trim();
    assert_eq!(perchmellow::PROVED_BY, wanted, "another rt proved what is linked; 'cargo clean -p perchmellow' has this one do it");
}

/// The pages, the Makefile and the packages ask for one version of Rust.
#[test]
fn rust_version() {
    let least = env!("CARGO_PKG_RUST_VERSION");
    for path in ["README.md", "Makefile"] {
        assert!(text(path).contains(&format!("Rust {least} or later")), "{path} does not ask for Rust {least}");
    }
}
