//! The C header says what the wrapper says: its version, and a sentence for each refusal.

use std::path::Path;
use std::process::Command;

use perchmellow::Refusal;

use crate::{at, said};

#[test]
fn version_and_texts() {
    let program = Path::new(env!("CARGO_TARGET_TMPDIR")).join("header-says");
    let source = at("rust/perchmellow/tests/wrapper/header-says.c");
    said(Command::new("cc").args(["-std=c99", "-I"]).arg(at("include")).arg(source).arg("-o").arg(&program));
    let says = said(&mut Command::new(program));
    let mut lines = says.lines();
    assert_eq!(lines.next(), Some(env!("CARGO_PKG_VERSION")));
    for (number, text) in (0..=u8::MAX).zip(&mut lines) {
        let wanted = match Refusal::of(number) {
            Some(refusal) => refusal.to_string(),
            None if number == 0 => "nothing is refused".into(),
            None => "no refusal has this number".into(),
        };
        assert_eq!(text, wanted, "refusal {number}");
    }
    assert_eq!((says.lines().count(), lines.next()), (257, None));
}
