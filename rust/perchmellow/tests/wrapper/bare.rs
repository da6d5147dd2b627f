//! The wrapper needs no std. bare-card.rs is a crate with a panic handler of its own, which does not compile beside std's; both are
//! compiled without cargo, as far as the compiler's checks go.

use std::path::Path;
use std::process::Command;

use crate::{at, said};

#[test]
fn no_std() {
    let built = Path::new(env!("CARGO_TARGET_TMPDIR"));
    let wrapper = built.join("libperchmellow.rmeta");
    let compile = |source: &str, out: &Path, more: &[&str]| {
        let mut rustc = Command::new("rustc");
        rustc.args(["--edition=2021", "--crate-type=lib", "--emit=metadata", "-o"]).arg(out).arg(at(source)).args(more);
        said(rustc.env("PERCHMELLOW_PROVED_BY", perchmellow::PROVED_BY))
    };
    compile("rust/perchmellow/src/lib.rs", &wrapper, &["--crate-name=perchmellow"]);
    let given = format!("--extern=perchmellow={}", wrapper.display());
    compile("rust/perchmellow/tests/wrapper/bare-card.rs", &built.join("libbare_card.rmeta"), &[&given]);
}
