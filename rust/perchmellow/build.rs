//! Links the proved library. `tools/staticlib` has rt prove and build it, and ends at once where it was built from the same files before,
//! for whichever target folder.

use std::path::{Path, PathBuf};
use std::process::{exit, Command};

fn main() {
    let here = std::env::var("CARGO_MANIFEST_DIR").expect("cargo names the package's folder");
    let root = Path::new(&here).ancestors().nth(2).expect("the package stands in rust/").to_path_buf();
    // The stamp changes whenever the library is built anew: by another kit, or from nothing.
    for watched in ["crates.txt", "tools/staticlib", "target/staticlib/libperchmellow.stamp"] {
        println!("cargo:rerun-if-changed={}", root.join(watched).display());
    }
    for watched in sources(&root.join("crates")) {
        println!("cargo:rerun-if-changed={}", watched.display());
    }

    match Command::new(root.join("tools").join("staticlib")).current_dir(&root).output() {
        Ok(done) if done.status.success() => {}
        Ok(done) => {
            eprint!("{}{}", String::from_utf8_lossy(&done.stdout), String::from_utf8_lossy(&done.stderr));
            eprintln!("perchmellow: tools/staticlib did not prove and build the library; what it said stands above.");
            exit(1);
        }
        Err(why) => {
            eprintln!("perchmellow: tools/staticlib could not be run ({why}); it stands in the repository and needs a shell.");
            exit(1);
        }
    }
    // Linked from cargo's own folder, where no other run writes.
    let built = root.join("target").join("staticlib").join("libperchmellow.a");
    let library = std::env::var("OUT_DIR").expect("cargo names a folder for what is built");
    if let Err(why) = std::fs::copy(&built, Path::new(&library).join("libperchmellow.a")) {
        eprintln!("perchmellow: {} could not be copied ({why}).", built.display());
        exit(1);
    }
    println!("cargo:rustc-link-search=native={library}");
    println!("cargo:rustc-link-lib=static=perchmellow");
    println!("cargo:rustc-env=PERCHMELLOW_PROVED_BY={}", proved_by());
}

/// What stands in the crates' folders, but for what rt makes there, which changes whenever rt runs.
fn sources(crates: &Path) -> Vec<PathBuf> {
    let entries = |folder: &Path| std::fs::read_dir(folder).into_iter().flatten().flatten().map(|entry| entry.path()).collect::<Vec<_>>();
    entries(crates).iter().flat_map(|folder| entries(folder)).filter(|path| !path.ends_with("out")).collect()
}

/// The first line of what `rt version` says.
fn proved_by() -> String {
    let said = Command::new("rt").arg("version").output().map(|done| String::from_utf8_lossy(&done.stdout).into_owned());
    match said.as_deref().map(|said| said.lines().next().unwrap_or_default().trim()) {
        Ok(version) if !version.is_empty() => version.to_string(),
        _ => {
            eprintln!("perchmellow: rt built the library, but 'rt version' does not say which rt it is.");
            exit(1);
        }
    }
}
