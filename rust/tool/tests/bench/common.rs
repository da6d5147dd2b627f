//! What the tests share: a folder of their own, the built program run in it, and a reader of JSON.

use crate::json::{self, Value};
use std::fs;
use std::path::PathBuf;
use std::process::{Command, Output, Stdio};
use std::sync::atomic::{AtomicU32, Ordering};

pub const TOOL: &str = env!("CARGO_BIN_EXE_perchmellow");
/// A seed with no digit twice in a row, so that it is not found in anything by chance.
pub const SEED: &str = "d1a7c3e95b2f8604d1b7a3c5e9f20864";

/// A folder that goes when the test ends.
pub struct Folder(pub PathBuf);

pub struct Ran {
    pub status: i32,
    pub out: String,
    pub err: String,
}

impl Folder {
    pub fn new() -> Folder {
        static NEXT: AtomicU32 = AtomicU32::new(0);
        let name = format!("perchmellow-{}-{}", std::process::id(), NEXT.fetch_add(1, Ordering::Relaxed));
        let path = std::env::temp_dir().join(name);
        fs::create_dir(&path).unwrap();
        Folder(path)
    }

    /// A folder with a seed, a card of 2^k ticks, its anchor and a post.
    pub fn with_card(function: &str, k: u32, schedule: &str) -> Folder {
        Folder::with(function, ["--k", &k.to_string()], schedule)
    }

    /// The same, for a card of so many ticks.
    pub fn with_ticks(function: &str, ticks: u32, schedule: &str) -> Folder {
        Folder::with(function, ["--ticks", &ticks.to_string()], schedule)
    }

    fn with(function: &str, size: [&str; 2], schedule: &str) -> Folder {
        let folder = Folder::new();
        folder.write("seed.hex", format!("{SEED}\n"));
        let common = ["--function", function, size[0], size[1]];
        folder.good(&[&["start", "card.pm", "--schedule", schedule, "--seed-file", "seed.hex"], &common[..]].concat());
        folder.good(&[&["anchor", "--out", "anchor.hex", "--seed-file", "seed.hex"], &common[..]].concat());
        folder.good(&[&["enrol", "post.pm", "--anchor-file", "anchor.hex"], &common[..]].concat());
        folder
    }

    pub fn path(&self, name: &str) -> PathBuf {
        self.0.join(name)
    }

    pub fn read(&self, name: &str) -> Vec<u8> {
        fs::read(self.path(name)).unwrap()
    }

    pub fn write(&self, name: &str, bytes: impl AsRef<[u8]>) {
        fs::write(self.path(name), bytes).unwrap();
    }

    /// Every name in the folder, the hidden ones too.
    pub fn names(&self) -> Vec<String> {
        let mut names: Vec<_> = fs::read_dir(&self.0).unwrap().map(|e| e.unwrap().file_name().into_string().unwrap()).collect();
        names.sort();
        names
    }

    pub fn command(&self, args: &[&str]) -> Command {
        let mut command = Command::new(TOOL);
        command.args(args).current_dir(&self.0).stdin(Stdio::null());
        command
    }

    pub fn run(&self, args: &[&str]) -> Ran {
        Ran::of(self.command(args).output().unwrap())
    }

    /// A line typed to a shell that finds the program.
    pub fn shell(&self, line: &str) -> Ran {
        let folder = PathBuf::from(TOOL).parent().unwrap().display().to_string();
        let path = format!("{folder}:{}", std::env::var("PATH").unwrap());
        Ran::of(Command::new("sh").arg("-c").arg(line).env("PATH", path).current_dir(&self.0).stdin(Stdio::null()).output().unwrap())
    }

    /// A run that has to go well, and its answer.
    pub fn good(&self, args: &[&str]) -> String {
        let ran = self.run(args);
        assert_eq!((ran.status, ran.err.as_str()), (0, ""), "{args:?}");
        ran.out
    }

    /// A run that has to go well, and its answer in JSON.
    pub fn answer(&self, args: &[&str]) -> Value {
        let answer = json::parse(&self.good(&[args, &["--json"]].concat()));
        assert_eq!(answer["ok"], Value::Yes(true), "{args:?}");
        answer
    }

    /// A run that has to end in trouble, in words and in JSON: its status and its words.
    pub fn trouble(&self, args: &[&str]) -> (i32, String) {
        let (words, told) = (self.run(args), self.run(&[args, &["--json"]].concat()));
        assert_eq!((words.out.as_str(), told.out.as_str()), ("", ""), "{args:?}");
        assert!(words.err.starts_with("perchmellow: "), "{args:?}: {}", words.err);
        let told_json = json::parse(&told.err);
        assert_eq!(told_json["ok"], Value::Yes(false), "{args:?}");
        assert_eq!(told_json["status"].number(), words.status as u64, "{args:?}");
        assert_eq!(words.status, told.status, "{args:?}");
        (words.status, words.err)
    }
}

impl Drop for Folder {
    fn drop(&mut self) {
        let _ = fs::remove_dir_all(&self.0);
    }
}

impl Ran {
    fn of(output: Output) -> Ran {
        Ran {
            status: output.status.code().unwrap_or(-1),
            out: String::from_utf8(output.stdout).unwrap(),
            err: String::from_utf8(output.stderr).unwrap(),
        }
    }
}
