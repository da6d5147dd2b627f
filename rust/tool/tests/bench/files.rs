//! Files: cut short, in use, without room, left over from a power cut; their modes, and that a refusal does not touch them.

use crate::common::{Folder, SEED, TOOL};
use crate::json::Value;
use std::collections::BTreeSet;
use std::fs::{self, File};
use std::os::unix::fs::{symlink, MetadataExt, PermissionsExt};
use std::os::unix::process::CommandExt;
use std::process::{Command, Stdio};
use std::thread;
use std::time::Instant;

/// What a file is known by: its bytes, and that it is the very same file.
fn seal(folder: &Folder, name: &str) -> (Vec<u8>, u64, i64, i64) {
    let data = fs::metadata(folder.path(name)).unwrap();
    (folder.read(name), data.ino(), data.mtime(), data.mtime_nsec())
}

#[test]
fn a_record_cut_short_is_refused_with_4_at_every_length() {
    for schedule in ["optimal", "speed-1"] {
        let folder = Folder::with_card("aes", 5, schedule);
        folder.good(&["round", "card.pm", "--times", "33"]);
        folder.write("value.hex", SEED);
        for (name, call) in [("card.pm", vec!["round", "cut.pm"]), ("post.pm", vec!["offer", "cut.pm", "--value-file", "value.hex"])] {
            let whole = folder.read(name);
            for len in 0..whole.len() {
                folder.write("cut.pm", &whole[..len]);
                let before = seal(&folder, "cut.pm");
                let (status, words) = folder.trouble(&call);
                assert_eq!(status, 14, "{name} of {len} bytes: {words}");
                assert!(words.contains(&format!("the file has {len} byte")), "{name} of {len} bytes: {words}");
                assert_eq!(seal(&folder, "cut.pm"), before);
                let kind = if name == "card.pm" { "card" } else { "post" };
                let told = folder.answer(&["show", "cut.pm", "--as", kind]);
                assert_eq!(told["refusal"].number(), 4, "{name} of {len} bytes");
                assert_eq!(told["fault"]["from"].number(), len as u64);
            }
        }
    }
}

#[test]
fn bytes_behind_a_record_stay() {
    let folder = Folder::with_card("md5", 3, "optimal");
    let longer = [folder.read("card.pm"), b"kept".to_vec()].concat();
    folder.write("card.pm", &longer);
    folder.good(&["round", "card.pm", "--times", "9"]);
    let after = folder.read("card.pm");
    assert_eq!((after.len(), &after[after.len() - 4..]), (longer.len(), &b"kept"[..]));
    assert!(folder.good(&["show", "card.pm"]).contains("behind the record's end"));
}

#[test]
fn a_file_in_use_is_left_alone() {
    let folder = Folder::with_card("md5", 3, "optimal");
    let (card, post) = (seal(&folder, "card.pm"), seal(&folder, "post.pm"));
    let locks = [".card.pm.lock", ".post.pm.lock", ".new.pm.lock"].map(|name| {
        folder.write(name, "4711");
        let lock = File::open(folder.path(name)).unwrap();
        lock.try_lock().unwrap();
        lock
    });
    let start = ["start", "new.pm", "--function", "md5", "--k", "2", "--seed-file", "seed.hex"];
    let calls: [&[&str]; 6] = [
        &["rebuild", "new.pm", "--function", "md5", "--k", "2", "--round", "4", "--seed-file", "seed.hex"],
        &["round", "card.pm"],
        &["offer", "post.pm", "--value-file", "seed.hex"],
        &["ride", "card.pm", "post.pm", "--save"],
        &["anchor", "--function", "md5", "--k", "2", "--seed-file", "seed.hex", "--out", "card.pm"],
        &start,
    ];
    for call in calls {
        let (status, words) = folder.trouble(call);
        assert_eq!(status, 4, "{call:?}: {words}");
        assert!(words.contains("process 4711"), "{words}");
    }
    assert_eq!((seal(&folder, "card.pm"), seal(&folder, "post.pm")), (card, post));
    folder.good(&["show", "card.pm"]);
    // Unlocked, not only closed: a program that another test starts at this moment may have the file open still.
    locks.iter().for_each(|lock| lock.unlock().unwrap());
    folder.good(&["round", "card.pm"]);
    folder.good(&start);
    assert!(!folder.names().contains(&".card.pm.lock".into()), "{:?}", folder.names());
}

#[test]
fn one_file_for_two_parts_is_told() {
    let folder = Folder::with_card("md5", 2, "optimal");
    let before = seal(&folder, "card.pm");
    folder.write("late.pm", folder.read("card.pm"));
    folder.good(&["round", "late.pm", "--times", "3"]);
    for call in [&["ride", "card.pm", "./card.pm", "--save"][..], &["round", "late.pm", "--out", "late.pm"]] {
        let (status, words) = folder.trouble(call);
        assert_eq!(status, 4);
        assert!(words.contains("named twice"), "{words}");
    }
    assert_eq!(seal(&folder, "card.pm"), before);
}

/// Three shells that run rounds on one card, each again where the card is in use: all rounds are run, and every tick once.
#[test]
fn runs_at_once_lose_no_round() {
    let folder = Folder::with_card("md5", 6, "optimal");
    let rounds = || {
        let (mut done, mut busy, mut ticks) = (0, 0, Vec::new());
        loop {
            let ran = folder.run(&["round", "card.pm", "--json"]);
            match ran.status {
                0 => {
                    done += 1;
                    let told = crate::json::parse(&ran.out);
                    if let Value::Number(tick) = told["rounds"].list()[0]["tick"] {
                        ticks.push(tick);
                    }
                }
                4 => busy += 1,
                16 => return (done, busy, ticks),
                other => panic!("{other}: {}", ran.err),
            }
        }
    };
    let all: Vec<_> = thread::scope(|scope| {
        let shells: Vec<_> = (0..3).map(|_| scope.spawn(rounds)).collect();
        shells.into_iter().map(|shell| shell.join().unwrap()).collect()
    });
    assert_eq!(all.iter().map(|(done, ..)| done).sum::<u32>(), 127);
    assert!(all.iter().any(|(_, busy, _)| *busy > 0), "they never met, so nothing was tried");
    let ticks: Vec<u64> = all.into_iter().flat_map(|(.., ticks)| ticks).collect();
    assert_eq!(ticks.len(), 64);
    assert_eq!(ticks.into_iter().collect::<BTreeSet<_>>(), (0..64).collect());
}

/// A run killed at any moment leaves the old record or the new one, and the next run goes on from it.
#[test]
fn a_run_that_is_killed_leaves_a_whole_record() {
    let folder = Folder::with_card("aes", 10, "optimal");
    let begun = Instant::now();
    (0..5).for_each(|_| drop(folder.good(&["round", "card.pm"])));
    let usual = begun.elapsed() / 5;
    let mut round = 6;
    let (mut old, mut new) = (0, 0);
    for at in 0..300 {
        let mut child = Command::new(TOOL).args(["round", "card.pm"]).current_dir(&folder.0).stdout(Stdio::null()).spawn().unwrap();
        // From at once to twice the time that a run takes.
        thread::sleep(usual * (at % 41) / 20);
        let _ = child.kill();
        child.wait().unwrap();
        let told = folder.answer(&["show", "card.pm"]);
        assert_eq!(told["refusal"], Value::Null);
        match told["round"].number() - round {
            0 => old += 1,
            1 => new += 1,
            more => panic!("{more} rounds on"),
        }
        round = told["round"].number();
    }
    assert!(old > 0 && new > 0, "{old} runs were cut off and {new} were not, so nothing was tried");
    folder.good(&["round", "card.pm"]);
    assert_eq!(folder.names(), ["anchor.hex", "card.pm", "post.pm", "seed.hex"]);
}

#[test]
fn what_a_power_cut_left_does_not_disturb() {
    let folder = Folder::with_card("md5", 3, "optimal");
    folder.write(".card.pm.new", "half a rec");
    folder.write(".card.pm.lock", "99999");
    folder.good(&["round", "card.pm", "--times", "8"]);
    assert_eq!(folder.names(), ["anchor.hex", "card.pm", "post.pm", "seed.hex"]);
    folder.write(".new.pm.new", "half a rec");
    fs::set_permissions(folder.path(".new.pm.new"), fs::Permissions::from_mode(0o644)).unwrap();
    folder.good(&["start", "new.pm", "--function", "md5", "--k", "2", "--seed-file", "seed.hex"]);
    assert_eq!(fs::metadata(folder.path("new.pm")).unwrap().mode() & 0o777, 0o600);
}

#[test]
fn without_room_the_record_stays_and_a_tick_is_out_before() {
    let folder = Folder::with_card("md5", 3, "optimal");
    folder.good(&["round", "card.pm", "--times", "7"]);
    let (card, post) = (seal(&folder, "card.pm"), seal(&folder, "post.pm"));
    // No file may grow; the signal that comes with it is put aside, so that the program sees the error.
    let full = |line: &str| folder.shell(&format!("trap '' XFSZ; ulimit -f 0; {line}"));
    let ran = full("perchmellow round card.pm --out -");
    assert_eq!((ran.status, ran.out.len()), (5, 33), "{}", ran.err);
    assert!(ran.err.contains("no space left") && ran.err.contains("will be put out again"), "{}", ran.err);
    let tick = ran.out;
    folder.write("tick.hex", &tick);
    for line in [
        "perchmellow offer post.pm --value-file tick.hex",
        "perchmellow round card.pm --out out.hex",
        "perchmellow ride card.pm post.pm --save",
        "perchmellow start new.pm --function md5 --k 2 --seed-file seed.hex",
        "perchmellow picture run optimal 2 --out run.svg",
    ] {
        let ran = full(line);
        assert_eq!((ran.status, ran.out.as_str()), (5, ""), "{line}: {}", ran.err);
    }
    for line in ["perchmellow round card.pm", "perchmellow list optimal 10", "perchmellow --help"] {
        let ran = folder.shell(&format!("{line} > /dev/full"));
        assert_eq!(ran.status, 5, "{line}: {}", ran.err);
        assert!(ran.err.contains("standard output"), "{}", ran.err);
    }
    assert_eq!((seal(&folder, "card.pm"), seal(&folder, "post.pm")), (card, post));
    assert_eq!(folder.names(), ["anchor.hex", "card.pm", "post.pm", "seed.hex", "tick.hex"]);
    assert_eq!(folder.good(&["round", "card.pm", "--out", "-"]), tick, "the same tick is put out again");
}

#[test]
fn a_reader_that_goes_away_costs_no_tick() {
    let folder = Folder::with_card("md5", 8, "optimal");
    let before = seal(&folder, "card.pm");
    let ran = folder.shell("(perchmellow round card.pm --times 511; echo $? >status) | true; cat status");
    // The pipe may have taken it all before the reader went.
    match ran.out.trim() {
        "8" => assert_eq!(seal(&folder, "card.pm"), before),
        other => assert_eq!(other, "0"),
    }
}

#[test]
fn modes_and_links_are_kept() {
    let folder = Folder::with_card("md5", 3, "optimal");
    let mode = |name: &str| fs::metadata(folder.path(name)).unwrap().mode() & 0o777;
    assert_eq!((mode("card.pm"), mode("post.pm")), (0o600, 0o600));
    fs::set_permissions(folder.path("card.pm"), fs::Permissions::from_mode(0o640)).unwrap();
    fs::create_dir(folder.path("depot")).unwrap();
    symlink("../card.pm", folder.path("depot/link.pm")).unwrap();
    folder.good(&["round", "depot/link.pm", "--times", "8", "--out", "tick.hex"]);
    assert_eq!((mode("card.pm"), mode("tick.hex")), (0o640, 0o600));
    assert!(fs::symlink_metadata(folder.path("depot/link.pm")).unwrap().is_symlink());
    assert_eq!(folder.answer(&["show", "card.pm"])["round"].number(), 9);
}

/// As another user than the one that the files belong to; a test run by root becomes nobody for it.
#[test]
fn files_of_others_are_told() {
    let folder = Folder::with_card("md5", 2, "optimal");
    fs::copy(TOOL, folder.path("tool")).unwrap();
    let owner = fs::metadata(folder.path("card.pm")).unwrap().uid();
    let run = |args: &[&str]| {
        let mut command = Command::new(folder.path("tool"));
        if owner == 0 {
            command.uid(65534).gid(65534);
        }
        command.args(args).current_dir(&folder.0).output().unwrap()
    };
    if owner != 0 {
        fs::set_permissions(folder.path("card.pm"), fs::Permissions::from_mode(0o000)).unwrap();
        fs::set_permissions(&folder.0, fs::Permissions::from_mode(0o500)).unwrap();
    }
    let ran = [run(&["show", "card.pm"]), run(&["round", "card.pm"])];
    fs::set_permissions(&folder.0, fs::Permissions::from_mode(0o700)).unwrap();
    for ran in ran {
        let said = String::from_utf8(ran.stderr).unwrap();
        assert_eq!(ran.status.code(), Some(6), "{said}");
        assert!(said.contains("may not be read or written by this user"), "{said}");
    }
}

#[test]
fn files_that_cannot_be_used_are_told_apart() {
    let folder = Folder::with_card("md5", 2, "optimal");
    folder.write("words.hex", "not hex digits at all, thirty-two");
    folder.write("odd.hex", "123");
    folder.write("two.hex", format!("{SEED}\n{SEED}\n"));
    folder.write("long.pm", vec![0; (1 << 20) + 1]);
    let status = |args: &[&str]| folder.trouble(args).0;
    let start = |card, seed| ["start", card, "--function", "md5", "--k", "2", "--seed-file", seed];
    assert_eq!(status(&["round", "none.pm"]), 3);
    assert_eq!(status(&["show", "none.pm"]), 3);
    assert_eq!(status(&["round", "none/card.pm"]), 3);
    assert_eq!(status(&start("new.pm", "none.hex")), 3);
    assert_eq!(status(&start("card.pm", "seed.hex")), 7);
    assert_eq!(status(&["enrol", "post.pm", "--function", "md5", "--k", "2", "--anchor-file", "anchor.hex"]), 7);
    assert_eq!(status(&start("new.pm", "words.hex")), 9);
    assert_eq!(status(&start("new.pm", "odd.hex")), 9);
    assert_eq!(status(&start("new.pm", "two.hex")), 9);
    assert_eq!(status(&["round", "."]), 8);
    assert_eq!(status(&["show", "/dev/null"]), 8);
    assert_eq!(status(&["show", "long.pm"]), 8);
    assert_eq!(status(&["picture", "run", "optimal", "1", "--out", "/dev/null"]), 8);
    assert!(!folder.names().iter().any(|name| name.starts_with('.')), "{:?}", folder.names());
}
