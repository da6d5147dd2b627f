//! Each command as a person types it: what it answers in words and in JSON, and each refusal with its status.

use crate::common::{Folder, SEED};
use crate::json::Value;

#[test]
fn a_card_pays_a_post_from_seed_to_settled() {
    for (function, schedule) in [("md5", "optimal"), ("aes", "speed-1"), ("md5", "speed-2"), ("aes", "rushing")] {
        let folder = Folder::with_card(function, 4, schedule);
        let mut paid = 0;
        let mut hashes = 0;
        for tick in (0..16).rev() {
            let told = folder.answer(&["round", "card.pm", "--to-tick", "--out", "tick.hex"]);
            let rounds = told["rounds"].list();
            hashes += rounds.iter().map(|told| told["hashes"].number()).sum::<u64>();
            let last = rounds.last().unwrap();
            assert_eq!(last["tick"].number(), tick);
            assert_eq!(folder.read("tick.hex"), format!("{}\n", last["value"].text()).as_bytes());
            let told = folder.answer(&["offer", "post.pm", "--value-file", "tick.hex"]);
            paid += 1;
            assert_eq!((told["credited"].number(), told["paid"].number(), told["unpaid"].number()), (1, paid, 16 - paid));
            assert_eq!(folder.answer(&["settle", "post.pm"])["yes"], Value::Yes(true));
        }
        assert_eq!(hashes, 32);
        assert_eq!(folder.read("tick.hex"), format!("{SEED}\n").as_bytes(), "the last tick is element 0");
        assert_eq!(folder.trouble(&["round", "card.pm"]).0, 16);
        assert_eq!(folder.trouble(&["offer", "post.pm", "--value-file", "tick.hex"]).0, 16);
    }
}

#[test]
fn a_card_of_any_number_of_ticks_pays_them_all() {
    for (function, schedule, ticks, k) in
        [("md5", "optimal", 1, 0), ("aes", "speed-1", 3, 2), ("md5", "rushing", 5, 3), ("aes", "speed-2", 8, 3)]
    {
        let folder = Folder::with_ticks(function, ticks, schedule);
        assert_eq!(folder.answer(&["show", "card.pm"])["k"].number(), k);
        for left in (0..u64::from(ticks)).rev() {
            assert_eq!(folder.answer(&["show", "card.pm"])["ticks_left"].number(), left + 1);
            let told = folder.answer(&["round", "card.pm", "--out", "tick.hex"]);
            assert_eq!(told["rounds"].list()[0]["tick"].number(), left);
            assert_eq!(folder.answer(&["offer", "post.pm", "--value-file", "tick.hex"])["credited"].number(), 1);
        }
        assert_eq!(folder.read("tick.hex"), format!("{SEED}\n").as_bytes(), "the last tick is element 0");
        assert_eq!(folder.trouble(&["round", "card.pm"]).0, 16);
        let told = folder.answer(&["settle", "post.pm"]);
        assert_eq!((&told["yes"], told["paid"].number()), (&Value::Yes(true), ticks.into()));
        assert_eq!(folder.good(&["show", "card.pm"]).lines().last(), Some("0 ticks are left to pay."));
    }
}

#[test]
fn a_whole_level_is_one_card_by_either_name() {
    let (by_k, by_ticks) = (Folder::with_card("aes", 4, "optimal"), Folder::with_ticks("aes", 16, "optimal"));
    by_k.good(&["round", "card.pm", "--times", "15"]);
    for name in ["card.pm", "anchor.hex", "post.pm"] {
        assert_eq!(by_k.read(name), by_ticks.read(name), "{name}");
    }
}

#[test]
fn a_rebuild_is_the_card_that_was_run() {
    for (function, schedule) in [("md5", "optimal"), ("aes", "speed-1"), ("md5", "speed-2"), ("aes", "rushing")] {
        let folder = Folder::with_card(function, 3, schedule);
        let common = ["--function", function, "--schedule", schedule, "--seed-file", "seed.hex"];
        for round in 1..=16u32 {
            let (again, round_said) = (format!("again-{round}.pm"), round.to_string());
            folder.good(&[&["rebuild", &again, "--k", "3", "--round", &round_said], &common[..]].concat());
            assert_eq!(folder.read(&again), folder.read("card.pm"), "{function}, {schedule}, round {round}");
            if let Some(paid) = round.checked_sub(8) {
                // The same by the ticks paid, of the whole card and of one with a tick less.
                for (name, size) in [("paid", ["--k", "3"]), ("whole", ["--ticks", "8"])] {
                    let again = format!("{name}-{round}.pm");
                    folder.good(&[&["rebuild", &again, "--paid", &paid.to_string()], &size[..], &common[..]].concat());
                    assert_eq!(folder.read(&again), folder.read("card.pm"), "{function}, {schedule}, {paid} paid");
                }
            }
            if let Some(paid) = round.checked_sub(16 - 5) {
                let again = format!("five-{round}.pm");
                folder.good(&[&["rebuild", &again, "--ticks", "5", "--paid", &paid.to_string()], &common[..]].concat());
                assert_eq!(folder.read(&again), folder.read("card.pm"), "{function}, {schedule}, {paid} of 5 paid");
            }
            if round < 16 {
                folder.good(&["round", "card.pm"]);
            }
        }
    }
}

#[test]
fn a_rebuild_says_where_the_card_stands() {
    let folder = Folder::with_card("md5", 2, "optimal");
    let rebuilt = |name: &str, more: &[&str]| {
        let words = folder.good(&[&["rebuild", name, "--function", "md5", "--seed-file", "seed.hex"], more].concat());
        words.split("; ").last().unwrap().to_string()
    };
    assert_eq!(rebuilt("a.pm", &["--ticks", "300", "--paid", "20"]), "its next round is 744, and 280 ticks are left to pay\n");
    assert_eq!(rebuilt("b.pm", &["--ticks", "300", "--paid", "299"]), "its next round is 1023, and 1 tick is left to pay\n");
    assert_eq!(rebuilt("c.pm", &["--ticks", "300", "--paid", "300"]), "all its rounds are run\n");
    assert_eq!(rebuilt("d.pm", &["--ticks", "300", "--paid", "0"]), "its next round is 724\n");
    assert_eq!(rebuilt("e.pm", &["--k", "9", "--round", "1"]), "its next round is 1\n");
    assert_eq!(rebuilt("f.pm", &["--ticks", "300", "--round", "724"]), "its next round is 724\n");
    assert_eq!(rebuilt("g.pm", &["--ticks", "300", "--round", "1024"]), "all its rounds are run\n");
    assert_eq!(folder.trouble(&["rebuild", "card.pm", "--function", "md5", "--k", "2", "--round", "1", "--seed-file", "seed.hex"]).0, 7);
}

/// A lost card is rebuilt by what its post has; put back too far, it pays what was paid, and none is lost.
#[test]
fn a_rebuilt_card_goes_on_paying() {
    let folder = Folder::with_ticks("md5", 21, "optimal");
    folder.good(&["ride", "card.pm", "post.pm", "--ticks", "9", "--save"]);
    let before = folder.read("card.pm");
    std::fs::remove_file(folder.path("card.pm")).unwrap();
    let paid = folder.answer(&["show", "post.pm"])["paid"].number().to_string();
    let rebuild = ["rebuild", "card.pm", "--function", "md5", "--ticks", "21", "--seed-file", "seed.hex", "--paid"];
    folder.good(&[&rebuild[..], &[&paid]].concat());
    assert_eq!(folder.read("card.pm"), before);
    std::fs::remove_file(folder.path("card.pm")).unwrap();
    folder.good(&[&rebuild[..], &["5"]].concat());
    let told = folder.answer(&["ride", "card.pm", "post.pm", "--save"]);
    assert_eq!((told["ticks"].number(), told["credited"].number(), told["paid"].number()), (16, 12, 21));
    let refused = &told["refused"].list()[0];
    assert_eq!((refused["refusal"].number(), refused["times"].number()), (9, 4));
    assert_eq!(told["settle"], Value::Yes(true));
}

#[test]
fn show_says_what_is_left_to_pay() {
    let folder = Folder::with_card("md5", 3, "optimal");
    let last = || folder.good(&["show", "card.pm"]).lines().find(|line| line.contains("left to pay")).map(String::from);
    assert_eq!(last().as_deref(), Some("8 ticks are left to pay, after 7 preparing rounds."));
    folder.good(&["round", "card.pm", "--times", "6"]);
    assert_eq!(last().as_deref(), Some("8 ticks are left to pay, after 1 preparing round."));
    folder.good(&["round", "card.pm"]);
    assert_eq!(last().as_deref(), Some("8 ticks are left to pay."));
    folder.good(&["round", "card.pm", "--times", "7"]);
    assert_eq!(last().as_deref(), Some("1 tick is left to pay."));
    let mut record = folder.read("card.pm");
    record[7] = 1;
    folder.write("card.pm", record);
    assert_eq!(last(), None, "nothing is promised of a damaged card");
}

#[test]
fn one_round_and_many_are_told_alike() {
    let (one, many) = (Folder::with_card("md5", 4, "optimal"), Folder::with_card("md5", 4, "optimal"));
    for _ in 0..20 {
        one.good(&["round", "card.pm"]);
    }
    let words = many.good(&["round", "card.pm", "--times", "20"]);
    assert_eq!(one.read("card.pm"), many.read("card.pm"));
    let lines: Vec<_> = words.lines().collect();
    assert_eq!(lines.len(), 6);
    assert_eq!(lines[0], "rounds 1 to 15: quiet, 15 hashes");
    assert!(lines[1].starts_with("round 16: tick 15, 0 hashes, "), "{words}");
    let alone = many.good(&["round", "card.pm", "--times", "2", "--out", "-"]);
    assert!(alone.lines().count() == 2 && alone.lines().all(|line| line.len() == 32), "{alone}");
}

#[test]
fn too_many_rounds_are_refused_and_none_is_run() {
    let folder = Folder::with_card("md5", 3, "optimal");
    let before = folder.read("card.pm");
    let (status, words) = folder.trouble(&["round", "card.pm", "--times", "16"]);
    assert_eq!(status, 16);
    assert!(words.contains("only 15 rounds were left"), "{words}");
    assert_eq!(folder.read("card.pm"), before);
    folder.good(&["round", "card.pm", "--times", "15"]);
}

#[test]
fn values_come_from_standard_input() {
    let folder = Folder::with_card("aes", 2, "optimal");
    let ran = folder.shell(&format!("echo {SEED} | perchmellow anchor --function aes --k 2 --seed-file - | diff - anchor.hex"));
    assert_eq!((ran.status, ran.out.as_str()), (0, ""));
    let ran = folder.shell("perchmellow round card.pm --to-tick --out - | perchmellow offer post.pm --value-file -");
    assert_eq!((ran.status, ran.out.as_str()), (0, "credited 1; 1 paid, 3 unpaid\n"));
}

#[test]
fn positions_are_those_of_document_01() {
    let folder = Folder::new();
    let numbers = |round: &str| {
        let told = folder.answer(&["positions", "--k", "3", "--round", round]);
        told["positions"].list().iter().map(Value::number).collect::<Vec<_>>()
    };
    assert_eq!(numbers("11"), [4, 1, 0]);
    assert_eq!(numbers("12"), [3, 2, 0]);
    assert_eq!(numbers("16"), []);
    let told = folder.answer(&["positions", "--k", "4", "--schedule", "speed-1", "--round", "18"]);
    assert_eq!(told["positions"].list().len(), 6);
    assert_eq!(folder.answer(&["positions", "--k", "4", "--schedule", "speed-2", "--round", "21"])["hashes"].number(), 3);
    assert_eq!(folder.good(&["positions", "--k", "3", "--round", "16"]), "at round 16 all rounds are run and nothing is held\n");
}

#[test]
fn the_listing_is_document_01s() {
    let folder = Folder::new();
    let asked = "pebbles optimal 2\n1 0 1 0 -\n2 1 1 0 -\n3 2 2 1,0 -\n4 0 3 3,2,0 3\n5 1 2 2,0 2\n6 0 2 1,0 1\n7 0 1 0 0\ntotal 4\n";
    assert_eq!(folder.good(&["list", "optimal", "2"]), asked);
    assert_eq!(folder.good(&["list", "rushing", "0"]), "pebbles rushing 0\n1 0 1 0 0\ntotal 0\n");
    for schedule in ["rushing", "speed-1", "speed-2", "optimal"] {
        let text = folder.good(&["list", schedule, "10"]);
        assert_eq!(text.lines().count(), 2049);
        assert!(text.ends_with("\n2047 0 1 0 0\ntotal 5120\n"), "{schedule}");
        assert_eq!(folder.answer(&["list", schedule, "5"])["rounds"].list().len(), 63);
    }
    for bad in [["optimal", "11"], ["optimal", "02"], ["optimal", "-1"], ["optimal", ""], ["3", "2"], ["Optimal", "2"]] {
        assert_eq!(folder.trouble(&["list", bad[0], bad[1]]).0, 2, "{bad:?}");
    }
}

#[test]
fn settle_says_no_with_a_status_of_its_own() {
    let folder = Folder::with_card("md5", 4, "optimal");
    folder.good(&["round", "card.pm", "--to-tick", "--out", "tick.hex"]);
    folder.good(&["offer", "post.pm", "--value-file", "tick.hex"]);
    let given = ["settle", "--function", "md5", "--k", "4", "--anchor-file", "anchor.hex", "--last-file", "tick.hex", "--paid"];
    assert_eq!(folder.run(&[&given[..], &["1"]].concat()).status, 0);
    let no = folder.run(&[&given[..], &["2"]].concat());
    assert_eq!((no.status, no.out.as_str(), no.err.as_str()), (1, "no: 2 steps do not lead from the last value to the anchor\n", ""));
    assert_eq!(folder.trouble(&[&given[..], &["17"]].concat()).0, 15);
}

/// Each refusal by its status, with the words that tell what was found and what to do.
#[test]
fn each_refusal_has_its_status_and_its_sentence() {
    let folder = Folder::with_card("md5", 2, "optimal");
    folder.write("short.hex", "00112233445566778899aabbccddee\n");
    folder.write("zero.hex", "0".repeat(32));
    let refused = |number: i32, found: &str, args: &[&str]| {
        let (status, words) = folder.trouble(args);
        assert_eq!(status, 10 + number, "{args:?}: {words}");
        assert!(words.contains(&format!(" refused {number}: ")), "{args:?}: {words}");
        assert!(words.contains(&format!(". Found: {found}")), "{args:?}: {words}");
        assert!(words.contains(". To do: "), "{args:?}: {words}");
    };
    let start =
        |function, k, schedule, seed| ["start", "new.pm", "--function", function, "--k", k, "--schedule", schedule, "--seed-file", seed];
    refused(1, "the function is 2", &start("2", "21", "4", "short.hex"));
    refused(2, "k is 21", &start("1", "21", "4", "short.hex"));
    refused(2, "k is 4294967295", &start("1", "99999999999", "0", "seed.hex"));
    refused(3, "the schedule is 4", &start("aes", "20", "4", "short.hex"));
    refused(4, "the seed has 30 hex digits", &start("aes", "20", "optimal", "short.hex"));
    let sold = |function, ticks, schedule, seed| {
        ["start", "new.pm", "--function", function, "--ticks", ticks, "--schedule", schedule, "--seed-file", seed]
    };
    refused(1, "the function is 2", &sold("2", "0", "4", "short.hex"));
    refused(3, "the schedule is 4", &sold("1", "0", "4", "short.hex"));
    refused(10, "the number of ticks is 0. To do: give --ticks from 1 to 1048576", &sold("1", "0", "3", "short.hex"));
    refused(10, "the number of ticks is 1048577", &sold("1", "1048577", "3", "seed.hex"));
    refused(10, "the number of ticks is 4294967295", &sold("1", "99999999999", "3", "seed.hex"));
    refused(4, "the seed has 30 hex digits", &sold("1", "300", "3", "short.hex"));
    refused(10, "the number of ticks is 0", &["anchor", "--function", "0", "--ticks", "0", "--seed-file", "seed.hex"]);
    refused(10, "the number of ticks is 0", &["enrol", "new.pm", "--function", "0", "--ticks", "0", "--anchor-file", "anchor.hex"]);
    refused(1, "the function is 2", &["enrol", "new.pm", "--function", "2", "--ticks", "0", "--anchor-file", "short.hex"]);
    refused(10, "the number of ticks is 0", &["ride", "--function", "0", "--ticks", "0", "--seed-file", "seed.hex"]);
    let rebuild = |size, number, seed, at, round| ["rebuild", "new.pm", "--function", "md5", size, number, "--seed-file", seed, at, round];
    refused(2, "k is 21", &rebuild("--k", "21", "short.hex", "--round", "0"));
    refused(2, "k is 4294967295", &rebuild("--k", "4294967295", "short.hex", "--paid", "0"));
    refused(10, "the number of ticks is 0", &rebuild("--ticks", "0", "short.hex", "--round", "0"));
    refused(3, "the schedule is 4", &[&rebuild("--ticks", "0", "short.hex", "--round", "0")[..], &["--schedule", "4"]].concat());
    let unknown = ["rebuild", "new.pm", "--function", "2", "--schedule", "4", "--ticks", "0", "--seed-file", "short.hex", "--round", "0"];
    refused(1, "the function is 2", &unknown);
    refused(5, "the round is 0, and for k = 4 it is from 1 to 32", &rebuild("--k", "4", "short.hex", "--round", "0"));
    refused(5, "the round is 1025, and for 300 ticks it is from 724 to 1024", &rebuild("--ticks", "300", "seed.hex", "--round", "1025"));
    refused(5, "the round is 723, and for 300 ticks it is from 724 to 1024", &rebuild("--ticks", "300", "short.hex", "--round", "723"));
    refused(5, "the round is 3, and for 1 tick it is from 1 to 2", &rebuild("--ticks", "1", "seed.hex", "--round", "3"));
    refused(5, "301 are said to be paid of 300 ticks", &rebuild("--ticks", "300", "seed.hex", "--paid", "301"));
    refused(5, "4294967295 are said to be paid of 16 ticks", &rebuild("--k", "4", "seed.hex", "--paid", "4294967295"));
    refused(4, "the seed has 30 hex digits", &rebuild("--k", "4", "short.hex", "--round", "32"));
    refused(2, "k is 21", &["positions", "--k", "21", "--schedule", "4", "--round", "0"]);
    refused(3, "the schedule is 4", &["positions", "--k", "20", "--schedule", "4", "--round", "0"]);
    refused(5, "the round is 0, and for k = 4 it is from 1 to 32", &["positions", "--k", "4", "--round", "0"]);
    refused(5, "the round is 33", &["positions", "--k", "4", "--round", "33"]);
    refused(1, "the function is 9", &["anchor", "--function", "9", "--k", "2", "--seed-file", "seed.hex"]);
    refused(4, "the anchor has 30 hex digits", &["enrol", "new.pm", "--function", "0", "--k", "2", "--anchor-file", "short.hex"]);
    let settle = ["settle", "--function", "0", "--k", "2", "--paid", "5", "--anchor-file", "anchor.hex", "--last-file"];
    refused(4, "the last value has 30 hex digits", &[&settle[..], &["short.hex"]].concat());
    refused(5, "5 are said to be paid, and for k = 2 the most is 4", &[&settle[..], &["seed.hex"]].concat());
    let offer = |value, gap| ["offer", "post.pm", "--value-file", value, "--gap", gap];
    refused(7, "the gap limit is 0", &offer("short.hex", "0"));
    refused(7, "the gap limit is 65", &offer("short.hex", "65"));
    refused(4, "the value has 30 hex digits", &offer("short.hex", "64"));
    refused(9, "none of 1 to 4 steps leads from the value to the one held; 0 paid, 4 unpaid", &offer("zero.hex", "64"));
    refused(9, "1 step does not lead", &offer("zero.hex", "1"));
    refused(9, "the value is the one held already", &offer("anchor.hex", "1"));
    refused(7, "the gap limit is 65", &["ride", "card.pm", "post.pm", "--gap", "65"]);
    assert!(!folder.names().contains(&"new.pm".into()), "a refused start leaves no file");
}

#[test]
fn missed_ticks_are_taken_within_the_gap() {
    let folder = Folder::with_card("md5", 4, "optimal");
    folder.good(&["round", "card.pm", "--to-tick", "--out", "lost.hex"]);
    folder.good(&["round", "card.pm", "--to-tick", "--out", "tick.hex"]);
    assert_eq!(folder.trouble(&["offer", "post.pm", "--value-file", "tick.hex", "--gap", "1"]).0, 19);
    assert_eq!(folder.answer(&["offer", "post.pm", "--value-file", "tick.hex", "--gap", "2"])["credited"].number(), 2);
    assert_eq!(folder.trouble(&["offer", "post.pm", "--value-file", "lost.hex", "--gap", "64"]).0, 19);
}

#[test]
fn odd_names_are_told_in_json() {
    let folder = Folder::with_card("md5", 2, "optimal");
    for name in ["a \"card\".pm", "back\\slash.pm", "line\nfeed.pm", "tab\there.pm", "K\u{e4}rtchen.pm"] {
        folder.write(name, folder.read("card.pm"));
        assert_eq!(folder.answer(&["round", name])["file"].text(), name);
        assert!(folder.trouble(&["start", name, "--function", "md5", "--k", "2", "--seed-file", "seed.hex"]).1.contains(name));
    }
}

#[test]
fn the_demo_is_a_line_a_round_without_colour() {
    let text = Folder::new().good(&["demo"]);
    assert_eq!(text.lines().filter(|line| line.trim_start().starts_with(|c: char| c.is_ascii_digit())).count(), 31 + 1);
    assert!(text.lines().count() <= 45 && text.lines().all(|line| line.len() <= 100), "{text}");
    assert!(!text.contains('\x1b'));
    assert!(text.ends_with("Settle, for 16 ticks paid: yes.\n"));
}
