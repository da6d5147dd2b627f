//! Rides, from a seed and from files, with ticks that get lost.

use crate::common::Folder;
use crate::json::Value;

fn number(told: &Value, names: &[&str]) -> Vec<u64> {
    names.iter().map(|name| told[name].number()).collect()
}

#[test]
fn a_whole_ride_settles() {
    for (function, schedule, k) in [("md5", "optimal", "12"), ("aes", "speed-1", "9"), ("md5", "speed-2", "1"), ("aes", "rushing", "0")] {
        let folder = Folder::with_card(function, 1, schedule);
        let told = folder.answer(&["ride", "--function", function, "--schedule", schedule, "--k", k, "--seed-file", "seed.hex"]);
        let k: u64 = k.parse().unwrap();
        let all = 1 << k;
        assert_eq!(number(&told, &["rounds", "hashes", "ticks"]), [2 * all - 1, k * all / 2, all]);
        assert_eq!(number(&told, &["missed", "offered", "credited", "paid", "unpaid"]), [0, all, all, all, 0]);
        assert_eq!((&told["settle"], told["refused"].list().len()), (&Value::Yes(true), 0));
        if schedule == "optimal" {
            assert_eq!(told["most_in_a_paying_round"].number(), k.div_ceil(2));
        }
    }
}

#[test]
fn a_card_of_any_number_of_ticks_rides_to_its_end() {
    for (function, schedule, ticks) in
        [("md5", "optimal", "300"), ("aes", "speed-1", "1"), ("md5", "rushing", "129"), ("aes", "speed-2", "64")]
    {
        let all: u64 = ticks.parse().unwrap();
        let folder = Folder::with_ticks(function, all as u32, schedule);
        let seed = ["ride", "--function", function, "--schedule", schedule, "--ticks", ticks, "--seed-file", "seed.hex"];
        for ride in [&seed[..], &["ride", "card.pm", "post.pm"]] {
            let told = folder.answer(ride);
            assert_eq!(number(&told, &["rounds", "ticks", "offered", "credited", "paid"]), [all; 5]);
            assert_eq!(told["unpaid"].number(), all.next_power_of_two() - all);
            assert_eq!((&told["settle"], told["refused"].list().len()), (&Value::Yes(true), 0));
        }
    }
}

#[test]
fn beside_k_the_ticks_are_where_to_stop() {
    let folder = Folder::with_card("md5", 1, "optimal");
    let told = folder.answer(&["ride", "--function", "md5", "--k", "4", "--ticks", "3", "--seed-file", "seed.hex"]);
    assert_eq!(number(&told, &["rounds", "ticks", "paid", "unpaid"]), [18, 3, 3, 13]);
}

#[test]
fn missed_ticks_cost_by_the_gap() {
    let folder = Folder::with_card("md5", 4, "optimal");
    let ride = |gap: &str, miss: &str| {
        let told = folder.answer(&["ride", "card.pm", "post.pm", "--gap", gap, "--miss", miss]);
        assert_eq!(told["settle"], Value::Yes(true));
        let refused: Vec<_> = told["refused"].list().iter().map(|r| (r["refusal"].number(), r["times"].number())).collect();
        (number(&told, &["missed", "offered", "credited", "paid"]), refused)
    };
    assert_eq!(ride("4", "3,7-9"), (vec![4, 12, 16, 16], vec![]));
    assert_eq!(ride("3", "3,7-9"), (vec![4, 12, 6, 6], vec![(9, 7)]));
    assert_eq!(ride("1", "3"), (vec![1, 15, 2, 2], vec![(9, 13)]));
    assert_eq!(ride("2", "16"), (vec![1, 15, 15, 15], vec![]));
    assert_eq!(ride("64", "1-15"), (vec![15, 1, 16, 16], vec![]));
    assert_eq!(ride("64", "1-99"), (vec![16, 0, 0, 0], vec![]));
}

#[test]
fn a_ride_is_kept_only_when_asked() {
    let folder = Folder::with_card("aes", 5, "speed-2");
    let before = (folder.read("card.pm"), folder.read("post.pm"));
    let trial = folder.good(&["ride", "card.pm", "post.pm", "--ticks", "5"]);
    assert!(trial.contains("--save would keep the ride"), "{trial}");
    assert_eq!((folder.read("card.pm"), folder.read("post.pm")), before);
    folder.good(&["ride", "card.pm", "post.pm", "--ticks", "5", "--save"]);
    assert_eq!(folder.answer(&["show", "card.pm"])["round"].number(), 37);
    assert_eq!(folder.answer(&["show", "post.pm"])["paid"].number(), 5);
    // The same by hand, round and offer.
    let hand = Folder::with_card("aes", 5, "speed-2");
    for _ in 0..5 {
        hand.good(&["round", "card.pm", "--to-tick", "--out", "tick.hex"]);
        hand.good(&["offer", "post.pm", "--value-file", "tick.hex"]);
    }
    assert_eq!((folder.read("card.pm"), folder.read("post.pm")), (hand.read("card.pm"), hand.read("post.pm")));
    // To the end, and then both are spent.
    folder.good(&["ride", "card.pm", "post.pm", "--save"]);
    assert_eq!(folder.trouble(&["ride", "card.pm", "post.pm"]).0, 16);
    assert_eq!(folder.good(&["settle", "post.pm"]), "yes: 32 steps lead from the last value to the anchor\n");
}

/// The post is saved before the card. Where the card then cannot be, it puts out again what the post has, and nothing is lost.
#[test]
fn a_ride_cut_off_between_the_two_goes_on() {
    let folder = Folder::with_card("md5", 4, "optimal");
    let card = folder.read("card.pm");
    std::fs::create_dir(folder.path(".card.pm.new")).unwrap();
    assert_eq!(folder.run(&["ride", "card.pm", "post.pm", "--ticks", "6", "--save"]).status, 8);
    assert_eq!(folder.read("card.pm"), card);
    assert_eq!(folder.answer(&["show", "post.pm"])["paid"].number(), 6);
    std::fs::remove_dir(folder.path(".card.pm.new")).unwrap();
    let told = folder.answer(&["ride", "card.pm", "post.pm", "--save"]);
    assert_eq!(number(&told, &["ticks", "offered", "credited", "paid"]), [16, 16, 10, 16]);
    assert_eq!(told["refused"].list()[0]["times"].number(), 6);
}

#[test]
fn there_is_no_progress_bar_without_a_terminal() {
    let folder = Folder::with_card("md5", 1, "optimal");
    let ran = folder.run(&["ride", "--function", "md5", "--k", "18", "--seed-file", "seed.hex"]);
    assert_eq!((ran.status, ran.err.as_str()), (0, ""));
}
