//! A record with one bit wrong, at every bit: what `show` says is what the call says, and a refusal touches nothing.

use crate::common::Folder;
use crate::json::Value;

/// The refusal of a status, if it is one.
fn refusal(status: i32) -> Value {
    match status {
        0 => Value::Null,
        11..=19 => Value::Number(status as u64 - 10),
        other => panic!("status {other}"),
    }
}

/// What a call says of a record; then `show` says the same, names a place that earns it, and neither touches a refused record.
fn both_say(folder: &Folder, record: &[u8], kind: &str, case: &str) -> Value {
    folder.write("bad.pm", record);
    let told = folder.answer(&["show", "bad.pm", "--as", kind]);
    assert_eq!(folder.read("bad.pm"), record, "{case}: show only looks");
    // An offer of a strange value is refused with 9 where the record is good, and `show` says nothing against that.
    let ran = match kind {
        "card" => folder.run(&["round", "bad.pm"]),
        _ => folder.run(&["offer", "bad.pm", "--value-file", "seed.hex", "--gap", "1"]),
    };
    let said = match refusal(ran.status) {
        Value::Number(9) => Value::Null,
        said => said,
    };
    assert_eq!(told["refusal"], said, "{case}");
    let fault = &told["fault"];
    match &said {
        Value::Null => assert_eq!(*fault, Value::Null, "{case}"),
        number => {
            assert_eq!(fault["refusal"], *number, "{case}");
            let words = fault["words"].text();
            assert!(ran.err.contains(words), "{case}: {words}, {}", ran.err);
            assert_eq!(folder.read("bad.pm"), record, "{case}: a refused call touches nothing");
        }
    }
    said
}

/// Every record with one bit wrong; answers how often each refusal came.
fn every_bit(folder: &Folder, name: &str, kind: &str) -> [u32; 10] {
    let whole = folder.read(name);
    let mut seen = [0; 10];
    for bit in 0..8 * whole.len() {
        let mut record = whole.clone();
        record[bit / 8] ^= 1 << (bit % 8);
        let said = both_say(folder, &record, kind, &format!("bit {bit} of {name}"));
        seen[if let Value::Number(number) = said { number as usize } else { 0 }] += 1;
        // Without being told, `show` finds the kind by the mark or by the length, and stops at a mark that is wrong.
        if bit < 16 {
            let told = folder.answer(&["show", "bad.pm"]);
            assert_eq!((told["kind"].text(), told["refusal"].number(), told["bytes"].list().len()), (kind, 5, 1));
            assert_eq!((told["fault"]["from"].number(), told["fault"]["to"].number()), (0, 1));
        }
    }
    seen
}

#[test]
fn one_bit_wrong_in_a_card() {
    for (function, k, schedule, rounds) in
        [("md5", 4, "optimal", 0), ("aes", 3, "speed-1", 9), ("md5", 2, "rushing", 3), ("aes", 0, "speed-2", 0)]
    {
        let folder = Folder::with_card(function, k, schedule);
        if rounds > 0 {
            folder.good(&["round", "card.pm", "--times", &rounds.to_string()]);
        }
        let seen = every_bit(&folder, "card.pm", "card");
        assert_eq!(seen[1], 7, "all but one of the function's bits name no function: {seen:?}");
        assert!(seen[5] >= 16 + 56, "the mark and the zero bytes alone are 72 bits: {seen:?}");
        assert!(seen[0] > 0 && seen[2] > 0 && seen[3] > 0 && seen[4] > 0, "{seen:?}");
    }
}

#[test]
fn one_bit_wrong_in_a_spent_card() {
    let folder = Folder::with_card("md5", 2, "speed-2");
    folder.good(&["round", "card.pm", "--times", "7"]);
    let seen = every_bit(&folder, "card.pm", "card");
    assert!(seen[6] > 0 && seen[5] >= 3 * 128, "a slot is judged before the rounds left: {seen:?}");
}

#[test]
fn one_bit_wrong_in_a_post() {
    let folder = Folder::with_card("aes", 3, "optimal");
    for paid in [0, 1, 8] {
        if paid > 0 {
            folder.good(&["ride", "card.pm", "post.pm", "--ticks", if paid == 1 { "1" } else { "7" }, "--save"]);
        }
        let seen = every_bit(&folder, "post.pm", "post");
        assert_eq!((seen[1], seen[2] > 0, seen[5] >= 16), (7, true, true), "{seen:?}");
        match paid {
            0 => assert!(seen[5] >= 16 + 256, "with 0 paid both values are judged: {seen:?}"),
            8 => assert!(seen[6] >= 256, "paid in full: {seen:?}"),
            _ => assert!(seen[0] >= 256, "values of a post that has taken something are not judged: {seen:?}"),
        }
    }
}

/// Several faults at once, so that the order of refusals shows: bytes of the head and of a slot set at random, and some cut short.
#[test]
fn many_faults_at_once() {
    let mut random = 0x9e37_79b9_7f4a_7c15u64;
    let mut next = move |below: u64| {
        random ^= random << 13;
        random ^= random >> 7;
        random ^= random << 17;
        random % below
    };
    for (schedule, k, kind, spent) in [("optimal", 3, "card", false), ("speed-1", 5, "card", true), ("speed-2", 2, "post", true)] {
        let folder = Folder::with_card("md5", k, schedule);
        if spent {
            folder.good(&["ride", "card.pm", "post.pm", "--save"]);
        }
        let whole = folder.read(if kind == "card" { "card.pm" } else { "post.pm" });
        let mut seen = [0; 10];
        for case in 0..700 {
            let mut record = whole.clone();
            for _ in 0..1 + next(3) {
                // Mostly the bytes that are judged, each with the values beside its edge.
                let at = if kind == "card" {
                    [2, 3, 4, 8, 9, 0, 5, 15, 31, 47, 63][next(11) as usize]
                } else {
                    [2, 3, 4, 5, 0, 1, 20, 39][next(8) as usize]
                };
                record[at] = [0, 1, 2, 3, 4, 8, 16, 20, 21, 32, 33, 255][next(12) as usize];
            }
            if next(4) == 0 {
                record.truncate(next(whole.len() as u64 + 1) as usize);
            }
            let said = both_say(&folder, &record, kind, &format!("{schedule} {kind}, case {case}: {record:02x?}"));
            seen[if let Value::Number(number) = said { number as usize } else { 0 }] += 1;
        }
        let all = [true, true, true, kind == "card", true, true, spent];
        assert!(all.iter().zip(seen).all(|(asked, times)| !asked || times > 0), "{schedule} {kind}: {seen:?}");
    }
}

/// A bit wrong in a held value is no fault of the layout; `show` tells it by the chain.
#[test]
fn strange_values_are_told() {
    let folder = Folder::with_card("md5", 4, "optimal");
    folder.good(&["round", "card.pm", "--times", "17"]);
    assert_eq!(folder.answer(&["show", "card.pm"])["one_chain"], Value::Yes(true));
    let whole = folder.read("card.pm");
    for slot in 0..4 {
        let mut record = whole.clone();
        record[16 + 16 * slot] ^= 1;
        folder.write("bad.pm", record);
        let told = folder.answer(&["show", "bad.pm"]);
        assert_eq!((&told["refusal"], &told["one_chain"]), (&Value::Null, &Value::Yes(false)));
        let words = folder.good(&["show", "bad.pm"]);
        let place = format!("slot {} does not lead to slot {}", slot.max(1), slot.max(1) - 1);
        assert!(words.contains(&place), "{words}");
    }
}

#[test]
fn a_file_without_a_mark_is_read_as_asked() {
    let folder = Folder::with_card("md5", 2, "optimal");
    folder.write("words", "some words that are no record at all, and long enough to be one");
    let told = folder.answer(&["show", "words"]);
    assert_eq!((told["kind"].text(), told["refused_by"].text(), told["refusal"].number()), ("card", "round", 5));
    assert!(folder.good(&["show", "words"]).ends_with("'--as card' or '--as post' does.\n"));
    let told = folder.answer(&["show", "words", "--as", "post"]);
    assert_eq!((told["kind"].text(), told["refused_by"].text(), told["refusal"].number()), ("post", "offer", 5));
    let told = folder.answer(&["show", "card.pm", "--as", "post"]);
    assert_eq!((told["refusal"].number(), told["bytes"].list().len() > 4), (5, true));
    let told = folder.answer(&["show", "seed.hex", "--as", "post"]);
    assert_eq!((told["refusal"].number(), told["function"].clone()), (4, Value::Null));
    assert_eq!(folder.answer(&["show", "post.pm"])["kind"].text(), "post");
}
