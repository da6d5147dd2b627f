//! Seeds, and values that were not put out yet, are never printed.

use crate::common::{Folder, SEED};

/// Hex digits of bytes, as they would be printed.
fn hex(bytes: &[u8]) -> String {
    bytes.iter().map(|b| format!("{b:02x}")).collect()
}

#[test]
fn no_output_has_the_seed_or_a_slot_in_it() {
    let folder = Folder::with_card("md5", 4, "optimal");
    let common = ["--function", "md5", "--k", "4", "--seed-file", "seed.hex"];
    let with = |front: &[&'static str]| [front, &common[..]].concat();
    let upper = SEED.to_uppercase();
    for round in 1..31 {
        // Values held before the round, but for the one that it puts out: slot 0 in a paying round.
        let record = folder.read("card.pm");
        // Slots without a head, and a card under a mark that names nothing.
        folder.write("raw.pm", &record[16..]);
        folder.write("marked.pm", [&[0xb7, 0][..], &record[2..]].concat());
        let put_out = usize::from(round >= 16);
        let slots: Vec<String> = record[16..].chunks(16).skip(put_out).filter(|v| v.iter().any(|b| *b != 0)).map(hex).collect();
        assert!(slots.contains(&SEED.into()), "the seed is the last that a card holds");
        let (glued, dashed, path) = (format!("--seed={SEED}"), format!("-{SEED}"), format!("./{SEED}"));
        let calls: Vec<Vec<&str>> = vec![
            vec!["show", "card.pm"],
            vec!["show", "card.pm", "--as", "post"],
            vec!["show", "seed.hex"],
            vec!["show", "seed.hex", "--as", "card"],
            vec!["show", "seed.hex", "--as", "post"],
            vec!["show", "raw.pm"],
            vec!["show", "marked.pm"],
            with(&["anchor"]),
            with(&["start", "card.pm"]),
            with(&["ride", "--ticks", "3"]),
            with(&["rebuild", "card.pm", "--round", "20"]),
            with(&["rebuild", "new.pm", "--round", "0"]),
            vec!["rebuild", "new.pm", "--function", "md5", "--k", "4", "--round", SEED, "--seed-file", "seed.hex"],
            vec!["start", "new.pm", "--function", "md5", "--ticks", SEED, "--seed-file", "seed.hex"],
            vec!["ride", "card.pm", "post.pm"],
            vec!["offer", "post.pm", "--value-file", "seed.hex"],
            vec!["offer", "post.pm", "--value-file", SEED],
            vec!["round", SEED],
            vec!["show", &path],
            vec![SEED],
            vec!["start", "new.pm", SEED],
            vec!["start", "new.pm", &glued],
            vec!["start", "new.pm", &dashed],
            vec!["start", "new.pm", "--seed", SEED],
            vec!["start", "new.pm", "--function", SEED, "--k", "2", "--seed-file", "seed.hex"],
            vec!["start", "new.pm", "--function", "md5", "--k", SEED, "--seed-file", "seed.hex"],
            vec!["start", "new.pm", "--function", "md5", "--k", "2", "--seed-file", SEED],
            vec!["start", SEED, "--function", "md5", "--k", "21", "--seed-file", "seed.hex"],
            vec!["round", "card.pm"],
        ];
        for call in calls {
            for json in [false, true] {
                if call[0] == "round" && call[1] == "card.pm" && json {
                    continue;
                }
                let ran = folder.run(&[&call[..], if json { &["--json"] } else { &[] }].concat());
                let said = format!("{}{}", ran.out, ran.err);
                for secret in slots.iter().chain([&upper]) {
                    // Not even four bytes of it in a row.
                    let part = secret
                        .as_bytes()
                        .windows(8)
                        .step_by(2)
                        .map(|part| std::str::from_utf8(part).unwrap())
                        .find(|part| said.contains(part));
                    assert_eq!(part, None, "round {round}, {call:?}: {said}");
                }
            }
        }
    }
}

#[test]
fn no_file_but_the_card_has_the_seed_in_it() {
    let folder = Folder::with_card("aes", 4, "speed-1");
    folder.good(&["ride", "card.pm", "post.pm", "--ticks", "5", "--save"]);
    folder.good(&["round", "card.pm", "--out", "tick.hex"]);
    let seed: Vec<u8> = SEED.as_bytes().chunks(2).map(|pair| u8::from_str_radix(std::str::from_utf8(pair).unwrap(), 16).unwrap()).collect();
    for name in folder.names() {
        let bytes = folder.read(&name);
        let has = bytes.windows(16).any(|w| w == seed) || bytes.windows(32).any(|w| w == SEED.as_bytes());
        assert_eq!(has, name == "card.pm" || name == "seed.hex", "{name}");
    }
}
