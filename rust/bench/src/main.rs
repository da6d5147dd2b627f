//! Times the proved code and plain Rust in one run, in turns, and prints tables; with `--markdown`, tables to paste into a document.
//! Both are called through the same table of functions, so that neither is inlined into the loops here.

mod clock;
mod measure;
mod table;

use measure::{chain, hash, offer, paying_rounds, rebuilds, whole_runs, Figures, Paying, Spread, BESIDE, FUNCTIONS};
use table::{table, text};

fn main() {
    let markdown = match std::env::args().nth(1).as_deref() {
        None => false,
        Some("--markdown") => true,
        Some(other) => {
            eprintln!("bench: {other} is not known; the one option is --markdown.");
            std::process::exit(2);
        }
    };
    let say = |words: &str| println!("{}", text(words, markdown));

    say(&format!(
        "{}. {}. The proved code and plain Rust take turns; a figure is the median, with the least and the greatest in brackets. \
         A ratio is proved to plain, pair by pair: below 1 the proved code is faster.",
        clock::machine(),
        clock::WHAT
    ));
    if !markdown {
        println!();
    }

    say("Start and all 131,071 rounds of a card of 2^16 ticks under the optimal schedule: 524,288 hashes. \
         Plain Rust's AES looks up whole columns in tables; the last row has one that keeps to bytes and the S-box, as the proved code \
         has to.");
    let mut rows = vec![];
    for (function, name, plain) in BESIDE {
        let Spread { proved, plain, ratio } = whole_runs(function, plain);
        rows.push(vec![name.into(), proved.shown(1e3, 1), plain.shown(1e3, 1), ratio.shown(1.0, 2)]);
    }
    table(markdown, &["Whole card", "Proved, ms", "Plain, ms", "Ratio"], &rows);

    say("A rebuild of a card of 2^16 ticks before round 98,304, with half of its ticks paid, under the optimal schedule: 32,767 hashes.");
    let mut rows = vec![];
    for (function, name, plain) in BESIDE {
        let Spread { proved, plain, ratio } = rebuilds(function, plain);
        rows.push(vec![name.into(), proved.shown(1e3, 2), plain.shown(1e3, 2), ratio.shown(1.0, 2)]);
    }
    table(markdown, &["One rebuild", "Proved, ms", "Plain, ms", "Ratio"], &rows);

    say("One hash: an anchor at k = 20 less one at k = 0, through 1,048,575.");
    let mut rows = vec![];
    for (function, name, plain) in BESIDE {
        let Spread { proved, plain, ratio } = hash(function, plain);
        rows.push(vec![name.into(), proved.shown(1e9, 1), plain.shown(1e9, 1), ratio.shown(1.0, 2)]);
    }
    table(markdown, &["One hash", "Proved, ns", "Plain, ns", "Ratio"], &rows);

    say("An offer at G = 64, with 64 hashes: a value that does not fit, and one after 63 missed ticks.");
    let mut rows = vec![];
    for (function, name) in FUNCTIONS {
        for (fits, what) in [(false, "refused 9"), (true, "credited 64")] {
            let Spread { proved, plain, ratio } = offer(function, fits);
            rows.push(vec![format!("{name}, {what}"), proved.shown(1e6, 2), plain.shown(1e6, 2), ratio.shown(1.0, 2)]);
        }
    }
    table(markdown, &["One offer", "Proved, µs", "Plain, µs", "Ratio"], &rows);

    for (function, name) in FUNCTIONS {
        say(&format!(
            "One paying round under the optimal schedule, {name}: the mean over all of them up to k = 16, and from there on over 100,000 in \
             16 stretches of the card. \"Beside\" is the round less its hashes, at the time of one hash in the same turn."
        ));
        let chain = chain(function);
        let mut rows = vec![];
        for k in 4..=20 {
            let Paying { hashes, each, beside } = paying_rounds(function, k, &chain);
            let ns = |figures: &Figures| format!("{:.0}", figures.median * 1e9);
            rows.push(vec![
                k.to_string(),
                format!("{hashes:.2}"),
                ns(&each.proved),
                ns(&beside.proved),
                ns(&each.plain),
                ns(&beside.plain),
                each.ratio.shown(1.0, 2),
            ]);
        }
        let heads = ["k", "Hashes a round", "Proved, ns", "beside", "Plain, ns", "beside", "Ratio"];
        table(markdown, &heads, &rows);
    }
    say(&clock::load());
}
