//! The demo: a card of 16 ticks pays a post, a line a round.

use crate::args::Args;
use crate::run::{run, Step};
use crate::say::{out, Done};
use perchmellow::{anchor, enrol, offer, settle, Refusal, MD5, OPTIMAL, POST_LEN, VALUE_LEN};
use std::fmt::Write;
use std::io::{stdout, IsTerminal};

const K: u32 = 4;
const TICKS: u32 = 1 << K;
const GAP: u32 = 2;
/// The tick that gets lost between card and post.
const LOST: u32 = 6;

pub fn demo(_: &Args) -> Done {
    let colour = stdout().is_terminal() && std::env::var_os("NO_COLOR").is_none();
    out(&scene(colour).expect("the demo's own numbers are in range"))?;
    Ok(0)
}

/// The whole scene, in colour or without.
fn scene(colour: bool) -> Result<String, Refusal> {
    let seed = *b"a seed for trial";
    let (mut last, mut post) = ([0; VALUE_LEN], [0; POST_LEN]);
    anchor(MD5, K, &seed, &mut last)?;
    enrol(MD5, K, &last, &mut post)?;

    let mut text = format!(
        "A card of {TICKS} ticks (MD5, optimal schedule) pays a post whose gap limit is {GAP}. Before each round\n\
         the card holds the values marked {o} along its chain, 0 being the seed. In the round it hashes on\n\
         to {h}, and from round {TICKS} on it puts out the tick {t}. Tick {LOST} is lost on the way to the post.\n\n\
         round  0       4       8       12    15  held  hashes  put out               the post\n",
        o = Mark::Held.drawn(colour),
        h = Mark::Hashed.drawn(colour),
        t = Mark::PutOut.drawn(colour),
    );
    let (mut paid, mut hashes, mut most) = (0, 0, 0);
    let mut newest = last;
    for step in run(MD5, K, OPTIMAL, &seed)? {
        let said = match step.put_out {
            None => String::from("-"),
            Some(LOST) => format!("{}  sees nothing", tick(LOST, &step.tick)),
            Some(position) => {
                let credit = offer(&mut post, &step.tick, GAP)?;
                (paid, newest) = (paid + credit, step.tick);
                format!("{}  credits {credit}, {paid} paid", tick(position, &step.tick))
            }
        };
        hashes += step.hashes;
        most = most.max(step.hashes);
        let _ = writeln!(text, "{:5}  {}  {:4}  {:6}  {said}", step.round, chain(&step, colour), step.held.len(), step.hashes);
    }
    let answer = if settle(MD5, K, &last, &newest, paid)? { "yes" } else { "no" };
    let _ = write!(text, "\n{hashes} hashes in all, at most {most} in a round. Settle, for {paid} ticks paid: {answer}.\n");
    Ok(text)
}

fn tick(position: u32, value: &[u8]) -> String {
    let front: String = value[..4].iter().map(|byte| format!("{byte:02x}")).collect();
    format!("tick {position:2}  {front}..")
}

fn chain(step: &Step, colour: bool) -> String {
    let mark = |at: u32| {
        if step.put_out == Some(at) {
            Mark::PutOut
        } else if step.held.contains(&at) {
            Mark::Held
        } else if step.arrows.iter().any(|&(from, to)| from < at && at <= to) {
            Mark::Hashed
        } else {
            Mark::Nothing
        }
    };
    (0..TICKS).map(|at| mark(at).drawn(colour)).collect::<Vec<_>>().join(" ")
}

enum Mark {
    Nothing,
    Held,
    Hashed,
    PutOut,
}

impl Mark {
    fn drawn(&self, colour: bool) -> &'static str {
        match (self, colour) {
            (Mark::Nothing, false) => ".",
            (Mark::Held, false) => "o",
            (Mark::Hashed, false) => ">",
            (Mark::PutOut, false) => "@",
            (Mark::Nothing, true) => "\x1b[2m.\x1b[0m",
            (Mark::Held, true) => "\x1b[1mo\x1b[0m",
            (Mark::Hashed, true) => "\x1b[36m>\x1b[0m",
            (Mark::PutOut, true) => "\x1b[1;32m@\x1b[0m",
        }
    }
}
