//! The commands: what each is called, takes and does. The command line is read, and the help printed, from this table.

use crate::args::Args;
use crate::say::{Done, STATUSES};
use crate::{cards, demo, picture, posts, ride, show};

pub struct Command {
    pub name: &'static str,
    /// The operands' names; one in brackets may be left out.
    pub operands: &'static str,
    pub what: &'static str,
    pub options: &'static [Choice],
    pub more: &'static str,
    /// Lines that work as typed, in an empty folder and in this order.
    pub example: &'static [&'static str],
    pub run: fn(&Args) -> Done,
}

pub struct Choice {
    /// Its name, and a word for its value if it takes one.
    pub form: &'static str,
    pub words: &'static str,
    pub needed: bool,
    /// It or the next one is needed, and not both.
    either: bool,
}

const fn needed(form: &'static str, words: &'static str) -> Choice {
    Choice { form, words, needed: true, either: false }
}

const fn may(form: &'static str, words: &'static str) -> Choice {
    Choice { form, words, needed: false, either: false }
}

const fn either(form: &'static str, words: &'static str) -> Choice {
    Choice { form, words, needed: false, either: true }
}

const FUNCTION: Choice = needed("--function F", "md5 or aes, or the number 0 or 1");
const K: Choice = needed("--k K", "the card has 2^K ticks; K from 0 to 20");
const EITHER_K: Choice = either("--k K", "the card has 2^K ticks; K from 0 to 20. This or --ticks");
const OR_TICKS: Choice = may("--ticks N", "the card has N ticks; N from 1 to 1048576. This or --k");
const SCHEDULE: Choice = may("--schedule S", "rushing, speed-1, speed-2 or optimal, or 0 to 3; optimal if not given");
const SEED: Choice = needed("--seed-file FILE", "the seed in 32 hex digits; - reads standard input");
const GAP: Choice = may("--gap G", "the gap limit, from 1 to 64; 1 if not given");
const JSON: Choice = may("--json", "answer as one JSON object on one line; troubles too, on standard error");

const SEED_LINE: &str = "printf '%032x\\n' 1 > seed.hex";
const START_LINE: &str = "perchmellow start card.pm --function md5 --k 4 --seed-file seed.hex";
const ANCHOR_LINE: &str = "perchmellow anchor --function md5 --k 4 --seed-file seed.hex --out anchor.hex";
const ENROL_LINE: &str = "perchmellow enrol post.pm --function md5 --k 4 --anchor-file anchor.hex";
const TICK_LINE: &str = "perchmellow round card.pm --to-tick --out tick.hex";
const OFFER_LINE: &str = "perchmellow offer post.pm --value-file tick.hex";

pub const COMMANDS: &[Command] = &[
    Command {
        name: "start",
        operands: "CARD",
        what: "Writes the record of a new card to the file CARD: by --k before its round 1, by --ticks before its first tick.",
        options: &[FUNCTION, EITHER_K, OR_TICKS, SEED, SCHEDULE, JSON],
        more: "CARD must not be there yet; it is made for this user alone to read. The seed is never printed.",
        example: &[SEED_LINE, START_LINE, "perchmellow start sold.pm --function md5 --ticks 300 --seed-file seed.hex"],
        run: cards::start,
    },
    Command {
        name: "rebuild",
        operands: "CARD",
        what: "Writes a card's record anew from its seed, as it stands before a round: for one that is lost or damaged.",
        options: &[
            FUNCTION,
            EITHER_K,
            OR_TICKS,
            SEED,
            either("--round R", "the next round: from 1 to 2^(K+1), with N ticks one of the last N + 1. This or --paid"),
            may("--paid P", "the ticks that the post has paid; the card goes on with the next one. This or --round"),
            SCHEDULE,
            JSON,
        ],
        more: "CARD must not be there yet. Function, ticks and schedule have to be those that the card was started with. A card put\n\
               back to an earlier round pays the same ticks again, and the post refuses them with 9.",
        example: &[SEED_LINE, "perchmellow rebuild again.pm --function md5 --ticks 300 --paid 20 --seed-file seed.hex"],
        run: cards::rebuild,
    },
    Command {
        name: "round",
        operands: "CARD",
        what: "Runs one round of a card, or more. A tick is printed in 32 hex digits.",
        options: &[
            may("--times N", "run N rounds, or none where fewer are left"),
            may("--to-tick", "run rounds up to and with the next that puts out a tick"),
            may("--out FILE", "write the ticks to FILE, a line each; - prints the ticks and nothing else"),
            JSON,
        ],
        more: "The tick goes out first and the card is saved after it, so that no tick is ever lost; a run cut off in between\n\
               puts out the same tick again. A run without a tick leaves FILE alone.",
        example: &[SEED_LINE, START_LINE, "perchmellow round card.pm", "perchmellow round card.pm --to-tick"],
        run: cards::round,
    },
    Command {
        name: "positions",
        operands: "",
        what: "Lists the chain positions that a card holds before a round, and the hashes of that round.",
        options: &[K, needed("--round R", "the round, from 1 to 2^(K+1)"), SCHEDULE, JSON],
        more: "",
        example: &["perchmellow positions --k 3 --round 11"],
        run: cards::positions,
    },
    Command {
        name: "anchor",
        operands: "",
        what: "Works out a card's anchor, which a post is enrolled with, and prints it.",
        options: &[FUNCTION, EITHER_K, OR_TICKS, SEED, may("--out FILE", "write the anchor to FILE as well"), JSON],
        more: "",
        example: &[SEED_LINE, ANCHOR_LINE],
        run: cards::anchor,
    },
    Command {
        name: "enrol",
        operands: "POST",
        what: "Writes the record of a post that has taken nothing yet to the file POST.",
        options: &[FUNCTION, EITHER_K, OR_TICKS, needed("--anchor-file FILE", "the anchor in 32 hex digits; - reads standard input"), JSON],
        more: "POST must not be there yet. It counts to a power of two: for a card of 300 ticks to 512.",
        example: &[SEED_LINE, ANCHOR_LINE, ENROL_LINE],
        run: posts::enrol,
    },
    Command {
        name: "offer",
        operands: "POST",
        what: "Offers a value to a post, and says how many ticks are credited.",
        options: &[needed("--value-file FILE", "the value in 32 hex digits; - reads standard input"), GAP, JSON],
        more: "",
        example: &[SEED_LINE, START_LINE, ANCHOR_LINE, ENROL_LINE, TICK_LINE, OFFER_LINE],
        run: posts::offer,
    },
    Command {
        name: "settle",
        operands: "[POST]",
        what: "Says whether as many steps as are paid lead from the last value to the anchor: yes, or no with status 1.",
        options: &[
            may("--function F", "md5 or aes, or the number 0 or 1"),
            may("--k K", "the card has 2^K ticks; K from 0 to 20"),
            may("--anchor-file FILE", "the anchor in 32 hex digits; - reads standard input"),
            may("--last-file FILE", "the last value in 32 hex digits; - reads standard input"),
            may("--paid N", "the ticks paid"),
            JSON,
        ],
        more: "Give POST, whose record has the five of them, or give all five.",
        example: &[
            SEED_LINE,
            START_LINE,
            ANCHOR_LINE,
            ENROL_LINE,
            TICK_LINE,
            OFFER_LINE,
            "perchmellow settle post.pm",
            "perchmellow settle --function md5 --k 4 --anchor-file anchor.hex --last-file tick.hex --paid 1",
        ],
        run: posts::settle,
    },
    Command {
        name: "list",
        operands: "SCHEDULE K",
        what: "Lists a whole run: round, hashes, values held before it, their positions, position put out.",
        options: &[JSON],
        more: "SCHEDULE is rushing, speed-1, speed-2 or optimal; K is from 0 to 10.",
        example: &["perchmellow list optimal 2"],
        run: cards::list,
    },
    Command {
        name: "show",
        operands: "FILE",
        what: "Explains a card or post record byte by byte, a damaged one as far as it can be read.",
        options: &[may("--as KIND", "read it as a card or as a post, whatever its mark says"), JSON],
        more: "It says which refusal the record earns, if any, and whether its values are of one chain. What a card's slots\n\
               hold is never printed: with a slot one could pay every tick from its position up.",
        example: &[SEED_LINE, START_LINE, "perchmellow show card.pm"],
        run: show::show,
    },
    Command {
        name: "ride",
        operands: "[CARD] [POST]",
        what: "Lets a card pay a post with all its ticks, and sums it up. From two files, or without them from a seed.",
        options: &[
            may("--seed-file FILE", "without files: the seed in 32 hex digits; - reads standard input"),
            may("--function F", "without files: md5 or aes, or the number 0 or 1"),
            may("--k K", "without files: the card has 2^K ticks; K from 0 to 20"),
            may("--schedule S", "without files: rushing, speed-1, speed-2 or optimal, or 0 to 3; optimal if not given"),
            GAP,
            may("--miss LIST", "ticks that get lost on the way, counted from 1 as they are put out: 3,7-9"),
            may("--ticks N", "stop after N ticks; without files and without --k: the card has N ticks"),
            may("--save", "with files: save both records; else they stay as they are"),
            JSON,
        ],
        more: "",
        example: &[
            SEED_LINE,
            "perchmellow ride --function aes --k 10 --seed-file seed.hex --gap 4 --miss 3,7-9",
            "perchmellow ride --function aes --ticks 300 --seed-file seed.hex",
            START_LINE,
            ANCHOR_LINE,
            ENROL_LINE,
            "perchmellow ride card.pm post.pm --ticks 5 --save",
        ],
        run: ride::ride,
    },
    Command {
        name: "picture",
        operands: "KIND SCHEDULE K",
        what: "Draws a run as SVG: KIND run for the pebbles on the chain, slots for what each slot holds.",
        options: &[may("--out FILE", "write the picture to FILE and not to standard output"), JSON],
        more: "SCHEDULE is rushing, speed-1, speed-2 or optimal; K is from 0 to 6.",
        example: &["perchmellow picture run optimal 4 --out run.svg", "perchmellow picture slots speed-1 5 --out slots.svg"],
        run: picture::picture,
    },
    Command {
        name: "demo",
        operands: "",
        what: "Plays a card of 16 ticks against a post, a line a round.",
        options: &[],
        more: "",
        example: &["perchmellow demo"],
        run: demo::demo,
    },
];

/// Columns of a usage line, before it is continued on the next.
const WIDTH: usize = 100;

impl Choice {
    pub fn name(&self) -> &'static str {
        self.form.split(' ').next().unwrap_or(self.form)
    }

    pub fn line(&self) -> String {
        format!("  {:18}  {}\n", self.form, self.words)
    }
}

impl Command {
    pub fn usage(&self) -> String {
        let operands = if self.operands.is_empty() { String::new() } else { format!(" {}", self.operands) };
        let mut lines = vec![format!("usage: perchmellow {}{operands}", self.name)];
        let mut options = self.options.iter();
        while let Some(option) = options.next() {
            let option = match (option.needed, options.as_slice().first().filter(|_| option.either)) {
                (true, _) => format!(" {}", option.form),
                (false, None) => format!(" [{}]", option.form),
                (false, Some(other)) => {
                    options.next();
                    format!(" ({} | {})", option.form, other.form)
                }
            };
            match lines.last_mut() {
                Some(line) if line.len() + option.len() <= WIDTH => line.push_str(&option),
                _ => lines.push(format!("      {option}")),
            }
        }
        lines.join("\n")
    }

    pub fn help(&self) -> String {
        let options: String = self.options.iter().map(Choice::line).collect();
        let gap = |text: &str| if text.is_empty() { String::new() } else { format!("\n{}\n", text.trim_end()) };
        let example: String = self.example.iter().map(|line| format!("  $ {line}\n")).collect();
        format!("{}\n\n{}\n{}{}\nExample:\n{example}", self.usage(), self.what, gap(&options), gap(self.more))
    }
}

/// What `perchmellow --help` prints.
pub fn overview() -> String {
    let commands: String = COMMANDS.iter().map(|c| format!("  {:10} {}\n", c.name, c.what)).collect();
    format!(
        "perchmellow COMMAND ...: cards and posts in files, by the proved calls\n\n{commands}\n\
         'perchmellow COMMAND --help' says what a command takes, with an example. Exit statuses:\n{STATUSES}"
    )
}
