//! Records read field by field, as docs/RULES.md lays them out: for `show`, and for the sentence of a refusal.
//!
//! The library alone decides what is refused. What is read here says where the reason stands.

use crate::args::{FUNCTIONS, SCHEDULES};
use crate::run::held;
use crate::say::{count, hex};
use perchmellow::{card_len, offer, round, Refusal, CARD_HEAD_LEN, K_MOST, POST_LEN, VALUE_LEN};

#[derive(Clone, Copy, PartialEq, Eq)]
pub enum Kind {
    Card,
    Post,
}

/// A record's marks.
const MARKS: [(Kind, [u8; 2]); 2] = [(Kind::Card, [0xb7, 1]), (Kind::Post, [0xb7, 2])];

impl Kind {
    /// The kind that the mark names, if it names one.
    pub fn of(record: &[u8]) -> Option<Kind> {
        MARKS.iter().find(|(_, mark)| record.starts_with(mark)).map(|(kind, _)| *kind)
    }

    pub fn name(self) -> &'static str {
        match self {
            Kind::Card => "card",
            Kind::Post => "post",
        }
    }

    /// The call that runs on such a record.
    pub fn call(self) -> &'static str {
        match self {
            Kind::Card => "round",
            Kind::Post => "offer",
        }
    }

    fn mark(self) -> [u8; 2] {
        MARKS[self as usize].1
    }

    /// What the library says to the next call on a copy of the record: a refusal, or nothing against it.
    pub fn judged(self, record: &[u8]) -> Option<Refusal> {
        let mut copy = record.to_vec();
        match self {
            Kind::Card => round(&mut copy, &mut [0; VALUE_LEN]).err(),
            // The value's length is the last that is judged before the value itself, so a record of full length that gets there is good.
            Kind::Post => offer(&mut copy, &[], 1).err().filter(|refusal| *refusal != Refusal::WrongLength || record.len() < POST_LEN),
        }
    }
}

/// What some of a record's bytes mean.
pub struct Line {
    pub from: usize,
    pub to: usize,
    pub words: String,
    /// Why the record is refused, if these bytes are the reason.
    pub fault: Option<Refusal>,
    /// When it is judged; the reason judged first is the one that is said.
    turn: u8,
}

/// A record as far as it can be read.
#[derive(Default)]
pub struct Read {
    pub lines: Vec<Line>,
    pub function: Option<u32>,
    pub schedule: Option<u32>,
    pub k: Option<u32>,
    pub round: Option<u32>,
    pub paid: Option<u32>,
    /// The position of each slot of a card, none for a free one.
    pub slots: Vec<Option<u32>>,
}

impl Read {
    pub fn of(kind: Kind, record: &[u8]) -> Read {
        let mut read = Read::default();
        match kind {
            Kind::Card => read.card(record),
            Kind::Post => read.post(record),
        }
        read.lines.retain(|line| line.from < record.len() || line.fault.is_some());
        read
    }

    /// Only whether mark and length are right: all that is said of a file that may be no record.
    pub fn outside(mut self) -> Read {
        self.lines.retain(|line| line.to == 2 || line.fault == Some(Refusal::WrongLength));
        Read { lines: self.lines, ..Read::default() }
    }

    /// The bytes that a refusal is about.
    pub fn fault(&self) -> Option<&Line> {
        self.lines.iter().filter(|line| line.fault.is_some()).min_by_key(|line| line.turn)
    }

    /// The rounds that a card has left, if its round is one of its rounds or their end.
    pub fn rounds_left(&self) -> Option<u32> {
        let end = 2 << self.k.filter(|k| *k <= K_MOST)?;
        self.round.filter(|round| (1..=end).contains(round)).map(|round| end - round)
    }

    /// The ticks that a card has left to pay: a round each, once the preparing rounds are run.
    pub fn ticks_left(&self) -> Option<u32> {
        Some(self.rounds_left()?.min(1 << self.k?))
    }

    fn line(&mut self, from: usize, to: usize, words: String) {
        self.lines.push(Line { from, to, words, fault: None, turn: 0 });
    }

    fn fault_line(&mut self, turn: u8, refusal: Refusal, from: usize, to: usize, words: String) {
        self.lines.push(Line { from, to, words, fault: Some(refusal), turn });
    }

    fn judge(&mut self, good: bool, turn: u8, refusal: Refusal, from: usize, to: usize, words: String) {
        self.lines.push(Line { from, to, words, fault: (!good).then_some(refusal), turn });
    }

    /// A record cut short of `full` bytes: the reason stands where the bytes end.
    fn short(&mut self, record: &[u8], full: usize, turn: u8, what: &str) {
        let has = count(record.len() as u32, "byte", "bytes");
        self.fault_line(turn, Refusal::WrongLength, record.len(), full, format!("missing: the file has {has}, and {what} takes {full}"));
    }

    /// What stands in the mark's place is not repeated: a file without a mark may be no record at all, but a seed.
    fn mark(&mut self, kind: Kind, record: &[u8]) {
        if record.len() < 2 {
            return;
        }
        let good = Kind::of(record) == Some(kind);
        let (mark, name) = (spaced(&kind.mark()), kind.name());
        let words = if good { format!("{mark}, the mark of a {name} record") } else { format!("not {mark}, the mark of a {name} record") };
        self.judge(good, 1, Refusal::BadRecord, 0, 2, words);
    }

    /// A byte that is a number with a name.
    fn named(&mut self, record: &[u8], at: usize, what: &str, table: &[(&str, u32)], turn: u8, refusal: Refusal) -> Option<u32> {
        let number = u32::from(*record.get(at)?);
        let known = table.iter().find(|(_, known)| *known == number);
        let words = match known {
            Some((name, _)) => format!("{what} {number}, {name}"),
            None => format!("{what} {number}, where {} is the greatest", table.len() - 1),
        };
        self.judge(known.is_some(), turn, refusal, at, at + 1, words);
        Some(number)
    }

    fn function(&mut self, record: &[u8]) {
        self.function = self.named(record, 2, "function", &FUNCTIONS, 2, Refusal::UnknownFunction);
    }

    fn k(&mut self, record: &[u8], at: usize) {
        let Some(&number) = record.get(at) else { return };
        self.k = Some(number.into());
        let words = if u32::from(number) <= K_MOST {
            format!("k = {number}: a card of up to {}", count(1 << number, "tick", "ticks"))
        } else {
            format!("k = {number}, where {K_MOST} is the most")
        };
        self.judge(u32::from(number) <= K_MOST, 3, Refusal::TooManyTicks, at, at + 1, words);
    }

    fn zeros(&mut self, record: &[u8], from: usize, to: usize) {
        let Some(bytes) = record.get(from..to) else { return };
        let good = bytes.iter().all(|b| *b == 0);
        let words = if good { "zero, as they should be".into() } else { format!("{}, where all are zero", spaced(bytes)) };
        self.judge(good, 1, Refusal::BadRecord, from, to, words);
    }

    fn card(&mut self, record: &[u8]) {
        self.mark(Kind::Card, record);
        self.function(record);
        self.schedule = self.named(record, 3, "schedule", &SCHEDULES, 4, Refusal::UnknownSchedule);
        self.k(record, 4);
        self.zeros(record, 5, 8);
        let Some(head) = record.get(..CARD_HEAD_LEN) else {
            return self.short(record, CARD_HEAD_LEN, 0, "the head of a card record");
        };
        let number = u32::from_le_bytes([head[8], head[9], head[10], head[11]]);
        self.round = Some(number);
        let (k, schedule) = (u32::from(head[4]), u32::from(head[3]));
        if k > K_MOST {
            self.line(8, 12, format!("next round {number}; with such a k it cannot be told whether there is one"));
            return self.zeros(record, 12, 16);
        }
        let (pays, end) = (1 << k, 2 << k);
        let left = end - number.min(end);
        let words = match number {
            n if n == 0 || n > end => format!("round {n}, where it is from 1 to {end}"),
            n if n == end => format!("round {n}: all rounds are run, 0 are left"),
            n if n < pays => format!("next round {n}, which prepares; {} left", count(left, "round is", "rounds are")),
            n => format!("next round {n}, which pays tick {}; {} left", left - 1, count(left, "round is", "rounds are")),
        };
        if number == end {
            self.fault_line(7, Refusal::Spent, 8, 12, words);
        } else {
            self.judge((1..end).contains(&number), 6, Refusal::BadRecord, 8, 12, words);
        }
        self.zeros(record, 12, 16);
        if let Ok(held) = held(k, schedule, number) {
            self.slots(record, card_len(k, schedule), &held);
        } else if schedule < SCHEDULES.len() as u32 && record.len() < card_len(k, schedule) {
            self.short(record, card_len(k, schedule), 5, "the record of such a card");
        }
    }

    /// Values stand from slot 0 in falling position; a slot is never said by its content, which is worth every tick from its position up.
    fn slots(&mut self, record: &[u8], end: usize, held: &[u32]) {
        for (slot, from) in (CARD_HEAD_LEN..end).step_by(VALUE_LEN).enumerate() {
            let position = held.get(slot).copied();
            self.slots.push(position);
            let Some(bytes) = record.get(from..from + VALUE_LEN) else { break };
            let (good, words) = match position {
                Some(0) => (true, format!("slot {slot}: position 0, the seed (not shown)")),
                Some(position) => (true, format!("slot {slot}: position {position} (not shown)")),
                None if bytes.iter().all(|b| *b == 0) => (true, format!("slot {slot}: free, all zero")),
                None => (false, format!("slot {slot}: free in this round, and yet not all zero")),
            };
            self.judge(good, 6, Refusal::BadRecord, from, from + VALUE_LEN, words);
        }
        match record.len() {
            len if len < end => self.short(record, end, 5, "the record of such a card"),
            len if len > end => self.behind(end, len),
            _ => {}
        }
    }

    fn behind(&mut self, from: usize, to: usize) {
        self.line(from, to, "behind the record's end: neither read nor written".into());
    }

    fn post(&mut self, record: &[u8]) {
        self.mark(Kind::Post, record);
        self.function(record);
        self.k(record, 3);
        if let Some(bytes) = record.get(4..8) {
            let paid = u32::from_le_bytes([bytes[0], bytes[1], bytes[2], bytes[3]]);
            self.paid = Some(paid);
            let most = self.k.filter(|k| *k <= K_MOST).map(|k| 1 << k);
            match most {
                Some(most) if paid == most => self.fault_line(7, Refusal::Spent, 4, 8, format!("{paid} paid, 0 unpaid: paid in full")),
                Some(most) if paid < most => self.line(4, 8, format!("{paid} paid, {} unpaid", most - paid)),
                Some(most) => self.fault_line(6, Refusal::BadRecord, 4, 8, format!("{paid} paid, where {most} is the most")),
                None => self.line(4, 8, format!("{paid} paid; with such a k the unpaid ones cannot be told")),
            }
        }
        if let Some(anchor) = record.get(8..24) {
            self.line(8, 24, format!("the anchor, {}", public(record, anchor)));
        }
        let Some(held) = record.get(24..POST_LEN) else {
            return self.short(record, POST_LEN, 0, "a post record");
        };
        let words = format!("the value held, {}", public(record, held));
        match self.paid {
            Some(0) if held == &record[8..24] => self.line(24, 40, format!("{words}: the anchor, as it is with 0 paid")),
            Some(0) => self.fault_line(6, Refusal::BadRecord, 24, 40, format!("{words}, where with 0 paid it is the anchor")),
            _ => self.line(24, 40, words),
        }
        if record.len() > POST_LEN {
            self.behind(POST_LEN, record.len());
        }
    }
}

/// What was found in a record that earned this refusal.
pub fn found(kind: Kind, record: &[u8], refusal: Refusal) -> Option<String> {
    let read = Read::of(kind, record);
    let line = read.fault().filter(|line| line.fault == Some(refusal))?;
    Some(format!("{}: {}", bytes_named(line.from, line.to), line.words))
}

/// `byte 2`, `bytes 8 to 11`.
pub fn bytes_named(from: usize, to: usize) -> String {
    match to - from {
        0 | 1 => format!("byte {from}"),
        _ => format!("bytes {from} to {}", to - 1),
    }
}

/// A value of a post record, which has been put out. Under another mark the same bytes may be a card's slots.
fn public(record: &[u8], value: &[u8]) -> String {
    match Kind::of(record) {
        Some(Kind::Post) => hex(value),
        _ => "not shown as the mark is not a post's".into(),
    }
}

fn spaced(bytes: &[u8]) -> String {
    bytes.iter().map(|byte| format!("{byte:02x}")).collect::<Vec<_>>().join(" ")
}
