//! The card's side: start, rebuild, round, positions, anchor and list.

use crate::args::{name_of, Args, Size, FUNCTIONS, SCHEDULES};
use crate::files::{shown, value, Locked};
use crate::record::{Kind, Read};
use crate::refused::Asked;
use crate::run;
use crate::say::{count, hex, out, Answer, Done, Json, Trouble};
use perchmellow::{card_len, level, Refusal, Round, CARD_LEN_MOST, K_MOST, POSITIONS_MOST, VALUE_LEN};
use std::fmt::Write;
use std::path::Path;

pub fn start(args: &Args) -> Done {
    let path = Path::new(args.operand(0)?);
    let (function, size, schedule) = (args.function()?, args.size()?, args.schedule()?);
    let seed = value(Path::new(args.needed("--seed-file")?))?;
    let record = started(function, size, schedule, &seed)?;
    Locked::place(path)?.write_first(&record)?;
    args.answer(written(path, size, &record))?;
    Ok(0)
}

/// The record of a new card.
pub fn started(function: u32, size: Size, schedule: u32, seed: &[u8]) -> Result<Vec<u8>, Trouble> {
    let mut record = vec![0; CARD_LEN_MOST];
    let answer = match size {
        Size::K(k) => perchmellow::start(function, k, schedule, seed, &mut record).map(|()| k),
        Size::Ticks(ticks) => perchmellow::start_ticks(function, ticks, schedule, seed, &mut record).and_then(|()| level(ticks)),
    };
    let refused = |refusal| Asked::new(function, size).schedule(schedule).value("seed", seed).refused("start", refusal);
    record.truncate(card_len(answer.map_err(refused)?, schedule));
    Ok(record)
}

/// A card's anchor.
pub fn anchored(function: u32, size: Size, seed: &[u8]) -> Result<[u8; VALUE_LEN], Trouble> {
    let mut anchor = [0; VALUE_LEN];
    match size {
        Size::K(k) => perchmellow::anchor(function, k, seed, &mut anchor),
        Size::Ticks(ticks) => perchmellow::anchor_ticks(function, ticks, seed, &mut anchor),
    }
    .map_err(|refusal| Asked::new(function, size).value("seed", seed).refused("anchor", refusal))?;
    Ok(anchor)
}

/// Writes a card's record anew, at a round that is given, or at the one that follows from the ticks paid.
pub fn rebuild(args: &Args) -> Done {
    let path = Path::new(args.operand(0)?);
    let (function, size, schedule) = (args.function()?, args.size()?, args.schedule()?);
    let (round, paid) = match (args.number("--round")?, args.number("--paid")?) {
        (None, None) => return Err(args.wrong("--round", "or --paid is wanted")),
        (Some(_), Some(_)) => return Err(args.wrong("--paid", "cannot stand beside --round; give one of the two")),
        asked => asked,
    };
    let seed = value(Path::new(args.needed("--seed-file")?))?;
    let asked = || Asked::new(function, size).schedule(schedule).value("seed", &seed);
    let k = size.k(function, schedule).map_err(|refusal| asked().refused("rebuild", refusal))?;
    let paying = (2 << k.min(K_MOST)) - size.ticks();
    let round = round.or(paid.map(|paid| paying.saturating_add(paid))).unwrap_or(0);
    let first = if let Size::Ticks(_) = size { paying } else { 1 };
    let mut record = vec![0; CARD_LEN_MOST];
    // A round before the card's first is one that the card does not have, and the call refuses round 0 when it comes to it.
    let asked_for = if round < first { 0 } else { round };
    perchmellow::rebuild(function, k, schedule, asked_for, &seed, &mut record).map_err(|refusal| {
        let range = match paid {
            Some(paid) => format!("{paid} are said to be paid of {}", count(size.ticks(), "tick", "ticks")),
            None => round_range(size, first, k, round),
        };
        asked().and(Refusal::BadRecord, range).refused("rebuild", refusal)
    })?;
    record.truncate(card_len(k, schedule));
    Locked::place(path)?.write_first(&record)?;
    args.answer(written(path, size, &record))?;
    Ok(0)
}

fn round_range(size: Size, first: u32, k: u32, round: u32) -> String {
    let card = match size {
        Size::K(k) => format!("k = {k}"),
        Size::Ticks(ticks) => count(ticks, "tick", "ticks"),
    };
    format!("the round is {round}, and for {card} it is from {first} to {}", 2u64 << k.min(40))
}

/// What is said of a card's record that has just been written.
fn written(path: &Path, size: Size, record: &[u8]) -> Answer {
    let read = Read::of(Kind::Card, record);
    let (function, schedule) = (read.function.unwrap_or(0), read.schedule.unwrap_or(0));
    let (round, left) = (read.round.unwrap_or(0), read.ticks_left().unwrap_or(0));
    let next = match left {
        0 => "all its rounds are run".into(),
        left if left != size.ticks() => format!("its next round is {round}, and {} left to pay", count(left, "tick is", "ticks are")),
        _ => format!("its next round is {round}"),
    };
    Answer {
        words: format!(
            "{}: a card of {}, {}, {}, in {}; {next}\n",
            shown(path),
            count(size.ticks(), "tick", "ticks"),
            name_of(function, &FUNCTIONS),
            name_of(schedule, &SCHEDULES),
            count(record.len() as u32, "byte", "bytes"),
        ),
        fields: vec![
            ("file", Json::text(shown(path))),
            ("function", Json::number(function)),
            ("schedule", Json::number(schedule)),
            ("k", Json::or_null(read.k)),
            ("ticks", Json::number(size.ticks())),
            ("round", Json::number(round)),
            ("ticks_left", Json::number(left)),
            ("length", Json::number(record.len() as u64)),
        ],
    }
}

/// Rounds that followed each other, quiet ones together and a tick by itself.
struct Told {
    from: u32,
    to: u32,
    hashes: u32,
    tick: Option<(u32, [u8; VALUE_LEN])>,
}

/// What a run of rounds did.
#[derive(Default)]
struct Rounds(Vec<Told>);

impl Rounds {
    fn add(&mut self, number: u32, did: Round, value: [u8; VALUE_LEN]) {
        match (did, self.0.last_mut()) {
            (Round::Quiet { hashes }, Some(last)) if last.tick.is_none() => (last.to, last.hashes) = (number, last.hashes + hashes),
            (Round::Quiet { hashes }, _) => self.0.push(Told { from: number, to: number, hashes, tick: None }),
            (Round::Tick { position, hashes }, _) => self.0.push(Told { from: number, to: number, hashes, tick: Some((position, value)) }),
        }
    }

    fn ticks(&self) -> String {
        self.0.iter().filter_map(|told| told.tick).map(|(_, value)| hex(&value) + "\n").collect()
    }

    fn answer(&self, file: String) -> Answer {
        let mut words = String::new();
        for told in &self.0 {
            let hashes = count(told.hashes, "hash", "hashes");
            let _ = match told.tick {
                Some((position, value)) => writeln!(words, "round {}: tick {position}, {hashes}, {}", told.to, hex(&value)),
                None if told.from == told.to => writeln!(words, "round {}: quiet, {hashes}", told.to),
                None => writeln!(words, "rounds {} to {}: quiet, {hashes}", told.from, told.to),
            };
        }
        let entry = |told: &Told| {
            Json::Object(vec![
                ("from", Json::number(told.from)),
                ("to", Json::number(told.to)),
                ("hashes", Json::number(told.hashes)),
                ("tick", Json::or_null(told.tick.map(|(position, _)| position))),
                ("value", told.tick.map_or(Json::Null, |(_, value)| Json::text(hex(&value)))),
            ])
        };
        Answer { words, fields: vec![("file", Json::text(file)), ("rounds", Json::List(self.0.iter().map(entry).collect()))] }
    }
}

/// The tick goes out before the card is saved: a run cut off between the two puts out the same tick again, and none is lost.
pub fn round(args: &Args) -> Done {
    let path = Path::new(args.operand(0)?);
    let times = match (args.number("--times")?, args.flag("--to-tick")) {
        (Some(0), _) => return Err(args.wrong("--times", "wants 1 or more")),
        (Some(_), true) => return Err(args.wrong("--to-tick", "cannot stand beside --times")),
        (Some(times), false) => times,
        (None, true) => u32::MAX,
        (None, false) => 1,
    };
    let file = Locked::take(path)?;
    let mut record = file.read()?;
    let first = Read::of(Kind::Card, &record).round.unwrap_or(0);
    let mut rounds = Rounds::default();
    for (number, _) in (first..=u32::MAX).zip(0..times) {
        let mut tick = [0; VALUE_LEN];
        let did = perchmellow::round(&mut record, &mut tick).map_err(|refusal| refused(&rounds, &record, refusal))?;
        rounds.add(number, did, tick);
        if args.flag("--to-tick") && matches!(did, Round::Tick { .. }) {
            break;
        }
    }
    let again = |trouble: Trouble| match file.read() {
        Ok(now) if now == record => trouble,
        _ => trouble.and("The card stands where it stood; what was put out will be put out again."),
    };
    match args.path("--out") {
        None => {
            args.answer(rounds.answer(shown(path)))?;
            file.write(&record).map_err(again)?;
        }
        Some(to) if to == Path::new("-") => {
            out(&rounds.ticks())?;
            file.write(&record).map_err(again)?;
        }
        Some(to) => {
            let ticks = rounds.ticks();
            if !ticks.is_empty() {
                Locked::place(to)?.write(ticks.as_bytes())?;
            }
            file.write(&record).map_err(again)?;
            args.answer(rounds.answer(shown(path)))?;
        }
    }
    Ok(0)
}

/// All the rounds asked for are run, or none.
fn refused(rounds: &Rounds, record: &[u8], refusal: Refusal) -> Trouble {
    let trouble = Asked::default().refused_on(Kind::Card, record, refusal);
    match (rounds.0.first(), rounds.0.last(), trouble) {
        (Some(first), Some(last), Trouble::Refused { call, refusal, .. }) => Trouble::Refused {
            call,
            refusal,
            found: format!("only {} left before this run", count(last.to + 1 - first.from, "round was", "rounds were")),
            remedy: "ask for no more rounds than are left; none was run",
        },
        (_, _, trouble) => trouble,
    }
}

pub fn positions(args: &Args) -> Done {
    let (k, schedule, round) = (args.k()?, args.schedule()?, args.number("--round")?.unwrap_or(0));
    let mut list = [0; POSITIONS_MOST];
    let listed = perchmellow::positions(k, schedule, round, &mut list).map_err(|refusal| {
        Asked::of_k(k).schedule(schedule).and(Refusal::BadRecord, round_range(Size::K(k), 1, k, round)).refused("positions", refusal)
    })?;
    let held = &list[..listed.held as usize];
    let values = count(listed.held, "value", "values");
    let hashes = count(listed.hashes, "hash", "hashes");
    let words = match held {
        [] => format!("at round {round} all rounds are run and nothing is held\n"),
        held => format!("before round {round}: {values} held, at {}; the round does {hashes}\n", listing(held, ", ")),
    };
    args.answer(Answer {
        words,
        fields: vec![
            ("k", Json::number(k)),
            ("schedule", Json::number(schedule)),
            ("round", Json::number(round)),
            ("positions", Json::numbers(held)),
            ("hashes", Json::number(listed.hashes)),
        ],
    })?;
    Ok(0)
}

fn listing(numbers: &[u32], between: &str) -> String {
    numbers.iter().map(u32::to_string).collect::<Vec<_>>().join(between)
}

pub fn anchor(args: &Args) -> Done {
    let (function, size) = (args.function()?, args.size()?);
    let seed = value(Path::new(args.needed("--seed-file")?))?;
    let anchor = hex(&anchored(function, size, &seed)?);
    if let Some(to) = args.path("--out") {
        Locked::place(to)?.write_public(format!("{anchor}\n").as_bytes())?;
    }
    args.answer(Answer { words: format!("{anchor}\n"), fields: vec![("anchor", Json::text(anchor))] })?;
    Ok(0)
}

/// The listing of docs/RULES.md, from a real card.
pub fn list(args: &Args) -> Done {
    let (name, schedule, k) = args.run_asked(0, 10)?;
    let steps = run::run(perchmellow::MD5, k, schedule, &[0; VALUE_LEN]).map_err(|refusal| Asked::of_k(k).refused("list", refusal))?;
    let total: u32 = steps.iter().map(|step| step.hashes).sum();
    let mut words = format!("pebbles {name} {k}\n");
    let mut rounds = Vec::new();
    for step in &steps {
        let put_out = step.put_out.map_or("-".into(), |position| position.to_string());
        let _ = writeln!(words, "{} {} {} {} {put_out}", step.round, step.hashes, step.held.len(), listing(&step.held, ","));
        rounds.push(Json::Object(vec![
            ("round", Json::number(step.round)),
            ("hashes", Json::number(step.hashes)),
            ("positions", Json::numbers(&step.held)),
            ("tick", Json::or_null(step.put_out)),
        ]));
    }
    let _ = writeln!(words, "total {total}");
    let fields =
        vec![("schedule", Json::text(name)), ("k", Json::number(k)), ("rounds", Json::List(rounds)), ("total", Json::number(total))];
    args.answer(Answer { words, fields })?;
    Ok(0)
}
