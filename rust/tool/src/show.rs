//! `show`: a record explained byte by byte, a damaged one as far as it can be read.
//!
//! A slot is never printed. The value at a position leads by the function to every tick above it, so whoever sees a slot can pay
//! with all of them, and the slot at position 0 is the seed. What a workshop needs to know of them is told instead: whether each
//! leads to the next.

use crate::args::Args;
use crate::files::{read, shown};
use crate::posts::{paid, settle_record};
use crate::record::{bytes_named, Kind, Line, Read};
use crate::say::{count, Answer, Done, Json};
use perchmellow::{settle, Refusal, CARD_HEAD_LEN, K_MOST, VALUE_LEN};
use std::fmt::Write;
use std::path::Path;

/// A record of full length without a mark is taken for a post's when it has a post record's length.
fn guessed(record: &[u8]) -> Kind {
    if record.len() == perchmellow::POST_LEN {
        Kind::Post
    } else {
        Kind::Card
    }
}

pub fn show(args: &Args) -> Done {
    let path = Path::new(args.operand(0)?);
    let asked = match args.value("--as").map(|word| word.to_str()) {
        None => None,
        Some(Some("card")) => Some(Kind::Card),
        Some(Some("post")) => Some(Kind::Post),
        Some(_) => return Err(args.wrong("--as", "wants card or post")),
    };
    let record = read(path)?;
    let kind = asked.or(Kind::of(&record)).unwrap_or_else(|| guessed(&record));
    let refusal = kind.judged(&record);
    let mut told = Read::of(kind, &record);
    // A file without a mark may be a seed's: it is read on only when that is asked for, and hex digits are not even then.
    let digits = record.iter().all(|b| b.is_ascii_hexdigit() || b.is_ascii_whitespace());
    let outside = Kind::of(&record).is_none() && (asked.is_none() || digits);
    if outside {
        told = told.outside();
    }
    let chain = match refusal {
        None | Some(Refusal::Spent) => chain(kind, &record, &told),
        _ => None,
    };

    let mut words = format!("{}: {}, read as a {} record\n", shown(path), count(record.len() as u32, "byte", "bytes"), kind.name());
    for line in &told.lines {
        let mark = if line.fault.is_some() { '!' } else { ' ' };
        let _ = writeln!(words, "{mark} {:16} {}", bytes_named(line.from, line.to), line.words);
    }
    words.push_str(&verdict(kind, refusal, told.fault()));
    if matches!(refusal, None | Some(Refusal::Spent)) {
        words.push_str(&to_pay(&told));
    }
    if let Some((_, said)) = &chain {
        words.push_str(said);
    }
    if outside && !digits {
        words.push_str("A file without a mark is not read on; '--as card' or '--as post' does.\n");
    }
    args.answer(Answer { words, fields: fields(kind, &record, &told, refusal, chain.map(|(good, _)| good)) })?;
    Ok(0)
}

fn verdict(kind: Kind, refusal: Option<Refusal>, fault: Option<&Line>) -> String {
    let Some(refusal) = refusal else {
        return match kind {
            Kind::Card => "It is laid out as it should be, and the next round runs.\n".into(),
            Kind::Post => "It is laid out as it should be, and takes offers.\n".into(),
        };
    };
    let place = match fault.filter(|line| line.fault == Some(refusal)) {
        Some(line) => format!(", for {}", bytes_named(line.from, line.to)),
        None => String::new(),
    };
    format!("{} refuses it with {}{place}: {refusal}.\n", kind.call(), refusal.number())
}

/// What a good card has left to pay; nothing for a post, which cannot know.
fn to_pay(told: &Read) -> String {
    let (Some(rounds), Some(ticks)) = (told.rounds_left(), told.ticks_left()) else { return String::new() };
    let ticks_said = count(ticks, "tick is", "ticks are");
    match rounds - ticks {
        0 => format!("{ticks_said} left to pay.\n"),
        preparing => format!("{ticks_said} left to pay, after {}.\n", count(preparing, "preparing round", "preparing rounds")),
    }
}

/// Whether the values of a good record belong to one chain.
fn chain(kind: Kind, record: &[u8], told: &Read) -> Option<(bool, String)> {
    if kind == Kind::Post {
        let good = settle_record(record).ok()?;
        let paid = paid(record).0;
        return Some(match good {
            true => (true, format!("Settle says yes: {} from the value held to the anchor.\n", count(paid, "step leads", "steps lead"))),
            false => {
                (false, format!("Settle says no: {} not lead from the value held to the anchor.\n", count(paid, "step does", "steps do")))
            }
        });
    }
    let slot = |at: usize| &record[CARD_HEAD_LEN + at * VALUE_LEN..][..VALUE_LEN];
    let held: Vec<u32> = told.slots.iter().copied().flatten().collect();
    let leads = |at: usize| settle(told.function?, told.k?, slot(at - 1), slot(at), held[at - 1] - held[at]).ok();
    let broken = (1..held.len()).find(|at| leads(*at) != Some(true));
    match (held.len(), broken) {
        (0 | 1, _) => None,
        (_, None) => Some((true, "The values held lead to each other along the chain.\n".into())),
        (_, Some(at)) => Some((
            false,
            format!("Its values are not of one chain: slot {at} does not lead to slot {}. A post will not take all its ticks.\n", at - 1),
        )),
    }
}

fn fields(kind: Kind, record: &[u8], told: &Read, refusal: Option<Refusal>, chain: Option<bool>) -> Vec<(&'static str, Json)> {
    let line = |line: &Line| {
        Json::Object(vec![
            ("from", Json::number(line.from as u64)),
            ("to", Json::number(line.to as u64 - 1)),
            ("words", Json::text(line.words.clone())),
            ("refusal", Json::or_null(line.fault.map(Refusal::number))),
        ])
    };
    let most = told.k.filter(|k| *k <= K_MOST).map(|k| 1u32 << k);
    let unpaid = told.paid.zip(most).and_then(|(paid, most)| most.checked_sub(paid));
    let mut fields = vec![
        ("kind", Json::text(kind.name())),
        ("length", Json::number(record.len() as u64)),
        ("bytes", Json::List(told.lines.iter().map(line).collect())),
        ("function", Json::or_null(told.function)),
        ("k", Json::or_null(told.k)),
    ];
    match kind {
        Kind::Card => fields.extend([
            ("schedule", Json::or_null(told.schedule)),
            ("round", Json::or_null(told.round)),
            ("rounds_left", Json::or_null(told.rounds_left())),
            ("ticks_left", Json::or_null(told.ticks_left())),
            ("slots", Json::List(told.slots.iter().map(|position| Json::or_null(*position)).collect())),
        ]),
        Kind::Post => fields.extend([("paid", Json::or_null(told.paid)), ("unpaid", Json::or_null(unpaid))]),
    }
    fields.extend([
        ("one_chain", chain.map_or(Json::Null, Json::Yes)),
        ("refused_by", refusal.map_or(Json::Null, |_| Json::text(kind.call()))),
        ("refusal", Json::or_null(refusal.map(Refusal::number))),
        ("fault", told.fault().map_or(Json::Null, line)),
    ]);
    fields
}
