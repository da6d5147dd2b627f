//! The post's side: enrol, offer and settle.

use crate::args::{name_of, Args, Size, FUNCTIONS};
use crate::files::{read, shown, value, Locked};
use crate::record::{Kind, Read};
use crate::refused::Asked;
use crate::say::{count, Answer, Done, Json, Trouble, NO};
use perchmellow::{Refusal, OPTIMAL, POST_LEN};
use std::path::Path;

pub fn enrol(args: &Args) -> Done {
    let path = Path::new(args.operand(0)?);
    let (function, size) = (args.function()?, args.size()?);
    let anchor = value(Path::new(args.needed("--anchor-file")?))?;
    let refused = |refusal| Asked::new(function, size).value("anchor", &anchor).refused("enrol", refusal);
    let k = size.k(function, OPTIMAL).map_err(refused)?;
    let mut record = [0; POST_LEN];
    perchmellow::enrol(function, k, &anchor, &mut record).map_err(refused)?;
    Locked::place(path)?.write_first(&record)?;
    let more = if size.ticks() < 1 << k { format!("; it counts to {}", 1 << k) } else { String::new() };
    args.answer(Answer {
        words: format!(
            "{}: a post for a card of {}, {}; 0 paid{more}\n",
            shown(path),
            count(size.ticks(), "tick", "ticks"),
            name_of(function, &FUNCTIONS)
        ),
        fields: vec![
            ("file", Json::text(shown(path))),
            ("function", Json::number(function)),
            ("k", Json::number(k)),
            ("ticks", Json::number(size.ticks())),
        ],
    })?;
    Ok(0)
}

pub fn offer(args: &Args) -> Done {
    let path = Path::new(args.operand(0)?);
    let gap = args.number("--gap")?.unwrap_or(1);
    let value = value(Path::new(args.needed("--value-file")?))?;
    let file = Locked::take(path)?;
    let mut record = file.read()?;
    let credit = perchmellow::offer(&mut record, &value, gap).map_err(|refusal| offer_refused(&record, &value, gap, refusal))?;
    file.write(&record)?;
    let (paid, unpaid) = paid(&record);
    args.answer(Answer {
        words: format!("credited {credit}; {paid} paid, {unpaid} unpaid\n"),
        fields: vec![
            ("file", Json::text(shown(path))),
            ("credited", Json::number(credit)),
            ("paid", Json::number(paid)),
            ("unpaid", Json::number(unpaid)),
        ],
    })?;
    Ok(0)
}

fn offer_refused(record: &[u8], value: &[u8], gap: u32, refusal: Refusal) -> Trouble {
    let (paid, unpaid) = paid(record);
    let reach = gap.min(unpaid);
    let steps = if reach == 1 { "1 step does not lead".into() } else { format!("none of 1 to {reach} steps leads") };
    let steps = match record.get(24..POST_LEN) == Some(value) {
        true => "the value is the one held already, and was credited before".into(),
        false => format!("{steps} from the value to the one held"),
    };
    Asked::default()
        .value("value", value)
        .and(Refusal::BadGap, format!("the gap limit is {gap}"))
        .and(Refusal::NotTaken, format!("{steps}; {paid} paid, {unpaid} unpaid"))
        .refused_on(Kind::Post, record, refusal)
}

/// Ticks paid and unpaid of a good post record; zeros for another.
pub fn paid(record: &[u8]) -> (u32, u32) {
    let read = Read::of(Kind::Post, record);
    match (read.paid, read.k) {
        (Some(paid), Some(k)) if k <= perchmellow::K_MOST => (paid, (1u32 << k).saturating_sub(paid)),
        _ => (0, 0),
    }
}

/// Settles a good post record by what stands in it.
pub fn settle_record(record: &[u8]) -> Result<bool, Trouble> {
    let refused = |refusal| Asked::default().refused_on(Kind::Post, record, refusal);
    match Kind::Post.judged(record) {
        None | Some(Refusal::Spent) => {}
        Some(refusal) => return Err(refused(refusal)),
    }
    perchmellow::settle(record[2].into(), record[3].into(), &record[8..24], &record[24..POST_LEN], paid(record).0).map_err(refused)
}

/// Settles a post record, or what the command line gives.
pub fn settle(args: &Args) -> Done {
    const GIVEN: [&str; 5] = ["--function", "--k", "--anchor-file", "--last-file", "--paid"];
    let (yes, paid) = if args.operands() == 1 {
        if let Some(option) = GIVEN.iter().find(|option| args.flag(option)) {
            return Err(args.wrong(option, "cannot stand beside POST, which has it"));
        }
        let record = read(Path::new(args.operand(0)?))?;
        (settle_record(&record)?, paid(&record).0)
    } else {
        let (function, k) = (args.function()?, args.k()?);
        args.needed("--paid")?;
        let paid = args.number("--paid")?.unwrap_or(0);
        let (anchor, last) = (args.needed("--anchor-file")?, args.needed("--last-file")?);
        let (anchor, last) = (value(Path::new(anchor))?, value(Path::new(last))?);
        let yes = perchmellow::settle(function, k, &anchor, &last, paid).map_err(|refusal| {
            let range = format!("{paid} are said to be paid, and for k = {k} the most is {}", 1u64 << k.min(40));
            let asked = Asked::new(function, Size::K(k)).value("anchor", &anchor).value("last value", &last);
            asked.and(Refusal::BadRecord, range).refused("settle", refusal)
        })?;
        (yes, paid)
    };
    let words = match yes {
        true => format!("yes: {} from the last value to the anchor\n", count(paid, "step leads", "steps lead")),
        false => format!("no: {} not lead from the last value to the anchor\n", count(paid, "step does", "steps do")),
    };
    args.answer(Answer { words, fields: vec![("yes", Json::Yes(yes)), ("paid", Json::number(paid))] })?;
    Ok(if yes { 0 } else { NO })
}
