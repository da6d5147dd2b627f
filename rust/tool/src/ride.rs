//! `ride`: a card pays a post, from files or from a seed, with ticks that get lost on the way.

use crate::args::{Args, Size};
use crate::cards::{anchored, started};
use crate::files::{read, value, Locked};
use crate::posts::{paid, settle_record};
use crate::record::{Kind, Read};
use crate::refused::Asked;
use crate::say::{count, Answer, Done, Json, Trouble};
use perchmellow::{enrol, offer, round, Refusal, Round, POST_LEN, VALUE_LEN};
use std::ffi::OsStr;
use std::fmt::Write as _;
use std::io::{stderr, IsTerminal, Write};
use std::ops::RangeInclusive;
use std::path::Path;
use std::time::{Duration, Instant};

/// What came of a ride.
#[derive(Default)]
struct Summary {
    rounds: u32,
    ticks: u32,
    missed: u32,
    offered: u32,
    credited: u32,
    /// By the refusal's number.
    refused: [u32; 11],
    hashes: u32,
    most_paying: u32,
}

pub fn ride(args: &Args) -> Done {
    let gap = args.number("--gap")?.unwrap_or(1);
    let missed = args
        .value("--miss")
        .map_or(Ok(Vec::new()), |list| ranges(list).ok_or_else(|| args.wrong("--miss", "wants ticks counted from 1, as in 3,7-9")))?;
    let limit = args.number("--ticks")?.unwrap_or(u32::MAX);
    let (mut card, mut post, files) = records(args)?;
    if let Some(refusal) = Kind::Card.judged(&card) {
        return Err(Asked::default().refused_on(Kind::Card, &card, refusal));
    }
    // An empty value is refused only after the record and the gap limit have passed.
    match offer(&mut post, &[], gap) {
        Err(Refusal::WrongLength) if post.len() >= POST_LEN => {}
        Err(refusal) => {
            let asked = Asked::default().and(Refusal::BadGap, format!("the gap limit is {gap}"));
            return Err(asked.refused_on(Kind::Post, &post, refusal));
        }
        Ok(_) => {}
    }

    let summary = rode(&mut card, &mut post, gap, &missed, limit)?;
    if let Some((card_file, post_file)) = &files {
        // The post first: cut off between the two, the card puts out again what the post has, and nothing is lost.
        post_file.write(&post)?;
        card_file.write(&card)?;
    }
    let settled = settle_record(&post)?;
    args.answer(summary.answer(paid(&post), settled, (args.operands() > 0).then_some(files.is_some())))?;
    Ok(0)
}

/// A card's and a post's record, and their files where the ride is to be saved.
type Records = (Vec<u8>, Vec<u8>, Option<(Locked, Locked)>);

/// A trial only looks at the files, and locks none.
fn records(args: &Args) -> Result<Records, Trouble> {
    if args.operands() == 0 {
        if args.flag("--save") {
            return Err(args.wrong("--save", "wants CARD and POST to save to"));
        }
        let (card, post) = from_seed(args)?;
        return Ok((card, post, None));
    }
    let (card, post) = (Path::new(args.operand(0)?), Path::new(args.operand(1)?));
    if let Some(option) = ["--seed-file", "--function", "--k", "--schedule"].iter().find(|option| args.flag(option)) {
        return Err(args.wrong(option, "cannot stand beside CARD and POST, which have it"));
    }
    if !args.flag("--save") {
        return Ok((read(card)?, read(post)?, None));
    }
    let (card, post) = (Locked::take(card)?, Locked::take(post)?);
    Ok((card.read()?, post.read()?, Some((card, post))))
}

fn from_seed(args: &Args) -> Result<(Vec<u8>, Vec<u8>), Trouble> {
    let (function, schedule) = (args.function()?, args.schedule()?);
    // Beside --k the ticks are where to stop, and without it they are all that the card has.
    let size = args.number("--k")?.map_or_else(|| args.size(), |k| Ok(Size::K(k)))?;
    let seed = value(Path::new(args.needed("--seed-file")?))?;
    let card = started(function, size, schedule, &seed)?;
    let anchor = anchored(function, size, &seed)?;
    let mut post = vec![0; POST_LEN];
    let refused = |refusal| Asked::new(function, size).refused("enrol", refusal);
    size.k(function, schedule).and_then(|k| enrol(function, k, &anchor, &mut post)).map_err(refused)?;
    Ok((card, post))
}

fn rode(card: &mut [u8], post: &mut [u8], gap: u32, missed: &[RangeInclusive<u32>], limit: u32) -> Result<Summary, Trouble> {
    let told = Read::of(Kind::Card, card);
    let left = told.k.zip(told.round).map_or(0, |(k, round)| (2u32 << k) - round);
    let mut progress = Progress::new(left);
    let (mut summary, mut tick) = (Summary::default(), [0; VALUE_LEN]);
    while summary.rounds < left && summary.ticks < limit {
        let did = round(card, &mut tick).map_err(|refusal| Asked::default().refused_on(Kind::Card, card, refusal))?;
        summary.rounds += 1;
        progress.at(summary.rounds);
        match did {
            Round::Quiet { hashes } => summary.hashes += hashes,
            Round::Tick { hashes, .. } => {
                summary.hashes += hashes;
                summary.most_paying = summary.most_paying.max(hashes);
                summary.ticks += 1;
                if missed.iter().any(|range| range.contains(&summary.ticks)) {
                    summary.missed += 1;
                    continue;
                }
                summary.offered += 1;
                match offer(post, &tick, gap) {
                    Ok(credit) => summary.credited += credit,
                    Err(refusal) => summary.refused[refusal.number() as usize] += 1,
                }
            }
        }
    }
    Ok(summary)
}

impl Summary {
    fn answer(&self, (paid, unpaid): (u32, u32), settled: bool, saved: Option<bool>) -> Answer {
        let refused = || self.refused.iter().enumerate().filter(|(_, times)| **times > 0);
        let said: Vec<_> = refused().map(|(number, times)| format!("{} with {number}", count(*times, "time", "times"))).collect();
        let mut words = String::new();
        let _ = write!(
            words,
            "rounds run     {}\nhashes         {}, at most {} in a paying round\nticks put out  {}\nmissed         {}\n\
             offered        {}\ncredited       {}\nrefused        {}\nthe post       {paid} paid, {unpaid} unpaid\nsettle         {}\n",
            self.rounds,
            self.hashes,
            self.most_paying,
            self.ticks,
            self.missed,
            self.offered,
            self.credited,
            if said.is_empty() { "none".into() } else { said.join(", ") },
            if settled { "yes" } else { "no" },
        );
        words.push_str(match saved {
            None => "",
            Some(true) => "both files     saved\n",
            Some(false) => "both files     as they were; --save would keep the ride\n",
        });
        let pair =
            |(number, times): (usize, &u32)| Json::Object(vec![("refusal", Json::number(number as u64)), ("times", Json::number(*times))]);
        let fields = vec![
            ("rounds", Json::number(self.rounds)),
            ("hashes", Json::number(self.hashes)),
            ("most_in_a_paying_round", Json::number(self.most_paying)),
            ("ticks", Json::number(self.ticks)),
            ("missed", Json::number(self.missed)),
            ("offered", Json::number(self.offered)),
            ("credited", Json::number(self.credited)),
            ("refused", Json::List(refused().map(pair).collect())),
            ("paid", Json::number(paid)),
            ("unpaid", Json::number(unpaid)),
            ("settle", Json::Yes(settled)),
            ("saved", Json::Yes(saved == Some(true))),
        ];
        Answer { words, fields }
    }
}

/// `3,7-9`, with ticks counted from 1.
fn ranges(list: &OsStr) -> Option<Vec<RangeInclusive<u32>>> {
    let one = |part: &str| {
        let (from, to) = part.split_once('-').unwrap_or((part, part));
        let number = |text: &str| crate::args::decimal(OsStr::new(text));
        let range = number(from)?..=number(to)?;
        (*range.start() > 0 && !range.is_empty()).then_some(range)
    };
    list.to_str()?.split(',').map(one).collect()
}

/// A bar on standard error, where that is a terminal and the run takes a while.
struct Progress {
    all: u32,
    begun: Option<Instant>,
    drawn: Option<Instant>,
}

impl Progress {
    const WAIT: Duration = Duration::from_millis(400);
    const AGAIN: Duration = Duration::from_millis(100);
    const WIDTH: u32 = 40;

    fn new(all: u32) -> Progress {
        Progress { all, begun: stderr().is_terminal().then(Instant::now), drawn: None }
    }

    fn at(&mut self, done: u32) {
        let Some(begun) = self.begun.filter(|_| done.is_multiple_of(64)) else { return };
        if self.drawn.map_or(begun.elapsed() > Self::WAIT, |last| last.elapsed() > Self::AGAIN) {
            self.drawn = Some(Instant::now());
            let full = (u64::from(done) * u64::from(Self::WIDTH) / u64::from(self.all.max(1))) as usize;
            let _ = write!(stderr(), "\r[{:<width$}] {done} of {} rounds", "#".repeat(full), self.all, width = Self::WIDTH as usize);
        }
    }
}

impl Drop for Progress {
    fn drop(&mut self) {
        if self.drawn.is_some() {
            let _ = write!(stderr(), "\r\x1b[K");
        }
    }
}
