//! The sentences of a refusal: what was found, and what to do about it.

use crate::args::Size;
use crate::record::{found, Kind};
use crate::say::Trouble;
use perchmellow::Refusal::{self, *};
use perchmellow::VALUE_LEN;

/// What the command line asked for, each under the refusal that it can earn.
#[derive(Default)]
pub struct Asked(Vec<(Refusal, String)>);

impl Asked {
    pub fn new(function: u32, size: Size) -> Asked {
        let size = match size {
            Size::K(k) => Asked::of_k(k),
            Size::Ticks(ticks) => Asked(vec![(BadTicks, format!("the number of ticks is {ticks}"))]),
        };
        size.and(UnknownFunction, format!("the function is {function}"))
    }

    pub fn of_k(k: u32) -> Asked {
        Asked(vec![(TooManyTicks, format!("k is {k}"))])
    }

    pub fn schedule(self, schedule: u32) -> Asked {
        self.and(UnknownSchedule, format!("the schedule is {schedule}"))
    }

    /// A value that has to be of 16 bytes.
    pub fn value(self, what: &str, value: &[u8]) -> Asked {
        if value.len() == VALUE_LEN {
            return self;
        }
        self.and(WrongLength, format!("the {what} has {} hex digits", 2 * value.len()))
    }

    pub fn and(mut self, refusal: Refusal, found: String) -> Asked {
        self.0.push((refusal, found));
        self
    }

    pub fn refused(self, call: &'static str, refusal: Refusal) -> Trouble {
        let found = self.0.into_iter().find(|(earned, _)| *earned == refusal).map_or(refusal.to_string(), |(_, found)| found);
        Trouble::Refused { call, refusal, found, remedy: remedy(refusal, None) }
    }

    /// A call on a record as well: the record's own fault comes first where both could earn the refusal.
    pub fn refused_on(self, kind: Kind, record: &[u8], refusal: Refusal) -> Trouble {
        match found(kind, record, refusal) {
            Some(found) => Trouble::Refused { call: kind.call(), refusal, found, remedy: remedy(refusal, Some(kind)) },
            None => self.refused(kind.call(), refusal),
        }
    }
}

/// What to do about a refusal; for a record, where the fault lies in it.
fn remedy(refusal: Refusal, record: Option<Kind>) -> &'static str {
    match (refusal, record) {
        (Spent, Some(Kind::Card)) => "start a new card from a new seed",
        (Spent, _) => "settle, and enrol a post for the rider's next card",
        (_, Some(Kind::Card)) => {
            "look at it with 'perchmellow show'; it is damaged, so take a copy kept of it, or rebuild it from its seed"
        }
        (_, Some(Kind::Post)) => "look at it with 'perchmellow show'; it is damaged, so take a copy kept of it",
        (UnknownFunction, None) => "give --function md5 or aes",
        (TooManyTicks, None) => "give --k from 0 to 20",
        (UnknownSchedule, None) => "give --schedule rushing, speed-1, speed-2 or optimal",
        (WrongLength, None) => "give 32 hex digits, which are 16 bytes",
        (BadRecord, None) => "give a number in its range",
        (BadGap, None) => "give --gap from 1 to 64",
        (NoRoom, None) => "keep the file and report it, since no record should earn this",
        (BadTicks, None) => "give --ticks from 1 to 1048576",
        (NotTaken, None) => "offer the card's next tick; if ticks were lost on the way, offer it with a greater --gap",
    }
}
