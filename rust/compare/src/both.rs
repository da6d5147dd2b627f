//! Each call, made of the proved library and of plain Rust on copies of the same buffers. They must give the same answer and leave the
//! same bytes; a refusal must leave every byte as it was; and nothing beside a lent buffer may change. Where one of these fails, the
//! call panics and shows what it was given.

use std::fmt::Debug;

use crate::{Calls, Listed, Plain, Proved, Turn};

/// Entries in front of every lent buffer, and behind it.
const MARGIN: usize = 8;

/// Makes the call of each. `lent` has the content of every buffer, and gets what the call left.
fn agree<T, E, const N: usize>(
    what: impl Fn() -> String,
    edge: E,
    lent: [&mut [E]; N],
    call: impl Fn(&dyn Calls, [&mut [E]; N]) -> Result<T, u8>,
) -> Result<T, u8>
where
    T: Debug + PartialEq,
    E: Copy + Debug + PartialEq,
{
    let margin = [edge; MARGIN];
    let before = lent.each_ref().map(|buffer| [&margin, &**buffer, &margin].concat());
    let answers = [&Proved as &dyn Calls, &Plain].map(|calls| {
        let mut copies = before.clone();
        let answer = call(calls, copies.each_mut().map(|copy| inside(copy)));
        (answer, copies)
    });
    let [(proved, proved_left), (plain, plain_left)] = &answers;
    let said =
        || format!("{}\n  given {:02x?}\n  proved {proved:?} {proved_left:02x?}\n  plain  {plain:?} {plain_left:02x?}", what(), before);
    assert!(proved == plain, "answers differ: {}", said());
    assert!(proved_left == plain_left, "buffers differ: {}", said());
    assert!(proved.is_ok() || *proved_left == before, "a refusal changed something: {}", said());
    for copy in proved_left {
        let (front, behind) = (&copy[..MARGIN], &copy[copy.len() - MARGIN..]);
        assert!(front == margin && behind == margin, "written beside a lent buffer: {}", said());
    }
    let [(answer, mut left), _] = answers;
    for (buffer, copy) in lent.into_iter().zip(&mut left) {
        buffer.copy_from_slice(inside(copy));
    }
    answer
}

fn inside<E>(copy: &mut [E]) -> &mut [E] {
    let end = copy.len() - MARGIN;
    &mut copy[MARGIN..end]
}

/// The margins' bytes: neither zero nor part of a mark.
const EDGE: u8 = 0xa5;

pub fn start(function: u32, k: u32, schedule: u32, seed: &[u8], record: &mut [u8]) -> Result<(), u8> {
    let what = || format!("start({function}, {k}, {schedule}, seed, record)");
    agree(what, EDGE, [&mut seed.to_vec(), record], |calls, [seed, record]| calls.start(function, k, schedule, seed, record))
}

pub fn start_ticks(function: u32, ticks: u32, schedule: u32, seed: &[u8], record: &mut [u8]) -> Result<(), u8> {
    let what = || format!("start_ticks({function}, {ticks}, {schedule}, seed, record)");
    agree(what, EDGE, [&mut seed.to_vec(), record], |calls, [seed, record]| calls.start_ticks(function, ticks, schedule, seed, record))
}

pub fn rebuild(function: u32, k: u32, schedule: u32, round: u32, seed: &[u8], record: &mut [u8]) -> Result<(), u8> {
    let what = || format!("rebuild({function}, {k}, {schedule}, {round}, seed, record)");
    agree(what, EDGE, [&mut seed.to_vec(), record], |calls, [seed, record]| calls.rebuild(function, k, schedule, round, seed, record))
}

pub fn round(record: &mut [u8], out: &mut [u8]) -> Result<Turn, u8> {
    agree(|| "round(record, out)".into(), EDGE, [record, out], |calls, [record, out]| calls.round(record, out))
}

pub fn positions(k: u32, schedule: u32, round: u32, list: &mut [u32]) -> Result<Listed, u8> {
    let what = || format!("positions({k}, {schedule}, {round}, list)");
    agree(what, 0xa5a5_a5a5, [list], |calls, [list]| calls.positions(k, schedule, round, list))
}

pub fn anchor(function: u32, k: u32, seed: &[u8], out: &mut [u8]) -> Result<(), u8> {
    let what = || format!("anchor({function}, {k}, seed, out)");
    agree(what, EDGE, [&mut seed.to_vec(), out], |calls, [seed, out]| calls.anchor(function, k, seed, out))
}

pub fn anchor_ticks(function: u32, ticks: u32, seed: &[u8], out: &mut [u8]) -> Result<(), u8> {
    let what = || format!("anchor_ticks({function}, {ticks}, seed, out)");
    agree(what, EDGE, [&mut seed.to_vec(), out], |calls, [seed, out]| calls.anchor_ticks(function, ticks, seed, out))
}

pub fn enrol(function: u32, k: u32, anchor: &[u8], record: &mut [u8]) -> Result<(), u8> {
    let what = || format!("enrol({function}, {k}, anchor, record)");
    agree(what, EDGE, [&mut anchor.to_vec(), record], |calls, [anchor, record]| calls.enrol(function, k, anchor, record))
}

pub fn offer(record: &mut [u8], value: &[u8], gap: u32) -> Result<u32, u8> {
    let what = || format!("offer(record, value, {gap})");
    agree(what, EDGE, [record, &mut value.to_vec()], |calls, [record, value]| calls.offer(record, value, gap))
}

pub fn settle(function: u32, k: u32, anchor: &[u8], last: &[u8], paid: u32) -> Result<bool, u8> {
    let what = || format!("settle({function}, {k}, anchor, last, {paid})");
    agree(what, EDGE, [&mut anchor.to_vec(), &mut last.to_vec()], |calls, [anchor, last]| calls.settle(function, k, anchor, last, paid))
}

/// One step of a chain: the anchor of a card of one tick.
pub fn step(function: u32, value: &[u8; 16]) -> [u8; 16] {
    let mut next = [0; 16];
    anchor(function, 0, value, &mut next).expect("a known function");
    next
}
