//! A whole run of a card, round by round: what a listing, a picture and the demo are drawn from.

use perchmellow::{card_len, positions, round, start, Refusal, Round, POSITIONS_MOST, VALUE_LEN};

/// One round, as a real card ran it.
pub struct Step {
    pub round: u32,
    pub hashes: u32,
    /// Positions held before the round, in falling order.
    pub held: Vec<u32>,
    pub put_out: Option<u32>,
    /// The value put out; zeros in a quiet round.
    pub tick: [u8; VALUE_LEN],
    /// From where to where the round hashed: `to - from` hashes each.
    pub arrows: Vec<(u32, u32)>,
}

/// The positions held before a round.
pub fn held(k: u32, schedule: u32, round: u32) -> Result<Vec<u32>, Refusal> {
    let mut list = [0; POSITIONS_MOST];
    let listed = positions(k, schedule, round, &mut list)?;
    Ok(list[..listed.held as usize].to_vec())
}

/// Runs a card from start to end.
pub fn run(function: u32, k: u32, schedule: u32, seed: &[u8]) -> Result<Vec<Step>, Refusal> {
    let mut card = vec![0; card_len(k, schedule)];
    start(function, k, schedule, seed, &mut card)?;
    let mut steps = Vec::new();
    let mut before = held(k, schedule, 1)?;
    for number in 1..1 << (k + 1) {
        let mut tick = [0; VALUE_LEN];
        let (put_out, hashes) = match round(&mut card, &mut tick)? {
            Round::Quiet { hashes } => (None, hashes),
            Round::Tick { position, hashes } => (Some(position), hashes),
        };
        let after = held(k, schedule, number + 1)?;
        let arrows = arrows(&before, &after);
        steps.push(Step { round: number, hashes, held: std::mem::replace(&mut before, after), put_out, tick, arrows });
    }
    Ok(steps)
}

/// A position that is new after a round was hashed from the nearest one below it. Pebblers that run side by side cover ranges of
/// positions apart, and each holds the first of its range, so the nearest is the pebbler's own.
fn arrows(before: &[u32], after: &[u32]) -> Vec<(u32, u32)> {
    let new = after.iter().filter(|to| !before.contains(to));
    new.filter_map(|&to| before.iter().chain(after).copied().filter(|&from| from < to).max().map(|from| (from, to))).collect()
}

#[cfg(test)]
mod tests {
    use super::*;

    #[test]
    fn arrows_are_as_long_as_the_hashes() {
        for k in 0..=10 {
            for schedule in 0..4 {
                for step in run(0, k, schedule, &[3; VALUE_LEN]).unwrap() {
                    let drawn: u32 = step.arrows.iter().map(|(from, to)| to - from).sum();
                    assert_eq!(drawn, step.hashes, "k {k}, schedule {schedule}, round {}", step.round);
                }
            }
        }
    }
}
