//! `picture`: a run drawn as SVG, in the manner of the article's figures, and the life of the slots.

use crate::args::Args;
use crate::files::{shown, Locked};
use crate::refused::Asked;
use crate::run::{run, Step};
use crate::say::{count, Answer, Done, Json};
use crate::svg::{Sheet, Side, BLUE, FAINT, GOLD, GREEN, INK, ORANGE, PALE_BLUE, PALE_ORANGE, SHADE};
use perchmellow::{slots, MD5, VALUE_LEN};

pub fn picture(args: &Args) -> Done {
    let kind = args.operand(0)?;
    let (name, schedule, k) = args.run_asked(1, 6)?;
    let draw = match kind.to_str() {
        Some("run") => of_run,
        Some("slots") => of_slots,
        _ => return Err(args.usage("KIND is run or slots.")),
    };
    let steps = run(MD5, k, schedule, &[0; VALUE_LEN]).map_err(|refusal| Asked::of_k(k).refused("start", refusal))?;
    let svg = draw(&Run { name, k, slots: slots(k, schedule), steps });
    let (words, told) = match args.path("--out") {
        Some(to) => {
            Locked::place(to)?.write_public(svg.as_bytes())?;
            (format!("{}: {} bytes of SVG\n", shown(to), svg.len()), ("file", Json::text(shown(to))))
        }
        None => (svg.clone(), ("svg", Json::text(svg))),
    };
    args.answer(Answer { words, fields: vec![("schedule", Json::text(name)), ("k", Json::number(k)), told] })?;
    Ok(0)
}

struct Run {
    name: &'static str,
    k: u32,
    slots: usize,
    steps: Vec<Step>,
}

impl Run {
    fn ticks(&self) -> u32 {
        1 << self.k
    }

    fn prepares(&self, round: u32) -> bool {
        round < self.ticks()
    }

    fn most(&self, of: impl Fn(&Step) -> u32) -> u32 {
        self.steps.iter().map(of).max().unwrap_or(0)
    }

    fn title(&self, what: &str) -> String {
        format!("{what}: {} schedule, k = {}, {}", self.name, self.k, count(self.steps.len() as u32, "round", "rounds"))
    }

    fn figures(&self) -> String {
        let total: u32 = self.steps.iter().map(|step| step.hashes).sum();
        let paying = self.most(|step| if step.put_out.is_some() { step.hashes } else { 0 });
        let held = self.most(|step| step.held.len() as u32);
        let (total, held) = (count(total, "hash", "hashes"), count(held, "value", "values"));
        format!("{total} in all, at most {paying} in a paying round; at most {held} held")
    }
}

/// Position to the right, rounds downwards; hashes and values held beside it.
fn of_run(run: &Run) -> String {
    let (dx, dy, size): (f64, f64, f64) = match run.k {
        0..=3 => (30.0, 20.0, 11.0),
        4 => (28.0, 18.0, 11.0),
        5 => (21.0, 14.0, 10.0),
        _ => (15.0, 12.0, 9.0),
    };
    let radius = dy * 0.26;
    let (left, top) = (64.0, 108.0);
    let plot = (f64::from(run.ticks()) * dx).max(300.0);
    let (work, held) = (left + plot + 20.0, left + plot + 140.0);
    let bottom = top + run.steps.len() as f64 * dy;
    let mut sheet = Sheet::new(held + 120.0, bottom + 66.0, &run.title("A card's run"));
    let x = |position: u32| left + dx * (f64::from(position) + 0.5);
    let y = |round: u32| top + dy * (f64::from(round) - 0.5);

    sheet.text(20.0, 50.0, 12.0, INK, Side::Left, run.figures());
    sheet.text(left, 78.0, 12.0, INK, Side::Left, "position in the chain (0 is the seed)");
    sheet.text(left - 12.0, 96.0, 12.0, INK, Side::Right, "round");
    sheet.text(work, 96.0, 12.0, INK, Side::Left, "hashes");
    sheet.text(held, 96.0, 12.0, INK, Side::Left, "held before");
    let preparing = f64::from(run.ticks() - 1) * dy;
    sheet.rect(left, top, plot, preparing, SHADE);
    let each = if run.k < 6 { 1 } else { 3 };
    for position in (0..run.ticks()).step_by(each) {
        sheet.text(x(position), 96.0, size, FAINT, Side::Middle, position);
    }

    let unit = |most: u32| (8.0f64).min(70.0 / f64::from(most.max(1)));
    let (hash_unit, held_unit) = (unit(run.most(|step| step.hashes)), unit(run.most(|step| step.held.len() as u32)));
    for (at, step) in run.steps.iter().enumerate() {
        let row = y(step.round);
        sheet.text(left - 12.0, row + size * 0.36, size, FAINT, Side::Right, step.round);
        for (from, unit, n, fill) in [(work, hash_unit, step.hashes, PALE_ORANGE), (held, held_unit, step.held.len() as u32, PALE_BLUE)] {
            let width = unit * f64::from(n);
            sheet.rect(from, row - dy * 0.36, width, dy * 0.72, fill);
            sheet.text(from + width + 4.0, row + size * 0.36, size, INK, Side::Left, n);
        }
        // What is kept or was hashed goes down to the next round.
        for &position in run.steps.get(at + 1).map_or(&[][..], |next| &next.held) {
            sheet.line((x(position), row), (x(position), y(step.round + 1)), PALE_BLUE, 1.6);
        }
        for &(from, to) in &step.arrows {
            for hash in from..to {
                let gap = if hash == from { radius + 1.0 } else { 0.0 };
                sheet.arrow(x(hash) + gap, x(hash + 1) - 1.0, row, dy * 0.2, ORANGE);
            }
        }
        for &position in &step.held {
            let out = step.put_out == Some(position);
            sheet.dot(x(position), row, if out { radius * 1.3 } else { radius }, if out { GREEN } else { BLUE });
        }
    }

    let (key, mid) = (bottom + 30.0, bottom + 26.0);
    sheet.dot(left + 6.0, mid, 5.0, BLUE);
    sheet.text(left + 16.0, key, 12.0, INK, Side::Left, "held before the round");
    sheet.dot(left + 176.0, mid, 6.0, GREEN);
    sheet.text(left + 188.0, key, 12.0, INK, Side::Left, "put out in it");
    sheet.arrow(left + 290.0, left + 314.0, mid, 4.0, ORANGE);
    sheet.text(left + 320.0, key, 12.0, INK, Side::Left, "a hash");
    sheet.line((left + 6.0, mid + 14.0), (left + 6.0, mid + 30.0), PALE_BLUE, 1.6);
    sheet.text(left + 16.0, key + 22.0, 12.0, INK, Side::Left, "kept for the next round");
    sheet.rect(left + 170.0, mid + 15.0, 14.0, 14.0, SHADE);
    sheet.text(left + 188.0, key + 22.0, 12.0, INK, Side::Left, "rounds that prepare");
    sheet.printed()
}

/// Rounds to the right, slots downwards; each stretch of rounds in which a slot holds one position is a bar.
fn of_slots(run: &Run) -> String {
    let (cell, high, size) = if run.k < 5 { (26.0, 26.0, 11.0) } else { (21.0, 22.0, 9.0) };
    let (left, top) = (96.0, 108.0);
    let rounds = run.steps.len();
    let plot = rounds as f64 * cell;
    let bottom = top + run.slots as f64 * high;
    let mut sheet = Sheet::new((left + plot + 24.0).max(580.0), bottom + 92.0, &run.title("The life of a card's slots"));
    let x = |round: usize| left + cell * (round as f64 - 1.0);
    let y = |slot: usize| top + high * slot as f64;

    sheet.text(20.0, 50.0, 12.0, INK, Side::Left, "each slot with the position whose value it holds before the round");
    sheet.text(left - 12.0, 96.0, 12.0, INK, Side::Right, "round");
    let preparing = f64::from(run.ticks() - 1) * cell;
    sheet.rect(left, top, preparing, bottom - top, SHADE);
    for step in &run.steps {
        let middle = x(step.round as usize) + cell / 2.0;
        let fill = if run.prepares(step.round) { FAINT } else { GREEN };
        sheet.text(middle, 96.0, size, fill, Side::Middle, step.round);
        sheet.text(middle, bottom + 18.0, size, ORANGE, Side::Middle, step.hashes);
    }
    sheet.text(left - 12.0, bottom + 18.0, 12.0, INK, Side::Right, "hashes");
    for slot in 0..run.slots {
        sheet.text(left - 12.0, y(slot) + high * 0.5 + 4.0, 12.0, INK, Side::Right, format!("slot {slot}"));
        let holds = |round: usize| run.steps[round - 1].held.get(slot).copied();
        let mut from = 1;
        while from <= rounds {
            let to = (from..=rounds).take_while(|round| holds(*round) == holds(from)).last().unwrap_or(from);
            if let Some(position) = holds(from) {
                let (fill, ink) = shade(position, run.ticks());
                let width = cell * (to - from + 1) as f64;
                sheet.rect(x(from) + 1.0, y(slot) + 1.0, width - 2.0, high - 2.0, &fill);
                sheet.text(x(from) + width / 2.0, y(slot) + high * 0.5 + size * 0.36, size, ink, Side::Middle, position);
            }
            from = to + 1;
        }
    }
    for step in run.steps.iter().filter(|step| step.put_out.is_some()) {
        sheet.frame(x(step.round as usize) + 2.0, y(0) + 2.0, cell - 4.0, high - 4.0, GREEN);
    }

    let key = bottom + 52.0;
    sheet.rect(left, key - 11.0, 16.0, 14.0, GOLD);
    sheet.text(left + 22.0, key, 12.0, INK, Side::Left, "position 0, the seed");
    for at in 0..4 {
        sheet.rect(left + 170.0 + 12.0 * f64::from(at), key - 11.0, 12.0, 14.0, &shade(1 + at, 5).0);
    }
    sheet.text(left + 224.0, key, 12.0, INK, Side::Left, "low to high positions");
    sheet.frame(left + 1.0, key + 12.0, 14.0, 13.0, GREEN);
    sheet.text(left + 22.0, key + 23.0, 12.0, INK, Side::Left, "put out in the round");
    sheet.rect(left + 170.0, key + 11.0, 48.0, 14.0, SHADE);
    sheet.text(left + 224.0, key + 23.0, 12.0, INK, Side::Left, "rounds that prepare");
    sheet.printed()
}

/// A position's colour, and the ink that can be read on it: the seed apart, else the darker the higher.
fn shade(position: u32, ticks: u32) -> (String, &'static str) {
    if position == 0 {
        return (GOLD.into(), INK);
    }
    let part = f64::from(position) / f64::from(ticks);
    let mix = |light: f64, dark: f64| (light + (dark - light) * part).round() as u8;
    let colour = format!("#{:02x}{:02x}{:02x}", mix(214.0, 31.0), mix(227.0, 59.0), mix(239.0, 87.0));
    (colour, if part > 0.45 { "#ffffff" } else { INK })
}
