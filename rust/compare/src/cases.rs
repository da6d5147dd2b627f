//! Many cases of one call, with a count of what they came to: a test that never reached a refusal would say nothing about it.

use std::collections::BTreeMap;

use crate::Random;

/// How many cases a call gets.
const CASES: u64 = 120_000;
/// How often each answer has to come at least.
const LEAST: u32 = 600;

/// Each case has numbers of its own, so that it can be run again alone. Where one fails, its seed is printed.
struct Case(u64);

impl Drop for Case {
    fn drop(&mut self) {
        if std::thread::panicking() {
            eprintln!("this was the case of Random::new({:#x})", self.0);
        }
    }
}

/// Runs the cases of a call. A case says what came of it: a kind of success or a refusal's number. All of `kinds` and `refusals` have
/// to come often, and nothing else at all.
pub fn cases(call: &str, seed: u64, kinds: &[&str], refusals: &[u8], case: impl Fn(&mut Random) -> Result<&'static str, u8>) {
    let mut came = BTreeMap::new();
    for n in 0..CASES {
        let this = Case(seed ^ (n << 20));
        let answer = case(&mut Random::new(this.0));
        *came.entry(answer).or_insert(0) += 1;
    }
    println!("{call}: {came:?}");
    let mut wanted: Vec<Result<&str, u8>> = kinds.iter().map(|kind| Ok(*kind)).collect();
    wanted.extend(refusals.iter().map(|number| Err(*number)));
    for answer in &wanted {
        let count = came.get(answer).copied().unwrap_or(0);
        assert!(count >= LEAST, "{call}: {answer:?} came {count} times in {CASES} cases");
    }
    for answer in came.keys() {
        assert!(wanted.contains(answer), "{call}: {answer:?} came and should not");
    }
}
