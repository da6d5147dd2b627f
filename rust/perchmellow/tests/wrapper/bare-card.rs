//! A card without std, up to its first tick.

#![no_std]

use perchmellow::{round, start, Refusal, Round, AES, CARD_LEN_MOST, OPTIMAL, VALUE_LEN};

/// std has one, and there may be only one.
#[panic_handler]
fn stop(_: &core::panic::PanicInfo) -> ! {
    loop {}
}

pub fn first_tick(k: u32, seed: &[u8; VALUE_LEN]) -> Result<[u8; VALUE_LEN], Refusal> {
    let (mut card, mut tick) = ([0; CARD_LEN_MOST], [0; VALUE_LEN]);
    start(AES, k, OPTIMAL, seed, &mut card)?;
    while let Round::Quiet { .. } = round(&mut card, &mut tick)? {}
    Ok(tick)
}
