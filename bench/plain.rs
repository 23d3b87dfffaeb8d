//! A plain engine with the module's call: written to be fast, nothing proved. The module is measured beside it.
//!
//! Every yield is made anew, by one run of counters and a worklist over fare and term lines together, so that each
//! condition is looked at once in it. What else saves time is told in `settling`.

mod reading;
mod settling;
mod table;
mod yields;

use settling::Engine;
use std::cell::RefCell;

/// The refusal of a call whose output is too short.
const OUTPUT_SHORT: u32 = 13;

thread_local! {
    // too large to be cleared for every call: each call sets what it reads
    static ENGINE: RefCell<Engine> = const { RefCell::new(Engine::new()) };
}

fn answer(engine: &mut Engine, file: &[u8], facts: &[u8], out: &mut [u8]) -> Result<u32, u32> {
    engine.tariff.read(file, facts)?;
    let out = out.get_mut(..engine.tariff.width).ok_or(OUTPUT_SHORT)?;
    Ok(engine.settle(out))
}

/// The same call as the module's.
pub fn plain_settle(file: &[u8], facts: &[u8], out: &mut [u8]) -> u32 {
    ENGINE.with_borrow_mut(|engine| answer(engine, file, facts, out).unwrap_or_else(|refusal| 100 + refusal))
}
