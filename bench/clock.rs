//! How much time a call takes: of the processor, so that what else the machine does counts little.

use std::hint::black_box;

#[repr(C)]
struct Timespec {
    seconds: i64,
    nanoseconds: i64,
}

const PROCESS_CPU_TIME: i32 = 2;

unsafe extern "C" {
    // of the C library, on 64-bit Linux
    fn clock_gettime(clock: i32, time: *mut Timespec) -> i32;
}

fn now() -> f64 {
    let mut time = Timespec { seconds: 0, nanoseconds: 0 };
    assert_eq!(unsafe { clock_gettime(PROCESS_CPU_TIME, &mut time) }, 0, "no clock");
    time.seconds as f64 * 1e9 + time.nanoseconds as f64
}

pub type Call<'a> = &'a mut dyn FnMut() -> u32;

/// Nanoseconds that so many calls take.
fn block(call: &mut dyn FnMut() -> u32, calls: u32) -> f64 {
    let start = now();
    for _ in 0..calls {
        black_box(call());
    }
    now() - start
}

/// A block takes so long at least: enough that the clock's own time does not count.
const BLOCK: f64 = 1e6;
/// A call that takes longer than this is made once.
const SLOW: f64 = 3e8;
/// Blocks of each call are made until they have taken so long together, and at least so many.
const ENOUGH: f64 = 4e8;
const FEWEST: u32 = 7;

struct Timed<'a> {
    call: Call<'a>,
    /// How many calls make a block.
    calls: u32,
    /// Nanoseconds of one call in the best block.
    best: f64,
}

impl<'a> Timed<'a> {
    fn new(call: Call<'a>) -> Self {
        let mut calls = 1;
        loop {
            let spent = block(call, calls);
            if spent >= BLOCK {
                return Timed { call, calls, best: spent / calls as f64 };
            }
            calls *= 2;
        }
    }

    /// Makes one more block and answers how long it took; none if the call is slow.
    fn again(&mut self) -> f64 {
        if self.best > SLOW {
            return 0.0;
        }
        let spent = block(self.call, self.calls);
        self.best = self.best.min(spent / self.calls as f64);
        spent
    }
}

/// Nanoseconds of one call of each of two: the best of many blocks, which take turns.
pub fn best_of_both(calls: [Call; 2]) -> [f64; 2] {
    let mut timed = calls.map(Timed::new);
    let (mut turns, mut spent) = (0, 0.0);
    while turns < FEWEST || spent < ENOUGH {
        let both: f64 = timed.iter_mut().map(Timed::again).sum();
        if both == 0.0 {
            break;
        }
        spent += both;
        turns += 1;
    }
    timed.map(|call| call.best)
}
