//! Settling by the first method: full and guarded yields in turn.
//!
//! What saves time, beyond the counters:
//! - While T does not clash, it lies within U. So no mark is both; and once T clashes, it is all marks, and U is what
//!   follows from nothing.
//! - T only grows and U only shrinks. A mark that comes into T shuts its lines out of the guarded yield for good, and a
//!   mark that leaves U is taken off its lines, which take part in the full yield when none is left.
//! - The guarded yield is first made as if nothing were denied. If that does not clash, nothing was: T and each head
//!   lie within it. If it does, the heads are tested one by one, and it is made again.
//! - That is so in the first round at most, as later yields lie within that one. If it clashes even then, U is all
//!   marks and stays so.
//! - When no line comes in or goes out, the next yield is the same and is not made.

use super::reading::Tariff;
use super::table::{ByMark, Chains, List, Table};
use super::yields::{DENIED, SHUT, Start, Yield};

const CLEAR: u32 = 0;
const SUSPECT: u32 = 1;
const BROKEN: u32 = 2;

// what is known of a mark by the tests for denial
const NO: u8 = 0;
const MAYBE: u8 = 1;
const YES: u8 = 2;

/// What is kept between calls is memory only.
#[repr(align(64))]
pub struct Engine {
    pub tariff: Tariff,
    full: Start,
    guarded: Start,
    t: Yield,
    u: Yield,
    /// Whether the terms deny a mark at the first T.
    denied: ByMark<u8>,
    /// For each mark, and the clash, the conditions of the term lines that give it.
    givers: Chains<4096>,
    /// The clash, and the marks that lead to it.
    reached: ByMark<u16>,
}

/// How the rounds end.
enum End {
    /// T and U are made.
    Settled { denials: bool },
    /// T is made, U is all marks.
    OpenAll,
    /// T is all marks.
    Clash,
}

impl Engine {
    pub const fn new() -> Self {
        Engine {
            tariff: Tariff::empty(),
            full: Start::empty(),
            guarded: Start::empty(),
            t: Yield::empty(),
            u: Yield::empty(),
            denied: Table::of(0),
            givers: Chains::none(),
            reached: Table::of(0),
        }
    }

    /// Settles the tariff that was read, and writes an answer for each mark.
    pub fn settle(&mut self, out: &mut [u8]) -> u32 {
        self.prepare();
        match self.rounds() {
            End::Clash => {
                let all = self.clashes_at_nothing();
                self.write(out, |_, u| if all { 1 } else { 3 - 2 * u });
                BROKEN
            }
            End::OpenAll => {
                self.write(out, |t, _| 2 - t);
                CLEAR
            }
            End::Settled { denials } => {
                self.write(out, |t, u| 2 * u - t);
                if denials && self.holds_back() { SUSPECT } else { CLEAR }
            }
        }
    }

    fn prepare(&mut self) {
        let Engine { tariff, .. } = self;
        tariff.if_uses.sort(tariff.width);
        self.full.begin(tariff, |exceptions| if exceptions > 0 { SHUT } else { 0 });
        self.guarded.begin(tariff, |_| 0);
    }

    fn rounds(&mut self) -> End {
        self.t.set_all(&self.tariff, 0);
        if self.make_t() {
            return End::Clash;
        }
        self.shut_lines();
        let denials = self.make_first_u();
        if denials && self.make_denied_u() {
            return End::OpenAll;
        }
        while self.open_lines() {
            if self.make_t() {
                return End::Clash;
            }
            if !self.shut_lines() {
                break;
            }
            self.make_u();
        }
        End::Settled { denials }
    }

    fn make_t(&mut self) -> bool {
        self.t.make(&self.tariff, self.tariff.facts(), &self.full)
    }

    fn make_u(&mut self) -> bool {
        self.u.make(&self.tariff, self.tariff.facts(), &self.guarded)
    }

    fn make_first_u(&mut self) -> bool {
        self.u.set_all(&self.tariff, 1);
        self.make_u()
    }

    /// Makes the first U without the lines whose heads are denied: first those that are seen to be, then all. Answers
    /// whether it clashes.
    #[cold]
    fn make_denied_u(&mut self) -> bool {
        let leading = self.reach_back(0, YES, Yield::lacks_one);
        self.put_out_denied();
        if !self.make_first_u() {
            return false;
        }
        self.reach_back(leading, MAYBE, |_, _| true);
        self.test_heads();
        self.put_out_denied();
        self.make_first_u()
    }

    /// Shuts the lines whose unless-marks have come into T out of the guarded yield. Answers whether there are any.
    fn shut_lines(&mut self) -> bool {
        let Engine { tariff, t, guarded, .. } = self;
        let mut any = false;
        t.each_change(tariff.width, |mark| {
            tariff.unless_uses.of(mark).for_each(|line| any |= guarded.put_out(line, SHUT));
        });
        any
    }

    /// Opens the lines of the full yield whose last unless-marks have left U. Answers whether there are any.
    fn open_lines(&mut self) -> bool {
        let Engine { tariff, u, full, .. } = self;
        let Tariff { unless_uses, exceptions, .. } = tariff;
        let mut any = false;
        u.each_change(tariff.width, |mark| {
            for line in unless_uses.of(mark) {
                exceptions[line] -= 1;
                if exceptions[line] == 0 {
                    any = true;
                    full.open(line);
                }
            }
        });
        any
    }

    /// Goes back from the clash by the term lines that `counts` admits, to those of their conditions that are not in T,
    /// and notes `known` of the marks it comes to. It goes on from the first `found` marks, if they are found already,
    /// and answers how many there are in the end.
    fn reach_back(&mut self, found: usize, known: u8, counts: impl Fn(&Yield, u16) -> bool) -> usize {
        let Engine { tariff, t, denied, givers, reached, .. } = self;
        let mut links = givers.links(tariff.width + 1);
        for (line, mark) in tariff.if_uses.noted_from(tariff.fares) {
            if counts(t, line) & (t.set()[mark] == 0) {
                links.link(mark, tariff.head[line]);
            }
        }
        let mut reached = List { items: reached, len: found };
        if found == 0 {
            denied.first_mut(tariff.width).fill(NO);
            reached.push(tariff.width as u16);
        }
        let mut done = 0;
        while done < reached.len {
            for mark in givers.of(reached.items[done]) {
                if denied[mark] == NO {
                    denied[mark] = known;
                    reached.push(mark);
                }
            }
            done += 1;
        }
        reached.len
    }

    /// Tests the heads of the fare lines that may be denied one by one, in the place of U.
    fn test_heads(&mut self) {
        let Engine { tariff, t, u, guarded, denied, .. } = self;
        for line in 0..tariff.fares as u16 {
            let head = tariff.head[line];
            if denied[head] == MAYBE && guarded.is_in(line) {
                denied[head] = if u.close(tariff, t, head) { YES } else { NO };
            }
        }
    }

    fn put_out_denied(&mut self) {
        let Engine { tariff, guarded, denied, .. } = self;
        for line in 0..tariff.fares as u16 {
            if guarded.is_in(line) && denied[tariff.head[line]] == YES {
                guarded.put_out(line, DENIED);
            }
        }
    }

    /// Whether some line is held back for its head alone and would add it to U.
    fn holds_back(&self) -> bool {
        let Engine { tariff, u, .. } = self;
        (0..tariff.fares).any(|line| u.denies_line(line) && u.set()[tariff.head[line]] == 0)
    }

    /// Makes U what follows from nothing. Answers whether that clashes.
    #[cold]
    fn clashes_at_nothing(&mut self) -> bool {
        let Engine { tariff, u, guarded, .. } = self;
        guarded.begin(tariff, |_| 0);
        for line in 0..tariff.fares as u16 {
            guarded.put_out(line, SHUT);
        }
        u.make(tariff, &[], guarded)
    }

    #[inline(always)]
    fn write(&self, out: &mut [u8], answer: impl Fn(u8, u8) -> u8) {
        let count = out.len();
        let marks = self.t.set().first(count).iter().zip(self.u.set().first(count));
        for (byte, (&t, &u)) in out.iter_mut().zip(marks) {
            *byte = answer(t, u);
        }
    }
}
