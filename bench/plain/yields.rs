//! Yields, each made from nothing by counters and a worklist.

use super::reading::Tariff;
use super::table::{ByLine, ByMark, List, Table};

/// Set in a line's counter: the line is out, whatever its conditions are. The counter then never comes to 0.
pub const SHUT: u8 = 0x80;
/// The same, because the terms deny its head.
pub const DENIED: u8 = 0x40;

/// What a yield begins with.
pub struct Start {
    /// Of each line, how many conditions it has, and whether it is out.
    missing: ByLine<u8>,
    /// The lines without conditions that are not out, in no order.
    free: ByLine<u16>,
    free_count: usize,
    /// Where each of them stands in that list.
    place: ByLine<u16>,
}

impl Start {
    pub const fn empty() -> Self {
        Start { missing: Table::of(0), free: Table::of(0), free_count: 0, place: Table::of(0) }
    }

    /// Begins with every line, but for those that `out` names a reason for, by how many unless-marks they have.
    #[inline(always)]
    pub fn begin(&mut self, tariff: &Tariff, out: impl Fn(u8) -> u8) {
        let lines = tariff.conditions.first(tariff.lines).iter().zip(tariff.exceptions.first(tariff.lines));
        for (missing, (conditions, exceptions)) in self.missing.first_mut(tariff.lines).iter_mut().zip(lines) {
            *missing = conditions | out(*exceptions);
        }
        self.free_count = 0;
        for &line in tariff.free() {
            if self.missing[line] == 0 {
                self.add_free(line);
            }
        }
    }

    #[inline(always)]
    fn add_free(&mut self, line: u16) {
        self.free[self.free_count] = line;
        self.place[line] = self.free_count as u16;
        self.free_count += 1;
    }

    /// Lets in a line that was shut.
    pub fn open(&mut self, line: u16) {
        self.missing[line] &= !SHUT;
        if self.missing[line] == 0 {
            self.add_free(line);
        }
    }

    /// Puts out a line for a reason, `SHUT` or `DENIED`. Answers whether it was not shut before.
    #[inline(always)]
    pub fn put_out(&mut self, line: u16, reason: u8) -> bool {
        let missing = self.missing[line];
        if missing == 0 {
            self.free_count -= 1;
            let last = self.free[self.free_count];
            self.free[self.place[line]] = last;
            self.place[last] = self.place[line];
        }
        self.missing[line] = missing | reason;
        missing < SHUT
    }

    pub fn is_in(&self, line: u16) -> bool {
        self.missing[line] < DENIED
    }
}

/// The set that a yield has become.
pub struct Yield {
    /// Of each line, how many of its conditions are not in the set, and whether it is out (unless the set clashes).
    missing: ByLine<u8>,
    /// The sets of this yield and of the one before, in turn: 1 for each mark of the set, 0 for others. The clash has
    /// its place behind the marks.
    sets: [ByMark<u8>; 2],
    turn: bool,
    queue: ByMark<u16>,
}

/// A set while it grows: its marks, and those of them that lines wait for, in the order in which they came.
struct Growth<'a> {
    tariff: &'a Tariff,
    missing: &'a mut ByLine<u8>,
    has: &'a mut ByMark<u8>,
    queue: List<'a, u16, 1024>,
}

impl Growth<'_> {
    /// Without a branch, for marks that come in one after the other.
    #[inline(always)]
    fn add(&mut self, mark: u16) {
        let new = self.has[mark] == 0;
        self.has[mark] = 1;
        self.queue.push_if(new & self.tariff.if_uses.any(mark), mark);
    }

    /// Looks at each mark of the queue, those that come meanwhile too. Answers whether the set clashes; it is then cut
    /// short. (Here branches are faster: the next mark need not wait for the length of the queue.)
    #[inline(always)]
    fn spread(mut self) -> bool {
        let mut done = 0;
        while done < self.queue.len {
            for &line in self.tariff.if_uses.of(self.queue.items[done]) {
                self.missing[line] -= 1;
                if self.missing[line] == 0 {
                    let head = self.tariff.head[line];
                    if self.has[head] == 0 {
                        if head as usize == self.tariff.width {
                            return true;
                        }
                        self.has[head] = 1;
                        self.queue.push(head);
                    }
                }
            }
            done += 1;
        }
        false
    }
}

/// Bytes in which the set and its clash fit, in groups of eight.
fn span(width: usize) -> usize {
    width / 8 * 8 + 8
}

impl Yield {
    pub const fn empty() -> Self {
        let sets = [const { Table::of(0) }; 2];
        Yield { missing: Table::of(0), sets, turn: false, queue: Table::of(0) }
    }

    /// In the place of the yield before: no mark (0) or every mark (1).
    pub fn set_all(&mut self, tariff: &Tariff, value: u8) {
        let (groups, _) = self.sets[self.turn as usize].first_mut(span(tariff.width)).as_chunks_mut::<8>();
        groups.fill([value; 8]);
        let marks_of_last = tariff.width as u32 % 8;
        let last = u64::from_le_bytes([value; 8]) & ((1 << (8 * marks_of_last)) - 1);
        groups[tariff.width / 8] = last.to_le_bytes();
    }

    /// The set: 1 for each of its marks.
    pub fn set(&self) -> &ByMark<u8> {
        &self.sets[self.turn as usize]
    }

    /// Makes a yield. Answers whether it clashes; it is then cut short.
    pub fn make(&mut self, tariff: &Tariff, facts: &[u16], start: &Start) -> bool {
        self.turn = !self.turn;
        let Yield { missing, sets, turn, queue } = self;
        let has = &mut sets[*turn as usize];
        has.fill_first(span(tariff.width), 0);
        missing.copy_first(tariff.lines, &start.missing);
        let mut growth = Growth { tariff, missing, has, queue: queue.list() };
        for &mark in facts {
            growth.add(mark);
        }
        for &line in start.free.first(start.free_count) {
            growth.add(tariff.head[line]);
        }
        growth.has[tariff.width] != 0 || growth.spread()
    }

    /// Tells each mark that is in this yield and not in the one before, or the other way round.
    #[inline(always)]
    pub fn each_change(&self, width: usize, mut tell: impl FnMut(u16)) {
        let (old, _) = self.sets[!self.turn as usize].first(span(width)).as_chunks::<8>();
        let (new, _) = self.set().first(span(width)).as_chunks::<8>();
        for (group, (old, new)) in old.iter().zip(new).enumerate() {
            let mut differ = u64::from_le_bytes(*old) ^ u64::from_le_bytes(*new);
            while differ != 0 {
                tell((8 * group) as u16 + differ.trailing_zeros() as u16 / 8);
                differ &= differ - 1;
            }
        }
    }

    /// Whether a line lacks one condition.
    pub fn lacks_one(&self, line: u16) -> bool {
        self.missing[line] == 1
    }

    /// Whether a line is out for its denied head alone: it is not shut, and its conditions are in the set.
    pub fn denies_line(&self, line: usize) -> bool {
        self.missing[line] == DENIED
    }

    /// Makes what follows by the term lines from `set`, which is closed and does not clash, and one mark more. Answers
    /// whether that clashes.
    pub fn close(&mut self, tariff: &Tariff, set: &Yield, mark: u16) -> bool {
        let has = &mut self.sets[self.turn as usize];
        let span = span(tariff.width);
        has.first_mut(span).copy_from_slice(set.set().first(span));
        self.missing.first_mut(tariff.lines).copy_from_slice(set.missing.first(tariff.lines));
        self.missing.first_mut(tariff.fares).fill(SHUT | 8);
        let mut growth = Growth { tariff, missing: &mut self.missing, has, queue: self.queue.list() };
        growth.add(mark);
        growth.spread()
    }
}
