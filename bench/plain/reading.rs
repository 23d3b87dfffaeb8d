//! Reading a tariff file and a facts string: the tests in the order of docs/FORMAT.md, the first fault is answered.

use super::table::{ByLine, ByMark, Chains, Table, Uses};

const BYTES_END: u32 = 1;
const MALFORMED: u32 = 2;
const OUTSIDE_LIMIT: u32 = 3;
const NOT_ASCENDING: u32 = 4;
const BYTES_REMAIN: u32 = 6;

/// A tariff and the facts of a trip, as they were read. The fare lines come first, then the term lines; a denial is a
/// line with one more head, the clash, whose place is the width.
pub struct Tariff {
    pub width: usize,
    pub fares: usize,
    pub lines: usize,
    pub head: ByLine<u16>,
    /// How many conditions a line has.
    pub conditions: ByLine<u8>,
    /// How many unless-marks a line has.
    pub exceptions: ByLine<u8>,
    /// The lines that have a mark as a condition.
    pub if_uses: Uses,
    /// The lines that have a mark as an unless-mark.
    pub unless_uses: Chains<8192>,
    free: ByLine<u16>,
    free_count: usize,
    facts: ByMark<u16>,
    facts_count: usize,
}

/// The bytes that are not yet read.
struct Bytes<'a>(&'a [u8]);

impl Bytes<'_> {
    /// A number from `low` to `high`, and at least `next`: one more than the mark before it.
    #[inline(always)]
    fn number(&mut self, low: u32, high: u32, next: u32) -> Result<u32, u32> {
        let (n, rest) = match *self.0 {
            [a @ 0..128, ref rest @ ..] => (a as u32, rest),
            [a, b @ 1..128, ref rest @ ..] => (a as u32 - 128 + 128 * b as u32, rest),
            _ => return Err(fault(self.0, low, high, next)),
        };
        if n < low || n > high || n < next {
            return Err(fault(self.0, low, high, next));
        }
        self.0 = rest;
        Ok(n)
    }

    #[inline(always)]
    fn list(&mut self, most: u32, width: u32, mut each: impl FnMut(u16)) -> Result<u32, u32> {
        let count = self.number(0, most, 0)?;
        let mut next = 0;
        for _ in 0..count {
            let mark = self.number(0, width - 1, next)?;
            next = mark + 1;
            each(mark as u16);
        }
        Ok(count)
    }

    fn end(&self) -> Result<(), u32> {
        if self.0.is_empty() { Ok(()) } else { Err(BYTES_REMAIN) }
    }
}

/// The first test that the number at the front fails. A number of three bytes is past every limit.
#[cold]
#[inline(never)]
fn fault(bytes: &[u8], low: u32, high: u32, next: u32) -> u32 {
    let n = match *bytes {
        [a @ 0..128, ..] => a as u32,
        [_, 0, ..] => return MALFORMED,
        [a, b @ 1..128, ..] => a as u32 - 128 + 128 * b as u32,
        [_, _, 1..4, ..] => return OUTSIDE_LIMIT,
        [_, _, _, ..] => return MALFORMED,
        _ => return BYTES_END,
    };
    if n < low || n > high {
        OUTSIDE_LIMIT
    } else {
        debug_assert!(n < next);
        NOT_ASCENDING
    }
}

impl Tariff {
    pub const fn empty() -> Self {
        Tariff {
            width: 0,
            fares: 0,
            lines: 0,
            head: Table::of(0),
            conditions: Table::of(0),
            exceptions: Table::of(0),
            if_uses: Uses::none(),
            unless_uses: Chains::none(),
            free: Table::of(0),
            free_count: 0,
            facts: Table::of(0),
            facts_count: 0,
        }
    }

    /// The lines without conditions.
    pub fn free(&self) -> &[u16] {
        self.free.first(self.free_count)
    }

    pub fn facts(&self) -> &[u16] {
        self.facts.first(self.facts_count)
    }

    /// Takes in a file and a facts string; what is refused leaves nothing to settle by.
    pub fn read(&mut self, file: &[u8], facts: &[u8]) -> Result<(), u32> {
        self.read_file(file)?;
        self.read_facts(facts)
    }

    fn read_file(&mut self, file: &[u8]) -> Result<(), u32> {
        let mut bytes = Bytes(file);
        let width = bytes.number(1, 512, 0)?;
        let fares = bytes.number(0, 1024, 0)? as usize;
        let lines = fares + bytes.number(0, 512, 0)? as usize;
        let mut ifs = self.if_uses.notes(width as usize);
        let mut unlesses = self.unless_uses.links(width as usize);
        let mut free = self.free.list();
        for line in 0..lines {
            self.head[line] = if line < fares || bytes.number(1, 2, 0)? == 1 {
                bytes.number(0, width - 1, 0)? as u16
            } else {
                width as u16
            };
            let count = bytes.list(8, width, |mark| ifs.note(line as u16, mark))?;
            self.conditions[line] = count as u8;
            free.push_if(count == 0, line as u16);
            let count = if line < fares { bytes.list(8, width, |mark| unlesses.link(line as u16, mark))? } else { 0 };
            self.exceptions[line] = count as u8;
        }
        ifs.end();
        (self.width, self.fares, self.lines, self.free_count) = (width as usize, fares, lines, free.len);
        bytes.end()
    }

    fn read_facts(&mut self, string: &[u8]) -> Result<(), u32> {
        let mut bytes = Bytes(string);
        let mut facts = self.facts.list();
        bytes.list(512, self.width as u32, |mark| facts.push(mark))?;
        self.facts_count = facts.len;
        bytes.end()
    }
}
