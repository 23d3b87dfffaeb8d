//! Arrays of fixed length that need no test of bounds, and the lists that are kept in them.

use std::ops::{Index, IndexMut};

/// An array whose length is a power of two. A place beyond its end wraps round, so no access has to be tested. Some bytes
/// are left behind it, or else the beginnings of all tables would compete for the same lines of the cache.
pub struct Table<T, const N: usize>([T; N], #[expect(dead_code)] [u8; 192]);

/// Room for something of each mark, and of one more: the clash.
pub type ByMark<T> = Table<T, 1024>;

/// Room for something of each of 1,024 fare and 512 term lines.
pub type ByLine<T> = Table<T, 2048>;

/// So many places are filled and copied without a call.
const FEW: usize = 64;

impl<T: Copy, const N: usize> Table<T, N> {
    pub const fn of(value: T) -> Self {
        assert!(N.is_power_of_two());
        Table([value; N], [0; 192])
    }

    pub fn first(&self, count: usize) -> &[T] {
        &self.0[..count]
    }

    pub fn first_mut(&mut self, count: usize) -> &mut [T] {
        &mut self.0[..count]
    }

    /// Fills the first `count` places; if these are few, others too, which takes no call.
    #[inline(always)]
    pub fn fill_first(&mut self, count: usize, value: T) {
        match self.0.first_chunk_mut::<FEW>() {
            Some(few) if count <= FEW => few.fill(value),
            _ => self.first_mut(count).fill(value),
        }
    }

    /// Copies the first `count` places, in the same way.
    #[inline(always)]
    pub fn copy_first(&mut self, count: usize, from: &Self) {
        match (self.0.first_chunk_mut::<FEW>(), from.0.first_chunk()) {
            (Some(few), Some(from)) if count <= FEW => *few = *from,
            _ => self.first_mut(count).copy_from_slice(from.first(count)),
        }
    }

    /// A list in this table, from its beginning on.
    #[inline(always)]
    pub fn list(&mut self) -> List<'_, T, N> {
        List { items: self, len: 0 }
    }
}

impl<T, I: Into<usize>, const N: usize> Index<I> for Table<T, N> {
    type Output = T;
    #[inline(always)]
    fn index(&self, place: I) -> &T {
        &self.0[place.into() & (N - 1)]
    }
}

impl<T, I: Into<usize>, const N: usize> IndexMut<I> for Table<T, N> {
    #[inline(always)]
    fn index_mut(&mut self, place: I) -> &mut T {
        &mut self.0[place.into() & (N - 1)]
    }
}

/// A list that grows in a table. Its length stands here and not in the table, so that it can stay in a register.
pub struct List<'a, T, const N: usize> {
    pub items: &'a mut Table<T, N>,
    pub len: usize,
}

impl<T: Copy, const N: usize> List<'_, T, N> {
    #[inline(always)]
    pub fn push(&mut self, item: T) {
        self.push_if(true, item);
    }

    /// Without a branch: what is not wanted is written behind the end.
    #[inline(always)]
    pub fn push_if(&mut self, wanted: bool, item: T) {
        self.items[self.len] = item;
        self.len += wanted as usize;
    }
}

/// Two numbers in one, so that they are written at once.
#[inline(always)]
fn pair(high: u16, low: u16) -> u32 {
    (high as u32) << 16 | low as u32
}

#[inline(always)]
fn parts(pair: u32) -> (u16, u16) {
    ((pair >> 16) as u16, pair as u16)
}

/// Most uses of marks as conditions, in a power of two.
const USES: usize = 16384;

/// Which lines have a mark as a condition, for every mark: sorted by mark, as every yield goes through them.
pub struct Uses {
    /// Line and mark of each use, in the file's order.
    noted: Table<u32, USES>,
    len: usize,
    count: ByMark<u16>,
    /// Where the lines of each mark begin and end in `lines`.
    begin: ByMark<u16>,
    end: ByMark<u16>,
    lines: Table<u16, USES>,
}

/// Uses while they are noted.
pub struct Notes<'a> {
    list: List<'a, u32, USES>,
    count: &'a mut ByMark<u16>,
    len: &'a mut usize,
}

impl Notes<'_> {
    #[inline(always)]
    pub fn note(&mut self, line: u16, mark: u16) {
        self.list.push(pair(line, mark));
        self.count[mark] += 1;
    }

    pub fn end(self) {
        *self.len = self.list.len;
    }
}

impl Uses {
    pub const fn none() -> Self {
        Uses { noted: Table::of(0), len: 0, count: Table::of(0), begin: Table::of(0), end: Table::of(0), lines: Table::of(0) }
    }

    /// Begins anew, for the marks below `width`.
    #[inline(always)]
    pub fn notes(&mut self, width: usize) -> Notes<'_> {
        self.count.first_mut(width).fill(0);
        Notes { list: self.noted.list(), count: &mut self.count, len: &mut self.len }
    }

    /// The uses by the line `first` and those behind it.
    pub fn noted_from(&self, first: usize) -> impl Iterator<Item = (u16, u16)> {
        let noted = self.noted.first(self.len);
        let begin = noted.partition_point(|&noted| (parts(noted).0 as usize) < first);
        noted[begin..].iter().copied().map(parts)
    }

    /// Sorts what is noted by mark, by counting.
    #[inline(always)]
    pub fn sort(&mut self, width: usize) {
        let mut begin = 0;
        for mark in 0..width {
            self.begin[mark] = begin;
            self.end[mark] = begin;
            begin += self.count[mark];
        }
        for (line, mark) in self.noted.first(self.len).iter().copied().map(parts) {
            let end = &mut self.end[mark];
            self.lines[*end] = line;
            *end += 1;
        }
    }

    /// Whether some line has the mark as a condition.
    #[inline(always)]
    pub fn any(&self, mark: u16) -> bool {
        self.count[mark] != 0
    }

    /// The lines that have the mark as a condition, after sorting.
    #[inline(always)]
    pub fn of(&self, mark: u16) -> &[u16] {
        &self.lines.0[self.begin[mark] as usize..self.end[mark] as usize]
    }
}

/// What belongs to a mark, for every mark: chained, as each chain is gone through once or twice only.
pub struct Chains<const N: usize> {
    /// Where the chain of each mark begins.
    first: ByMark<u16>,
    /// What belongs to a mark, and where the next link is: as one number, like the uses.
    links: Table<u32, N>,
}

/// Chains while they are made.
pub struct Links<'a, const N: usize> {
    first: &'a mut ByMark<u16>,
    links: List<'a, u32, N>,
}

/// The end of a chain.
const END: u16 = u16::MAX;

impl<const N: usize> Links<'_, N> {
    #[inline(always)]
    pub fn link(&mut self, item: u16, mark: u16) {
        let first = &mut self.first[mark];
        let place = self.links.len as u16;
        self.links.push(pair(item, *first));
        *first = place;
    }
}

impl<const N: usize> Chains<N> {
    pub const fn none() -> Self {
        Chains { first: Table::of(END), links: Table::of(0) }
    }

    /// Begins anew, for the marks below `width`.
    #[inline(always)]
    pub fn links(&mut self, width: usize) -> Links<'_, N> {
        self.first.first_mut(width).fill(END);
        Links { first: &mut self.first, links: self.links.list() }
    }

    #[inline(always)]
    pub fn of(&self, mark: u16) -> impl Iterator<Item = u16> {
        let mut at = self.first[mark];
        std::iter::from_fn(move || {
            let (item, next) = parts(self.links[at]);
            let here = at != END;
            at = next;
            here.then_some(item)
        })
    }
}
