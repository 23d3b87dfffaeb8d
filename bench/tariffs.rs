//! The tariffs that the bench times: each is made by code, and made to be slow to settle in its own way.

/// Fare lines as head, conditions, unless-marks.
type Fare = (usize, Vec<usize>, Vec<usize>);
/// Term lines as a head, or none for a denial, and conditions.
type Term = (Option<usize>, Vec<usize>);

pub struct Sheet {
    pub name: &'static str,
    width: usize,
    fares: Vec<Fare>,
    terms: Vec<Term>,
    facts: Vec<usize>,
}

fn number(out: &mut Vec<u8>, mut n: usize) {
    while n >= 128 {
        out.push((n % 128 + 128) as u8);
        n /= 128;
    }
    out.push(n as u8);
}

fn list(out: &mut Vec<u8>, marks: &[usize]) {
    number(out, marks.len());
    marks.iter().for_each(|&mark| number(out, mark));
}

impl Sheet {
    /// The tariff file.
    pub fn file(&self) -> Vec<u8> {
        let mut out = Vec::new();
        number(&mut out, self.width);
        number(&mut out, self.fares.len());
        number(&mut out, self.terms.len());
        for (head, conditions, unless) in &self.fares {
            number(&mut out, *head);
            list(&mut out, conditions);
            list(&mut out, unless);
        }
        for (head, conditions) in &self.terms {
            number(&mut out, if head.is_some() { 1 } else { 2 });
            head.iter().for_each(|&head| number(&mut out, head));
            list(&mut out, conditions);
        }
        out
    }

    /// The facts string.
    pub fn facts(&self) -> Vec<u8> {
        let mut out = Vec::new();
        list(&mut out, &self.facts);
        out
    }
}

/// A repeatable stream of numbers.
pub struct Stream(pub u64);

impl Stream {
    pub fn below(&mut self, n: usize) -> usize {
        self.0 = self.0.wrapping_mul(6364136223846793005).wrapping_add(1442695040888963407);
        (self.0 >> 33) as usize % n
    }

    /// So many different ones of `marks`, in no order.
    fn choose(&mut self, count: usize, marks: impl Iterator<Item = usize>) -> Vec<usize> {
        let mut marks: Vec<usize> = marks.collect();
        let count = count.min(marks.len());
        (0..count).map(|_| marks.swap_remove(self.below(marks.len()))).collect()
    }

    /// One or two of the marks below `width`, seldom none, ascending.
    fn term_conditions(&mut self, width: usize) -> Vec<usize> {
        let count = if self.below(20) == 0 { 0 } else { 1 + self.below(2) };
        ascending(self.choose(count, 0..width))
    }

    /// Up to `most` of the marks below `width`, ascending.
    fn few(&mut self, width: usize, most: usize) -> Vec<usize> {
        let count = self.below(most + 1);
        ascending(self.choose(count, 0..width))
    }
}

fn ascending(mut marks: Vec<usize>) -> Vec<usize> {
    marks.sort();
    marks
}

/// `to` if `from`.
fn fare_step(to: usize, from: usize) -> Fare {
    (to, vec![from], vec![])
}

/// `from` gives `to`.
fn term_step(to: usize, from: usize) -> Term {
    (Some(to), vec![from])
}

/// `head` unless `mark`.
fn unless(head: usize, mark: usize) -> Fare {
    (head, vec![], vec![mark])
}

/// Rounds: each mark holds unless the one before it does, so that every round settles two marks.
fn rounds() -> Sheet {
    let fares = (1..512).map(|m| unless(m, m - 1)).collect();
    Sheet { name: "rounds", width: 512, fares, terms: vec![], facts: vec![] }
}

/// A chain of fare lines in the worst order: a pass over the lines adds one mark.
fn fare_chain() -> Sheet {
    let fares = (0..511).map(|m| fare_step(m, m + 1)).collect();
    Sheet { name: "chain, fare lines", width: 512, fares, terms: vec![], facts: vec![511] }
}

/// The same chain of term lines: closing is what takes long.
fn term_chain() -> Sheet {
    let terms = (0..511).map(|m| term_step(m, m + 1)).collect();
    Sheet { name: "chain, term lines", width: 512, fares: vec![], terms, facts: vec![511] }
}

/// Dense lines: as many as there can be, with eight conditions and eight unless-marks each, most of which are met.
fn dense() -> Sheet {
    let mut s = Stream(422);
    let facts = ascending(s.choose(64, 0..96));
    let absent: Vec<usize> = (0..96).filter(|m| !facts.contains(m)).collect();
    let mut lines = Dense { s, facts, absent };
    let fares = (0..1024).map(|_| lines.fare()).collect();
    let terms = (0..512).map(|_| lines.term()).collect();
    Sheet { name: "dense", width: 512, fares, terms, facts: lines.facts }
}

struct Dense {
    s: Stream,
    facts: Vec<usize>,
    absent: Vec<usize>,
}

impl Dense {
    /// Eight marks: `derived` ones from 96 to below `head`, the others from `rest`.
    fn eight(&mut self, derived: usize, head: usize, of_facts: bool) -> Vec<usize> {
        let mut marks = self.s.choose(derived, 96..head);
        let rest = if of_facts { &self.facts } else { &self.absent };
        marks.extend(self.s.choose(8 - marks.len(), rest.iter().copied()));
        ascending(marks)
    }

    fn fare(&mut self) -> Fare {
        let head = 96 + self.s.below(416);
        let (conditions, exceptions) = ([0, 1, 1, 2, 3][self.s.below(5)], 1 + self.s.below(4) / 3);
        // one in six has an unless-mark that may come after its head
        let before = if self.s.below(6) == 0 { 512 } else { head };
        (head, self.eight(conditions, head, true), self.eight(exceptions, before, false))
    }

    fn term(&mut self) -> Term {
        if self.s.below(24) == 0 {
            let last = 470 + self.s.below(42);
            return (None, ascending([self.s.choose(7, self.facts.iter().copied()), vec![last]].concat()));
        }
        let head = 96 + self.s.below(374);
        let derived = 2 + self.s.below(3);
        (Some(head), self.eight(derived, head, true))
    }
}

/// Denied pairs: 256 of them, of which one mark may be certain and denies the other; and some dozen rounds.
fn denied_pairs() -> Sheet {
    let mut fares = vec![unless(0, 2), unless(2, 0), unless(1, 4), unless(3, 4)];
    for m in (4..512).step_by(2) {
        fares.push(match m {
            4..200 => (m, vec![], vec![]),
            _ if m % 52 == 200 % 52 => unless(m, 4),
            _ => unless(m, m - 2),
        });
        fares.push(unless(m + 1, if m < 200 { 0 } else { 4 }));
    }
    let terms = (0..512).step_by(2).map(|m| (None, vec![m, m + 1])).collect();
    Sheet { name: "denied pairs", width: 512, fares, terms, facts: vec![] }
}

/// A city tariff: 80 fare lines over 18 observed marks, with one or two conditions and up to two unless-marks each, and
/// 30 term lines: what a working day may bring.
fn city() -> Sheet {
    let mut s = Stream(25);
    let fares = (0..80).map(|i| city_fare(&mut s, 18 + i % 42)).collect();
    let mut terms: Vec<Term> = (0..24).map(|_| (Some(12 + s.below(29)), city_conditions(&mut s, 38))).collect();
    terms.extend((0..6).map(|_| (None, ascending([s.choose(1, 7..30), s.choose(1, 30..60)].concat()))));
    Sheet { name: "city", width: 60, fares, terms, facts: vec![0, 2, 3, 5, 9] }
}

fn city_conditions(s: &mut Stream, width: usize) -> Vec<usize> {
    let count = 1 + s.below(4) / 3;
    ascending(s.choose(count, 0..width))
}

fn city_fare(s: &mut Stream, head: usize) -> Fare {
    let width = if s.below(8) == 0 { 42 } else { 18 };
    let exceptions = [0, 1, 1, 2][s.below(4)];
    (head, city_conditions(s, width), ascending(s.choose(exceptions, 6..60)))
}

/// The same city tariff without terms: what is left when the book has nothing to say.
fn city_bare() -> Sheet {
    Sheet { name: "city, bare", terms: vec![], ..city() }
}

/// The sample tariff: how long the smallest calls take.
fn sample() -> Sheet {
    let fares = vec![(1, vec![3], vec![2]), (4, vec![3], vec![1])];
    let terms = vec![(Some(2), vec![0]), (None, vec![1, 2])];
    Sheet { name: "sample", width: 5, fares, terms, facts: vec![0, 3] }
}

/// Rounds, chains and denial tests together: in every round heads are to be tested, each test closes a chain of terms,
/// and a chain of fare lines is to be gone through again.
fn mixed() -> Sheet {
    let mut fares: Vec<Fare> = (1..256).map(|m| unless(m, m - 1)).collect();
    fares.extend((416..509).map(|m| fare_step(m, m + 1)));
    fares.push(fare_step(509, 511));
    let mut terms: Vec<Term> = (256..415).map(|m| term_step(m, m + 1)).collect();
    terms.extend((0..256).step_by(2).map(|m| term_step(415, m)));
    terms.push((None, vec![256, 510]));
    Sheet { name: "rounds, chains, tests", width: 512, fares, terms, facts: vec![511] }
}

/// Tests that cannot be skipped: each head leads to one of two marks that exclude each other, by a long chain of terms.
fn joint() -> Sheet {
    let fares = (0..128).map(|m| unless(m, m ^ 1)).collect();
    let mut terms: Vec<Term> = (128..509).filter(|&m| m != 318).map(|m| term_step(m, m + 1)).collect();
    terms.extend((0..128).map(|m| term_step(if m < 64 { 318 } else { 509 }, m)));
    terms.push((None, vec![128, 319]));
    Sheet { name: "tests not to be skipped", width: 512, fares, terms, facts: vec![] }
}

/// The slowest lawful tariff known, of 9 kB: more of all that `mixed` has, and lines that never stand in every pass.
fn worst() -> Sheet {
    let mut fares: Vec<Fare> = (1..330).map(|m| unless(m, m - 1)).collect();
    fares.resize(1024, fare_step(510, 510));
    let mut terms: Vec<Term> = (330..509).map(|m| term_step(m, m + 1)).collect();
    terms.extend((0..330).step_by(2).map(|m| term_step(509, m)));
    terms.push((None, vec![330, 510]));
    terms.resize(512, term_step(510, 510));
    Sheet { name: "slowest known", width: 512, fares, terms, facts: vec![511] }
}

/// The eleven tariffs that are timed.
pub fn all() -> [Sheet; 11] {
    [
        rounds(),
        fare_chain(),
        term_chain(),
        dense(),
        denied_pairs(),
        city(),
        city_bare(),
        sample(),
        mixed(),
        joint(),
        worst(),
    ]
}

/// A small random sheet.
pub fn random(s: &mut Stream) -> Sheet {
    let width = 2 + s.below(7);
    let fares = (0..s.below(10)).map(|_| (s.below(width), s.few(width, 2), s.few(width, 2))).collect();
    let terms = (0..s.below(4))
        .map(|_| (if s.below(2) == 0 { None } else { Some(s.below(width)) }, s.term_conditions(width)))
        .collect();
    let facts = s.few(width, 2);
    Sheet { name: "random", width, fares, terms, facts }
}
