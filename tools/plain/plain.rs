//! A plain search through all standard keys, in ordinary Rust and without proofs: the yardstick
//! that finding is measured against. `tools/plain/run` compiles and runs both.
//!
//! It carries as much as the planner does: it goes through the same standard keys in dictionary
//! order, has the whole tally of each and the score of the tally, and keeps the first best. Its
//! counts, too, are carried from column to column. It knows no wishes.

use std::cmp::Ordering;
use std::time::Instant;

/// The numbers that a trial is opened with.
#[derive(Clone, Copy)]
struct Shape {
    w: u8,
    s: u8,
    n1: u8,
    n2: u8,
}

#[derive(Clone, Copy)]
struct Tally {
    words: [u16; 8],
    m1: u16,
    m2: u16,
    q1: u16,
    q2: u16,
}

/// How many effects of each length have each word as their alias, the lengths outermost.
#[derive(Clone)]
struct Counts([[u16; 32]; 11]);

impl Counts {
    fn new() -> Counts {
        let mut counts = [[0; 32]; 11];
        counts[0][0] = 1;
        Counts(counts)
    }

    fn place(&self, column: u8) -> Counts {
        let mut new = self.clone();
        for length in 1..11 {
            for word in 0..32 {
                new.0[length][word] += self.0[length - 1][(word ^ column as usize) % 32];
            }
        }
        new
    }

    /// The number with one more column.
    fn with(&self, column: u8, word: u8, length: usize) -> u16 {
        self.0[length][word as usize % 32] + self.0[length - 1][(word ^ column) as usize % 32]
    }

    fn unmixed_pairs(&self, column: u8, words: std::ops::Range<u8>) -> (u16, u16) {
        let mut sum = 0;
        let mut squares = 0;
        for word in words {
            let main_effects = self.with(column, word, 1);
            let pairs = self.with(column, word, 2);
            let pairs = if main_effects == 0 { pairs } else { 0 };
            sum += pairs;
            squares += pairs * pairs;
        }
        (sum, squares)
    }

    /// The tally with one more column. It is not inlined, since otherwise the compiler leaves out
    /// the figures that a ranking does not read.
    #[inline(never)]
    fn tally_with(&self, shape: Shape, column: u8) -> Tally {
        let (m1, q1) = self.unmixed_pairs(column, 1..1 << shape.w);
        let (m2, q2) = self.unmixed_pairs(column, 1 << shape.w..1 << (shape.w + shape.s));
        Tally {
            words: std::array::from_fn(|i| self.with(column, 0, i + 3)),
            m1,
            m2,
            q1,
            q2,
        }
    }
}

/// A score is better where it is less.
trait Ranking {
    type Score: Ord;

    fn score(&self, tally: &Tally) -> Self::Score;
}

struct Aberration;

impl Ranking for Aberration {
    type Score = [u16; 4];

    fn score(&self, tally: &Tally) -> [u16; 4] {
        let words = &tally.words;
        [words[0], words[1], words[2], words[3]]
    }
}

struct Penalty;

impl Ranking for Penalty {
    type Score = u32;

    fn score(&self, tally: &Tally) -> u32 {
        let words = tally.words.map(u32::from);
        64 * words[0] + 16 * words[1] + 4 * words[2] + words[3]
    }
}

struct Weight {
    a: u64,
    b: u64,
}

impl Ranking for Weight {
    type Score = (std::cmp::Reverse<u64>, u64);

    fn score(&self, tally: &Tally) -> Self::Score {
        let (a, b) = (self.a, self.b);
        let sum = a * u64::from(tally.m1) + b * u64::from(tally.m2);
        let squares = a * a * u64::from(tally.q1) + b * b * u64::from(tally.q2);
        (std::cmp::Reverse(sum), squares)
    }
}

struct Search<'a, R: Ranking> {
    shape: Shape,
    ranking: &'a R,
    columns: Vec<u8>,
    keys: u64,
    best: Option<(R::Score, Vec<u8>)>,
}

impl<R: Ranking> Search<'_, R> {
    /// What is open after a column that may stand next.
    fn after(&self, (whole, sub): (u8, u8), column: u8) -> Option<(u8, u8)> {
        let Shape { w, s, n1, .. } = self.shape;
        let is_whole = column != 0 && column < 1 << w;
        let is_sub = column >= 1 << w;
        let fits = if self.columns.len() < n1 as usize { is_whole } else { is_sub };
        if !fits || self.columns.contains(&column) {
            return None;
        }
        let (low, high) = (column % (1 << w), column >> w);
        if high >= 1 << sub {
            return (sub < s && column == 1 << (w + sub)).then_some((whole, sub + 1));
        }
        match low.cmp(&(1 << whole)) {
            Ordering::Less => Some((whole, sub)),
            Ordering::Equal if whole < w => Some((whole + 1, sub)),
            _ => None,
        }
    }

    fn walk(&mut self, counts: &Counts, (whole, sub): (u8, u8)) {
        let Shape { w, s, n1, n2 } = self.shape;
        let left = n1 + n2 - self.columns.len() as u8;
        if left < w - whole + (s - sub) {
            return;
        }
        for column in 0..1 << (w + s) {
            let Some(opened) = self.after((whole, sub), column) else {
                continue;
            };
            if left > 1 {
                self.columns.push(column);
                self.walk(&counts.place(column), opened);
                self.columns.pop();
            } else if opened == (w, s) {
                self.judge(counts, column);
            }
        }
    }

    fn judge(&mut self, counts: &Counts, column: u8) {
        self.keys += 1;
        let score = self.ranking.score(&counts.tally_with(self.shape, column));
        if self.best.as_ref().is_none_or(|(best, _)| score < *best) {
            let mut columns = self.columns.clone();
            columns.push(column);
            self.best = Some((score, columns));
        }
    }
}

fn measure<R: Ranking>(name: &str, ranking: &R, shape: Shape) {
    let start = Instant::now();
    let mut search = Search {
        shape,
        ranking,
        columns: Vec::new(),
        keys: 0,
        best: None,
    };
    search.walk(&Counts::new(), (0, 0));
    let time = start.elapsed().as_millis();
    let Shape { w, s, n1, n2 } = shape;
    let best = search.best.map(|(_, columns)| columns).unwrap_or_default();
    eprintln!("{name} {w} {s} {n1} {n2}: {time} ms, {} keys, {best:?}", search.keys);
}

fn main() {
    for (w, s, n1, n2) in [(2, 3, 1, 9), (3, 2, 1, 9), (3, 2, 2, 8)] {
        let shape = Shape { w, s, n1, n2 };
        measure("aberration", &Aberration, shape);
        measure("penalty", &Penalty, shape);
        measure("weight", &Weight { a: 1, b: 2 }, shape);
    }
}
