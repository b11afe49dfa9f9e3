//! Timing over records that answer 0: the Rust and, where it is linked, the port, in turn.

use crate::answer::{answer, BUFFER};
use crate::families::families;
use crate::generate::{self, Flavour};
use crate::lean;
#[cfg(port)]
use crate::port;
use std::hint::black_box;
use std::ops::Range;
use std::time::Instant;

pub const ROUNDS: usize = 25;

/// Classes of records by their bytes, each up to a length.
const CLASSES: [usize; 5] = [256, 512, 1_024, 4_096, 16_384];

/// Nanoseconds of the Rust and of the port.
#[derive(Clone, Copy, Default)]
pub struct Times {
    pub rust: u64,
    pub port: u64,
}

impl Times {
    fn plus(self, other: Times) -> Times {
        Times { rust: self.rust + other.rust, port: self.port + other.port }
    }

    fn least(self, other: Times) -> Times {
        Times { rust: self.rust.min(other.rust), port: self.port.min(other.port) }
    }

    pub fn ratio(self) -> f64 {
        self.port as f64 / self.rust.max(1) as f64
    }
}

pub fn nanoseconds(run: impl FnOnce() -> usize) -> u64 {
    let start = Instant::now();
    black_box(run());
    start.elapsed().as_nanos() as u64
}

/// One record in the Rust, then in the port, which is lent a buffer that is there already.
fn times(record: &[u8], buffer: &mut [u8]) -> Times {
    let rust = nanoseconds(|| lean::lines(black_box(record)).len());
    #[cfg(port)]
    let port = nanoseconds(|| port::call(black_box(record), buffer).1);
    #[cfg(not(port))]
    let port = nanoseconds(|| buffer.len());
    Times { rust, port }
}

/// The times of some records: round by round, and in each record by record.
pub struct Measured {
    bytes: Vec<usize>,
    rounds: Vec<Vec<Times>>,
}

pub fn measure(records: &[Vec<u8>], rounds: usize) -> Measured {
    let mut buffer = vec![0; BUFFER];
    let mut round = || records.iter().map(|record| times(record, &mut buffer)).collect();
    Measured { bytes: records.iter().map(Vec::len).collect(), rounds: (0..rounds).map(|_| round()).collect() }
}

/// What the records of a class took.
pub struct Summary {
    pub records: usize,
    pub bytes: usize,
    /// The sum of each record's quickest of all rounds, so that a busy machine matters little.
    pub quickest: Times,
    /// The median of the sums of whole rounds, of each side by itself.
    pub median: Times,
}

impl Measured {
    /// The records whose bytes are in a range.
    pub fn class(&self, bytes: Range<usize>) -> Summary {
        self.summary((0..self.bytes.len()).filter(|at| bytes.contains(&self.bytes[*at])).collect())
    }

    /// One record.
    pub fn one(&self, at: usize) -> Summary {
        self.summary(vec![at])
    }

    pub fn all(&self) -> Summary {
        self.summary((0..self.bytes.len()).collect())
    }

    fn summary(&self, chosen: Vec<usize>) -> Summary {
        let quickest = |at: &usize| self.rounds.iter().map(|round| round[*at]).reduce(Times::least);
        let total =
            |round: &Vec<Times>| chosen.iter().map(|at| round[*at]).fold(Times::default(), Times::plus);
        let totals: Vec<Times> = self.rounds.iter().map(total).collect();
        Summary {
            records: chosen.len(),
            bytes: chosen.iter().map(|at| self.bytes[*at]).sum(),
            quickest: chosen.iter().filter_map(quickest).fold(Times::default(), Times::plus),
            median: Times {
                rust: median(totals.iter().map(|total| total.rust)),
                port: median(totals.iter().map(|total| total.port)),
            },
        }
    }
}

fn median(all: impl Iterator<Item = u64>) -> u64 {
    let mut all: Vec<u64> = all.collect();
    all.sort_unstable();
    all[all.len() / 2]
}

impl Summary {
    /// The means of a record.
    fn row(&self, name: &str) {
        let mean = |sum: u64| sum as f64 / self.records as f64;
        let side = |times: Times| {
            format!("{:.0} | {:.0} | {:.2}", mean(times.rust), mean(times.port), times.ratio())
        };
        let (quickest, median) = (side(self.quickest), side(self.median));
        println!("| {name} | {} | {:.0} | {quickest} | {median} |", self.records, mean(self.bytes as u64));
    }
}

/// The accepted ones of some records.
pub fn accepted(records: impl Iterator<Item = Vec<u8>>) -> Vec<Vec<u8>> {
    records.filter(|record| answer(record).is_ok()).inspect(|record| assert_equal(record)).collect()
}

/// Before any clock starts: fails loudly where the lean reader, or the port, gives other lines than the judge.
pub fn assert_equal(record: &[u8]) {
    let due = answer(record).expect("an accepted record");
    assert_eq!(lean::lines(record), due, "the lean reader reads another record");
    #[cfg(port)]
    {
        let mut buffer = vec![0; BUFFER];
        assert_eq!(port::call(record, &mut buffer), (0, due.len()));
        assert!(buffer.starts_with(&due), "the port gives other lines");
    }
}

pub fn heading() {
    println!("| records | how many | bytes | the Rust, ns | the port, ns | ratio | the Rust, median | the port, median | ratio |");
    println!("|---|---|---|---|---|---|---|---|---|");
}

/// A row for all, and one for each class that has any.
pub fn rows(name: &str, measured: &Measured) {
    measured.all().row(name);
    let mut from = 0;
    for to in CLASSES {
        let class = measured.class(from..to + 1);
        if class.records > 0 {
            class.row(&format!("{name}, up to {to} bytes"));
        }
        from = to + 1;
    }
}

/// Mixed records by chance, all and by their length, and the families.
pub fn print(seed: u64, count: usize) {
    heading();
    let records = accepted(generate::records(Flavour::Mixed, seed, count));
    rows("mixed", &measure(&records, ROUNDS));
    for (name, record) in families() {
        assert_equal(&record);
        measure(&[record], ROUNDS).all().row(name);
    }
}
