//! Document 02, Card 2: the accepted records of a load (docs/LOAD.md), timed in the Rust and in the port; and how both times grow.

use crate::growth::{self, Point};
use crate::timing::{accepted, assert_equal, heading, measure, rows, Summary, ROUNDS};

/// For records that grow in one thing, which are few.
const POINT_ROUNDS: usize = 1_000;

/// Classes of the load's records for the curve of their times, of so many bytes each.
const CLASS: usize = 512;

/// The records of a load: each is followed by an empty line, which is no part of it.
fn records(load: &[u8]) -> Vec<Vec<u8>> {
    let text = std::str::from_utf8(load).expect("a load is ASCII");
    let record = |record: &str| {
        let record = record.strip_suffix("\n\n").expect("a load ends with an empty line");
        format!("{record}\n").into_bytes()
    };
    text.split_inclusive("\n\n").map(record).collect()
}

fn milliseconds(nanoseconds: u64) -> f64 {
    nanoseconds as f64 / 1e6
}

/// Both times and their ratio, by each record's quickest round and by the median of rounds, of all and by record size.
pub fn print(load: &[u8]) {
    let all = records(load);
    let count = all.len();
    let records = accepted(all.into_iter());
    println!("{count} records, {} of them answer 0: these are timed, {ROUNDS} rounds, each record in the Rust and then in the port.", records.len());
    let measured = measure(&records, ROUNDS);
    let total = measured.all();
    for (name, times) in
        [("each record's quickest, summed", total.quickest), ("the median round", total.median)]
    {
        let (rust, port) = (milliseconds(times.rust), milliseconds(times.port));
        println!("{name}: the Rust {rust:.2} ms, the port {port:.2} ms, ratio {:.3}", times.ratio());
    }
    println!();
    heading();
    rows("the load", &measured);
}

/// A line for each point of each curve: what grows, the curve, how far, the Rust's time and the port's, with tabs between.
pub fn print_growth(load: &[u8]) {
    let points: Vec<Point> = growth::points();
    points.iter().for_each(|point| assert_equal(&point.record));
    let grown: Vec<Vec<u8>> = points.iter().map(|point| point.record.clone()).collect();
    let measured = measure(&grown, POINT_ROUNDS);
    for (at, Point { grows, curve, far, .. }) in points.iter().enumerate() {
        print_point(grows, curve, *far, &measured.one(at));
    }
    let measured = measure(&accepted(records(load).into_iter()), ROUNDS);
    for from in (0..16_384).step_by(CLASS) {
        let class = measured.class(from..from + CLASS);
        if class.records > 0 {
            print_point("bytes", "the load, by classes of 512 bytes", class.bytes / class.records, &class);
        }
    }
}

/// The means of a record.
fn print_point(grows: &str, curve: &str, far: usize, summary: &Summary) {
    let mean = |sum: u64| sum / summary.records as u64;
    let (rust, port) = (mean(summary.quickest.rust), mean(summary.quickest.port));
    println!("{grows}\t{curve}\t{far}\t{rust}\t{port}");
}
