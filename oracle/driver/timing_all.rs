//! Timing over files of 1 to 32 targets: all at once beside one by one, in the Rust and, where it is linked, in the port.

use crate::lean;
use crate::record::Record;
use crate::sections::{retargeted, sections, whole};
use crate::sketch;
use crate::timing::nanoseconds;
#[cfg(port)]
use crate::{answer::BUFFER, port};
use std::hint::black_box;

const ROUNDS: u32 = 400;

/// A struct and packets that hold it: a file as of one station.
fn file(targets: usize) -> Vec<u8> {
    let packet = "scalar version 3, flag has_heater, scalar state 4, typedef last Reading, \
                  scalar heater_amps 16 if has_heater 1, count history 8, array history - Reading - -, \
                  size _payload_ 8, payload -, scalar crc 16";
    let packets = (1..targets).map(|at| format!("; packet Frame{at} -: {packet}"));
    let reading = "struct Reading -: scalar amps 12, scalar volts 12, scalar lamp 8";
    sketch::record(&format!("little Reading lite; {reading}{}", packets.collect::<String>()))
}

/// The quickest rounds, in nanoseconds.
struct Times {
    rust_each: u64,
    rust_all: u64,
    port_each: u64,
    port_all: u64,
}

fn times(record: &[u8], each: &[Vec<u8>]) -> Times {
    #[cfg(port)]
    let mut buffer = vec![0; BUFFER];
    let mut least =
        Times { rust_each: u64::MAX, rust_all: u64::MAX, port_each: u64::MAX, port_all: u64::MAX };
    for _ in 0..ROUNDS {
        let rust_each = nanoseconds(|| each.iter().map(|record| lean::lines(black_box(record)).len()).sum());
        let rust_all = nanoseconds(|| lean::sections(black_box(record)).len());
        #[cfg(port)]
        let (port_each, port_all) = (
            nanoseconds(|| each.iter().map(|record| port::call(black_box(record), &mut buffer).1).sum()),
            nanoseconds(|| port::call_all(black_box(record), &mut buffer).1),
        );
        #[cfg(not(port))]
        let (port_each, port_all) = (0, 0);
        least.rust_each = least.rust_each.min(rust_each);
        least.rust_all = least.rust_all.min(rust_all);
        least.port_each = least.port_each.min(port_each);
        least.port_all = least.port_all.min(port_all);
    }
    least
}

/// Fails loudly where the four ways do not give one text.
fn assert_equal(record: &[u8], each: &[Vec<u8>]) -> usize {
    let due = whole(&sections(record)).expect("every target is accepted");
    assert_eq!(lean::sections(record), due, "the lean reader reads another record");
    let lines: usize = each.iter().map(|record| lean::lines(record).len()).sum();
    let target_lines = due.split(|byte| *byte == b'\n').filter(|line| line.starts_with(b"// target="));
    assert_eq!(lines, due.len() - target_lines.map(|line| line.len() + 1).sum::<usize>());
    #[cfg(port)]
    {
        let mut buffer = vec![0; BUFFER];
        assert_eq!(port::call_all(record, &mut buffer), (0, due.len()));
        assert!(buffer.starts_with(&due));
    }
    due.len()
}

/// One row for each number of targets. The records of the single calls are made before the clock starts.
pub fn print() {
    println!("| targets | bytes | bytes of the whole | one by one, ns | all at once, ns | for each target | ratio | the Rust, one by one | all at once |");
    println!("|---|---|---|---|---|---|---|---|---|");
    for targets in [1, 2, 4, 8, 16, 32] {
        let record = file(targets);
        let names: Vec<String> =
            Record::read(&record).expect("a record").targets().map(|decl| decl.name.clone()).collect();
        let each: Vec<Vec<u8>> = names.iter().map(|name| retargeted(&record, name)).collect();
        let length = assert_equal(&record, &each);
        let Times { rust_each, rust_all, port_each, port_all } = times(&record, &each);
        let ratio = port_all as f64 / port_each.max(1) as f64;
        println!(
            "| {targets} | {} | {length} | {port_each} | {port_all} | {} | {ratio:.2} | {rust_each} | {rust_all} |",
            record.len(),
            port_all / targets as u64,
        );
    }
}
