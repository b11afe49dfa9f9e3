//! Lines `bits` by chance in a record made before: mostly right ones, wrong ones, which refusal 17 turns
//! back, and ones that break the form.

use crate::random::Random;
use crate::record::{Decl, Record};
use crate::refusals;
use crate::sizes::{unpadded, DeclSizes, Size, Tables};
use crate::sketch::Sketch;

/// One or two paddings at any places, so that they also stand behind an optional field, a payload or
/// another padding.
pub fn pad(sketch: &mut Sketch, random: &mut Random) {
    for _ in 0..random.between(1, 2) {
        let at = random.below(sketch.decls.len());
        let decl = &mut sketch.decls[at];
        if is_block(&decl.head) {
            let bytes = random.pick_number(&[0, 1, 2, 8, 64, 65_535]);
            let place = random.below(decl.fields.len() + 1);
            decl.fields.insert(place, format!("padding {bytes}"));
        }
    }
}

fn is_block(head: &str) -> bool {
    head.starts_with("packet ") || head.starts_with("struct ")
}

/// What is the matter with one of the lines.
#[derive(Clone, Copy, PartialEq)]
enum Fault {
    None,
    Wrong,
    BadValue,
    BadPlace,
}

/// The record's lines with `bits` in most packets and structs: all of them right in half of the records.
pub fn lines(sketch: &Sketch, random: &mut Random) -> Vec<String> {
    let mut lines = sketch.lines();
    let heads = sketch.decls.iter().map(|decl| &decl.head);
    let blocks: Vec<usize> = heads.enumerate().filter(|(_, head)| is_block(head)).map(|(at, _)| at).collect();
    let faulty = blocks[random.below(blocks.len())];
    let fault = match random.below(16) {
        0..=7 => Fault::None,
        8..=13 => Fault::Wrong,
        14 => Fault::BadValue,
        _ => Fault::BadPlace,
    };
    let seldom = random.pick_number(&[2, 4, 64]) as usize;
    let record = Record::read(&sketch.bytes()).ok();
    let tables = record.as_ref().and_then(tables_of);
    let sizes = |at: usize| Some((&record.as_ref()?.decls[at], &tables.as_ref()?.0[at]));

    // from the last one on, so that the places before it stay
    for at in blocks.into_iter().rev() {
        let fault = if at == faulty { fault } else { Fault::None };
        if fault == Fault::None && random.once_in(seldom) {
            continue;
        }
        let value = match (fault, sizes(at)) {
            (Fault::BadValue, _) => random.pick(&BAD_VALUES).to_string(),
            (Fault::Wrong, Some((decl, sizes))) => wrong(decl, sizes, random),
            (_, Some((_, sizes))) => written(sizes.decl),
            (_, None) => random.pick(&["0", "8", "64", "dynamic", "unknown"]).to_string(),
        };
        let line = format!("bits={value}");
        let behind = 1 + parent_line(&lines, at);
        match fault {
            Fault::BadPlace => misplace(&mut lines, behind, line, random),
            _ => lines.insert(behind, line),
        }
    }
    lines
}

/// None where refusals 3 to 6 turn the record back: its sizes cannot be computed.
fn tables_of(record: &Record) -> Option<Tables> {
    refusals::of_the_declarations(record).ok()?;
    Some(Tables::new(record))
}

/// Where the `parent` of the declaration at this place stands.
fn parent_line(lines: &[String], decl: usize) -> usize {
    let starts = lines.iter().enumerate().filter(|(_, line)| line.starts_with("decl="));
    let start = starts.map(|(at, _)| at).nth(decl).expect("a declaration starts with this key");
    start + 2
}

/// A size as a value of `bits`. One beyond every number, which is refusal 7, becomes the largest.
pub fn written(size: Size) -> String {
    match size {
        Size::Static(bits) => u64::try_from(bits).unwrap_or(u64::MAX).to_string(),
        Size::Dynamic => "dynamic".to_string(),
        Size::Unknown => "unknown".to_string(),
    }
}

/// Numbers that a size kept in fewer bits, or words kept as numbers, would be taken for.
const LARGE: [u64; 8] =
    [(1 << 31) - 1, 1 << 31, (1 << 31) + 1, (1 << 31) + 2, 1 << 32, 1 << 63, u64::MAX - 1, u64::MAX];

/// What one might take for the own size: with the parents, the payload, or both, and without paddings. Else
/// a number or word beside it, or far from it.
fn wrong(decl: &Decl, sizes: &DeclSizes, random: &mut Random) -> String {
    let right = written(sizes.decl);
    let own = sizes.decl;
    let others = [sizes.total(), own.plus(sizes.parent), own.plus(sizes.payload), unpadded(decl, sizes)];
    let others: Vec<String> = others.into_iter().map(written).filter(|other| *other != right).collect();
    if !others.is_empty() && random.once_in(2) {
        return others[random.below(others.len())].clone();
    }
    let bits = right.parse().unwrap_or(0u64);
    let made = match random.below(8) {
        0 => bits.saturating_add(1).to_string(),
        1 => bits.saturating_sub(1).to_string(),
        2 | 3 => random.pick(&["dynamic", "unknown"]).to_string(),
        4 => random.pick_number(&LARGE).to_string(),
        5 => bits.saturating_add(random.pick_number(&[1 << 31, 1 << 32, 1 << 63])).to_string(),
        _ => random.pick_number(&[0, 1, bits / 8, bits.saturating_mul(8)]).to_string(),
    };
    if made == right {
        return bits.wrapping_add(1).to_string();
    }
    made
}

/// No value of `bits`.
#[rustfmt::skip]
pub const BAD_VALUES: [&str; 36] = [
    "", "-", "--", "00", "08", "007", "+8", "-8", " 8", "8 ", "8\r", "8\t", "8\0", "0x8", "8.0", "8bits", "1,024",
    "18446744073709551616", "18446744073709551624", "99999999999999999999", "340282366920938463463374607431768211464",
    "Dynamic", "DYNAMIC", " dynamic", "dynamic ", "dynamic\r", "dynami", "dynamics", "dynamic0",
    "Unknown", "unknow", "unknowns", "unknown=", "dynamicunknown", "static", "Static(8)",
];

/// The line at another place, twice, or under another key.
fn misplace(lines: &mut Vec<String>, behind: usize, line: String, random: &mut Random) {
    let any = random.between(0, lines.len() as u64) as usize;
    match random.below(8) {
        0 => lines.insert(behind - 1, line),
        1 => lines.insert(behind - 2, line),
        2 | 3 if any != behind => lines.insert(any, line),
        4 => lines.push(line),
        5 => lines.insert(
            behind,
            line.replacen("bits", random.pick(&["bit", "Bits", "size", "bitss", " bits"]), 1),
        ),
        6 => lines.insert(behind, line.replacen('=', random.pick(&["", " =", "==", ":"]), 1)),
        _ => {
            lines.insert(behind, line.clone());
            lines.insert(behind, line);
        }
    }
}
