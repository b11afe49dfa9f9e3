//! Records about the head's line `raw`, by chance: closed enums as bit fields, in arrays and as optional fields, between
//! all that is no closed enum, with names that read like the variables of the lines; and heads whose line breaks the form.

use crate::damage::HeadLine;
use crate::random::Random;
use crate::sketch::{DeclSketch, Sketch};

/// Closed enums and their bits.
const CLOSED: [(&str, u64); 9] = [
    ("Bit", 1),
    ("Pair", 2),
    ("Half", 4),
    ("Half", 4),
    ("Odd", 5),
    ("Mode", 8),
    ("Mode", 8),
    ("Wide", 16),
    ("Most", 64),
];

/// What the fields name. `Any` and `Both` are open, `Done` is complete.
const TYPES: [(&str, &str); 13] = [
    ("Bit", "enum Bit 1 0 0"),
    ("Pair", "enum Pair 2 0 0"),
    ("Half", "enum Half 4 0 0"),
    ("Odd", "enum Odd 5 0 0"),
    ("Mode", "enum Mode 8 0 0"),
    ("Wide", "enum Wide 16 0 0"),
    ("Most", "enum Most 64 0 0"),
    ("Any", "enum Any 8 1 0"),
    ("Done", "enum Done 8 0 1"),
    ("Both", "enum Both 4 1 1"),
    ("Cell", "enum Inside 8 0 0; struct Cell -: typedef i Inside, typedef k Inside"),
    ("Blob", "custom Blob -"),
    ("Rest", "struct Rest -: payload -"),
];

const NAMES: [&str; 8] = ["a", "b", "d", "e", "x", "state", "power", "c"];

/// Names that read like the variables of the lines, and some that just do not.
#[rustfmt::skip]
pub const LIKE_RAW: [&str; 12] = [
    "raw_value", "raw_value", "raw_value0", "raw_value0", "raw_value1", "raw_value2", "raw_value12", "raw_value00",
    "raw_value_", "raw_value0_", "Raw_value0", "raw_valu0",
];

/// A target with closed enums, and with the types that it names.
pub fn sketch(random: &mut Random) -> Sketch {
    let mut fields = Vec::new();
    match random.below(12) {
        0 => many(&mut fields, random),
        1..=8 => run(&mut fields, random),
        _ => {}
    }
    for _ in 0..random.between(0, 5) {
        next_fields(&mut fields, random);
    }
    if random.once_in(16) {
        fields.push(format!("typedef {} {}", name(random), random.pick(&["Bit", "Pair", "Half", "Odd"])));
    }
    fields.truncate(64);
    let kind = random.pick(&["packet", "packet", "struct"]);
    let target = if random.once_in(16) { random.pick(&LIKE_RAW) } else { "Lamp" };
    let parent = if random.once_in(8) { "Cell" } else { "-" };
    let is_named =
        |name: &str| parent == name || fields.iter().any(|field| field.split(' ').any(|word| word == name));
    let types = TYPES.iter().filter(|(name, _)| is_named(name));
    let mut decls: Vec<DeclSketch> =
        types.flat_map(|(_, decls)| decls.split("; ").map(DeclSketch::new)).collect();
    decls.push(DeclSketch { head: format!("{kind} {target} {parent}"), fields });
    let (endian, arrays) = (random.pick(&["little", "big"]), random.pick(&["lite", "full"]));
    Sketch { head: format!("{endian} {target} {arrays}"), decls }
}

fn name(random: &mut Random) -> &'static str {
    if random.once_in(8) {
        return random.pick(&LIKE_RAW);
    }
    random.pick(&NAMES)
}

/// Up to 64 closed enums, in chunks of their own or several in each.
fn many(fields: &mut Vec<String>, random: &mut Random) {
    let (type_, width) = CLOSED[random.below(CLOSED.len())];
    let in_an_octet = if width < 8 { 8 } else { 1 };
    for _ in 0..random.between(11, 64) / in_an_octet * in_an_octet {
        fields.push(format!("typedef {} {type_}", name(random)));
    }
}

/// One field, or a few that belong together.
fn next_fields(fields: &mut Vec<String>, random: &mut Random) {
    match random.below(20) {
        0..=8 => run(fields, random),
        9..=11 => array(fields, random),
        12..=15 => optional(fields, random),
        16 => around(fields, random),
        17 => fields.push(format!(
            "typedef {} {}",
            name(random),
            random.pick(&["Cell", "Cell", "Blob", "Rest"])
        )),
        18 if random.once_in(2) => fields.push(random.pick(&["payload -", "body"]).to_string()),
        18 => fields.extend(["size _payload_ 8".to_string(), "payload -".to_string()]),
        _ => fields.push(random.pick(&["checksum k", "padding 2", "reserved 8"]).to_string()),
    }
}

/// Bit fields that fill whole octets, most of them closed enums.
fn run(fields: &mut Vec<String>, random: &mut Random) {
    let mut left = random.pick_number(&[8, 8, 8, 16, 16, 24, 32, 64]);
    while left > 0 {
        left -= bit_field(fields, left, random);
    }
}

/// A bit field of at most so many bits. Yields its width.
fn bit_field(fields: &mut Vec<String>, left: u64, random: &mut Random) -> u64 {
    let (closed, width) = CLOSED[random.below(CLOSED.len())];
    let id = name(random);
    if width <= left && !random.once_in(4) {
        fields.push(format!("typedef {id} {closed}"));
        return width;
    }
    let small = random.between(1, left.min(8));
    let (field, width) = match random.below(10) {
        0 | 1 if left >= 8 => (format!("typedef {id} {}", random.pick(&["Any", "Done"])), 8),
        2 if left >= 4 => (format!("typedef {id} Both"), 4),
        3 if width <= left => {
            (format!("fixedenum {closed} {}", random.pick(&["OFF", "ON", "raw_value0"])), width)
        }
        4 => (format!("fixed {small} 1"), small),
        5 => (format!("flag {id}"), 1),
        6 => (format!("reserved {small}"), small),
        _ => (format!("scalar {id} {small}"), small),
    };
    fields.push(field);
    width
}

/// An array of closed enums, or of others, in each of the four sizes.
fn array(fields: &mut Vec<String>, random: &mut Random) {
    let id = name(random);
    let element = random.pick(&["- Mode", "- Mode", "- Wide", "- Done", "- Any", "- Cell", "- Blob", "8 -"]);
    let count = match random.below(4) {
        0 => random.pick(&["0", "1", "2", "3", "65535"]),
        1 => {
            fields.push(format!("count {id} 8"));
            "-"
        }
        2 => {
            fields.push(format!("size {id} 8"));
            "-"
        }
        _ => "-",
    };
    fields.push(format!("array {id} {element} {} {count}", random.pick(&["-", "-", "-", "+1"])));
    if random.once_in(4) {
        fields.push(format!("padding {}", random.pick(&["0", "4", "16"])));
    }
}

/// An optional field, mostly a closed enum, behind a field that its condition names.
fn optional(fields: &mut Vec<String>, random: &mut Random) {
    let cond = if random.once_in(3) { random.pick(&LIKE_RAW) } else { "c" };
    match random.below(4) {
        0 | 1 => fields.extend([format!("flag {cond}"), "reserved 7".to_string()]),
        2 => fields.push(format!("scalar {cond} 8")),
        _ => {}
    }
    let id = name(random);
    let field = match random.below(8) {
        0..=3 => format!("typedef {id} {}", random.pick(&["Mode", "Mode", "Wide", "Most"])),
        4 => format!("typedef {id} {}", random.pick(&["Any", "Done"])),
        5 => format!("typedef {id} {}", random.pick(&["Cell", "Blob"])),
        _ => format!("scalar {id} 8"),
    };
    fields.push(format!("{field} if {cond} {}", random.pick(&["0", "1", "1", "7"])));
}

/// A chunk of closed enums that goes on behind an array or an optional field.
fn around(fields: &mut Vec<String>, random: &mut Random) {
    fields.push(format!("typedef {} Half", name(random)));
    match random.below(3) {
        0 => fields.push(format!("array {} - Mode - 2", name(random))),
        1 => fields.push(format!("typedef {} Mode if c 1", name(random))),
        _ => fields.push("checksum k".to_string()),
    }
    fields.push(format!("typedef {} Half", name(random)));
}

/// No value of `raw`.
#[rustfmt::skip]
pub const BAD_VALUES: [&str; 32] = [
    "", "-", "--", "0", "1", "Plain", "PLAIN", "plai", "plains", "plain0", " plain", "plain ", "plain\r", "plain\t",
    "plain\0", "plain=", "Numbered", "NUMBERED", "numbere", "numberedd", "numbered1", " numbered", "numbered ", "numbered\r",
    "number", "numbers", "plainnumbered", "plain numbered", "plain,numbered", "padded", "raw_value0", "full",
];

/// Other keys, and other forms of this one, before a value. `products` has a value in common.
#[rustfmt::skip]
pub const BAD_STARTS: [&str; 20] = [
    "Raw=", "RAW=", "ra=", "raws=", "raw ", "raw =", "raw==", "raw:", " raw=", "\traw=", "raw_value=", "raw0=", "rawraw=",
    "numbered=", "trailing=", "arrays=", "products=", "bits=", "=", "",
];

/// The line, for `damage::break_head_line`.
pub const LINE: HeadLine = HeadLine {
    start: "raw=",
    bad_values: &BAD_VALUES,
    bad_starts: &BAD_STARTS,
    behind: ["raw=plain", "raw=numbered", "trailing=plain", "products=divide", ""],
};
