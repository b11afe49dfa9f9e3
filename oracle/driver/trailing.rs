//! Records about the head's line `trailing`, by chance: payloads, bodies and typedefs of unknown size with
//! arrays behind them, most of these padded; and heads whose line breaks the form.

use crate::damage::HeadLine;
use crate::random::Random;
use crate::sketch::{DeclSketch, Sketch};

/// What the fields name: of static, dynamic and unknown size. `Full` is static by its padding.
const TYPES: [(&str, &str); 8] = [
    ("Cell", "struct Cell -: scalar c 24"),
    ("Mode", "enum Mode 8 0 0"),
    ("Crc", "checksum Crc 16"),
    ("Blob", "custom Blob -"),
    ("Sized", "struct Sized -: size _payload_ 8, payload -"),
    ("Rest", "struct Rest -: scalar r 8, payload -"),
    ("Tail", "struct Tail -: array t 8 - - -"),
    ("Full", "struct Full -: array f 8 - - -, padding 4"),
];

const NAMES: [&str; 6] = ["a", "b", "d", "e", "x", "amps"];
const PADDINGS: [u64; 10] = [0, 1, 2, 3, 4, 8, 8, 64, 4_096, 65_535];

/// A target with a field that needs a trailing size, and with the types that it names.
pub fn sketch(random: &mut Random) -> Sketch {
    let mut fields = Vec::new();
    for _ in 0..random.below(3) {
        front(&mut fields, random);
    }
    opening(&mut fields, random);
    for _ in 0..random.between(1, 4) {
        later(&mut fields, random);
    }
    let kind = random.pick(&["packet", "packet", "struct"]);
    let parent = if random.once_in(8) { "Cell" } else { "-" };
    let is_named = |name: &str| parent == name || fields.iter().any(|field| field.contains(name));
    let types = TYPES.iter().filter(|(name, _)| is_named(name));
    let mut decls: Vec<DeclSketch> = types.map(|(_, decl)| DeclSketch::new(decl)).collect();
    decls.push(DeclSketch { head: format!("{kind} Lamp {parent}"), fields });
    Sketch { head: head(random), decls }
}

fn head(random: &mut Random) -> String {
    format!("{} Lamp {}", random.pick(&["little", "big"]), random.pick(&["lite", "full"]))
}

/// Later arrays that come to about 2^31 bits, and behind them padded ones that refusal 7 does not count: `b` has
/// no static size, nor so has the declaration.
pub fn large_sketch(block: &str, random: &mut Random) -> Sketch {
    let octets = random.pick_number(&[4_094, 4_095, 4_095, 4_096]);
    let bits = random.between(1, 8);
    let mut fields = vec!["typedef b Blob".to_string()];
    opening(&mut fields, random);
    fields.push("array f - Block - 4096".to_string());
    fields.push(format!("array g 8 - - {octets}"));
    for _ in 0..random.between(0, 27) {
        fields.push(format!("array h {} - - -", random.pick(&["8", "16"])));
        fields.push(format!("padding {}", random.pick_number(&[1, 4_096, 65_535, 65_535])));
    }
    fields.push(format!("scalar s {bits}"));
    let types = "struct Rest -: payload -; struct Tail -: array t 8 - - -; custom Blob -";
    let mut sketch = Sketch::new(&format!("{}; {block}; {types}; packet Lamp -", head(random)));
    sketch.decls.last_mut().expect("the target stands last").fields = fields;
    sketch
}

fn name(random: &mut Random) -> &'static str {
    random.pick(&NAMES)
}

fn front(fields: &mut Vec<String>, random: &mut Random) {
    let of = name(random);
    match random.below(7) {
        0 => fields.push(format!("scalar {of} 16")),
        1 => fields.extend(["flag c".to_string(), "reserved 7".to_string()]),
        2 => fields.push("typedef t Blob".to_string()),
        3 => fields.push(format!("size {of} 8")),
        4 => fields.push(format!("count {of} 16")),
        5 => fields.push(format!("elemsize {of} 8")),
        _ if random.once_in(4) => fields.push("scalar x 4".to_string()),
        _ => {}
    }
}

/// Mostly one that needs a trailing size; else one with a size, or one that takes the whole span.
fn opening(fields: &mut Vec<String>, random: &mut Random) {
    if random.once_in(10) {
        fields.push(format!("size {} 8", random.pick(&["_payload_", "_body_"])));
    }
    let field = match random.below(24) {
        0..=9 => "payload -",
        10 => "payload +1",
        11..=14 => "body",
        15..=18 => "typedef t Rest",
        19..=21 => "typedef u Tail",
        22 => "typedef v Sized",
        _ => "array z 8 - - -",
    };
    fields.push(field.to_string());
    if random.once_in(8) {
        padding(fields, random);
    }
    if random.once_in(16) {
        fields.push(random.pick(&["payload -", "body", "typedef t Rest"]).to_string());
    }
}

fn later(fields: &mut Vec<String>, random: &mut Random) {
    let id = name(random);
    match random.below(16) {
        0 | 1 => fields.push(format!("scalar {id} {}", random.pick_number(&[8, 16, 24, 64]))),
        2 => return around(fields, random),
        3 => fields.push(format!("typedef {id} {}", random.pick(&["Cell", "Mode", "Crc", "Full"]))),
        4 if random.once_in(2) => {
            fields.push(format!("typedef {id} {}", random.pick(&["Blob", "Sized", "Rest"])));
        }
        5 if random.once_in(4) => fields.push(format!("scalar {id} 8 if c 1")),
        6 => fields.push(format!("checksum {id}")),
        _ => return array(fields, random),
    }
    if random.once_in(3) {
        padding(fields, random);
    }
}

/// A chunk that goes on behind an array.
fn around(fields: &mut Vec<String>, random: &mut Random) {
    let width = random.between(1, 7);
    fields.push(format!("scalar {} {width}", name(random)));
    array(fields, random);
    if !random.once_in(4) {
        fields.push(format!("scalar {} {}", name(random), 8 - width));
    }
}

/// An array of any shape, and mostly its padding: what stands between, which one is first, and whether one of the
/// two is optional, decides whether it counts.
fn array(fields: &mut Vec<String>, random: &mut Random) {
    let id = name(random);
    let element = random.pick(&[
        "8 -", "8 -", "8 -", "16 -", "24 -", "64 -", "- Cell", "- Mode", "- Full", "- Blob", "- Sized",
        "- Rest", "- Tail",
    ]);
    let modifier = random.pick(&["-", "-", "-", "+1", "-2"]);
    let count = match random.below(4) {
        0 | 1 => random.pick(&["0", "1", "2", "3", "5", "9", "65535"]),
        2 => {
            fields.push(format!(
                "{} {id} {}",
                random.pick(&["count", "size"]),
                random.pick_number(&[8, 16, 32])
            ));
            "-"
        }
        _ => "-",
    };
    if element.starts_with('-') && random.once_in(3) {
        fields.push(format!("elemsize {id} 8"));
    }
    let cond = if random.once_in(24) { " if c 1" } else { "" };
    fields.push(format!("array {id} {element} {modifier} {count}{cond}"));
    match random.below(24) {
        0 => fields.push(format!("checksum {id}")),
        1 => fields.push("scalar x 8".to_string()),
        2 => padding(fields, random),
        3 | 4 => return,
        5 => return fields.push(format!("padding {} if c 1", random.pick_number(&PADDINGS))),
        _ => {}
    }
    padding(fields, random);
}

fn padding(fields: &mut Vec<String>, random: &mut Random) {
    fields.push(format!("padding {}", random.pick_number(&PADDINGS)));
}

/// No value of `trailing`.
#[rustfmt::skip]
pub const BAD_VALUES: [&str; 30] = [
    "", "-", "--", "0", "1", "Plain", "PLAIN", "plai", "plains", "plain0", " plain", "plain ", "plain\r", "plain\t",
    "plain\0", "plain=", "Padded", "PADDED", "padde", "paddedd", "padded1", " padded", "padded ", "padded\r", "padding",
    "pad", "plainpadded", "plain padded", "plain,padded", "full",
];

/// Other keys, and other forms of this one, before a value. `raw` and `products` have a value in common.
#[rustfmt::skip]
pub const BAD_STARTS: [&str; 18] = [
    "Trailing=", "TRAILING=", "trailin=", "trailings=", "trailing ", "trailing =", "trailing==", "trailing:", " trailing=",
    "\ttrailing=", "trail=", "tail=", "padding=", "arrays=", "raw=", "products=", "=", "",
];

/// The line, for `damage::break_head_line`.
pub const LINE: HeadLine = HeadLine {
    start: "trailing=",
    bad_values: &BAD_VALUES,
    bad_starts: &BAD_STARTS,
    behind: ["trailing=plain", "trailing=padded", "raw=plain", "products=divide", ""],
};
