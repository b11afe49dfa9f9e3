//! Records by chance, from a seed. They follow the grammar of document 01 and lean towards
//! acceptance: runs mostly fill whole octets, names are few so that fields really name each other.
//! No name is a keyword of C++ but in the flavour that is about names, no line `bits` stands but in
//! the one that is about sizes as they are stated, and no line `trailing`, `raw` and `products` but in those
//! that are about these; where all five meet, the first two stand seldom.

use crate::damage;
use crate::divides;
use crate::files;
use crate::names;
use crate::random::Random;
use crate::raws;
use crate::sketch::{self, DeclSketch, Sketch};
use crate::stated;
use crate::trailing;

#[derive(Clone, Copy)]
pub enum Flavour {
    /// 1 to 4 declarations of 0 to about 6 fields.
    Small,
    /// Small ones, and ones that reach 32 declarations, 64 fields or 16,384 bytes and pass them.
    Mixed,
    /// Small and mixed ones with a few faults.
    Damaged,
    /// Static sizes around 2^31, and far beyond.
    Sizes,
    /// All of these with keywords of C++ and words like them as names. It stands behind the others,
    /// whose records are what they are without it.
    Names,
    /// Small, mixed and large ones whose packets and structs have lines `bits`: right, wrong and broken
    /// ones. It stands behind the others as `Names` does.
    Stated,
    /// Fields that need a trailing size, with arrays behind them, and the others of document 01, under a head
    /// without the line `trailing`, with either word, or with a broken one. It stands behind the others too.
    Trailing,
    /// Closed enums in bit fields, arrays and optional fields, and the others of document 01, under a head without the
    /// line `raw`, with either word, or with a broken one; also beside a line `trailing`. It stands behind the others too.
    Raws,
    /// Arrays of every shape with large counts, and the others of document 01, under a head without the line `products`,
    /// with either word, or with a broken one; also beside lines `trailing` and `raw`. It stands behind the others too.
    Divides,
    /// Many packets and structs in one file, for `lower_all`: long lines, and targets that are refused; also with lines `bits`.
    /// It stands last.
    Files,
}

pub const FLAVOURS: [(&str, Flavour); 10] = [
    ("small", Flavour::Small),
    ("mixed", Flavour::Mixed),
    ("damaged", Flavour::Damaged),
    ("sizes", Flavour::Sizes),
    ("names", Flavour::Names),
    ("stated", Flavour::Stated),
    ("trailing", Flavour::Trailing),
    ("raws", Flavour::Raws),
    ("divides", Flavour::Divides),
    ("files", Flavour::Files),
];

/// The records of a seed, one after the other.
pub fn records(flavour: Flavour, seed: u64, count: usize) -> impl Iterator<Item = Vec<u8>> {
    let mut random = Random::new(seed);
    (0..count).map(move |_| record(flavour, &mut random))
}

fn record(flavour: Flavour, random: &mut Random) -> Vec<u8> {
    match flavour {
        Flavour::Small => small(random).bytes(),
        Flavour::Mixed => mixed(random).bytes(),
        Flavour::Damaged => {
            let whole = if random.once_in(8) { mixed(random) } else { small(random) };
            damage::damaged(whole.lines(), random)
        }
        Flavour::Sizes => near_the_largest_size(random).bytes(),
        Flavour::Names => renamed(random),
        Flavour::Stated => with_sizes(random),
        Flavour::Trailing => with_trailing(random),
        Flavour::Raws => with_raws(random),
        Flavour::Divides => with_divides(random),
        Flavour::Files => of_a_file(random),
    }
}

fn renamed(random: &mut Random) -> Vec<u8> {
    let whole = match random.below(16) {
        0 => near_the_largest_size(random),
        1..=4 => mixed(random),
        _ => small(random),
    };
    let mut lines = whole.lines();
    names::rename(&mut lines, random);
    if random.once_in(8) {
        return damage::damaged(lines, random);
    }
    sketch::joined(&lines)
}

fn with_sizes(random: &mut Random) -> Vec<u8> {
    let mut whole = match random.below(16) {
        0 => near_the_largest_size(random),
        1..=4 => mixed(random),
        _ => small(random),
    };
    if random.once_in(3) {
        stated::pad(&mut whole, random);
    }
    let mut lines = stated::lines(&whole, random);
    if random.once_in(32) {
        names::rename(&mut lines, random);
    }
    if random.once_in(12) {
        return damage::damaged(lines, random);
    }
    sketch::joined(&lines)
}

fn with_trailing(random: &mut Random) -> Vec<u8> {
    let mut whole = match random.below(16) {
        0 => trailing::large_sketch(BLOCK, random),
        1 => mixed(random),
        2 | 3 => small(random),
        _ => trailing::sketch(random),
    };
    if random.once_in(12) {
        stated::pad(&mut whole, random);
    }
    let line = random.pick(&["", " plain", " padded", " padded"]);
    whole.head += line;
    let mut lines = if random.once_in(8) { stated::lines(&whole, random) } else { whole.lines() };
    if random.once_in(32) {
        names::rename(&mut lines, random);
    }
    if !line.is_empty() && random.once_in(8) {
        damage::break_head_line(&mut lines, &trailing::LINE, random);
    }
    if random.once_in(24) {
        return damage::damaged(lines, random);
    }
    sketch::joined(&lines)
}

fn with_raws(random: &mut Random) -> Vec<u8> {
    let mut whole = match random.below(16) {
        0 => mixed(random),
        1 | 2 => small(random),
        3 => trailing::sketch(random),
        _ => raws::sketch(random),
    };
    let trailing = random.pick(&["", "", " plain", " padded"]);
    let line = random.pick(&["", " raw=plain", " raw=numbered", " raw=numbered", " raw=numbered"]);
    whole.head += &format!("{trailing}{line}");
    let mut lines = if random.once_in(12) { stated::lines(&whole, random) } else { whole.lines() };
    if random.once_in(8) {
        names::put(random.pick(&raws::LIKE_RAW), &mut lines, random);
    }
    if random.once_in(32) {
        names::rename(&mut lines, random);
    }
    if !line.is_empty() && random.once_in(8) {
        damage::break_head_line(&mut lines, &raws::LINE, random);
    }
    if random.once_in(24) {
        return damage::damaged(lines, random);
    }
    sketch::joined(&lines)
}

fn with_divides(random: &mut Random) -> Vec<u8> {
    let mut whole = match random.below(16) {
        0 => mixed(random),
        1 | 2 => small(random),
        3 => trailing::sketch(random),
        4 => raws::sketch(random),
        _ => divides::sketch(random),
    };
    let trailing = random.pick(&["", "", " plain", " padded"]);
    let raw = random.pick(&["", "", " raw=plain", " raw=numbered"]);
    let line =
        random.pick(&["", " products=plain", " products=divide", " products=divide", " products=divide"]);
    whole.head += &format!("{trailing}{raw}{line}");
    let mut lines = if random.once_in(12) { stated::lines(&whole, random) } else { whole.lines() };
    if random.once_in(32) {
        names::rename(&mut lines, random);
    }
    if !line.is_empty() && random.once_in(8) {
        damage::break_head_line(&mut lines, &divides::LINE, random);
    }
    if random.once_in(24) {
        return damage::damaged(lines, random);
    }
    sketch::joined(&lines)
}

fn of_a_file(random: &mut Random) -> Vec<u8> {
    let whole = match random.below(16) {
        0 | 1 => mixed(random),
        2 => raws::sketch(random),
        _ => files::sketch(random),
    };
    let mut lines = if random.once_in(16) { stated::lines(&whole, random) } else { whole.lines() };
    if random.once_in(48) {
        names::rename(&mut lines, random);
    }
    if random.once_in(48) {
        return damage::damaged(lines, random);
    }
    sketch::joined(&lines)
}

fn small(random: &mut Random) -> Sketch {
    let decls = random.between(1, 4);
    let mut generator = Generator::new(random);
    for _ in 1..decls {
        generator.any_decl(3);
    }
    generator.target(6)
}

fn mixed(random: &mut Random) -> Sketch {
    match random.below(5) {
        0 => many_decls(random),
        1 | 2 => many_fields(random),
        _ => small(random),
    }
}

fn many_decls(random: &mut Random) -> Sketch {
    let decls = if random.once_in(3) { random.between(31, 34) } else { random.between(5, 32) };
    let most_fields = random.pick_number(&[0, 2, 4, 8, 16, 40]);
    let mut generator = Generator::careful(random);
    for _ in 1..decls {
        generator.any_decl(most_fields);
    }
    generator.target(12)
}

fn many_fields(random: &mut Random) -> Sketch {
    let decls = random.between(1, 5);
    let fields = if random.once_in(4) { random.between(63, 65) } else { random.between(7, 64) };
    let mut generator = Generator::careful(random);
    for _ in 1..decls {
        generator.any_decl(8);
    }
    let mut sketch = generator.target(fields);
    if let Some(target) = sketch.decls.last_mut() {
        target.fields.resize(fields as usize, "scalar amps 8".to_string());
    }
    sketch
}

/// Few, so that they alias; with the words that the lines use as parts of names.
#[rustfmt::skip]
const FIELD_NAMES: [&str; 16] = [
    "a", "a", "a", "b", "b", "c", "x", "x", "amps", "x_size", "a_count_", "chunk", "span1",
    "_payload_", "_body_", "payload",
];
const LONG_NAMES: [&str; 4] =
    ["a", "a23456789_123456789_123456789_12", "b23456789_123456789_123456789_12", "c23456789_123456789"];
const RARE_NAMES: [&str; 8] =
    ["chunk7", "span", "output", "chunk007", "chunk1a", "Span", "n", "a23456789_123456789_123456789_12"];
const DECL_NAMES: [&str; 6] = ["Lamp", "Mode", "Cell", "Crc", "Blob", "Frame"];
const OCTET_WIDTHS: [u64; 12] = [8, 8, 8, 16, 16, 24, 32, 32, 40, 48, 56, 64];

/// Refusal 13, or 8.
#[rustfmt::skip]
const UNUSUAL_OPTIONALS: [&str; 14] = [
    "array a 8 - - 2", "array b 16 - - -", "payload -", "payload +1", "body", "reserved 8", "flag a",
    "size a 8", "count a 8", "elemsize a 8", "fixed 8 1", "padding 2", "checksum a", "scalar x 12",
];

/// What a declaration is as the type of a field.
#[derive(Clone)]
enum Kind {
    Enum(u64),
    Block,
    /// A custom without a width.
    Loose,
    Other,
}

struct Generator<'r> {
    random: &'r mut Random,
    /// How seldom a rare fault is made: large records would hardly be accepted otherwise.
    care: usize,
    names: &'static [&'static str],
    decls: Vec<DeclSketch>,
    types: Vec<(String, Kind)>,
    fields: Vec<String>,
}

impl<'r> Generator<'r> {
    fn new(random: &'r mut Random) -> Self {
        let (care, names) = (1, &FIELD_NAMES[..]);
        Generator { random, care, names, decls: Vec::new(), types: Vec::new(), fields: Vec::new() }
    }

    fn careful(random: &'r mut Random) -> Self {
        let names = if random.once_in(3) { &LONG_NAMES[..] } else { &FIELD_NAMES[..] };
        Generator { care: 16, names, ..Generator::new(random) }
    }

    fn seldom(&mut self, times: usize) -> bool {
        self.random.once_in(times * self.care)
    }

    fn any_decl(&mut self, most_fields: u64) {
        match self.random.below(16) {
            0..=4 => self.enum_decl(),
            5 | 6 => self.checksum_decl(),
            7..=9 => self.custom_decl(),
            10..=13 => self.block_decl("struct", most_fields),
            _ => self.block_decl("packet", most_fields),
        }
    }

    /// The last declaration, and the head that names it.
    fn target(mut self, most_fields: u64) -> Sketch {
        let kind = self.random.pick(&["packet", "packet", "struct"]);
        self.block_decl(kind, most_fields);
        let target = match self.random.below(60) {
            0 => "Missing".to_string(),
            1..=3 => self.types[self.random.below(self.types.len())].0.clone(),
            _ => self.types.last().expect("the target was just declared").0.clone(),
        };
        let endian = self.random.pick(&["little", "big"]);
        let arrays = self.random.pick(&["lite", "full"]);
        Sketch { head: format!("{endian} {target} {arrays}"), decls: self.decls }
    }

    fn declare(&mut self, head: String, name: String, kind: Kind) {
        let fields = std::mem::take(&mut self.fields);
        self.decls.push(DeclSketch { head, fields });
        self.types.push((name, kind));
    }

    fn decl_name(&mut self) -> String {
        let at = self.types.len();
        if at > 0 && self.seldom(150) {
            return self.types[self.random.below(at)].0.clone();
        }
        DECL_NAMES.get(at).map_or_else(|| format!("T{at}"), |name| name.to_string())
    }

    fn enum_decl(&mut self) {
        let name = self.decl_name();
        let width = match self.random.below(4) {
            0 => self.random.pick_number(&[1, 2, 3, 4, 7, 12, 60, 63]),
            _ => self.random.pick_number(&OCTET_WIDTHS),
        };
        let (open, complete) = (self.random.below(2), self.random.below(2));
        let head = format!("enum {name} {} {open} {complete}", self.strayed(width, 65));
        self.declare(head, name, Kind::Enum(width));
    }

    fn checksum_decl(&mut self) {
        let name = self.decl_name();
        let width = self.random.pick_number(&[8, 16, 32, 32, 64, 12]);
        let head = format!("checksum {name} {}", self.strayed(width, 65));
        self.declare(head, name, Kind::Other);
    }

    fn custom_decl(&mut self) {
        let name = self.decl_name();
        let width = self.random.pick_number(&[8, 16, 24, 64, 128, 4096, 12]);
        if self.random.once_in(3) {
            let head = format!("custom {name} {}", self.strayed(width, 4097));
            self.declare(head, name, Kind::Other);
        } else {
            self.declare(format!("custom {name} -"), name, Kind::Loose);
        }
    }

    fn block_decl(&mut self, kind: &str, most_fields: u64) {
        let name = self.decl_name();
        let parent = self.parent();
        let fields = self.random.between(0, most_fields) as usize;
        while self.fields.len() < fields {
            self.next_fields();
        }
        self.declare(format!("{kind} {name} {parent}"), name, Kind::Block);
    }

    fn parent(&mut self) -> String {
        if self.seldom(300) {
            return "Missing".to_string();
        }
        let any_kind = self.seldom(40);
        let fits = |kind: &Kind| any_kind || matches!(kind, Kind::Block);
        let candidates: Vec<_> = self.types.iter().filter(|(_, kind)| fits(kind)).collect();
        if candidates.is_empty() || !self.random.once_in(4) {
            return "-".to_string();
        }
        candidates[self.random.below(candidates.len())].0.clone()
    }

    /// One field, or a few that belong together.
    fn next_fields(&mut self) {
        match self.random.below(24) {
            0..=7 => self.run(),
            8..=13 => self.array(),
            14 | 15 => self.payload(),
            16..=18 => self.typedef(),
            19..=21 => self.optional(),
            22 => self.straddled(),
            _ => self.checksum_or_padding(),
        }
    }

    fn push(&mut self, field: String) {
        self.fields.push(field);
    }

    fn name(&mut self) -> &'static str {
        if self.seldom(400) {
            return self.random.pick(&RARE_NAMES);
        }
        self.random.pick(self.names)
    }

    /// A type declared before, seldom another name; none where nothing is declared.
    fn type_(&mut self) -> Option<(String, Kind)> {
        if self.seldom(200) {
            return Some((self.random.pick(&["Missing", "Frame", "a"]).to_string(), Kind::Other));
        }
        match self.types.len() {
            0 => None,
            length => Some(self.types[self.random.below(length)].clone()),
        }
    }

    /// The number, seldom 0 or one past its range.
    fn strayed(&mut self, number: u64, past: u64) -> u64 {
        match self.random.below(500 * self.care) {
            0 => 0,
            1 => past,
            2 => u64::MAX,
            _ => number,
        }
    }

    /// Bit fields that mostly fill whole octets, seldom more than 64 bits.
    fn run(&mut self) {
        let goals = [8, 8, 8, 16, 16, 24, 32, 40, 48, 56, 64, 64];
        let goal = if self.seldom(12) { 72 } else { self.random.pick_number(&goals) };
        let mut bits = 0;
        while bits < goal {
            let left = (goal - bits).min(64);
            let width = if self.random.once_in(2) { left } else { self.random.between(1, left) };
            bits += self.bit_field(width);
        }
        if bits % 8 != 0 && !self.seldom(12) {
            self.sized_field(8 - bits % 8);
        }
        if self.seldom(16) {
            let width = self.random.between(1, 7);
            self.bit_field(width);
        }
    }

    /// A bit field of this width, or one of an enum, which has its own. Yields the width.
    fn bit_field(&mut self, width: u64) -> u64 {
        if self.random.once_in(4) {
            if let Some(enum_width) = self.enum_field() {
                return enum_width;
            }
        }
        self.sized_field(width);
        width
    }

    fn enum_field(&mut self) -> Option<u64> {
        let (type_, kind) = self.type_()?;
        let Kind::Enum(width) = kind else {
            if self.seldom(30) {
                self.push(format!("fixedenum {type_} OFF"));
            }
            return None;
        };
        if self.random.once_in(3) {
            self.push(format!("fixedenum {type_} OFF"));
        } else {
            let id = self.name();
            self.push(format!("typedef {id} {type_}"));
        }
        Some(width)
    }

    fn sized_field(&mut self, width: u64) {
        let name = self.name();
        let written = self.strayed(width, 65);
        let field = match self.random.below(12) {
            0..=4 if width == 1 => format!("flag {name}"),
            0..=5 => format!("scalar {name} {written}"),
            6 | 7 => format!("reserved {written}"),
            8 => format!("size {name} {written}"),
            9 => format!("count {name} {written}"),
            10 => format!("elemsize {name} {written}"),
            _ => format!("fixed {written} {}", self.fixed_value(width)),
        };
        self.push(field);
    }

    fn fixed_value(&mut self, width: u64) -> u64 {
        match self.random.below(6) {
            0 => 0,
            1 => u64::MAX,
            _ => self.random.next() >> (64 - width),
        }
    }

    fn array(&mut self) {
        let id = self.name();
        let count = match self.random.below(4) {
            0 => self.count().to_string(),
            1 => self.helper("count", id),
            2 => self.helper("size", id),
            _ => "-".to_string(),
        };
        let (element, is_loose) = self.element();
        if self.random.once_in(if is_loose { 2 } else { 4 }) {
            self.helper("elemsize", id);
        }
        let modifier = if self.random.once_in(5) { self.modifier() } else { "-".to_string() };
        self.push(format!("array {id} {element} {modifier} {count}"));
        if self.random.once_in(6) {
            self.padding();
        }
    }

    /// A field that gives an array its size or count, in octets of its own; the count stays open.
    fn helper(&mut self, kind: &str, of: &str) -> String {
        let width = self.random.pick_number(&[8, 8, 16, 32, 64, 24, 4]);
        self.push(format!("{kind} {of} {width}"));
        if width % 8 != 0 {
            self.sized_field(8 - width % 8);
        }
        "-".to_string()
    }

    fn count(&mut self) -> u64 {
        let count = self.random.pick_number(&[0, 1, 2, 3, 5, 8, 255, 256, 65_535]);
        self.strayed(count, 65_536)
    }

    /// The values of `width` and `type`, and whether the element may have no static size.
    fn element(&mut self) -> (String, bool) {
        if self.random.below(4) > 0 {
            if let Some((type_, kind)) = self.type_() {
                if self.care == 1 || self.has_whole_octets(&kind) {
                    return (format!("- {type_}"), matches!(kind, Kind::Block | Kind::Loose));
                }
            }
        }
        let odd = self.seldom(40);
        let width = if odd { self.random.between(1, 64) } else { self.random.pick_number(&OCTET_WIDTHS) };
        (format!("{} -", self.strayed(width, 65)), false)
    }

    /// Surely or, for a packet or struct, perhaps.
    fn has_whole_octets(&mut self, kind: &Kind) -> bool {
        match kind {
            Kind::Enum(width) => width % 8 == 0,
            Kind::Block => self.random.once_in(4),
            Kind::Loose => true,
            Kind::Other => false,
        }
    }

    fn modifier(&mut self) -> String {
        let number = self.random.pick_number(&[0, 1, 2, 5, 255, 65_535]);
        format!("{}{}", self.random.pick(&["+", "-"]), self.strayed(number, 65_536))
    }

    fn padding(&mut self) {
        let bytes = self.random.pick_number(&[0, 1, 2, 8, 64, 65_535]);
        let bytes = self.strayed(bytes, 65_536);
        self.push(format!("padding {bytes}"));
    }

    fn checksum_or_padding(&mut self) {
        if self.random.once_in(2) {
            self.padding();
        } else {
            self.checksum();
        }
    }

    fn payload(&mut self) {
        if self.random.once_in(2) {
            let of = self.random.pick(&["_payload_", "_payload_", "_body_"]);
            self.helper("size", of);
        }
        if self.random.once_in(3) {
            self.push("body".to_string());
        } else {
            let modifier = if self.random.once_in(3) { self.modifier() } else { "-".to_string() };
            self.push(format!("payload {modifier}"));
        }
    }

    fn typedef(&mut self) {
        let id = self.name();
        match self.type_() {
            Some((type_, _)) => self.push(format!("typedef {id} {type_}")),
            None => self.run(),
        }
    }

    fn optional(&mut self) {
        let cond = self.name();
        match self.random.below(5) {
            0 | 1 => {
                self.push(format!("flag {cond}"));
                self.sized_field(7);
            }
            2 => self.push(format!("scalar {cond} 8")),
            3 => self.push(format!("scalar {cond} 16")),
            _ => {}
        }
        let is = self.random.pick_number(&[0, 0, 1, 1, 1, 255, 256, u64::MAX]);
        let field = self.optional_desc();
        self.push(format!("{field} if {cond} {is}"));
    }

    fn optional_desc(&mut self) -> String {
        let id = self.name();
        if self.random.once_in(2) {
            if let Some((type_, kind)) = self.type_() {
                if matches!(kind, Kind::Enum(_)) && self.seldom(24) {
                    return format!("fixedenum {type_} OFF");
                }
                if self.care == 1 || self.has_whole_octets(&kind) {
                    return format!("typedef {id} {type_}");
                }
            }
        }
        if self.seldom(6) {
            return self.random.pick(&UNUSUAL_OPTIONALS).to_string();
        }
        format!("scalar {id} {}", self.random.pick_number(&OCTET_WIDTHS))
    }

    /// A chunk that goes on behind a field inside it.
    fn straddled(&mut self) {
        let width = self.random.between(1, 7);
        self.sized_field(width);
        match self.random.below(5) {
            0 => self.optional_inside(),
            1 => self.checksum_or_padding(),
            2 => self.typedef(),
            _ => self.array(),
        }
        self.sized_field(8 - width);
    }

    fn optional_inside(&mut self) {
        let field = self.optional_desc();
        let cond = self.name();
        self.push(format!("{field} if {cond} 1"));
    }

    fn checksum(&mut self) {
        let of = self.name();
        self.push(format!("checksum {of}"));
    }
}

const LARGEST: u64 = (1 << 31) - 1;
/// A struct of 65,535 octets, and its bits.
pub const BLOCK: &str = "struct Block -: array b 8 - - 65535";
const BLOCK_BITS: u64 = 8 * 65_535;

/// Declarations whose static sizes end a little below, at or above 2^31 - 1 bits.
fn near_the_largest_size(random: &mut Random) -> Sketch {
    let bits = LARGEST - 10 + random.between(0, 20);
    let first = random.between(0, bits / BLOCK_BITS);
    let fields = fields_of_size(bits, first);
    let inner = fields_of_size(first * BLOCK_BITS, first);
    let outer = fields_of_size(bits - first * BLOCK_BITS, 0);
    let more = random.pick(&[
        "",
        ", payload -",
        ", size _payload_ 8, payload -",
        ", array z 8 - - -",
        ", scalar z 1",
    ]);
    let padding = random.pick_number(&[0, 1, 8192, 65_535]);
    let decls = match random.below(6) {
        0 => format!("packet Lamp -: {fields}{more}"),
        1 => format!("struct Inner -: {inner}; packet Lamp Inner: {outer}{more}"),
        2 => format!("struct Inner -: {inner}; struct Mid Inner: {outer}{more}; packet Lamp Mid: payload -"),
        3 => format!("packet Lamp -: {fields}, array p 8 - - 4, padding {padding}{more}"),
        4 => format!("struct Inner -: {inner}; packet Lamp -: typedef i Inner, {outer}{more}"),
        _ => nested_arrays(random),
    };
    let endian = random.pick(&["little", "big"]);
    let arrays = random.pick(&["lite", "full"]);
    Sketch::new(&format!("{endian} Lamp {arrays}; {BLOCK}; {decls}"))
}

/// Fields that sum up to `bits`; `blocks` of them in one array, the others as they fit.
fn fields_of_size(bits: u64, blocks: u64) -> String {
    let mut left = bits - blocks * BLOCK_BITS;
    let mut fields = vec![format!("array f - Block - {blocks}")];
    fields.push(format!("array g - Block - {}", left / BLOCK_BITS));
    left %= BLOCK_BITS;
    fields.push(format!("array h 8 - - {}", left / 8));
    if left % 8 > 0 {
        fields.push(format!("scalar s {}", left % 8));
    }
    fields.join(", ")
}

/// Arrays of arrays, up to far more bits than 128 bits can count.
fn nested_arrays(random: &mut Random) -> String {
    let depth = random.between(1, 30);
    let mut decls = Vec::new();
    let mut inner = "Block".to_string();
    for level in 0..depth {
        let count = random.pick_number(&[0, 1, 1, 2, 4_096, 4_097, 65_535]);
        decls.push(format!("struct N{level} -: array n - {inner} - {count}"));
        inner = format!("N{level}");
    }
    decls.push(format!("packet Lamp -: typedef n {inner}, scalar s 8"));
    decls.join("; ")
}
