//! Records of whole files, by chance, for `lower_all`: up to 32 packets and structs between the other declarations, some
//! with lines around 8,192 bytes, or around 65,536 in all, and some refused, in any order.

use crate::answer::answer;
use crate::random::Random;
use crate::sections::LONGEST;
use crate::sketch::{DeclSketch, Sketch};

/// A name as long as may be.
const LONG: &str = "a23456789_123456789_123456789_12";

/// What the fields name. `Cell` is a target itself.
pub const TYPES: [&str; 6] = [
    "enum Mode 8 0 0",
    "enum Half 4 0 0",
    "struct Cell -: scalar c 12, scalar d 12",
    "checksum Crc 16",
    "custom Blob -",
    "custom T23456789_123456789_123456789_12 -",
];

/// Fields of targets that are accepted under any head. The first three have no lines.
const ACCEPTED: [&str; 22] = [
    "",
    "scalar x 4",
    "checksum k, padding 2",
    "scalar amps 12, reserved 4, payload -",
    "reserved 16",
    "scalar x 8",
    "flag c, reserved 7, scalar x 16 if c 1, typedef m Mode if c 0",
    "typedef m Mode, typedef k Mode",
    "typedef h Half, typedef i Half, typedef m Mode",
    "fixedenum Mode OFF, fixed 8 126",
    "size a 8, array a 8 - - -",
    "size a 8, array a 16 - +1 -",
    "count a 32, array a 16 - - -",
    "elemsize a 16, count a 16, array a - Blob - -",
    "elemsize a 8, array a - Blob - 5",
    "array a - Cell - 3, padding 16",
    "array a - Mode - 2, typedef m Mode",
    "payload -, array a 8 - - 2, padding 8",
    "size _payload_ 8, payload -1, scalar x 8",
    "typedef t Cell, body",
    "checksum k, scalar x 16, typedef k Crc",
    "array a 8 - - -",
];

/// Those of targets that 10 to 14 refuse. The last one is accepted with `trailing=padded`.
const REFUSED: [&str; 9] = [
    "scalar x 8, scalar y 4",
    "scalar x 8, scalar y 4, typedef t Cell",
    "scalar x 4, payload -",
    "scalar x 60, scalar y 12",
    "reserved 63, reserved 9",
    "flag c, reserved 7, reserved 8 if c 1",
    "array a 8 - - 2 if c 1",
    "payload -, scalar x 8 if c 1",
    "payload -, count a 8, array a 8 - - -, padding 4",
];

pub fn sketch(random: &mut Random) -> Sketch {
    let head = head(random);
    let mut targets = match random.below(12) {
        0 => with_a_long_one(&head, random),
        1 => around_the_buffer(&head, random),
        _ => some(random),
    };
    let refused = match random.below(4) {
        0 | 1 => 0,
        2 => 1,
        _ => random.between(1, 3),
    };
    for _ in 0..refused {
        let at = random.below(targets.len() + 1);
        let fields = match random.once_in(4) {
            true => grown(&head, LONGEST + 1 + random.below(100), random),
            false => split(random.pick(&REFUSED)),
        };
        targets.insert(at, fields);
    }
    declared(&head, targets, random)
}

/// Of the three lines behind `arrays` each may be there.
fn head(random: &mut Random) -> String {
    let (endian, arrays) = (random.pick(&["little", "big"]), random.pick(&["lite", "full"]));
    let trailing = random.pick(&["", "", " plain", " padded"]);
    let raw = random.pick(&["", "", " raw=plain", " raw=numbered"]);
    let products = random.pick(&["", "", " products=plain", " products=divide"]);
    format!("{endian} D0 {arrays}{trailing}{raw}{products}")
}

fn split(fields: &str) -> Vec<String> {
    DeclSketch::new(&format!(":{fields}")).fields
}

fn some(random: &mut Random) -> Vec<Vec<String>> {
    let most = random.pick_number(&[3, 6, 12, 20, 26]);
    (0..random.between(1, most)).map(|_| split(random.pick(&ACCEPTED))).collect()
}

fn with_a_long_one(head: &str, random: &mut Random) -> Vec<Vec<String>> {
    let mut targets = some(random);
    targets.truncate(8);
    let bytes = random.pick_number(&[8_191, 8_192, 8_192, 8_192, 8_193, 8_193, 8_200]) as usize;
    let at = random.below(targets.len() + 1);
    targets.insert(at, grown(head, bytes, random));
    targets
}

/// Sections of one length, and a last one so that all of them, under the names that `declared` gives, and `Cell` come to just
/// so many bytes.
fn around_the_buffer(head: &str, random: &mut Random) -> Vec<Vec<String>> {
    let bytes = random.pick_number(&[65_535, 65_536, 65_536, 65_537, 65_537, 67_000]) as usize;
    let fields = about(head, LONGEST, random);
    let each = length(head, &fields).unwrap_or(LONGEST);
    let line = |at: usize| format!("// target=D{at}\n").len();
    let cell = split(TYPES[2].split_once(": ").expect("it has fields").1);
    let mut left = bytes - "// target=Cell\n".len() - length(head, &cell).unwrap_or(0);
    let mut targets = Vec::new();
    while left > line(targets.len()) + LONGEST {
        left -= line(targets.len()) + each;
        targets.push(fields.clone());
    }
    targets.push(grown(head, left.saturating_sub(line(targets.len())), random));
    targets
}

/// The packets and structs, with parents and other declarations between them, and the types before the first that names one of
/// them, or before all; the head asks for one of the targets.
fn declared(head: &str, targets: Vec<Vec<String>>, random: &mut Random) -> Sketch {
    let long_names = random.once_in(16);
    let name = |at: usize| match long_names {
        true => format!("{}{at:02}", &LONG[..30]),
        false => format!("D{at}"),
    };
    let asked = match random.below(40) {
        0 => "Missing".to_string(),
        1 => "Mode".to_string(),
        _ => name(random.below(targets.len())),
    };
    let mut decls = Vec::new();
    let mut before_types = if random.once_in(3) { usize::MAX } else { 0 };
    let others = ["enum E{} 8 1 0", "checksum C{} 8", "custom X{} -", "custom X{} 24"];
    for (at, fields) in targets.into_iter().enumerate() {
        if fields.iter().any(|field| names_a_type(field)) {
            before_types = before_types.min(decls.len());
        }
        let kind = random.pick(&["packet", "struct"]);
        let parent = match at > 0 && random.once_in(4) {
            true => name(random.below(at)),
            false => "-".to_string(),
        };
        decls.push(DeclSketch { head: format!("{kind} {} {parent}", name(at)), fields });
        if random.once_in(12) {
            decls.push(DeclSketch::new(&random.pick(&others).replace("{}", &at.to_string())));
        }
    }
    let before_types = before_types.min(decls.len());
    decls.splice(before_types..before_types, TYPES.iter().map(|decl| DeclSketch::new(decl)));
    Sketch { head: head.replacen("D0", &asked, 1), decls }
}

fn names_a_type(field: &str) -> bool {
    let names = TYPES.map(|decl| decl.split(' ').nth(1).expect("it has a name"));
    field.split(' ').any(|word| names.contains(&word))
}

/// Fields whose lines come to just so many bytes under this head.
fn grown(head: &str, bytes: usize, random: &mut Random) -> Vec<String> {
    let start = about(head, bytes, random);
    filled(head, &start, bytes).or_else(|| filled(head, &[], bytes)).unwrap_or(start)
}

/// Fields whose lines come to some bytes less.
fn about(head: &str, bytes: usize, random: &mut Random) -> Vec<String> {
    let id = if random.once_in(3) { "log" } else { LONG };
    let type_ = random.pick(&["Blob", TYPES[5].split(' ').nth(1).expect("it has a name")]);
    let [modifier, padding] = [random.pick(&["-", "-65535", "+1"]), random.pick(&["0", "8", "65535"])];
    let mut fields = vec![format!("size {id} 16")];
    fields.extend(random.once_in(2).then(|| format!("elemsize {id} 8")));
    let next = match random.below(4) {
        0 => vec![format!("array {id} 16 - {modifier} -"), format!("padding {padding}")],
        1 => {
            vec![format!("array {id} - Mode - -"), format!("padding {padding}"), "typedef m Mode".to_string()]
        }
        _ => vec![format!("array {id} - {type_} {modifier} -"), format!("padding {padding}")],
    };
    let with = |times: usize| [&fields[..], &vec![next.clone(); times].concat()].concat();
    let [first, second] = [1, 2].map(|times| length(head, &with(times)).unwrap_or(0));
    match bytes.checked_sub(first + 120) {
        Some(left) => with((1 + left / second.saturating_sub(first).max(1)).min(60 / next.len())),
        None => Vec::new(),
    }
}

/// The fields, and scalars behind them with names as long as it takes, so that the lines come to just so many bytes; none
/// where they have more already, or would need more than 64 fields.
pub fn filled(head: &str, fields: &[String], bytes: usize) -> Option<Vec<String>> {
    let with = |names: &[usize]| {
        let octets = names.iter().map(|length| format!("scalar {} 8", "x".repeat(*length)));
        fields.iter().cloned().chain(octets).collect::<Vec<String>>()
    };
    let [first, second] = [length(head, &with(&[1]))?, length(head, &with(&[1, 1]))?];
    let fewest = (bytes + second).checked_sub(2 * first)?.div_ceil(second - first + 31);
    (fewest.max(1)..=fewest + 2).find_map(|scalars| {
        let mut names = vec![1; scalars];
        let mut missing = bytes.checked_sub(length(head, &with(&names))?)?;
        for name in &mut names {
            let more = missing.min(31);
            *name += more;
            missing -= more;
        }
        Some(with(&names)).filter(|fields| fields.len() <= 64 && length(head, fields) == Some(bytes))
    })
}

/// How many bytes the lines of these fields have under this head.
fn length(head: &str, fields: &[String]) -> Option<usize> {
    let mut decls: Vec<DeclSketch> = TYPES.iter().map(|decl| DeclSketch::new(decl)).collect();
    decls.push(DeclSketch { head: "packet D0 -".to_string(), fields: fields.to_vec() });
    answer(&Sketch { head: head.to_string(), decls }.bytes()).ok().map(|lines| lines.len())
}
