//! The marked cases of the head's line `trailing` (document 02, Card 3): what later fields count, absent, plain and
//! padded; where nothing changes; the order among the refusals; the form; and the record's length. They are a list of
//! their own, which stands behind those of `bits` in the stored sample.

use crate::answer::{answer, Answer};
use crate::generate::BLOCK;
use crate::marked::{self, answered, of_length};
use crate::marked_bits;
use crate::sketch::record;
use crate::trailing::{BAD_STARTS, BAD_VALUES};

/// All of them. Fails loudly where the judge is not of document 02's opinion.
pub fn records() -> Vec<Vec<u8>> {
    plain_changes_nothing();
    let mut all: Vec<Vec<u8>> = COUNTED.iter().flat_map(Counted::records).collect();
    all.extend(large());
    all.extend(TYPEDEFS.iter().flat_map(Counted::records_of_a_typedef));
    all.extend(SAME.iter().flat_map(|shorthand| same(shorthand)));
    all.extend(ORDER.iter().flat_map(in_order));
    all.extend(in_every_order());
    all.extend(forms());
    all.extend(long());
    all
}

/// The line `trailing=plain` in every other marked record leaves each answer as it is.
fn plain_changes_nothing() {
    for whole in [marked::records(), marked::keyword_records(), marked_bits::records()].concat() {
        let text = String::from_utf8_lossy(&whole);
        let with = ["arrays=lite\n", "arrays=full\n"]
            .iter()
            .fold(text.to_string(), |text, line| text.replacen(line, &format!("{line}trailing=plain\n"), 1));
        if with.len() <= 16_384 && whole.is_ascii() {
            assert_eq!(
                outcome(&answer(with.as_bytes())),
                outcome(&answer(&whole)),
                "with trailing=plain:\n{text}"
            );
        }
    }
}

/// The lines, or the number of the refusal.
fn outcome(answer: &Answer) -> Result<&[u8], u8> {
    answer.as_deref().map_err(|refusal| refusal.number)
}

/// The declarations that the fields name, and the target with these.
fn lamp(fields: &str) -> String {
    let types = [
        ("Cell", "struct Cell -: scalar c 8"),
        ("Mode", "enum Mode 8 0 0"),
        ("Crc", "checksum Crc 16"),
        ("Blob", "custom Blob -"),
        ("Rest", "struct Rest -: payload -"),
        ("Tail", "struct Tail -: array t 8 - - -"),
        ("Full", "struct Full -: array f 8 - - -, padding 4"),
        ("Block", BLOCK),
    ];
    let used = types.iter().filter(|(name, _)| fields.contains(name)).map(|(_, decl)| format!("{decl}; "));
    format!("{}packet Lamp -: {fields}", used.collect::<String>())
}

/// Without the line, and with each of its words, in the mode.
fn heads(mode: &str) -> [String; 3] {
    ["", " plain", " padded"].map(|line| format!("little Lamp {mode}{line}"))
}

/// Fields behind a payload, and the bits that they count without the line or with `plain`, and with `padded`. None is
/// refusal 14.
struct Counted(&'static str, Option<u64>, Option<u64>);

impl Counted {
    /// Behind a payload in lite mode and, where the two differ, a body in full.
    fn records(&self) -> Vec<Vec<u8>> {
        let mut all = self.behind("payload -", "lite", payload_lines);
        let in_full = self.behind("body", "full", payload_lines).pop();
        all.extend(in_full.filter(|_| self.1 != self.2));
        all
    }

    /// Behind a typedef of unknown size.
    fn records_of_a_typedef(&self) -> Vec<Vec<u8>> {
        self.behind("typedef t Rest", "full", typedef_lines)
    }

    /// The three heads, that with `plain` only where `padded` differs. So many bytes are left for the fields, and
    /// their own lines are those that they have alone.
    fn behind(&self, first: &str, mode: &str, opening: fn(&str, u64) -> String) -> Vec<Vec<u8>> {
        let Counted(fields, plain, padded) = self;
        let prefix = if mode == "full" { "output->" } else { "" };
        let alone = answer(&record(&format!("little Lamp {mode}; {}", lamp(fields))));
        let lines =
            |bits| [opening(prefix, bits).as_bytes(), outcome(&alone).expect("they are accepted")].concat();
        let mut all = Vec::new();
        for (head, bits) in heads(mode).iter().zip([plain, plain, padded]) {
            let record = record(&format!("{head}; {}", lamp(&format!("{first}, {fields}"))));
            let due = bits.map(lines).ok_or(14);
            assert_eq!(
                outcome(&answer(&record)),
                due.as_deref().map_err(|number| *number),
                "{head}: {first}, {fields}"
            );
            all.push(record);
        }
        if plain == padded {
            all.remove(1);
        }
        all
    }
}

fn payload_lines(prefix: &str, bits: u64) -> String {
    let bytes = bits / 8;
    match bits {
        0 => format!("{prefix}payload_ = span;\nspan.clear();\n"),
        _ => format!(
            "if (span.size() < {bytes}) return false;\n\
             {prefix}payload_ = span.subrange(0, span.size() - {bytes});\n\
             span.skip(span.size() - {bytes});\n"
        ),
    }
}

fn typedef_lines(prefix: &str, bits: u64) -> String {
    let bytes = bits / 8;
    match bits {
        0 => format!("if (!Rest::Parse(span, &{prefix}t_)) return false;\n"),
        _ => format!(
            "if (span.size() < {bytes}) return false;\n\
             pdl::packet::slice t_span = span.subrange(0, span.size() - {bytes});\n\
             if (!Rest::Parse(t_span, &{prefix}t_)) return false;\n\
             span.skip(t_span.size());\n"
        ),
    }
}

/// Each reading of the card.
const COUNTED: &[Counted] = &[
    // P13: 2 bytes, and 8
    Counted("array a 8 - - 2, padding 8", Some(16), Some(64)),
    // between others, and two of them
    Counted("scalar z 8, array a 8 - - 2, padding 8, scalar y 16", Some(40), Some(88)),
    Counted("array a 8 - - 2, padding 4, array b 16 - - 3, padding 9", Some(64), Some(104)),
    // in place of the array's size, whatever that is: dynamic by a count or a size, before or behind it
    Counted("count a 8, array a 8 - - -, padding 4", None, Some(40)),
    Counted("size a 16, array a 16 - +1 -, padding 4", None, Some(48)),
    Counted("array a 8 - - -, padding 4, count a 8", None, Some(40)),
    // unknown
    Counted("array a 8 - - -, padding 4", None, Some(32)),
    Counted("array a 64 - -1 -, padding 65535", None, Some(524_280)),
    Counted("size b 8, array a 8 - - -, padding 4", None, Some(40)),
    // of structs, enums and others, each of static, dynamic or unknown size
    Counted("array a - Cell - 2, padding 4", Some(16), Some(32)),
    Counted("array a - Mode - 3, padding 4", Some(24), Some(32)),
    Counted("array a - Crc - 3, padding 7", Some(48), Some(56)),
    Counted("array a - Full - 2, padding 9", Some(64), Some(72)),
    Counted("count a 8, array a - Cell - -, padding 4", None, Some(40)),
    Counted("array a - Cell - -, padding 4", None, Some(32)),
    Counted("array a - Blob - 2, padding 4", None, Some(32)),
    Counted("elemsize a 8, array a - Blob - 2, padding 9", None, Some(80)),
    Counted("elemsize a 8, count a 8, array a - Blob - -, padding 9", None, Some(88)),
    Counted("array a - Rest - 2, padding 4", None, Some(32)),
    Counted("array a - Tail - 0, padding 4", None, Some(32)),
    Counted("size a 8, array a - Tail - -, padding 4", None, Some(40)),
    Counted("array a - Rest - -, padding 4", None, Some(32)),
    // also where the padding is smaller, equal, or none
    Counted("array a 8 - - 4, padding 2", Some(32), Some(16)),
    Counted("array a 8 - - 65535, padding 1", Some(524_280), Some(8)),
    Counted("array a 8 - - 2, padding 2", Some(16), Some(16)),
    Counted("array a 8 - - 2, padding 0", Some(16), Some(0)),
    Counted("array a 8 - - -, padding 0", None, Some(0)),
    Counted("array a 8 - - 0, padding 0", Some(0), Some(0)),
    Counted("array a 8 - - 0, padding 3", Some(0), Some(24)),
    Counted("array a 8 - - 2, padding 0, array b 8 - - -, padding 1", None, Some(8)),
    // of two paddings the first; neither adds
    Counted("array a 8 - - 2, padding 3, padding 8", Some(16), Some(24)),
    Counted("array a 8 - - 2, padding 8, padding 3", Some(16), Some(64)),
    Counted("array a 8 - - -, padding 0, padding 8", None, Some(0)),
    Counted("padding 8", Some(0), Some(0)),
    Counted("padding 8, padding 3, scalar x 8", Some(8), Some(8)),
    Counted("padding 8, array a 8 - - 2, padding 4", Some(16), Some(32)),
    // a padding that is not just behind the array
    Counted("array a 8 - - 2, checksum k, padding 8", Some(16), Some(16)),
    Counted("array a 8 - - -, checksum k, padding 8", None, None),
    Counted("array a 8 - - 2, scalar z 8, padding 8", Some(24), Some(24)),
    Counted("array a 8 - - -, size a 8, padding 8", None, None),
    Counted("padding 8, array a 8 - - 2", Some(16), Some(16)),
    Counted("padding 8, array a 8 - - -", None, None),
    // no padding, and one padded beside one that is not
    Counted("array a 8 - - 2", Some(16), Some(16)),
    Counted("array a 8 - - -", None, None),
    Counted("count a 8, array a 8 - - -", None, None),
    Counted("array a 8 - - -, padding 4, array b 8 - - -", None, None),
    Counted("array b 8 - - -, array a 8 - - -, padding 4", None, None),
    Counted("array a 8 - - -, padding 4, array b 8 - - 3", None, Some(56)),
    // a padding behind no array
    Counted("scalar z 8, padding 4", Some(8), Some(8)),
    Counted("scalar z 32, padding 1", Some(32), Some(32)),
    Counted("scalar z 8, padding 0", Some(8), Some(8)),
    Counted("flag f, reserved 7, padding 4", Some(8), Some(8)),
    Counted("fixed 8 7, padding 4", Some(8), Some(8)),
    Counted("size q 8, padding 4", Some(8), Some(8)),
    Counted("count q 8, padding 4, elemsize q 8, padding 4", Some(16), Some(16)),
    Counted("checksum k, padding 4", Some(0), Some(0)),
    Counted("typedef m Mode, padding 4", Some(8), Some(8)),
    Counted("fixedenum Mode OFF, padding 4", Some(8), Some(8)),
    Counted("typedef t Cell, padding 4", Some(8), Some(8)),
    Counted("typedef t Full, padding 9", Some(32), Some(32)),
    Counted("typedef t Blob, padding 4", None, None),
    // bits are summed first
    Counted("scalar x 4, array a 8 - - 2, padding 8, scalar y 4", Some(24), Some(72)),
    Counted("array a 8 - - 2, padding 8, scalar y 4", Some(20), Some(68)),
    Counted("array a 8 - - 2, padding 0, scalar y 4", Some(20), Some(4)),
    Counted("scalar x 3, array a 8 - - -, padding 1, scalar y 12, scalar z 1", None, Some(24)),
    Counted("scalar x 3, array a 8 - - -, padding 0, scalar y 4", None, Some(7)),
];

/// Behind a typedef of unknown size.
const TYPEDEFS: &[Counted] = &[
    Counted("array a 8 - - 2, padding 8", Some(16), Some(64)),
    Counted("count a 8, array a 8 - - -, padding 4", None, Some(40)),
    Counted("array a - Cell - -, padding 4", None, Some(32)),
    Counted("array a - Tail - 2, padding 4, scalar y 8", None, Some(40)),
    Counted("array a 8 - - 4, padding 2", Some(32), Some(16)),
    Counted("array a 8 - - 2, padding 0", Some(16), Some(0)),
    Counted("array a 8 - - -, padding 0", None, Some(0)),
    Counted("array a 8 - - 2, padding 0, scalar y 4", Some(20), Some(4)),
    Counted("array a 8 - - -, checksum k, padding 8", None, None),
    Counted("typedef u Blob, padding 4", None, None),
    Counted("scalar z 8, padding 4", Some(8), Some(8)),
];

/// A trailing size past 2^31 - 1 bits: refusal 7 keeps the field sizes, and `Blob` leaves the declaration's own size
/// dynamic. Up to 2^31 - 1 + 28 * 524,280 bits.
fn large() -> Vec<Vec<u8>> {
    let static_arrays = "array a - Block - 4096, array b 8 - - 4095";
    let padded = |number: usize| ", array p 8 - - -, padding 65535".repeat(number);
    let lines = |bytes: u64, fields: &str| {
        let text =
            format!("little Lamp lite padded; {}", lamp(&format!("typedef t Blob, payload -, {fields}")));
        let due = payload_lines("", 8 * bytes);
        let found = answer(&record(&text)).expect("refusal 7 does not count a padded size behind Blob");
        assert!(String::from_utf8_lossy(&found).contains(&due), "not {bytes} bytes: {fields}");
        record(&text)
    };
    let refused = |number: u8, fields: &str| {
        let text = lamp(&format!("typedef t Blob, payload -, {fields}"));
        heads("lite").map(|head| answered(number, record(&format!("{head}; {text}")))).to_vec()
    };
    let mut all = vec![
        lines(268_435_455, &format!("{static_arrays}, scalar s 7")),
        lines(268_435_455 + 65_535, &format!("{static_arrays}{}", padded(1))),
        lines(268_435_455 + 65_535, &format!("{static_arrays}{}, scalar s 7", padded(1))),
        lines(268_435_455 + 28 * 65_535, &format!("{static_arrays}{}, scalar s 7", padded(28))),
        // a padded size in place of the largest
        lines(8 + 4_095, "array a - Block - 4096, padding 8, array b 8 - - 4095"),
        lines(65_535, "array a - Block - 4096, padding 65535"),
    ];
    all.extend(refused(7, &format!("{static_arrays}{}, scalar s 8", padded(1))));
    all.extend(refused(7, "array a - Block - 4096, array b 8 - - 4096, padding 8"));
    all.extend(refused(7, "array a - Block - 4097, padding 8"));
    all
}

/// Nothing changes where no trailing size is needed, nor in anything but that: the three heads give the same answer.
const SAME: &[&str] = &[
    "scalar amps 12, reserved 4, payload -",
    "",
    "array a 8 - - 2, padding 8",
    "array a 8 - - -, padding 8, payload -",
    "array z 8 - - -, array a 8 - - -, padding 4",
    "size _payload_ 8, payload -, array a 8 - - -",
    "size _payload_ 8, payload -, array a 8 - - -, padding 4",
    "size _body_ 16, body, array a 8 - - 2, padding 8, array b 8 - - - if c 1",
    "payload -, array a 8 - - -, padding 4, size _payload_ 8",
    "typedef t Cell, array a 8 - - -",
    "typedef t Blob, array a 8 - - -, padding 4",
    "typedef t Full, array a 8 - - -, padding 4",
    "scalar x 8 if c 1, array a 8 - - -, padding 4",
    "array a 8 - - 2 if c 1, padding 8",
    "typedef t Rest if c 1, array a 8 - - -",
    "payload - if c 1, array a 8 - - -, padding 4",
    "payload -, scalar x 8",
    "payload -, scalar x 8 if c 1",
    "payload -, payload -",
];

/// The three heads with the same fields, whose answers must be equal.
fn same(fields: &str) -> Vec<Vec<u8>> {
    let all = heads("lite").map(|head| record(&format!("{head}; {}", lamp(fields))));
    let first = answer(&all[0]);
    assert!(all.iter().all(|other| outcome(&answer(other)) == outcome(&first)), "other answers: {fields}");
    all.to_vec()
}

/// Fields, and the answers of the record without the line or with `plain`, and with `padded`: optional fields stay 14,
/// other refusals stand where they are met, and those behind a 14 that is gone are met now.
const ORDER: &[(&str, u8, u8)] = &[
    ("payload -, array a 8 - - 2 if c 1, padding 8", 14, 14),
    ("payload -, array a 8 - - - if c 1, padding 8", 14, 14),
    ("payload -, array a 8 - - 2, padding 8 if c 1", 14, 14),
    ("payload -, array a 8 - - -, padding 8 if c 1, padding 4", 14, 14),
    ("payload -, scalar x 8 if c 1, padding 4", 14, 14),
    ("payload -, body, padding 4", 14, 14),
    ("body, payload -, padding 4, array a 8 - - -, padding 4", 14, 14),
    ("payload -, typedef t Rest, padding 4", 14, 14),
    ("typedef t Rest, typedef u Rest, padding 4", 14, 14),
    ("typedef t Rest, array a 8 - - 2 if c 1, padding 8", 14, 14),
    ("typedef t Rest, array a 8 - - -, padding 4, payload -", 14, 14),
    ("payload -, array a 8 - - -, padding 4, scalar x 8, scalar y 4", 14, 10),
    ("payload -, array a 8 - - -, padding 4, scalar x 4, typedef t Cell", 14, 11),
    ("payload -, array a 8 - - -, padding 4, scalar x 60, scalar y 12", 14, 12),
    ("typedef t Rest, array a 8 - - -, padding 4, scalar x 8, scalar y 4", 14, 10),
    ("scalar x 8, scalar y 4, payload -, array a 8 - - -, padding 4", 10, 10),
    ("scalar x 4, payload -, array a 8 - - -, padding 4", 11, 11),
    ("scalar x 4, typedef t Rest, array a 8 - - -, padding 4", 11, 11),
    ("scalar x 60, scalar y 12, payload -, array a 8 - - -, padding 4", 12, 12),
    ("reserved 8 if c 1, payload -, array a 8 - - -, padding 4", 13, 13),
    ("payload -, array a 12 - - -, padding 4", 8, 8),
    ("payload -, array a 8 - - -, padding 65536", 6, 6),
    ("payload -, array a - Missing - -, padding 4", 5, 5),
    ("payload -, array int 8 - - -, padding 4", 16, 16),
    ("payload -, array a 8 - - -, padding 04", 2, 2),
];

fn in_order((fields, plain, padded): &(&str, u8, u8)) -> Vec<Vec<u8>> {
    let numbers = heads("lite").into_iter().zip([plain, plain, padded]);
    let record =
        |(head, number): (String, &u8)| answered(*number, record(&format!("{head}; {}", lamp(fields))));
    let mut all: Vec<Vec<u8>> = numbers.map(record).collect();
    if plain == padded {
        all.remove(1);
    }
    all
}

/// A head that breaks the form is 2 before every other refusal; one that does not leaves them as they are.
fn in_every_order() -> Vec<Vec<u8>> {
    let crowd = vec!["scalar x 8"; 65].join(", ");
    let records = [
        (16, "packet Lamp -: scalar int 8".to_string()),
        (3, format!("packet Lamp -: {crowd}")),
        (4, "packet Lamp -; packet Lamp -".to_string()),
        (5, "packet Lamp Missing".to_string()),
        (6, "packet Lamp -: scalar x 65".to_string()),
        (7, format!("{BLOCK}; packet Lamp -: array a - Block - 4097")),
        (8, "packet Lamp -: array a 12 - - 2".to_string()),
        (17, "packet Lamp - 16: payload -, array a 8 - - 2, padding 8".to_string()),
        (17, "packet Lamp - unknown: payload -, array a 8 - - -, padding 8".to_string()),
        (0, "packet Lamp - 64: payload -, array a 8 - - -, padding 8".to_string()),
        (9, "packet Other -".to_string()),
        (10, "packet Lamp -: scalar x 8, scalar y 4".to_string()),
        (13, "packet Lamp -: reserved 8 if c 1".to_string()),
    ];
    let with = |number: u8, line: &str, decls: &str| {
        let record = record(&format!("big Lamp full {line}; {decls}"));
        answered(number, record)
    };
    records
        .iter()
        .flat_map(|(number, decls)| [with(*number, "padded", decls), with(2, "Padded", decls)])
        .collect()
}

const START: &str = "endian=little\ntarget=Lamp\narrays=lite\n";
const PACKET: &str = "decl=packet\nname=Lamp\nparent=-\n";
const OCTET: &str = "field=scalar\nid=x\nwidth=8\nif=-\n";

/// Everything between `arrays` and the first declaration that breaks the form, and what just does not.
fn forms() -> Vec<Vec<u8>> {
    let with = |line: &str| format!("{START}{line}{PACKET}{OCTET}").into_bytes();
    let heads = ["little Lamp full", "big Lamp lite", "big Lamp full"];
    let modes =
        heads.iter().flat_map(|head| ["plain", "padded"].map(|word| format!("{head} {word}; packet Lamp -")));
    let mut all: Vec<Vec<u8>> = modes.map(|shorthand| answered(0, record(&shorthand))).collect();
    all.extend(["trailing=plain\n", "trailing=padded\n"].map(|line| answered(0, with(line))));
    all.extend(BAD_VALUES.iter().map(|value| answered(2, with(&format!("trailing={value}\n")))));
    all.extend(BAD_STARTS.iter().map(|start| answered(2, with(&format!("{start}padded\n")))));
    all.extend(LINES.iter().map(|(number, lines)| answered(*number, with(lines))));
    all.extend(BAD_PLACES.iter().map(|whole| answered(2, whole.as_bytes().to_vec())));
    all
}

/// Their answers: twice, beside the lines `raw` and `products`, which stand behind it, without a newline, with one too many,
/// and at the end.
const LINES: &[(u8, &str)] = &[
    (2, "trailing=plain\ntrailing=plain\n"),
    (2, "trailing=padded\ntrailing=padded\n"),
    (2, "trailing=plain\ntrailing=padded\n"),
    (2, "trailing=padded\ntrailing=plain\n"),
    (0, "raw=plain\n"),
    (0, "raw=numbered\n"),
    (0, "products=plain\n"),
    (0, "products=divide\n"),
    (0, "trailing=plain\nraw=plain\n"),
    (0, "trailing=padded\nraw=numbered\n"),
    (2, "raw=plain\ntrailing=padded\n"),
    (0, "trailing=padded\nproducts=plain\n"),
    (2, "trailing=padded\nbits=8\n"),
    (2, "trailing=padded\narrays=lite\n"),
    (2, "trailing=padded\nfield=body\nif=-\n"),
    (2, "trailing=padded"),
    (2, "trailing=plain"),
    (2, "\ntrailing=padded\n"),
    (2, "trailing=padded\n\n"),
    (2, "trailing=padded\r\n"),
    (2, "trailing=pad\nded\n"),
    (2, "trailing\n=padded\n"),
    (2, "trailing=plainpadded\n"),
];

/// At every other place, alone and beside the right one; and a head with nothing behind it.
const BAD_PLACES: &[&str] = &[
    "trailing=padded\nendian=little\ntarget=Lamp\narrays=lite\ndecl=packet\nname=Lamp\nparent=-\n",
    "endian=little\ntrailing=padded\ntarget=Lamp\narrays=lite\ndecl=packet\nname=Lamp\nparent=-\n",
    "endian=little\ntarget=Lamp\ntrailing=padded\narrays=lite\ndecl=packet\nname=Lamp\nparent=-\n",
    "endian=little\ntarget=Lamp\ntrailing=plain\narrays=lite\ndecl=packet\nname=Lamp\nparent=-\n",
    "endian=little\ntarget=Lamp\ntrailing=plain\narrays=lite\ntrailing=plain\ndecl=packet\nname=Lamp\nparent=-\n",
    "endian=little\ntarget=Lamp\narrays=lite\ndecl=packet\ntrailing=padded\nname=Lamp\nparent=-\n",
    "endian=little\ntarget=Lamp\narrays=lite\ndecl=packet\nname=Lamp\ntrailing=padded\nparent=-\n",
    "endian=little\ntarget=Lamp\narrays=lite\ndecl=packet\nname=Lamp\nparent=-\ntrailing=padded\n",
    "endian=little\ntarget=Lamp\narrays=lite\ndecl=packet\nname=Lamp\nparent=-\nbits=0\ntrailing=padded\n",
    "endian=little\ntarget=Lamp\narrays=lite\ntrailing=padded\ndecl=packet\nname=Lamp\nparent=-\ntrailing=padded\n",
    "endian=little\ntarget=Lamp\narrays=lite\ndecl=packet\nname=Lamp\nparent=-\nfield=body\ntrailing=padded\nif=-\n",
    "endian=little\ntarget=Lamp\narrays=lite\ndecl=packet\nname=Lamp\nparent=-\nfield=body\nif=-\ntrailing=padded\n",
    "endian=little\ntarget=Lamp\narrays=lite\ndecl=packet\nname=Lamp\nparent=-\ntrailing=padded\ndecl=custom\nname=C\nwidth=-\n",
    "endian=little\ntarget=Lamp\narrays=lite\ndecl=custom\nname=C\nwidth=-\ntrailing=padded\ndecl=packet\nname=Lamp\nparent=-\n",
    "endian=little\ntarget=Lamp\ntrailing=padded\ndecl=packet\nname=Lamp\nparent=-\n",
    "trailing=padded\n",
    "endian=little\ntarget=Lamp\narrays=lite\ntrailing=padded\n",
    "endian=little\ntarget=Lamp\narrays=lite\ntrailing=padded",
    "endian=little\ntarget=Lamp\narrays=lite\ntrailing=plain",
    "endian=little\ntarget=Lamp\narrays=lite\ntrailing=",
];

/// The line counts among the record's bytes: 16,384 and one more.
fn long() -> Vec<Vec<u8>> {
    let with = |length: usize, line: &str| {
        let text = String::from_utf8(of_length(length - line.len() - 1)).expect("a record is ASCII");
        text.replacen("arrays=lite\n", &format!("arrays=lite\n{line}\n"), 1).into_bytes()
    };
    let all = vec![
        answered(0, with(16_384, "trailing=padded")),
        answered(0, with(16_384, "trailing=plain")),
        answered(1, with(16_385, "trailing=padded")),
        answered(1, with(16_385, "trailing=plain")),
        answered(2, with(16_384, "trailing=Padded")),
    ];
    assert!(all[..2].iter().all(|record| record.len() == 16_384), "another length");
    all
}
