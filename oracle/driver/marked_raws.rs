//! The marked cases of the head's line `raw` (document 02, Card 7): which variables have a number, and which; where
//! nothing changes; the order among the refusals; the form; and the record's length. They are a list of their own, which
//! stands behind those of `trailing` in the stored sample.

use crate::answer::{answer, Answer};
use crate::generate::BLOCK;
use crate::marked::{self, answered, of_length};
use crate::marked_bits;
use crate::marked_trailing;
use crate::numbered::without_numbers;
use crate::raws::{BAD_STARTS, BAD_VALUES};
use crate::sketch::record;
use Part::{Room, Tested, Text};

/// All of them. Fails loudly where the judge is not of document 02's opinion.
pub fn records() -> Vec<Vec<u8>> {
    in_other_records();
    let mut all = ONE.records(&HEADS);
    all.extend(NUMBERED.iter().chain(NAMES).flat_map(|numbered| numbered.records(&["", " raw=numbered"])));
    all.extend(many());
    all.extend(
        PADDED.iter().flat_map(|padded| padded.records(&[" padded raw=plain", " padded raw=numbered"])),
    );
    all.extend(in_every_order());
    all.extend(forms());
    all.extend(long());
    all
}

/// In every other marked record that has no line `raw`: with `plain` each answer is as it is; with `numbered` the same
/// are refused, by the same number, and without their numbers the lines are the plain ones.
fn in_other_records() {
    let all =
        [marked::records(), marked::keyword_records(), marked_bits::records(), marked_trailing::records()];
    for whole in all.concat() {
        let text = String::from_utf8_lossy(&whole);
        let (plain, numbered) = (with_line(&text, "raw=plain\n"), with_line(&text, "raw=numbered\n"));
        if numbered.len() <= 16_384 && whole.is_ascii() && !text.contains("\nraw=") {
            let before = answer(&whole);
            assert_eq!(outcome(&answer(plain.as_bytes())), outcome(&before), "with raw=plain:\n{text}");
            let found = answer(numbered.as_bytes()).map(|lines| plain_again(&lines).into_bytes());
            assert_eq!(outcome(&found), outcome(&before), "with raw=numbered:\n{text}");
        }
    }
}

fn plain_again(lines: &[u8]) -> String {
    without_numbers(std::str::from_utf8(lines).expect("lines are ASCII"))
}

/// The record with this line behind `trailing`, or behind `arrays` where that is not there.
fn with_line(text: &str, line: &str) -> String {
    let modes = ["arrays=lite\n", "arrays=full\n"];
    let Some(at) = modes.iter().filter_map(|mode| Some(text.find(mode)? + mode.len())).min() else {
        return text.to_string();
    };
    let words = ["trailing=plain\n", "trailing=padded\n"];
    let trailing = words.iter().find(|word| text[at..].starts_with(**word)).map_or(0, |word| word.len());
    let (before, behind) = text.split_at(at + trailing);
    format!("{before}{line}{behind}")
}

/// The lines, or the number of the refusal.
fn outcome(answer: &Answer) -> Result<&[u8], u8> {
    answer.as_deref().map_err(|refusal| refusal.number)
}

/// The declarations that the fields name, and the target with these.
fn lamp(fields: &str) -> String {
    let types = [
        ("Bit", "enum Bit 1 0 0"),
        ("Half", "enum Half 4 0 0"),
        ("Mode", "enum Mode 8 0 0"),
        ("Wide", "enum Wide 16 0 0"),
        ("Any", "enum Any 8 1 0"),
        ("Done", "enum Done 8 0 1"),
        ("Both", "enum Both 8 1 1"),
        ("Cell", "struct Cell -: scalar c 8"),
        ("Rest", "struct Rest -: payload -"),
    ];
    let used = types.iter().filter(|(name, _)| fields.contains(name)).map(|(_, decl)| format!("{decl}; "));
    format!("{}packet Lamp -: {fields}", used.collect::<String>())
}

/// The head's first three values, the fields of `Lamp` or all declarations, and the lines.
struct Numbered(&'static str, &'static str, &'static [Part]);

enum Part {
    /// A size check of bit fields.
    Room(u64),
    /// A tested bit field: where it is written, its type, and its bits. They are counted from 0 in their order.
    Tested(&'static str, &'static str, &'static str),
    /// Other lines, the same with and without numbers.
    Text(&'static str),
}

/// The lines of the parts, with numbers or without.
fn lines(parts: &[Part], has_numbers: bool) -> String {
    let mut number = 0;
    let mut text = String::new();
    for part in parts {
        match part {
            Room(bytes) => text += &room(*bytes),
            Tested(target, type_, bits) => {
                text += &tested(target, type_, bits, has_numbers.then_some(number));
                number += 1;
            }
            Text(lines) => text += lines,
        }
    }
    text
}

fn room(bytes: u64) -> String {
    format!("if (span.size() < {bytes}) {{\n    return false;\n}}\n")
}

fn tested(target: &str, type_: &str, bits: &str, number: Option<usize>) -> String {
    let digits = number.map_or(String::new(), |number| number.to_string());
    format!(
        "auto raw_value{digits} = {bits};\n\
         if (!IsValid{type_}(raw_value{digits})) {{\n   return false;\n}}\n\
         {target}_ = {type_}(raw_value{digits});\n"
    )
}

/// Without the line, with each of its words, and each of these behind each word of `trailing`.
const HEADS: [&str; 7] = [
    "",
    " raw=plain",
    " raw=numbered",
    " plain raw=plain",
    " plain raw=numbered",
    " padded raw=plain",
    " padded raw=numbered",
];

impl Numbered {
    /// The records with these heads. The lines of each of the seven are the due ones; in `PADDED`, where the word of
    /// `trailing` matters, those of the given ones.
    fn records(&self, heads: &[&str]) -> Vec<Vec<u8>> {
        let Numbered(head, text, parts) = self;
        let decls = if text.contains(" -") && text.contains(':') { text.to_string() } else { lamp(text) };
        let with = |line: &str| record(&format!("{head}{line}; {decls}"));
        let asserted = if heads.contains(&"") { &HEADS[..] } else { heads };
        for line in asserted {
            let due = lines(parts, line.ends_with("numbered"));
            let found = answer(&with(line)).map(|lines| String::from_utf8_lossy(&lines).into_owned());
            assert_eq!(
                found.as_deref().map_err(|refusal| refusal.number),
                Ok(&due[..]),
                "{head}{line}: {text}"
            );
        }
        heads.iter().map(|line| with(line)).collect()
    }
}

const LITE: &str = "little Lamp lite";
const FULL: &str = "big Lamp full";
const OCTET: &str = "span.read_le<uint8_t, 1>()";
const BIG_OCTET: &str = "span.read_be<uint8_t, 1>()";
const THE_REST: Part =
    Text("if ((span.size() % 1) != 0) {\n    return false;\n}\ny_ = span;\nspan.clear();\n");
const CHUNK: Part = Text("uint8_t chunk0 = span.read_le<uint8_t, 1>();\n");

const ONE: Numbered = Numbered(LITE, "typedef a Mode", &[Room(1), Tested("a", "Mode", OCTET)]);

/// Each reading of the card.
const NUMBERED: &[Numbered] = &[
    Numbered(FULL, "typedef a Mode", &[Room(1), Tested("output->a", "Mode", BIG_OCTET)]),
    // in two chunks; in one chunk, and one behind it; between other bit fields
    Numbered(LITE, "typedef a Mode, typedef b Mode", &[Room(2), Tested("a", "Mode", OCTET), Tested("b", "Mode", OCTET)]),
    Numbered(
        FULL,
        "typedef a Wide, typedef b Mode",
        &[
            Room(3),
            Tested("output->a", "Wide", "span.read_be<uint16_t, 2>()"),
            Tested("output->b", "Mode", BIG_OCTET),
        ],
    ),
    Numbered(
        LITE,
        "typedef a Half, typedef b Half, typedef d Mode",
        &[
            Room(2),
            CHUNK,
            Tested("a", "Half", "(chunk0 >> 0) & 0xf"),
            Tested("b", "Half", "(chunk0 >> 4) & 0xf"),
            Tested("d", "Mode", OCTET),
        ],
    ),
    Numbered(
        LITE,
        "scalar s 4, typedef a Bit, typedef b Half, reserved 2, typedef d Half, typedef e Bit, typedef f Mode",
        &[
            Room(3),
            Text("uint16_t chunk0 = span.read_le<uint16_t, 2>();\ns_ = (chunk0 >> 0) & 0xf;\n"),
            Tested("a", "Bit", "(chunk0 >> 4) & 0x1"),
            Tested("b", "Half", "(chunk0 >> 5) & 0xf"),
            Tested("d", "Half", "(chunk0 >> 11) & 0xf"),
            Tested("e", "Bit", "(chunk0 >> 15) & 0x1"),
            Tested("f", "Mode", OCTET),
        ],
    ),
    Numbered(
        LITE,
        "typedef a Half, typedef b Half, typedef d Half, typedef e Half",
        &[
            Room(2),
            CHUNK,
            Tested("a", "Half", "(chunk0 >> 0) & 0xf"),
            Tested("b", "Half", "(chunk0 >> 4) & 0xf"),
            Text("uint8_t chunk1 = span.read_le<uint8_t, 1>();\n"),
            Tested("d", "Half", "(chunk1 >> 0) & 0xf"),
            Tested("e", "Half", "(chunk1 >> 4) & 0xf"),
        ],
    ),
    // a check between: a payload with and without a size, a body, an array, a struct, an optional field
    Numbered(
        LITE,
        "typedef a Mode, size _payload_ 8, payload -, typedef b Mode",
        &[
            Room(2),
            Tested("a", "Mode", OCTET),
            Text(
                "payload_size_ = span.read_le<uint8_t, 1>();\n\
                 if (span.size() < payload_size_) return false;\n\
                 payload_ = span.subrange(0, payload_size_);\n\
                 span.skip(payload_size_);\n",
            ),
            Room(1),
            Tested("b", "Mode", OCTET),
        ],
    ),
    Numbered(
        LITE,
        "typedef a Mode, payload -, typedef b Mode",
        &[
            Room(1),
            Tested("a", "Mode", OCTET),
            Text(
                "if (span.size() < 1) return false;\n\
                 payload_ = span.subrange(0, span.size() - 1);\n\
                 span.skip(span.size() - 1);\n",
            ),
            Room(1),
            Tested("b", "Mode", OCTET),
        ],
    ),
    Numbered(
        FULL,
        "typedef a Mode, typedef b Mode, body",
        &[
            Room(2),
            Tested("output->a", "Mode", BIG_OCTET),
            Tested("output->b", "Mode", BIG_OCTET),
            Text("output->payload_ = span;\nspan.clear();\n"),
        ],
    ),
    Numbered(
        LITE,
        "typedef a Mode, array x 8 - - 2, typedef b Mode, array y 8 - - -",
        &[
            Room(1),
            Tested("a", "Mode", OCTET),
            Room(2),
            Text("x_ = span.subrange(0, 2);\nspan.skip(2);\n"),
            Room(1),
            Tested("b", "Mode", OCTET),
            THE_REST,
        ],
    ),
    Numbered(
        LITE,
        "typedef a Mode, typedef t Cell, typedef b Mode",
        &[
            Room(1),
            Tested("a", "Mode", OCTET),
            Text("if (!Cell::Parse(span, &t_)) return false;\n"),
            Room(1),
            Tested("b", "Mode", OCTET),
        ],
    ),
    Numbered(
        LITE,
        "typedef a Mode, typedef t Rest, typedef b Mode",
        &[
            Room(1),
            Tested("a", "Mode", OCTET),
            Text(
                "if (span.size() < 1) return false;\n\
                 pdl::packet::slice t_span = span.subrange(0, span.size() - 1);\n\
                 if (!Rest::Parse(t_span, &t_)) return false;\n\
                 span.skip(t_span.size());\n",
            ),
            Room(1),
            Tested("b", "Mode", OCTET),
        ],
    ),
    Numbered(
        LITE,
        "scalar s 8, typedef a Mode, scalar x 8 if s 1, typedef b Mode, typedef t Cell if s 2, typedef d Mode",
        &[
            Room(2),
            Text("uint8_t s = span.read_le<uint8_t, 1>();\n"),
            Tested("a", "Mode", OCTET),
            Text(
                "if (s == 1) {\n    if (span.size() < 1) {\n        return false;\n    }\n    \
                 x_ = span.read_le<uint8_t, 1>();\n}\n",
            ),
            Room(1),
            Tested("b", "Mode", OCTET),
            Text(
                "if (s == 2) {\n    auto& opt_output = t_.emplace();\n    \
                 if (!Cell::Parse(span, &opt_output)) {\n        return false;\n    }\n}\n",
            ),
            Room(1),
            Tested("d", "Mode", OCTET),
        ],
    ),
    Numbered(
        LITE,
        "typedef a Mode, checksum k, typedef b Mode, padding 4, typedef d Mode",
        &[Room(1), Tested("a", "Mode", OCTET), Room(1), Tested("b", "Mode", OCTET), Room(1), Tested("d", "Mode", OCTET)],
    ),
    // optional closed and complete enums keep the old name in their blocks, and take no number
    Numbered(
        LITE,
        "flag s, reserved 7, typedef a Mode, typedef p Mode if s 1, typedef q Done if s 0, typedef b Mode",
        &[
            Room(2),
            CHUNK,
            Text("uint8_t s = (chunk0 >> 0) & 0x1;\n"),
            Tested("a", "Mode", OCTET),
            Text(
                "if (s == 1) {\n    if (span.size() < 1) {\n        return false;\n    }\n    \
                 auto raw_value = span.read_le<uint8_t, 1>();\n    if (!IsValidMode(raw_value)) {\n       \
                 return false;\n    }\n    p_ = Mode(raw_value);\n}\n",
            ),
            Text(
                "if (s == 0) {\n    if (span.size() < 1) {\n        return false;\n    }\n    \
                 auto raw_value = span.read_le<uint8_t, 1>();\n    if (!IsValidDone(raw_value)) {\n       \
                 return false;\n    }\n    q_ = Done(raw_value);\n}\n",
            ),
            Room(1),
            Tested("b", "Mode", OCTET),
        ],
    ),
    Numbered(
        FULL,
        "typedef a Mode, typedef p Wide if s 1, typedef b Mode, typedef q Any if s 1",
        &[
            Room(1),
            Tested("output->a", "Mode", BIG_OCTET),
            Text(
                "if (s == 1) {\n    if (span.size() < 2) {\n        return false;\n    }\n    \
                 auto raw_value = span.read_be<uint16_t, 2>();\n    if (!IsValidWide(raw_value)) {\n       \
                 return false;\n    }\n    output->p_ = Wide(raw_value);\n}\n",
            ),
            Room(1),
            Tested("output->b", "Mode", BIG_OCTET),
            Text(
                "if (s == 1) {\n    if (span.size() < 1) {\n        return false;\n    }\n    \
                 output->q_ = Any(span.read_be<uint8_t, 1>());\n}\n",
            ),
        ],
    ),
    // so do arrays in full mode, in each size; in lite mode they have none
    Numbered(
        LITE,
        "typedef a Mode, array x - Mode - 2, typedef b Mode, array y - Done - -",
        &[
            Room(1),
            Tested("a", "Mode", OCTET),
            Room(2),
            Text("x_ = span.subrange(0, 2);\nspan.skip(2);\n"),
            Room(1),
            Tested("b", "Mode", OCTET),
            THE_REST,
        ],
    ),
    Numbered(
        FULL,
        "typedef a Mode, array x - Mode - 2, typedef b Mode",
        &[
            Room(1),
            Tested("output->a", "Mode", BIG_OCTET),
            Room(2),
            Text(
                "for (size_t n = 0; n < 2; n++) {\n    auto raw_value = span.read_be<uint8_t, 1>();\n    \
                 if (!IsValidMode(raw_value)) {\n        return false;\n    }\n    \
                 output->x_[n] = Mode(raw_value);\n}\n",
            ),
            Room(1),
            Tested("output->b", "Mode", BIG_OCTET),
        ],
    ),
    Numbered(
        FULL,
        "typedef a Mode, count x 8, array x - Mode - -, typedef b Mode",
        &[
            Room(2),
            Tested("output->a", "Mode", BIG_OCTET),
            Text(
                "output->x_count_ = span.read_be<uint8_t, 1>();\n\
                 if (span.size() < 1 * output->x_count_) {\n    return false;\n}\n\
                 for (size_t n = 0; n < output->x_count_; n++) {\n    \
                 auto raw_value = span.read_be<uint8_t, 1>();\n    if (!IsValidMode(raw_value)) {\n        \
                 return false;\n    }\n    output->x_.push_back(Mode(raw_value));\n}\n",
            ),
            Room(1),
            Tested("output->b", "Mode", BIG_OCTET),
        ],
    ),
    // open, complete and fixed enums, scalars and reserved fields take none
    Numbered(
        LITE,
        "typedef o Any, typedef a Mode, typedef g Done, typedef h Both, fixedenum Mode OFF, typedef b Mode, reserved 8, \
         fixed 8 7, scalar s 8, typedef d Mode",
        &[
            Room(10),
            Text("o_ = Any(span.read_le<uint8_t, 1>());\n"),
            Tested("a", "Mode", OCTET),
            Text("g_ = Done(span.read_le<uint8_t, 1>());\nh_ = Both(span.read_le<uint8_t, 1>());\n"),
            Text("if (Mode(span.read_le<uint8_t, 1>()) != Mode::OFF) {\n    return false;\n}\n"),
            Tested("b", "Mode", OCTET),
            Text("span.skip(1); // skip reserved fields\n"),
            Text("if (static_cast<uint64_t>(span.read_le<uint8_t, 1>()) != 0x7) {\n    return false;\n}\n"),
            Text("s_ = span.read_le<uint8_t, 1>();\n"),
            Tested("d", "Mode", OCTET),
        ],
    ),
    Numbered(LITE, "typedef o Any", &[Room(1), Text("o_ = Any(span.read_le<uint8_t, 1>());\n")]),
    Numbered(LITE, "", &[]),
    // a chunk that goes on behind a field, and one that is dropped
    Numbered(
        LITE,
        "typedef a Half, array x 8 - - 2, typedef b Half, typedef d Mode",
        &[
            Room(2),
            Text("x_ = span.subrange(0, 2);\nspan.skip(2);\n"),
            Room(2),
            CHUNK,
            Tested("a", "Half", "(chunk0 >> 0) & 0xf"),
            Tested("b", "Half", "(chunk0 >> 4) & 0xf"),
            Tested("d", "Mode", OCTET),
        ],
    ),
    Numbered(
        LITE,
        "typedef a Mode, array x 8 - - 2, typedef b Half",
        &[Room(1), Tested("a", "Mode", OCTET), Room(2), Text("x_ = span.subrange(0, 2);\nspan.skip(2);\n")],
    ),
    // those of other declarations, of the parent too, do not count
    Numbered(
        LITE,
        "enum Mode 8 0 0; struct Two -: typedef a Mode, typedef b Mode; packet Lamp Two: typedef t Two, typedef d Mode; \
         packet Late Lamp: typedef e Mode",
        &[Text("if (!Two::Parse(span, &t_)) return false;\n"), Room(1), Tested("d", "Mode", OCTET)],
    ),
    Numbered(
        "little Cell full",
        "enum Mode 8 0 0; packet Base -: typedef a Mode; struct Cell -: typedef b Mode, typedef d Mode",
        &[Room(2), Tested("output->b", "Mode", OCTET), Tested("output->d", "Mode", OCTET)],
    ),
];

/// Names of the record that read like the variables: each stays as it is written.
const NAMES: &[Numbered] = &[
    // a flag and a scalar that a condition names
    Numbered(
        LITE,
        "flag raw_value, reserved 7, typedef a Mode, scalar x 8 if raw_value 1",
        &[
            Room(2),
            CHUNK,
            Text("uint8_t raw_value = (chunk0 >> 0) & 0x1;\n"),
            Tested("a", "Mode", OCTET),
            Text(
                "if (raw_value == 1) {\n    if (span.size() < 1) {\n        return false;\n    }\n    \
                 x_ = span.read_le<uint8_t, 1>();\n}\n",
            ),
        ],
    ),
    Numbered(
        LITE,
        "flag raw_value0, flag raw_value1, reserved 6, typedef a Mode, typedef b Mode, typedef p Mode if raw_value0 1",
        &[
            Room(3),
            CHUNK,
            Text("uint8_t raw_value0 = (chunk0 >> 0) & 0x1;\nuint8_t raw_value1 = (chunk0 >> 1) & 0x1;\n"),
            Tested("a", "Mode", OCTET),
            Tested("b", "Mode", OCTET),
            Text(
                "if (raw_value0 == 1) {\n    if (span.size() < 1) {\n        return false;\n    }\n    \
                 auto raw_value = span.read_le<uint8_t, 1>();\n    if (!IsValidMode(raw_value)) {\n       \
                 return false;\n    }\n    p_ = Mode(raw_value);\n}\n",
            ),
        ],
    ),
    Numbered(
        LITE,
        "scalar raw_value0 8, typedef a Mode, scalar raw_value1 8 if raw_value0 1",
        &[
            Room(2),
            Text("uint8_t raw_value0 = span.read_le<uint8_t, 1>();\n"),
            Tested("a", "Mode", OCTET),
            Text(
                "if (raw_value0 == 1) {\n    if (span.size() < 1) {\n        return false;\n    }\n    \
                 raw_value1_ = span.read_le<uint8_t, 1>();\n}\n",
            ),
        ],
    ),
    // a scalar, and the tested fields themselves
    Numbered(
        FULL,
        "scalar raw_value 8, scalar raw_value0 8, typedef raw_value1 Mode, typedef raw_value Mode",
        &[
            Room(4),
            Text("output->raw_value_ = span.read_be<uint8_t, 1>();\noutput->raw_value0_ = span.read_be<uint8_t, 1>();\n"),
            Tested("output->raw_value1", "Mode", BIG_OCTET),
            Tested("output->raw_value", "Mode", BIG_OCTET),
        ],
    ),
    // the enum and a tag
    Numbered(
        LITE,
        "enum raw_value 8 0 0; enum raw_value0 8 0 0; enum raw_value1 8 1 0; packet Lamp -: typedef a raw_value, \
         typedef b raw_value0, fixedenum raw_value0 raw_value1, typedef o raw_value1",
        &[
            Room(4),
            Tested("a", "raw_value", OCTET),
            Tested("b", "raw_value0", OCTET),
            Text("if (raw_value0(span.read_le<uint8_t, 1>()) != raw_value0::raw_value1) {\n    return false;\n}\n"),
            Text("o_ = raw_value1(span.read_le<uint8_t, 1>());\n"),
        ],
    ),
    // the target, a parent and a struct
    Numbered(
        "little raw_value0 lite",
        "enum Mode 8 0 0; struct raw_value1 -: scalar c 8; packet raw_value -: payload -; \
         packet raw_value0 raw_value: typedef a Mode, typedef raw_value1 raw_value1, typedef b Mode",
        &[
            Room(1),
            Tested("a", "Mode", OCTET),
            Text("if (!raw_value1::Parse(span, &raw_value1_)) return false;\n"),
            Room(1),
            Tested("b", "Mode", OCTET),
        ],
    ),
    // an array with its count, one that counts its elements itself, and one with its size, mod and padding
    Numbered(
        FULL,
        "typedef a Mode, array raw_value 8 - - -, array raw_value0 8 - - -",
        &[
            Room(1),
            Tested("output->a", "Mode", BIG_OCTET),
            Text(
                "if ((span.size() % 1) != 0) {\n    return false;\n}\n\
                 auto raw_value_count_ = span.size() / 1;\n\
                 for (size_t n = 0; n < raw_value_count_; n++) {\n    \
                 output->raw_value_.push_back(span.read_be<uint8_t, 1>());\n}\n",
            ),
            Text(
                "if ((span.size() % 1) != 0) {\n    return false;\n}\n\
                 auto raw_value0_count_ = span.size() / 1;\n\
                 for (size_t n = 0; n < raw_value0_count_; n++) {\n    \
                 output->raw_value0_.push_back(span.read_be<uint8_t, 1>());\n}\n",
            ),
        ],
    ),
    Numbered(
        FULL,
        "typedef a Mode, count raw_value0 8, array raw_value0 - Mode - -",
        &[
            Room(2),
            Tested("output->a", "Mode", BIG_OCTET),
            Text(
                "output->raw_value0_count_ = span.read_be<uint8_t, 1>();\n\
                 if (span.size() < 1 * output->raw_value0_count_) {\n    return false;\n}\n\
                 for (size_t n = 0; n < output->raw_value0_count_; n++) {\n    \
                 auto raw_value = span.read_be<uint8_t, 1>();\n    if (!IsValidMode(raw_value)) {\n        \
                 return false;\n    }\n    output->raw_value0_.push_back(Mode(raw_value));\n}\n",
            ),
        ],
    ),
    Numbered(
        LITE,
        "typedef a Mode, size raw_value 8, array raw_value 8 - +1 -, padding 4",
        &[
            Room(2),
            Tested("a", "Mode", OCTET),
            Text(
                "raw_value_size_ = span.read_le<uint8_t, 1>();\n\
                 size_t raw_value_start_size = span.size();\n\
                 raw_value_size_ = raw_value_size_ - +1;\n\
                 if (span.size() < raw_value_size_) {\n    return false;\n}\n\
                 if ((raw_value_size_ % 1) != 0) {\n    return false;\n}\n\
                 raw_value_ = span.subrange(0, raw_value_size_);\n\
                 span.skip(raw_value_size_);\n\
                 if (raw_value_start_size - span.size() < 4) {\n    \
                 if (span.size() < 4 - (raw_value_start_size - span.size())) return false;\n    \
                 span.skip(4 - (raw_value_start_size - span.size()));\n}\n",
            ),
        ],
    ),
];

/// Two digits: 12 and 64 alone in their chunks, and 64 in eight chunks.
fn many() -> Vec<Vec<u8>> {
    let of_octets = |number: usize, has_numbers: bool| {
        let each = |at: usize| tested("a", "Mode", OCTET, has_numbers.then_some(at));
        room(number as u64) + &(0..number).map(each).collect::<String>()
    };
    let of_bits = |chunk: usize| {
        let bits = |shift: usize| format!("(chunk{chunk} >> {shift}) & 0x1");
        let each = |shift: usize| tested("a", "Bit", &bits(shift), Some(8 * chunk + shift));
        format!("uint8_t chunk{chunk} = {OCTET};\n{}", (0..8).map(each).collect::<String>())
    };
    let with = |fields: &str, line: &str, due: String| {
        let record = record(&format!("{LITE}{line}; {}", lamp(fields)));
        let found = answer(&record).expect("it is accepted");
        assert_eq!(String::from_utf8_lossy(&found), due, "{line}: {fields}");
        record
    };
    let (dozen, most) = (["typedef a Mode"; 12].join(", "), ["typedef a Mode"; 64].join(", "));
    let bits = ["typedef a Bit"; 64].join(", ");
    vec![
        with(&dozen, "", of_octets(12, false)),
        with(&dozen, " raw=plain", of_octets(12, false)),
        with(&dozen, " raw=numbered", of_octets(12, true)),
        with(&most, " raw=plain", of_octets(64, false)),
        with(&most, " raw=numbered", of_octets(64, true)),
        with(&bits, " plain raw=numbered", room(8) + &(0..8).map(of_bits).collect::<String>()),
    ]
}

/// Both lines of the head at once, each with its own effect.
const PADDED: &[Numbered] = &[
    Numbered(
        LITE,
        "typedef a Mode, payload -, typedef b Mode, array x 8 - - 2, padding 8",
        &[
            Room(1),
            Tested("a", "Mode", OCTET),
            Text(
                "if (span.size() < 9) return false;\n\
                 payload_ = span.subrange(0, span.size() - 9);\n\
                 span.skip(span.size() - 9);\n",
            ),
            Room(1),
            Tested("b", "Mode", OCTET),
            Text("size_t x_start_size = span.size();\n"),
            Room(2),
            Text(
                "x_ = span.subrange(0, 2);\nspan.skip(2);\n\
                 if (x_start_size - span.size() < 8) {\n    \
                 if (span.size() < 8 - (x_start_size - span.size())) return false;\n    \
                 span.skip(8 - (x_start_size - span.size()));\n}\n",
            ),
        ],
    ),
    Numbered(
        FULL,
        "typedef a Mode, body, array x - Mode - -, padding 4, typedef b Mode",
        &[
            Room(1),
            Tested("output->a", "Mode", BIG_OCTET),
            Text(
                "if (span.size() < 5) return false;\n\
                 output->payload_ = span.subrange(0, span.size() - 5);\n\
                 span.skip(span.size() - 5);\n\
                 size_t x_start_size = span.size();\n\
                 if ((span.size() % 1) != 0) {\n    return false;\n}\n\
                 auto x_count_ = span.size() / 1;\n\
                 for (size_t n = 0; n < x_count_; n++) {\n    \
                 auto raw_value = span.read_be<uint8_t, 1>();\n    if (!IsValidMode(raw_value)) {\n        \
                 return false;\n    }\n    output->x_.push_back(Mode(raw_value));\n}\n\
                 if (x_start_size - span.size() < 4) {\n    \
                 if (span.size() < 4 - (x_start_size - span.size())) return false;\n    \
                 span.skip(4 - (x_start_size - span.size()));\n}\n",
            ),
            Room(1),
            Tested("output->b", "Mode", BIG_OCTET),
        ],
    ),
];

/// A head that breaks the form is 2 before every other refusal; one that does not leaves them as they are.
fn in_every_order() -> Vec<Vec<u8>> {
    let crowd = vec!["typedef m Mode"; 65].join(", ");
    let records = [
        (16, "enum int 8 0 0; packet Lamp -: typedef m int".to_string()),
        (3, format!("enum Mode 8 0 0; packet Lamp -: {crowd}")),
        (4, "enum Lamp 8 0 0; packet Lamp -".to_string()),
        (5, "packet Lamp -: typedef m Mode; enum Mode 8 0 0".to_string()),
        (6, "enum Mode 65 0 0; packet Lamp -: typedef m Mode".to_string()),
        (7, format!("{BLOCK}; packet Lamp -: array a - Block - 4097")),
        (8, "enum Mode 12 0 0; packet Lamp -: array m - Mode - 2".to_string()),
        (17, "enum Mode 8 0 0; packet Lamp - 8: typedef a Mode, typedef b Mode".to_string()),
        (0, "enum Mode 8 0 0; packet Lamp - 16: typedef a Mode, typedef b Mode".to_string()),
        (9, "enum Lamp 8 0 0; packet Other -: typedef m Lamp".to_string()),
        (10, "enum Mode 12 0 0; packet Lamp -: scalar x 8, typedef m Mode".to_string()),
        (11, "enum Mode 12 0 0; packet Lamp -: typedef m Mode, payload -".to_string()),
        (12, "enum Mode 60 0 0; packet Lamp -: typedef a Mode, typedef b Mode, scalar x 8".to_string()),
        (13, "enum Mode 8 0 0; packet Lamp -: typedef a Mode, fixedenum Mode OFF if c 1".to_string()),
        (14, "enum Mode 8 0 0; packet Lamp -: typedef a Mode, payload -, typedef b Mode if c 1".to_string()),
    ];
    let with = |number: u8, line: &str, decls: &str| {
        let record = record(&format!("big Lamp full {line}; {decls}"));
        answered(number, record)
    };
    records
        .iter()
        .flat_map(|(number, decls)| [with(*number, "raw=numbered", decls), with(2, "raw=Numbered", decls)])
        .collect()
}

const START: &str = "endian=little\ntarget=Lamp\narrays=lite\n";
const REST: &str = "decl=enum\nname=Mode\nwidth=8\nopen=0\ncomplete=0\n\
                    decl=packet\nname=Lamp\nparent=-\nfield=typedef\nid=a\ntype=Mode\nif=-\n";

/// Everything between `arrays` and the first declaration that breaks the form, and what just does not.
fn forms() -> Vec<Vec<u8>> {
    let with = |line: &str| format!("{START}{line}{REST}").into_bytes();
    let heads = ["little Lamp full", "big Lamp lite", "big Lamp full"];
    let words = ["plain", "numbered"];
    let modes = heads.iter().flat_map(|head| words.map(|word| format!("{head} raw={word}; packet Lamp -")));
    let mut all: Vec<Vec<u8>> = modes.map(|shorthand| answered(0, record(&shorthand))).collect();
    all.extend(BAD_VALUES.iter().map(|value| answered(2, with(&format!("raw={value}\n")))));
    all.extend(BAD_STARTS.iter().map(|start| answered(2, with(&format!("{start}numbered\n")))));
    all.extend(LINES.iter().map(|(number, lines)| answered(*number, with(lines))));
    all.extend(BAD_PLACES.iter().map(|whole| answered(2, whole.as_bytes().to_vec())));
    all
}

/// Their answers: twice, before `trailing`, beside the line `products`, which stands behind it, without a newline, with one too
/// many, and at the end.
const LINES: &[(u8, &str)] = &[
    (2, "raw=plain\nraw=plain\n"),
    (2, "raw=numbered\nraw=numbered\n"),
    (2, "raw=plain\nraw=numbered\n"),
    (2, "raw=numbered\nraw=plain\n"),
    (2, "raw=plain\ntrailing=plain\n"),
    (2, "raw=numbered\ntrailing=padded\n"),
    (2, "trailing=plain\nraw=numbered\ntrailing=plain\n"),
    (2, "trailing=padded\nraw=numbered\nraw=numbered\n"),
    (2, "trailing=plain\nraw=Plain\n"),
    (2, "trailing=padded\nraw=padded\n"),
    (2, "trailing=numbered\nraw=numbered\n"),
    (2, "trailing=padded\n\nraw=numbered\n"),
    (2, "trailing=padded raw=numbered\n"),
    (2, "trailing=paddedraw=numbered\n"),
    (0, "raw=numbered\nproducts=plain\n"),
    (0, "raw=numbered\nproducts=divide\n"),
    (2, "products=plain\nraw=numbered\n"),
    (2, "raw=numbered\nbits=8\n"),
    (2, "raw=numbered\narrays=lite\n"),
    (2, "raw=numbered\nfield=body\nif=-\n"),
    (2, "raw=numbered"),
    (2, "raw=plain"),
    (2, "\nraw=numbered\n"),
    (2, "raw=numbered\n\n"),
    (2, "raw=numbered\r\n"),
    (2, "raw=num\nbered\n"),
    (2, "raw\n=numbered\n"),
];

/// At every other place, alone and beside the right one; and a head with nothing behind it.
const BAD_PLACES: &[&str] = &[
    "raw=numbered\nendian=little\ntarget=Lamp\narrays=lite\ndecl=packet\nname=Lamp\nparent=-\n",
    "endian=little\nraw=numbered\ntarget=Lamp\narrays=lite\ndecl=packet\nname=Lamp\nparent=-\n",
    "endian=little\ntarget=Lamp\nraw=numbered\narrays=lite\ndecl=packet\nname=Lamp\nparent=-\n",
    "endian=little\ntarget=Lamp\nraw=plain\narrays=lite\ndecl=packet\nname=Lamp\nparent=-\n",
    "endian=little\ntarget=Lamp\nraw=plain\narrays=lite\nraw=plain\ndecl=packet\nname=Lamp\nparent=-\n",
    "endian=little\ntarget=Lamp\narrays=lite\ndecl=packet\nraw=numbered\nname=Lamp\nparent=-\n",
    "endian=little\ntarget=Lamp\narrays=lite\ndecl=packet\nname=Lamp\nraw=numbered\nparent=-\n",
    "endian=little\ntarget=Lamp\narrays=lite\ndecl=packet\nname=Lamp\nparent=-\nraw=numbered\n",
    "endian=little\ntarget=Lamp\narrays=lite\ndecl=packet\nname=Lamp\nparent=-\nbits=0\nraw=numbered\n",
    "endian=little\ntarget=Lamp\narrays=lite\nraw=numbered\ndecl=packet\nname=Lamp\nparent=-\nraw=numbered\n",
    "endian=little\ntarget=Lamp\narrays=lite\ndecl=packet\nname=Lamp\nparent=-\nfield=body\nraw=numbered\nif=-\n",
    "endian=little\ntarget=Lamp\narrays=lite\ndecl=packet\nname=Lamp\nparent=-\nfield=body\nif=-\nraw=numbered\n",
    "endian=little\ntarget=Lamp\narrays=lite\ndecl=packet\nname=Lamp\nparent=-\nraw=numbered\ndecl=custom\nname=C\nwidth=-\n",
    "endian=little\ntarget=Lamp\narrays=lite\ndecl=enum\nraw=numbered\nname=E\nwidth=8\nopen=0\ncomplete=0\ndecl=packet\nname=Lamp\nparent=-\n",
    "endian=little\ntarget=Lamp\narrays=lite\ndecl=enum\nname=E\nwidth=8\nopen=0\ncomplete=0\nraw=numbered\ndecl=packet\nname=Lamp\nparent=-\n",
    "endian=little\ntarget=Lamp\nraw=numbered\ndecl=packet\nname=Lamp\nparent=-\n",
    "raw=numbered\n",
    "endian=little\ntarget=Lamp\narrays=lite\nraw=numbered\n",
    "endian=little\ntarget=Lamp\narrays=lite\ntrailing=padded\nraw=numbered\n",
    "endian=little\ntarget=Lamp\narrays=lite\nraw=numbered",
    "endian=little\ntarget=Lamp\narrays=lite\nraw=plain",
    "endian=little\ntarget=Lamp\narrays=lite\nraw=",
];

/// The line counts among the record's bytes: 16,384 and one more.
fn long() -> Vec<Vec<u8>> {
    let with = |length: usize, lines: &str| {
        let text = String::from_utf8(of_length(length - lines.len())).expect("a record is ASCII");
        text.replacen("arrays=lite\n", &format!("arrays=lite\n{lines}"), 1).into_bytes()
    };
    let all = vec![
        answered(0, with(16_384, "raw=numbered\n")),
        answered(0, with(16_384, "trailing=padded\nraw=plain\n")),
        answered(1, with(16_385, "raw=numbered\n")),
        answered(2, with(16_384, "raw=Numbered\n")),
    ];
    assert!(all[..2].iter().all(|record| record.len() == 16_384), "another length");
    all
}
