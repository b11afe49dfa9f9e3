//! The marked cases of `lower_all` (document 02, Card 13): which declarations have a section, in which order; that each is
//! what a single call gives; the head's target; the order of 10 to 14, 19 and 15; the lengths of sections and of wholes. They
//! are a list of their own, which stands behind all others in the stored sample.

use crate::answer::{answer, within, BUFFER};
use crate::files::{filled, TYPES};
use crate::marked::of_length;
use crate::marked_divides;
use crate::record::Record;
use crate::sections::{retargeted, sections, whole, Sections, LONGEST};
use crate::sketch::record;
use Expected::{Refused, Whole};

/// All of them. Fails loudly where the judge is not of document 02's opinion.
pub fn records() -> Vec<Vec<u8>> {
    in_other_records();
    in_long_records();
    let mut all: Vec<Vec<u8>> =
        FILES.iter().map(|(shorthand, due)| expected(record(shorthand), due)).collect();
    all.extend(in_every_order());
    all.extend(behind_long_lines());
    all.extend(long_sections());
    all.extend(long_wholes());
    all.extend(crowded());
    all.iter().for_each(|record| beside_single_calls(record));
    all
}

enum Expected {
    /// The whole output.
    Whole(&'static str),
    Refused(u8),
}

fn expected(record: Vec<u8>, due: &Expected) -> Vec<u8> {
    let found = whole(&sections(&record));
    let met = match (due, within(BUFFER, &found)) {
        (Whole(text), (0, found)) => text.as_bytes() == found,
        (Refused(due), (found, _)) => found == *due,
        _ => false,
    };
    assert!(met, "not as document 02 says: {found:?}:\n{}", front_of(&record));
    record
}

/// The first lines: a record that fails a test may be long.
fn front_of(record: &[u8]) -> String {
    String::from_utf8_lossy(record).chars().take(2_000).collect()
}

/// In every other marked record.
fn in_other_records() {
    let all = [marked_divides::records_before(), marked_divides::records()];
    all.concat().iter().for_each(|record| beside_single_calls(record));
}

/// Each section is what a single call gives for its target, and the first refused one refuses the file; the head's target has
/// no part in it. A record that is refused before its targets is so in a single call.
fn beside_single_calls(record: &[u8]) {
    let text = front_of(record);
    let found = sections(record);
    if let Err(turned) = &found {
        if turned.behind.is_none() {
            let single = answer(record).err().map(|refusal| refusal.number);
            return assert_eq!(single, Some(turned.refusal.number), "{text}");
        }
    }
    let mut joined = Ok(Vec::new());
    for target in Record::read(record).expect("it passed refusal 2").targets() {
        let asked = retargeted(record, &target.name);
        if asked.len() > 16_384 {
            return;
        }
        assert!(outcome(&sections(&asked)) == outcome(&found), "another target gives another file:\n{text}");
        joined = joined.and_then(|mut joined: Vec<u8>| {
            let lines = answer(&asked).map_err(|refusal| refusal.number)?;
            if lines.len() > LONGEST {
                return Err(19);
            }
            joined.extend(format!("// target={}\n", target.name).into_bytes());
            joined.extend(lines);
            Ok(joined)
        });
    }
    assert!(outcome(&found) == joined, "no joined single calls:\n{text}");
}

/// The whole, or the number of the refusal.
fn outcome(found: &Sections) -> Result<Vec<u8>, u8> {
    whole(found).map_err(|refusal| refusal.number)
}

/// Small files.
const FILES: &[(&str, Expected)] = &[
    // each packet and struct in file order, wherever the head's target stands; enums, checksums and customs have no section
    (
        "little Lamp lite; enum Mode 8 0 0; struct Cell -: scalar c 8; checksum Crc 16; packet Lamp -: typedef t Cell; \
         custom Blob -; struct Late -: reserved 16",
        Whole(
            "// target=Cell\nif (span.size() < 1) {\n    return false;\n}\nc_ = span.read_le<uint8_t, 1>();\n\
             // target=Lamp\nif (!Cell::Parse(span, &t_)) return false;\n\
             // target=Late\nif (span.size() < 2) {\n    return false;\n}\nspan.skip(2); // skip reserved fields\n",
        ),
    ),
    // packets and structs alike under one head: `arrays` and `endian` are of the file
    (
        "big Cell full; struct Cell -: array a 8 - - 2; packet Lamp -: array a 16 - - 2",
        Whole(
            "// target=Cell\nif (span.size() < 2) {\n    return false;\n}\nfor (size_t n = 0; n < 2; n++) {\n    \
             output->a_[n] = span.read_be<uint8_t, 1>();\n}\n\
             // target=Lamp\nif (span.size() < 4) {\n    return false;\n}\nfor (size_t n = 0; n < 2; n++) {\n    \
             output->a_[n] = span.read_be<uint16_t, 2>();\n}\n",
        ),
    ),
    // parents, which have their own lines; a child has none of its parent's
    (
        "little Last lite; packet Base -: scalar b 8, payload -; packet Lamp Base: scalar x 16, body; packet Last Lamp",
        Whole(
            "// target=Base\nif (span.size() < 1) {\n    return false;\n}\nb_ = span.read_le<uint8_t, 1>();\n\
             payload_ = span;\nspan.clear();\n\
             // target=Lamp\nif (span.size() < 2) {\n    return false;\n}\nx_ = span.read_le<uint16_t, 2>();\n\
             payload_ = span;\nspan.clear();\n\
             // target=Last\n",
        ),
    ),
    // targets without lines: no fields, fields that emit none, a chunk that is dropped
    (
        "little Lamp lite; packet Lamp -; struct Cell -: checksum k, padding 2; packet Open -: scalar x 4",
        Whole("// target=Lamp\n// target=Cell\n// target=Open\n"),
    ),
    ("little Lamp lite; packet Lamp -", Whole("// target=Lamp\n")),
    ("big a_ full; custom Blob -; struct a_ -", Whole("// target=a_\n")),
    // the numbers of `raw=numbered` begin anew in each target
    (
        "little Lamp lite raw=numbered; enum E 8 0 0; struct Cell -: typedef a E, typedef b E; packet Lamp -: typedef a E",
        Whole(
            "// target=Cell\nif (span.size() < 2) {\n    return false;\n}\n\
             auto raw_value0 = span.read_le<uint8_t, 1>();\nif (!IsValidE(raw_value0)) {\n   return false;\n}\na_ = E(raw_value0);\n\
             auto raw_value1 = span.read_le<uint8_t, 1>();\nif (!IsValidE(raw_value1)) {\n   return false;\n}\nb_ = E(raw_value1);\n\
             // target=Lamp\nif (span.size() < 1) {\n    return false;\n}\n\
             auto raw_value0 = span.read_le<uint8_t, 1>();\nif (!IsValidE(raw_value0)) {\n   return false;\n}\na_ = E(raw_value0);\n",
        ),
    ),
    // so do chunks
    (
        "little Lamp lite; struct Cell -: scalar a 4, scalar b 4; packet Lamp -: scalar a 12, scalar b 4",
        Whole(
            "// target=Cell\nif (span.size() < 1) {\n    return false;\n}\nuint8_t chunk0 = span.read_le<uint8_t, 1>();\n\
             a_ = (chunk0 >> 0) & 0xf;\nb_ = (chunk0 >> 4) & 0xf;\n\
             // target=Lamp\nif (span.size() < 2) {\n    return false;\n}\nuint16_t chunk0 = span.read_le<uint16_t, 2>();\n\
             a_ = (chunk0 >> 0) & 0xfff;\nb_ = (chunk0 >> 12) & 0xf;\n",
        ),
    ),
    // a condition is of its own target
    (
        "little Lamp lite; struct Cell -: scalar c 8; packet Lamp -: scalar c 8, scalar x 8 if c 1; struct Late -: scalar c 8",
        Whole(
            "// target=Cell\nif (span.size() < 1) {\n    return false;\n}\nc_ = span.read_le<uint8_t, 1>();\n\
             // target=Lamp\nif (span.size() < 1) {\n    return false;\n}\nuint8_t c = span.read_le<uint8_t, 1>();\n\
             if (c == 1) {\n    if (span.size() < 1) {\n        return false;\n    }\n    x_ = span.read_le<uint8_t, 1>();\n}\n\
             // target=Late\nif (span.size() < 1) {\n    return false;\n}\nc_ = span.read_le<uint8_t, 1>();\n",
        ),
    ),
    // `trailing=padded` and `products=divide` are of the file too
    (
        "little Lamp lite padded products=divide; packet Lamp -: payload -, array a 8 - - 2, padding 8; \
         struct Cell -: count a 8, array a 16 - - -",
        Whole(
            "// target=Lamp\nif (span.size() < 8) return false;\npayload_ = span.subrange(0, span.size() - 8);\n\
             span.skip(span.size() - 8);\nsize_t a_start_size = span.size();\nif (span.size() < 2) {\n    return false;\n}\n\
             a_ = span.subrange(0, 2);\nspan.skip(2);\nif (a_start_size - span.size() < 8) {\n    \
             if (span.size() < 8 - (a_start_size - span.size())) return false;\n    \
             span.skip(8 - (a_start_size - span.size()));\n}\n\
             // target=Cell\nif (span.size() < 1) {\n    return false;\n}\na_count_ = span.read_le<uint8_t, 1>();\n\
             if (2 != 0 && span.size() / 2 < a_count_) {\n    return false;\n}\na_ = span.subrange(0, 2 * a_count_);\n\
             span.skip(2 * a_count_);\n",
        ),
    ),
    // the head's target is tested by 9, before any target is lowered
    ("little Missing lite; packet Lamp -", Refused(9)),
    ("little Missing lite; packet Lamp -: scalar x 8, scalar y 4", Refused(9)),
    ("little Mode lite; enum Mode 8 0 0; packet Lamp -: reserved 8 if c 1", Refused(9)),
    ("little Blob lite; custom Blob -; checksum Crc 8", Refused(9)),
    // 2, 16, 4 to 8 and 17 come before any target too
    ("little Lamp lite; packet Lamp -: scalar x 8, scalar y 4; packet Late -: scalar x 08", Refused(2)),
    ("little Lamp lite; packet Lamp -: scalar x 8, scalar y 4; packet Late -: scalar int 8", Refused(16)),
    ("little Lamp lite; packet Lamp -: scalar x 8, scalar y 4; packet Lamp -", Refused(4)),
    ("little Lamp lite; packet Lamp -: scalar x 8, scalar y 4; packet Late -: typedef t Missing", Refused(5)),
    ("little Lamp lite; packet Lamp -: scalar x 8, scalar y 4; packet Late -: scalar x 65", Refused(6)),
    (
        "little Lamp lite; packet Lamp -: scalar x 8, scalar y 4; struct B -: array b 8 - - 65535; \
         packet Late -: array a - B - 4097",
        Refused(7),
    ),
    ("little Lamp lite; packet Lamp -: scalar x 8, scalar y 4; packet Late -: array a 12 - - 2", Refused(8)),
    ("little Lamp lite; packet Lamp -: scalar x 8, scalar y 4; packet Late - 7: scalar x 8", Refused(17)),
    ("little Late lite; packet Lamp - 8: scalar x 8; packet Late - 8: scalar x 8", Whole(TWO_OCTETS)),
    // a target that the head does not ask for refuses the file: one in front, one behind, a parent, a type
    ("little Lamp lite; struct Cell -: scalar x 8, scalar y 4; packet Lamp -", Refused(10)),
    ("little Lamp lite; packet Lamp -; struct Cell -: scalar x 8, scalar y 4", Refused(10)),
    ("little Lamp lite; packet Base -: scalar x 4, payload -; packet Lamp Base", Refused(11)),
    ("little Lamp lite; struct Cell -: scalar x 60, scalar y 12; packet Lamp -: typedef t Cell", Refused(12)),
    ("little Lamp lite; struct Cell -: flag f if c 1; packet Lamp -", Refused(13)),
    ("little Lamp lite; packet Lamp -; packet Late -: payload -, scalar x 8 if c 1", Refused(14)),
    ("little Lamp lite padded; packet Lamp -: payload -, array a 8 - - -; packet Late -: scalar x 4, body", Refused(14)),
];

const TWO_OCTETS: &str = "\
// target=Lamp
if (span.size() < 1) {
    return false;
}
x_ = span.read_le<uint8_t, 1>();
// target=Late
if (span.size() < 1) {
    return false;
}
x_ = span.read_le<uint8_t, 1>();
";

/// Fields that are refused by each of 10 to 14.
const BY_NUMBER: [(u8, &str); 5] = [
    (10, "scalar x 8, scalar y 4"),
    (11, "scalar x 4, payload -"),
    (12, "scalar x 60, scalar y 12"),
    (13, "scalar x 8, reserved 8 if c 1"),
    (14, "payload -, scalar x 8 if c 1"),
];

const HEAD: &str = "little D0 lite";

/// Fields whose lines have just so many bytes under this head.
fn of_bytes(head: &str, bytes: usize) -> String {
    filled(head, &long_arrays(), bytes)
        .unwrap_or_else(|| panic!("no fields of {bytes} bytes, {head}"))
        .join(", ")
}

/// Lines of 7,523 to 7,921 bytes, checks on a product among them.
fn long_arrays() -> Vec<String> {
    let id = "a23456789_123456789_123456789_12";
    let mut fields = vec![format!("count {id} 8")];
    fields.extend((0..13).flat_map(|_| [format!("array {id} 16 - - -"), "padding 65535".to_string()]));
    fields
}

/// The targets D0, D1, .. with these fields, behind the types; the head asks for `Cell`, whose lines are short.
fn file(head: &str, targets: &[&str]) -> Vec<u8> {
    let targets = targets.iter().enumerate().map(|(at, fields)| format!("packet D{at} -: {fields}"));
    let decls: Vec<String> = TYPES.iter().map(|decl| decl.to_string()).chain(targets).collect();
    record(&format!("{}; {}", head.replacen("D0", "Cell", 1), decls.join("; ")))
}

/// The first refused target decides, also 19 before 10 to 14 and behind them, with accepted targets before and between them.
fn in_every_order() -> Vec<Vec<u8>> {
    let long = of_bytes(HEAD, LONGEST + 1);
    let refused: Vec<(u8, &str)> = BY_NUMBER.into_iter().chain([(19, &long[..])]).collect();
    let mut all = Vec::new();
    for (due, first) in &refused {
        for (_, second) in refused.iter().filter(|(number, _)| number != due) {
            all.push(expected(file(HEAD, &["scalar x 8", first, "", second, "body"]), &Refused(*due)));
        }
    }
    all
}

/// 19 is tested behind 10 to 14 of its own target: lines that are too long before the field that is refused.
fn behind_long_lines() -> Vec<Vec<u8>> {
    let long = of_bytes(HEAD, LONGEST + 1);
    let cases = BY_NUMBER.iter().map(|(due, fields)| {
        expected(file(HEAD, &["", &format!("{long}, array z 8 - - 1, {fields}"), &long]), &Refused(*due))
    });
    cases.collect()
}

/// 8,192 bytes pass, 8,193 are 19, in each mode, and as printed: a digit of `raw=numbered` or a division too many.
fn long_sections() -> Vec<Vec<u8>> {
    let mut all = Vec::new();
    for head in [HEAD, "big D0 full", "little D0 lite products=divide", "big D0 full padded raw=numbered"] {
        for (bytes, due) in [(LONGEST - 1, 0), (LONGEST, 0), (LONGEST + 1, 19)] {
            let fields = of_bytes(head, bytes);
            // alone, where a single call gives the lines all the same, and between others
            let alone = (head == HEAD).then(|| record(&format!("{head}; struct D0 -: {fields}")));
            for record in alone.into_iter().chain([file(head, &["", &fields, "scalar x 8"])]) {
                assert_eq!(number(&record), due, "{bytes} bytes, {head}");
                assert!(answer(&record).is_ok(), "a single call never answers 19");
                all.push(record);
            }
        }
    }
    let fields = of_bytes(HEAD, LONGEST);
    for (line, due) in
        [(" products=plain", 0), (" products=divide", 19), (" raw=numbered", 0), (" padded", 0)]
    {
        let record = file(&format!("{HEAD}{line}"), &[&fields]);
        assert_eq!(number(&record), due, "{line}");
        all.push(record);
    }
    let tested = vec!["typedef a23456789_123456789_123456789_12 Mode".to_string(); 52];
    let tested = filled(HEAD, &tested, LONGEST).expect("they fit").join(", ");
    for (line, due) in [("", 0), (" raw=plain", 0), (" raw=numbered", 19)] {
        let record = file(&format!("{HEAD}{line}"), &[&tested]);
        assert_eq!(number(&record), due, "{line}");
        all.push(record);
    }
    all
}

/// With a buffer of 65,536 bytes.
fn number(record: &[u8]) -> u8 {
    within(BUFFER, &whole(&sections(record))).0
}

/// So many arrays with the longest lines, each of 1,036 bytes in full mode.
fn longest_arrays(count: usize) -> Vec<String> {
    let id = "a23456789_123456789_123456789_12";
    let array = format!("array {id} - T23456789_123456789_123456789_12 -65535 -");
    [vec![format!("size {id} 61"), format!("elemsize {id} 3")], vec![array; count]].concat()
}

/// Wholes of 65,535 bytes and more, also with a refused target behind them: 15 is tested last.
fn long_wholes() -> Vec<Vec<u8>> {
    let head = "little D0 full";
    let long = longest_arrays(7).join(", ");
    let start = vec![&long[..]; 8];
    let before = whole(&sections(&file(head, &start))).expect("they are accepted").len();
    let last = |bytes: usize| {
        let lines = bytes - before - "// target=D8\n".len();
        filled(head, &longest_arrays(lines / 1_100), lines).expect("they fit").join(", ")
    };
    let mut all = Vec::new();
    for (bytes, due) in [(65_535, 0), (65_536, 0), (65_537, 15)] {
        let fields = last(bytes);
        let record = file(head, &[&start[..], &[&fields]].concat());
        assert_eq!(whole(&sections(&record)).map_or(0, |whole| whole.len()), bytes);
        assert_eq!(number(&record), due, "{bytes} bytes in all");
        all.push(record);
    }
    let fields = last(65_537);
    for (due, refused) in [BY_NUMBER[0], BY_NUMBER[4]] {
        all.push(expected(file(head, &[&start[..], &[&fields, refused]].concat()), &Refused(due)));
    }
    let longer = filled(head, &longest_arrays(7), LONGEST + 1).expect("they fit").join(", ");
    all.push(expected(file(head, &[&start[..], &[&fields, &longer]].concat()), &Refused(19)));
    // a target line is part of the whole: one more without lines is too much
    let exact = last(65_536);
    all.push(expected(file(head, &[&start[..], &[&exact, ""]].concat()), &Refused(15)));
    all
}

/// 32 targets, without lines and with them; one more is 3; names of 32 bytes, and all 32 sections as long as they may be with
/// equal fields in 16,384 bytes.
fn crowded() -> Vec<Vec<u8>> {
    let targets = |count: usize, name: &dyn Fn(usize) -> String, fields: &str| {
        let decls = (0..count).map(|at| format!("; packet {} -: {fields}", name(at)));
        record(&format!("little {} full{}", name(count - 1), decls.collect::<String>()))
    };
    let short = |at: usize| format!("D{at}");
    let long = |at: usize| format!("a23456789_123456789_123456789_{at:02}");
    let most =
        "count a 8, array a 16 - - -, padding 9, array a 16 - - -, padding 9, array a 16 - - -, padding 9";
    let with_others = "enum E 8 0 0; checksum C 8; custom X -";
    let mixed = (0..29).map(|at| format!("; struct D{at} -: scalar x 8")).collect::<String>();
    vec![
        expected(targets(33, &short, ""), &Refused(3)),
        accepted(targets(32, &short, ""), 32),
        accepted(targets(32, &short, "scalar x 8, payload -"), 32),
        accepted(targets(32, &long, "scalar x 8, payload -"), 32),
        accepted(targets(32, &short, most), 32),
        accepted(record(&format!("little D9 lite; {with_others}{mixed}")), 29),
    ]
}

fn accepted(record: Vec<u8>, due: usize) -> Vec<u8> {
    let found = sections(&record).map_or(0, |sections| sections.len());
    assert_eq!(found, due, "{}", front_of(&record));
    record
}

/// 16,384 bytes pass also where another target's name, in the head, would make them more; one byte more is 1. They are among
/// the marked records of document 01.
fn in_long_records() {
    let most = of_length(16_384);
    assert!(retargeted(&most, "Cell1").len() > 16_384 && answer(&retargeted(&most, "Cell1")).is_err());
    let targets = Record::read(&most).expect("it is a record").targets().count();
    accepted(most, targets);
    expected(of_length(16_385), &Refused(1));
    expected(Vec::new(), &Refused(1));
}
