//! The marked cases of refusal 17 (document 02, Card 10): lines `bits` that are right, with what is
//! beside each; the order among the refusals; the form; and the record's length. They are a list of their
//! own, which stands behind those of refusal 16 in the stored sample.

use crate::answer::answer;
use crate::generate::BLOCK;
use crate::marked::{answered, of_length};
use crate::sketch::record;
use crate::stated::BAD_VALUES;

/// All of them. Fails loudly where the judge is not of document 02's opinion.
pub fn records() -> Vec<Vec<u8>> {
    let mut all: Vec<Vec<u8>> = SIZES.iter().flat_map(Stated::records).collect();
    all.extend(LARGEST.iter().flat_map(Stated::records));
    all.extend(ORDER.iter().map(|(number, shorthand)| answered(*number, record(shorthand))));
    all.extend(in_order());
    all.extend(forms());
    all.extend(long());
    all
}

/// A record with `@` for the value of a line `bits`, the right value, and values that are 17.
struct Stated(&'static str, &'static str, &'static [&'static str]);

impl Stated {
    /// Each wrong line, the right one, and none, which gives the same lines.
    fn records(&self) -> Vec<Vec<u8>> {
        let Stated(shorthand, right, wrong) = self;
        let with = |value: &str| record(&shorthand.replace('@', value));
        let without = record(&shorthand.replace(" @", ""));
        assert_eq!(answer(&with(right)).ok(), answer(&without).ok(), "{shorthand}: other lines");
        let mut all: Vec<Vec<u8>> = wrong.iter().map(|value| answered(17, with(value))).collect();
        all.extend([answered(0, with(right)), without]);
        all
    }
}

/// Numbers at the ends of 31, 32, 63 and 64 bits.
const FAR: &[&str] = &[
    "1",
    "2",
    "3",
    "2147483647",
    "2147483648",
    "2147483649",
    "2147483650",
    "4294967295",
    "4294967296",
    "9223372036854775807",
    "9223372036854775808",
    "18446744073709551613",
    "18446744073709551614",
    "18446744073709551615",
];

/// Own sizes: of each kind of field, of paddings, and without what does not count.
const SIZES: &[Stated] = &[
    // a number, and each of the two words, beside numbers that another form of them would be taken for
    Stated("little Lamp lite; packet Lamp - @", "0", FAR),
    Stated("little Lamp lite; packet Lamp - @: array a 16 - - -, count a 8", "dynamic", FAR),
    Stated("little Lamp lite; packet Lamp - @: array a 16 - - -", "unknown", FAR),
    Stated("little Lamp lite; packet Lamp - @", "0", &["8", "dynamic", "unknown"]),
    Stated(
        "little Lamp lite; packet Lamp - @: scalar x 8",
        "8",
        &["0", "1", "7", "9", "80", "2147483656", "4294967304", "9223372036854775816", "dynamic", "unknown"],
    ),
    Stated("big Lamp full; struct Lamp - @: scalar x 4", "4", &["0", "3", "5", "8", "1"]),
    // bit fields
    Stated(
        "little Lamp lite; enum Mode 12 0 0; packet Lamp - @: flag f, reserved 3, typedef m Mode, fixed 8 255, \
         size a 16, count b 8, elemsize c 24, fixedenum Mode OFF, scalar y 4",
        "88",
        &["11", "87", "89", "76", "64"],
    ),
    // types: their total sizes count
    Stated(
        "little Lamp lite; struct Base -: scalar b 16; struct Cell Base: scalar c 8; packet Lamp - @: typedef t Cell",
        "24",
        &["8", "16", "3", "dynamic"],
    ),
    Stated(
        "little Lamp lite; struct Cell -: scalar c 8, payload -; packet Lamp - @: typedef t Cell",
        "unknown",
        &["8", "dynamic", "0"],
    ),
    Stated(
        "little Lamp lite; struct Cell -: size _payload_ 8, payload -; packet Lamp - @: typedef t Cell",
        "dynamic",
        &["8", "unknown", "0"],
    ),
    Stated(
        "little Lamp lite; custom Blob -; custom Fix 4096; checksum Crc 16; packet Lamp - @: typedef f Fix, typedef c Crc",
        "4112",
        &["4096", "16", "0", "dynamic"],
    ),
    Stated("little Lamp lite; custom Blob -; packet Lamp - @: typedef b Blob", "dynamic", &["0", "unknown"]),
    // arrays
    Stated("little Lamp full; packet Lamp - @: array a 24 - - 5", "120", &["24", "5", "15", "119", "121", "dynamic"]),
    Stated("little Lamp lite; packet Lamp - @: array a 64 - - 65535", "4194240", &["65535", "4194239", "64"]),
    Stated("little Lamp lite; packet Lamp - @: array a 8 - - 0", "0", &["8", "dynamic", "unknown"]),
    Stated(
        "little Lamp lite; struct Cell -: scalar c 24; packet Lamp - @: array a - Cell +1 3, scalar x 8",
        "80",
        &["72", "24", "3", "10"],
    ),
    Stated("little Lamp lite; custom Blob -; packet Lamp - @: array a - Blob - 0", "dynamic", &["0", "unknown"]),
    Stated("little Lamp lite; packet Lamp - @: size a 8, array a 8 - - -", "dynamic", &["8", "0", "unknown"]),
    Stated("little Lamp lite; packet Lamp - @: array a 8 - - -, count a 8", "dynamic", &["8", "unknown"]),
    Stated("little Lamp lite; packet Lamp - @: array a 8 - - -", "unknown", &["0", "8", "dynamic"]),
    Stated("little Lamp lite; packet Lamp - @: elemsize a 8, size b 8, array a 8 - - -", "unknown", &["16", "dynamic"]),
    Stated("little Lamp lite; packet Lamp - @: size a 8, array a 8 - - 2", "24", &["dynamic", "8", "16", "3"]),
    // optional fields are dynamic, and an unknown one makes the sum unknown
    Stated("little Lamp lite; packet Lamp - @: scalar x 8 if c 1", "dynamic", &["8", "0", "unknown"]),
    Stated("little Lamp lite; packet Lamp - @: scalar x 8 if c 1, array a 8 - - -", "unknown", &["dynamic", "8"]),
    Stated("little Lamp lite; packet Lamp - @: array a 8 - - -, scalar x 8 if c 1", "unknown", &["dynamic", "0"]),
    // a payload or body does not count
    Stated("little Lamp lite; packet Lamp - @: payload -", "0", &["unknown", "dynamic", "8"]),
    Stated("little Lamp full; packet Lamp - @: body", "0", &["unknown", "dynamic"]),
    Stated("little Lamp lite; packet Lamp - @: scalar x 8, payload -", "8", &["unknown", "dynamic", "0"]),
    Stated("little Lamp lite; packet Lamp - @: size _payload_ 8, payload +1", "8", &["dynamic", "unknown", "0", "16"]),
    Stated("little Lamp lite; packet Lamp - @: size _body_ 16, body, scalar x 8", "24", &["dynamic", "16"]),
    Stated("little Lamp lite; struct Cell - @: payload - if c 1, payload -; packet Lamp -", "0", &["dynamic", "unknown"]),
    // nor do parents
    Stated(
        "little Lamp lite; packet Base -: scalar b 8; packet Lamp Base @: scalar x 16",
        "16",
        &["24", "8", "0", "dynamic"],
    ),
    Stated(
        "little Lamp lite; packet Base - 8: scalar b 8, payload -; struct Mid Base 8: scalar m 8, payload -; packet Lamp Mid @",
        "0",
        &["8", "16", "unknown"],
    ),
    Stated("little Lamp lite; struct Base -: array b 8 - - -; packet Lamp Base @: scalar x 8", "8", &["unknown", "0"]),
    Stated("little Lamp lite; struct Base -: flag b if c 1; packet Lamp Base @: scalar x 8", "8", &["dynamic", "9"]),
    // a padding counts in place of the field before it, whatever that is
    Stated("little Lamp lite; packet Lamp - @: array a 8 - - 2, padding 8", "64", &["16", "80", "8", "dynamic"]),
    Stated("little Lamp lite; packet Lamp - @: array a 8 - - 9, padding 8", "64", &["72", "136"]),
    Stated("little Lamp lite; packet Lamp - @: array a 8 - - -, padding 8", "64", &["unknown", "dynamic", "0"]),
    Stated("little Lamp lite; packet Lamp - @: count a 8, array a 8 - - -, padding 8", "72", &["dynamic", "8", "64"]),
    Stated("little Lamp lite; packet Lamp - @: array a 8 - - 2, padding 65535", "524280", &["65535", "16"]),
    Stated("little Lamp lite; packet Lamp - @: scalar x 8 if c 1, padding 8", "64", &["dynamic", "8", "72", "unknown"]),
    Stated("little Lamp lite; custom Blob -; packet Lamp - @: typedef b Blob if c 1, padding 1", "8", &["dynamic", "0"]),
    Stated(
        "little Lamp lite; struct Cell -: payload -; packet Lamp - @: typedef t Cell, padding 8",
        "64",
        &["unknown", "0"],
    ),
    Stated("little Lamp lite; packet Lamp - @: scalar x 16, padding 1", "8", &["16", "24"]),
    Stated("little Lamp lite; packet Lamp - @: scalar x 8, padding 0", "0", &["8"]),
    Stated("little Lamp lite; packet Lamp - @: checksum k, padding 4", "32", &["0"]),
    // a padding in front counts nothing of its own, and a padding may stand behind it
    Stated("little Lamp lite; packet Lamp - @: padding 8, scalar x 8", "8", &["64", "72", "0"]),
    Stated("little Lamp lite; packet Lamp - @: padding 8", "0", &["64", "8"]),
    Stated("little Lamp lite; packet Lamp - @: padding 8, padding 2", "16", &["0", "64", "80"]),
    Stated("little Lamp lite; packet Lamp - @: array a 8 - - 2, padding 8, padding 3", "88", &["64", "16", "24", "40"]),
    Stated("little Lamp lite; struct Cell - @: scalar x 8, padding 8 if c 1; packet Lamp -", "dynamic", &["64", "8", "72"]),
    Stated(
        "little Lamp lite; struct Cell - @: array a 8 - - -, padding 8 if c 1, padding 4; packet Lamp -",
        "96",
        &["64", "dynamic", "unknown", "32"],
    ),
    // behind a payload or body it counts nothing
    Stated("little Lamp lite; packet Lamp - @: payload -, padding 8", "0", &["64", "unknown", "8"]),
    Stated("little Lamp lite; packet Lamp - @: size _payload_ 8, body, padding 8, scalar x 8", "16", &["80", "dynamic"]),
    Stated("little Lamp lite; packet Lamp - @: body, padding 8, padding 2", "16", &["0", "64", "80"]),
    // every declaration is looked at: those behind the target, those that it does not reach, and structs as types
    Stated("little Lamp lite; packet Lamp -: scalar x 8; struct Late - @: scalar y 8", "8", &["7", "dynamic"]),
    Stated("little Lamp lite; struct Cell - @: scalar y 8; packet Lamp -: typedef t Cell", "8", &["9", "unknown"]),
    Stated("little Lamp lite; packet Base - @: scalar y 8; packet Lamp Base 8: scalar x 8", "8", &["16", "0"]),
    Stated("little Lamp lite; packet Lamp - 8: scalar x 8; packet More Lamp 0; struct Last More @: flag f", "1", &["9", "0"]),
];

/// Up to 2^31 - 1 bits, behind `Block`, which has 524,280.
const LARGEST: &[Stated] = &[Stated(
    "little Lamp lite; struct Block - 524280: array b 8 - - 65535; \
     packet Lamp - @: array a - Block - 4096, array b 8 - - 4095, scalar s 7",
    "2147483647",
    &["2147483646", "2147483648", "2147483649", "4294967295", "524280", "dynamic"],
)];

/// A wrong line, or a right one, with another refusal: 1 to 8 and 16 come before 17, over the whole record; 9 to
/// 14 behind it. A number has no range.
const ORDER: &[(u8, &str)] = &[
    (16, "little Lamp lite; packet Lamp - 7: scalar int 8"),
    (16, "little Lamp lite; packet Lamp - 7: scalar x 8; checksum int 8"),
    (16, "little Lamp lite; packet Lamp - 8: scalar int 8"),
    (4, "little Lamp lite; packet Lamp - 7: scalar x 8; packet Lamp - 0"),
    (5, "little Lamp lite; packet Lamp - 7: scalar x 8; packet Late - 0: typedef t Missing"),
    (5, "little Lamp lite; packet Lamp Missing 7: scalar x 8"),
    (6, "little Lamp lite; packet Lamp - 7: scalar x 8; packet Late - 65: scalar x 65"),
    (6, "little Lamp lite; packet Lamp - 65536: padding 65536"),
    (17, "little Lamp lite; packet Lamp - 65536: padding 65535"),
    (17, "little Lamp lite; packet Lamp - 18446744073709551615: padding 65535"),
    (8, "little Lamp lite; packet Lamp - 7: scalar x 8; packet Late - 24: array a 12 - - 2"),
    (8, "little Lamp lite; packet Lamp - 24: array a 12 - - 2"),
    (8, "little Lamp lite; packet Lamp - dynamic: scalar x 12 if c 1"),
    (8, "little Lamp lite; struct Cell - 1; packet Lamp - 0: array a - Cell - 2"),
    (17, "little Missing lite; packet Lamp - 7: scalar x 8"),
    (9, "little Missing lite; packet Lamp - 8: scalar x 8"),
    (17, "little Mode lite; enum Mode 8 0 0; packet Lamp - unknown"),
    (9, "little Mode lite; enum Mode 8 0 0; packet Lamp - 0"),
    (17, "little Lamp lite; packet Lamp - 16: scalar x 8, scalar y 4"),
    (10, "little Lamp lite; packet Lamp - 12: scalar x 8, scalar y 4"),
    (17, "little Lamp lite; packet Lamp - unknown: scalar x 4, payload -"),
    (11, "little Lamp lite; packet Lamp - 4: scalar x 4, payload -"),
    (17, "little Lamp lite; packet Lamp - 64: scalar x 60, scalar y 12"),
    (12, "little Lamp lite; packet Lamp - 72: scalar x 60, scalar y 12"),
    (17, "little Lamp lite; packet Lamp - 8: reserved 8 if c 1"),
    (13, "little Lamp lite; packet Lamp - dynamic: reserved 8 if c 1"),
    (17, "little Lamp lite; packet Lamp - 8: payload -, scalar x 8 if c 1"),
    (14, "little Lamp lite; packet Lamp - dynamic: payload -, scalar x 8 if c 1"),
];

/// 3 and 7 before it, also where the numbers are right; a wrong line at each end of 32 right ones.
fn in_order() -> Vec<Vec<u8>> {
    let blocks = |number: usize, wrong: usize| {
        let bits = |at: usize| if at == wrong { "9" } else { "8" };
        let structs: Vec<String> =
            (1..number).map(|at| format!("struct S{at} - {}: scalar x 8; ", bits(at))).collect();
        record(&format!("little Lamp lite; {}packet Lamp - {}: scalar x 8", structs.concat(), bits(number)))
    };
    let fields = |number: usize, bits: usize| {
        record(&format!("little Lamp lite; packet Lamp - {bits}: {}", vec!["scalar x 8"; number].join(", ")))
    };
    let large = |bits: &str| {
        record(&format!("little Lamp lite; {BLOCK}; packet Lamp - {bits}: array a - Block - 4097"))
    };
    let mut all: Vec<Vec<u8>> =
        ["2147975160", "2147483647", "dynamic", "0"].iter().map(|bits| answered(7, large(bits))).collect();
    all.extend([
        answered(0, blocks(32, 0)),
        answered(17, blocks(32, 1)),
        answered(17, blocks(32, 32)),
        answered(3, blocks(33, 1)),
        answered(3, blocks(33, 0)),
        answered(0, fields(64, 512)),
        answered(17, fields(64, 511)),
        answered(3, fields(65, 512)),
        answered(3, fields(65, 520)),
    ]);
    all
}

const HEAD: &str = "endian=little\ntarget=Lamp\narrays=lite\n";
const OCTET: &str = "field=scalar\nid=x\nwidth=8\nif=-\n";

/// Everything behind a head and a packet of 8 bits that breaks the form, and what just does not.
fn forms() -> Vec<Vec<u8>> {
    let lamp = |line: &str| format!("{HEAD}decl=packet\nname=Lamp\nparent=-\n{line}{OCTET}").into_bytes();
    let mut all = vec![answered(0, lamp("bits=8\n"))];
    all.extend(BAD_VALUES.iter().map(|value| answered(2, lamp(&format!("bits={value}\n")))));
    all.extend(BAD_LINES.iter().map(|line| answered(2, lamp(line))));
    all.extend(BAD_PLACES.iter().map(|rest| answered(2, format!("{HEAD}{rest}").into_bytes())));
    all.extend(
        BAD_HEADS
            .iter()
            .map(|head| answered(2, format!("{head}decl=packet\nname=Lamp\nparent=-\n").into_bytes())),
    );
    // at the record's end: with its newline, without it, and with another line behind it
    let end = |rest: &str| format!("{HEAD}decl=packet\nname=Lamp\nparent=-\n{rest}").into_bytes();
    all.extend([
        answered(0, end("bits=0\n")),
        answered(17, end("bits=8\n")),
        answered(2, end("bits=0")),
        answered(2, end("bits=dynamic")),
        answered(2, end("bits=0\n\n")),
        answered(2, end("bits=7\nfield=scalar\n")),
    ]);
    all
}

/// Another key, or the line twice, in place of `bits=8`.
const BAD_LINES: &[&str] = &[
    "bits\n",
    "bit=8\n",
    "Bits=8\n",
    "bitss=8\n",
    " bits=8\n",
    "bits =8\n",
    "bits==8\n",
    "bits:8\n",
    "bits8\n",
    "size=8\n",
    "bits=8\nbits=8\n",
    "bits=8\nbits=7\n",
    "bits=7\nbits=8\n",
    "bits=dynamic\nbits=unknown\n",
    "\nbits=8\n",
    "bits=8\n\n",
    "bits=8\nparent=-\n",
];

/// The line before `parent`, behind a field, inside one, and in the other three kinds.
const BAD_PLACES: &[&str] = &[
    "decl=packet\nname=Lamp\nbits=0\nparent=-\n",
    "decl=packet\nbits=0\nname=Lamp\nparent=-\n",
    "decl=packet\nname=Lamp\nbits=0\n",
    "bits=0\ndecl=packet\nname=Lamp\nparent=-\n",
    "decl=packet\nname=Lamp\nparent=-\nfield=scalar\nid=x\nwidth=8\nif=-\nbits=8\n",
    "decl=packet\nname=Lamp\nparent=-\nbits=8\nfield=scalar\nid=x\nwidth=8\nif=-\nbits=8\n",
    "decl=packet\nname=Lamp\nparent=-\nfield=scalar\nid=x\nwidth=8\nbits=8\nif=-\n",
    "decl=packet\nname=Lamp\nparent=-\nfield=scalar\nbits=8\nid=x\nwidth=8\nif=-\n",
    "decl=packet\nname=Lamp\nparent=-\nfield=scalar\nid=x\nwidth=8\nif=c\nbits=8\nis=1\n",
    "decl=enum\nname=Mode\nwidth=8\nopen=0\ncomplete=0\nbits=8\ndecl=packet\nname=Lamp\nparent=-\n",
    "decl=enum\nname=Mode\nbits=8\nwidth=8\nopen=0\ncomplete=0\ndecl=packet\nname=Lamp\nparent=-\n",
    "decl=checksum\nname=Crc\nwidth=8\nbits=8\ndecl=packet\nname=Lamp\nparent=-\n",
    "decl=custom\nname=Fix\nwidth=8\nbits=8\ndecl=packet\nname=Lamp\nparent=-\n",
    "decl=custom\nname=Blob\nwidth=-\nbits=dynamic\ndecl=packet\nname=Lamp\nparent=-\n",
    "decl=packet\nname=Lamp\nparent=-\ndecl=custom\nname=Blob\nwidth=-\nbits=dynamic\n",
];

/// The line in the head.
const BAD_HEADS: &[&str] = &[
    "bits=0\nendian=little\ntarget=Lamp\narrays=lite\n",
    "endian=little\nbits=0\ntarget=Lamp\narrays=lite\n",
    "endian=little\ntarget=Lamp\nbits=0\narrays=lite\n",
];

/// The line counts among the record's bytes: 16,384 and one more.
fn long() -> Vec<Vec<u8>> {
    let stated = |length: usize, line: &str| {
        let text = String::from_utf8(of_length(length)).expect("a record is ASCII");
        text.replacen("parent=-\n", &format!("parent=-\n{line}\n"), 1).into_bytes()
    };
    vec![
        answered(0, stated(16_384 - 9, "bits=512")),
        answered(17, stated(16_384 - 9, "bits=511")),
        answered(1, stated(16_385 - 9, "bits=512")),
        answered(1, stated(16_384, "bits=512")),
        answered(2, stated(16_384 - 10, "bits=0512")),
    ]
}
