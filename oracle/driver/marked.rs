//! The marked cases of document 01 first, then its five faults, its limits, and every shape of
//! array. They stand at the front of the stored sample. Those of refusal 16 (document 02, Card 6)
//! are a list of their own, which stands behind the generated ones.

use crate::answer::{answer, within, BUFFER};
use crate::generate::BLOCK;
use crate::keywords::{near_forms, words};
use crate::sketch::{record, DeclSketch, Sketch};
use Expected::{Among, Lines, Refused};

/// All of them. Fails loudly where the judge is not of document 01's opinion.
pub fn records() -> Vec<Vec<u8>> {
    let mut all: Vec<Vec<u8>> = MARKED.iter().chain(FAULTS).map(Marked::record).collect();
    all.extend(WHOLE.iter().map(|shorthand| record(shorthand)));
    all.extend(LARGE.iter().map(|decls| record(&format!("little Lamp lite; {BLOCK}; {decls}"))));
    all.extend(LIMITS.iter().map(|fields| lamp(fields)));
    all.extend(array_shapes());
    all.extend(crowded());
    all.extend(long());
    all.extend(broken());
    all
}

/// The target's fields, and what document 01 says of the answer.
struct Marked(&'static str, Expected);

enum Expected {
    /// Accepted with just these lines.
    Lines(&'static str),
    /// Accepted, and among the lines are these.
    Among(&'static str),
    Refused(u8),
}

impl Marked {
    fn record(&self) -> Vec<u8> {
        let Marked(fields, expected) = self;
        let record = lamp(fields);
        let answer = answer(&record);
        let met = match (expected, &answer) {
            (Expected::Lines(text), Ok(lines)) => lines == text.as_bytes(),
            (Expected::Among(text), Ok(lines)) => String::from_utf8_lossy(lines).contains(text),
            (Expected::Refused(number), Err(refusal)) => refusal.number == *number,
            _ => false,
        };
        assert!(met, "not as document 01 says: {fields}: {answer:?}");
        record
    }
}

/// P1's head around the fields. `Cell` is a struct, and `Mode`, `Done`, `Any` are enums: closed,
/// closed and complete, open. `Blob` is a custom without a width.
fn lamp(shorthand: &str) -> Vec<u8> {
    let types = [
        ("Cell", "struct Cell -: scalar c 8"),
        ("Mode", "enum Mode 8 0 0"),
        ("Done", "enum Done 8 0 1"),
        ("Any", "enum Any 8 1 0"),
        ("Blob", "custom Blob -"),
    ];
    let used = types.iter().filter(|(name, _)| shorthand.contains(name)).map(|(_, decl)| *decl);
    let packet = format!("packet Lamp -: {shorthand}");
    let decls: Vec<&str> = used.chain([packet.as_str()]).collect();
    record(&format!("little Lamp lite; {}", decls.join("; ")))
}

/// P1 to P13, P10 and P12 twice.
const MARKED: &[Marked] = &[
    Marked("scalar amps 12, reserved 4, payload -", Lines(P1)),
    Marked("", Lines("")),
    Marked("reserved 16", Lines(P3)),
    Marked("scalar x 24", Among("x_ = span.read_le<uint32_t, 3>();\n")),
    Marked("scalar x 60, scalar y 4", Among("if (span.size() < 8) {\n")),
    Marked("scalar x 60, scalar y 12", Refused(12)),
    Marked("scalar x 60, scalar y 5, scalar z 7", Refused(12)),
    Marked("scalar x 4", Lines("")),
    Marked("scalar x 8, scalar y 4", Refused(10)),
    Marked("scalar x 4, typedef t Cell", Refused(11)),
    Marked("scalar x 8, scalar y 4, typedef t Cell", Refused(10)),
    Marked("payload -, scalar x 8", Among("payload_ = span.subrange(0, span.size() - 1);\n")),
    Marked("payload -, scalar x 8 if c 1", Refused(14)),
    Marked("size _payload_ 8, payload -, scalar x 8 if c 1", Among("if (c == 1) {\n")),
    Marked("payload -, array a 8 - - 2, padding 8", Among("payload_ = span.subrange(0, span.size() - 2);\n")),
];

const P1: &str = "\
if (span.size() < 2) {
    return false;
}
uint16_t chunk0 = span.read_le<uint16_t, 2>();
amps_ = (chunk0 >> 0) & 0xfff;
payload_ = span;
span.clear();
";

const P3: &str = "\
if (span.size() < 2) {
    return false;
}
span.skip(2); // skip reserved fields
";

/// What the five faults of document 01 get wrong, in its order.
const FAULTS: &[Marked] = &[
    Marked("scalar x 8, array a 8 - - 2, scalar y 4", Among("if (span.size() < 1) {\n")),
    Marked("scalar x 4, array a 8 - - 2", Lines(ONLY_THE_ARRAY)),
    Marked("scalar x 4, array a 8 - - 2, scalar y 4", Among("span.skip(2);\nif (span.size() < 1) {\n")),
    Marked(
        "scalar x 4, scalar x 8 if c 1, padding 3, checksum k, scalar y 4",
        Among("y_ = (chunk0 >> 4) & 0xf;\n"),
    ),
    Marked(
        "scalar x 4, scalar y 4, array a 8 - - 2, scalar z 3, scalar w 5",
        Among("w_ = (chunk1 >> 3) & 0x1f;\n"),
    ),
    Marked("typedef d Done", Among("d_ = Done(span.read_le<uint8_t, 1>());\n")),
    Marked("typedef d Done if c 1", Among("    if (!IsValidDone(raw_value)) {\n")),
    Marked(
        "array a - Done - 2, typedef d Done, typedef e Done if c 1",
        Among("d_ = Done(span.read_le<uint8_t, 1>());\n"),
    ),
    Marked("scalar x 3, scalar y 17, scalar z 4", Among("y_ = (chunk0 >> 3) & 0x1ffff;\n")),
];

const ONLY_THE_ARRAY: &str = "\
if (span.size() < 2) {
    return false;
}
a_ = span.subrange(0, 2);
span.skip(2);
";

/// Records that need their own head or declarations.
const WHOLE: &[&str] = &[
    "big Lamp full; enum Done 8 0 1; packet Lamp -: array a - Done - 2, typedef d Done, typedef e Done if c 1",
    "big Lamp full; packet Lamp -: scalar amps 12, reserved 4, payload -",
    "little Lamp full; packet Lamp -: size _body_ 8, payload -1, scalar x 8",
    "little Lamp full; packet Lamp -: size _payload_ 16, elemsize _body_ 8, count _payload_ 8, body",
    "little Missing lite; packet Lamp -",
    "little Mode lite; enum Mode 8 0 0; packet Lamp -",
    "little Cell lite; struct Cell -: scalar c 8; packet Lamp -",
    "little Lamp lite; struct Lamp -; packet Lamp -",
    "little Lamp lite; packet Lamp Lamp",
    "little Lamp lite; enum Mode 8 0 0; packet Lamp Mode",
    "little Lamp lite; packet Lamp -: typedef t Lamp",
    "little Lamp lite; packet Lamp -: array t - Cell - -; struct Cell -",
    "little Lamp lite; struct Cell -; packet Lamp -: fixedenum Cell OFF",
    "little Lamp lite; struct Cell -; packet Lamp -: array t - Cell - 0",
    "little Lamp lite; enum Mode 12 0 0; packet Lamp -: array t - Mode - -",
    "little Lamp lite; enum Mode 12 0 0; packet Lamp -: typedef t Mode if c 1",
    "little Lamp lite; checksum Crc 12; packet Lamp -: typedef t Crc if c 1, array a 8 - - -",
    "little Lamp lite; enum Mode 64 0 0; packet Lamp -: typedef t Mode, fixedenum Mode OFF",
    "little Lamp lite; custom Blob 1; packet Lamp -",
    "little Lamp lite; custom Blob 4096; packet Lamp -: array b - Blob - -",
    "little Lamp lite; custom Blob 0; packet Lamp -",
    "little Lamp lite; custom Blob 4097; packet Lamp -",
    "little Lamp lite; enum Mode 0 0 0; packet Lamp -",
    "little Lamp lite; enum Mode 65 0 0; packet Lamp -",
    "little Lamp lite; checksum Crc 65; packet Lamp -",
];

/// Around 2^31 - 1 bits, behind `Block`: its 65,535 octets 4,096 times are 32,768 bits short of
/// 2^31. One entry for each table: a declaration, a sum, a field, a total, a parent, a padding.
const LARGE: &[&str] = &[
    "packet Lamp -: array a - Block - 4096, array b 8 - - 4095, scalar s 7, reserved 1 if c 1",
    "packet Lamp -: array a - Block - 4096, array b 8 - - 4095, scalar s 7",
    "packet Lamp -: array a - Block - 4096, array b 8 - - 4095, scalar s 8",
    "packet Lamp -: array a - Block - 4097",
    "packet Lamp -: array a - Block - 4096, array b 8 - - 4096, payload -",
    "struct Most -: array a - Block - 4096; packet Lamp Most: array b 8 - - 4096",
    "struct Most -: array a - Block - 4096; struct More Most: array b 8 - - 4095; packet Lamp More: body",
    "struct Most -: array a - Block - 4096; struct More Most: array b 8 - - 4096, body; packet Lamp More: body",
    "packet Lamp -: array a - Block - 4096, array b 8 - - 4096, padding 8",
    "packet Lamp -: array a - Block - 4096, array b 8 - - -, padding 4096",
    "packet Lamp -: array a - Block - 4096, array b 8 - - 4096, scalar x 8 if c 1",
    "struct Most -: array a - Block - 4096; packet Lamp Most: array b 8 - - 4096, payload -",
];

/// Numbers, names and mods at their limits and past them; the kinds that have no case above.
const LIMITS: &[&str] = &[
    "scalar x 1, reserved 63",
    "scalar x 64",
    "scalar x 63, scalar y 1",
    "scalar x 64, scalar y 1, scalar z 7",
    "scalar x 60, scalar y 60, scalar z 60",
    "scalar x 0",
    "scalar x 65",
    "reserved 64, reserved 8",
    "scalar x 63, reserved 9",
    "scalar x 18446744073709551615",
    "scalar x 18446744073709551616",
    "scalar x 08",
    "fixed 8 18446744073709551615",
    "fixed 8 18446744073709551616",
    "fixed 4 0, fixed 4 255",
    "fixed 64 00",
    "scalar x 8 if c 18446744073709551615",
    "scalar x 8 if c 18446744073709551616",
    "scalar x 12 if c 1",
    "array a 8 - - 0",
    "array a 8 - - 65535",
    "array a 8 - - 65536",
    "array a 12 - - 2",
    "array a - - - 2",
    "array a 8 Mode - 2",
    "array a 8 - +0 -",
    "array a 8 - -0 -",
    "array a 8 - +65535 2",
    "array a 8 - -65536 2",
    "array a 8 - +01 2",
    "array a 8 - 1 2",
    "array a 8 - - 2 if c 1",
    "payload +0",
    "size _payload_ 32, payload +65535",
    "size _body_ 64, payload -65535",
    "payload +65536",
    "size _payload_ 8, size _body_ 16, body, payload -0",
    "padding 65535",
    "padding 65536",
    "payload -, padding 0, reserved 3",
    "payload -, payload -",
    "payload -, typedef t Blob",
    "scalar x 4, payload -",
    "scalar x 4, body",
    "scalar x 4, payload - if c 1",
    "scalar x 8, scalar y 4, payload - if c 1",
    "reserved 8 if c 1",
    "flag c, reserved 7, scalar x 8 if c 1, typedef m Mode if c 0, typedef a Any if c 2",
    "scalar c 16, typedef t Cell if c 1, typedef b Blob if c 256",
    "flag a_count_, count a 7, array a 8 - - -, scalar x_size 8, size x 8, array x 8 - +5 -",
    "size _payload_ 8, array _payload_ 8 - - -, count _payload_ 8, elemsize _payload_ 8",
    "typedef m Mode, typedef d Done, typedef a Any, fixedenum Mode OFF",
    "scalar chunk 8, scalar span1 8, scalar chunk1a 8, scalar Span 8, scalar _ 8, scalar outputs 8",
    "scalar span 8",
    "flag output",
    "scalar chunk0 8",
    "size chunk007 8",
    "scalar a23456789_123456789_123456789_12 8",
    "scalar a23456789_123456789_123456789_123 8",
    "scalar 9a 8",
    "scalar caf\u{e9} 8",
    "checksum x, checksum y if c 1",
];

/// Each of the 24 shapes: in full mode with each kind of element that it can have, in lite,
/// where the lines hardly tell them apart, with a few.
fn array_shapes() -> Vec<Vec<u8>> {
    let full = &["64 -", "- Mode", "- Done", "- Any", "- Crc", "- Fix", "- Cell", "- Pack"][..];
    let loose = &["- Blob", "- Tail", "- Rest"][..];
    let mut all = arrays_of("big Lamp full", "", full);
    all.extend(arrays_of("little Lamp full", "", loose));
    all.extend(arrays_of("big Lamp full", "elemsize a 8, ", loose));
    all.extend(arrays_of("little Lamp lite", "", &["24 -", "- Mode", "- Cell", "- Blob", "- Rest"]));
    all.extend(arrays_of("big Lamp lite", "elemsize a 16, ", &["- Blob", "- Tail"]));
    all
}

/// The array `a` of each element, in each of the four array sizes.
fn arrays_of(head: &str, before: &str, elements: &[&str]) -> Vec<Vec<u8>> {
    let types = "enum Mode 16 0 0; enum Done 24 0 1; enum Any 32 1 0; checksum Crc 16; custom Fix 24; \
                 custom Blob -; struct Cell -: scalar c 8; packet Pack -: scalar c 40; \
                 struct Tail -: array t 8 - - -; packet Rest -: payload -";
    let counts = [("", "3"), ("count a 16, ", "-"), ("size a 32, ", "-"), ("", "-")];
    let mut all = Vec::new();
    for element in elements {
        for (sized, count) in counts {
            let target = format!("packet Lamp -: {before}{sized}array a {element} - {count}");
            all.push(only_used(Sketch::new(&format!("{head}; {types}; {target}"))).bytes());
        }
    }
    all
}

/// Without the declarations that the target's fields do not name.
fn only_used(mut sketch: Sketch) -> Sketch {
    let target = sketch.decls.pop().expect("the target stands last");
    let is_used = |decl: &DeclSketch| {
        let name = decl.head.split(' ').nth(1).unwrap_or_default();
        target.fields.iter().any(|field| field.split(' ').any(|word| word == name))
    };
    sketch.decls.retain(is_used);
    sketch.decls.push(target);
    sketch
}

/// 32 and 33 declarations, 64 and 65 fields, and a bad line behind them.
fn crowded() -> Vec<Vec<u8>> {
    let decls = |number: usize| {
        let others: Vec<String> = (1..number).map(|at| format!("checksum C{at} 8; ")).collect();
        record(&format!("little Lamp lite; {}packet Lamp -", others.concat()))
    };
    let fields = |number: usize| lamp(&vec!["scalar x 8"; number].join(", "));
    let bad = |record: Vec<u8>| [record, b"field=scalar\n".to_vec()].concat();
    vec![decls(32), decls(33), bad(decls(33)), fields(64), fields(65), bad(fields(65))]
}

/// 16,384 bytes: accepted, and broken in the last line; one byte more, which is 1; and lines that
/// nearly fill the buffer.
fn long() -> Vec<Vec<u8>> {
    let most = of_length(16_384);
    let mut broken = most.clone();
    broken[16_382] = b'=';
    vec![most, broken, of_length(16_385), with_long_lines()]
}

/// 62 arrays of the shape with the longest lines, all of one name.
fn with_long_lines() -> Vec<u8> {
    let id = "a23456789_123456789_123456789_12";
    let type_ = "T23456789_123456789_123456789_12";
    let arrays = vec![format!("array {id} - {type_} -65535 -"); 62].join(", ");
    let target = format!("packet Lamp -: size {id} 61, elemsize {id} 3, {arrays}");
    record(&format!("little Lamp full; custom {type_} -; {target}"))
}

/// A record of just this length: octets with names as long as it takes.
pub fn of_length(length: usize) -> Vec<u8> {
    let mut sketch = Sketch::new("little Lamp lite");
    let octet = |name: usize| format!("scalar {} 8", "x".repeat(name));
    let filled = |fields: &[String]| {
        let mut sketch = sketch.clone();
        for (at, fields) in fields.chunks(64).enumerate() {
            let name = if at == 0 { "Lamp".to_string() } else { format!("Cell{at}") };
            sketch.decls.push(DeclSketch { head: format!("packet {name} -"), fields: fields.to_vec() });
        }
        sketch
    };
    let mut fields = vec![octet(16)];
    while filled(&fields).bytes().len() < length {
        fields.push(octet(16));
    }
    fields.pop();
    for at in 0.. {
        let missing = length - filled(&fields).bytes().len();
        if missing == 0 {
            break;
        }
        fields[at] = octet(16 + missing.min(16));
    }
    sketch = filled(&fields);
    sketch.bytes()
}

/// Byte strings that are no record, and small departures from one.
fn broken() -> Vec<Vec<u8>> {
    let behind = |start: &str, rest: &&str| format!("{start}{rest}").into_bytes();
    let packet = "decl=packet\nname=Lamp\nparent=-\n";
    let head = "endian=little\ntarget=Lamp\narrays=lite\n";
    let whole = format!("{head}{packet}");
    let mut all: Vec<Vec<u8>> =
        NO_HEADS.iter().map(|start| format!("{start}{packet}").into_bytes()).collect();
    all.extend(NO_DECLS.iter().map(|rest| behind(head, rest)));
    all.extend(NO_FIELDS.iter().map(|rest| behind(&whole, rest)));
    all.extend(["", "\n", "x", "\0", "endian=little\n", head].map(|text| text.as_bytes().to_vec()));
    all.push(whole.trim_end().as_bytes().to_vec());
    all.push(whole.replace('\n', "\r\n").into_bytes());
    all
}

const NO_HEADS: &[&str] = &[
    "",
    "endian=Little\ntarget=Lamp\narrays=lite\n",
    "endian=little\ntarget=Lamp\narrays=none\n",
    "endian=little\ntarget=-\narrays=lite\n",
    "target=Lamp\nendian=little\narrays=lite\n",
    "endian=little\ntarget=Lamp\narrays=lite\nfield=body\nif=-\n",
    "endian=little\ntarget=Lamp\narrays=lite\n\n",
];

const NO_DECLS: &[&str] = &[
    "decl=group\nname=Lamp\nparent=-\n",
    "decl=test\nname=Lamp\n",
    "decl=packet\nname=Lamp\n",
    "decl=packet\nname=Lamp\nparent=\n",
    "decl=enum\nname=Mode\nwidth=8\nopen=2\ncomplete=0\n",
    "decl=enum\nname=Mode\nwidth=-\nopen=0\ncomplete=0\n",
    "decl=enum\nname=Mode\nwidth=8\nopen=0\ncomplete=0\nfield=body\nif=-\n",
    "decl=checksum\nname=Crc\nwidth=-\n",
];

const NO_FIELDS: &[&str] = &[
    "\n",
    "field=body\n",
    "field=body\nif=c\n",
    "field=body\nif=-\nis=1\n",
    "field=payload\nmod=\nif=-\n",
    "field=payload\nmod=--\nif=-\n",
    "field=group\nif=-\n",
    "field=scalar\nwidth=8\nid=x\nif=-\n",
    "field=scalar\nid=x\nwidth=+8\nif=-\n",
    "field=scalar\nid=x\nwidth=8\nwidth=8\nif=-\n",
    "field=scalar\nid=x\nwidth= 8\nif=-\n",
    "field=scalar \nid=x\nwidth=8\nif=-\n",
];

/// Those of refusal 16. Fails loudly where the judge is not of document 02's opinion.
pub fn keyword_records() -> Vec<Vec<u8>> {
    let mut all: Vec<Vec<u8>> = KEYWORDS.iter().map(|shorthand| answered(16, record(shorthand))).collect();
    all.extend(NO_KEYWORDS.iter().map(|shorthand| answered(0, record(shorthand))));
    all.extend(in_order());
    all.extend(words().iter().map(|word| answered(16, lamp(&format!("scalar {word} 8")))));
    all.extend(words().iter().map(|word| answered(0, near(word))));
    all
}

pub fn answered(number: u8, record: Vec<u8>) -> Vec<u8> {
    let answer = answer(&record);
    let (found, _) = within(BUFFER, &answer);
    assert_eq!(found, number, "not as document 02 says: {answer:?}:\n{}", String::from_utf8_lossy(&record));
    record
}

/// A keyword at each of the eight places, in each kind that has it, also where another refusal would
/// follow, or no line would print the name.
const KEYWORDS: &[&str] = &[
    // target, alone and with its declaration
    "little int lite; packet Lamp -",
    "little register lite; packet register -: scalar x 8",
    // name
    "little Lamp lite; packet private -; packet Lamp -",
    "little Lamp lite; struct struct -; packet Lamp -",
    "little Lamp lite; enum enum 8 0 0; packet Lamp -",
    "little Lamp lite; checksum char16_t 8; packet Lamp -",
    "little Lamp lite; custom void -; packet Lamp -",
    "little Lamp lite; packet Lamp -; custom bitand 8",
    // parent
    "little Lamp lite; packet Lamp union",
    "little Lamp lite; struct Lamp class",
    // id
    "little Lamp lite; packet Lamp -: scalar register 8",
    "little Lamp lite; packet Lamp -: flag register, reserved 7, scalar x 8 if register 1",
    "little Lamp lite; struct Cell -: scalar c 8; packet Lamp -: typedef new Cell",
    "big Lamp full; packet Lamp -: array signed 16 - - 2",
    "big Lamp full; custom Blob -; packet Lamp -: elemsize a 8, array bitor - Blob +1 -",
    // of
    "little Lamp lite; packet Lamp -: size xor 8",
    "little Lamp lite; packet Lamp -: count short 8",
    "little Lamp lite; packet Lamp -: elemsize not_eq 8",
    "little Lamp lite; packet Lamp -: checksum this",
    // type, alone and with its declaration
    "little Lamp lite; packet Lamp -: typedef t wchar_t",
    "little Lamp lite; packet Lamp -: fixedenum bool OFF",
    "little Lamp full; packet Lamp -: array a - double - 2",
    "little Lamp full; struct double -: scalar c 8; packet Lamp -: array a - double - 2",
    // tag
    "little Lamp lite; enum Mode 8 0 0; packet Lamp -: fixedenum Mode true",
    // if, also of a field that cannot be optional
    "little Lamp lite; packet Lamp -: scalar x 8 if and 1",
    "little Lamp lite; enum Mode 8 0 0; packet Lamp -: typedef m Mode if default 0",
    "little Lamp lite; packet Lamp -: payload - if compl 1",
    // a declaration that the target does not reach, and a field that emits no line
    "little Lamp lite; struct Cell -: scalar return 8; packet Lamp -: scalar x 8",
    "little Lamp lite; packet Lamp -: scalar x 8; packet Late Lamp: flag if, fixedenum Mode delete",
    "little Lamp lite; packet Lamp -: scalar goto 4",
    // before 4, 5, 6, 7, 8, 9 and 10 to 14
    "little Lamp lite; packet Lamp -; packet Lamp -: scalar int 8",
    "little Lamp lite; packet while -; packet while -",
    "little Lamp lite; packet Lamp -: typedef int Missing",
    "little Lamp lite; packet Lamp -: scalar int 65",
    "little Lamp lite; struct Block -: array b 8 - - 65535; packet Lamp -: array int - Block - 4097",
    "little Lamp lite; packet Lamp -: array int 12 - - 2",
    "little Missing lite; packet Lamp -: scalar int 8",
    "little Lamp lite; packet Lamp -: scalar x 8, scalar int 4",
    "little Lamp lite; packet Lamp -: scalar int 4, payload -",
    "little Lamp lite; packet Lamp -: scalar int 60, scalar y 12",
    "little Lamp lite; packet Lamp -: reserved 8 if int 1",
    "little Lamp lite; packet Lamp -: payload -, scalar int 8 if c 1",
];

/// Names that are no keyword of C++17: with another letter, one more or one less, of other versions
/// of C++, of C, with a meaning at some places only; at each of the eight places.
const NO_KEYWORDS: &[&str] = &[
    "little Class lite; enum Enum 8 0 0; struct Struct -: scalar Int 8; \
     packet Class Struct: flag Register, reserved 7, fixedenum Enum True, size Xor 8, \
     array Xor 8 - +1 -, typedef And Struct if Register 1, typedef Or Enum if Register 0, checksum Not",
    "big register1 full; enum int1 8 0 0; struct union1 -: scalar this1 8; custom void1 -; \
     packet register1 union1: flag if1, reserved 7, fixedenum int1 true1, count new1 8, \
     array new1 - int1 - -, elemsize xor1 8, array xor1 - void1 - 2, typedef and1 union1 if if1 1",
    "little _class full; enum xor_ 8 1 0; struct _if -: payload -; \
     packet _class _if: scalar register_ 8, typedef not_ xor_, size do_ 8, array do_ 16 - -2 -, padding 9, \
     typedef _or _if, scalar _and 16",
    "big classes lite; enum enums 8 0 1; struct structs -: scalar ints 8; custom voids -; \
     packet classes structs: scalar char8_t 8, typedef final enums if char8_t 3, elemsize override 8, \
     array override - voids - -",
    "little Lamp lite; packet Lamp -: scalar final 8, scalar override 8, scalar import 8, scalar module 8, \
     scalar char8_t 8, scalar concept 8, scalar consteval 8, scalar constinit 8, scalar co_await 8, \
     scalar co_return 8, scalar co_yield 8, scalar requires 8, scalar restrict 8, scalar typeof 8, \
     scalar _Bool 8, scalar atomic_cancel 8, scalar synchronized 8, scalar reflexpr 8, scalar audit 8, \
     scalar axiom 8, scalar std 8, scalar NULL 8",
    "little Lamp lite; packet Lamp -: scalar REGISTER 8, scalar rEGISTER 8, scalar registeR 8, \
     scalar regist 8, scalar egister 8, scalar xregister 8, scalar registers 8, scalar register_register 8, \
     scalar xoreq 8, scalar xor__eq 8, scalar _xor_eq 8, scalar char16 8, scalar char16t 8, \
     scalar char17_t 8, scalar reinterpret_casts 8, scalar reinterpret_cast_reinterpret_cas 8",
];

/// 1 and 2 come before it, 3 behind it: also where the keyword stands first and the bad line last, and
/// in a 33rd declaration or a 65th field.
fn in_order() -> Vec<Vec<u8>> {
    let bad = |record: Vec<u8>| [record, b"field=scalar\n".to_vec()].concat();
    let decls = |at: usize| {
        let name = |k: usize| if k == at { "int".to_string() } else { format!("C{k}") };
        let others: Vec<String> = (2..=33).map(|k| format!("; checksum {} 8", name(k))).collect();
        record(&format!("little Lamp lite; packet Lamp -{}", others.concat()))
    };
    let fields = |at: usize| {
        let name = |k: usize| if k == at { "int" } else { "x" };
        lamp(&(1..=65).map(|k| format!("scalar {} 8", name(k))).collect::<Vec<_>>().join(", "))
    };
    vec![
        answered(2, bad(lamp("scalar int 8"))),
        answered(2, lamp("scalar int 8, scalar y 08")),
        answered(2, lamp("scalar y 08, scalar int 8")),
        answered(2, lamp("scalar int 8, flag span")),
        answered(2, record("little int lite; packet Lamp -: array a - - - 2")),
        answered(2, lamp("scalar int 8").strip_suffix(b"\n").expect("a record").to_vec()),
        answered(16, decls(2)),
        answered(16, decls(33)),
        answered(2, bad(decls(33))),
        answered(16, fields(1)),
        answered(16, fields(65)),
        answered(2, bad(fields(65))),
        answered(16, with_a_long_keyword(16_384)),
        answered(1, with_a_long_keyword(16_385)),
    ]
}

/// A record of this length whose last name of 16 bytes is a keyword.
fn with_a_long_keyword(length: usize) -> Vec<u8> {
    let text = String::from_utf8(of_length(length)).expect("a record is ASCII");
    let (before, behind) = text.rsplit_once("=xxxxxxxxxxxxxxxx\n").expect("a name of 16 bytes");
    format!("{before}=reinterpret_cast\n{behind}").into_bytes()
}

/// Names that differ from a word in one letter.
fn near(word: &str) -> Vec<u8> {
    let scalars: Vec<String> = near_forms(word).iter().map(|name| format!("scalar {name} 8")).collect();
    lamp(&scalars.join(", "))
}
