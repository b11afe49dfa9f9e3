//! What a case shows: its answer and why, and for an accepted one the kinds and shapes in it.
//! `histogram` counts features; `select` chooses cases by them.

use crate::analyzer::{self, ArraySize, ElementSize, Schema, Scope};
use crate::answer::{self, Answer};
use crate::divided;
use crate::keywords::is_like_a_keyword;
use crate::numbered;
use crate::published;
use crate::record::{
    Arrays, Decl, DeclDesc, Element, Endian, Field, FieldDesc, Products, Raw, Record, Stated, Trailing,
};
use crate::sections::{self, Sections, LONGEST};
use crate::sizes::{unpadded, DeclSizes, Size, Tables};
use std::collections::BTreeSet;

pub fn features(bytes: &[u8], answer: &Answer) -> BTreeSet<String> {
    let mut found = BTreeSet::new();
    match answer {
        Ok(lines) => {
            found.insert("answer 00".to_string());
            let record = Record::read(bytes).expect("it was accepted");
            of_accepted(&record, lines, &mut found);
            found.extend(raws(&record, &String::from_utf8_lossy(lines)));
            found.extend(products(&record, &String::from_utf8_lossy(lines)));
            found.extend(trailing(record, lines));
        }
        Err(refusal) => {
            found.insert(format!("answer {:02}", refusal.number));
            found.insert(format!("because {:02} {}", refusal.number, refusal.because));
            if let (10..=14, Ok(record)) = (refusal.number, Record::read(bytes)) {
                of_target(&record, "refused", &mut found);
                if let (14, Some(Trailing::Padded)) = (refusal.number, record.trailing) {
                    found.insert("trailing padded: 14".to_string());
                }
            }
            if let (17, Ok(record)) = (refusal.number, Record::read(bytes)) {
                found.extend(misstated(&record));
            }
        }
    }
    found
}

/// What `lower_all` makes of a case, with a buffer of 65,536 bytes.
pub fn of_all_targets(sections: &Sections) -> BTreeSet<String> {
    let whole = sections::whole(sections);
    let length = whole.as_ref().map_or(0, Vec::len);
    let (number, _) = answer::within(answer::BUFFER, &whole);
    let all = sections.as_ref().map_or(&[][..], |sections| sections);
    let has = |length: usize| all.iter().any(|section| section.lines.len() == length);
    let behind = sections.as_ref().err().and_then(|turned| turned.behind);
    let notes = [
        (all.len() == 1, "1 target"),
        ((2..=4).contains(&all.len()), "2 to 4 targets"),
        ((5..=16).contains(&all.len()), "5 to 16 targets"),
        (all.len() > 16, "17 to 32 targets"),
        (has(0), "a target without lines"),
        (all.iter().any(|section| section.lines.len() > 8_000), "a section of 8,001 to 8,192 bytes"),
        (has(LONGEST), "a section of 8,192 bytes"),
        ((60_000..65_536).contains(&length), "60,000 to 65,535 bytes"),
        (length == 65_536, "65,536 bytes"),
        (length == 65_537, "65,537 bytes"),
        (length > 65_537, "more than 65,537 bytes"),
    ];
    let notes = notes.into_iter().filter_map(|(holds, note)| holds.then(|| format!("all targets: {note}")));
    let mut found: BTreeSet<String> = notes.collect();
    found.insert(format!("all targets: answer {number:02}"));
    if behind.is_some() {
        found.insert(format!(
            "all targets: answer {number:02} at {}",
            if behind == Some(0) { "the first" } else { "a later one" }
        ));
    }
    found
}

fn of_accepted(record: &Record, lines: &[u8], found: &mut BTreeSet<String>) {
    let endian = match record.endian {
        Endian::Little => "little",
        Endian::Big => "big",
    };
    found.insert(format!("endian {endian}"));
    found.insert(format!("mode {}", mode(record)));
    found.extend(record.decls.iter().map(|decl| format!("declaration {}", decl_kind(decl))));
    let children = record.decls.iter().filter(|decl| has_parent(decl));
    found.extend(children.map(|decl| format!("declaration {} with parent", decl.kind())));
    found.extend(target(record).map(|decl| format!("target {}", decl.kind())));
    let like_a_keyword = record.names().into_iter().filter(|(_, name)| is_like_a_keyword(name));
    found.extend(like_a_keyword.map(|(key, _)| format!("like a keyword: {key}")));
    found.extend(stated(record));
    of_target(record, "accepted", found);
    found.extend(array_shapes(record));
    found.extend(reads(lines));
}

fn mode(record: &Record) -> &'static str {
    match record.arrays {
        Arrays::Lite => "lite",
        Arrays::Full => "full",
    }
}

fn target(record: &Record) -> Option<&Decl> {
    record.find(&record.target)
}

fn of_target(record: &Record, outcome: &str, found: &mut BTreeSet<String>) {
    for field in target(record).map_or(&[][..], Decl::fields) {
        found.insert(format!("field {} {outcome}", field_kind(record, field)));
    }
}

fn field_kind(record: &Record, field: &Field) -> String {
    let kind = match &field.desc {
        FieldDesc::Typedef { type_, .. } => format!("typedef of {}", type_kind(record, type_)),
        other => other.kind().to_string(),
    };
    if field.cond.is_some() {
        format!("optional {kind}")
    } else {
        kind
    }
}

fn type_kind(record: &Record, name: &str) -> &'static str {
    record.find(name).map_or("nothing", decl_kind)
}

fn decl_kind(decl: &Decl) -> &'static str {
    match &decl.desc {
        DeclDesc::Enum { open: false, complete: false, .. } => "closed enum",
        DeclDesc::Enum { open: false, complete: true, .. } => "complete enum",
        DeclDesc::Enum { open: true, complete: false, .. } => "open enum",
        DeclDesc::Enum { open: true, complete: true, .. } => "open complete enum",
        DeclDesc::Custom { width: Some(_) } => "custom with width",
        DeclDesc::Custom { width: None } => "custom",
        _ => decl.kind(),
    }
}

fn has_parent(decl: &Decl) -> bool {
    decl.block().is_some_and(|block| block.parent.is_some())
}

/// The declarations with a line `bits`, with what it says and with their sizes.
fn stated_sizes<'a>(record: &'a Record, tables: &'a Tables) -> Vec<(&'a Decl, Stated, &'a DeclSizes)> {
    let entries = record.decls.iter().zip(&tables.0);
    entries.filter_map(|(decl, sizes)| Some((decl, decl.stated()?, sizes))).collect()
}

/// The lines `bits` of an accepted record: what they say, and where that is not what one might think.
fn stated(record: &Record) -> Vec<String> {
    let tables = Tables::new(record);
    let of_one = |(decl, stated, sizes): (&Decl, Stated, &DeclSizes)| {
        let said = match stated {
            Stated::Bits(_) => "a number",
            Stated::Dynamic => "dynamic",
            Stated::Unknown => "unknown",
        };
        let notes = [
            (decl.name == record.target, "the target's"),
            (decl.name != record.target, "another's"),
            (sizes.decl != sizes.total(), "not the total size"),
            (sizes.decl != unpadded(decl, sizes), "with a padding"),
        ];
        let notes = notes.into_iter().filter_map(|(holds, note)| holds.then_some(note));
        notes.chain([said]).map(|note| format!("bits {note}")).collect::<Vec<_>>()
    };
    stated_sizes(record, &tables).into_iter().flat_map(of_one).collect()
}

/// What the first wrong line `bits` of a record says instead of its declaration's own size.
fn misstated(record: &Record) -> Vec<String> {
    let tables = Tables::new(record);
    let value = |stated| match stated {
        Stated::Bits(number) => Size::Static(number.into()),
        Stated::Dynamic => Size::Dynamic,
        Stated::Unknown => Size::Unknown,
    };
    let all = stated_sizes(record, &tables);
    let wrong = all.into_iter().find(|(_, stated, sizes)| value(*stated) != sizes.decl);
    let (decl, stated, sizes) = wrong.expect("it was refused by 17");
    let said = value(stated);
    let near = |(said, own): (u128, u128)| said.abs_diff(own) == 1;
    let notes = [
        (decl.name == record.target, "the target's"),
        (decl.name != record.target, "another's"),
        (said == sizes.total(), "the total size"),
        (said == unpadded(decl, sizes), "without paddings"),
        (said.bits().zip(sizes.decl.bits()).is_some_and(near), "one more or less"),
        (said.bits().is_some_and(|bits| bits > (1 << 31) - 1), "2^31 or more"),
    ];
    let notes = notes.into_iter().filter_map(|(holds, note)| holds.then_some(note));
    notes.map(|note| format!("wrong bits {note}")).collect()
}

/// The line `trailing` of an accepted record: beside the lines with `plain`, and by the arrays that count padded.
fn trailing(record: Record, lines: &[u8]) -> Vec<String> {
    let word = match record.trailing {
        None => return Vec::new(),
        Some(Trailing::Plain) => return vec!["trailing plain".to_string()],
        Some(Trailing::Padded) => "trailing padded",
    };
    let mut notes = counted_padded(&record);
    notes.push(match answer::lines_of(&Record { trailing: None, ..record }) {
        Ok(plain) if plain == lines => "the same lines as plain",
        Ok(_) => "other lines than plain",
        Err(_) => "14 where plain",
    });
    let notes = notes.into_iter().map(|note| format!("{word}: {note}"));
    notes.chain([word.to_string()]).collect()
}

/// What the target's first field that needs a trailing size is, and which later arrays count padded.
fn counted_padded(record: &Record) -> Vec<&'static str> {
    let at = record.position(&record.target).expect("it was accepted");
    let sizes = &Tables::new(record).0[at];
    let fields = record.decls[at].fields();
    let opens = |at: &usize| match &fields[*at].desc {
        FieldDesc::Payload { .. } | FieldDesc::Body | FieldDesc::Typedef { .. } => {
            sizes.fields[*at] == Size::Unknown
        }
        _ => false,
    };
    let Some(first) = (0..fields.len()).find(opens) else {
        return vec!["no trailing size is needed"];
    };
    let is_array =
        |at: usize| fields[at].cond.is_none() && matches!(fields[at].desc, FieldDesc::Array { .. });
    let counted =
        |at: usize| sizes.padded[at].filter(|_| is_array(at)).map_or(sizes.fields[at], Size::Static);
    let sum = (first + 1..fields.len()).map(counted).fold(Size::ZERO, Size::plus);
    let arrays = (first + 1..fields.len()).filter(|at| is_array(*at));
    let mut notes: Vec<&str> = arrays
        .filter_map(|at| Some((sizes.fields[at], sizes.padded[at]?)))
        .flat_map(|(own, padding)| {
            let own = match own {
                Size::Static(bits) if bits < padding => "a Static array, its padding larger",
                Size::Static(bits) if bits > padding => "a Static array, its padding smaller",
                Size::Static(_) => "a Static array, its padding as large",
                Size::Dynamic => "a Dynamic array",
                Size::Unknown => "an Unknown array",
            };
            [Some(own), (padding == 0).then_some("a padding of 0")].into_iter().flatten()
        })
        .collect();
    notes.extend(sum.bits().filter(|bits| *bits > (1 << 31) - 1).map(|_| "past 2^31 - 1 bits"));
    notes.push(match fields[first].desc {
        FieldDesc::Typedef { .. } => "behind a typedef",
        _ => "behind a payload or body",
    });
    notes
}

/// The line `raw` of an accepted record: how many variables have a number, and what stands beside them.
fn raws(record: &Record, lines: &str) -> Vec<String> {
    let word = match record.raw {
        None => return Vec::new(),
        Some(Raw::Plain) => return vec!["raw plain".to_string()],
        Some(Raw::Numbered) => "raw numbered",
    };
    let has_number = |line: &str| numbered::digits_of(line).is_some();
    let declared: Vec<(usize, &str)> =
        lines.lines().enumerate().filter(|(_, line)| has_number(line)).collect();
    let chunks: Vec<&str> =
        declared.iter().filter_map(|(_, line)| Some(line.split_once("(chunk")?.1)).collect();
    let chunk = |rest: &str| rest.split(' ').next().map(str::to_string);
    let checks = lines.lines().enumerate().filter(|(_, line)| line.starts_with("if (span.size() < "));
    let checks: Vec<usize> = checks.map(|(at, _)| at).collect();
    let between = |pair: &[(usize, &str)]| checks.iter().any(|at| (pair[0].0..pair[1].0).contains(at));
    let tested = target(record).map_or(0, |target| numbered::tested(record, target).len());
    let is_like_it = |name: &str| {
        name.strip_prefix("raw_value").is_some_and(|rest| rest.bytes().all(|byte| byte.is_ascii_digit()))
    };
    let notes = [
        (declared.is_empty(), "no number"),
        (declared.len() == 1, "one number"),
        ((2..=10).contains(&declared.len()), "2 to 10 numbers"),
        (declared.len() > 10, "11 to 64 numbers"),
        (chunks.windows(2).any(|pair| chunk(pair[0]) == chunk(pair[1])), "two in one chunk"),
        (declared.windows(2).any(between), "a check between two"),
        (!declared.is_empty() && lines.contains("\n    auto raw_value = "), "raw_value in a block too"),
        (!declared.is_empty() && record.names().iter().any(|(_, name)| is_like_it(name)), "a name like them"),
        (tested > declared.len(), "a tested field is dropped"),
        (record.trailing == Some(Trailing::Padded), "and trailing padded"),
    ];
    let notes = notes.into_iter().filter_map(|(holds, note)| holds.then(|| format!("{word}: {note}")));
    notes.chain([word.to_string()]).collect()
}

/// The line `products` of an accepted record: how many checks are by a division, on which factors, and what stands beside.
fn products(record: &Record, lines: &str) -> Vec<String> {
    let word = match record.products {
        None => return Vec::new(),
        Some(Products::Plain) => return vec!["products plain".to_string()],
        Some(Products::Divide) => "products divide",
    };
    let factors: Vec<(&str, &str)> = lines.lines().filter_map(divided::factors).collect();
    let is_number = |factor: &str| factor.starts_with(|first: char| first.is_ascii_digit());
    let any = |is: &dyn Fn(&str, &str) -> bool| factors.iter().any(|(size, count)| is(size, count));
    let reads = |bytes: &str| {
        lines.lines().any(|line| line.contains("_count_ = ") && line.ends_with(&format!("_t, {bytes}>();")))
    };
    let notes = [
        (factors.is_empty(), "no division"),
        (factors.len() == 1, "one division"),
        ((2..=10).contains(&factors.len()), "2 to 10 divisions"),
        (factors.len() > 10, "more than 10 divisions"),
        (any(&|size, _| is_number(size)), "a number and a count"),
        (any(&|size, _| size == "1"), "1 and a count"),
        (any(&|size, count| !is_number(size) && is_number(count)), "a variable and a number"),
        (any(&|size, count| !is_number(size) && count == "0"), "a variable and 0"),
        (any(&|size, count| !is_number(size) && !is_number(count)), "a variable and a count"),
        (!factors.is_empty() && reads("4"), "a count of 32 bits"),
        (!factors.is_empty() && reads("8"), "a count of 64 bits"),
        (!factors.is_empty() && lines.contains("_start_size = "), "a padded array"),
        (!factors.is_empty() && lines.lines().any(is_other_check), "another check of an array"),
        (!factors.is_empty() && record.trailing == Some(Trailing::Padded), "and trailing padded"),
        (!factors.is_empty() && record.raw == Some(Raw::Numbered), "and raw numbered"),
    ];
    let notes = notes.into_iter().filter_map(|(holds, note)| holds.then(|| format!("{word}: {note}")));
    notes.chain([word.to_string()]).collect()
}

/// On a byte size.
fn is_other_check(line: &str) -> bool {
    line.starts_with("if (span.size() < ") && line.ends_with("_size_) {")
}

/// The shapes of the target's arrays, alone and with their kind of element.
fn array_shapes(record: &Record) -> Vec<String> {
    let file = published::file(record);
    let scope = Scope::new(&file).expect("it was accepted");
    let schema = Schema::new(&file);
    let decl = scope.typedef[&record.target];
    let fields = decl.fields().zip(target(record).map_or(&[][..], Decl::fields));
    fields
        .filter_map(|(field, ours)| match &ours.desc {
            FieldDesc::Array { element, .. } => Some((field, element)),
            _ => None,
        })
        .flat_map(|(field, element)| {
            let of_elements = match analyzer::element_size(&scope, &schema, decl, field) {
                ElementSize::Static(_) => "Static",
                ElementSize::Dynamic => "Dynamic",
                ElementSize::Unknown => "Unknown",
            };
            let of_array = match analyzer::array_size(decl, field) {
                ArraySize::StaticCount(_) => "StaticCount",
                ArraySize::DynamicCount => "DynamicCount",
                ArraySize::DynamicSize => "DynamicSize",
                ArraySize::Unknown => "Unknown",
            };
            let shape = format!("{} {of_elements} {of_array}", mode(record));
            let element = match element {
                Element::Width(_) => "width",
                Element::Type(type_) => type_kind(record, type_),
            };
            let padded = schema.padded_size(field.key).map(|_| format!("padded array {}", mode(record)));
            [format!("shape {shape}"), format!("element {shape} of {element}")].into_iter().chain(padded)
        })
        .collect()
}

/// The reads in the lines, such as `read_le<uint16_t, 2>`.
fn reads(lines: &[u8]) -> Vec<String> {
    let text = String::from_utf8_lossy(lines);
    let starts = text.match_indices("read_").map(|(at, _)| &text[at..]);
    starts.filter_map(|rest| rest.split_once('>')).map(|(read, _)| format!("lines {read}>")).collect()
}
