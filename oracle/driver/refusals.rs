//! Refusals 1 to 9 of document 01 and 16 and 17 of document 02, one function for each, in the order
//! in which they are tested: 16 stands between 2 and 3, 17 between 8 and 9. Each looks at the whole
//! record before the next one does, and yields why the record is turned back, if it is.

use crate::keywords::is_keyword;
use crate::record::{Decl, DeclDesc, Element, Field, FieldDesc, Modifier, Record, Stated};
use crate::sizes::{DeclSizes, Size, Tables};

const MOST_BYTES: usize = 16_384;
const MOST_DECLS: usize = 32;
const MOST_FIELDS: usize = 64;
const MOST_BITS: u128 = (1 << 31) - 1;

/// A number of document 01 or 02, and which part of its sentence holds.
#[derive(Clone, Debug)]
pub struct Refusal {
    pub number: u8,
    pub because: String,
}

type Reason = Option<&'static str>;

/// Refusals 1, 2, 16 and 3 to 6. Behind them the tables of sizes can be computed.
pub fn of_the_text(bytes: &[u8]) -> Result<Record, Refusal> {
    let record = of_the_form(bytes)?;
    of_the_names(&record)?;
    of_the_declarations(&record)?;
    Ok(record)
}

/// Refusals 1 and 2.
pub fn of_the_form(bytes: &[u8]) -> Result<Record, Refusal> {
    refuse(1, is_empty_or_too_long(bytes))?;
    Record::read(bytes).map_err(|because| Refusal { number: 2, because })
}

/// Refusal 16. It has no counterpart in the published Rust, which prints such names.
fn of_the_names(record: &Record) -> Result<(), Refusal> {
    match record.names().into_iter().find(|(_, name)| is_keyword(name)) {
        Some((key, _)) => Err(Refusal { number: 16, because: format!("a keyword behind {key}") }),
        None => Ok(()),
    }
}

/// Refusals 3 to 6.
pub fn of_the_declarations(record: &Record) -> Result<(), Refusal> {
    refuse(3, has_too_many_parts(record))?;
    refuse(4, has_one_name_twice(record))?;
    refuse(5, names_no_earlier_declaration(record))?;
    refuse(6, has_a_number_outside_its_range(record))
}

/// Refusal 7. Behind it the published `Schema` can be built.
pub fn of_the_sizes(tables: &Tables) -> Result<(), Refusal> {
    refuse(7, exceeds_the_largest_size(tables))
}

/// Refusals 8, 17 and 9. Behind them `FieldParser` is asked.
pub fn of_the_target(record: &Record, tables: &Tables) -> Result<(), Refusal> {
    refuse(8, has_parts_of_no_whole_octets(record, tables))?;
    refuse(17, misstates_a_size(record, tables))?;
    refuse(9, has_no_target(record))
}

fn refuse(number: u8, reason: Reason) -> Result<(), Refusal> {
    match reason {
        Some(because) => Err(Refusal { number, because: because.to_string() }),
        None => Ok(()),
    }
}

fn is_empty_or_too_long(bytes: &[u8]) -> Reason {
    match bytes.len() {
        0 => Some("an empty record"),
        length if length > MOST_BYTES => Some("more than 16,384 bytes"),
        _ => None,
    }
}

fn has_too_many_parts(record: &Record) -> Reason {
    if record.decls.len() > MOST_DECLS {
        return Some("more than 32 declarations");
    }
    let crowded = record.decls.iter().any(|decl| decl.fields().len() > MOST_FIELDS);
    crowded.then_some("more than 64 fields")
}

fn has_one_name_twice(record: &Record) -> Reason {
    let repeats = |(at, decl): (usize, &Decl)| record.position(&decl.name) != Some(at);
    record.decls.iter().enumerate().any(repeats).then_some("a name declared twice")
}

fn names_no_earlier_declaration(record: &Record) -> Reason {
    record.decls.iter().enumerate().find_map(|(at, decl)| {
        let earlier = &record.decls[..at];
        let of_parent = || bad_parent(earlier, decl);
        let of_types = || decl.fields().iter().find_map(|field| bad_type(earlier, field));
        of_parent().or_else(of_types)
    })
}

fn bad_parent(earlier: &[Decl], decl: &Decl) -> Reason {
    let parent = decl.block()?.parent.as_ref()?;
    match earlier.iter().find(|other| other.name == *parent) {
        None => Some("a parent not declared earlier"),
        Some(found) if found.block().is_none() => Some("a parent that is no packet or struct"),
        Some(_) => None,
    }
}

fn bad_type(earlier: &[Decl], field: &Field) -> Reason {
    let is_fixed = matches!(field.desc, FieldDesc::FixedEnum { .. });
    let type_ = type_name(field)?;
    match earlier.iter().find(|other| other.name == *type_) {
        None => Some("a type not declared earlier"),
        Some(found) if is_fixed && !found.is_enum() => Some("a fixed enum of another kind"),
        Some(_) => None,
    }
}

fn type_name(field: &Field) -> Option<&str> {
    match &field.desc {
        FieldDesc::Typedef { type_, .. }
        | FieldDesc::FixedEnum { type_, .. }
        | FieldDesc::Array { element: Element::Type(type_), .. } => Some(type_),
        _ => None,
    }
}

fn has_a_number_outside_its_range(record: &Record) -> Reason {
    record.decls.iter().find_map(|decl| {
        let of_fields = || decl.fields().iter().find_map(bad_field_number);
        bad_decl_number(decl).or_else(of_fields)
    })
}

fn bad_decl_number(decl: &Decl) -> Reason {
    match decl.desc {
        DeclDesc::Enum { width, .. } | DeclDesc::Checksum { width } => bad_width(width),
        DeclDesc::Custom { width: Some(width) } => {
            (!(1..=4_096).contains(&width)).then_some("a custom width outside 1 to 4,096")
        }
        DeclDesc::Custom { width: None } | DeclDesc::Packet(_) | DeclDesc::Struct(_) => None,
    }
}

fn bad_field_number(field: &Field) -> Reason {
    match &field.desc {
        FieldDesc::Scalar { width, .. }
        | FieldDesc::Size { width, .. }
        | FieldDesc::Count { width, .. }
        | FieldDesc::ElemSize { width, .. }
        | FieldDesc::Fixed { width, .. }
        | FieldDesc::Reserved { width } => bad_width(*width),
        FieldDesc::Array { element, modifier, count, .. } => {
            let of_width = match element {
                Element::Width(width) => bad_width(*width),
                Element::Type(_) => None,
            };
            of_width.or_else(|| bad_modifier(modifier)).or_else(|| bad_count(*count))
        }
        FieldDesc::Payload { modifier } => bad_modifier(modifier),
        FieldDesc::Padding { bytes } => (*bytes > 65_535).then_some("a padding above 65,535"),
        FieldDesc::FixedEnum { .. }
        | FieldDesc::Flag { .. }
        | FieldDesc::Typedef { .. }
        | FieldDesc::Body
        | FieldDesc::Checksum { .. } => None,
    }
}

fn bad_width(width: u64) -> Reason {
    (!(1..=64).contains(&width)).then_some("a width outside 1 to 64")
}

fn bad_modifier(modifier: &Option<Modifier>) -> Reason {
    let above = |modifier: &Modifier| modifier.number > 65_535;
    modifier.as_ref().is_some_and(above).then_some("a mod above 65,535")
}

fn bad_count(count: Option<u64>) -> Reason {
    count.is_some_and(|count| count > 65_535).then_some("a count above 65,535")
}

fn exceeds_the_largest_size(tables: &Tables) -> Reason {
    tables.0.iter().find_map(too_large)
}

fn too_large(sizes: &DeclSizes) -> Reason {
    let exceeds = |size: &Size| size.bits().is_some_and(|bits| bits > MOST_BITS);
    let entries = [
        (sizes.fields.iter().any(exceeds), "a field's size"),
        (exceeds(&sizes.decl), "a declaration's size"),
        (exceeds(&sizes.parent), "a parent's size"),
        (exceeds(&sizes.payload), "a payload's size"),
        (sizes.padded.iter().flatten().any(|bits| *bits > MOST_BITS), "a padded size"),
        (exceeds(&sizes.total()), "a total size"),
        (exceeds(&sizes.static_sum()), "a sum of static field sizes"),
    ];
    entries.into_iter().find_map(|(exceeded, entry)| exceeded.then_some(entry))
}

fn has_parts_of_no_whole_octets(record: &Record, tables: &Tables) -> Reason {
    let mut fields = record.decls.iter().flat_map(Decl::fields);
    fields.find_map(|field| bad_element(record, tables, field).or_else(|| bad_optional(record, field)))
}

fn bad_element(record: &Record, tables: &Tables, field: &Field) -> Reason {
    let size = match &field.desc {
        FieldDesc::Array { element: Element::Width(width), .. } => Size::Static((*width).into()),
        FieldDesc::Array { element: Element::Type(type_), .. } => tables.total(record, type_),
        _ => return None,
    };
    match size.bits() {
        Some(0) => Some("an element of size 0"),
        Some(bits) if bits % 8 != 0 => Some("an element of no whole octets"),
        _ => None,
    }
}

fn bad_optional(record: &Record, field: &Field) -> Reason {
    field.cond.as_ref()?;
    match &field.desc {
        FieldDesc::Scalar { width, .. } => {
            (width % 8 != 0).then_some("an optional scalar of no whole octets")
        }
        FieldDesc::Typedef { type_, .. } => match record.find(type_)?.desc {
            DeclDesc::Enum { width, .. } => (width % 8 != 0).then_some("an optional enum of no whole octets"),
            _ => None,
        },
        _ => None,
    }
}

/// By the entries decl_size: without parents and payload, with the padded sizes.
fn misstates_a_size(record: &Record, tables: &Tables) -> Reason {
    let entries = record.decls.iter().zip(&tables.0);
    entries.filter_map(|(decl, sizes)| Some((decl.stated()?, sizes.decl))).find_map(wrong_size)
}

fn wrong_size((stated, own): (Stated, Size)) -> Reason {
    match (stated, own) {
        (Stated::Bits(number), Size::Static(bits)) => {
            (u128::from(number) != bits).then_some("a number for another")
        }
        (Stated::Bits(_), Size::Dynamic) => Some("a number for dynamic"),
        (Stated::Bits(_), Size::Unknown) => Some("a number for unknown"),
        (Stated::Dynamic, Size::Static(_)) => Some("dynamic for a number"),
        (Stated::Dynamic, Size::Unknown) => Some("dynamic for unknown"),
        (Stated::Unknown, Size::Static(_)) => Some("unknown for a number"),
        (Stated::Unknown, Size::Dynamic) => Some("unknown for dynamic"),
        (Stated::Dynamic, Size::Dynamic) | (Stated::Unknown, Size::Unknown) => None,
    }
}

fn has_no_target(record: &Record) -> Reason {
    match record.find(&record.target) {
        None => Some("a target that is not declared"),
        Some(decl) if decl.block().is_none() => Some("a target that is no packet or struct"),
        Some(_) => None,
    }
}
