//! From a record to the published types of ast.rs, and the check that the published `Schema`
//! and our tables of sizes are equal.

use crate::analyzer::{self, Schema};
use crate::ast;
use crate::record::{Decl, DeclDesc, Element, Endian, Field, FieldDesc, Modifier, Record};
use crate::sizes::{Size, Tables};

/// The file that the record declares. Keys count fields and declarations in their order. Lines `bits`
/// have no part in it.
pub fn file(record: &Record) -> ast::File {
    let mut file = ast::File::new(0);
    file.endianness.value = match record.endian {
        Endian::Little => ast::EndiannessValue::LittleEndian,
        Endian::Big => ast::EndiannessValue::BigEndian,
    };
    let mut keys = 0..;
    for decl in &record.decls {
        let fields: Vec<_> = decl.fields().iter().zip(&mut keys).map(field_of).collect();
        let key = ast::DeclKey(file.declarations.len());
        file.declarations.push(ast::Decl { loc: loc(), key, desc: decl_of(decl, fields) });
    }
    file
}

pub fn loc() -> ast::SourceRange {
    ast::SourceRange::default()
}

fn decl_of(decl: &Decl, fields: Vec<ast::Field>) -> ast::DeclDesc {
    let id = decl.name.clone();
    let function = String::new();
    let constraints = Vec::new();
    match &decl.desc {
        DeclDesc::Packet(block) => {
            ast::DeclDesc::Packet { id, constraints, fields, parent_id: block.parent.clone() }
        }
        DeclDesc::Struct(block) => {
            ast::DeclDesc::Struct { id, constraints, fields, parent_id: block.parent.clone() }
        }
        DeclDesc::Enum { width, open, complete } => {
            ast::DeclDesc::Enum { id, tags: tags(*width, *open, *complete), width: *width as usize }
        }
        DeclDesc::Checksum { width } => ast::DeclDesc::Checksum { id, function, width: *width as usize },
        DeclDesc::Custom { width } => {
            ast::DeclDesc::CustomField { id, function, width: width.map(|bits| bits as usize) }
        }
    }
}

/// Tags for which the two tests of `backends::common` answer as the marks say.
pub fn tags(width: u64, open: bool, complete: bool) -> Vec<ast::Tag> {
    let largest = if width >= 64 { usize::MAX } else { (1 << width) - 1 };
    let id = String::new();
    let other = ast::Tag::Other(ast::TagOther { id: id.clone(), loc: loc() });
    let all = ast::Tag::Range(ast::TagRange { id, loc: loc(), range: 0..=largest, tags: vec![] });
    let wanted = [(open, other), (complete, all)];
    wanted.into_iter().filter_map(|(mark, tag)| mark.then_some(tag)).collect()
}

fn field_of((field, key): (&Field, usize)) -> ast::Field {
    let cond = field.cond.as_ref().map(|cond| ast::Constraint {
        id: cond.name.clone(),
        loc: loc(),
        value: Some(cond.is as usize),
        tag_id: None,
    });
    ast::Field { loc: loc(), key: ast::FieldKey(key), desc: desc_of(&field.desc), cond }
}

fn desc_of(desc: &FieldDesc) -> ast::FieldDesc {
    match desc {
        FieldDesc::Scalar { id, width } => ast::FieldDesc::Scalar { id: id.clone(), width: *width as usize },
        FieldDesc::Size { of, width } => {
            ast::FieldDesc::Size { field_id: of.clone(), width: *width as usize }
        }
        FieldDesc::Count { of, width } => {
            ast::FieldDesc::Count { field_id: of.clone(), width: *width as usize }
        }
        FieldDesc::ElemSize { of, width } => {
            ast::FieldDesc::ElementSize { field_id: of.clone(), width: *width as usize }
        }
        FieldDesc::Fixed { width, value } => {
            ast::FieldDesc::FixedScalar { width: *width as usize, value: *value as usize }
        }
        FieldDesc::FixedEnum { type_, tag } => {
            ast::FieldDesc::FixedEnum { enum_id: type_.clone(), tag_id: tag.clone() }
        }
        FieldDesc::Reserved { width } => ast::FieldDesc::Reserved { width: *width as usize },
        FieldDesc::Flag { id } => ast::FieldDesc::Flag { id: id.clone(), optional_field_ids: Vec::new() },
        FieldDesc::Typedef { id, type_ } => {
            ast::FieldDesc::Typedef { id: id.clone(), type_id: type_.clone() }
        }
        FieldDesc::Array { id, element, modifier, count } => ast::FieldDesc::Array {
            id: id.clone(),
            width: match element {
                Element::Width(width) => Some(*width as usize),
                Element::Type(_) => None,
            },
            type_id: match element {
                Element::Width(_) => None,
                Element::Type(type_) => Some(type_.clone()),
            },
            size_modifier: written(modifier),
            size: count.map(|count| count as usize),
        },
        FieldDesc::Payload { modifier } => ast::FieldDesc::Payload { size_modifier: written(modifier) },
        FieldDesc::Body => ast::FieldDesc::Body,
        FieldDesc::Padding { bytes } => ast::FieldDesc::Padding { size: *bytes as usize },
        FieldDesc::Checksum { of } => ast::FieldDesc::Checksum { field_id: of.clone() },
    }
}

fn written(modifier: &Option<Modifier>) -> Option<String> {
    modifier.as_ref().map(|modifier| format!("{}{}", modifier.sign, modifier.number))
}

/// Fails loudly where our tables and the published ones differ.
pub fn assert_equal_tables(file: &ast::File, schema: &Schema, tables: &Tables) {
    for (decl, ours) in file.declarations.iter().zip(&tables.0) {
        let name = decl.id();
        assert_eq!(theirs(schema.decl_size(decl.key)), ours.decl, "decl_size of {name:?}");
        assert_eq!(theirs(schema.parent_size(decl.key)), ours.parent, "parent_size of {name:?}");
        assert_eq!(theirs(schema.payload_size(decl.key)), ours.payload, "payload_size of {name:?}");
        assert_eq!(theirs(schema.total_size(decl.key)), ours.total(), "total_size of {name:?}");
        for (at, field) in decl.fields().enumerate() {
            let place = (name, at);
            assert_eq!(theirs(schema.field_size(field.key)), ours.fields[at], "field_size at {place:?}");
            let padded = schema.padded_size(field.key).map(|bits| bits as u128);
            assert_eq!(padded, ours.padded[at], "padded_size at {place:?}");
        }
    }
}

fn theirs(size: analyzer::Size) -> Size {
    match size {
        analyzer::Size::Static(bits) => Size::Static(bits as u128),
        analyzer::Size::Dynamic => Size::Dynamic,
        analyzer::Size::Unknown => Size::Unknown,
    }
}
