//! The quickest way from an accepted record to the published types, for timing: it tests nothing. The timed
//! records have no line `trailing`, `raw` or `products`.

use crate::analyzer::{Schema, Scope};
use crate::ast;
use crate::backends::cxx::field_parser;
use crate::published::{loc, tags};
use crate::record::Arrays;
use std::str::Split;

/// The lines of a record that answers 0, joined.
pub fn lines(record: &[u8]) -> Vec<u8> {
    let read = Read::new(record);
    let scope = Scope::new(&read.file).expect("accepted");
    let schema = Schema::new(&read.file);
    let code = field_parser::accepted_lines(&scope, &schema, read.arrays, scope.typedef[read.target]);
    let mut joined = String::with_capacity(code.iter().map(|line| line.len() + 1).sum());
    push_lines(&mut joined, &code);
    joined.into_bytes()
}

/// The sections of a record all of whose targets are accepted, joined: it is read once.
pub fn sections(record: &[u8]) -> Vec<u8> {
    let read = Read::new(record);
    let scope = Scope::new(&read.file).expect("accepted");
    let schema = Schema::new(&read.file);
    let mut joined = String::new();
    for decl in &read.file.declarations {
        if let ast::DeclDesc::Packet { id, .. } | ast::DeclDesc::Struct { id, .. } = &decl.desc {
            joined.push_str("// target=");
            push_lines(&mut joined, std::slice::from_ref(id));
            push_lines(&mut joined, &field_parser::accepted_lines(&scope, &schema, read.arrays, decl));
        }
    }
    joined.into_bytes()
}

fn push_lines(joined: &mut String, lines: &[String]) {
    for line in lines {
        joined.push_str(line);
        joined.push('\n');
    }
}

/// A record as the published types.
struct Read<'a> {
    target: &'a str,
    arrays: Arrays,
    file: ast::File,
}

impl<'a> Read<'a> {
    fn new(record: &'a [u8]) -> Read<'a> {
        let mut values = Values::new(record);
        let little = values.next() == "little";
        let target = values.next();
        let arrays = if values.next() == "lite" { Arrays::Lite } else { Arrays::Full };

        let mut file = ast::File::new(0);
        if !little {
            file.endianness.value = ast::EndiannessValue::BigEndian;
        }
        let mut keys = 0;
        while let Some(kind) = values.kind() {
            let key = ast::DeclKey(file.declarations.len());
            let desc = decl(kind, &mut values, &mut keys);
            file.declarations.push(ast::Decl { loc: loc(), key, desc });
        }
        Read { target, arrays, file }
    }
}

/// The values of the lines that are not yet read.
struct Values<'a> {
    lines: Split<'a, char>,
    ahead: Option<&'a str>,
}

impl<'a> Values<'a> {
    fn new(record: &'a [u8]) -> Self {
        let text = std::str::from_utf8(record).expect("accepted");
        let mut lines = text.strip_suffix('\n').expect("accepted").split('\n');
        let ahead = lines.next();
        Values { lines, ahead }
    }

    fn next(&mut self) -> &'a str {
        let line = self.ahead.expect("accepted");
        self.ahead = self.lines.next();
        &line[line.find('=').expect("accepted") + 1..]
    }

    fn text(&mut self) -> String {
        self.next().to_string()
    }

    fn number(&mut self) -> usize {
        self.next().parse().expect("accepted")
    }

    fn optional_text(&mut self) -> Option<String> {
        Some(self.next()).filter(|value| *value != "-").map(str::to_string)
    }

    fn optional_number(&mut self) -> Option<usize> {
        Some(self.next()).filter(|value| *value != "-").map(|value| value.parse().expect("accepted"))
    }

    fn kind(&mut self) -> Option<&'a str> {
        self.ahead.map(|_| self.next())
    }

    fn is(&self, key: &str) -> bool {
        self.ahead.is_some_and(|line| line.starts_with(key))
    }
}

fn decl(kind: &str, values: &mut Values, keys: &mut usize) -> ast::DeclDesc {
    let id = values.text();
    let (function, constraints) = (String::new(), Vec::new());
    match kind {
        "enum" => {
            let width = values.number();
            let (open, complete) = (values.next() == "1", values.next() == "1");
            ast::DeclDesc::Enum { id, tags: tags(width as u64, open, complete), width }
        }
        "checksum" => ast::DeclDesc::Checksum { id, function, width: values.number() },
        "custom" => ast::DeclDesc::CustomField { id, function, width: values.optional_number() },
        _ => {
            let parent_id = values.optional_text();
            if values.is("bits=") {
                values.next();
            }
            let mut fields = Vec::new();
            while values.is("field=") {
                fields.push(field(values, *keys));
                *keys += 1;
            }
            match kind {
                "packet" => ast::DeclDesc::Packet { id, constraints, fields, parent_id },
                _ => ast::DeclDesc::Struct { id, constraints, fields, parent_id },
            }
        }
    }
}

fn field(values: &mut Values, key: usize) -> ast::Field {
    let desc = match values.next() {
        "scalar" => ast::FieldDesc::Scalar { id: values.text(), width: values.number() },
        "size" => ast::FieldDesc::Size { field_id: values.text(), width: values.number() },
        "count" => ast::FieldDesc::Count { field_id: values.text(), width: values.number() },
        "elemsize" => ast::FieldDesc::ElementSize { field_id: values.text(), width: values.number() },
        "fixed" => ast::FieldDesc::FixedScalar { width: values.number(), value: values.number() },
        "fixedenum" => ast::FieldDesc::FixedEnum { enum_id: values.text(), tag_id: values.text() },
        "reserved" => ast::FieldDesc::Reserved { width: values.number() },
        "flag" => ast::FieldDesc::Flag { id: values.text(), optional_field_ids: Vec::new() },
        "typedef" => ast::FieldDesc::Typedef { id: values.text(), type_id: values.text() },
        "array" => ast::FieldDesc::Array {
            id: values.text(),
            width: values.optional_number(),
            type_id: values.optional_text(),
            size_modifier: values.optional_text(),
            size: values.optional_number(),
        },
        "payload" => ast::FieldDesc::Payload { size_modifier: values.optional_text() },
        "body" => ast::FieldDesc::Body,
        "padding" => ast::FieldDesc::Padding { size: values.number() },
        _ => ast::FieldDesc::Checksum { field_id: values.text() },
    };
    let cond = values.optional_text().map(|id| ast::Constraint {
        id,
        loc: loc(),
        value: Some(values.number()),
        tag_id: None,
    });
    ast::Field { loc: loc(), key: ast::FieldKey(key), desc, cond }
}
