//! Asks the published `FieldParser`. It is private to cxx.rs, so the build appends this module
//! to a copy of that file, as its child; and to cxx_padded.rs, which is used for `trailing=padded`.

use super::FieldParser;
use crate::analyzer::{Schema, Scope};
use crate::ast;
use crate::panics::{listen, Panic};
use crate::record::Arrays;

fn new<'a>(
    scope: &'a Scope<'a>,
    schema: &'a Schema,
    arrays: Arrays,
    target: &'a ast::Decl,
) -> FieldParser<'a> {
    let (prefix, extract_arrays) = match arrays {
        Arrays::Lite => ("", false),
        Arrays::Full => ("output->", true),
    };
    let endian = scope.file.endianness.value;
    let mut parser = FieldParser::new(scope, schema, endian, prefix, extract_arrays, target);
    let conditions = target.fields().filter_map(|field| field.cond.as_ref());
    parser.is_cond_for = conditions.map(|cond| cond.id.clone()).collect();
    parser
}

/// The lines of a record that answers 0, for timing: nothing listens for a panic.
pub fn accepted_lines(
    scope: &Scope,
    schema: &Schema,
    arrays: Arrays,
    target: &ast::Decl,
) -> Vec<String> {
    let mut parser = new(scope, schema, arrays, target);
    target.fields().for_each(|field| parser.parse(field));
    parser.done();
    parser.code
}

/// `new`, `parse` for each field of the target in order, and `done`.
pub fn lines(
    scope: &Scope,
    schema: &Schema,
    arrays: Arrays,
    target: &ast::Decl,
) -> Result<Vec<String>, Panic> {
    let mut parser = new(scope, schema, arrays, target);
    let mut at = 0;
    let parse_all = || {
        for field in target.fields() {
            parser.parse(field);
            at += 1;
        }
        parser.done();
    };
    match listen(parse_all) {
        Ok(()) => Ok(parser.code),
        Err(message) => Err(Panic { at, message }),
    }
}
