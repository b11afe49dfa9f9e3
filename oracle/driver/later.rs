//! What a later field counts in a trailing size with `trailing=padded`, written from document 02 (Card 3). The
//! build puts it in place of the published `field_size` in `get_trailing_size` of cxx_padded.rs.

use crate::analyzer::{Schema, Size};
use crate::ast;

/// An array with a padding and no condition is Static with its padded size; any other field counts as published.
pub fn size(schema: &Schema, field: &ast::Field) -> Size {
    match (&field.desc, &field.cond, schema.padded_size(field.key)) {
        (ast::FieldDesc::Array { .. }, None, Some(bits)) => Size::Static(bits),
        _ => schema.field_size(field.key),
    }
}
