//! Stands for the module backends::common: the two tests of an enum's tags.
//! `published.rs` builds the tags so that the tests answer as the record's marks say.

use crate::ast::Tag;

pub fn is_open_enum(tags: &[Tag]) -> bool {
    tags.iter().any(|tag| matches!(tag, Tag::Other(_)))
}

pub fn is_complete_enum(tags: &[Tag], max: usize) -> bool {
    tags.iter().any(|tag| matches!(tag, Tag::Range(all) if all.range == (0..=max)))
}
