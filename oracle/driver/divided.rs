//! The lines of `products=divide`, written from document 02 (Card 8): those of the record as if plain, with a division in
//! place of each size check on A * B, A the element size of an array, and B its count variable or, behind a variable A, its
//! fixed count.

use crate::record::{Arrays, Decl, FieldDesc, Record};

/// Only a check compares with a product: the bounds of loops, and the amounts of skips and subranges, do not. Fails loudly
/// where such a line has another form, or is not one of the target's next array that has one.
pub fn lines(record: &Record, target: &Decl, plain: &[String]) -> Vec<String> {
    let prefix = match record.arrays {
        Arrays::Lite => "",
        Arrays::Full => "output->",
    };
    let mut arrays = arrays(target).into_iter();
    let divided = |line: &String| {
        let (Some(at), Some(_)) = (line.find(" < "), line.find(" * ")) else {
            return line.clone();
        };
        let factors = line.strip_prefix("if (span.size() < ").and_then(|line| line.strip_suffix(") {"));
        let (size, count) =
            factors.and_then(|factors| factors.split_once(" * ")).expect("a check on a product");
        assert!(line.rfind(" < ") == Some(at), "compares twice: {line}");
        let is_of = |id: &str| {
            let (by_variable, counted) =
                (format!("{prefix}{id}_element_size_"), format!("{prefix}{id}_count_"));
            match (is_number(size), is_number(count)) {
                (true, is_fixed) => !is_fixed && size != "0" && count == counted,
                (false, is_fixed) => size == by_variable && (is_fixed || count == counted),
            }
        };
        assert!(arrays.any(is_of), "no array has this check: {line}");
        format!("if ({size} != 0 && span.size() / {size} < {count}) {{")
    };
    plain.iter().map(divided).collect()
}

fn is_number(factor: &str) -> bool {
    factor.bytes().all(|byte| byte.is_ascii_digit())
}

/// The ids of the target's arrays, in their order.
fn arrays(target: &Decl) -> Vec<&str> {
    let ids = target.fields().iter().filter_map(|field| match &field.desc {
        FieldDesc::Array { id, .. } => Some(&id[..]),
        _ => None,
    });
    ids.collect()
}

/// The element size and the count of a check by a division.
pub fn factors(line: &str) -> Option<(&str, &str)> {
    let (size, rest) = line.strip_prefix("if (")?.split_once(" != 0 && span.size() / ")?;
    let (again, count) = rest.strip_suffix(") {")?.split_once(" < ")?;
    (size == again).then_some((size, count))
}

/// The plain lines: a product again in each check by a division.
pub fn undivided(lines: &str) -> String {
    let plain = |line: &str| match factors(line) {
        Some((size, count)) => format!("if (span.size() < {size} * {count}) {{\n"),
        None => format!("{line}\n"),
    };
    lines.lines().map(plain).collect()
}
