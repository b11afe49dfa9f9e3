//! The lines of `raw=numbered`, written from document 02 (Card 7): those of the record as if plain, with its number
//! behind each `raw_value` of a bit field, counted from 0 through the target.

use crate::record::{Arrays, Decl, DeclDesc, FieldDesc, Record};

/// A bit field's declaration is the only line without an indent that begins so.
const DECLARED: &str = "auto raw_value = ";
const REFUSED: [&str; 2] = ["   return false;", "}"];

/// Behind the declaration stand its test and the conversion. Fails loudly where these have another form, or are not
/// those of the target's next tested enum.
pub fn lines(record: &Record, target: &Decl, plain: &[String]) -> Vec<String> {
    let prefix = match record.arrays {
        Arrays::Lite => "",
        Arrays::Full => "output->",
    };
    let mut numbered = plain.to_vec();
    let declarations =
        plain.iter().enumerate().filter_map(|(at, line)| Some((at, line.strip_prefix(DECLARED)?)));
    let mut fields = tested(record, target).into_iter();
    for (number, (at, value)) in declarations.enumerate() {
        let (id, type_) = fields.next().expect("a declaration is of a tested enum");
        let block = |raw: &str| {
            let [refused, closed] = REFUSED.map(str::to_string);
            let test = format!("if (!IsValid{type_}({raw})) {{");
            [
                format!("auto {raw} = {value}"),
                test,
                refused,
                closed,
                format!("{prefix}{id}_ = {type_}({raw});"),
            ]
        };
        let written = &mut numbered[at..at + 5];
        assert_eq!(*written, block("raw_value"), "no lines of a tested enum");
        written.clone_from_slice(&block(&format!("raw_value{number}")));
    }
    numbered
}

/// The id and type of each of the target's bit fields that is tested, in their order. The last ones have no lines where
/// their chunk is dropped.
pub fn tested<'a>(record: &Record, target: &'a Decl) -> Vec<(&'a str, &'a str)> {
    let typedefs = target.fields().iter().filter_map(|field| match (&field.desc, &field.cond) {
        (FieldDesc::Typedef { id, type_ }, None) => Some((&id[..], &type_[..])),
        _ => None,
    });
    typedefs.filter(|(_, type_)| is_tested(record, type_)).collect()
}

/// An enum that is neither open nor complete.
fn is_tested(record: &Record, type_: &str) -> bool {
    let is_closed = |decl: &Decl| matches!(decl.desc, DeclDesc::Enum { open: false, complete: false, .. });
    record.find(type_).is_some_and(is_closed)
}

/// The plain lines: without the digits in the declaration, the test and the conversion of each bit field.
pub fn without_numbers(lines: &str) -> String {
    let mut plain: Vec<String> = lines.lines().map(str::to_string).collect();
    let numbers = lines.lines().enumerate().filter_map(|(at, line)| Some((at, digits_of(line)?)));
    for (at, digits) in numbers {
        let raw = format!("raw_value{digits}");
        for (line, end) in [(at, " = "), (at + 1, ")) {"), (at + 4, ");")] {
            let place = plain[line].rfind(&format!("{raw}{end}")).expect("the number stands in three lines");
            plain[line].replace_range(place..place + raw.len(), "raw_value");
        }
    }
    plain.iter().map(|line| format!("{line}\n")).collect()
}

/// Of a bit field's declaration with a number. The elements of an array called `raw_value` are counted in
/// `auto raw_value_count_ = ..`.
pub fn digits_of(line: &str) -> Option<&str> {
    let (digits, _) = line.strip_prefix("auto raw_value")?.split_once(" = ")?;
    let is_number = !digits.is_empty() && digits.bytes().all(|byte| byte.is_ascii_digit());
    is_number.then_some(digits)
}
