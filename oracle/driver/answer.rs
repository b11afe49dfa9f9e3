//! The answer to any byte string: our refusals 1 to 9, 16 and 17, then what the published Rust gives; for
//! `trailing=padded` what it gives where later arrays count as document 02 (Card 3) says, for
//! `raw=numbered` what it gives with the numbers of Card 7 in it, and for `products=divide` with the
//! divisions of Card 8.

use crate::analyzer::{Schema, Scope};
use crate::ast;
use crate::backends::{cxx, cxx_padded};
use crate::divided;
use crate::numbered;
use crate::panics::Panic;
use crate::published;
use crate::record::{Decl, Products, Raw, Record, Trailing};
use crate::refusals::{self, Refusal};
use crate::sizes::Tables;

/// What the program `lower` lends.
pub const BUFFER: usize = 65_536;

/// The lines as bytes, each with its newline, or the first of refusals 1 to 14, 16 and 17.
pub type Answer = Result<Vec<u8>, Refusal>;

/// The answer; on the way our tables of sizes are checked against the published ones.
pub fn answer(bytes: &[u8]) -> Answer {
    lines_of(&refusals::of_the_text(bytes)?)
}

/// The same without refusal 16: the published Rust prints names that C++ keeps for itself.
pub fn with_any_name(bytes: &[u8]) -> Answer {
    let record = refusals::of_the_form(bytes)?;
    refusals::of_the_declarations(&record)?;
    lines_of(&record)
}

/// From refusal 7 on.
pub fn lines_of(record: &Record) -> Answer {
    let file = published::file(record);
    let passed = Passed::new(record, &file)?;
    passed.lines(record.find(&record.target).expect("refusal 9 lets only declared targets pass"))
}

/// A record past refusals 1 to 9, 16 and 17, with what the published code makes of its file once for all targets.
pub struct Passed<'a> {
    record: &'a Record,
    scope: Scope<'a>,
    schema: Schema,
}

impl<'a> Passed<'a> {
    /// From refusal 7 on.
    pub fn new(record: &'a Record, file: &'a ast::File) -> Result<Passed<'a>, Refusal> {
        let tables = Tables::new(record);
        refusals::of_the_sizes(&tables)?;

        let scope = Scope::new(file).expect("refusal 4 lets no name pass twice");
        let schema = Schema::new(file);
        published::assert_equal_tables(file, &schema, &tables);

        refusals::of_the_target(record, &tables)?;
        Ok(Passed { record, scope, schema })
    }

    /// The lines of one of its packets and structs, or a refusal 10 to 14.
    pub fn lines(&self, target: &Decl) -> Answer {
        let lines = match self.record.trailing {
            None | Some(Trailing::Plain) => cxx::field_parser::lines,
            Some(Trailing::Padded) => cxx_padded::field_parser::lines,
        };
        match lines(&self.scope, &self.schema, self.record.arrays, self.scope.typedef[&target.name]) {
            Ok(code) => Ok(joined(&self.with_divisions(target, self.with_numbers(target, code)))),
            Err(panic) => Err(of_panic(target, panic)),
        }
    }

    fn with_numbers(&self, target: &Decl, plain: Vec<String>) -> Vec<String> {
        match self.record.raw {
            None | Some(Raw::Plain) => plain,
            Some(Raw::Numbered) => numbered::lines(self.record, target, &plain),
        }
    }

    fn with_divisions(&self, target: &Decl, plain: Vec<String>) -> Vec<String> {
        match self.record.products {
            None | Some(Products::Plain) => plain,
            Some(Products::Divide) => divided::lines(self.record, target, &plain),
        }
    }
}

/// The number and the lines for a buffer of this length: here refusal 15 comes in.
pub fn within(buffer: usize, answer: &Answer) -> (u8, &[u8]) {
    match answer {
        Ok(lines) if lines.len() > buffer => (15, &[]),
        Ok(lines) => (0, lines),
        Err(refusal) => (refusal.number, &[]),
    }
}

fn joined(code: &[String]) -> Vec<u8> {
    code.iter().fold(String::new(), |text, line| text + line + "\n").into_bytes()
}

/// Refusals 10 to 14: the panics of the published Rust, known by their messages.
fn of_panic(target: &Decl, panic: Panic) -> Refusal {
    let numbers = [
        ("assertion failed: self.unchecked_code.is_empty()", 10),
        ("assertion failed: self.chunk.is_empty()", 10),
        ("Typedef field does not start on an octet boundary", 11),
        ("Payload field does not start on an octet boundary", 11),
        ("PDL type does not fit on non-extended scalar types: ", 12),
        ("Unsupported optional field type", 13),
        ("Multiple unknown size fields in ", 14),
    ];
    let known = numbers.iter().find(|(message, _)| panic.message.starts_with(message));
    let Some((_, number)) = known else {
        panic!("the published Rust panics with an unknown message: {}", panic.message);
    };
    let field = target.fields().get(panic.at);
    let place = field.map_or("the end", |field| field.desc.kind());
    Refusal { number: *number, because: format!("at {place}") }
}
