//! The port beside the published Rust: number, length, each byte of the lines, and the bytes
//! behind them, which must stay as they were. Also with buffers that are just large enough, one
//! byte short, and empty. So for one target, by `lower`, and for all of a record, by `lower_all`;
//! and `lower_all` beside the port's own `lower`, called for each target.

use crate::answer::{self, Answer, BUFFER};
use crate::port;
use crate::record::Record;
use crate::sections::{self, retargeted, Section, Sections, LONGEST};
use std::fmt;

/// The largest buffer that is lent: it holds the sections of any record, 32 of the longest, with names of 32 bytes.
const ROOM: usize = 32 * ("// target=\n".len() + 32 + LONGEST);

/// Bytes watched behind the lent buffer.
const BEHIND: usize = 64;

type Call = fn(&[u8], &mut [u8]) -> (u64, usize);

#[derive(Default)]
pub struct Counts {
    /// Records given to `lower_all`, and sections of those that it accepts.
    pub wholes: u64,
    pub sections: u64,
    /// Single calls of `lower` that were joined; and targets whose record is too long for one.
    pub calls: u64,
    pub too_long: u64,
}

impl fmt::Display for Counts {
    fn fmt(&self, output: &mut fmt::Formatter) -> fmt::Result {
        let Counts { wholes, sections, calls, too_long } = self;
        writeln!(output, "{wholes:>9} records through lower_all, {sections} sections")?;
        writeln!(
            output,
            "{calls:>9} single calls beside them, {too_long} targets whose name makes the record too long"
        )
    }
}

pub struct Comparison {
    /// What each byte holds before the port is called.
    before: Vec<u8>,
    output: Vec<u8>,
    pub counts: Counts,
}

impl Comparison {
    pub fn new() -> Comparison {
        let before: Vec<u8> = (0..ROOM + BEHIND).map(|at| (at % 251) as u8 ^ 0xa5).collect();
        Comparison { output: before.clone(), before, counts: Counts::default() }
    }

    /// What the port gets wrong about one record, if anything.
    pub fn difference(&mut self, record: &[u8], answer: &Answer) -> Option<String> {
        self.difference_in_each_buffer(port::call, record, answer)
    }

    /// What its `lower_all` gets wrong, if anything.
    pub fn difference_of_all(&mut self, record: &[u8], sections: &Sections) -> Option<String> {
        self.counts.wholes += 1;
        self.counts.sections += sections.as_ref().map_or(0, Vec::len) as u64;
        let whole = sections::whole(sections);
        let wrong = self
            .difference_in_each_buffer(port::call_all, record, &whole)
            .map(|wrong| format!("{wrong}{}", place_in(sections, &self.output)))
            .or_else(|| self.difference_of_calls(record, sections));
        wrong.map(|wrong| format!("all targets, {wrong}"))
    }

    fn difference_in_each_buffer(&mut self, call: Call, record: &[u8], answer: &Answer) -> Option<String> {
        let length = answer.as_ref().map_or(0, Vec::len);
        let buffers = [Some(BUFFER), Some(length), length.checked_sub(1), Some(0)];
        buffers.into_iter().flatten().find_map(|buffer| {
            let wrong = self.difference_within(call, buffer, record, answer)?;
            Some(format!("buffer of {buffer} bytes: {wrong}"))
        })
    }

    fn difference_within(
        &mut self,
        call: Call,
        buffer: usize,
        record: &[u8],
        answer: &Answer,
    ) -> Option<String> {
        let (number, lines) = answer::within(buffer, answer);
        let watched = buffer + BEHIND;
        self.output[..watched].copy_from_slice(&self.before[..watched]);
        let got = call(record, &mut self.output[..buffer]);
        if got != (number.into(), lines.len()) {
            let (got_number, got_length) = got;
            return Some(format!(
                "answer {got_number} and length {got_length}, not {number} and {}",
                lines.len()
            ));
        }
        let (written, unwritten) = self.output[..watched].split_at(lines.len());
        let left = &self.before[lines.len()..watched];
        if written == lines && unwritten == left {
            return None;
        }
        let expected = || lines.iter().chain(left);
        let wrong = self.output[..watched].iter().zip(expected()).position(|(got, due)| got != due)?;
        Some(format!("byte {wrong} is {}, not {:?}", self.output[wrong], expected().nth(wrong)?))
    }

    /// Beside single calls of the port for each target, joined: the same sections up to the first that is refused, by the
    /// same number. A record that is refused before any target is so in a single call too. Where another name makes the record
    /// longer than 16,384 bytes, no call can be asked.
    fn difference_of_calls(&mut self, record: &[u8], sections: &Sections) -> Option<String> {
        let due = match sections {
            Err(turned) if turned.behind.is_none() => {
                let (got, due) = (port::call(record, &mut self.output[..BUFFER]).0, turned.refusal.number);
                return (got != due.into()).then(|| format!("a single call answers {got}, not {due}"));
            }
            due => due,
        };
        let record_read = Record::read(record).expect("it passed refusal 2");
        for (at, target) in record_read.targets().enumerate() {
            let asked = retargeted(record, &target.name);
            if asked.len() > 16_384 {
                self.counts.too_long += 1;
                continue;
            }
            self.counts.calls += 1;
            let (number, length) = port::call(&asked, &mut self.output[..BUFFER]);
            let number = if number == 0 && length > LONGEST { 19 } else { number };
            let wrong = match due {
                Ok(sections) => number != 0 || self.output[..length] != sections[at].lines,
                Err(turned) if turned.behind == Some(at) => number != turned.refusal.number.into(),
                Err(_) => number != 0,
            };
            if wrong {
                return Some(format!("a single call for {} differs: {number}, {length} bytes", target.name));
            }
            if due.as_ref().is_err_and(|turned| turned.behind == Some(at)) {
                return None;
            }
        }
        None
    }
}

/// The first target whose section is not in the output.
fn place_in(sections: &Sections, output: &[u8]) -> String {
    let mut left = output;
    for text in sections.iter().flatten().map(Section::text) {
        match left.strip_prefix(&text[..]) {
            Some(rest) => left = rest,
            None => {
                return format!(", in {}", String::from_utf8_lossy(&text).lines().next().unwrap_or_default())
            }
        }
    }
    String::new()
}
