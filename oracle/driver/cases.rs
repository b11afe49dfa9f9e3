//! The stored form of cases. Each is a line `ANSWER RECORD_LENGTH LINES_LENGTH`, then the
//! record's bytes, then the bytes of its lines (none where it is refused).

use crate::answer::{self, Answer};
use std::io::{self, BufRead, Read, Write};

pub struct Case {
    pub record: Vec<u8>,
    pub number: u8,
    pub lines: Vec<u8>,
}

impl Case {
    pub fn new(record: Vec<u8>, answer: &Answer) -> Case {
        let (number, lines) = answer::within(answer::BUFFER, answer);
        Case { number, lines: lines.to_vec(), record }
    }

    pub fn write(&self, output: &mut impl Write) -> io::Result<()> {
        writeln!(output, "{} {} {}", self.number, self.record.len(), self.lines.len())?;
        output.write_all(&self.record)?;
        output.write_all(&self.lines)
    }

    /// The next case, or none at the end.
    pub fn read(input: &mut impl BufRead) -> io::Result<Option<Case>> {
        let mut header = String::new();
        if input.read_line(&mut header)? == 0 {
            return Ok(None);
        }
        let numbers: Vec<usize> = header.trim_end().split(' ').map_while(|word| word.parse().ok()).collect();
        let [number, record, lines] = numbers[..] else {
            return Err(io::Error::other(format!("no header of a case: {header:?}")));
        };
        let number = u8::try_from(number).map_err(io::Error::other)?;
        Ok(Some(Case { record: take(input, record)?, number, lines: take(input, lines)? }))
    }
}

fn take(input: &mut impl Read, length: usize) -> io::Result<Vec<u8>> {
    let mut bytes = vec![0; length];
    input.read_exact(&mut bytes)?;
    Ok(bytes)
}
