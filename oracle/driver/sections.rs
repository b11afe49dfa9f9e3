//! What `lower_all` answers, written from document 02 (Card 13): refusals 1 to 9, 16 and 17 as for one target, then
//! each packet and struct in file order, by the published Rust; a line with its name, and its lines. A refused target
//! refuses the file. The record is read once, and `Scope` and `Schema` are made once, as the published generator does.

use crate::answer::{Answer, Passed};
use crate::published;
use crate::record::Decl;
use crate::refusals::{self, Refusal};

/// The most bytes that the lines of a section may have; more are refusal 19.
pub const LONGEST: usize = 8_192;

/// A target's part of the output.
pub struct Section {
    pub name: String,
    pub lines: Vec<u8>,
}

/// The refusal, and how many targets passed before; none where it comes before all of them.
pub struct Turned {
    pub refusal: Refusal,
    pub behind: Option<usize>,
}

/// All sections, or the first refusal that is met, 15 apart.
pub type Sections = Result<Vec<Section>, Turned>;

pub fn sections(bytes: &[u8]) -> Sections {
    let at_once = |refusal| Turned { refusal, behind: None };
    let record = refusals::of_the_text(bytes).map_err(at_once)?;
    let file = published::file(&record);
    let passed = Passed::new(&record, &file).map_err(at_once)?;
    let each =
        |(at, target)| section(&passed, target).map_err(|refusal| Turned { refusal, behind: Some(at) });
    record.targets().enumerate().map(each).collect()
}

/// Refusals 10 to 14, then 19.
fn section(passed: &Passed, target: &Decl) -> Result<Section, Refusal> {
    let lines = passed.lines(target)?;
    if lines.len() > LONGEST {
        return Err(Refusal { number: 19, because: "a section of more than 8,192 bytes".to_string() });
    }
    Ok(Section { name: target.name.clone(), lines })
}

impl Section {
    pub fn text(&self) -> Vec<u8> {
        [format!("// target={}\n", self.name).as_bytes(), &self.lines].concat()
    }
}

/// The sections joined; `answer::within` tests 15 on them.
pub fn whole(sections: &Sections) -> Answer {
    match sections {
        Ok(sections) => Ok(sections.iter().flat_map(Section::text).collect()),
        Err(turned) => Err(turned.refusal.clone()),
    }
}

/// The record with another name in its second line.
pub fn retargeted(record: &[u8], name: &str) -> Vec<u8> {
    let mut lines = record.splitn(3, |byte| *byte == b'\n');
    let (endian, _, rest) = (lines.next(), lines.next(), lines.next());
    let target = format!("target={name}");
    [endian.expect("a line"), target.as_bytes(), rest.expect("two lines more")].join(&b'\n')
}
