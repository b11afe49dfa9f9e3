//! How many cases show each feature.

use crate::answer::Answer;
use crate::features::{features, of_all_targets};
use crate::sections::Sections;
use std::collections::BTreeMap;
use std::fmt;

#[derive(Default)]
pub struct Histogram {
    cases: u64,
    counts: BTreeMap<String, u64>,
}

impl Histogram {
    pub fn add(&mut self, record: &[u8], answer: &Answer) {
        self.cases += 1;
        for feature in features(record, answer) {
            *self.counts.entry(feature).or_default() += 1;
        }
    }

    /// What `lower_all` makes of a case that is added.
    pub fn add_all_targets(&mut self, sections: &Sections) {
        for feature in of_all_targets(sections) {
            *self.counts.entry(feature).or_default() += 1;
        }
    }

    /// Whether the case has a feature that fewer than `each` of those added show.
    pub fn shows_fewer_than(&self, each: u64, record: &[u8], answer: &Answer) -> bool {
        let count = |feature: &String| self.counts.get(feature).copied().unwrap_or(0);
        features(record, answer).iter().any(|feature| count(feature) < each)
    }
}

impl fmt::Display for Histogram {
    fn fmt(&self, output: &mut fmt::Formatter) -> fmt::Result {
        writeln!(output, "{:>9} cases", self.cases)?;
        self.counts.iter().try_for_each(|(feature, count)| writeln!(output, "{count:>9} {feature}"))
    }
}
