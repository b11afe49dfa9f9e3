//! Words of C++ as names, by chance, in a record made before: keywords, which refusal 16 turns back,
//! and words like them, which are names as others.

use crate::keywords::{is_keyword, words};
use crate::random::Random;

/// The keys behind which a name stands, or `-`.
const KEYS: [&str; 8] = ["target", "name", "parent", "id", "of", "type", "tag", "if"];

/// Words that other versions of C++ keep, that C keeps, or that have a meaning at some places.
#[rustfmt::skip]
const OTHER_WORDS: [&str; 16] = [
    "final", "override", "import", "module", "char8_t", "concept", "consteval", "constinit", "co_await",
    "co_return", "co_yield", "requires", "restrict", "typeof", "std", "audit",
];

/// One to three names become such words: once in three records with keywords among them.
pub fn rename(lines: &mut [String], random: &mut Random) {
    let with_keywords = random.once_in(3);
    for time in 0..random.between(1, 3) {
        let word = match with_keywords && (time == 0 || random.once_in(2)) {
            true => random.pick(&words()).to_string(),
            false => word_like_one(random),
        };
        put(&word, lines, random);
    }
}

/// At one place, behind each key alike, or in place of a name wherever this stands, so that fields
/// still name each other.
pub fn put(word: &str, lines: &mut [String], random: &mut Random) {
    let behind = |key: &&str| (0..lines.len()).filter(|at| has_name(&lines[*at], key)).collect::<Vec<_>>();
    let places: Vec<Vec<usize>> = KEYS.iter().map(behind).filter(|places| !places.is_empty()).collect();
    let of_one_key = &places[random.below(places.len())];
    let at = of_one_key[random.below(of_one_key.len())];
    let old = value_of(&lines[at]).to_string();
    let alone = random.once_in(4);
    for other in places.into_iter().flatten() {
        let line = &mut lines[other];
        if other == at || (!alone && value_of(line) == old) {
            line.truncate(line.len() - old.len());
            line.push_str(word);
        }
    }
}

fn has_name(line: &str, key: &str) -> bool {
    line.split_once('=').is_some_and(|(found, name)| found == key && name != "-")
}

fn value_of(line: &str) -> &str {
    line.split_once('=').map_or("", |(_, value)| value)
}

fn word_like_one(random: &mut Random) -> String {
    let word = random.pick(&words());
    let (first, rest) = word.split_at(1);
    let made = match random.below(9) {
        0 | 1 => first.to_uppercase() + rest,
        2 => word.to_uppercase(),
        3 => format!("{word}{}", random.below(10)),
        4 => format!("{word}_"),
        5 => format!("_{word}"),
        6 => format!("{word}es"),
        7 => word[..word.len() - 1].to_string(),
        _ => random.pick(&OTHER_WORDS).to_string(),
    };
    assert!(!is_keyword(&made), "{made} is a keyword");
    made
}
