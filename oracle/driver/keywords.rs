//! The words that C++17 keeps for itself, as refusal 16 of document 02 (Card 6) has them: ISO/IEC
//! 14882:2017, [lex.key], its two tables. `oracle/compiles` asks C++ compilers about each.

/// The keywords, in the order of the first table.
#[rustfmt::skip]
const KEYWORDS: [&str; 73] = [
    "alignas", "alignof", "asm", "auto",
    "bool", "break",
    "case", "catch", "char", "char16_t", "char32_t", "class", "const", "const_cast", "constexpr", "continue",
    "decltype", "default", "delete", "do", "double", "dynamic_cast",
    "else", "enum", "explicit", "export", "extern",
    "false", "float", "for", "friend",
    "goto",
    "if", "inline", "int",
    "long",
    "mutable",
    "namespace", "new", "noexcept", "nullptr",
    "operator",
    "private", "protected", "public",
    "register", "reinterpret_cast", "return",
    "short", "signed", "sizeof", "static", "static_assert", "static_cast", "struct", "switch",
    "template", "this", "thread_local", "throw", "true", "try", "typedef", "typeid", "typename",
    "union", "unsigned", "using",
    "virtual", "void", "volatile",
    "wchar_t", "while",
];

/// The alternative tokens that are written as names, in the order of the second table.
const ALTERNATIVES: [&str; 11] =
    ["and", "and_eq", "bitand", "bitor", "compl", "not", "not_eq", "or", "or_eq", "xor", "xor_eq"];

/// All 84.
pub fn words() -> Vec<&'static str> {
    [&KEYWORDS[..], &ALTERNATIVES[..]].concat()
}

/// Exactly one of them: letter case counts, and nothing stands around it.
pub fn is_keyword(name: &str) -> bool {
    KEYWORDS.contains(&name) || ALTERNATIVES.contains(&name)
}

/// No keyword, but one where letter case, `_` at the ends and digits behind are not looked at.
pub fn is_like_a_keyword(name: &str) -> bool {
    let bare = name.trim_end_matches(|letter: char| letter.is_ascii_digit()).trim_matches('_');
    !is_keyword(name) && is_keyword(&bare.to_ascii_lowercase())
}

/// Names that differ from a keyword in one letter: with a capital, a digit more, a letter less.
pub fn near_forms(word: &str) -> Vec<String> {
    let (first, rest) = word.split_at(1);
    let (shorter, _) = word.split_at(word.len() - 1);
    let forms = [first.to_uppercase() + rest, format!("{word}1"), shorter.to_string()];
    forms.into_iter().filter(|form| !is_keyword(form)).collect()
}
