//! Faults by chance in a good record: most of them break its form, some change what it says.

use crate::random::Random;

pub fn damaged(whole: Vec<String>, random: &mut Random) -> Vec<u8> {
    let mut lines: Vec<Vec<u8>> = whole.into_iter().map(String::into_bytes).collect();
    for _ in 0..random.below(3) {
        damage_lines(&mut lines, random);
    }
    let mut bytes: Vec<u8> = lines.into_iter().flat_map(|line| [line, b"\n".to_vec()]).flatten().collect();
    if random.once_in(2) {
        damage_bytes(&mut bytes, random);
    }
    bytes
}

/// An optional line of the head, and what stands in its place or behind it where it is broken.
pub struct HeadLine {
    /// What it begins with, `=` included.
    pub start: &'static str,
    pub bad_values: &'static [&'static str],
    pub bad_starts: &'static [&'static str],
    /// Its own words, and lines of the head that do not follow it, or do.
    pub behind: [&'static str; 5],
}

/// The line becomes one that breaks the form, or stands elsewhere, or twice, or has no newline; or another line of the head
/// stands behind it.
pub fn break_head_line(lines: &mut Vec<String>, head_line: &HeadLine, random: &mut Random) {
    let HeadLine { start, bad_values, bad_starts, behind } = head_line;
    let place = lines.iter().position(|line| line.starts_with(start)).expect("the line stands there");
    let line = lines.remove(place);
    let value = line.trim_start_matches(start);
    let any = random.below(lines.len() + 1);
    match random.below(8) {
        0 | 1 => lines.insert(place, format!("{start}{}", random.pick(bad_values))),
        2 => lines.insert(place, format!("{}{value}", random.pick(bad_starts))),
        3 => lines.insert(random.below(place), line),
        4 => lines.insert(if any == place { lines.len() } else { any }, line),
        5 => lines.splice(place..place, [line.clone(), line]).for_each(drop),
        6 => lines.splice(place..place, [line, random.pick(behind).to_string()]).for_each(drop),
        _ => lines[place].insert_str(0, &line),
    }
}

fn damage_lines(lines: &mut Vec<Vec<u8>>, random: &mut Random) {
    if lines.is_empty() {
        return;
    }
    let (at, other) = (random.below(lines.len()), random.below(lines.len()));
    match random.below(10) {
        0 => drop(lines.remove(at)),
        1 => lines.insert(at, lines[at].clone()),
        2 => lines.swap(at, other),
        3 => lines.insert(at, random.pick(&STRAY_LINES).to_vec()),
        4 => lines.truncate(at),
        _ => change_value(&mut lines[at], random),
    }
}

#[rustfmt::skip]
const STRAY_LINES: [&[u8]; 12] = [
    b"", b"=", b"-", b"is=1", b"if=-", b"if=a", b"field=body", b"decl=packet", b"name=Lamp",
    b"width=8", b"endian=little", b"# a comment",
];

/// Values that fit some key, or none: words, names, numbers and mods at their limits.
#[rustfmt::skip]
const VALUES: [&[u8]; 50] = [
    b"", b"-", b"--", b"+", b"0", b"1", b"2", b"00", b"01", b"7", b"8", b"64", b"65", b"255",
    b"4096", b"4097", b"65535", b"65536", b"4294967296",
    b"18446744073709551615", b"18446744073709551616", b"99999999999999999999",
    b"+0", b"-0", b"+00", b"+65535", b"-65536", b"+18446744073709551616", b"-1",
    b" 8", b"8 ", b"0x8", b"8\r", b"9lives", b"a-b", b"caf\xc3\xa9", b"_",
    b"span", b"output", b"chunk0", b"chunk007", b"chunk", b"span1",
    b"a23456789_123456789_123456789_12", b"a23456789_123456789_123456789_123",
    b"Little", b"big", b"full", b"group", b"test",
];

fn change_value(line: &mut Vec<u8>, random: &mut Random) {
    let start = line.iter().position(|byte| *byte == b'=').map_or(0, |at| at + 1);
    match random.below(4) {
        0 => line.insert(start, b'0'),
        1 => line.push(b'\r'),
        _ => {
            line.truncate(start);
            line.extend_from_slice(random.pick(&VALUES));
        }
    }
}

fn damage_bytes(bytes: &mut Vec<u8>, random: &mut Random) {
    if bytes.is_empty() {
        return;
    }
    let at = random.below(bytes.len());
    match random.below(12) {
        0 | 1 => bytes[at] ^= 1 << random.below(8),
        2 => bytes[at] = random.next() as u8,
        3 => bytes.insert(at, random.next() as u8),
        4 => bytes.insert(at, random.between(128, 255) as u8),
        5 => drop(bytes.remove(at)),
        6 => bytes.truncate(at),
        7 => drop(bytes.pop()),
        8 => bytes.push(b'\n'),
        9 => bytes.insert(at, *b"\n\r =-\0_1".get(random.below(8)).unwrap_or(&b' ')),
        10 => bytes.resize(16_384 + random.below(2), random.pick(&[b"\n", b"x"])[0]),
        _ => bytes.clear(),
    }
}
