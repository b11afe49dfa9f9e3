//! Records in shorthand, for writing them by hand and by chance:
//! `little Lamp lite; packet Lamp -: scalar amps 12, reserved 4, scalar x 8 if c 1, payload -`.
//! First the head's three values, then the declarations; each word is the value of one key. The head may
//! have a word more, the value of `trailing`: `little Lamp lite padded`; and behind that its lines `raw` and
//! `products`: `little Lamp lite padded raw=numbered products=divide`, `little Lamp lite raw=plain`. So may a
//! packet or struct have the value of `bits`: `packet Lamp - 16: scalar amps 16`.

#[derive(Clone)]
pub struct Sketch {
    pub head: String,
    pub decls: Vec<DeclSketch>,
}

#[derive(Clone)]
pub struct DeclSketch {
    pub head: String,
    pub fields: Vec<String>,
}

fn head_keys(words: usize) -> &'static [&'static str] {
    match words {
        4 => &["endian", "target", "arrays", "trailing"],
        _ => &["endian", "target", "arrays"],
    }
}

/// The values, and the words behind them that are lines.
fn split_lines(head: &str) -> (Vec<&str>, Vec<&str>) {
    words(head).into_iter().partition(|word| !word.contains('='))
}

fn decl_keys(kind: &str, words: usize) -> &'static [&'static str] {
    match kind {
        "packet" | "struct" if words == 4 => &["decl", "name", "parent", "bits"],
        "packet" | "struct" => &["decl", "name", "parent"],
        "enum" => &["decl", "name", "width", "open", "complete"],
        "checksum" | "custom" => &["decl", "name", "width"],
        _ => panic!("no kind of declaration: {kind}"),
    }
}

fn field_keys(kind: &str) -> &'static [&'static str] {
    match kind {
        "scalar" => &["field", "id", "width"],
        "size" | "count" | "elemsize" => &["field", "of", "width"],
        "fixed" => &["field", "width", "value"],
        "fixedenum" => &["field", "type", "tag"],
        "reserved" => &["field", "width"],
        "flag" => &["field", "id"],
        "typedef" => &["field", "id", "type"],
        "array" => &["field", "id", "width", "type", "mod", "count"],
        "payload" => &["field", "mod"],
        "body" => &["field"],
        "padding" => &["field", "bytes"],
        "checksum" => &["field", "of"],
        _ => panic!("no kind of field: {kind}"),
    }
}

impl Sketch {
    pub fn new(shorthand: &str) -> Sketch {
        let mut parts = shorthand.split(';').map(str::trim);
        let head = parts.next().unwrap_or_default().to_string();
        Sketch { head, decls: parts.map(DeclSketch::new).collect() }
    }

    /// The record's lines, without newlines.
    pub fn lines(&self) -> Vec<String> {
        let mut lines = Vec::new();
        let (values, whole) = split_lines(&self.head);
        push_lines(&mut lines, head_keys(values.len()), &values);
        lines.extend(whole.into_iter().map(str::to_string));
        for decl in &self.decls {
            let values = words(&decl.head);
            push_lines(&mut lines, decl_keys(values[0], values.len()), &values);
            decl.fields.iter().for_each(|field| push_field(&mut lines, field));
        }
        lines
    }

    pub fn bytes(&self) -> Vec<u8> {
        joined(&self.lines())
    }
}

impl DeclSketch {
    pub fn new(shorthand: &str) -> DeclSketch {
        let (head, fields) = shorthand.split_once(':').unwrap_or((shorthand, ""));
        let fields = fields.split(',').map(str::trim).filter(|field| !field.is_empty());
        DeclSketch { head: head.trim().to_string(), fields: fields.map(str::to_string).collect() }
    }
}

/// Lines with their newlines.
pub fn joined(lines: &[String]) -> Vec<u8> {
    lines.iter().fold(String::new(), |text, line| text + line + "\n").into_bytes()
}

/// The record of a shorthand.
pub fn record(shorthand: &str) -> Vec<u8> {
    Sketch::new(shorthand).bytes()
}

fn words(shorthand: &str) -> Vec<&str> {
    shorthand.split(' ').collect()
}

fn push_lines(lines: &mut Vec<String>, keys: &[&str], values: &[&str]) {
    assert_eq!(keys.len(), values.len(), "{values:?} for {keys:?}");
    lines.extend(keys.iter().zip(values).map(|(key, value)| format!("{key}={value}")));
}

/// The condition stands behind the values of the kind's keys, so that a name may be `if`.
fn push_field(lines: &mut Vec<String>, field: &str) {
    let values = words(field);
    let keys = field_keys(values[0]);
    let (desc, cond) = values.split_at(keys.len().min(values.len()));
    push_lines(lines, keys, desc);
    match cond {
        [] => lines.push("if=-".to_string()),
        ["if", cond @ ..] => push_lines(lines, &["if", "is"], cond),
        _ => panic!("no condition: {cond:?}"),
    }
}
