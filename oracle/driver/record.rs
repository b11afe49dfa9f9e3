//! The record of document 01, section 'The record', with the lines `trailing`, `raw`, `products` and `bits` of
//! document 02 (Cards 3, 7, 8 and 10): its parts, and the reader of its form. Whatever departs from the form is
//! refusal 2; the size of a number is not form (refusal 6), nor whether a size is stated rightly (refusal 17).

/// What of the form a record breaks, and at which key.
pub type Flaw = String;

#[derive(Clone, Copy, PartialEq, Eq)]
pub enum Endian {
    Little,
    Big,
}

#[derive(Clone, Copy, PartialEq, Eq)]
pub enum Arrays {
    Lite,
    Full,
}

/// What a padded array counts in a trailing size: its field size, or its padded size.
#[derive(Clone, Copy, PartialEq, Eq)]
pub enum Trailing {
    Plain,
    Padded,
}

/// What the variable of a tested enum bit field is called: `raw_value`, or that with its number behind it.
#[derive(Clone, Copy, PartialEq, Eq)]
pub enum Raw {
    Plain,
    Numbered,
}

/// How an array's check asks for its elements' bytes: by their product, or by a division.
#[derive(Clone, Copy, PartialEq, Eq)]
pub enum Products {
    Plain,
    Divide,
}

pub struct Record {
    pub endian: Endian,
    pub target: String,
    pub arrays: Arrays,
    /// The line `trailing`, which need not be there; without it the record is plain.
    pub trailing: Option<Trailing>,
    /// The line `raw`, likewise.
    pub raw: Option<Raw>,
    /// The line `products`, likewise.
    pub products: Option<Products>,
    pub decls: Vec<Decl>,
}

pub struct Decl {
    pub name: String,
    pub desc: DeclDesc,
}

pub enum DeclDesc {
    Packet(Block),
    Struct(Block),
    Enum { width: u64, open: bool, complete: bool },
    Checksum { width: u64 },
    Custom { width: Option<u64> },
}

/// What a packet and a struct hold.
pub struct Block {
    pub parent: Option<String>,
    /// The line `bits`, which need not be there.
    pub stated: Option<Stated>,
    pub fields: Vec<Field>,
}

/// What a line `bits` says of its declaration's own size.
#[derive(Clone, Copy)]
pub enum Stated {
    Bits(u64),
    Dynamic,
    Unknown,
}

pub struct Field {
    pub desc: FieldDesc,
    pub cond: Option<Cond>,
}

/// The lines `if` and `is` of an optional field.
pub struct Cond {
    pub name: String,
    pub is: u64,
}

pub enum FieldDesc {
    Scalar { id: String, width: u64 },
    Size { of: String, width: u64 },
    Count { of: String, width: u64 },
    ElemSize { of: String, width: u64 },
    Fixed { width: u64, value: u64 },
    FixedEnum { type_: String, tag: String },
    Reserved { width: u64 },
    Flag { id: String },
    Typedef { id: String, type_: String },
    Array { id: String, element: Element, modifier: Option<Modifier>, count: Option<u64> },
    Payload { modifier: Option<Modifier> },
    Body,
    Padding { bytes: u64 },
    Checksum { of: String },
}

pub enum Element {
    Width(u64),
    Type(String),
}

pub struct Modifier {
    pub sign: char,
    pub number: u64,
}

impl Decl {
    /// The fields of a packet or struct; the other kinds have none.
    pub fn fields(&self) -> &[Field] {
        self.block().map_or(&[], |block| &block.fields)
    }

    pub fn block(&self) -> Option<&Block> {
        match &self.desc {
            DeclDesc::Packet(block) | DeclDesc::Struct(block) => Some(block),
            _ => None,
        }
    }

    /// The line `bits` of a packet or struct that has one.
    pub fn stated(&self) -> Option<Stated> {
        self.block()?.stated
    }

    pub fn is_enum(&self) -> bool {
        matches!(self.desc, DeclDesc::Enum { .. })
    }

    pub fn kind(&self) -> &'static str {
        match self.desc {
            DeclDesc::Packet(_) => "packet",
            DeclDesc::Struct(_) => "struct",
            DeclDesc::Enum { .. } => "enum",
            DeclDesc::Checksum { .. } => "checksum",
            DeclDesc::Custom { .. } => "custom",
        }
    }
}

impl FieldDesc {
    pub fn kind(&self) -> &'static str {
        match self {
            FieldDesc::Scalar { .. } => "scalar",
            FieldDesc::Size { .. } => "size",
            FieldDesc::Count { .. } => "count",
            FieldDesc::ElemSize { .. } => "elemsize",
            FieldDesc::Fixed { .. } => "fixed",
            FieldDesc::FixedEnum { .. } => "fixedenum",
            FieldDesc::Reserved { .. } => "reserved",
            FieldDesc::Flag { .. } => "flag",
            FieldDesc::Typedef { .. } => "typedef",
            FieldDesc::Array { .. } => "array",
            FieldDesc::Payload { .. } => "payload",
            FieldDesc::Body => "body",
            FieldDesc::Padding { .. } => "padding",
            FieldDesc::Checksum { .. } => "checksum",
        }
    }

    /// The names of its own keys, with these.
    fn names(&self) -> Vec<(&'static str, &str)> {
        match self {
            FieldDesc::Scalar { id, .. }
            | FieldDesc::Flag { id }
            | FieldDesc::Array { id, element: Element::Width(_), .. } => vec![("id", id)],
            FieldDesc::Typedef { id, type_ } | FieldDesc::Array { id, element: Element::Type(type_), .. } => {
                vec![("id", id), ("type", type_)]
            }
            FieldDesc::Size { of, .. }
            | FieldDesc::Count { of, .. }
            | FieldDesc::ElemSize { of, .. }
            | FieldDesc::Checksum { of } => vec![("of", of)],
            FieldDesc::FixedEnum { type_, tag } => vec![("type", type_), ("tag", tag)],
            FieldDesc::Fixed { .. }
            | FieldDesc::Reserved { .. }
            | FieldDesc::Payload { .. }
            | FieldDesc::Body
            | FieldDesc::Padding { .. } => Vec::new(),
        }
    }
}

impl Record {
    pub fn read(bytes: &[u8]) -> Result<Record, Flaw> {
        let mut lines = Lines::new(bytes)?;
        let endian = lines.read("endian", endian)?;
        let target = lines.name("target")?;
        let arrays = lines.read("arrays", arrays)?;
        let trailing = lines.read_if_there("trailing", trailing)?;
        let raw = lines.read_if_there("raw", raw)?;
        let products = lines.read_if_there("products", products)?;
        let mut decls = vec![read_decl(&mut lines)?];
        while !lines.at_end() {
            decls.push(read_decl(&mut lines)?);
        }
        Ok(Record { endian, target, arrays, trailing, raw, products, decls })
    }

    pub fn position(&self, name: &str) -> Option<usize> {
        self.decls.iter().position(|decl| decl.name == name)
    }

    pub fn find(&self, name: &str) -> Option<&Decl> {
        self.decls.iter().find(|decl| decl.name == name)
    }

    /// The packets and structs, in file order: what `lower_all` lowers.
    pub fn targets(&self) -> impl Iterator<Item = &Decl> {
        self.decls.iter().filter(|decl| decl.block().is_some())
    }

    /// Every name, used or not, with the key that it stands behind, in the order of the record.
    pub fn names(&self) -> Vec<(&'static str, &str)> {
        let mut names = vec![("target", &self.target[..])];
        for decl in &self.decls {
            names.push(("name", &decl.name));
            names.extend(decl.block().and_then(|block| block.parent.as_deref()).map(|name| ("parent", name)));
            for field in decl.fields() {
                names.extend(field.desc.names());
                names.extend(field.cond.as_ref().map(|cond| ("if", &cond.name[..])));
            }
        }
        names
    }
}

fn read_decl(lines: &mut Lines) -> Result<Decl, Flaw> {
    let kind = lines.value("decl")?;
    let name = lines.name("name")?;
    let desc = match kind {
        b"packet" => DeclDesc::Packet(read_block(lines)?),
        b"struct" => DeclDesc::Struct(read_block(lines)?),
        b"enum" => DeclDesc::Enum {
            width: lines.number("width")?,
            open: lines.read("open", mark)?,
            complete: lines.read("complete", mark)?,
        },
        b"checksum" => DeclDesc::Checksum { width: lines.number("width")? },
        b"custom" => DeclDesc::Custom { width: lines.optional("width", number)? },
        _ => return Err("decl: another kind".to_string()),
    };
    Ok(Decl { name, desc })
}

fn read_block(lines: &mut Lines) -> Result<Block, Flaw> {
    let parent = lines.optional("parent", name)?;
    let stated = lines.read_if_there("bits", stated)?;
    let mut fields = Vec::new();
    while lines.next_is("field") {
        fields.push(read_field(lines)?);
    }
    Ok(Block { parent, stated, fields })
}

fn read_field(lines: &mut Lines) -> Result<Field, Flaw> {
    let desc = match lines.value("field")? {
        b"scalar" => FieldDesc::Scalar { id: lines.name("id")?, width: lines.number("width")? },
        b"size" => FieldDesc::Size { of: lines.name("of")?, width: lines.number("width")? },
        b"count" => FieldDesc::Count { of: lines.name("of")?, width: lines.number("width")? },
        b"elemsize" => FieldDesc::ElemSize { of: lines.name("of")?, width: lines.number("width")? },
        b"fixed" => FieldDesc::Fixed { width: lines.number("width")?, value: lines.number("value")? },
        b"fixedenum" => FieldDesc::FixedEnum { type_: lines.name("type")?, tag: lines.name("tag")? },
        b"reserved" => FieldDesc::Reserved { width: lines.number("width")? },
        b"flag" => FieldDesc::Flag { id: lines.name("id")? },
        b"typedef" => FieldDesc::Typedef { id: lines.name("id")?, type_: lines.name("type")? },
        b"array" => FieldDesc::Array {
            id: lines.name("id")?,
            element: read_element(lines)?,
            modifier: lines.optional("mod", modifier)?,
            count: lines.optional("count", number)?,
        },
        b"payload" => FieldDesc::Payload { modifier: lines.optional("mod", modifier)? },
        b"body" => FieldDesc::Body,
        b"padding" => FieldDesc::Padding { bytes: lines.number("bytes")? },
        b"checksum" => FieldDesc::Checksum { of: lines.name("of")? },
        _ => return Err("field: another kind".to_string()),
    };
    Ok(Field { desc, cond: read_cond(lines)? })
}

fn read_element(lines: &mut Lines) -> Result<Element, Flaw> {
    match (lines.optional("width", number)?, lines.optional("type", name)?) {
        (Some(width), None) => Ok(Element::Width(width)),
        (None, Some(type_)) => Ok(Element::Type(type_)),
        (Some(_), Some(_)) => Err("type: width stands too".to_string()),
        (None, None) => Err("type: neither width nor type".to_string()),
    }
}

fn read_cond(lines: &mut Lines) -> Result<Option<Cond>, Flaw> {
    match lines.optional("if", name)? {
        Some(name) => Ok(Some(Cond { name, is: lines.number("is")? })),
        None => Ok(None),
    }
}

/// The lines of a record that are not yet read, without their newlines.
struct Lines<'a> {
    lines: std::iter::Peekable<std::slice::Split<'a, u8, fn(&u8) -> bool>>,
}

/// Reads one value, or says what it is not.
type Reader<T> = fn(&[u8]) -> Result<T, &'static str>;

impl<'a> Lines<'a> {
    fn new(bytes: &'a [u8]) -> Result<Self, Flaw> {
        let body = bytes.strip_suffix(b"\n").ok_or("no newline at the end")?;
        let is_newline: fn(&u8) -> bool = |byte| *byte == b'\n';
        Ok(Lines { lines: body.split(is_newline).peekable() })
    }

    fn at_end(&mut self) -> bool {
        self.lines.peek().is_none()
    }

    fn next_is(&mut self, key: &str) -> bool {
        self.lines.peek().is_some_and(|line| value_of(line, key).is_some())
    }

    fn value(&mut self, key: &str) -> Result<&'a [u8], Flaw> {
        let line = self.lines.next().ok_or_else(|| format!("{key}: no line"))?;
        value_of(line, key).ok_or_else(|| format!("{key}: another key"))
    }

    fn read<T>(&mut self, key: &str, read: Reader<T>) -> Result<T, Flaw> {
        read(self.value(key)?).map_err(|flaw| format!("{key}: {flaw}"))
    }

    /// The value of a line that need not be there.
    fn read_if_there<T>(&mut self, key: &str, read: Reader<T>) -> Result<Option<T>, Flaw> {
        match self.next_is(key) {
            true => self.read(key, read).map(Some),
            false => Ok(None),
        }
    }

    /// A value, or `-` where it is absent.
    fn optional<T>(&mut self, key: &str, read: Reader<T>) -> Result<Option<T>, Flaw> {
        match self.value(key)? {
            b"-" => Ok(None),
            value => read(value).map(Some).map_err(|flaw| format!("{key}: {flaw}")),
        }
    }

    fn name(&mut self, key: &str) -> Result<String, Flaw> {
        self.read(key, name)
    }

    fn number(&mut self, key: &str) -> Result<u64, Flaw> {
        self.read(key, number)
    }
}

fn endian(value: &[u8]) -> Result<Endian, &'static str> {
    match value {
        b"little" => Ok(Endian::Little),
        b"big" => Ok(Endian::Big),
        _ => Err("another word"),
    }
}

fn arrays(value: &[u8]) -> Result<Arrays, &'static str> {
    match value {
        b"lite" => Ok(Arrays::Lite),
        b"full" => Ok(Arrays::Full),
        _ => Err("another word"),
    }
}

fn trailing(value: &[u8]) -> Result<Trailing, &'static str> {
    match value {
        b"plain" => Ok(Trailing::Plain),
        b"padded" => Ok(Trailing::Padded),
        _ => Err("another word"),
    }
}

fn raw(value: &[u8]) -> Result<Raw, &'static str> {
    match value {
        b"plain" => Ok(Raw::Plain),
        b"numbered" => Ok(Raw::Numbered),
        _ => Err("another word"),
    }
}

fn products(value: &[u8]) -> Result<Products, &'static str> {
    match value {
        b"plain" => Ok(Products::Plain),
        b"divide" => Ok(Products::Divide),
        _ => Err("another word"),
    }
}

fn mark(value: &[u8]) -> Result<bool, &'static str> {
    match value {
        b"0" => Ok(false),
        b"1" => Ok(true),
        _ => Err("neither 0 nor 1"),
    }
}

fn stated(value: &[u8]) -> Result<Stated, &'static str> {
    match value {
        b"dynamic" => Ok(Stated::Dynamic),
        b"unknown" => Ok(Stated::Unknown),
        _ => number(value).map(Stated::Bits),
    }
}

fn value_of<'a>(line: &'a [u8], key: &str) -> Option<&'a [u8]> {
    line.strip_prefix(key.as_bytes())?.strip_prefix(b"=")
}

fn name(value: &[u8]) -> Result<String, &'static str> {
    if value.is_empty() || value.len() > 32 {
        return Err("not 1 to 32 bytes");
    }
    if !value.iter().all(|byte| byte.is_ascii_alphanumeric() || *byte == b'_') {
        return Err("a byte of no name");
    }
    if value[0].is_ascii_digit() {
        return Err("a digit first");
    }
    if is_taken(value) {
        return Err("a name of the lines");
    }
    Ok(String::from_utf8(value.to_vec()).expect("letters, digits and _ are ASCII"))
}

/// `span`, `output`, and `chunk` with digits behind it.
fn is_taken(name: &[u8]) -> bool {
    let is_chunk = name
        .strip_prefix(b"chunk")
        .is_some_and(|rest| !rest.is_empty() && rest.iter().all(u8::is_ascii_digit));
    name == b"span" || name == b"output" || is_chunk
}

fn number(value: &[u8]) -> Result<u64, &'static str> {
    if value.is_empty() || !value.iter().all(u8::is_ascii_digit) {
        return Err("not decimal");
    }
    if value[0] == b'0' && value.len() > 1 {
        return Err("a leading zero");
    }
    value
        .iter()
        .try_fold(0u64, |sum, digit| sum.checked_mul(10)?.checked_add(u64::from(digit - b'0')))
        .ok_or("2^64 or more")
}

fn modifier(value: &[u8]) -> Result<Modifier, &'static str> {
    let (sign, digits) = match value {
        [sign @ (b'+' | b'-'), digits @ ..] => (char::from(*sign), digits),
        _ => return Err("no sign"),
    };
    Ok(Modifier { sign, number: number(digits)? })
}
