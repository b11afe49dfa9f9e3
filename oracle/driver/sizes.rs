//! The size tables of document 01, section 'Sizes', written a second time in numbers that
//! cannot overflow. Refusals 7, 8 and 17 are judged by them; `published.rs` checks that they equal
//! the published `Schema` wherever that can be built.

use crate::record::{Decl, DeclDesc, Element, Field, FieldDesc, Record};

#[derive(Clone, Copy, PartialEq, Eq, Debug)]
pub enum Size {
    Static(u128),
    Dynamic,
    Unknown,
}

/// The entries of one declaration, in bits.
pub struct DeclSizes {
    pub fields: Vec<Size>,
    pub padded: Vec<Option<u128>>,
    pub parent: Size,
    pub decl: Size,
    pub payload: Size,
}

/// One entry for each declaration, in the order of the record.
pub struct Tables(pub Vec<DeclSizes>);

impl Size {
    pub const ZERO: Size = Size::Static(0);

    /// Past every limit the sum stays there.
    pub fn plus(self, other: Size) -> Size {
        match (self, other) {
            (Size::Unknown, _) | (_, Size::Unknown) => Size::Unknown,
            (Size::Dynamic, _) | (_, Size::Dynamic) => Size::Dynamic,
            (Size::Static(left), Size::Static(right)) => Size::Static(left.saturating_add(right)),
        }
    }

    fn times(self, count: u64) -> Size {
        match self {
            Size::Static(bits) => Size::Static(bits.saturating_mul(u128::from(count))),
            other => other,
        }
    }

    /// A static size below 2^31 stands for itself.
    fn encoded(self) -> u64 {
        match self {
            Size::Static(bits) => u64::try_from(bits).expect("refusal 7 lets only small sizes pass"),
            Size::Dynamic => 1 << 31,
            Size::Unknown => (1 << 31) + 1,
        }
    }

    pub fn bits(self) -> Option<u128> {
        match self {
            Size::Static(bits) => Some(bits),
            Size::Dynamic | Size::Unknown => None,
        }
    }
}

impl DeclSizes {
    pub fn total(&self) -> Size {
        self.decl.plus(self.parent).plus(self.payload)
    }

    /// The sum of the static field sizes, whatever the other fields are.
    pub fn static_sum(&self) -> Size {
        let bits = self.fields.iter().filter_map(|size| size.bits());
        Size::Static(bits.fold(0, u128::saturating_add))
    }
}

impl Tables {
    /// The tables of a record that refusals 1 to 6 let pass.
    pub fn new(record: &Record) -> Tables {
        let mut tables = Tables(Vec::new());
        for decl in &record.decls {
            let sizes = tables.decl_sizes(record, decl);
            tables.0.push(sizes);
        }
        tables
    }

    /// The total size of an earlier declaration.
    pub fn total(&self, record: &Record, name: &str) -> Size {
        self.earlier(record, name).total()
    }

    /// The tables as text, a line for each entry.
    pub fn listing(&self, record: &Record) -> String {
        let mut text = String::new();
        for (decl, sizes) in record.decls.iter().zip(&self.0) {
            let name = &decl.name;
            for (at, field) in decl.fields().iter().enumerate() {
                let (kind, size, padded) = (field.desc.kind(), sizes.fields[at], sizes.padded[at]);
                text += &format!("{name} field {at} {kind}: {size:?}, padded {padded:?}\n");
            }
            text += &format!("{name} decl_size {:?}\n", sizes.decl);
            text += &format!("{name} parent_size {:?}\n", sizes.parent);
            text += &format!("{name} payload_size {:?}\n", sizes.payload);
            text += &format!("{name} total_size {:?}\n", sizes.total());
            text += &format!("{name} static field sizes {:?}\n", sizes.static_sum());
        }
        text
    }

    /// One number for the columns decl_size, parent_size and payload_size, as the program
    /// `refusal_cases` makes it of its tables.
    pub fn digest(&self) -> u64 {
        let own = self.0.iter().map(|sizes| sizes.decl);
        let parents = self.0.iter().map(|sizes| sizes.parent);
        let payloads = self.0.iter().map(|sizes| sizes.payload);
        own.chain(parents).chain(payloads).fold(0, |digest, size| mixed(digest, size.encoded()))
    }

    fn earlier(&self, record: &Record, name: &str) -> &DeclSizes {
        let place = record.position(name).expect("refusal 5 lets only earlier declarations pass");
        &self.0[place]
    }

    fn decl_sizes(&self, record: &Record, decl: &Decl) -> DeclSizes {
        let fields = decl.fields();
        let sizes: Vec<Size> = fields.iter().map(|field| self.field_size(record, fields, field)).collect();
        let padded: Vec<Option<u128>> = (1..=fields.len()).map(|next| padding(fields, next)).collect();
        let decl_size = match decl.desc {
            DeclDesc::Packet(_) | DeclDesc::Struct(_) => (0..fields.len())
                .filter(|at| !is_payload(&fields[*at]))
                .map(|at| padded[at].map_or(sizes[at], Size::Static))
                .fold(Size::ZERO, Size::plus),
            DeclDesc::Enum { width, .. } | DeclDesc::Checksum { width } => Size::Static(width.into()),
            DeclDesc::Custom { width } => width.map_or(Size::Dynamic, |bits| Size::Static(bits.into())),
        };
        let last_payload = fields.iter().rposition(is_payload);
        DeclSizes {
            payload: last_payload.map_or(Size::ZERO, |at| sizes[at]),
            decl: decl_size,
            parent: self.parent_size(record, decl),
            padded,
            fields: sizes,
        }
    }

    fn parent_size(&self, record: &Record, decl: &Decl) -> Size {
        match decl.block().and_then(|block| block.parent.as_deref()) {
            Some(parent) => {
                let sizes = self.earlier(record, parent);
                sizes.decl.plus(sizes.parent)
            }
            None => Size::ZERO,
        }
    }

    fn field_size(&self, record: &Record, fields: &[Field], field: &Field) -> Size {
        if field.cond.is_some() {
            return Size::Dynamic;
        }
        match &field.desc {
            FieldDesc::Checksum { .. } | FieldDesc::Padding { .. } => Size::ZERO,
            FieldDesc::Flag { .. } => Size::Static(1),
            FieldDesc::Scalar { width, .. }
            | FieldDesc::Size { width, .. }
            | FieldDesc::Count { width, .. }
            | FieldDesc::ElemSize { width, .. }
            | FieldDesc::Fixed { width, .. }
            | FieldDesc::Reserved { width } => Size::Static((*width).into()),
            FieldDesc::Typedef { type_, .. } | FieldDesc::FixedEnum { type_, .. } => {
                self.total(record, type_)
            }
            FieldDesc::Array { element, count: Some(count), .. } => match element {
                Element::Width(width) => Size::Static((*width).into()).times(*count),
                Element::Type(type_) => self.total(record, type_).times(*count),
            },
            FieldDesc::Array { id, count: None, .. } => {
                dynamic_if(fields.iter().any(|other| gives_size_or_count(other, id)))
            }
            FieldDesc::Payload { .. } | FieldDesc::Body => dynamic_if(fields.iter().any(gives_payload_size)),
        }
    }
}

/// A digest with one number more, modulo 2^32.
pub fn mixed(digest: u64, number: u64) -> u64 {
    (digest * 31 + number) % (1 << 32)
}

fn dynamic_if(given: bool) -> Size {
    if given {
        Size::Dynamic
    } else {
        Size::Unknown
    }
}

/// The own size of a declaration as it would be if no padding counted.
pub fn unpadded(decl: &Decl, sizes: &DeclSizes) -> Size {
    let fields = decl.fields().iter().zip(&sizes.fields).filter(|(field, _)| !is_payload(field));
    fields.fold(Size::ZERO, |sum, (_, size)| sum.plus(*size))
}

fn is_payload(field: &Field) -> bool {
    matches!(field.desc, FieldDesc::Payload { .. } | FieldDesc::Body)
}

/// What the field at `next` adds to the one before it.
fn padding(fields: &[Field], next: usize) -> Option<u128> {
    match fields.get(next)?.desc {
        FieldDesc::Padding { bytes } => Some(8 * u128::from(bytes)),
        _ => None,
    }
}

fn gives_payload_size(field: &Field) -> bool {
    matches!(&field.desc, FieldDesc::Size { of, .. } if of == "_payload_" || of == "_body_")
}

fn gives_size_or_count(field: &Field, id: &str) -> bool {
    matches!(&field.desc, FieldDesc::Size { of, .. } | FieldDesc::Count { of, .. } if of == id)
}
