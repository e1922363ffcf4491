// Fields, and what a sheet declares: crates/field and crates/sheet.
pub const FILE: u8 = 0x01;
pub const MESSAGE: u8 = 0x02;
pub const EXTENSION: u8 = 0x03;
pub const ENUM: u8 = 0x04;
pub const FIELD: u8 = 0x05;
pub const VALUE: u8 = 0x06;
pub const PACKAGE: u8 = 0x10;
pub const NAME: u8 = 0x11;
pub const EXTENDEE: u8 = 0x12;
pub const NUMBER: u8 = 0x13;
pub const TYPE: u8 = 0x14;
pub const LABEL: u8 = 0x15;
pub const TYPE_PATH: u8 = 0x16;
pub const SIGNED_NUMBER: u8 = 0x17;

pub const TYPE_DOUBLE: u8 = 1;
pub const TYPE_FLOAT: u8 = 2;
pub const TYPE_BOOL: u8 = 8;
pub const TYPE_STRING: u8 = 9;
pub const TYPE_GROUP: u8 = 10;
pub const TYPE_MESSAGE: u8 = 11;
pub const TYPE_BYTES: u8 = 12;
pub const TYPE_ENUM: u8 = 14;
pub const TYPE_SINT32: u8 = 17;
pub const TYPE_SINT64: u8 = 18;

pub const VARINT: u8 = 0;
pub const I64: u8 = 1;
pub const LEN: u8 = 2;
pub const I32: u8 = 5;
const WIRE: [u8; 19] = [0, 1, 5, 0, 0, 0, 1, 5, 0, 2, 3, 2, 2, 0, 0, 5, 1, 0, 0];

pub fn wire_of(typ: u8) -> u8 {
    WIRE.get(typ as usize).copied().unwrap_or(VARINT)
}

#[derive(Clone, Copy)]
pub struct Span {
    pub from: usize,
    pub to: usize,
}

impl Span {
    pub fn of<'a>(&self, s: &'a [u8]) -> &'a [u8] {
        &s[self.from..self.to]
    }
}

pub const NO_SPAN: Span = Span { from: 0, to: 0 };

#[derive(Clone, Copy)]
pub struct Shape {
    pub number: u32,
    pub typ: u8,
    pub label: u8,
    pub path: Span,
}

#[derive(Clone, Copy)]
pub struct Declaration {
    pub name: Span,
    pub extendee: Span,
    pub shape: Shape,
}

// Tag and payload of the field at a place; the next one starts where the payload ends.
pub fn field_at(s: &[u8], at: usize, end: usize) -> Option<(u8, Span)> {
    let [tag, high, low, rest @ ..] = &s[at..end] else {
        return None;
    };
    let n = *high as usize * 256 + *low as usize;
    if rest.len() < n {
        return None;
    }
    let from = at + 3;
    Some((*tag, Span { from, to: from + n }))
}

pub fn leaf_at(s: &[u8], at: usize, end: usize, tag: u8) -> Option<Span> {
    let (found, payload) = field_at(s, at, end)?;
    if found != tag {
        return None;
    }
    Some(payload)
}

pub fn sized_at(s: &[u8], at: usize, end: usize, tag: u8, size: usize) -> Option<Span> {
    leaf_at(s, at, end, tag).filter(|p| p.to - p.from == size)
}

pub fn u32_at(s: &[u8], at: usize) -> u32 {
    u32::from_be_bytes([s[at], s[at + 1], s[at + 2], s[at + 3]])
}

pub fn has_type_path(typ: u8) -> bool {
    matches!(typ, TYPE_GROUP | TYPE_MESSAGE | TYPE_ENUM)
}

fn type_path_at(s: &[u8], at: usize, end: usize, typ: u8) -> Option<Span> {
    if !has_type_path(typ) {
        return if at == end { Some(NO_SPAN) } else { None };
    }
    leaf_at(s, at, end, TYPE_PATH).filter(|p| p.to == end)
}

fn shape_at(s: &[u8], at: usize, end: usize) -> Option<Shape> {
    let n = sized_at(s, at, end, NUMBER, 4)?;
    let t = sized_at(s, n.to, end, TYPE, 1)?;
    let l = sized_at(s, t.to, end, LABEL, 1)?;
    let path = type_path_at(s, l.to, end, s[t.from])?;
    Some(Shape { number: u32_at(s, n.from), typ: s[t.from], label: s[l.from], path })
}

pub fn extension_at(s: &[u8], item: Span) -> Option<Declaration> {
    let name = leaf_at(s, item.from, item.to, NAME)?;
    let extendee = leaf_at(s, name.to, item.to, EXTENDEE)?;
    let shape = shape_at(s, extendee.to, item.to)?;
    Some(Declaration { name, extendee, shape })
}

pub fn message_field_at(s: &[u8], item: Span) -> Option<Declaration> {
    let name = leaf_at(s, item.from, item.to, NAME)?;
    let shape = shape_at(s, name.to, item.to)?;
    Some(Declaration { name, extendee: NO_SPAN, shape })
}

// Name and number of an enum value.
pub fn value_at(s: &[u8], item: Span) -> Option<(Span, u32)> {
    let name = leaf_at(s, item.from, item.to, NAME)?;
    let n = sized_at(s, name.to, item.to, SIGNED_NUMBER, 4)?;
    if n.to != item.to {
        return None;
    }
    Some((name, u32_at(s, n.from)))
}
