// What a request says: parts, constants and pairs. Crates request and pair.
use crate::fields::{field_at, leaf_at, Span};

pub const OPTION: u8 = 0x08;
const SCOPE: u8 = 0x18;
const OPTIONS_TYPE: u8 = 0x19;
const DIRECT_PART: u8 = 0x1a;
const EXTENSION_PART: u8 = 0x1b;
pub const BOOL: u8 = 0x20;
const UNSIGNED: u8 = 0x21;
const SIGNED: u8 = 0x22;
const FLOAT: u8 = 0x23;
pub const STRING: u8 = 0x24;
pub const IDENT: u8 = 0x25;
pub const MESSAGE_CONSTANT: u8 = 0x26;
pub const PAIR_FIELD: u8 = 0x27;
pub const PAIR_EXTENSION: u8 = 0x28;
const PAIR_URL: u8 = 0x29;
pub const LIST: u8 = 0x2a;

// The scope and the options type; the options start where that ends.
pub fn heading_of(s: &[u8]) -> Option<(Span, Span)> {
    let scope = leaf_at(s, 0, s.len(), SCOPE)?;
    Some((scope, leaf_at(s, scope.to, s.len(), OPTIONS_TYPE)?))
}

#[derive(Clone, Copy)]
pub struct Part {
    pub extension: bool,
    pub name: Span,
}

pub fn part_at(s: &[u8], at: usize, end: usize) -> Option<Part> {
    match field_at(s, at, end)? {
        (DIRECT_PART, name) => Some(Part { extension: false, name }),
        (EXTENSION_PART, name) => Some(Part { extension: true, name }),
        _ => None,
    }
}

#[derive(Clone, Copy)]
pub enum Constant {
    Bool(bool),
    Integer { minus: bool, size: u64 },
    Float(f64),
    Text(Span),
    Ident(Span),
    Message,
    List,
}

pub fn constant_of(s: &[u8], tag: u8, place: Span) -> Option<Constant> {
    let bytes = place.of(s);
    let bits = || bytes.try_into().ok().map(u64::from_be_bytes);
    match tag {
        BOOL if bytes.len() == 1 && bytes[0] <= 1 => Some(Constant::Bool(bytes[0] == 1)),
        STRING => Some(Constant::Text(place)),
        IDENT => Some(Constant::Ident(place)),
        MESSAGE_CONSTANT => Some(Constant::Message),
        LIST => Some(Constant::List),
        UNSIGNED => bits().map(|b| Constant::Integer { minus: false, size: b }),
        SIGNED => bits().map(|b| Constant::Integer { minus: (b as i64) < 0, size: (b as i64).unsigned_abs() }),
        FLOAT => bits().map(|b| Constant::Float(f64::from_bits(b))),
        _ => None,
    }
}

pub struct Pair {
    pub by: u8,
    pub name: Span,
    pub tag: u8,
    pub constant: Span,
}

pub fn pair_at(s: &[u8], at: usize, end: usize) -> Option<Pair> {
    let (by, name) = field_at(s, at, end)?;
    if !(PAIR_FIELD..=PAIR_URL).contains(&by) {
        return None;
    }
    let (tag, constant) = field_at(s, name.to, end)?;
    Some(Pair { by, name, tag, constant })
}
