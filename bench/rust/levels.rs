// Option bytes, record by record: numbers looked up in the sheet, one record, and the levels that are open. Crates numbers, varint,
// payloads, taken, entries, levels and rows.
use crate::fields::*;
use crate::reply::Refusal::{self, *};
use crate::search::{find_message_by_abs_name, LookupScope, MOST_MESSAGES};

const MOST_LEVELS: usize = 32;
const MOST_NUMBER: u64 = 536_870_911;

// ---- the declaration of a number
// Whether the number of a declaration is this one: it is read before the rest.
fn says_number(s: &[u8], at: usize, end: usize, number: u32) -> bool {
    sized_at(s, at, end, NUMBER, 4).is_some_and(|n| u32_at(s, n.from) == number)
}

fn field_says(s: &[u8], item: Span, number: u32) -> bool {
    leaf_at(s, item.from, item.to, NAME).is_some_and(|name| says_number(s, name.to, item.to, number))
}

fn extension_says(s: &[u8], item: Span, number: u32) -> bool {
    leaf_at(s, item.from, item.to, NAME)
        .and_then(|name| leaf_at(s, name.to, item.to, EXTENDEE))
        .is_some_and(|extendee| says_number(s, extendee.to, item.to, number))
}

fn field_numbered(s: &[u8], scope: LookupScope, number: u32) -> Option<Declaration> {
    let mut at = scope.body.from;
    while at < scope.body.to {
        let (tag, item) = field_at(s, at, scope.body.to)?;
        if tag == FIELD && field_says(s, item, number) {
            if let Some(d) = message_field_at(s, item).filter(|d| d.shape.number == number) {
                return Some(d);
            }
        }
        at = item.to;
    }
    None
}

fn may_hold(s: &[u8], tag: u8, item: Span, number: u32) -> bool {
    if tag == EXTENSION {
        return extension_says(s, item, number);
    }
    tag == MESSAGE
}

fn extension_in_item(s: &[u8], tag: u8, item: Span, left: usize, message: &[u8], number: u32) -> Option<Declaration> {
    if tag == EXTENSION {
        return extension_at(s, item).filter(|d| d.shape.number == number && d.extendee.of(s) == message);
    }
    if tag != MESSAGE || left == 0 {
        return None;
    }
    let name = leaf_at(s, item.from, item.to, NAME)?;
    extension_in_items(s, Span { from: name.to, to: item.to }, left - 1, message, number)
}

fn extension_in_items(s: &[u8], body: Span, left: usize, message: &[u8], number: u32) -> Option<Declaration> {
    let mut at = body.from;
    while at < body.to {
        let (tag, item) = field_at(s, at, body.to)?;
        if may_hold(s, tag, item, number) {
            if let Some(d) = extension_in_item(s, tag, item, left, message, number) {
                return Some(d);
            }
        }
        at = item.to;
    }
    None
}

fn extension_numbered(s: &[u8], message: &[u8], number: u32) -> Option<Declaration> {
    let mut at = 0;
    while at < s.len() {
        let (tag, item) = field_at(s, at, s.len())?;
        if tag == FILE {
            if let Some(package) = leaf_at(s, item.from, item.to, PACKAGE) {
                let found = extension_in_items(s, Span { from: package.to, to: item.to }, MOST_MESSAGES, message, number);
                if found.is_some() {
                    return found;
                }
            }
        }
        at = item.to;
    }
    None
}

fn declaration_of(s: &[u8], scope: LookupScope, message: &[u8], number: u32) -> Option<Declaration> {
    field_numbered(s, scope, number).or_else(|| extension_numbered(s, message, number))
}

// ---- one record
fn varint_at(s: &[u8], at: usize, end: usize) -> Option<(u64, usize)> {
    let mut value = 0u64;
    let mut shift = 0;
    let mut i = at;
    while i < end {
        let b = s[i];
        i += 1;
        if shift == 63 {
            return if b < 2 { Some((value | (b as u64) << 63, i)) } else { None };
        }
        value |= ((b & 127) as u64) << shift;
        if b < 128 {
            return Some((value, i));
        }
        shift += 7;
    }
    None
}

// Place and size of the payload, and the number that it says.
fn payload_at(s: &[u8], wire: u8, at: usize, end: usize) -> Option<(usize, usize, u64)> {
    match wire {
        VARINT => varint_at(s, at, end).map(|(value, next)| (at, next - at, value)),
        I64 if end - at >= 8 => Some((at, 8, u64::from_le_bytes(s[at..at + 8].try_into().unwrap()))),
        I32 if end - at >= 4 => Some((at, 4, u32::from_le_bytes(s[at..at + 4].try_into().unwrap()) as u64)),
        LEN => varint_at(s, at, end).filter(|(n, next)| *n <= (end - next) as u64).map(|(n, next)| (next, n as usize, 0)),
        _ => None,
    }
}

fn unzigzag(z: u64) -> u64 {
    (z >> 1) ^ (z & 1).wrapping_neg()
}

fn value_of(typ: u8, said: u64) -> u64 {
    match typ {
        TYPE_BOOL => (said != 0) as u64,
        2 | 7 | 13 => said as u32 as u64,
        5 | 14 | 15 => said as u32 as i32 as i64 as u64,
        TYPE_SINT32 => unzigzag(said as u32 as u64),
        TYPE_SINT64 => unzigzag(said),
        _ => said,
    }
}

// A record; `by` is where the name of what declares its number stands in the sheet.
#[derive(Clone, Copy)]
pub struct Entry {
    pub number: u32,
    pub typ: u8,
    pub wire: u8,
    pub place: usize,
    pub size: usize,
    pub value: u64,
    pub by: Option<usize>,
}

enum Front {
    Leaf(Entry),
    Inside(Entry, Span, LookupScope),
}

fn front_at(s: &[u8], message: &[u8], place: LookupScope, bytes: &[u8], at: usize, end: usize) -> Result<Front, Refusal> {
    let (tag, next) = varint_at(bytes, at, end).ok_or(BadBytes)?;
    let (number, wire) = (tag / 8, (tag % 8) as u8);
    if !(1..=MOST_NUMBER).contains(&number) || !matches!(wire, VARINT | I64 | LEN | I32) {
        return Err(BadBytes);
    }
    let number = number as u32;
    let payload = payload_at(bytes, wire, next, end);
    let Some(d) = declaration_of(s, place, message, number) else {
        let (place, size, _) = payload.ok_or(BadBytes)?;
        return Ok(Front::Leaf(Entry { number, typ: 0, wire, place, size, value: 0, by: None }));
    };
    let typ = d.shape.typ;
    if wire_of(typ) != wire {
        return Err(WireMismatch);
    }
    let (place, size, said) = payload.ok_or(BadBytes)?;
    let entry = Entry { number, typ, wire, place, size, value: value_of(typ, said), by: Some(d.name.from) };
    if typ != TYPE_MESSAGE {
        return Ok(Front::Leaf(entry));
    }
    let path = d.shape.path;
    Ok(Front::Inside(entry, path, find_message_by_abs_name(s, path.of(s))?))
}

// ---- levels
#[derive(Clone, Copy)]
pub struct Level {
    end: usize,
    name: Span,
    place: LookupScope,
}

pub type Stack = [Level; MOST_LEVELS];

const NO_LEVEL: Level = Level { end: 0, name: NO_SPAN, place: LookupScope { file: 0, message: false, body: NO_SPAN, left: 0 } };
pub const NO_LEVELS: Stack = [NO_LEVEL; MOST_LEVELS];

// Where reading goes on: at a place, with so many levels open.
#[derive(Clone, Copy)]
pub struct Cursor {
    at: usize,
    depth: usize,
}

#[derive(Clone, Copy)]
pub struct Row {
    pub level: usize,
    pub entry: Entry,
}

// The outermost level is open.
pub fn start(bytes: &[u8], stack: &mut Stack, place: LookupScope) -> Cursor {
    stack[0] = Level { end: bytes.len(), name: NO_SPAN, place };
    Cursor { at: 0, depth: 1 }
}

// The next record, and where to go on.
pub fn next(s: &[u8], options_type: &[u8], bytes: &[u8], stack: &mut Stack, cursor: Cursor) -> Result<Option<(Row, Cursor)>, Refusal> {
    let (at, mut depth) = (cursor.at, cursor.depth);
    while depth > 0 && at >= stack[depth - 1].end {
        depth -= 1;
    }
    if depth == 0 {
        return Ok(None);
    }
    let level = stack[depth - 1];
    let message = if depth == 1 { options_type } else { level.name.of(s) };
    match front_at(s, message, level.place, bytes, at, level.end)? {
        Front::Leaf(entry) => Ok(Some((Row { level: depth - 1, entry }, Cursor { at: entry.place + entry.size, depth }))),
        Front::Inside(entry, name, place) => {
            if depth == MOST_LEVELS {
                return Err(BeyondLimit);
            }
            stack[depth] = Level { end: entry.place + entry.size, name, place };
            Ok(Some((Row { level: depth - 1, entry }, Cursor { at: entry.place, depth: depth + 1 })))
        }
    }
}

// ---- rows
pub const ROW_WORDS: usize = 8;

// The words of a row, where there is room for them.
pub fn put_row(out: &mut [u32], at: usize, row: Row) {
    let e = row.entry;
    if let Some(room) = out.get_mut(at..at + ROW_WORDS) {
        room.copy_from_slice(&[
            row.level as u32,
            e.number,
            e.typ as u32,
            e.wire as u32,
            e.place as u32,
            e.size as u32,
            e.value as u32,
            (e.value >> 32) as u32,
        ]);
    }
}
