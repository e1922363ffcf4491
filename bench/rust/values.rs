// Constants on fields, written: scalars, lists and messages. Crates scalars, records and values.
use crate::fields::*;
use crate::reply::Refusal::{self, *};
use crate::request::{constant_of, pair_at, Constant, PAIR_FIELD};
use crate::search::{field_named, find_enum_by_abs_name, find_message_by_abs_name, value_named, LookupScope};

// ---- scalars
#[derive(Clone, Copy)]
pub enum Body {
    Bits(u64),
    Bytes(Span),
}

fn is_small(typ: u8) -> bool {
    matches!(typ, 5 | 7 | 13 | 15 | 17)
}

fn is_signed(typ: u8) -> bool {
    matches!(typ, 3 | 5 | 15 | 16 | 17 | 18)
}

fn is_integer(typ: u8) -> bool {
    is_small(typ) || is_signed(typ) || matches!(typ, 4 | 6)
}

fn most_of(minus: bool, typ: u8) -> u64 {
    match (minus, is_signed(typ), is_small(typ)) {
        (true, true, true) => 1 << 31,
        (true, true, false) => 1 << 63,
        (true, false, _) => 0,
        (false, true, true) => i32::MAX as u64,
        (false, true, false) => i64::MAX as u64,
        (false, false, true) => u32::MAX as u64,
        (false, false, false) => u64::MAX,
    }
}

fn integer_on(typ: u8, minus: bool, size: u64) -> Result<Body, Refusal> {
    if is_integer(typ) {
        if size > most_of(minus, typ) {
            return Err(ValueRange);
        }
        return Ok(Body::Bits(if minus { size.wrapping_neg() } else { size }));
    }
    match typ {
        TYPE_FLOAT => Ok(Body::Bits(if minus { -(size as f32) } else { size as f32 }.to_bits() as u64)),
        TYPE_DOUBLE => Ok(Body::Bits(if minus { -(size as f64) } else { size as f64 }.to_bits())),
        _ => Err(UnsupportedExtensionType),
    }
}

fn float_on(typ: u8, x: f64) -> Result<Body, Refusal> {
    match typ {
        TYPE_DOUBLE => Ok(Body::Bits(x.to_bits())),
        TYPE_FLOAT => Ok(Body::Bits(if x.is_nan() { 0x7fc0_0000 } else { (x as f32).to_bits() as u64 })),
        _ => Err(UnsupportedExtensionType),
    }
}

fn string_on(request: &[u8], typ: u8, place: Span) -> Result<Body, Refusal> {
    match typ {
        TYPE_STRING if std::str::from_utf8(place.of(request)).is_err() => Err(StrLitDecodeError),
        TYPE_STRING | TYPE_BYTES => Ok(Body::Bytes(place)),
        _ => Err(UnsupportedExtensionType),
    }
}

fn ident_on(sheet: &[u8], request: &[u8], unlisted: Refusal, shape: Shape, place: Span) -> Result<Body, Refusal> {
    if shape.typ != TYPE_ENUM {
        return Err(UnsupportedExtensionType);
    }
    let values = find_enum_by_abs_name(sheet, shape.path.of(sheet))?;
    let number = value_named(sheet, values, place.of(request)).ok_or(unlisted)?;
    Ok(Body::Bits(number as i32 as u64))
}

pub fn scalar_on(sheet: &[u8], request: &[u8], unlisted: Refusal, shape: Shape, constant: Constant) -> Result<Body, Refusal> {
    match constant {
        Constant::Bool(b) if shape.typ == TYPE_BOOL => Ok(Body::Bits(b as u64)),
        Constant::Integer { minus, size } => integer_on(shape.typ, minus, size),
        Constant::Float(x) => float_on(shape.typ, x),
        Constant::Text(place) => string_on(request, shape.typ, place),
        Constant::Ident(place) => ident_on(sheet, request, unlisted, shape, place),
        _ => Err(UnsupportedExtensionType),
    }
}

// ---- records
fn put(out: &mut [u8], at: usize, b: u8) {
    if let Some(place) = out.get_mut(at) {
        *place = b;
    }
}

fn put_all(out: &mut [u8], at: usize, bytes: &[u8]) -> usize {
    if let Some(part) = out.get_mut(at..at + bytes.len()) {
        part.copy_from_slice(bytes);
    }
    at + bytes.len()
}

fn put_varint(out: &mut [u8], at: usize, v: u64) -> usize {
    let (mut x, mut i) = (v, at);
    while x >= 128 {
        put(out, i, x as u8 | 128);
        x >>= 7;
        i += 1;
    }
    put(out, i, x as u8);
    i + 1
}

fn put_payload(out: &mut [u8], at: usize, typ: u8, bits: u64) -> usize {
    match wire_of(typ) {
        I32 => put_all(out, at, &(bits as u32).to_le_bytes()),
        I64 => put_all(out, at, &bits.to_le_bytes()),
        _ if matches!(typ, TYPE_SINT32 | TYPE_SINT64) => put_varint(out, at, (bits << 1) ^ ((bits as i64) >> 63) as u64),
        _ => put_varint(out, at, bits),
    }
}

fn put_tag(out: &mut [u8], at: usize, number: u32, wire: u8) -> usize {
    put_varint(out, at, number as u64 * 8 + wire as u64)
}

fn put_head(out: &mut [u8], at: usize, number: u32, length: usize) -> usize {
    let p = put_tag(out, at, number, LEN);
    put_varint(out, p, length as u64)
}

fn varint_len(v: u64) -> usize {
    (70 - (v | 1).leading_zeros() as usize) / 7
}

pub fn shortest_head(number: u32) -> usize {
    varint_len(number as u64 * 8 + LEN as u64) + 1
}

pub fn enclose(out: &mut [u8], at: usize, number: u32, size: usize) -> usize {
    let from = at + shortest_head(number);
    let to = from + varint_len(size as u64) - 1;
    if from < to && to + size <= out.len() {
        out.copy_within(from..from + size, to);
    }
    put_head(out, at, number, size) + size
}

pub fn put_record(request: &[u8], shape: Shape, body: Body, out: &mut [u8], at: usize) -> usize {
    match body {
        Body::Bits(bits) => {
            let p = put_tag(out, at, shape.number, wire_of(shape.typ));
            put_payload(out, p, shape.typ, bits)
        }
        Body::Bytes(place) => {
            let p = put_head(out, at, shape.number, place.to - place.from);
            put_all(out, p, place.of(request))
        }
    }
}

// ---- values
#[derive(Clone, Copy)]
pub struct Inputs<'a> {
    pub sheet: &'a [u8],
    pub request: &'a [u8],
}

type Wrote = Result<usize, Refusal>;

fn put_message(of: Inputs, shape: Shape, place: Span, left: usize, out: &mut [u8], at: usize) -> Wrote {
    if shape.typ != TYPE_MESSAGE {
        return Err(MessageFieldRequiresMessageConstant);
    }
    let scope = find_message_by_abs_name(of.sheet, shape.path.of(of.sheet))?;
    let start = at + shortest_head(shape.number);
    let end = put_pairs(of, scope, place, left, out, start)?;
    Ok(enclose(out, at, shape.number, end - start))
}

fn put_pairs(of: Inputs, scope: LookupScope, place: Span, left: usize, out: &mut [u8], at: usize) -> Wrote {
    let (mut p, mut i) = (at, place.from);
    while i < place.to {
        let Some(pair) = pair_at(of.request, i, place.to) else {
            break;
        };
        i = pair.constant.to;
        if pair.by == PAIR_FIELD {
            let shape = field_named(of.sheet, scope, pair.name.of(of.request)).ok_or(UnknownFieldName)?.shape;
            p = put_value(of, shape, pair.tag, pair.constant, left, out, p)?;
        }
    }
    Ok(p)
}

fn put_list(of: Inputs, shape: Shape, place: Span, left: usize, out: &mut [u8], at: usize) -> Wrote {
    let (mut p, mut i) = (at, place.from);
    while i < place.to {
        let Some((tag, element)) = field_at(of.request, i, place.to) else {
            break;
        };
        p = put_value(of, shape, tag, element, left, out, p)?;
        i = element.to;
    }
    Ok(p)
}

pub fn put_value(of: Inputs, shape: Shape, tag: u8, place: Span, left: usize, out: &mut [u8], at: usize) -> Wrote {
    if left == 0 {
        return Ok(at);
    }
    match constant_of(of.request, tag, place) {
        None => Ok(at),
        Some(Constant::List) => put_list(of, shape, place, left - 1, out, at),
        Some(Constant::Message) => put_message(of, shape, place, left - 1, out, at),
        Some(constant) => {
            let body = scalar_on(of.sheet, of.request, UnknownEnumValue, shape, constant)?;
            Ok(put_record(of.request, shape, body, out, at))
        }
    }
}
