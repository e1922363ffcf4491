// Sheets and requests as bytes, by the tables [FORM-2] to [FORM-4] of docs/RULES.md, and the story of
// examples/order.proto. The crate's documentation examples take this file in too.

pub const FIELD_OPTIONS: &str = "google.protobuf.FieldOptions";
pub const MESSAGE_OPTIONS: &str = "google.protobuf.MessageOptions";

/// A field: tag, length, payload.
pub fn f(tag: u8, payload: impl AsRef<[u8]>) -> Vec<u8> {
    let payload = payload.as_ref();
    let length = u16::try_from(payload.len()).expect("a length has two bytes");
    [&[tag][..], &length.to_be_bytes(), payload].concat()
}

// ---- sheets

/// A type's number in descriptor.proto, and a type path or nothing.
pub type Type = (u8, &'static str);
pub const BOOL: Type = (8, "");
pub const STRING: Type = (9, "");
pub const UINT32: Type = (13, "");

pub fn message_type(path: &'static str) -> Type {
    (11, path)
}

pub fn enum_type(path: &'static str) -> Type {
    (14, path)
}

pub const OPTIONAL: u8 = 1;
pub const REPEATED: u8 = 3;

fn shape(number: u32, (kind, path): Type, label: u8) -> Vec<u8> {
    let path = if path.is_empty() { Vec::new() } else { f(0x16, path) };
    [f(0x13, number.to_be_bytes()), f(0x14, [kind]), f(0x15, [label]), path].concat()
}

pub fn file(package: &str, items: &[Vec<u8>]) -> Vec<u8> {
    f(0x01, [f(0x10, package), items.concat()].concat())
}

pub fn message(name: &str, items: &[Vec<u8>]) -> Vec<u8> {
    f(0x02, [f(0x11, name), items.concat()].concat())
}

pub fn extension(name: &str, number: u32, kind: Type, extendee: &str) -> Vec<u8> {
    f(0x03, [f(0x11, name), f(0x12, extendee), shape(number, kind, OPTIONAL)].concat())
}

pub fn enumeration(name: &str, values: &[(&str, i32)]) -> Vec<u8> {
    let value = |(name, number): &(&str, i32)| f(0x06, [f(0x11, name), f(0x17, number.to_be_bytes())].concat());
    f(0x04, [f(0x11, name), values.iter().flat_map(value).collect()].concat())
}

pub fn field(name: &str, number: u32, kind: Type, label: u8) -> Vec<u8> {
    f(0x05, [f(0x11, name), shape(number, kind, label)].concat())
}

// ---- requests

pub fn truth(value: bool) -> Vec<u8> {
    f(0x20, [value as u8])
}

pub fn unsigned(value: u64) -> Vec<u8> {
    f(0x21, value.to_be_bytes())
}

pub fn text(bytes: impl AsRef<[u8]>) -> Vec<u8> {
    f(0x24, bytes)
}

pub fn identifier(name: &str) -> Vec<u8> {
    f(0x25, name)
}

/// A message constant: names of fields, each with a constant.
pub fn pairs(pairs: &[(&str, Vec<u8>)]) -> Vec<u8> {
    f(0x26, pairs.iter().flat_map(|(name, constant)| [f(0x27, name), constant.clone()].concat()).collect::<Vec<u8>>())
}

/// A name, written `(.a.x).v`: a part in parentheses is an extension's.
pub fn name(text: &str) -> Vec<u8> {
    let mut parts = Vec::new();
    let mut rest = text;
    while !rest.is_empty() {
        let (part, behind) = match rest.strip_prefix('(') {
            Some(inner) => {
                let (path, behind) = inner.split_once(')').expect("a closing parenthesis");
                (f(0x1B, path), behind)
            }
            None => {
                let end = rest.find('.').unwrap_or(rest.len());
                (f(0x1A, &rest[..end]), &rest[end..])
            }
        };
        parts.extend(part);
        rest = behind.strip_prefix('.').unwrap_or(behind);
    }
    parts
}

pub fn option(text: &str, constant: Vec<u8>) -> Vec<u8> {
    f(0x08, [name(text), constant].concat())
}

pub fn request(scope: &str, options_type: &str, options: &[Vec<u8>]) -> Vec<u8> {
    [f(0x18, scope), f(0x19, options_type), options.concat()].concat()
}

// ---- the story, as examples/make.py has it

fn plant(extendee: &str) -> Vec<u8> {
    let dispatch = message("Dispatch", &[extension("order", 50002, UINT32, extendee)]);
    file("plant", &[extension("order", 50001, UINT32, FIELD_OPTIONS), dispatch])
}

/// examples/order.proto: the fleet's `order`, and Dispatch's own.
pub fn schema() -> Vec<u8> {
    [plant(FIELD_OPTIONS), file("google.protobuf", &[message("FieldOptions", &[])])].concat()
}

/// The same, but Dispatch's own is one of messages.
pub fn mistaken_schema() -> Vec<u8> {
    let options = [message("FieldOptions", &[]), message("MessageOptions", &[])];
    [plant(MESSAGE_OPTIONS), file("google.protobuf", &options)].concat()
}

/// `[NAME = 7]` on a field of Dispatch.
pub fn seven(name: &str) -> Vec<u8> {
    request("plant.Dispatch", FIELD_OPTIONS, &[option(name, unsigned(7))])
}

/// Option bytes of a field: Dispatch's own is 7, the fleet's 3, and a number that the schema does not declare is 1.
pub const SET: [u8; 12] = [0x90, 0xB5, 0x18, 7, 0x88, 0xB5, 0x18, 3, 0x98, 0xB5, 0x18, 1];

/// What an old device has: examples/order.proto and an option that is a message, here with these fields.
pub fn fleet(fields: &[&str], more: &[Vec<u8>]) -> Vec<u8> {
    let limits: Vec<Vec<u8>> = (1..).zip(fields).map(|(number, name)| field(name, number, UINT32, OPTIONAL)).collect();
    let items = [
        extension("order", 50001, UINT32, FIELD_OPTIONS),
        message("Dispatch", &[extension("order", 50002, UINT32, FIELD_OPTIONS)]),
        message("Limits", &limits),
        extension("limits", 50003, message_type("plant.Limits"), FIELD_OPTIONS),
        more.concat(),
    ];
    [file("plant", &items), file("google.protobuf", &[message("FieldOptions", &[])])].concat()
}
