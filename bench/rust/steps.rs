// What a part of a name comes to, and what it leads to: crates/steps.
use crate::fields::{Declaration, Shape, Span, TYPE_GROUP, TYPE_MESSAGE};
use crate::reply::Refusal;
use crate::request::{part_at, Part};
use crate::search::{extension, field_named, find_message_by_abs_name, LookupScope};

// A message that was reached: the full name by which, and where it stands.
#[derive(Clone, Copy)]
pub struct Message<'a> {
    pub name: &'a [u8],
    pub place: LookupScope,
}

// What a part leads to: what stands behind the name, parts inside a message, or nothing.
pub enum Reach<'a> {
    Constant,
    Inside(Message<'a>),
    Nothing,
}

pub fn step_of(sheet: &[u8], request: &[u8], scope: &[u8], message: Message, part: Part) -> Result<Declaration, Refusal> {
    let name = part.name.of(request);
    if part.extension {
        return extension(sheet, scope, message.name, name);
    }
    field_named(sheet, message.place, name).ok_or(Refusal::UnknownFieldName)
}

pub fn behind<'a>(sheet: &'a [u8], request: &[u8], shape: Shape, rest: Span) -> Result<Reach<'a>, Refusal> {
    if part_at(request, rest.from, rest.to).is_none() {
        return Ok(Reach::Constant);
    }
    match shape.typ {
        TYPE_MESSAGE => {
            let name = shape.path.of(sheet);
            Ok(Reach::Inside(Message { name, place: find_message_by_abs_name(sheet, name)? }))
        }
        TYPE_GROUP => Ok(Reach::Nothing),
        _ => Err(Refusal::ExtensionIsNotMessage),
    }
}
