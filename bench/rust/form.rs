// The form of sheets, requests and names. Crates declform, messageform, sheetform, constantform, optionform and requestform.
use crate::fields::*;
use crate::paths::*;
use crate::reply::Refusal::{self, *};
use crate::reply::{judge, Verdict};
use crate::request::*;
use crate::search::MOST_MESSAGES;

const MOST_SHEET: usize = 32_768;
const MOST_FILES: usize = 8;
const MOST_NUMBER: u32 = 536_870_911;
const MOST_REQUEST: usize = 8_192;
const MOST_URL: usize = 255;
pub const MOST_OPTIONS: usize = 128;
pub const MOST_PARTS: usize = 16;
pub const MOST_CONSTANTS: usize = 16;

// ---- a sheet
fn good_field(s: &[u8], d: Declaration) -> bool {
    let h = d.shape;
    is_ident(d.name.of(s))
        && (1..=MOST_NUMBER).contains(&h.number)
        && (1..=18).contains(&h.typ)
        && (1..=3).contains(&h.label)
        && (!has_type_path(h.typ) || is_rel_path(h.path.of(s)))
}

fn is_extension(s: &[u8], item: Span) -> bool {
    extension_at(s, item).is_some_and(|d| is_rel_path(d.extendee.of(s)) && good_field(s, d))
}

fn is_field(s: &[u8], item: Span) -> bool {
    message_field_at(s, item).is_some_and(|d| good_field(s, d))
}

fn is_value(s: &[u8], item: Span) -> bool {
    value_at(s, item).is_some_and(|(name, _)| is_ident(name.of(s)))
}

fn ident_at(s: &[u8], item: Span) -> Option<Span> {
    leaf_at(s, item.from, item.to, NAME).filter(|p| is_ident(p.of(s)))
}

fn check_enum(s: &[u8], item: Span) -> Verdict {
    let mut at = ident_at(s, item).ok_or(BadSheet)?.to;
    while at < item.to {
        let (tag, value) = field_at(s, at, item.to).ok_or(BadSheet)?;
        judge(tag == VALUE && is_value(s, value), BadSheet)?;
        at = value.to;
    }
    Ok(())
}

fn check_message(s: &[u8], item: Span, left: usize) -> Verdict {
    judge(left != 0, BeyondLimit)?;
    let name = ident_at(s, item).ok_or(BadSheet)?;
    check_items(s, Span { from: name.to, to: item.to }, left - 1, true)
}

fn check_items(s: &[u8], body: Span, left: usize, fields: bool) -> Verdict {
    let mut at = body.from;
    while at < body.to {
        let (tag, item) = field_at(s, at, body.to).ok_or(BadSheet)?;
        match tag {
            MESSAGE => check_message(s, item, left)?,
            EXTENSION => judge(is_extension(s, item), BadSheet)?,
            ENUM => check_enum(s, item)?,
            FIELD => judge(fields && is_field(s, item), BadSheet)?,
            _ => return Err(BadSheet),
        }
        at = item.to;
    }
    Ok(())
}

pub fn check_length(s: &[u8]) -> Verdict {
    judge(s.len() <= MOST_SHEET, BeyondLimit)
}

pub fn check_sheet(s: &[u8]) -> Verdict {
    check_length(s)?;
    let (mut at, mut index) = (0, 0);
    while at < s.len() {
        let (tag, item) = field_at(s, at, s.len()).ok_or(BadSheet)?;
        judge(tag == FILE, BadSheet)?;
        judge(index < MOST_FILES, BeyondLimit)?;
        let package = leaf_at(s, item.from, item.to, PACKAGE).filter(|p| is_rel_or_empty(p.of(s))).ok_or(BadSheet)?;
        check_items(s, Span { from: package.to, to: item.to }, MOST_MESSAGES, false)?;
        index += 1;
        at = item.to;
    }
    Ok(())
}

// ---- a request
fn good_scalar(tag: u8, bytes: &[u8]) -> bool {
    match tag {
        BOOL => bytes.len() == 1 && bytes[0] <= 1,
        STRING => true,
        IDENT => is_ident(bytes),
        _ => bytes.len() == 8,
    }
}

fn check_constant(s: &[u8], tag: u8, place: Span, left: usize) -> Verdict {
    judge((BOOL..=MESSAGE_CONSTANT).contains(&tag) || tag == LIST, BadRequest)?;
    judge(left != 0, BeyondLimit)?;
    match tag {
        MESSAGE_CONSTANT => check_pairs(s, place, left - 1),
        LIST => check_elements(s, place, left - 1),
        _ => judge(good_scalar(tag, place.of(s)), BadRequest),
    }
}

fn check_elements(s: &[u8], place: Span, left: usize) -> Verdict {
    let mut at = place.from;
    while at < place.to {
        let (tag, element) = field_at(s, at, place.to).ok_or(BadRequest)?;
        check_constant(s, tag, element, left)?;
        at = element.to;
    }
    Ok(())
}

fn good_pair_name(tag: u8, bytes: &[u8]) -> bool {
    match tag {
        PAIR_FIELD => is_ident(bytes),
        PAIR_EXTENSION => is_rel_path(bytes),
        _ => (1..=MOST_URL).contains(&bytes.len()),
    }
}

fn check_pairs(s: &[u8], place: Span, left: usize) -> Verdict {
    let mut at = place.from;
    while at < place.to {
        let pair = pair_at(s, at, place.to).ok_or(BadRequest)?;
        judge(good_pair_name(pair.by, pair.name.of(s)), BadRequest)?;
        check_constant(s, pair.tag, pair.constant, left)?;
        at = pair.constant.to;
    }
    Ok(())
}

// Where the parts end that stand from a place on.
fn check_parts(s: &[u8], from: usize, to: usize) -> Result<usize, Refusal> {
    let (mut at, mut n) = (from, 0);
    while at < to {
        let Some(part) = part_at(s, at, to) else {
            break;
        };
        judge(n < MOST_PARTS, BeyondLimit)?;
        let name = part.name.of(s);
        judge(if part.extension { is_path(name) } else { is_ident(name) }, BadRequest)?;
        n += 1;
        at = part.name.to;
    }
    Ok(at)
}

fn check_option(s: &[u8], index: usize, tag: u8, place: Span) -> Verdict {
    judge(tag == OPTION, BadRequest)?;
    judge(index < MOST_OPTIONS, BeyondLimit)?;
    let at = check_parts(s, place.from, place.to)?;
    judge(at != place.from, BadRequest)?;
    let (tag, constant) = field_at(s, at, place.to).ok_or(BadRequest)?;
    check_constant(s, tag, constant, MOST_CONSTANTS)?;
    judge(constant.to == place.to, BadRequest)
}

pub fn check_request(s: &[u8]) -> Verdict {
    judge(s.len() <= MOST_REQUEST, BeyondLimit)?;
    let (scope, options_type) = heading_of(s).ok_or(BadRequest)?;
    judge(is_rel_or_empty(scope.of(s)) && is_rel_path(options_type.of(s)), BadRequest)?;
    let (mut at, mut index) = (options_type.to, 0);
    while at < s.len() {
        let (tag, option) = field_at(s, at, s.len()).ok_or(BadRequest)?;
        check_option(s, index, tag, option)?;
        index += 1;
        at = option.to;
    }
    Ok(())
}

// A name that a call is given alone.
pub fn check_name(s: &[u8]) -> Verdict {
    let at = check_parts(s, 0, s.len())?;
    judge(at != 0 && at == s.len(), BadRequest)
}
