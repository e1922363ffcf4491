// The search: scopes, the scopes at a path, messages, enums and extensions by name, and the call `find`. Crates scope, named, cursor,
// fullname, extensions, lookups and find.
use crate::fields::*;
use crate::form::{check_length, check_sheet};
use crate::harness::Answer;
use crate::paths::*;
use crate::reply::{done, judge, refused, Refusal};

pub const MOST_MESSAGES: usize = 16;

#[derive(Clone, Copy)]
pub struct LookupScope {
    pub file: usize,
    pub message: bool,
    pub body: Span,
    pub left: usize,
}

#[derive(Clone, Copy)]
struct Cursor {
    next: usize,
    at: usize,
    file: usize,
}

struct Found {
    file: usize,
    declaration: Declaration,
}

// ---- one scope
fn named_at(s: &[u8], item: Span, name: &[u8]) -> Option<Span> {
    leaf_at(s, item.from, item.to, NAME).filter(|p| p.of(s) == name)
}

fn body_named(s: &[u8], scope: LookupScope, want: u8, name: &[u8]) -> Option<Span> {
    let mut at = scope.body.from;
    while at < scope.body.to {
        let (tag, item) = field_at(s, at, scope.body.to)?;
        if tag == want {
            if let Some(p) = named_at(s, item, name) {
                return Some(Span { from: p.to, to: item.to });
            }
        }
        at = item.to;
    }
    None
}

fn down(s: &[u8], scope: LookupScope, name: &[u8]) -> Option<LookupScope> {
    if scope.left == 0 {
        return None;
    }
    let body = body_named(s, scope, MESSAGE, name)?;
    Some(LookupScope { file: scope.file, message: true, body, left: scope.left - 1 })
}

fn declaration_at(s: &[u8], item: Span, want: u8) -> Option<Declaration> {
    if want == EXTENSION {
        extension_at(s, item)
    } else {
        message_field_at(s, item)
    }
}

fn declaration_named(s: &[u8], scope: LookupScope, want: u8, name: &[u8]) -> Option<Declaration> {
    let mut at = scope.body.from;
    while at < scope.body.to {
        let (tag, item) = field_at(s, at, scope.body.to)?;
        if named_at(s, item, name).is_some() && tag == want {
            if let Some(d) = declaration_at(s, item, want) {
                return Some(d);
            }
        }
        at = item.to;
    }
    None
}

pub fn field_named(s: &[u8], message: LookupScope, name: &[u8]) -> Option<Declaration> {
    declaration_named(s, message, FIELD, name)
}

// ---- the scopes at a path
fn start(bare: bool) -> Cursor {
    Cursor { next: bare as usize, at: 0, file: 0 }
}

fn follow(s: &[u8], names: &[u8], next: usize, scope: LookupScope) -> Option<LookupScope> {
    let mut reached = scope;
    let mut at = next;
    while at <= names.len() {
        let end = component_end(names, at);
        reached = down(s, reached, &names[at..end])?;
        at = end + 1;
    }
    Some(reached)
}

fn next_here(s: &[u8], names: &[u8], cursor: Cursor) -> Option<(LookupScope, Cursor)> {
    let mut at = cursor.at;
    let mut file = cursor.file;
    while at < s.len() {
        let (tag, item) = field_at(s, at, s.len())?;
        at = item.to;
        if tag != FILE {
            continue;
        }
        let Some(package) = leaf_at(s, item.from, item.to, PACKAGE) else {
            continue;
        };
        let index = file;
        file += 1;
        if package.of(s) == before(names, cursor.next) {
            let body = Span { from: package.to, to: item.to };
            let scope = LookupScope { file: index, message: false, body, left: MOST_MESSAGES };
            if let Some(reached) = follow(s, names, cursor.next, scope) {
                return Some((reached, Cursor { next: cursor.next, at, file }));
            }
        }
    }
    None
}

fn next_scope(s: &[u8], names: &[u8], cursor: Cursor) -> Option<(LookupScope, Cursor)> {
    let mut c = cursor;
    loop {
        if let Some(next) = next_here(s, names, c) {
            return Some(next);
        }
        if names.len() < c.next {
            return None;
        }
        c = Cursor { next: component_end(names, c.next) + 1, at: 0, file: 0 };
    }
}

// ---- messages and enums by full name
fn next_message(s: &[u8], path: &[u8], cursor: Cursor) -> Option<(LookupScope, Cursor)> {
    let mut c = cursor;
    loop {
        let (scope, rest) = next_scope(s, path, c)?;
        if scope.message {
            return Some((scope, rest));
        }
        c = rest;
    }
}

pub fn find_message_by_abs_name(s: &[u8], path: &[u8]) -> Result<LookupScope, Refusal> {
    let (scope, rest) = next_message(s, path, start(path.is_empty())).ok_or(Refusal::MessageNotFound)?;
    match next_message(s, path, rest) {
        Some(_) => Err(Refusal::MessageFoundMoreThanOnce),
        None => Ok(scope),
    }
}

fn next_enum(s: &[u8], names: &[u8], cursor: Cursor, name: &[u8]) -> Option<(Span, Cursor)> {
    let mut c = cursor;
    loop {
        let (scope, rest) = next_scope(s, names, c)?;
        if let Some(values) = body_named(s, scope, ENUM, name) {
            return Some((values, rest));
        }
        c = rest;
    }
}

pub fn find_enum_by_abs_name(s: &[u8], path: &[u8]) -> Result<Span, Refusal> {
    if path.is_empty() {
        return Err(Refusal::MessageNotFound);
    }
    let last = last_at(path);
    let (names, name) = (before(path, last), &path[last..]);
    let (values, rest) = next_enum(s, names, start(last == 0), name).ok_or(Refusal::MessageNotFound)?;
    match next_enum(s, names, rest, name) {
        Some(_) => Err(Refusal::MessageFoundMoreThanOnce),
        None => Ok(values),
    }
}

pub fn value_named(s: &[u8], values: Span, name: &[u8]) -> Option<u32> {
    let mut at = values.from;
    while at < values.to {
        let (tag, item) = field_at(s, at, values.to)?;
        if tag == VALUE && named_at(s, item, name).is_some() {
            if let Some((_, number)) = value_at(s, item) {
                return Some(number);
            }
        }
        at = item.to;
    }
    None
}

// ---- extensions
fn find_extension_by_abs_path(s: &[u8], path: &[u8]) -> Option<Found> {
    if path.is_empty() {
        return None;
    }
    let last = last_at(path);
    let names = before(path, last);
    let mut c = start(last == 0);
    loop {
        let (scope, rest) = next_scope(s, names, c)?;
        c = rest;
        if let Some(declaration) = declaration_named(s, scope, EXTENSION, &path[last..]) {
            return Some(Found { file: scope.file, declaration });
        }
    }
}

fn find_extension_by_path(s: &[u8], scope: &[u8], path: &[u8]) -> Result<Found, Refusal> {
    let mut room = [0u8; MOST_CANDIDATE];
    for i in 0..candidates(scope, path) {
        let n = candidate(scope, path, i, &mut room);
        if let Some(found) = find_extension_by_abs_path(s, &room[..n]) {
            return Ok(found);
        }
    }
    Err(Refusal::ExtensionNotFound)
}

// The extension that a name finds in a scope, compared with a message.
pub fn extension(s: &[u8], scope: &[u8], message: &[u8], name: &[u8]) -> Result<Declaration, Refusal> {
    let found = find_extension_by_path(s, scope, name)?.declaration;
    if found.extendee.of(s) != message {
        return Err(Refusal::WrongExtensionType);
    }
    Ok(found)
}

// ---- the call
fn finding_tested(s: &[u8], scope: &[u8], path: &[u8]) -> Result<Found, Refusal> {
    check_length(s)?;
    judge(is_rel_or_empty(scope), Refusal::BadRequest)?;
    judge(is_path(path), Refusal::BadRequest)?;
    find_extension_by_path(s, scope, path)
}

fn put_found(found: Found, out: &mut [u32]) -> Answer {
    let Declaration { name, extendee, shape } = found.declaration;
    let (place, size) = (|p: Span| p.from as u32, |p: Span| (p.to - p.from) as u32);
    let words = [
        found.file as u32,
        place(name),
        size(name),
        place(extendee),
        size(extendee),
        shape.number,
        shape.typ as u32,
        shape.label as u32,
        place(shape.path),
        size(shape.path),
    ];
    match out.get_mut(..words.len()) {
        None => refused(Refusal::NoRoom),
        Some(room) => {
            room.copy_from_slice(&words);
            done(words.len())
        }
    }
}

pub fn find_tested(s: &[u8], scope: &[u8], path: &[u8], out: &mut [u32]) -> Answer {
    match finding_tested(s, scope, path) {
        Err(why) => refused(why),
        Ok(found) => put_found(found, out),
    }
}

pub fn find(s: &[u8], scope: &[u8], path: &[u8], out: &mut [u32]) -> Answer {
    match check_sheet(s) {
        Err(why) => refused(why),
        Ok(()) => find_tested(s, scope, path, out),
    }
}
