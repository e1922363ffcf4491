// Identifiers, paths, and the candidates of a name in a scope: crates/ident, crates/path and crates/candidates.
const MOST_IDENT: usize = 64;
const MOST_PATH: usize = 255;
pub const MOST_CANDIDATE: usize = MOST_PATH + 1 + MOST_PATH;

fn is_letter(b: u8) -> bool {
    b.is_ascii_alphabetic() || b == b'_'
}

fn is_word(b: u8) -> bool {
    b.is_ascii_alphanumeric() || b == b'_'
}

pub fn is_ident(s: &[u8]) -> bool {
    !s.is_empty() && s.len() <= MOST_IDENT && is_letter(s[0]) && s[1..].iter().all(|b| is_word(*b))
}

fn all_ident(s: &[u8]) -> bool {
    s.split(|b| *b == b'.').all(is_ident)
}

pub fn is_rel_path(s: &[u8]) -> bool {
    s.len() <= MOST_PATH && all_ident(s)
}

pub fn is_rel_or_empty(s: &[u8]) -> bool {
    s.is_empty() || is_rel_path(s)
}

pub fn is_path(s: &[u8]) -> bool {
    s.len() <= MOST_PATH && all_ident(s.strip_prefix(b".").unwrap_or(s))
}

pub fn component_end(s: &[u8], at: usize) -> usize {
    let mut i = at;
    while i < s.len() && s[i] != b'.' {
        i += 1;
    }
    i
}

pub fn before(s: &[u8], at: usize) -> &[u8] {
    if at == 0 {
        return &s[..0];
    }
    &s[..at - 1]
}

pub fn last_at(s: &[u8]) -> usize {
    s.iter().rposition(|b| *b == b'.').map_or(0, |i| i + 1)
}

fn count(s: &[u8]) -> usize {
    if s.is_empty() {
        return 0;
    }
    s.iter().filter(|b| **b == b'.').count() + 1
}

fn ancestor(s: &[u8], i: usize) -> &[u8] {
    let mut end = s.len();
    for _ in 0..i {
        end = s[..end].iter().rposition(|b| *b == b'.').unwrap_or(0);
    }
    &s[..end]
}

fn put_all(room: &mut [u8], at: usize, bytes: &[u8]) -> usize {
    room[at..at + bytes.len()].copy_from_slice(bytes);
    at + bytes.len()
}

pub fn candidates(scope: &[u8], path: &[u8]) -> usize {
    if path.first() == Some(&b'.') {
        return 1;
    }
    count(scope) + 1
}

pub fn candidate(scope: &[u8], path: &[u8], i: usize, room: &mut [u8]) -> usize {
    if path.first() == Some(&b'.') {
        return put_all(room, 0, &path[1..]);
    }
    if i < count(scope) {
        let n = put_all(room, 0, ancestor(scope, i));
        room[n] = b'.';
        return put_all(room, n + 1, path);
    }
    put_all(room, 0, path)
}
