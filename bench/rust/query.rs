// The call `query`: the name becomes places of declarations first, then the rows are followed by them in one pass. Crates naming, following
// and query.
use crate::fields::Span;
use crate::form::{check_length, check_name, check_sheet, MOST_PARTS};
use crate::harness::Answer;
use crate::levels::{next, put_row, start, Row, NO_LEVELS, ROW_WORDS};
use crate::listing::{check_bytes, check_options_type};
use crate::reply::{absent, done, judge, refused, Cause, Refusal, NOWHERE};
use crate::request::part_at;
use crate::search::{find_message_by_abs_name, LookupScope};
use crate::steps::{behind, step_of, Message, Reach};

// Where the name of each part's declaration stands in the sheet.
type Keys = [usize; MOST_PARTS];

// How many parts a name has; nothing where parts are left on a group.
fn declare(s: &[u8], name: &[u8], options: Message, keys: &mut Keys) -> Result<Option<usize>, Cause> {
    let (mut message, mut at, mut count) = (options, 0, 0);
    while let Some(part) = part_at(name, at, name.len()) {
        let refused = |why| Cause { why, option: NOWHERE, part: count as u32 };
        let d = step_of(s, name, &[], message, part).map_err(refused)?;
        keys[count] = d.name.from;
        at = part.name.to;
        match behind(s, name, d.shape, Span { from: at, to: name.len() }).map_err(refused)? {
            Reach::Constant => {}
            Reach::Nothing => return Ok(None),
            Reach::Inside(inner) => message = inner,
        }
        count += 1;
    }
    Ok(Some(count))
}

// The row that all keys lead to: at each part the last record counts.
fn follow_rows(s: &[u8], options_type: &[u8], place: LookupScope, bytes: &[u8], keys: &[usize]) -> Result<Option<Row>, Refusal> {
    let mut stack = NO_LEVELS;
    let mut cursor = start(bytes, &mut stack, place);
    let (mut matched, mut best) = (0, None);
    while let Some((row, rest)) = next(s, options_type, bytes, &mut stack, cursor)? {
        cursor = rest;
        if matched < row.level {
            continue;
        }
        matched = row.level;
        let by = row.entry.by;
        if by.is_none() || by.as_ref() != keys.get(row.level) {
            continue;
        }
        if row.level + 1 == keys.len() {
            best = Some(row);
        } else {
            matched += 1;
            best = None;
        }
    }
    Ok(best)
}

fn query_over(s: &[u8], options_type: &[u8], name: &[u8], bytes: &[u8]) -> Result<Option<Row>, Cause> {
    check_length(s)?;
    check_options_type(options_type)?;
    check_name(name)?;
    check_bytes(bytes)?;
    let place = find_message_by_abs_name(s, options_type)?;
    let mut keys = [0; MOST_PARTS];
    let naming = declare(s, name, Message { name: options_type, place }, &mut keys);
    let count = naming.ok().flatten().unwrap_or(0);
    let best = follow_rows(s, options_type, place, bytes, &keys[..count])?;
    naming.map(|_| best)
}

pub fn query_tested(s: &[u8], options_type: &[u8], name: &[u8], bytes: &[u8], out: &mut [u32]) -> Answer {
    match query_over(s, options_type, name, bytes) {
        Err(cause) => refused(cause),
        Ok(None) => absent(),
        Ok(Some(row)) => match judge(out.len() >= ROW_WORDS, Refusal::NoRoom) {
            Err(why) => refused(why),
            Ok(()) => {
                put_row(out, 0, row);
                done(ROW_WORDS)
            }
        },
    }
}

pub fn query(s: &[u8], options_type: &[u8], name: &[u8], bytes: &[u8], out: &mut [u32]) -> Answer {
    match check_sheet(s) {
        Err(why) => refused(why),
        Ok(()) => query_tested(s, options_type, name, bytes, out),
    }
}
