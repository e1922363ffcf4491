// The call `list`, in two passes, with nothing allocated: crates/listing.
use crate::form::{check_length, check_sheet};
use crate::harness::Answer;
use crate::levels::{next, put_row, start, Stack, NO_LEVELS, ROW_WORDS};
use crate::paths::is_rel_path;
use crate::reply::{done, judge, refused, Refusal, Verdict};
use crate::search::{find_message_by_abs_name, LookupScope};

const MOST_OPTION_BYTES: usize = 65_536;

pub fn check_options_type(path: &[u8]) -> Verdict {
    judge(is_rel_path(path), Refusal::BadRequest)
}

pub fn check_bytes(bytes: &[u8]) -> Verdict {
    judge(bytes.len() <= MOST_OPTION_BYTES, Refusal::BeyondLimit)
}

// The rows from the front of the lent memory on, as far as there is room, and how many words they are.
fn put_rows(s: &[u8], options_type: &[u8], place: LookupScope, bytes: &[u8], stack: &mut Stack, out: &mut [u32]) -> Result<usize, Refusal> {
    let mut cursor = start(bytes, stack, place);
    let mut n = 0;
    while let Some((row, rest)) = next(s, options_type, bytes, stack, cursor)? {
        put_row(out, n, row);
        n += ROW_WORDS;
        cursor = rest;
    }
    Ok(n)
}

fn list_over(s: &[u8], options_type: &[u8], bytes: &[u8], out: &mut [u32]) -> Result<usize, Refusal> {
    check_length(s)?;
    check_options_type(options_type)?;
    check_bytes(bytes)?;
    let place = find_message_by_abs_name(s, options_type)?;
    let mut stack = NO_LEVELS;
    let n = put_rows(s, options_type, place, bytes, &mut stack, &mut [])?;
    judge(n <= out.len(), Refusal::NoRoom)?;
    put_rows(s, options_type, place, bytes, &mut stack, out)
}

pub fn list_tested(s: &[u8], options_type: &[u8], bytes: &[u8], out: &mut [u32]) -> Answer {
    match list_over(s, options_type, bytes, out) {
        Err(why) => refused(why),
        Ok(n) => done(n),
    }
}

pub fn list(s: &[u8], options_type: &[u8], bytes: &[u8], out: &mut [u32]) -> Answer {
    match check_sheet(s) {
        Err(why) => refused(why),
        Ok(()) => list_tested(s, options_type, bytes, out),
    }
}
