// The calls in Rust: a program of the bench that does the same walk over the same bytes as the Rattle code, function by function, in its
// order and by its names, with nothing allocated. Bytes are compared and copied, text is tested and numbers are rounded by the standard
// library's functions. `clean` and `contained` are not among them.
mod fields;
mod form;
#[allow(dead_code)]
#[path = "../harness.rs"]
mod harness;
mod levels;
mod listing;
mod paths;
mod query;
mod reply;
mod request;
mod resolve;
mod search;
mod steps;
mod values;

use harness::*;

fn check(sheet: &[u8]) -> Answer {
    match form::check_sheet(sheet) {
        Err(why) => reply::refused(why),
        Ok(()) => reply::done(0),
    }
}

fn called(call: u8, sheet: &[u8], with: &[&[u8]], room: &mut Room) -> Answer {
    let (bytes, words) = (&mut room.bytes[..], &mut room.words[..]);
    match call {
        CHECK => check(sheet),
        FIND => search::find(sheet, with[0], with[1], words),
        FIND_TESTED => search::find_tested(sheet, with[0], with[1], words),
        RESOLVE => resolve::resolve(sheet, with[0], bytes),
        RESOLVE_TESTED => resolve::resolve_tested(sheet, with[0], bytes),
        LIST => listing::list(sheet, with[0], with[1], words),
        LIST_TESTED => listing::list_tested(sheet, with[0], with[1], words),
        QUERY => query::query(sheet, with[0], with[1], with[2], words),
        QUERY_TESTED => query::query_tested(sheet, with[0], with[1], with[2], words),
        _ => panic!("no such call"),
    }
}

fn main() {
    let input = input();
    let job = job(&input);
    run(job.times, &job.cases, |case, room| called(job.call, job.sheet, case, room));
}
