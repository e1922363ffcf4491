// This project's calls, by the functions that liboptc.a exports to C: a program of the bench.
mod harness;

use harness::*;

type In = *const u8;
type Words = *mut u32;

// As include/opt.h declares them: a slice is a pointer and how many elements it has. Nothing holds these lines against it but a run.
extern "C" {
    fn opt_sheet(s: In, n: usize) -> Answer;
    fn opt_find(s: In, n: usize, scope: In, m: usize, path: In, k: usize, out: Words, room: usize) -> Answer;
    fn opt_find_tested(s: In, n: usize, scope: In, m: usize, path: In, k: usize, out: Words, room: usize) -> Answer;
    fn opt_resolve(s: In, n: usize, request: In, m: usize, out: *mut u8, room: usize) -> Answer;
    fn opt_resolve_tested(s: In, n: usize, request: In, m: usize, out: *mut u8, room: usize) -> Answer;
    fn opt_list(s: In, n: usize, of: In, m: usize, bytes: In, k: usize, out: Words, room: usize) -> Answer;
    fn opt_list_tested(s: In, n: usize, of: In, m: usize, bytes: In, k: usize, out: Words, room: usize) -> Answer;
    fn opt_query(s: In, n: usize, of: In, m: usize, name: In, l: usize, bytes: In, k: usize, out: Words, room: usize) -> Answer;
    fn opt_query_tested(s: In, n: usize, of: In, m: usize, name: In, l: usize, bytes: In, k: usize, out: Words, room: usize) -> Answer;
    fn opt_clean(s: In, n: usize) -> Answer;
    fn opt_contained(older: In, n: usize, newer: In, m: usize) -> Answer;
}

fn called(call: u8, sheet: &[u8], with: &[&[u8]], room: &mut Room) -> Answer {
    let (s, n) = (sheet.as_ptr(), sheet.len());
    let (at, many) = (|i: usize| with[i].as_ptr(), |i: usize| with[i].len());
    let (bytes, most_bytes) = (room.bytes.as_mut_ptr(), room.bytes.len());
    let (words, most_words) = (room.words.as_mut_ptr(), room.words.len());
    // Each slice is lent for the call alone, with its own length.
    unsafe {
        match call {
            CHECK => opt_sheet(s, n),
            FIND => opt_find(s, n, at(0), many(0), at(1), many(1), words, most_words),
            FIND_TESTED => opt_find_tested(s, n, at(0), many(0), at(1), many(1), words, most_words),
            RESOLVE => opt_resolve(s, n, at(0), many(0), bytes, most_bytes),
            RESOLVE_TESTED => opt_resolve_tested(s, n, at(0), many(0), bytes, most_bytes),
            LIST => opt_list(s, n, at(0), many(0), at(1), many(1), words, most_words),
            LIST_TESTED => opt_list_tested(s, n, at(0), many(0), at(1), many(1), words, most_words),
            QUERY => opt_query(s, n, at(0), many(0), at(1), many(1), at(2), many(2), words, most_words),
            QUERY_TESTED => opt_query_tested(s, n, at(0), many(0), at(1), many(1), at(2), many(2), words, most_words),
            CLEAN => opt_clean(s, n),
            CONTAINED => opt_contained(s, n, at(0), many(0)),
            _ => panic!("no such call"),
        }
    }
}

fn main() {
    let input = input();
    let job = job(&input);
    run(job.times, &job.cases, |case, room| called(job.call, job.sheet, case, room));
}
