//! The original's own resolver on the requests of the bench: a program of it, for jobs of `resolve_tested`.
//!
//! It is a module of a program that runs the published source of protobuf-parse 3.7.2, byte for byte, over a stand-in for its runtime: a
//! child of that program's `pure::oracle`, whose functions read a sheet and a request into the crate's model and load the descriptors.
//! measure.py builds it: in a copy of that workspace it adds `#[path = "original.rs"] pub mod original;` to `oracle.rs` and a binary of one
//! line, which calls `main` here.
//!
//! The sheet is loaded once, and each request is read into the crate's model once, before the calls. A call is the options type by the
//! crate's `find_message_by_abs_name`, the options by its `custom_options`, and the bytes of what that gives by the stand-in's
//! `write_to_bytes`: the crate's own resolver code over the stand-in's descriptors, strings and maps. So in a call nothing is read and no
//! form is tested, where the other programs read and test each request. A refusal's number is told before the calls: telling it is no work
//! of the crate's.
#[path = "harness.rs"]
mod harness;

use super::*;
use harness::{Answer, Room};

struct Case {
    request: Request,
    reply: u32,
}

fn resolved(pairs: &[FileDescriptorPair], request: &Request) -> anyhow::Result<Outcome> {
    Oracle::resolve(&pairs[0], &pairs[1..], &request.scope, &request.options_type, &request.options, false)
}

fn called(pairs: &[FileDescriptorPair], case: &Case, room: &mut Room) -> Answer {
    let answer = |reply, absent, length| Answer { reply, second: 0, absent, length, option: 0, part: 0 };
    match resolved(pairs, &case.request) {
        Err(_) => answer(case.reply, 0, 0),
        Ok(Outcome::Absent) => answer(0, 1, 0),
        Ok(Outcome::Bytes(bytes)) => {
            room.bytes[..bytes.len()].copy_from_slice(&bytes);
            answer(0, 0, bytes.len() as u32)
        }
    }
}

pub fn main() {
    bootstrap();
    let input = harness::input();
    let job = harness::job(&input);
    assert_eq!(job.call, harness::RESOLVE_TESTED);
    let pairs = load(&read_sheet(job.sheet).expect("a sheet"), false).expect("a sheet that loads");
    let cases: Vec<Case> = job
        .cases
        .iter()
        .map(|case| {
            let request = read_request(case[0]).expect("a request");
            let reply = resolved(&pairs, &request).err().map_or(0, |e| Oracle::classify(&e).0);
            Case { request, reply }
        })
        .collect();
    harness::run(job.times, &cases, |case, room| called(&pairs, case, room));
}
