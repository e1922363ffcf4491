// What each program of the bench does around the calls. It reads a job from standard input, makes each of its calls once and adds up what
// is answered, makes all of them again as often as the job says, and prints one line: how many calls there were, how many were answered 0,
// the sum of answers and what they wrote, how many say 1 as their second number, the sum of places, and the processor time of what was made
// again, in nanoseconds.
use std::hint::black_box;
use std::io::Read;

// The calls, by the numbers that measure.py has for them.
pub const CHECK: u8 = 0;
pub const FIND: u8 = 1;
pub const FIND_TESTED: u8 = 2;
pub const RESOLVE: u8 = 3;
pub const RESOLVE_TESTED: u8 = 4;
pub const LIST: u8 = 5;
pub const LIST_TESTED: u8 = 6;
pub const QUERY: u8 = 7;
pub const QUERY_TESTED: u8 = 8;
pub const CLEAN: u8 = 9;
pub const CONTAINED: u8 = 10;

// What every call returns: `struct opt_answer` of include/opt.h.
#[repr(C)]
#[derive(Clone, Copy)]
pub struct Answer {
    pub reply: u32,
    pub second: u32,
    pub absent: u32,
    pub length: u32,
    pub option: u32,
    pub part: u32,
}

// The lent memory: of `resolve` the bytes, of the other calls the words, eight a record. 65,536 option bytes have at most 32,768 records.
pub struct Room {
    pub bytes: Vec<u8>,
    pub words: Vec<u32>,
}

// A job: a sheet, one call, how often all cases are called again, and the inputs of each case after the sheet.
pub struct Job<'a> {
    pub sheet: &'a [u8],
    pub call: u8,
    pub times: u32,
    pub cases: Vec<Vec<&'a [u8]>>,
}

pub fn input() -> Vec<u8> {
    let mut input = Vec::new();
    std::io::stdin().read_to_end(&mut input).expect("standard input");
    input
}

// The strings that bytes are made of, each behind its length (4 bytes).
fn strings(bytes: &[u8]) -> Vec<&[u8]> {
    let (mut out, mut left) = (Vec::new(), bytes);
    while let Some((length, rest)) = left.split_first_chunk::<4>() {
        let (one, after) = rest.split_at(u32::from_be_bytes(*length) as usize);
        out.push(one);
        left = after;
    }
    out
}

// The input's strings: the sheet, the call (1 byte), how often (4 bytes), and a string of strings for each case.
pub fn job(input: &[u8]) -> Job<'_> {
    let parts = strings(input);
    let times = u32::from_be_bytes(parts[2].try_into().expect("four bytes"));
    Job { sheet: parts[0], call: parts[1][0], times, cases: parts[3..].iter().map(|case| strings(case)).collect() }
}

// So many elements of the lent memory are filled before a call that is added up, and added whatever its length: to see that a refusal
// writes nothing, and that nothing stands behind an answer.
const FILLED: usize = 64;

fn mixed(sum: u64, n: u32) -> u64 {
    (sum.rotate_left(5) ^ n as u64).wrapping_mul(0x0000_0100_0000_01b3)
}

// An answer and what it wrote, added.
fn added(sum: u64, answer: Answer, room: &Room) -> u64 {
    let length = FILLED.max(answer.length as usize);
    let sum = [answer.reply, answer.absent, answer.length].into_iter().fold(sum, mixed);
    let sum = room.words[..length].iter().fold(sum, |sum, word| mixed(sum, *word));
    room.bytes[..length.min(room.bytes.len())].iter().fold(sum, |sum, byte| mixed(sum, *byte as u32))
}

#[repr(C)]
struct Time {
    seconds: i64,
    nanoseconds: i64,
}

extern "C" {
    fn clock_gettime(clock: i32, time: *mut Time) -> i32;
}

fn processor_time() -> i64 {
    const CLOCK_PROCESS_CPUTIME_ID: i32 = 2;
    let mut time = Time { seconds: 0, nanoseconds: 0 };
    // the time is lent for the call alone
    unsafe { clock_gettime(CLOCK_PROCESS_CPUTIME_ID, &mut time) };
    time.seconds * 1_000_000_000 + time.nanoseconds
}

// What is measured: measure.py has callgrind count between the start and the end of this function, by its name.
#[no_mangle]
#[inline(never)]
fn bench_rounds(times: u32, round: &mut dyn FnMut()) {
    for _ in 0..times {
        round();
    }
}

// Makes the calls of a job, one a case, whose inputs may have been read into another form. What `second`, `option` and `part` say stands by
// itself: the original has no such numbers.
pub fn run<C>(times: u32, cases: &[C], called: impl Fn(&C, &mut Room) -> Answer) {
    let mut room = Room { bytes: vec![0; 65_536], words: vec![0; 262_144] };
    let (mut done, mut sum, mut second, mut places) = (0, 0, 0, 0);
    for case in cases {
        room.bytes[..FILLED].fill(0xa5);
        room.words[..FILLED].fill(0xa5a5_a5a5);
        let answer = called(case, &mut room);
        done += (answer.reply == 0) as u32;
        sum = added(sum, answer, &room);
        second += answer.second;
        places = [answer.second, answer.option, answer.part].into_iter().fold(places, mixed);
    }
    let start = processor_time();
    bench_rounds(times, &mut || {
        for case in cases {
            black_box(called(black_box(case), &mut room));
        }
    });
    println!("{} {} {:x} {} {:x} {}", cases.len(), done, sum, second, places, processor_time() - start);
}
