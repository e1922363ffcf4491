// Replies and answers, as crates/reply has them.
use crate::harness::Answer;

// 01's number times 100, and the second word.
#[derive(Clone, Copy)]
pub enum Refusal {
    BadSheet = 100,
    BadRequest = 200,
    BeyondLimit = 300,
    ExtensionNotFound = 400,
    WrongExtensionType = 500,
    ExtensionIsNotMessage = 600,
    MessageNotFound = 700,
    MessageFoundMoreThanOnce = 800,
    UnknownFieldName = 900,
    BuiltinOptionNotFound = 1000,
    BuiltinOptionPointsToNonSingularField = 1001,
    MessageFieldRequiresMessageConstant = 1100,
    UnsupportedExtensionType = 1200,
    UnknownEnumValue = 1300,
    ValueRange = 1400,
    StrLitDecodeError = 1500,
    NoRoom = 1700,
    BadBytes = 1800,
    WireMismatch = 1900,
}

pub type Verdict = Result<(), Refusal>;

pub const NOWHERE: u32 = 65_535;

// Why a call is refused, and where: an option and a part of its name, or NOWHERE.
#[derive(Clone, Copy)]
pub struct Cause {
    pub why: Refusal,
    pub option: u32,
    pub part: u32,
}

// A refusal nowhere.
impl From<Refusal> for Cause {
    fn from(why: Refusal) -> Cause {
        Cause { why, option: NOWHERE, part: NOWHERE }
    }
}

pub fn judge(holds: bool, why: Refusal) -> Verdict {
    if holds {
        Ok(())
    } else {
        Err(why)
    }
}

pub fn refused(cause: impl Into<Cause>) -> Answer {
    let Cause { why, option, part } = cause.into();
    Answer { reply: why as u32 / 100, second: why as u32 % 100, absent: 0, length: 0, option, part }
}

pub fn done(length: usize) -> Answer {
    Answer { reply: 0, second: 0, absent: 0, length: length as u32, option: NOWHERE, part: NOWHERE }
}

pub fn absent() -> Answer {
    Answer { absent: 1, ..done(0) }
}
