//! Why a call is refused, and where: one table has the number, the name and the words of each.
use crate::sys::{opt_answer, NOWHERE};
use std::error::Error;
use std::fmt;

struct Row {
    why: Refusal,
    number: u32,
    second: u32,
    name: &'static str,
    words: &'static str,
}

macro_rules! refusals {
    ($($name:ident = $number:literal, $second:literal: $words:literal;)+) => {
        /// Why a call is refused, with the names and numbers of the table [REPLY-1] in `docs/RULES.md`.
        #[non_exhaustive]
        #[derive(Clone, Copy, Debug, PartialEq, Eq, Hash)]
        pub enum Refusal {
            $(#[doc = $words] $name,)+
        }

        /// A row for each variant, in the order of the variants.
        const TABLE: &[Row] = &[$(Row {
            why: Refusal::$name,
            number: $number,
            second: $second,
            name: stringify!($name),
            words: $words,
        },)+];
    };
}

refusals! {
    BadSheet = 1, 0:
        "the sheet is malformed: a field is cut, stands where it may not, or holds what its tag does not allow; \
         docs/RULES.md has the form of a sheet, [FORM-1] to [FORM-7]";
    BadRequest = 2, 0:
        "the request is malformed, or the scope, path, name, kind, numbering, list of words or place that the call \
         was given; docs/RULES.md has the form of each, [FORM-1] to [FORM-14], [LOWER-2], [LOWER-6], [LOWER-10] and \
         [PAYLOAD-2]";
    BeyondLimit = 3, 0:
        "an input is past a limit: a sheet has at most 32,768 bytes, 8 files and messages 16 deep, a request 8,192 \
         bytes, 128 options, 16 parts a name and constants 16 deep; option bytes are at most 65,536, with messages \
         31 deep; a list to lower has at most 4,096 words";
    ExtensionNotFound = 4, 0:
        "no extension of that name is declared in the scope or in one around it; correct the name, which a query \
         needs in full, or add the file that declares it to the sheet";
    WrongExtensionType = 5, 0:
        "the extension that is found first extends another message; write the full name with a leading dot if you \
         mean one further out";
    ExtensionIsNotMessage = 6, 0:
        "the name goes on behind this part, whose type is no message; end the name here, or declare the part with a \
         message type";
    MessageNotFound = 7, 0:
        "the options type, or the type of this part, of a field in its constant or of a listed record, names no \
         message or enum of the sheet; write its full name, or add the file that declares it";
    MessageFoundMoreThanOnce = 8, 0:
        "the options type, or the type of this part, of a field in its constant or of a listed record, names a \
         message or enum that several files declare; leave all but one of these files out of the sheet";
    UnknownFieldName = 9, 0:
        "the message has no field of that name; correct this part, or the name in its constant, or write it in \
         parentheses if you mean an extension";
    BuiltinOptionNotFound = 10, 0:
        "the options type has no field of that name; correct it, or write it in parentheses if you mean an \
         extension";
    BuiltinOptionPointsToNonSingularField = 10, 1:
        "the options type has a repeated field of that name, which an option cannot set; leave the option out";
    MessageFieldRequiresMessageConstant = 11, 0:
        "a message constant is set on something whose type is no message; write a constant of its type";
    UnsupportedExtensionType = 12, 0:
        "the constant does not fit the type: a bool takes true or false, an integer type an integer, float and \
         double any number, string and bytes a string, an enum a name, a message a message constant; of the options \
         type's own fields only a bool, a string, and an enum by a name that it lists can be set";
    UnknownEnumValue = 13, 0:
        "the enum has no value of that name; write one that it lists";
    ValueRange = 14, 0:
        "the type does not hold that integer: 32 bits hold -2147483648 to 2147483647 with a sign and 0 to \
         4294967295 without, 64 bits -9223372036854775808 to 9223372036854775807 and 0 to 18446744073709551615";
    StrLitDecodeError = 15, 0:
        "the string is not UTF-8; correct it, or declare the option as bytes";
    RangeEnd = 16, 0:
        "a range ends at 2147483647, and its exclusive end would be one more; end it at 536870911, the highest \
         field number";
    NoRoom = 17, 0:
        "the answer is longer than the room that was lent; enough is always 65,536 bytes for resolve, 10 words for \
         find, 8 for query, 8 for each option byte for list, and as many as it is given for a lowering";
    BadBytes = 18, 0:
        "the option bytes are malformed: a record is cut, a varint has more than 64 bits, a number is not within 1 \
         to 536870911, or a wire type is none of 0, 1, 2 and 5; see that they are option bytes, and whole";
    WireMismatch = 19, 0:
        "a record has a number that the sheet declares, and another wire type than its type has; read the bytes \
         under the schema that they were written with";
}

impl Refusal {
    /// The refusal with this number and this second word, if there is one.
    ///
    /// ```
    /// use cizasmok::Refusal;
    ///
    /// assert_eq!(Refusal::of(5, 0), Some(Refusal::WrongExtensionType));
    /// assert_eq!(Refusal::of(0, 0), None);
    /// ```
    pub fn of(number: u32, second: u32) -> Option<Refusal> {
        TABLE.iter().find(|row| (row.number, row.second) == (number, second)).map(|row| row.why)
    }

    /// The reply's number, 1 to 19.
    pub fn number(self) -> u32 {
        self.row().number
    }

    /// The reply's second word: 1 for `BuiltinOptionPointsToNonSingularField`, which shares its number with
    /// `BuiltinOptionNotFound`, and 0 for every other.
    pub fn second(self) -> u32 {
        self.row().second
    }

    /// The name, spelt as the variant is.
    pub fn name(self) -> &'static str {
        self.row().name
    }

    fn row(self) -> &'static Row {
        &TABLE[self as usize]
    }
}

/// A refusal and where it stands. Nothing was written.
///
/// Its text says what to do:
///
/// ```
/// use cizasmok::{Refusal, Refused};
///
/// let refused = Refused { why: Refusal::UnknownEnumValue, option: Some(2), part: Some(0) };
/// assert_eq!(
///     refused.to_string(),
///     "option 2, part 0 of its name: the enum has no value of that name; write one that it \
///      lists (13 UnknownEnumValue)"
/// );
/// ```
#[derive(Clone, Copy, Debug, PartialEq, Eq, Hash)]
pub struct Refused {
    /// Why.
    pub why: Refusal,
    /// Which option of the request, from 0; none where no option is at fault.
    pub option: Option<u32>,
    /// Which part of its name, or of a query's, from 0; none where no part is at fault.
    pub part: Option<u32>,
}

impl Refused {
    /// # Panics
    ///
    /// Where the table has no such reply. That the library gives no other is proved, so the archive is then of another
    /// version than this crate. No input leads there and no caller could go on, so it is no variant that every caller
    /// would have to match.
    pub(crate) fn of(answer: opt_answer) -> Refused {
        let opt_answer { reply, second, option, part, .. } = answer;
        let why = Refusal::of(reply, second).unwrap_or_else(|| {
            panic!(
                "liboptc.a gave the reply {reply} with second word {second}, which this version of \
                 cizasmok does not know: build both from one commit"
            )
        });
        let place = |position| (position != NOWHERE).then_some(position);
        Refused { why, option: place(option), part: place(part) }
    }
}

impl fmt::Display for Refused {
    fn fmt(&self, f: &mut fmt::Formatter) -> fmt::Result {
        if let Some(option) = self.option {
            write!(f, "option {option}, ")?;
        }
        if let Some(part) = self.part {
            let whose = if self.option.is_some() { "its" } else { "the" };
            write!(f, "part {part} of {whose} name: ")?;
        }
        let Row { number, name, words, .. } = self.why.row();
        write!(f, "{words} ({number} {name})")
    }
}

impl Error for Refused {}

#[cfg(test)]
mod tests {
    use super::*;

    #[test]
    #[should_panic(expected = "the reply 20 with second word 0")]
    fn a_reply_that_the_table_does_not_have_panics() {
        let reply = 20;
        Refused::of(opt_answer { reply, second: 0, absent: 0, length: 0, option: NOWHERE, part: NOWHERE });
    }
}
