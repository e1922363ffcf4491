//! The words that `find`, `list` and `query` write, by name.
use crate::{payload, Refused};
use std::ops::Range;

/// How many words `find` writes.
pub const FOUND_WORDS: usize = 10;

/// How many words `query` writes, and `list` for each record.
pub const RECORD_WORDS: usize = 8;

/// Where some bytes stand in those that a call was given.
#[derive(Clone, Copy, Debug, PartialEq, Eq, Hash)]
pub struct Span {
    /// The first byte, from 0.
    pub place: u32,
    /// How many bytes.
    pub length: u32,
}

impl Span {
    /// For an index: `&sheet[found.name.range()]`.
    pub fn range(self) -> Range<usize> {
        let place = self.place as usize;
        place..place + self.length as usize
    }
}

/// An extension that [`find`](crate::find) found. Its spans count bytes of the sheet.
#[derive(Clone, Copy, Debug, PartialEq, Eq, Hash)]
pub struct Found {
    /// Which file of the sheet declares it, from 0.
    pub file: u32,
    /// Its name.
    pub name: Span,
    /// The path of the message that it extends.
    pub extendee: Span,
    /// Its number.
    pub number: u32,
    /// Its type, 1 to 18, as descriptor.proto numbers them.
    pub field_type: u32,
    /// Its label: 1 optional, 2 required, 3 repeated.
    pub label: u32,
    /// The path of its type, which groups, messages and enums have.
    pub type_path: Option<Span>,
}

impl Found {
    /// What ten words say.
    pub fn of(words: &[u32; FOUND_WORDS]) -> Found {
        let [file, name, name_length, extendee, extendee_length, number, field_type, label, path, path_length] = *words;
        Found {
            file,
            name: Span { place: name, length: name_length },
            extendee: Span { place: extendee, length: extendee_length },
            number,
            field_type,
            label,
            type_path: (path_length > 0).then_some(Span { place: path, length: path_length }),
        }
    }
}

/// A record of option bytes, as [`list`](crate::list) and [`query`](crate::query) tell it.
#[derive(Clone, Copy, Debug, PartialEq, Eq, Hash)]
pub struct Record {
    /// How deep it lies: 0 is the outermost.
    pub level: u32,
    /// The number of its field or extension.
    pub number: u32,
    /// Its type, 1 to 18, as descriptor.proto numbers them; 0 where the sheet does not know it.
    pub field_type: u32,
    /// Its wire type: 0 varint, 1 eight bytes, 2 length-delimited, 5 four bytes.
    pub wire_type: u32,
    /// Where its payload stands in the option bytes.
    pub span: Span,
    /// The lower half of its value.
    pub low: u32,
    /// The upper half of its value.
    pub high: u32,
}

impl Record {
    /// What eight words say.
    pub fn of(words: &[u32; RECORD_WORDS]) -> Record {
        let [level, number, field_type, wire_type, place, length, low, high] = *words;
        Record { level, number, field_type, wire_type, span: Span { place, length }, low, high }
    }

    /// The value of a known scalar type, by its bits: signed types widened by sign, floats and doubles as they are. 0
    /// for any other record.
    pub fn value(&self) -> u64 {
        u64::from(self.high) << 32 | u64::from(self.low)
    }

    /// The payload, as a part of the option bytes that were listed.
    pub fn payload<'b>(&self, bytes: &'b [u8]) -> Result<&'b [u8], Refused> {
        payload(bytes, self.span.place as usize, self.span.length as usize)
    }
}

/// The records that the words of [`list`](crate::list) tell, in order.
pub fn records(words: &[u32]) -> impl Iterator<Item = Record> + '_ {
    words.chunks_exact(RECORD_WORDS).map(|record| Record::of(record.try_into().expect("eight words")))
}
