//! The two lowerings: ranges to exclusive ends, fields to their oneofs.
use crate::sys::lent;
use crate::Refused;

/// The most words that a lowering takes, and so the most that it writes.
pub const MOST_WORDS: usize = 4_096;

/// Which ranges are lowered.
#[derive(Clone, Copy, Debug, PartialEq, Eq, Hash)]
pub enum RangeKind {
    /// Extension ranges of a message.
    Extension = 0,
    /// Reserved ranges of a message.
    MessageReserved = 1,
    /// Reserved ranges of an enum, whose ends stay inclusive.
    EnumReserved = 2,
}

/// Lowers ranges, a start and an end in turn, to those of a descriptor.
///
/// `reserved 100 to 199, 1000 to max;` of a message:
///
/// ```
/// use cizasmok::{lower_ranges, RangeKind};
///
/// let mut out = [0; 4];
/// let words = lower_ranges(RangeKind::MessageReserved, &[100, 199, 1000, 536870911], &mut out)?;
/// assert_eq!(words, [100, 200, 1000, 536870912]);
/// # Ok::<(), cizasmok::Refused>(())
/// ```
pub fn lower_ranges<'o>(kind: RangeKind, words: &[i32], out: &'o mut [i32]) -> Result<&'o [i32], Refused> {
    lent::opt_ranges(kind as u32, words, out).written(out)
}

/// Gives fields their oneofs. Words: 0 a plain field, 1 a proto3 optional, 2 a oneof opens, 3 its member. For each 0, 1
/// and 3 one word comes back: 0 for no oneof, else its index and 1.
///
/// `uint32 setpoint; optional uint32 ramp; oneof source { uint32 packet; uint32 queue; }`:
///
/// ```
/// let mut out = [0; 6];
/// assert_eq!(cizasmok::lower_fields(&[0, 1, 2, 3, 3], &mut out)?, [0, 1, 2, 2]);
/// # Ok::<(), cizasmok::Refused>(())
/// ```
pub fn lower_fields<'o>(words: &[u32], out: &'o mut [u32]) -> Result<&'o [u32], Refused> {
    lent::opt_fields(words, out).written(out)
}

/// In which order oneofs are numbered.
#[derive(Clone, Copy, Debug, PartialEq, Eq, Hash)]
pub enum Numbering {
    /// As they are declared; [`lower_fields`] has this one.
    Declared = 0,
    /// Those of proto3 optional fields after all others, as the notes on proto3 presence ask.
    SyntheticLast = 1,
}

/// Gives fields their oneofs in a numbering. A field has the same oneof in both, with another index.
///
/// The fields that [`lower_fields`] shows, with the oneof of the optional field last:
///
/// ```
/// use cizasmok::{lower_fields_by, Numbering};
///
/// let mut out = [0; 6];
/// let words = lower_fields_by(Numbering::SyntheticLast, &[0, 1, 2, 3, 3], &mut out)?;
/// assert_eq!(words, [0, 2, 1, 1]);
/// # Ok::<(), cizasmok::Refused>(())
/// ```
pub fn lower_fields_by<'o>(numbering: Numbering, words: &[u32], out: &'o mut [u32]) -> Result<&'o [u32], Refused> {
    lent::opt_fields_by(numbering as u32, words, out).written(out)
}
