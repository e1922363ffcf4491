//! What the types of this crate leave no way to ask, asked by the C functions.
use crate::form::*;
use cizasmok::sys::*;

/// [LOWER-2]: the kinds of ranges are 0, 1 and 2.
#[test]
fn another_kind_of_ranges() {
    let (words, mut out) = ([1, 2], [7, 7]);
    // SAFETY: both slices are lent for the call, each with its own count.
    let answer = unsafe { opt_ranges(3, words.as_ptr(), words.len(), out.as_mut_ptr(), out.len()) };
    assert_eq!((answer.reply, answer.length, out), (2, 0, [7, 7]));
}

/// [LOWER-10]: the numberings are 0 and 1, and another comes before too many words.
#[test]
fn another_numbering() {
    let (words, mut out) = ([7; 4_097], [7, 7]);
    for (numbering, reply) in [(0, 3), (1, 3), (2, 2), (u32::MAX, 2)] {
        // SAFETY: both slices are lent for the call, each with its own count.
        let answer = unsafe { opt_fields_by(numbering, words.as_ptr(), words.len(), out.as_mut_ptr(), out.len()) };
        assert_eq!((answer.reply, answer.length, out), (reply, 0, [7, 7]));
    }
}

/// [RESOLVE-4]: of a malformed sheet the tested form answers by what the bytes say, here that there are no files. With
/// no options that is Absent, and else there is no options type.
#[test]
fn a_tested_form_of_a_sheet_that_was_not_tested() {
    let (sheet, mut out) = ([1u8], [7u8; 4]);
    let no_options = request("plant.Dispatch", FIELD_OPTIONS, &[]);
    let mut resolved = |request: &[u8]| {
        let (from, count) = (request.as_ptr(), request.len());
        // SAFETY: each slice is lent for the calls, with its own count.
        unsafe {
            let whole = opt_resolve(sheet.as_ptr(), sheet.len(), from, count, out.as_mut_ptr(), out.len());
            let tested = opt_resolve_tested(sheet.as_ptr(), sheet.len(), from, count, out.as_mut_ptr(), out.len());
            [(whole.reply, whole.absent), (tested.reply, tested.absent)]
        }
    };
    assert_eq!(resolved(&no_options), [(1, 0), (0, 1)]);
    assert_eq!(resolved(&seven("(order)")), [(1, 0), (7, 0)]);
    assert_eq!(out, [7; 4]);
}
