//! Slices of no elements, Rust's, whose pointers dangle, and C's, which are NULL. By [FORM-6], [FORM-13], [FORM-14] and
//! [REPLY-6] of docs/RULES.md a sheet may be empty, and so may a scope, bytes and words, but no request, path, options
//! type or name.
use crate::nowhere;
use cizasmok::sys::*;
use cizasmok::*;
use std::ptr::{null, null_mut};

const NONE: &[u8] = &[];

#[test]
fn of_rust() {
    let bad = nowhere(Refusal::BadRequest);
    let sheet = Sheet::tested(NONE).expect("a sheet may have no files");
    assert_eq!(check_request(NONE), Err(bad));
    assert_eq!(resolve(NONE, NONE, &mut []), Err(bad));
    assert_eq!(sheet.resolve(NONE, &mut []), Err(bad));
    assert_eq!(find(NONE, NONE, NONE, &mut []), Err(bad));
    assert_eq!(sheet.find(NONE, NONE, &mut []), Err(bad));
    assert_eq!(list(NONE, NONE, NONE, &mut []), Err(bad));
    assert_eq!(sheet.list(NONE, NONE, &mut []), Err(bad));
    assert_eq!(query(NONE, NONE, NONE, NONE, &mut []), Err(bad));
    assert_eq!(sheet.query(NONE, NONE, NONE, &mut []), Err(bad));
    assert_eq!(payload(NONE, 0, 0), Ok(NONE));
    assert_eq!(payload(NONE, 0, 1), Err(bad));
    assert_eq!(lower_ranges(RangeKind::Extension, &[], &mut []), Ok(&[][..]));
    assert_eq!(lower_fields(&[], &mut []), Ok(&[][..]));
    assert_eq!(lower_fields_by(Numbering::SyntheticLast, &[], &mut []), Ok(&[][..]));
    assert_eq!([clean(NONE), contained(NONE, NONE)], [Ok(true); 2]);
    assert_eq!(records(&[]).count(), 0);
}

#[test]
fn of_c() {
    let answer = |reply, second| opt_answer { reply, second, absent: 0, length: 0, option: NOWHERE, part: NOWHERE };
    let (done, bad, yes) = (answer(0, 0), answer(2, 0), answer(0, 1));
    let (bytes, out, words) = (null::<u8>(), null_mut::<u8>(), null_mut::<u32>());
    // SAFETY: NULL with a count of 0 is a slice of no elements.
    unsafe {
        assert_eq!(opt_sheet(bytes, 0), done);
        assert_eq!(opt_request(bytes, 0), bad);
        assert_eq!(opt_resolve(bytes, 0, bytes, 0, out, 0), bad);
        assert_eq!(opt_resolve_tested(bytes, 0, bytes, 0, out, 0), bad);
        assert_eq!(opt_find(bytes, 0, bytes, 0, bytes, 0, words, 0), bad);
        assert_eq!(opt_find_tested(bytes, 0, bytes, 0, bytes, 0, words, 0), bad);
        assert_eq!(opt_list(bytes, 0, bytes, 0, bytes, 0, words, 0), bad);
        assert_eq!(opt_list_tested(bytes, 0, bytes, 0, bytes, 0, words, 0), bad);
        assert_eq!(opt_query(bytes, 0, bytes, 0, bytes, 0, bytes, 0, words, 0), bad);
        assert_eq!(opt_query_tested(bytes, 0, bytes, 0, bytes, 0, bytes, 0, words, 0), bad);
        assert_eq!(opt_payload(bytes, 0, 0, 0), done);
        assert_eq!(opt_payload(bytes, 0, 1, 0), bad);
        assert_eq!(opt_ranges(0, null(), 0, null_mut(), 0), done);
        assert_eq!(opt_fields(null(), 0, words, 0), done);
        assert_eq!(opt_fields_by(1, null(), 0, words, 0), done);
        assert_eq!(opt_clean(bytes, 0), yes);
        assert_eq!(opt_contained(bytes, 0, bytes, 0), yes);
    }
}
