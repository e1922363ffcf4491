//! Lent memory, by [REPLY-4] to [REPLY-7] of docs/RULES.md: a refusal leaves it as it was, room is asked for last, and
//! elements past the answer stay.
use crate::form::*;
use crate::nowhere;
use cizasmok::*;
use std::fmt::Debug;

/// The call with every room from none to three elements more than the answer has.
fn in_every_room<E>(mark: E, answer: &[E], call: impl for<'o> Fn(&'o mut [E]) -> Result<&'o [E], Refused>)
where
    E: Copy + Debug + PartialEq,
{
    for room in 0..answer.len() + 3 {
        let mut out = vec![mark; room];
        let start = out.as_ptr();
        if room < answer.len() {
            assert_eq!(call(&mut out), Err(nowhere(Refusal::NoRoom)));
            assert_eq!(out, vec![mark; room]);
        } else {
            let written = call(&mut out).expect("room enough");
            assert_eq!((written, written.as_ptr()), (answer, start));
            assert_eq!(out[..answer.len()], *answer);
            assert_eq!(out[answer.len()..], vec![mark; room - answer.len()]);
        }
    }
}

/// 01, P2, of examples/order.proto.
#[test]
fn of_resolve() {
    let (bytes, request) = (schema(), seven("(order)"));
    let sheet = Sheet::tested(&bytes).unwrap();
    let answer = [0x90, 0xB5, 0x18, 7];
    in_every_room(0xAA, &answer, |out| resolve(&bytes, &request, out).map(Option::unwrap));
    in_every_room(0xAA, &answer, |out| sheet.resolve(&request, out).map(Option::unwrap));
}

/// docs/PROGRAMS.md: number 50002, type 13, label 1, in file 0, its name at 88. The extendee stands behind the name and
/// three bytes of header, and there is no type path.
#[test]
fn of_find() {
    let bytes = schema();
    let sheet = Sheet::tested(&bytes).unwrap();
    let answer = [0, 88, 5, 96, 28, 50002, 13, 1, 0, 0];
    in_every_room(7, &answer, |out| find(&bytes, b"plant.Dispatch", b"order", out).map(|words| &words[..]));
    in_every_room(7, &answer, |out| sheet.find(b"plant.Dispatch", b"order", out).map(|words| &words[..]));
}

/// docs/PROGRAMS.md, what `optlist` prints for examples/list.hex.
#[test]
fn of_list() {
    let bytes = schema();
    let sheet = Sheet::tested(&bytes).unwrap();
    let on = FIELD_OPTIONS.as_bytes();
    let answer = [[0, 50002, 13, 0, 3, 1, 7, 0], [0, 50001, 13, 0, 7, 1, 3, 0], [0, 50003, 0, 0, 11, 1, 0, 0]].concat();
    in_every_room(9, &answer, |out| list(&bytes, on, &SET, out));
    in_every_room(9, &answer, |out| sheet.list(on, &SET, out));
}

/// docs/PROGRAMS.md, what `optquery` prints for examples/query.hex.
#[test]
fn of_query() {
    let bytes = schema();
    let sheet = Sheet::tested(&bytes).unwrap();
    let (on, fleet) = (FIELD_OPTIONS.as_bytes(), name("(plant.order)"));
    let answer = [0, 50001, 13, 0, 7, 1, 3, 0];
    in_every_room(9, &answer, |out| query(&bytes, on, &fleet, &SET, out).map(|words| &words.unwrap()[..]));
    in_every_room(9, &answer, |out| sheet.query(on, &fleet, &SET, out).map(|words| &words.unwrap()[..]));
}

/// docs/PROGRAMS.md, what `optranges` and `optoneofs` print for examples/ranges.hex and examples/oneofs.hex.
#[test]
fn of_the_lowerings() {
    let ranges = [100, 199, 300, 300, 1000, 536870911];
    in_every_room(-9, &[100, 200, 300, 301, 1000, 536870912], |out| {
        lower_ranges(RangeKind::MessageReserved, &ranges, out)
    });
    let fields = [0, 1, 2, 3, 3, 0];
    in_every_room(9, &[0, 1, 2, 2, 0], |out| lower_fields(&fields, out));
    in_every_room(9, &[0, 2, 1, 1, 0], |out| lower_fields_by(Numbering::SyntheticLast, &fields, out));
}

/// [REPLY-6] and [REPLY-8], with 01's P8: none for Absent, and an answer with no bytes is no Absent.
#[test]
fn none_is_enough_for_an_answer_with_no_elements() {
    let sheet = schema();
    let no_options = request("plant.Dispatch", FIELD_OPTIONS, &[]);
    let only_default = request("plant.Dispatch", FIELD_OPTIONS, &[option("default", unsigned(7))]);
    let on = FIELD_OPTIONS.as_bytes();
    for room in 0..3 {
        let mut out = vec![0xAA; room];
        assert_eq!(resolve(&sheet, &no_options, &mut out), Ok(None));
        assert_eq!(resolve(&sheet, &only_default, &mut out), Ok(Some(&[][..])));
        assert_eq!(out, vec![0xAA; room]);
    }
    assert_eq!(list(&sheet, on, &[], &mut []), Ok(&[][..]));
    assert_eq!(query(&sheet, on, &name("(plant.order)"), &[], &mut []), Ok(None));
}
