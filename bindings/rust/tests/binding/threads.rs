//! No call holds anything between calls, so many threads may call at once.
use crate::form::*;
use cizasmok::*;
use std::thread;

/// One call of each kind, refused ones too, and what they wrote.
fn answers(bytes: &[u8]) -> Vec<String> {
    let (mut out, mut words) = ([0; 64], [0; 64]);
    let (on, scope) = (FIELD_OPTIONS.as_bytes(), b"plant.Dispatch");
    let sheet = Sheet::tested(bytes).expect("a fine sheet");
    vec![
        format!("{:?}", resolve(bytes, &seven("(order)"), &mut out)),
        format!("{:?}", sheet.resolve(&seven("(.plant.order)"), &mut out)),
        format!("{:?}", sheet.resolve(&seven("(none)"), &mut out)),
        format!("{:?}", resolve(&mistaken_schema(), &seven("(order)"), &mut out)),
        format!("{:?}", find(bytes, scope, b"order", &mut words)),
        format!("{:?}", sheet.find(scope, b"none", &mut words)),
        format!("{:?}", list(bytes, on, &SET, &mut words)),
        format!("{:?}", sheet.list(on, &SET, &mut words)),
        format!("{:?}", query(bytes, on, &name("(plant.order)"), &SET, &mut words)),
        format!("{:?}", sheet.query(on, &name("none"), &SET, &mut words)),
        format!("{:?}", payload(&SET, 4, 4)),
        format!("{:?}", lower_fields(&[0, 1, 2, 3, 3, 0], &mut words)),
        format!("{:?}", lower_fields_by(Numbering::SyntheticLast, &[0, 1, 2, 3, 3, 0], &mut words)),
        format!("{:?}", lower_ranges(RangeKind::Extension, &[100, 199], &mut [0; 2])),
        format!("{:?}", (clean(bytes), contained(bytes, bytes), check_sheet(bytes), check_request(bytes))),
    ]
}

#[test]
fn at_once_they_answer_as_one_alone() {
    let bytes = schema();
    let alone = answers(&bytes);
    thread::scope(|threads| {
        for _ in 0..8 {
            threads.spawn(|| (0..100).for_each(|_| assert_eq!(answers(&bytes), alone)));
        }
    });
}
