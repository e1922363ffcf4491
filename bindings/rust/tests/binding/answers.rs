//! What the calls answer where they do not refuse.
use crate::form::*;
use cizasmok::*;

fn hex(digits: &str) -> Vec<u8> {
    let digit = |at: usize| u8::from_str_radix(&digits[at..at + 2], 16).expect("hexadecimal digits");
    (0..digits.len()).step_by(2).map(digit).collect()
}

/// The bytes of a request, the same by the tested form; none for Absent.
fn resolved(sheet: &[u8], request: &[u8]) -> Option<Vec<u8>> {
    let (mut out, mut again) = ([0; 256], [0; 256]);
    let bytes = resolve(sheet, request, &mut out).expect("an answer");
    assert_eq!(Sheet::tested(sheet).expect("a fine sheet").resolve(request, &mut again), Ok(bytes));
    bytes.map(<[u8]>::to_vec)
}

/// 01, P1: its input, without the headers of the two fields.
#[test]
fn p1() {
    let sheet = "01002010000170030019110001781200036F2E46130004000000051400010D1500010101000B1000016F02000411000146";
    let request = "180001701900036F2E4608000F1B0001782100080000000000000007";
    assert_eq!(resolved(&hex(sheet), &hex(request)), Some(hex("2807")));
}

/// 01, P2, P3 and P4, with the story's `order` for `rank`; P8.
#[test]
fn the_story() {
    let sheet = schema();
    let other = request("plant.Other", FIELD_OPTIONS, &[option("(order)", unsigned(7))]);
    assert_eq!(resolved(&sheet, &seven("(order)")), Some(hex("90B51807")));
    assert_eq!(resolved(&sheet, &seven("(.plant.order)")), Some(hex("88B51807")));
    assert_eq!(resolved(&sheet, &other), Some(hex("88B51807")));
    assert_eq!(resolved(&sheet, &request("plant.Dispatch", FIELD_OPTIONS, &[])), None);
    assert_eq!(resolved(&sheet, &seven("default")), Some(Vec::new()));
}

/// 01, P7: fewest package components, not file order.
#[test]
fn p7() {
    let x = |number| extension("x", number, UINT32, "o.F");
    let files = [file("a.b", &[x(101)]), file("a", &[message("b", &[x(102)])]), file("o", &[message("F", &[])])];
    let sheet = files.concat();
    assert_eq!(resolved(&sheet, &request("", "o.F", &[option("(.a.b.x)", unsigned(7))])), Some(hex("B00607")));
    let found = Found::of(find(&sheet, b"", b".a.b.x", &mut [0; 10]).unwrap());
    assert_eq!((found.file, found.number), (1, 102));
}

/// The encoding document's examples of records, as compare/examples.py has them.
#[test]
fn constants_of_several_kinds() {
    let set = |number, kind, constant| {
        let fields = [field("a", 1, (5, ""), OPTIONAL)];
        let items = [extension("x", number, kind, "o.F"), message("M", &fields)];
        let sheet = [file("p", &items), file("o", &[message("F", &[])])].concat();
        resolved(&sheet, &request("p", "o.F", &[option("(x)", constant)]))
    };
    assert_eq!(set(1, (5, ""), unsigned(150)), Some(hex("089601")));
    assert_eq!(set(2, STRING, text("testing")), Some(hex("120774657374696E67")));
    assert_eq!(set(3, message_type("p.M"), pairs(&[("a", unsigned(150))])), Some(hex("1A03089601")));
}

/// [FIND-2], and where docs/PROGRAMS.md says that the two names stand.
#[test]
fn find_tells_where_in_the_sheet() {
    let sheet = fleet(&["low"], &[]);
    let found = |path: &[u8]| Found::of(find(&sheet, b"plant.Dispatch", path, &mut [0; 10]).expect("an extension"));
    let (own, outer, limits) = (found(b"order"), found(b".plant.order"), found(b"limits"));
    assert_eq!((own.name, outer.name), (Span { place: 88, length: 5 }, Span { place: 17, length: 5 }));
    assert_eq!((own.file, own.number, own.field_type, own.label, own.type_path), (0, 50002, 13, 1, None));
    assert_eq!((outer.number, limits.number, limits.field_type), (50001, 50003, 11));
    assert_eq!(&sheet[limits.name.range()], b"limits");
    assert_eq!(&sheet[limits.extendee.range()], FIELD_OPTIONS.as_bytes());
    assert_eq!(&sheet[limits.type_path.expect("a message").range()], b"plant.Limits");
}

/// docs/PROGRAMS.md, what `optevolve` prints for examples/evolve.hex: what an old device reads of a newer one's bytes.
#[test]
fn a_year_on() {
    let unit = extension("unit", 50004, STRING, FIELD_OPTIONS);
    let (older, newer) = (fleet(&["low"], &[]), fleet(&["low", "high"], &[unit]));
    assert_eq!([clean(&older), clean(&newer), contained(&older, &newer)], [Ok(true); 3]);

    let limits = pairs(&[("low", unsigned(1)), ("high", unsigned(5))]);
    let options = [option("(order)", unsigned(7)), option("(unit)", text("kW")), option("(limits)", limits)];
    let bytes = resolved(&newer, &request("plant.Dispatch", FIELD_OPTIONS, &options)).expect("options");
    assert_eq!(bytes, hex("90B51807A2B518026B579AB5180408011005"));

    let mut out = vec![0; bytes.len() * RECORD_WORDS];
    let words = list(&older, FIELD_OPTIONS.as_bytes(), &bytes, &mut out).expect("records");
    let records: Vec<Record> = records(words).collect();
    let known: Vec<_> = records.iter().map(|r| (r.level, r.number, r.field_type, r.wire_type, r.value())).collect();
    assert_eq!(
        known,
        [(0, 50002, 13, 0, 7), (0, 50004, 0, 2, 0), (0, 50003, 11, 2, 0), (1, 1, 13, 0, 1), (1, 2, 0, 0, 0)]
    );
    let payloads: Vec<_> = records.iter().map(|record| record.payload(&bytes).expect("a part of the bytes")).collect();
    assert_eq!(payloads, [&[7][..], b"kW", &[8, 1, 0x10, 5], &[1], &[5]]);
}

/// 01, "signed ones widen by sign"; [LIST-6]: -1 as an int32 in ten bytes, and a fixed64.
#[test]
fn a_value_has_64_bits() {
    let fields = [field("a", 1, (5, ""), OPTIONAL), field("b", 2, (6, ""), OPTIONAL)];
    let sheet = file("o", &[message("F", &fields)]);
    let bytes = hex("08FFFFFFFFFFFFFFFFFF01110807060504030201");
    let mut out = [0; 16];
    let words = list(&sheet, b"o.F", &bytes, &mut out).expect("records");
    let values: Vec<u64> = records(words).map(|record| record.value()).collect();
    assert_eq!(values, [-1i64 as u64, 0x0102030405060708]);
}

/// 01, "At each part the last record of that number is followed", and docs/PROGRAMS.md for the record and for Absent.
#[test]
fn a_query_follows_the_last_record() {
    let sheet = schema();
    let asked = |bytes: &[u8]| {
        let mut out = [0; 8];
        let words =
            query(&sheet, FIELD_OPTIONS.as_bytes(), &name("(plant.order)"), bytes, &mut out).expect("an answer");
        words.map(|words| Record::of(words).value())
    };
    assert_eq!(asked(&SET), Some(3));
    assert_eq!(asked(&hex("88B5180388B51804")), Some(4));
    assert_eq!(asked(&hex("90B51807")), None);
}

/// [PAYLOAD-2], [PAYLOAD-3]: any part inside, the empty one at the end too, and no copy of it.
#[test]
fn a_payload_is_a_part_of_the_callers_own_bytes() {
    let bytes = [1, 2, 3, 4];
    for place in 0..=bytes.len() {
        for length in 0..=bytes.len() - place {
            let part = payload(&bytes, place, length).expect("inside");
            assert_eq!((part.as_ptr(), part.len()), (bytes[place..].as_ptr(), length));
        }
        let outside = payload(&bytes, place, bytes.len() - place + 1).expect_err("outside");
        assert_eq!(outside, crate::nowhere(Refusal::BadRequest));
    }
}

/// 01, example 10, and "kind 2 keeps end; start above end is kept".
#[test]
fn ranges() {
    let lowered = |kind, words: &[i32]| lower_ranges(kind, words, &mut [0; 8]).map(<[i32]>::to_vec);
    assert_eq!(lowered(RangeKind::Extension, &[100, 199]), Ok(vec![100, 200]));
    assert_eq!(lowered(RangeKind::MessageReserved, &[9, 3]), Ok(vec![9, 4]));
    assert_eq!(lowered(RangeKind::EnumReserved, &[-5, 2147483647]), Ok(vec![-5, 2147483647]));
    let most = [1; MOST_WORDS];
    assert_eq!(lower_ranges(RangeKind::EnumReserved, &most, &mut [0; MOST_WORDS]), Ok(&most[..]));
}

/// 01: "a 2 gives its index to its members and counts, empty or not".
#[test]
fn fields() {
    assert_eq!(lower_fields(&[2, 0, 1, 2, 3, 3], &mut [0; 8]), Ok(&[0, 2, 3, 3][..]));
}

/// [LOWER-10] and [LOWER-11] of docs/RULES.md: the fields of the test above have a oneof without members.
#[test]
fn fields_by_a_numbering() {
    let lowered = |numbering, words: &[u32]| lower_fields_by(numbering, words, &mut [0; 8]).map(<[u32]>::to_vec);
    assert_eq!(lowered(Numbering::Declared, &[2, 0, 1, 2, 3, 3]), Ok(vec![0, 2, 3, 3]));
    assert_eq!(lowered(Numbering::SyntheticLast, &[2, 0, 1, 2, 3, 3]), Ok(vec![0, 3, 2, 2]));
    assert_eq!(lowered(Numbering::SyntheticLast, &[1, 2, 3]), Ok(vec![2, 1]));
}

/// compare/evolve_cases.py: a message and an enum of one name; a message with two fields of one name.
#[test]
fn clean_and_contained_say_no() {
    let twice = file("plant", &[message("F", &[]), enumeration("F", &[("A", 0)])]);
    let fields = [field("a", 1, UINT32, OPTIONAL), field("a", 2, UINT32, OPTIONAL)];
    let two_fields = file("plant", &[message("F", &fields)]);
    assert_eq!([clean(&twice), clean(&two_fields), contained(&twice, &two_fields)], [Ok(false); 3]);
}

#[test]
fn a_tested_sheet_is_the_callers_own() {
    let bytes = schema();
    let sheet = Sheet::tested(&bytes).expect("a fine sheet");
    assert_eq!((sheet.bytes().as_ptr(), sheet.bytes().len()), (bytes.as_ptr(), bytes.len()));
}

#[test]
fn the_forms_are_fine() {
    assert_eq!(check_sheet(&schema()), Ok(()));
    assert_eq!(check_request(&seven("(order)")), Ok(()));
}
