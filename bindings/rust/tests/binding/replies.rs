//! Every refusal, each by a real call. The sentences, inputs and answers of `resolve` are those of compare/examples.py,
//! which has them by hand from 01; for the other calls a comment names the source.
use crate::form::*;
use cizasmok::*;
use std::collections::BTreeSet;
use std::fmt::Debug;

/// Number, second word, name, option and part.
type Told = (u32, u32, &'static str, Option<u32>, Option<u32>);

struct Case {
    says: &'static str,
    refused: Refused,
    wanted: Told,
}

fn case(says: &'static str, refused: Refused, wanted: Told) -> Case {
    Case { says, refused, wanted }
}

fn nowhere(number: u32, name: &'static str) -> Told {
    (number, 0, name, None, None)
}

fn at(number: u32, name: &'static str, option: u32, part: u32) -> Told {
    (number, 0, name, Some(option), Some(part))
}

/// The refusal of a call, which leaves what it was lent as it was.
fn kept<E: Copy + PartialEq + Debug>(mark: E, call: impl FnOnce(&mut [E]) -> Result<(), Refused>) -> Refused {
    let mut out = [mark; 64];
    let refused = call(&mut out).expect_err("a refusal");
    assert_eq!(out, [mark; 64]);
    refused
}

/// The refusal of a call and of its tested form.
fn alike(refused: Refused, tested: Refused) -> Refused {
    assert_eq!(refused, tested);
    refused
}

fn resolving(bytes: &[u8], request: &[u8]) -> Refused {
    let refused = kept(0xAA, |out| resolve(bytes, request, out).map(drop));
    match Sheet::tested(bytes) {
        Ok(sheet) => alike(refused, kept(0xAA, |out| sheet.resolve(request, out).map(drop))),
        Err(fault) => alike(refused, fault),
    }
}

// ---- the sheets of compare/examples.py

fn o_f(fields: &[Vec<u8>]) -> Vec<u8> {
    let values = enumeration("E", &[("A", 0), ("B", -1), ("C", 300)]);
    file("o", &[message("F", fields), values])
}

/// o.F, and in package p these.
fn p(items: &[Vec<u8>]) -> Vec<u8> {
    [file("p", items), o_f(&[])].concat()
}

/// An extension `x` of o.F, number 5, of this type, in package p, which also has a message M and an enum E.
fn one(kind: Type) -> Vec<u8> {
    let fields = [field("v", 1, UINT32, OPTIONAL)];
    p(&[extension("x", 5, kind, "o.F"), message("M", &fields), enumeration("E", &[("A", 0), ("C", 300)])])
}

/// An extension `m` of o.F, whose message has itself as `r` and a uint32 `v`.
fn nested() -> Vec<u8> {
    let fields = [field("r", 1, message_type("p.R"), OPTIONAL), field("v", 2, UINT32, OPTIONAL)];
    p(&[extension("m", 7, message_type("p.R"), "o.F"), message("R", &fields)])
}

fn plant(outer: &[Vec<u8>], inner: &[Vec<u8>]) -> Vec<u8> {
    let google = [message("FieldOptions", &[]), message("MessageOptions", &[])];
    [file("plant", &[outer.concat(), message("Dispatch", inner)]), file("google.protobuf", &google)].concat()
}

// ---- the requests

fn asked(options: &[Vec<u8>]) -> Vec<u8> {
    request("p", "o.F", options)
}

fn is_1(name: &str) -> Vec<u8> {
    asked(&[option(name, unsigned(1))])
}

/// `(x)` of that type, set to this constant.
fn x(constant: Vec<u8>, kind: Type) -> Refused {
    resolving(&one(kind), &asked(&[option("(x)", constant)]))
}

/// The options type's own field `b` of that type and label, set to this constant.
fn b(constant: Vec<u8>, kind: Type, label: u8) -> Refused {
    resolving(&o_f(&[field("b", 1, kind, label)]), &asked(&[option("b", constant)]))
}

// ---- the cases

fn of_inputs() -> Vec<Case> {
    let seventeen = format!("(x){}", ".a".repeat(16));
    let two = o_f(&[]).repeat(2);
    vec![
        case("the sheet is answered first", resolving(&[1], &[1]), nowhere(1, "BadSheet")),
        case("then the request", resolving(&[], &[1]), nowhere(2, "BadRequest")),
        case("a 17th part", resolving(&one(UINT32), &is_1(&seventeen)), nowhere(3, "BeyondLimit")),
        case("the options type is looked up", resolving(&[], &is_1("(x)")), nowhere(7, "MessageNotFound")),
        case("two files declare it", resolving(&two, &is_1("(x)")), nowhere(8, "MessageFoundMoreThanOnce")),
    ]
}

fn of_names() -> Vec<Case> {
    let rank = |number, extendee| extension("rank", number, UINT32, extendee);
    let outer = [rank(50001, FIELD_OPTIONS)];
    let wrong = plant(&outer, &[rank(50002, MESSAGE_OPTIONS)]);
    let seven = request("plant.Dispatch", FIELD_OPTIONS, &[option("(rank)", unsigned(7))]);
    let inside = [extension("m", 7, message_type("p.R"), "o.F"), extension("y", 9, UINT32, "o.F"), message("R", &[])];
    let again = [one(message_type("p.M")), file("p", &[message("M", &[])])].concat();
    let mixed = [file("p", &[extension("x", 5, UINT32, "o.F")]), o_f(&[field("b", 2, BOOL, OPTIONAL)])].concat();
    let second = asked(&[option("b", truth(true)), option("(z)", unsigned(1)), option("c", truth(true))]);
    let found_more = "MessageFoundMoreThanOnce";
    vec![
        case("P6: nothing of that name", resolving(&plant(&[], &[]), &seven), at(4, "ExtensionNotFound", 0, 0)),
        case("the first refused ends the work", resolving(&mixed, &second), at(4, "ExtensionNotFound", 1, 0)),
        case("P5: what is found first decides", resolving(&wrong, &seven), at(5, "WrongExtensionType", 0, 0)),
        case(
            "inside, of the options type",
            resolving(&p(&inside), &is_1("(m).(y)")),
            at(5, "WrongExtensionType", 0, 1),
        ),
        case("parts left on a uint32", resolving(&one(UINT32), &is_1("(x).v")), at(6, "ExtensionIsNotMessage", 0, 0)),
        case("parts left, further in", resolving(&nested(), &is_1("(m).r.v.r")), at(6, "ExtensionIsNotMessage", 0, 2)),
        case("no message", resolving(&one(message_type("none")), &is_1("(x).v")), at(7, "MessageNotFound", 0, 0)),
        case("a message in two files", resolving(&again, &is_1("(x).v")), at(8, found_more, 0, 0)),
        case("a field that is not there", resolving(&nested(), &is_1("(m).none")), at(9, "UnknownFieldName", 0, 1)),
        case("between others", resolving(&nested(), &is_1("(m).r.none.r.v")), at(9, "UnknownFieldName", 0, 2)),
    ]
}

fn of_builtins() -> Vec<Case> {
    let behind = request("p", FIELD_OPTIONS, &[option("default", truth(true)), option("packed", truth(true))]);
    let repeated = (10, 1, "BuiltinOptionPointsToNonSingularField", Some(0), Some(0));
    let e = enum_type("o.E");
    let misfit = at(12, "UnsupportedExtensionType", 0, 0);
    vec![
        case("no such field", resolving(&o_f(&[]), &is_1("b")), at(10, "BuiltinOptionNotFound", 0, 0)),
        case("after `default`", resolving(&plant(&[], &[]), &behind), at(10, "BuiltinOptionNotFound", 1, 0)),
        case("a repeated field", b(truth(true), BOOL, REPEATED), repeated),
        case("an integer on a bool", b(unsigned(1), BOOL, OPTIONAL), misfit),
        case("an enum name that is not listed is 12, not 13", b(identifier("NONE"), e, OPTIONAL), misfit),
        case("a string that is not UTF-8", b(text([0xFF]), STRING, OPTIONAL), at(15, "StrLitDecodeError", 0, 0)),
    ]
}

fn of_constants() -> Vec<Case> {
    let q = asked(&[option("(m).r.v", text("q"))]);
    let no_field = pairs(&[("none", unsigned(1))]);
    let (m, e) = (message_type("p.M"), enum_type("p.E"));
    let needs_message = "MessageFieldRequiresMessageConstant";
    vec![
        case("a message constant on a uint32", x(pairs(&[]), UINT32), at(11, needs_message, 0, 0)),
        case("a bool on a message", x(truth(true), m), at(12, "UnsupportedExtensionType", 0, 0)),
        case("a constant has the last part", resolving(&nested(), &q), at(12, "UnsupportedExtensionType", 0, 2)),
        case("a name that is not listed", x(identifier("NONE"), e), at(13, "UnknownEnumValue", 0, 0)),
        case("an enum that is not there", x(identifier("A"), enum_type("p.D")), at(7, "MessageNotFound", 0, 0)),
        case("a pair that names no field", x(no_field, m), at(9, "UnknownFieldName", 0, 0)),
        case("P9: one more than uint32 holds", x(unsigned(4294967296), UINT32), at(14, "ValueRange", 0, 0)),
        case("an overlong zero", x(text([0xC0, 0x80]), STRING), at(15, "StrLitDecodeError", 0, 0)),
    ]
}

/// compare/query_cases.py, which has the names, the bytes and the answers by hand.
fn of_queries() -> Vec<Case> {
    let m = message_type("o.F");
    let fields = [
        field("v", 1, UINT32, OPTIONAL),
        field("m", 2, m, OPTIONAL),
        field("n", 3, message_type("none"), OPTIONAL),
        field("t", 4, message_type("p.T"), OPTIONAL),
    ];
    let extensions = [extension("x", 6, m, "o.F"), extension("y", 7, UINT32, "o.G")];
    let twice = file("p", &[message("T", &[])]).repeat(2);
    let bytes = [file("o", &[message("F", &fields), message("G", &[])]), file("p", &extensions), twice].concat();
    let sheet = Sheet::tested(&bytes).expect("a fine sheet");
    let asking = |path: &str, set: &[u8]| {
        let refused = kept(7, |out| query(&bytes, b"o.F", &name(path), set, out).map(drop));
        alike(refused, kept(7, |out| sheet.query(b"o.F", &name(path), set, out).map(drop)))
    };
    let part = |number, name, part| (number, 0, name, None, Some(part));
    let seventeen = format!("{}v", "m.".repeat(16));
    vec![
        case("no such extension", asking("m.m.(.p.none).v", &[]), part(4, "ExtensionNotFound", 2)),
        case("an extension of o.G", asking("m.(.p.y)", &[]), part(5, "WrongExtensionType", 1)),
        case("parts left on a uint32", asking("m.v.w", &[8, 7]), part(6, "ExtensionIsNotMessage", 1)),
        case("parts left on no message", asking("n.v", &[]), part(7, "MessageNotFound", 0)),
        case("parts left on two messages", asking("m.m.t.v", &[]), part(8, "MessageFoundMoreThanOnce", 2)),
        case("no such field", asking("none", &[8, 7]), part(9, "UnknownFieldName", 0)),
        case("cut bytes, before the name", asking("none", &[8]), nowhere(18, "BadBytes")),
        case("another wire type", asking("none", &[9, 0, 0, 0, 0, 0, 0, 0, 0]), nowhere(19, "WireMismatch")),
        case("17 parts, before the bytes", asking(&seventeen, &[8]), nowhere(3, "BeyondLimit")),
    ]
}

/// [LIST-9], [LIMIT-1] and [FIND-1] of docs/RULES.md.
fn of_listings_and_finds() -> Vec<Case> {
    let bytes = schema();
    let sheet = Sheet::tested(&bytes).expect("a fine sheet");
    let on = FIELD_OPTIONS.as_bytes();
    let listing = |set: &[u8]| {
        let refused = kept(7, |out| list(&bytes, on, set, out).map(drop));
        alike(refused, kept(7, |out| sheet.list(on, set, out).map(drop)))
    };
    let finding = |path: &str| {
        let refused = kept(7, |out| find(&bytes, b"plant", path.as_bytes(), out).map(drop));
        alike(refused, kept(7, |out| sheet.find(b"plant", path.as_bytes(), out).map(drop)))
    };
    vec![
        case("wire type 3", listing(&[0x0B]), nowhere(18, "BadBytes")),
        case("a uint32 in four bytes", listing(&[0x8D, 0xB5, 0x18, 0, 0, 0, 0]), nowhere(19, "WireMismatch")),
        case("65,537 option bytes", listing(&[0; 65_537]), nowhere(3, "BeyondLimit")),
        case("an undeclared name", finding("none"), nowhere(4, "ExtensionNotFound")),
        case("a path that ends with a dot", finding("plant."), nowhere(2, "BadRequest")),
    ]
}

/// [PAYLOAD-2], [LOWER-1], [LOWER-4] to [LOWER-6], [LOWER-10] and [REPLY-6] of docs/RULES.md; 01's example 10.
fn of_other_calls() -> Vec<Case> {
    let lowering = |words: &[i32]| kept(7, |out| lower_ranges(RangeKind::Extension, words, out).map(drop));
    let oneofs = |words: &[u32]| {
        let refused = kept(7, |out| lower_fields(words, out).map(drop));
        alike(refused, kept(7, |out| lower_fields_by(Numbering::SyntheticLast, words, out).map(drop)))
    };
    let part_of = |bytes: &[u8], place, length| payload(bytes, place, length).expect_err("a refusal");
    let room = resolve(&schema(), &seven("(order)"), &mut [0; 3]).expect_err("a refusal");
    vec![
        case("a length past the end", part_of(&[1, 2, 3], 2, 2), nowhere(2, "BadRequest")),
        case("a place and a length that overflow", part_of(&[1], usize::MAX, usize::MAX), nowhere(2, "BadRequest")),
        case("a payload of 65,537 bytes", part_of(&[0; 65_537], 0, 0), nowhere(3, "BeyondLimit")),
        case("an end that has no successor", lowering(&[1, 2147483647]), nowhere(16, "RangeEnd")),
        case("an odd count comes before it", lowering(&[1, 2147483647, 1]), nowhere(2, "BadRequest")),
        case("4,098 words of ranges", lowering(&[1; 4_098]), nowhere(3, "BeyondLimit")),
        case("a member outside a oneof", oneofs(&[0, 3]), nowhere(2, "BadRequest")),
        case("4,097 words of fields", oneofs(&[0; 4_097]), nowhere(3, "BeyondLimit")),
        case("three bytes of room for four", room, nowhere(17, "NoRoom")),
    ]
}

/// 01, "Most allowed", and [CLEAN-6], [CONTAIN-4].
fn of_tests_of_form() -> Vec<Case> {
    let (long, bad): (&[u8], &[u8]) = (&[0; 32_769], &[1]);
    let refused = |answer: Result<bool, Refused>| answer.expect_err("a refusal");
    vec![
        case("a malformed sheet", check_sheet(bad).unwrap_err(), nowhere(1, "BadSheet")),
        case("a malformed sheet, to be asked often", Sheet::tested(bad).unwrap_err(), nowhere(1, "BadSheet")),
        case("a sheet past the limit", check_sheet(long).unwrap_err(), nowhere(3, "BeyondLimit")),
        case("no request", check_request(&[]).unwrap_err(), nowhere(2, "BadRequest")),
        case("a request past the limit", check_request(&[0; 8_193]).unwrap_err(), nowhere(3, "BeyondLimit")),
        case("clean, of a malformed sheet", refused(clean(bad)), nowhere(1, "BadSheet")),
        case("contained, the older first", refused(contained(long, bad)), nowhere(3, "BeyondLimit")),
        case("contained, then the newer", refused(contained(&[], bad)), nowhere(1, "BadSheet")),
    ]
}

#[test]
fn every_refusal_is_produced_by_a_call() {
    let resolved = [of_inputs, of_names, of_builtins, of_constants];
    let others = [of_queries, of_listings_and_finds, of_other_calls, of_tests_of_form];
    let mut produced = BTreeSet::new();
    for Case { says, refused, wanted } in resolved.iter().chain(&others).flat_map(|cases| cases()) {
        let Refused { why, option, part } = refused;
        assert_eq!((why.number(), why.second(), why.name(), option, part), wanted, "{says}");
        produced.insert((why.number(), why.second()));
    }
    let numbers: BTreeSet<(u32, u32)> = (1..=19).map(|number| (number, 0)).chain([(10, 1)]).collect();
    assert_eq!(produced, numbers);
}

#[test]
fn a_refusal_says_where_and_what_to_do() {
    let refused = resolve(&mistaken_schema(), &seven("(order)"), &mut [0; 64]).unwrap_err();
    assert_eq!(
        refused.to_string(),
        "option 0, part 0 of its name: the extension that is found first extends another message; write the full \
         name with a leading dot if you mean one further out (5 WrongExtensionType)"
    );
    let refused = query(&schema(), FIELD_OPTIONS.as_bytes(), &name("none"), &[], &mut [0; 8]).unwrap_err();
    assert!(refused.to_string().starts_with("part 0 of the name: the message has no field of that name; "));
    let refused = check_sheet(&[1]).unwrap_err();
    assert!(refused.to_string().starts_with("the sheet is malformed: "));
    assert!(refused.to_string().ends_with(" (1 BadSheet)"));
}
