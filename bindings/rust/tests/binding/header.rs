//! include/opt.h, read as text, beside what this crate has of it. The functions are left to tools/boundary.py, which
//! holds both against crates/optc.
use cizasmok::sys::{self, opt_answer};
use cizasmok::*;
use std::mem::{align_of, offset_of, size_of};

const HEADER: &str = include_str!("../../../../include/opt.h");

/// The header without its comments, in one line.
fn code() -> String {
    let mut code = String::new();
    let mut rest = HEADER;
    while let Some((before, comment)) = rest.split_once("/*") {
        code += before;
        rest = comment.split_once("*/").expect("the end of a comment").1;
    }
    (code + rest).split_whitespace().collect::<Vec<_>>().join(" ")
}

/// Its enums, each as names and numbers.
fn enums(code: &str) -> Vec<Vec<(&str, u32)>> {
    let body = |text| between(text, "{", "}").split(',').map(pair).collect();
    code.split("enum ").skip(1).map(body).collect()
}

fn pair(text: &str) -> (&str, u32) {
    let (name, number) = text.split_once(" = ").expect("a name and its number");
    (name.trim(), number.trim().parse().expect("a number"))
}

fn between<'t>(text: &'t str, from: &str, to: &str) -> &'t str {
    let (_, behind) = text.split_once(from).unwrap_or_else(|| panic!("no `{from}` in the header"));
    behind.split_once(to).unwrap_or_else(|| panic!("no `{to}` behind `{from}` in the header")).0.trim()
}

/// `OPT_BAD_SHEET` as `BadSheet`.
fn camel(name: &str) -> String {
    let word = |word: &str| word[..1].to_string() + &word[1..].to_lowercase();
    name.strip_prefix("OPT_").expect("the header's prefix").split('_').map(word).collect()
}

#[test]
fn replies_have_its_names_and_numbers() {
    let code = code();
    let replies = &enums(&code)[0];
    assert_eq!(replies[0], ("OPT_DONE", 0));
    assert_eq!(Refusal::of(0, 0), None);
    for &(name, number) in &replies[1..] {
        assert_eq!(Refusal::of(number, 0).expect("a refusal").name(), camel(name));
    }
    let known = (0..1000).filter_map(|number| Refusal::of(number, 0)).count();
    assert_eq!(known, replies.len() - 1);
}

/// The one refusal that shares its number stands in the header's comment on that number.
#[test]
fn the_second_of_a_number_is_there() {
    let seconds: Vec<Refusal> = (0..1000).filter_map(|number| Refusal::of(number, 1)).collect();
    assert_eq!(seconds, [Refusal::BuiltinOptionPointsToNonSingularField]);
    assert_eq!((seconds[0].number(), seconds[0].second()), (10, 1));
    assert!(between(HEADER, "OPT_BUILTIN_OPTION_NOT_FOUND = 10,", "*/").contains(seconds[0].name()));
}

#[test]
fn figures_are_its_figures() {
    let code = code();
    let figures = [
        ("OPT_MOST_OPTION_BYTES", MOST_OPTION_BYTES as u32),
        ("OPT_FOUND_WORDS", FOUND_WORDS as u32),
        ("OPT_RECORD_WORDS", RECORD_WORDS as u32),
        ("OPT_MOST_WORDS", MOST_WORDS as u32),
    ];
    assert_eq!(enums(&code)[1..], [vec![("OPT_NOWHERE", sys::NOWHERE)], figures.to_vec()]);
}

/// Six 32-bit words in the header's order.
#[test]
fn an_answer_is_laid_out_as_its_struct() {
    let fields = [
        ("reply", offset_of!(opt_answer, reply)),
        ("second", offset_of!(opt_answer, second)),
        ("absent", offset_of!(opt_answer, absent)),
        ("length", offset_of!(opt_answer, length)),
        ("option", offset_of!(opt_answer, option)),
        ("part", offset_of!(opt_answer, part)),
    ];
    let declared = fields.map(|(name, _)| format!("uint32_t {name};")).join(" ");
    assert_eq!(between(&code(), "struct opt_answer {", "}"), declared);
    assert_eq!(fields.map(|(_, offset)| offset), [0, 4, 8, 12, 16, 20]);
    assert_eq!((size_of::<opt_answer>(), align_of::<opt_answer>()), (24, 4));
}
