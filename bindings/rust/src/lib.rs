//! Resolves protobuf options by name, as protobuf-parse 3.7.2 does, and says why where it refuses.
//!
//! The work is done by `liboptc.a`, whose calls are proved to answer every input by the rules of `docs/RULES.md`; this
//! crate passes slices to it and takes its answers apart. No call allocates, blocks or holds anything between calls, so
//! any number of threads may call at once. Leave 64 KB of stack: 42 KB were measured of [`clean`], 18 KB of [`resolve`].
//!
//! A schema is given as a *sheet*, the options to resolve as a *request*; both are fields of a tag, a length and a
//! payload (`docs/RULES.md`, [FORM-1] to [FORM-4]). Two people write `(order)`, and mean two options:
//!
//! ```proto
//! package plant;
//! extend google.protobuf.FieldOptions { optional uint32 order = 50001; }    // the fleet's
//! message Dispatch {
//!   extend google.protobuf.FieldOptions { optional uint32 order = 50002; }  // Dispatch's own
//!   uint32 setpoint = 1 [(order) = 7];
//! }
//! ```
//!
//! The name is looked for from the innermost scope outward, and what is found first is taken. Only then is it tested
//! whether it extends the right message:
//!
//! ```
//! use cizasmok::{resolve, Refusal};
//!
//! fn f(tag: u8, payload: impl AsRef<[u8]>) -> Vec<u8> {
//!     let payload = payload.as_ref();
//!     [&[tag][..], &(payload.len() as u16).to_be_bytes(), payload].concat()
//! }
//!
//! // extend EXTENDEE { optional uint32 order = NUMBER; }
//! fn order(number: u32, extendee: &str) -> Vec<u8> {
//!     let shape = [f(0x13, number.to_be_bytes()), f(0x14, [13]), f(0x15, [1])].concat();
//!     f(0x03, [f(0x11, "order"), f(0x12, extendee), shape].concat())
//! }
//!
//! // The .proto above, with Dispatch's own on this extendee, and the file that declares FieldOptions.
//! fn schema(extendee: &str) -> Vec<u8> {
//!     let dispatch = f(0x02, [f(0x11, "Dispatch"), order(50002, extendee)].concat());
//!     let fleet = order(50001, "google.protobuf.FieldOptions");
//!     let options = f(0x02, f(0x11, "FieldOptions"));
//!     [
//!         f(0x01, [f(0x10, "plant"), fleet, dispatch].concat()),
//!         f(0x01, [f(0x10, "google.protobuf"), options].concat()),
//!     ]
//!     .concat()
//! }
//!
//! // [(NAME) = 7] on a field of Dispatch
//! fn seven(name: &str) -> Vec<u8> {
//!     let option = f(0x08, [f(0x1B, name), f(0x21, 7u64.to_be_bytes())].concat());
//!     [f(0x18, "plant.Dispatch"), f(0x19, "google.protobuf.FieldOptions"), option].concat()
//! }
//!
//! let sheet = schema("google.protobuf.FieldOptions");
//! let mut out = [0; 64];
//! // 50002 is the tag 90 B5 18, and 50001 is 88 B5 18.
//! assert_eq!(resolve(&sheet, &seven("order"), &mut out)?, Some(&[0x90, 0xB5, 0x18, 7][..]));
//! assert_eq!(resolve(&sheet, &seven(".plant.order"), &mut out)?, Some(&[0x88, 0xB5, 0x18, 7][..]));
//!
//! // Dispatch's own on MessageOptions, by mistake: found first, and none of a field's.
//! let mistaken = schema("google.protobuf.MessageOptions");
//! let refused = resolve(&mistaken, &seven("order"), &mut out).unwrap_err();
//! assert_eq!(refused.why, Refusal::WrongExtensionType);
//! assert_eq!((refused.why.number(), refused.option, refused.part), (5, Some(0), Some(0)));
//! # Ok::<(), cizasmok::Refused>(())
//! ```
//!
//! The examples below make their bytes with the functions of `tests/binding/form.rs`, among them `schema` and `seven`
//! for the story above.
//!
//! `build.rs` has the archive proved and built by `rt lib` in `crates/optc`, or links the one in the folder that the
//! environment variable `OPTC_LIBRARY` names. It is built for x86-64 Linux.
#![deny(unsafe_code, missing_docs)]

mod answer;
mod calls;
mod lowering;
mod refusal;
mod sheet;
#[allow(unsafe_code)]
pub mod sys;
mod words;

pub use calls::{check_request, check_sheet, clean, contained, find, list, payload, query, resolve, MOST_OPTION_BYTES};
pub use lowering::{lower_fields, lower_fields_by, lower_ranges, Numbering, RangeKind, MOST_WORDS};
pub use refusal::{Refusal, Refused};
pub use sheet::Sheet;
pub use words::{records, Found, Record, Span, FOUND_WORDS, RECORD_WORDS};
