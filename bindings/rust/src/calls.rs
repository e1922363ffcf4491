//! The calls of the header over slices.
use crate::sys::lent;
use crate::{Refused, FOUND_WORDS, RECORD_WORDS};

/// The most bytes that [`resolve`] writes, whatever it is given.
pub const MOST_OPTION_BYTES: usize = 65_536;

/// Tests the form of a sheet: fine, or its first fault from the front.
///
/// ```
/// # mod form { include!(concat!(env!("CARGO_MANIFEST_DIR"), "/tests/binding/form.rs")); } use form::*;
/// use cizasmok::{check_sheet, Refusal};
///
/// let sheet = schema(); // examples/order.proto
/// assert!(check_sheet(&sheet).is_ok());
/// let cut = check_sheet(&sheet[..100]).unwrap_err();
/// assert_eq!(cut.why, Refusal::BadSheet);
/// ```
pub fn check_sheet(sheet: &[u8]) -> Result<(), Refused> {
    lent::opt_sheet(sheet).done().map(drop)
}

/// Tests the form of a request: fine, or its first fault from the front.
///
/// ```
/// # mod form { include!(concat!(env!("CARGO_MANIFEST_DIR"), "/tests/binding/form.rs")); } use form::*;
/// use cizasmok::{check_request, Refusal};
///
/// assert!(check_request(&seven("(order)")).is_ok()); // `[(order) = 7]` on a field of Dispatch
/// let misspelt = check_request(&seven("(or-der)")).unwrap_err();
/// assert_eq!(misspelt.why, Refusal::BadRequest);
/// ```
pub fn check_request(request: &[u8]) -> Result<(), Refused> {
    lent::opt_request(request).done().map(drop)
}

/// Writes the bytes of a request's options under a sheet, and returns that part of `out`.
///
/// `None` is a request that has no options. Options that write nothing give an empty part.
///
/// ```
/// # mod form { include!(concat!(env!("CARGO_MANIFEST_DIR"), "/tests/binding/form.rs")); } use form::*;
/// use cizasmok::{resolve, MOST_OPTION_BYTES};
///
/// let mut out = vec![0; MOST_OPTION_BYTES];
/// let sheet = schema(); // examples/order.proto
/// let set = seven("(order)"); // `[(order) = 7]` on a field of Dispatch
/// assert_eq!(resolve(&sheet, &set, &mut out)?, Some(&[0x90, 0xB5, 0x18, 7][..]));
///
/// let bare = request("plant.Dispatch", "google.protobuf.FieldOptions", &[]);
/// assert_eq!(resolve(&sheet, &bare, &mut out)?, None);
/// # Ok::<(), cizasmok::Refused>(())
/// ```
pub fn resolve<'o>(sheet: &[u8], request: &[u8], out: &'o mut [u8]) -> Result<Option<&'o [u8]>, Refused> {
    lent::opt_resolve(sheet, request, out).unless_absent(|answer| answer.written(out))
}

/// Finds the extension that a path, which may lead with a dot, names in a scope, and writes its ten words:
/// [`Found::of`](crate::Found::of) reads them.
///
/// ```
/// # mod form { include!(concat!(env!("CARGO_MANIFEST_DIR"), "/tests/binding/form.rs")); } use form::*;
/// use cizasmok::{find, Found};
///
/// let sheet = schema();
/// let own = Found::of(find(&sheet, b"plant.Dispatch", b"order", &mut [0; 10])?);
/// let fleet = Found::of(find(&sheet, b"plant.Dispatch", b".plant.order", &mut [0; 10])?);
/// assert_eq!((own.number, fleet.number), (50002, 50001));
/// assert_eq!(&sheet[own.extendee.range()], b"google.protobuf.FieldOptions");
/// # Ok::<(), cizasmok::Refused>(())
/// ```
pub fn find<'o>(
    sheet: &[u8],
    scope: &[u8],
    path: &[u8],
    out: &'o mut [u32],
) -> Result<&'o [u32; FOUND_WORDS], Refused> {
    lent::opt_find(sheet, scope, path, out).words(out)
}

/// Lists the records of option bytes, eight words each: [`records`](crate::records) reads them.
///
/// `bytes.len() * RECORD_WORDS` words are always room enough.
///
/// ```
/// # mod form { include!(concat!(env!("CARGO_MANIFEST_DIR"), "/tests/binding/form.rs")); } use form::*;
/// use cizasmok::{list, records, RECORD_WORDS};
///
/// let bytes = [0x90, 0xB5, 0x18, 7, 0x88, 0xB5, 0x18, 3]; // what two options of a field set
/// let mut out = vec![0; bytes.len() * RECORD_WORDS];
/// let words = list(&schema(), b"google.protobuf.FieldOptions", &bytes, &mut out)?;
/// let set: Vec<_> = records(words).map(|record| (record.number, record.value())).collect();
/// assert_eq!(set, [(50002, 7), (50001, 3)]);
/// # Ok::<(), cizasmok::Refused>(())
/// ```
pub fn list<'o>(sheet: &[u8], options_type: &[u8], bytes: &[u8], out: &'o mut [u32]) -> Result<&'o [u32], Refused> {
    lent::opt_list(sheet, options_type, bytes, out).written(out)
}

/// Asks option bytes for the record that a name leads to, and writes its eight words: [`Record::of`](crate::Record::of)
/// reads them. `None`: there is no such record.
///
/// The name is the parts that an option begins with: 1A a field, 1B an extension by its full name.
///
/// ```
/// # mod form { include!(concat!(env!("CARGO_MANIFEST_DIR"), "/tests/binding/form.rs")); } use form::*;
/// use cizasmok::{query, Record};
///
/// let (sheet, on) = (schema(), b"google.protobuf.FieldOptions");
/// let fleet = b"\x1B\0\x0Bplant.order";
/// let mut out = [0; 8];
/// let record = query(&sheet, on, fleet, &[0x88, 0xB5, 0x18, 3], &mut out)?.map(Record::of);
/// assert_eq!(record.unwrap().value(), 3);
/// assert_eq!(query(&sheet, on, fleet, &[0x90, 0xB5, 0x18, 7], &mut out)?, None);
/// # Ok::<(), cizasmok::Refused>(())
/// ```
pub fn query<'o>(
    sheet: &[u8],
    options_type: &[u8],
    name: &[u8],
    bytes: &[u8],
    out: &'o mut [u32],
) -> Result<Option<&'o [u32; RECORD_WORDS]>, Refused> {
    lent::opt_query(sheet, options_type, name, bytes, out).unless_absent(|answer| answer.words(out))
}

/// The part of option bytes at a place, of this length: no copy.
///
/// ```
/// let bytes = b"\x0A\x02kW"; // a string in field 1
/// assert_eq!(cizasmok::payload(bytes, 2, 2)?, b"kW");
/// assert!(cizasmok::payload(bytes, 2, 3).is_err());
/// # Ok::<(), cizasmok::Refused>(())
/// ```
pub fn payload(bytes: &[u8], place: usize, length: usize) -> Result<&[u8], Refused> {
    lent::opt_payload(bytes, place as u64, length as u64).done()?;
    Ok(&bytes[place..place + length])
}

/// Whether a sheet is clean: no name and no number is declared twice, and every path names one thing.
///
/// ```
/// # mod form { include!(concat!(env!("CARGO_MANIFEST_DIR"), "/tests/binding/form.rs")); } use form::*;
/// use cizasmok::clean;
///
/// let sheet = schema();
/// assert!(clean(&sheet)?);
/// assert!(!clean(&[&sheet[..], &sheet].concat())?); // each file twice
/// # Ok::<(), cizasmok::Refused>(())
/// ```
pub fn clean(sheet: &[u8]) -> Result<bool, Refused> {
    lent::opt_clean(sheet).yes()
}

/// Whether an older sheet is contained in a newer one. Where both are clean besides, what [`resolve`] writes under the
/// newer [`list`] reads under the older, and misreads nothing.
///
/// ```
/// # mod form { include!(concat!(env!("CARGO_MANIFEST_DIR"), "/tests/binding/form.rs")); } use form::*;
/// use cizasmok::contained;
///
/// let older = fleet(&["low"], &[]); // message Limits { uint32 low = 1; }
/// let newer = fleet(&["low", "high"], &[]); // and uint32 high = 2
/// assert!(contained(&older, &newer)?);
/// assert!(!contained(&newer, &older)?);
/// # Ok::<(), cizasmok::Refused>(())
/// ```
pub fn contained(older: &[u8], newer: &[u8]) -> Result<bool, Refused> {
    lent::opt_contained(older, newer).yes()
}
