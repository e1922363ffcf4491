//! The C functions as `include/opt.h` declares them, and the only `unsafe` code of this crate. `tools/boundary.py`
//! holds these lines against the header and against `crates/optc`.

/// What every call returns.
#[allow(non_camel_case_types)]
#[repr(C)]
#[derive(Clone, Copy, Debug, PartialEq, Eq)]
pub struct opt_answer {
    /// 0, or [the number](crate::Refusal::number) of the refusal.
    pub reply: u32,
    /// [The second word](crate::Refusal::second) of the refusal; 1 for a yes; else 0.
    pub second: u32,
    /// 1 where there is nothing to answer, else 0.
    pub absent: u32,
    /// How many elements of `out` were written; of a payload its length; 0 on a refusal.
    pub length: u32,
    /// Which option was refused, from 0, or [`NOWHERE`].
    pub option: u32,
    /// Which part of its name, from 0, or [`NOWHERE`].
    pub part: u32,
}

/// Stands in `option` and `part` where there is no position.
pub const NOWHERE: u32 = 65_535;

/// Declares functions of the header and, in `lent`, the same functions over slices.
///
/// The arguments of a line are the header's, in its order, and a slice stands for a pointer and its count: the inputs
/// in brackets, behind the semicolon what is written.
macro_rules! functions {
    ($(
        #[doc = $doc:literal]
        fn $name:ident(
            $($first:ident: u32,)? [$($input:ident: $element:ty),+] $(, $word:ident: u64)*
            $(; $out:ident: $cell:ty)?
        );
    )+) => {
        extern "C" {
            $(
                #[doc = $doc]
                pub fn $name(
                    $($first: u32,)?
                    $($input: *const $element, _: usize,)+
                    $($word: u64,)*
                    $($out: *mut $cell, _: usize,)?
                ) -> opt_answer;
            )+
        }

        pub(crate) mod lent {
            use super::opt_answer;

            $(
                pub(crate) fn $name(
                    $($first: u32,)?
                    $($input: &[$element],)+
                    $($word: u64,)*
                    $($out: &mut [$cell],)?
                ) -> opt_answer {
                    // SAFETY: each pointer is passed with the count of its own slice, which is
                    // lent until the call returns; no call keeps a pointer. Inputs are only read,
                    // and `out`, being lent to nobody else, overlaps none of them. Every content
                    // has an answer.
                    unsafe {
                        super::$name(
                            $($first,)?
                            $($input.as_ptr(), $input.len(),)+
                            $($word,)*
                            $($out.as_mut_ptr(), $out.len(),)?
                        )
                    }
                }
            )+
        }
    };
}

functions! {
    /// Tests the form of a sheet.
    fn opt_sheet([sheet: u8]);
    /// Tests the form of a request.
    fn opt_request([request: u8]);
    /// Writes the bytes of a request's options under a sheet.
    fn opt_resolve([sheet: u8, request: u8]; out: u8);
    /// Writes ten words of the extension that a path finds in a scope.
    fn opt_find([sheet: u8, scope: u8, path: u8]; out: u32);
    /// Writes eight words for each record of option bytes under an options type.
    fn opt_list([sheet: u8, options_type: u8, bytes: u8]; out: u32);
    /// Writes the eight words of the record that a name leads to in option bytes.
    fn opt_query([sheet: u8, options_type: u8, name: u8, bytes: u8]; out: u32);
    /// Whether a place and a length lie in option bytes.
    fn opt_payload([bytes: u8], place: u64, length: u64);
    /// Lowers ranges, a start and an end in turn, of a kind.
    fn opt_ranges(kind: u32, [words: i32]; out: i32);
    /// Gives fields their oneofs.
    fn opt_fields([words: u32]; out: u32);
    /// Gives fields their oneofs in a numbering.
    fn opt_fields_by(numbering: u32, [words: u32]; out: u32);
    /// Whether a sheet is clean.
    fn opt_clean([sheet: u8]);
    /// Whether an older sheet is contained in a newer one.
    fn opt_contained([older: u8, newer: u8]);
    /// As [`opt_resolve`], of a sheet that [`opt_sheet`] found fine.
    fn opt_resolve_tested([sheet: u8, request: u8]; out: u8);
    /// As [`opt_find`], of a sheet that [`opt_sheet`] found fine.
    fn opt_find_tested([sheet: u8, scope: u8, path: u8]; out: u32);
    /// As [`opt_list`], of a sheet that [`opt_sheet`] found fine.
    fn opt_list_tested([sheet: u8, options_type: u8, bytes: u8]; out: u32);
    /// As [`opt_query`], of a sheet that [`opt_sheet`] found fine.
    fn opt_query_tested([sheet: u8, options_type: u8, name: u8, bytes: u8]; out: u32);
}
