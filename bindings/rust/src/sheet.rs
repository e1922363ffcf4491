//! A sheet that is tested once and then asked many times.
use crate::sys::lent;
use crate::{check_sheet, Refused, FOUND_WORDS, RECORD_WORDS};

/// A sheet of which the form was tested. The test is most of the work of one call, so who asks more than once makes it
/// once:
///
/// ```
/// # mod form { include!(concat!(env!("CARGO_MANIFEST_DIR"), "/tests/binding/form.rs")); } use form::*;
/// use cizasmok::Sheet;
///
/// let bytes = schema();
/// let sheet = Sheet::tested(&bytes)?;
/// let mut out = [0; 16];
/// assert_eq!(sheet.resolve(&seven("(order)"), &mut out)?, Some(&[0x90, 0xB5, 0x18, 7][..]));
/// assert_eq!(sheet.resolve(&seven("(.plant.order)"), &mut out)?, Some(&[0x88, 0xB5, 0x18, 7][..]));
/// # Ok::<(), cizasmok::Refused>(())
/// ```
#[derive(Clone, Copy, Debug)]
pub struct Sheet<'s> {
    bytes: &'s [u8],
}

impl<'s> Sheet<'s> {
    /// Tests the form of a sheet, as [`check_sheet`] does.
    pub fn tested(bytes: &'s [u8]) -> Result<Sheet<'s>, Refused> {
        check_sheet(bytes).map(|()| Sheet { bytes })
    }

    /// The sheet's bytes.
    pub fn bytes(&self) -> &'s [u8] {
        self.bytes
    }

    /// As [`resolve`](crate::resolve).
    pub fn resolve<'o>(&self, request: &[u8], out: &'o mut [u8]) -> Result<Option<&'o [u8]>, Refused> {
        lent::opt_resolve_tested(self.bytes, request, out).unless_absent(|answer| answer.written(out))
    }

    /// As [`find`](crate::find).
    pub fn find<'o>(&self, scope: &[u8], path: &[u8], out: &'o mut [u32]) -> Result<&'o [u32; FOUND_WORDS], Refused> {
        lent::opt_find_tested(self.bytes, scope, path, out).words(out)
    }

    /// As [`list`](crate::list).
    pub fn list<'o>(&self, options_type: &[u8], bytes: &[u8], out: &'o mut [u32]) -> Result<&'o [u32], Refused> {
        lent::opt_list_tested(self.bytes, options_type, bytes, out).written(out)
    }

    /// As [`query`](crate::query).
    pub fn query<'o>(
        &self,
        options_type: &[u8],
        name: &[u8],
        bytes: &[u8],
        out: &'o mut [u32],
    ) -> Result<Option<&'o [u32; RECORD_WORDS]>, Refused> {
        lent::opt_query_tested(self.bytes, options_type, name, bytes, out).unless_absent(|answer| answer.words(out))
    }
}
