//! What an answer of C says, in Rust's words: refused, absent, or elements of `out`.
use crate::sys::opt_answer;
use crate::Refused;

impl opt_answer {
    /// The answer itself, unless it is a refusal.
    pub(crate) fn done(self) -> Result<opt_answer, Refused> {
        if self.reply == 0 {
            Ok(self)
        } else {
            Err(Refused::of(self))
        }
    }

    /// Nothing where the answer is Absent, else what `read` makes of it.
    pub(crate) fn unless_absent<T>(
        self,
        read: impl FnOnce(opt_answer) -> Result<T, Refused>,
    ) -> Result<Option<T>, Refused> {
        (self.absent == 0).then(|| read(self)).transpose()
    }

    /// The part of `out` that was written.
    pub(crate) fn written<T>(self, out: &[T]) -> Result<&[T], Refused> {
        Ok(&out[..self.done()?.length as usize])
    }

    /// The same of a call that writes so many words or none.
    pub(crate) fn words<const N: usize>(self, out: &[u32]) -> Result<&[u32; N], Refused> {
        let words = self.written(out)?;
        Ok(words.try_into().expect("the library writes all words of an answer"))
    }

    /// Of a call that answers yes or no.
    pub(crate) fn yes(self) -> Result<bool, Refused> {
        Ok(self.done()?.second == 1)
    }
}
