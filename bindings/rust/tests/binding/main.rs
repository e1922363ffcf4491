//! The crate with the archive that it is linked with. Every expected value comes from 01, or from a page or a file of
//! the repository that has it by hand from there; the tests say which.
mod answers;
mod by_c;
mod empty;
mod form;
mod header;
mod replies;
mod room;
mod threads;

use cizasmok::{Refusal, Refused};

/// A refusal that has no position.
fn nowhere(why: Refusal) -> Refused {
    Refused { why, option: None, part: None }
}
