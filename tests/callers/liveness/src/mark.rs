//! What the records of a run ask for: nothing, but each has its number.

use std::alloc::{AllocError, Global};
use vr_state::payload::Payload;

/// The payload of a record: a number.
#[derive(Clone, Copy, PartialEq, Eq)]
pub struct Mark {
    pub number: u64,
}

impl Payload for Mark {
    fn copy(&self, _alloc: Global) -> Result<Self, AllocError> {
        Ok(*self)
    }
}
