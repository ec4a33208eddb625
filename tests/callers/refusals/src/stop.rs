//! What ends the calls early. What is called is not here.
use std::alloc::{AllocError, AllocFailed};

/// Why no more calls are made.
#[derive(Clone, Copy, Debug, PartialEq, Eq)]
pub enum Stop {
    /// A call answered an error twice.
    Twice,
    /// The growth was this program's own, not a call's.
    Own,
    /// What comes out of the calls is not what they are to show, or can't be printed.
    Other,
}

impl From<AllocError> for Stop {
    fn from(_e: AllocError) -> Stop {
        Stop::Own
    }
}

impl<T: Drop> From<AllocFailed<T>> for Stop {
    fn from(_e: AllocFailed<T>) -> Stop {
        Stop::Own
    }
}

impl From<std::io::Error> for Stop {
    fn from(_e: std::io::Error) -> Stop {
        Stop::Other
    }
}
