//! What ends a load early, with the text that goes to standard error.
use measures::Fault as MeasureFault;
use std::alloc::{AllocError, AllocFailed};
use thiserror::Error;

/// Why nothing, or no more, is loaded.
#[derive(Clone, Copy, Debug, PartialEq, Eq, Error)]
pub enum Fault {
    #[error("no connection, or it broke")]
    NoConnection,
    #[error("what came back is no message")]
    NoMessage,
    #[error("cannot print or tell the time")]
    NoSystem,
    #[error("out of memory")]
    NoMemory,
}

impl From<MeasureFault> for Fault {
    fn from(_e: MeasureFault) -> Fault {
        Fault::NoMemory
    }
}

impl From<std::io::Error> for Fault {
    fn from(_e: std::io::Error) -> Fault {
        Fault::NoConnection
    }
}

impl From<AllocError> for Fault {
    fn from(_e: AllocError) -> Fault {
        Fault::NoMemory
    }
}

impl<T: Drop> From<AllocFailed<T>> for Fault {
    fn from(_e: AllocFailed<T>) -> Fault {
        Fault::NoMemory
    }
}
