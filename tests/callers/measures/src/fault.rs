//! What ends a measurement early, with the text that goes to standard error.
use dir_search::{IndexError, NameError};
use filter_text::FilterTextError;
use std::alloc::{AllocError, AllocFailed};
use thiserror::Error;
use vr_wire::WireError;

/// Why nothing, or no more, is measured.
#[derive(Clone, Copy, Debug, PartialEq, Eq, Error)]
pub enum Fault {
    #[error("usage: bench ITEMS, or: bench requests ITEMS, or: bench events RECORDS, or: bench frames RECORDS")]
    BadCommandLine,
    #[error("the add of number {number} was refused")]
    AddRefused { number: u64 },
    #[error("a name, a filter or the index choice is no such text")]
    BadText,
    #[error("{0}")]
    Wire(WireError),
    #[error("a node was refused, or gave other replies than it should")]
    NoNode,
    #[error("cannot print or tell the time")]
    NoSystem,
    #[error("out of memory")]
    NoMemory,
}

impl From<NameError> for Fault {
    fn from(error: NameError) -> Fault {
        match error {
            NameError::BadName => Fault::BadText,
            NameError::NoMemory => Fault::NoMemory,
        }
    }
}

impl From<FilterTextError> for Fault {
    fn from(error: FilterTextError) -> Fault {
        match error {
            FilterTextError::NoMemory => Fault::NoMemory,
            FilterTextError::BadFilterText { .. }
            | FilterTextError::TooDeep
            | FilterTextError::TooManyItems => Fault::BadText,
        }
    }
}

impl From<IndexError> for Fault {
    fn from(error: IndexError) -> Fault {
        match error {
            IndexError::NoMemory => Fault::NoMemory,
            IndexError::BadDescription { .. }
            | IndexError::UnknownName { .. }
            | IndexError::IndexWithoutRule { .. } => Fault::BadText,
        }
    }
}

impl From<WireError> for Fault {
    fn from(error: WireError) -> Fault {
        Fault::Wire(error)
    }
}

impl From<std::io::Error> for Fault {
    fn from(_e: std::io::Error) -> Fault {
        Fault::NoSystem
    }
}

impl From<AllocError> for Fault {
    fn from(_e: AllocError) -> Fault {
        Fault::NoMemory
    }
}

impl<T: Drop> From<AllocFailed<T>> for Fault {
    fn from(_e: AllocFailed<T>) -> Fault {
        Fault::NoMemory
    }
}
