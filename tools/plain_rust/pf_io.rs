//! The error of running out of memory, which the mirror never does.
#[derive(Clone, Copy, Debug, PartialEq, Eq)]
pub struct NoMemory;

impl From<kit::Never> for NoMemory {
    fn from(_never: kit::Never) -> NoMemory {
        NoMemory
    }
}

impl<T> From<kit::AllocFailed<T>> for NoMemory {
    fn from(_failed: kit::AllocFailed<T>) -> NoMemory {
        NoMemory
    }
}
