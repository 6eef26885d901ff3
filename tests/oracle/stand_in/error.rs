//! Stands in for core/src/vm/error.rs, which is not among the nine files: the two variants that hardware.rs makes.
use std::fmt::{Display, Formatter};

#[derive(Debug)]
pub enum ProcessorError {
    MemoryAccessError(String),
    TapeAccessError(String),
}

impl Display for ProcessorError {
    fn fmt(&self, f: &mut Formatter<'_>) -> std::fmt::Result {
        write!(f, "{self:?}")
    }
}

impl std::error::Error for ProcessorError {}
