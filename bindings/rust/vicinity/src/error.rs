//! Why there is no result.

use std::error::Error;
use std::fmt;

/// Memory ran out: there is no answer.
#[derive(Clone, Copy, Debug, PartialEq, Eq)]
pub struct OutOfMemory;

/// Why there is no log whose slots are filled in.
#[derive(Clone, Debug, PartialEq, Eq)]
pub enum SimulateError {
    OutOfMemory,
    /// The line of the program that says why.
    Refused(String),
}

/// Why the program writes nothing.
#[derive(Clone, Copy, Debug, PartialEq, Eq)]
pub enum RunError {
    OutOfMemory,
    /// The texts aren't what the command takes, as two logs for `check`, or a name has LF.
    Usage,
}

impl fmt::Display for OutOfMemory {
    fn fmt(&self, f: &mut fmt::Formatter<'_>) -> fmt::Result {
        f.write_str("out of memory")
    }
}

impl fmt::Display for SimulateError {
    fn fmt(&self, f: &mut fmt::Formatter<'_>) -> fmt::Result {
        match self {
            SimulateError::OutOfMemory => OutOfMemory.fmt(f),
            SimulateError::Refused(line) => f.write_str(line),
        }
    }
}

impl fmt::Display for RunError {
    fn fmt(&self, f: &mut fmt::Formatter<'_>) -> fmt::Result {
        match self {
            RunError::OutOfMemory => OutOfMemory.fmt(f),
            RunError::Usage => f.write_str("usage"),
        }
    }
}

impl Error for OutOfMemory {}
impl Error for SimulateError {}
impl Error for RunError {}
