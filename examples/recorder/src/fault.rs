//! What ends a recording before its script does.

use std::error::Error;
use std::fmt::{self, Display, Formatter};
use std::io;

/// A recording's end before the end of its script. What was recorded before it stays written.
#[derive(Debug)]
pub enum Fault {
    /// The line is no command of the primitive; or it is line 1, and names no primitive.
    NotACommand {
        /// The line's number, from 1.
        line: usize,
    },
    /// Upstream has nothing by which the line could be played.
    NoCounterpart {
        /// The line's number, from 1.
        line: usize,
        /// What upstream lacks.
        lacks: &'static str,
    },
    /// A read of the script or a write of the run failed.
    InputOrOutput(io::Error),
}

impl Fault {
    /// The status with which the program ends: 2 at a line that can't be played, 3 where a read or a write failed.
    pub fn status(&self) -> u8 {
        match self {
            Fault::NotACommand { .. } | Fault::NoCounterpart { .. } => 2,
            Fault::InputOrOutput(_) => 3,
        }
    }
}

impl Display for Fault {
    fn fmt(&self, formatter: &mut Formatter<'_>) -> fmt::Result {
        match self {
            Fault::NotACommand { line } => write!(formatter, "line {line}: not a command"),
            Fault::NoCounterpart { line, lacks } => {
                write!(formatter, "line {line}: no counterpart upstream: {lacks}")
            }
            Fault::InputOrOutput(_) => write!(formatter, "input or output failed"),
        }
    }
}

impl Error for Fault {
    fn source(&self) -> Option<&(dyn Error + 'static)> {
        match self {
            Fault::InputOrOutput(error) => Some(error),
            Fault::NotACommand { .. } | Fault::NoCounterpart { .. } => None,
        }
    }
}

impl From<io::Error> for Fault {
    fn from(error: io::Error) -> Self {
        Fault::InputOrOutput(error)
    }
}
