//! How answers are written.

use std::fmt::{Debug, Display};

/// The answer to a call that has none.
pub fn done() -> String {
    "Ok".to_string()
}

/// The answer of a poll that is Ready with `value`.
pub fn ready(value: impl Display) -> String {
    format!("Ready({value})")
}

/// The answer of a call that may find nothing.
pub fn optional(value: Option<impl Display>) -> String {
    value.map_or_else(|| "None".to_string(), |value| format!("Some({value})"))
}

/// The answer of a call that may be refused, where it gives a value.
pub fn result(result: Result<impl Display, impl Debug>) -> String {
    match result {
        Ok(value) => format!("Ok({value})"),
        Err(error) => refused(error),
    }
}

/// The answer of a call that may be refused, where it gives nothing.
pub fn outcome(result: Result<(), impl Debug>) -> String {
    result.map_or_else(refused, |()| done())
}

/// A row of bytes with commas between, or `-` for none.
pub fn row(bytes: &[u8]) -> String {
    if bytes.is_empty() {
        return "-".to_string();
    }
    let bytes: Vec<String> = bytes.iter().map(u8::to_string).collect();
    bytes.join(",")
}

fn refused(error: impl Debug) -> String {
    format!("Err({error:?})")
}
