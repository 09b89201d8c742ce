//! What a recorded run can say, and why a recording stops where a program does more.
use std::fmt;

/// The greatest capacity of a primitive.
pub const GREATEST_CAPACITY: usize = 4096;
/// How many requests, guards and releasers a primitive can have at a time, all together.
pub const REQUESTS: usize = 1024;
/// How many requests a pipe can have at a time. These are fewer: the checker keeps room for `ROW` bytes in each.
pub const PIPE_REQUESTS: usize = 16;
/// How many receivers a watch can have at a time, and how many subscribers and publishers a pub-sub channel can.
pub const NAMES: usize = 16;
/// How many bytes a call of a pipe can name.
pub const ROW: usize = 4096;
// A call that moves at most as many bytes as the capacity names the first `ROW` bytes of a longer buffer.
const _: () = assert!(GREATEST_CAPACITY <= ROW);
/// The greatest S and the greatest P of line 1, `pubsub N f S P`: how many subscribers and publishers a channel allows.
pub const GREATEST_HANDLES: usize = 16;
// Each subscriber and each publisher that such a channel grants has a number.
const _: () = assert!(GREATEST_HANDLES <= NAMES);
/// The greatest number of a message.
pub const GREATEST_MESSAGE: i128 = u64::MAX as i128;
/// The first number that replaces a message's own; the last is the greatest number but one. A number below 0, or from
/// this one on, is replaced, except in a priority channel.
pub const FIRST_GIVEN: u64 = u64::MAX - 65_535;

/// Why a recording stopped. Later calls are made, but not recorded.
#[derive(Clone, Debug, PartialEq, Eq)]
pub enum Stop {
    /// The primitive has a capacity that no run can have.
    Capacity(usize),
    /// The pub-sub channel allows more subscribers or publishers than line 1 of a run can say.
    Handles {
        /// How many subscribers it allows.
        subscribers: usize,
        /// How many publishers it allows.
        publishers: usize,
    },
    /// A request, a guard, a releaser or a handle needed a number, and none was free.
    Numbers,
    /// A message of a priority channel has a number below 0 or above the greatest one, or a message elsewhere has a
    /// number that has to be replaced, and none is left for it.
    Message(i128),
    /// Some messages have numbers of their own, and others are named by a text.
    MixedNames,
    /// Messages of a priority channel are named by a text, which says nothing of their order.
    NoOrder,
    /// A call names more bytes than a run can.
    Bytes(usize),
    /// The primitive was called within one of its own calls, by a waker, a closure or a message.
    Nested,
    /// A future was polled after its answer.
    PolledAgain,
    /// A call has no counterpart in a run.
    NoCounterpart(&'static str),
}

impl fmt::Display for Stop {
    fn fmt(&self, f: &mut fmt::Formatter<'_>) -> fmt::Result {
        match self {
            Stop::Capacity(capacity) => {
                write!(f, "a capacity of {capacity}, where 1 to {GREATEST_CAPACITY} can be recorded")
            }
            Stop::Handles { subscribers, publishers } => {
                write!(f, "{subscribers} subscribers and {publishers} publishers, ")?;
                write!(f, "where 0 to {GREATEST_HANDLES} of each can be recorded")
            }
            Stop::Numbers => {
                write!(
                    f,
                    "a call for more than {REQUESTS} requests, {PIPE_REQUESTS} of a pipe, or {NAMES} handles of a kind at a time"
                )
            }
            Stop::Message(number) => {
                write!(f, "a message with the number {number}, which isn't in 0..={GREATEST_MESSAGE}")
            }
            Stop::MixedNames => write!(f, "messages with numbers of their own beside messages that a text names"),
            Stop::NoOrder => write!(f, "messages of a priority channel that a text names"),
            Stop::Bytes(count) => write!(f, "{count} bytes in a call, where {ROW} can be recorded"),
            Stop::Nested => write!(f, "a call within a call of the same primitive"),
            Stop::PolledAgain => write!(f, "a poll of a future after its answer"),
            Stop::NoCounterpart(call) => write!(f, "a call that no run can have: {call}"),
        }
    }
}

impl std::error::Error for Stop {}

/// Finds whether a run can have this capacity.
pub fn capacity(capacity: usize) -> Result<(), Stop> {
    match (1..=GREATEST_CAPACITY).contains(&capacity) {
        true => Ok(()),
        false => Err(Stop::Capacity(capacity)),
    }
}

/// Finds whether line 1 of a run can say so many subscribers and publishers.
pub fn handles(subscribers: usize, publishers: usize) -> Result<(), Stop> {
    match subscribers.max(publishers) <= GREATEST_HANDLES {
        true => Ok(()),
        false => Err(Stop::Handles { subscribers, publishers }),
    }
}

/// Finds whether a run can have a message of this number.
pub fn message(number: i128) -> Result<(), Stop> {
    match (0..=GREATEST_MESSAGE).contains(&number) {
        true => Ok(()),
        false => Err(Stop::Message(number)),
    }
}
