//! Upstream's primitives, each with a tape.
// Upstream's channels and pipes have no default.
#![allow(clippy::new_without_default)]

mod limits;
mod name;
mod request;
mod runs;
mod tape;
mod tasks;
mod turn;

mod messages;

pub mod channel;
pub mod lazy_lock;
pub mod mutex;
pub mod once_lock;
pub mod pipe;
pub mod priority_channel;
pub mod pubsub;
pub mod semaphore;
pub mod signal;
pub mod watch;
pub mod zerocopy_channel;

pub use limits::Stop;
pub use name::{Name, Named};
pub use runs::{Recorded, Run, Unsaved, save, take};
