//! Records runs of `embassy-sync`: plays a script on the crate itself, and writes what it answers and whom it wakes.
//!
//! The script language is that of `syncrun`, and the run is what `esync check` reads.
#![forbid(unsafe_code)]

mod answer;
mod channel;
mod fault;
mod head;
mod lazy_lock;
mod machine;
mod mutex;
mod once_lock;
mod pipe;
mod pubsub;
mod record;
mod semaphore;
mod signal;
mod table;
mod tasks;
mod watch;
mod words;
mod zerocopy_channel;

pub use fault::Fault;
pub use record::record;
