//! Records what a program does with `embassy-sync`, as runs that `esync check` judges.
//!
//! `recorder::channel::Channel` stands for `embassy_sync::channel::Channel`, and so for each primitive. With the
//! feature `record` each call, its answer and the tasks that it woke become a line of a run; without it these modules
//! are `embassy-sync`'s own.
#![forbid(unsafe_code)]
#![cfg_attr(not(feature = "record"), no_std)]

pub use embassy_sync::{blocking_mutex, waitqueue};

#[cfg(feature = "record")]
mod recording;
#[cfg(feature = "record")]
pub use recording::*;

#[cfg(not(feature = "record"))]
mod unrecorded;
#[cfg(not(feature = "record"))]
pub use unrecorded::*;

mod foreign;

/// Names messages of these types by their `Debug`, as `named_by_debug!(Event, Reading);`.
#[macro_export]
macro_rules! named_by_debug {
    ($($message:ty),+ $(,)?) => {
        $(impl $crate::Named for $message {
            fn name(&self) -> $crate::Name {
                $crate::Name::by_debug(self)
            }
        })+
    };
}
