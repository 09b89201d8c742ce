//! The modules of `embassy-sync`, where nothing is recorded.
pub use embassy_sync::{
    channel, lazy_lock, mutex, once_lock, pipe, priority_channel, pubsub, semaphore, signal, watch, zerocopy_channel,
};

/// What a run would call a message.
pub struct Name;

impl Name {
    /// Would return a message's own number.
    pub fn number(_number: impl Into<i128>) -> Self {
        Name
    }

    /// Would return the name that this text gives.
    pub fn text<T>(_text: T) -> Self {
        Name
    }

    /// Would return the name that the message's `Debug` gives.
    pub fn by_debug<T: core::fmt::Debug + ?Sized>(_message: &T) -> Self {
        Name
    }
}

/// A message that would have a name.
pub trait Named {
    /// Would return what a run calls the message.
    fn name(&self) -> Name;
}

macro_rules! named {
    ($($message:ty),+) => {
        $(impl Named for $message {
            fn name(&self) -> Name {
                Name
            }
        })+
    };
}

named!(u8, u16, u32, u64, usize, i8, i16, i32, i64, isize, bool, char, ());

impl<T: Named + ?Sized> Named for &T {
    fn name(&self) -> Name {
        Name
    }
}
