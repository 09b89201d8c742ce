//! `embassy_sync::mutex`, recorded: who has the lock. What is locked isn't recorded.
use std::fmt;
use std::future::Future;
use std::ops::{Deref, DerefMut};

use embassy_sync::blocking_mutex::raw::RawMutex;
use embassy_sync::mutex as upstream;
pub use embassy_sync::mutex::TryLockError;

use super::name::phrase;
use super::request::{Answer, Held, Outcome, Request};
use super::runs::{Recorded, Run};
use super::tape::{Head, Recording, Shown, Table, Tape};

/// `embassy_sync::mutex::Mutex`, recorded.
pub struct Mutex<M: RawMutex, T: ?Sized> {
    recording: Recording,
    inner: upstream::Mutex<M, T>,
}

impl<M: RawMutex, T> Mutex<M, T> {
    /// Returns a mutex that is free.
    #[track_caller]
    pub const fn new(value: T) -> Self {
        Mutex { recording: Recording::new(), inner: upstream::Mutex::new(value) }
    }

    /// Returns the value.
    pub fn into_inner(self) -> T {
        self.inner.into_inner()
    }
}

impl<M: RawMutex, T: ?Sized> Mutex<M, T> {
    fn tape(&self) -> &Tape {
        self.recording.tape(|| Head::new("mutex", "1 0 0"))
    }

    /// Waits for the lock.
    pub fn lock(&self) -> impl Future<Output = MutexGuard<'_, M, T>> {
        Request::start(self.tape(), &phrase("lock"), self.inner.lock(), Locked)
    }

    /// Locks where the mutex is free.
    pub fn try_lock(&self) -> Result<MutexGuard<'_, M, T>, TryLockError> {
        let tape = self.tape();
        let number = tape.take(Table::Requests);
        let command = phrase(format_args!("try-lock {}", Shown(number)));
        let (locked, held) = Held::try_hold(
            tape,
            number,
            command,
            || self.inner.try_lock(),
            |locked| match locked {
                Ok(_) => Answer::Holds(phrase("Ok")),
                Err(TryLockError) => Answer::Over(phrase("Err(TryLockError)")),
            },
        );
        locked.map(|guard| MutexGuard { inner: Some(guard), held: Some(held) })
    }

    /// Returns the value, to which nobody else has access.
    pub fn get_mut(&mut self) -> &mut T {
        self.inner.get_mut()
    }
}

impl<M: RawMutex, T> From<T> for Mutex<M, T> {
    #[track_caller]
    fn from(value: T) -> Self {
        Self::new(value)
    }
}

impl<M: RawMutex, T: Default> Default for Mutex<M, T> {
    #[track_caller]
    fn default() -> Self {
        Self::new(T::default())
    }
}

impl<M: RawMutex, T: ?Sized + fmt::Debug> fmt::Debug for Mutex<M, T> {
    fn fmt(&self, f: &mut fmt::Formatter<'_>) -> fmt::Result {
        let mut shown = f.debug_struct("Mutex");
        match self.try_lock() {
            Ok(guard) => shown.field("inner", &&*guard),
            Err(TryLockError) => shown.field("inner", &format_args!("<locked>")),
        };
        shown.finish_non_exhaustive()
    }
}

impl<M: RawMutex, T: ?Sized> Recorded for Mutex<M, T> {
    fn run(&self) -> Run {
        self.tape().run()
    }
}

/// What becomes of a lock: a guard.
struct Locked;

impl<'a, M: RawMutex, T: ?Sized> Outcome<'a, upstream::MutexGuard<'a, M, T>> for Locked {
    type Output = MutexGuard<'a, M, T>;

    fn answer(&self, _guard: &upstream::MutexGuard<'a, M, T>) -> Answer {
        Answer::Holds(phrase("Ready"))
    }

    fn hand_over(&self, guard: upstream::MutexGuard<'a, M, T>, held: Held<'a>) -> Self::Output {
        MutexGuard { inner: Some(guard), held: Some(held) }
    }
}

/// Gives a guard access to its value, and records its end.
macro_rules! guard {
    ($Guard:ident) => {
        impl<M: RawMutex, T: ?Sized> Drop for $Guard<'_, M, T> {
            fn drop(&mut self) {
                // (a guard that was mapped has neither)
                if let (Some(inner), Some(held)) = (self.inner.take(), self.held.take()) {
                    held.end("end", || drop(inner), |()| phrase("Ok"));
                }
            }
        }

        impl<M: RawMutex, T: ?Sized> Deref for $Guard<'_, M, T> {
            type Target = T;

            fn deref(&self) -> &T {
                self.inner.as_ref().expect(HAS_GUARD)
            }
        }

        impl<M: RawMutex, T: ?Sized> DerefMut for $Guard<'_, M, T> {
            fn deref_mut(&mut self) -> &mut T {
                self.inner.as_mut().expect(HAS_GUARD)
            }
        }

        impl<M: RawMutex, T: ?Sized + fmt::Debug> fmt::Debug for $Guard<'_, M, T> {
            fn fmt(&self, f: &mut fmt::Formatter<'_>) -> fmt::Result {
                fmt::Debug::fmt(&**self, f)
            }
        }

        impl<M: RawMutex, T: ?Sized + fmt::Display> fmt::Display for $Guard<'_, M, T> {
            fn fmt(&self, f: &mut fmt::Formatter<'_>) -> fmt::Result {
                fmt::Display::fmt(&**self, f)
            }
        }
    };
}

const HAS_GUARD: &str = "upstream's guard is there until the end";

/// A guard of a [`Mutex`].
pub struct MutexGuard<'a, M: RawMutex, T: ?Sized> {
    inner: Option<upstream::MutexGuard<'a, M, T>>,
    held: Option<Held<'a>>,
}

impl<'a, M: RawMutex, T: ?Sized> MutexGuard<'a, M, T> {
    /// Returns a guard of a part of the value.
    pub fn map<U>(mut this: Self, part: impl FnOnce(&mut T) -> &mut U) -> MappedMutexGuard<'a, M, U> {
        let inner = this.inner.take().expect(HAS_GUARD);
        let held = this.held.take().expect(HAS_GUARD);
        let inner = held.call("map", || upstream::MutexGuard::map(inner, part), |_| phrase("Ok"));
        MappedMutexGuard { inner: Some(inner), held: Some(held) }
    }
}

guard!(MutexGuard);

/// A guard of a part of a [`Mutex`]'s value.
pub struct MappedMutexGuard<'a, M: RawMutex, T: ?Sized> {
    inner: Option<upstream::MappedMutexGuard<'a, M, T>>,
    held: Option<Held<'a>>,
}

impl<'a, M: RawMutex, T: ?Sized> MappedMutexGuard<'a, M, T> {
    /// Returns a guard of a part of the part. A run maps a guard once, and has this only if `part` panics: then upstream
    /// unlocks.
    pub fn map<U>(mut this: Self, part: impl FnOnce(&mut T) -> &mut U) -> MappedMutexGuard<'a, M, U> {
        let inner = this.inner.take().expect(HAS_GUARD);
        let held = this.held.take().expect(HAS_GUARD);
        let inner = held.record_panic("map", || upstream::MappedMutexGuard::map(inner, part));
        MappedMutexGuard { inner: Some(inner), held: Some(held) }
    }
}

guard!(MappedMutexGuard);
