//! Turns: one call of a primitive at a time is recorded.
use std::sync::{Condvar, Mutex, MutexGuard, PoisonError};
use std::thread::{self, ThreadId};

/// Locks, also where a thread panicked meanwhile: each change under these locks is one store.
pub fn lock<T>(mutex: &Mutex<T>) -> MutexGuard<'_, T> {
    mutex.lock().unwrap_or_else(PoisonError::into_inner)
}

/// Who has the turn. A thread that has it isn't kept waiting by itself.
#[derive(Default)]
pub struct Turns {
    thread: Mutex<Option<ThreadId>>,
    is_over: Condvar,
}

/// A turn, until it is dropped.
pub struct Turn<'a>(&'a Turns);

impl Turns {
    /// Waits for the turn. `None` where this thread has it already.
    pub fn take(&self) -> Option<Turn<'_>> {
        let this = thread::current().id();
        let mut thread = lock(&self.thread);
        while let Some(other) = *thread {
            if other == this {
                return None;
            }
            thread = self.is_over.wait(thread).unwrap_or_else(PoisonError::into_inner);
        }
        *thread = Some(this);
        Some(Turn(self))
    }
}

impl Drop for Turn<'_> {
    fn drop(&mut self) {
        *lock(&self.0.thread) = None;
        self.0.is_over.notify_one();
    }
}
