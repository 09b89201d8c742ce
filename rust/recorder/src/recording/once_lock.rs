//! `embassy_sync::once_lock`, recorded.
use std::cell::RefCell;
use std::future::Future;

use embassy_sync::once_lock as upstream;

use super::name::{Name, Named, phrase};
use super::request::{ReadyWith, Request};
use super::runs::{Recorded, Run};
use super::signal::optional;
use super::tape::{Head, Recording, Tape};

/// `embassy_sync::once_lock::OnceLock`, recorded.
pub struct OnceLock<T> {
    inner: upstream::OnceLock<T>,
    recording: Recording,
    naming: fn(&T) -> Name,
}

impl<T> OnceLock<T> {
    /// Returns a lock without a value.
    #[track_caller]
    pub const fn new() -> Self
    where
        T: Named,
    {
        Self::named(T::name)
    }

    /// Returns a lock without a value, of which a run calls the values so.
    #[track_caller]
    pub const fn named(naming: fn(&T) -> Name) -> Self {
        OnceLock { inner: upstream::OnceLock::new(), recording: Recording::new(), naming }
    }

    fn tape(&self) -> &Tape {
        self.recording.tape(head)
    }

    /// Waits for a value. Each poll that finds none wakes its own task.
    pub fn get(&self) -> impl Future<Output = &T> {
        Request::start(self.tape(), &phrase("get"), self.inner.get(), ReadyWith(self.naming))
    }

    /// Returns the value where there is one.
    pub fn try_get(&self) -> Option<&T> {
        self.tape().call(phrase("try-get"), || self.inner.try_get(), |found| optional(found.map(self.naming)))
    }

    /// Sets the value where there is none.
    pub fn init(&self, value: T) -> Result<(), T> {
        let command = phrase("init ").message((self.naming)(&value));
        self.tape().call(
            command,
            || self.inner.init(value),
            |set| match set {
                Ok(()) => phrase("Ok"),
                Err(value) => phrase("Err(Set(").message((self.naming)(value)).text("))"),
            },
        )
    }

    /// Returns the value, which is set where there is none. Where there is one, a run has that in place of the other.
    pub fn get_or_init<F: FnOnce() -> T>(&self, make: F) -> &T {
        let made = RefCell::new(None);
        let step = self.tape().step(phrase("get-or-init 0"));
        let found = self.inner.get_or_init(|| {
            let value = make();
            made.replace(Some((self.naming)(&value)));
            value
        });
        let answer = (self.naming)(found);
        let asked = made.into_inner().unwrap_or_else(|| answer.clone());
        step.end_as(phrase("get-or-init ").message(asked), phrase("").message(answer));
        found
    }

    /// Takes the value, with which the lock ends. It is `take` in a run.
    pub fn into_inner(self) -> Option<T> {
        let OnceLock { inner, recording, naming } = self;
        let tape = recording.tape(head);
        tape.call(phrase("take"), || inner.into_inner(), |taken| optional(taken.as_ref().map(naming)))
    }

    /// Takes the value where there is one.
    pub fn take(&mut self) -> Option<T> {
        let tape = self.recording.tape(head);
        tape.call(phrase("take"), || self.inner.take(), |taken| optional(taken.as_ref().map(self.naming)))
    }

    /// Returns whether there is a value.
    pub fn is_set(&self) -> bool {
        self.tape().call(phrase("is-set"), || self.inner.is_set(), |is_set| phrase(is_set))
    }
}

impl<T> Recorded for OnceLock<T> {
    fn run(&self) -> Run {
        self.tape().run()
    }
}

fn head() -> Head {
    Head::new("once", 1)
}
