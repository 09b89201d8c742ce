//! `embassy_sync::signal`, recorded.
use std::future::Future;

use embassy_sync::blocking_mutex::raw::RawMutex;
use embassy_sync::signal as upstream;

use super::name::{Name, Named, Phrase, phrase};
use super::request::{ReadyWith, Request};
use super::runs::{Recorded, Run};
use super::tape::{Head, Recording, Tape};

/// `embassy_sync::signal::Signal`, recorded.
pub struct Signal<M: RawMutex, T> {
    inner: upstream::Signal<M, T>,
    recording: Recording,
    naming: fn(&T) -> Name,
}

impl<M: RawMutex, T: Named> Default for Signal<M, T> {
    #[track_caller]
    fn default() -> Self {
        Self::new()
    }
}

impl<M: RawMutex, T> Signal<M, T> {
    /// Returns a signal without a value.
    #[track_caller]
    pub const fn new() -> Self
    where
        T: Named,
    {
        Self::named(T::name)
    }

    /// Returns a signal without a value, of which a run calls the values so.
    #[track_caller]
    pub const fn named(naming: fn(&T) -> Name) -> Self {
        Signal { inner: upstream::Signal::new(), recording: Recording::new(), naming }
    }

    fn tape(&self) -> &Tape {
        self.recording.tape(|| Head::new("signal", 1))
    }

    /// Puts a value.
    pub fn signal(&self, value: T) {
        let command = phrase("signal ").message((self.naming)(&value));
        self.tape().done(command, || self.inner.signal(value));
    }

    /// Drops the value.
    pub fn reset(&self) {
        self.tape().done(phrase("reset"), || self.inner.reset());
    }

    /// Waits for a value, and takes it.
    pub fn wait(&self) -> impl Future<Output = T> + '_ {
        Request::start(self.tape(), &phrase("wait"), self.inner.wait(), ReadyWith(self.naming))
    }

    /// Takes the value where there is one.
    pub fn try_take(&self) -> Option<T> {
        self.tape().call(
            phrase("try-take"),
            || self.inner.try_take(),
            |taken| optional(taken.as_ref().map(self.naming)),
        )
    }

    /// Returns whether there is a value.
    pub fn signaled(&self) -> bool {
        self.tape().call(phrase("signaled"), || self.inner.signaled(), |signaled| phrase(signaled))
    }
}

impl<M: RawMutex, T> Recorded for Signal<M, T> {
    fn run(&self) -> Run {
        self.tape().run()
    }
}

/// Returns the answer of a call that may find nothing.
pub(super) fn optional(found: Option<Name>) -> Phrase {
    match found {
        Some(name) => phrase("Some(").message(name).text(")"),
        None => phrase("None"),
    }
}
