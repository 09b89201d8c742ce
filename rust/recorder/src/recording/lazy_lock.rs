//! `embassy_sync::lazy_lock`, recorded.
use std::sync::Once;

use embassy_sync::lazy_lock as upstream;

use super::name::{Name, Named, phrase};
use super::runs::{Recorded, Run};
use super::tape::{Head, Recording, Tape};

/// `embassy_sync::lazy_lock::LazyLock`, recorded.
pub struct LazyLock<T, F = fn() -> T> {
    inner: upstream::LazyLock<T, F>,
    recording: Recording,
    naming: fn(&T) -> Name,
    is_made: Once,
}

impl<T, F: FnOnce() -> T> LazyLock<T, F> {
    /// Returns a lock whose value this makes at the first call.
    #[track_caller]
    pub const fn new(make: F) -> Self
    where
        T: Named,
    {
        Self::named(make, T::name)
    }

    /// Returns a lock whose value this makes at the first call, and a run calls so.
    #[track_caller]
    pub const fn named(make: F, naming: fn(&T) -> Name) -> Self {
        let inner = upstream::LazyLock::new(make);
        LazyLock { inner, recording: Recording::new(), naming, is_made: Once::new() }
    }

    /// Returns the value.
    pub fn get(&self) -> &T {
        let tape = self.recording.tape(head);
        let step = tape.step(phrase("get"));
        let value = self.inner.get();
        let name = (self.naming)(value);
        self.is_made.call_once(|| say_value(tape, &name));
        step.end(phrase("").message(name), None);
        value
    }

    /// Returns the value, with which the lock ends.
    pub fn into_inner(self) -> T {
        let LazyLock { inner, recording, naming, is_made } = self;
        let tape = recording.tape(head);
        let step = tape.step(phrase("into"));
        let value = inner.into_inner();
        let name = naming(&value);
        is_made.call_once(|| say_value(tape, &name));
        step.end(phrase("").message(name), None);
        value
    }
}

impl<T, F> Recorded for LazyLock<T, F> {
    fn run(&self) -> Run {
        self.recording.tape(head).run()
    }
}

/// Returns line 1 of a lock whose value isn't made yet.
fn head() -> Head {
    Head::new("lazy", "1 0")
}

/// Says in line 1 what was made.
fn say_value(tape: &Tape, name: &Name) {
    tape.set_head(&Head { rest: phrase("1 ").message(name.clone()), ..head() });
}
