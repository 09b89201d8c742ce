//! `embassy_sync::watch`, recorded.
use std::cell::RefCell;
use std::future::Future;
use std::pin::Pin;
use std::sync::{Arc, Mutex};
use std::task::{Context, Poll};

use embassy_sync::blocking_mutex::raw::RawMutex;
use embassy_sync::watch as upstream;

use super::limits::Stop;
use super::name::{Name, Named, Phrase, phrase};
use super::request::{ReadyWith, Request};
use super::runs::{Recorded, Run};
use super::signal::optional;
use super::tape::{Head, Number, Recording, Shown, Table, Tape};
use super::turn::lock;

/// `embassy_sync::watch::Watch`, recorded.
pub struct Watch<M: RawMutex, T: Clone, const N: usize> {
    inner: upstream::Watch<M, T, N>,
    recording: Recording,
    naming: fn(&T) -> Name,
}

impl<M: RawMutex, T: Clone, const N: usize> Watch<M, T, N> {
    /// Returns a watch without a value.
    #[track_caller]
    pub const fn new() -> Self
    where
        T: Named,
    {
        Self::named(upstream::Watch::new(), T::name)
    }

    /// Returns a watch of which nobody has seen this value.
    #[track_caller]
    pub const fn new_with(value: T) -> Self
    where
        T: Named,
    {
        Self::named(upstream::Watch::new_with(value), T::name)
    }

    /// Returns a watch of upstream's that nobody has called, of which a run calls the values so.
    #[track_caller]
    pub const fn named(inner: upstream::Watch<M, T, N>, naming: fn(&T) -> Name) -> Self {
        Watch { inner, recording: Recording::new(), naming }
    }

    fn tape(&self) -> &Tape {
        self.recording.tape(|| {
            let rest = match self.inner.try_get() {
                Some(value) => phrase(format_args!("{N} ")).message((self.naming)(&value)),
                None => phrase(N),
            };
            Head { rest, ..Head::of_capacity("watch", N) }
        })
    }

    fn values(&self) -> Values<'_, T> {
        Values { tape: self.tape(), naming: self.naming }
    }

    /// Returns a sender.
    pub fn sender(&self) -> Sender<'_, M, T, N> {
        Sender { inner: self.inner.sender(), values: self.values() }
    }

    /// Returns a sender that doesn't name the number of receivers.
    pub fn dyn_sender(&self) -> DynSender<'_, T> {
        DynSender { inner: self.inner.dyn_sender(), values: self.values() }
    }

    /// Returns a receiver, where fewer than N are there.
    pub fn receiver(&self) -> Option<Receiver<'_, M, T, N>> {
        let values = self.values();
        let (inner, number) = values.count(|| self.inner.receiver())?;
        Some(Receiver { inner: Some(inner), counted: values.received_as(number) })
    }

    /// Returns a receiver that doesn't name the number of receivers, where fewer than N are there.
    pub fn dyn_receiver(&self) -> Option<DynReceiver<'_, T>> {
        let values = self.values();
        let (inner, number) = values.count(|| self.inner.dyn_receiver())?;
        Some(DynReceiver { inner: Some(inner), counted: values.received_as(number) })
    }

    /// Returns a receiver that isn't counted, and can't wait.
    pub fn anon_receiver(&self) -> AnonReceiver<'_, M, T, N> {
        let number = self.values().come();
        AnonReceiver { inner: Some(self.inner.anon_receiver()), counted: self.values().received_as(number) }
    }

    /// Returns a receiver that isn't counted, can't wait, and doesn't name the number of receivers.
    pub fn dyn_anon_receiver(&self) -> DynAnonReceiver<'_, T> {
        let number = self.values().come();
        DynAnonReceiver { inner: Some(self.inner.dyn_anon_receiver()), counted: self.values().received_as(number) }
    }

    /// Returns the number of the last message.
    pub fn get_msg_id(&self) -> u64 {
        self.tape().call(phrase("id"), || self.inner.get_msg_id(), |id| phrase(id))
    }

    /// Returns the value where there is one.
    pub fn try_get(&self) -> Option<T> {
        self.values().try_get(|| self.inner.try_get())
    }

    /// Returns the value where there is one that passes. A run says nothing of one that doesn't.
    pub fn try_get_and<F: Fn(&T) -> bool>(&self, test: F) -> Option<T> {
        self.values().try_get_and(|| self.inner.try_get_and(test))
    }
}

impl<M: RawMutex, T: Clone, const N: usize> Recorded for Watch<M, T, N> {
    fn run(&self) -> Run {
        self.tape().run()
    }
}

/// The tape of a watch, and what a run calls its values.
struct Values<'a, T> {
    tape: &'a Tape,
    naming: fn(&T) -> Name,
}

impl<T> Clone for Values<'_, T> {
    fn clone(&self) -> Self {
        *self
    }
}

impl<T> Copy for Values<'_, T> {}

impl<'a, T> Values<'a, T> {
    fn received_as(self, number: Option<Number>) -> Counted<'a, T> {
        Counted { values: self, number }
    }

    fn optional(&self, found: &Option<T>) -> Phrase {
        optional(found.as_ref().map(self.naming))
    }

    /// Makes a call for a receiver that is counted.
    fn count<R>(&self, receiver: impl FnOnce() -> Option<R>) -> Option<(R, Option<Number>)> {
        let receiver = || receiver().ok_or(());
        self.tape.call_for_handle(Table::Receivers, "receiver", receiver, |()| phrase("None")).ok()
    }

    /// Records a receiver that isn't counted.
    fn come(&self) -> Option<Number> {
        let number = self.tape.take(Table::Receivers)?;
        self.tape.note(&phrase(format_args!("anon {number}")), &phrase("Ok"));
        Some(number)
    }

    fn try_get(&self, get: impl FnOnce() -> Option<T>) -> Option<T> {
        self.tape.call(phrase("try-get"), get, |found| self.optional(found))
    }

    /// Looks for a value that passes. A run has no line for one that doesn't.
    fn try_get_and(&self, get: impl FnOnce() -> Option<T>) -> Option<T> {
        let step = self.tape.step(phrase("try-get"));
        let found = get();
        match &found {
            Some(_) => step.end(self.optional(&found), None),
            None => step.leave_out(),
        }
        found
    }

    /// Makes a call that changes the value, and records the change that it made.
    fn modify(&self, change: impl Fn(&mut Option<T>) -> bool, send: impl FnOnce(&dyn Fn(&mut Option<T>) -> bool)) {
        let seen = RefCell::new(None);
        let step = self.tape.step(phrase("modify 0"));
        send(&|value| {
            let before = value.as_ref().map(self.naming);
            let tells = change(value);
            seen.replace(Some((before, value.as_ref().map(self.naming), tells)));
            tells
        });
        let command = seen.into_inner().ok_or(NOT_CHANGED);
        match command.and_then(|(before, after, tells)| changing(before, after, tells)) {
            Ok(command) => step.end_as(command, phrase("Ok")),
            Err(call) => self.tape.stop(Stop::NoCounterpart(call)),
        }
    }
}

const NOT_CHANGED: &str = "a change of a watch that isn't made";

/// Returns the command that makes this change.
fn changing(before: Option<Name>, after: Option<Name>, tells: bool) -> Result<Phrase, &'static str> {
    match (before, after, tells) {
        (before, after, false) if before == after => Ok(phrase("modify-if 0")),
        (_, _, false) => Err("a change of a watch that doesn't tell"),
        (Some(_), None, true) => Err("a change that takes the value of a watch"),
        (None, None, true) => Ok(phrase("modify 0")),
        (None, Some(after), true) => Ok(phrase("send ").message(after)),
        (Some(before), Some(after), true) => Ok(phrase("modify ").change(before, after)),
    }
}

/// The calls of a sender.
macro_rules! sender {
    () => {
        /// Puts a value.
        pub fn send(&self, value: T) {
            let command = phrase("send ").message((self.values.naming)(&value));
            self.values.tape.done(command, || self.inner.send(value));
        }

        /// Drops the value.
        pub fn clear(&self) {
            self.values.tape.clear(|| self.inner.clear());
        }

        /// Returns the value where there is one.
        pub fn try_get(&self) -> Option<T> {
            self.values.try_get(|| self.inner.try_get())
        }

        /// Returns the value where there is one that passes. A run says nothing of one that doesn't.
        pub fn try_get_and<F: Fn(&T) -> bool>(&self, test: F) -> Option<T> {
            self.values.try_get_and(|| self.inner.try_get_and(test))
        }

        /// Returns whether there is a value.
        pub fn contains_value(&self) -> bool {
            self.values.tape.call(phrase("contains"), || self.inner.contains_value(), |is_there| phrase(is_there))
        }

        /// Changes the value, and tells the receivers. A run says what has become of the value.
        pub fn send_modify<F: Fn(&mut Option<T>)>(&self, change: F) {
            let change = |value: &mut Option<T>| {
                change(value);
                true
            };
            self.values.modify(change, |change| self.inner.send_modify(|value| _ = change(value)));
        }

        /// Changes the value, and tells the receivers where the change says so. A run says what has become of the value.
        pub fn send_if_modified<F: Fn(&mut Option<T>) -> bool>(&self, change: F) {
            self.values.modify(change, |change| self.inner.send_if_modified(|value| change(value)));
        }
    };
}

/// A sender of a [`Watch`].
pub struct Sender<'a, M: RawMutex, T: Clone, const N: usize> {
    inner: upstream::Sender<'a, M, T, N>,
    values: Values<'a, T>,
}

impl<M: RawMutex, T: Clone, const N: usize> Clone for Sender<'_, M, T, N> {
    fn clone(&self) -> Self {
        Sender { inner: self.inner.clone(), values: self.values }
    }
}

impl<'a, M: RawMutex, T: Clone, const N: usize> Sender<'a, M, T, N> {
    /// Returns a sender that doesn't name the number of receivers.
    pub fn as_dyn(self) -> DynSender<'a, T> {
        DynSender { inner: self.inner.as_dyn(), values: self.values }
    }

    sender!();
}

impl<'a, M: RawMutex, T: Clone, const N: usize> From<Sender<'a, M, T, N>> for DynSender<'a, T> {
    fn from(sender: Sender<'a, M, T, N>) -> Self {
        sender.as_dyn()
    }
}

/// A sender that doesn't name the number of receivers.
pub struct DynSender<'a, T: Clone> {
    inner: upstream::DynSender<'a, T>,
    values: Values<'a, T>,
}

impl<T: Clone> Clone for DynSender<'_, T> {
    fn clone(&self) -> Self {
        DynSender { inner: self.inner.clone(), values: self.values }
    }
}

impl<T: Clone> DynSender<'_, T> {
    sender!();
}

/// A receiver's number in the run.
struct Counted<'a, T> {
    values: Values<'a, T>,
    number: Option<Number>,
}

impl<T> Clone for Counted<'_, T> {
    fn clone(&self) -> Self {
        *self
    }
}

impl<T> Copy for Counted<'_, T> {}

impl<'a, T> Counted<'a, T> {
    fn command(&self, command: &str) -> Phrase {
        phrase(format_args!("{command} {}", Shown(self.number)))
    }

    fn start<F: Future<Output = T>>(&self, ask: &str, future: F) -> Request<'a, F, ReadyWith<T>> {
        Request::start(self.values.tape, &self.command(ask), future, ReadyWith(self.values.naming))
    }

    fn testing<F>(self, ask: &'static str, passed: Passed, future: F) -> Testing<'a, T, F> {
        Testing { counted: self, ask, passed, future: Box::pin(future) }
    }

    fn look(&self, command: &str, look: impl FnOnce() -> Option<T>) -> Option<T> {
        self.values.tape.call(self.command(command), look, |found| self.values.optional(found))
    }

    /// Looks for a value that passes. In a run it is one below the number above its own, and one that doesn't, below 0.
    fn look_and(&self, command: &str, passed: &Passed, look: impl FnOnce() -> Option<T>) -> Option<T> {
        let step = self.values.tape.step(self.command(command));
        let found = look();
        step.end_as(passed.below(self.command(command)), self.values.optional(&found));
        found
    }

    /// Drops upstream's receiver, and records its end.
    fn leave<R>(&self, inner: R) {
        let step = self.values.tape.step(self.command("leave"));
        drop(inner);
        step.end(phrase("Ok"), self.number);
    }
}

/// The value that has passed a test in a poll or a look.
#[derive(Clone, Default)]
struct Passed(Arc<Mutex<Option<Name>>>);

impl Passed {
    /// Returns the test as one that also keeps the value which passes.
    fn keeping<T>(naming: fn(&T) -> Name, test: impl Fn(&T) -> bool) -> (Self, impl Fn(&T) -> bool) {
        let passed = Self::default();
        let kept = passed.clone();
        let test = move |value: &T| {
            let passes = test(value);
            *lock(&kept.0) = passes.then(|| naming(value));
            passes
        };
        (passed, test)
    }

    /// Returns the command with the number below which a run looks.
    fn below(&self, command: Phrase) -> Phrase {
        match lock(&self.0).take() {
            Some(name) => command.text(" ").above(name),
            None => command.text(" 0"),
        }
    }
}

/// A future with a test, of which a run has each poll as a request of its own: only a poll shows what the test says.
struct Testing<'a, T, F> {
    counted: Counted<'a, T>,
    ask: &'static str,
    passed: Passed,
    future: Pin<Box<F>>,
}

impl<T, F> Unpin for Testing<'_, T, F> {}

impl<T, F: Future<Output = T>> Future for Testing<'_, T, F> {
    type Output = T;

    fn poll(self: Pin<&mut Self>, cx: &mut Context<'_>) -> Poll<T> {
        let Testing { counted, ask, passed, future } = self.get_mut();
        let tape = counted.values.tape;
        let (task, waker) = tape.task(cx.waker());
        let number = tape.take(Table::Requests);
        let step = tape.step(phrase(format_args!("poll {} {task}", Shown(number))));
        let polled = future.as_mut().poll(&mut Context::from_waker(&waker));
        let start = phrase(format_args!("start {} ", Shown(number))).then(&counted.command(ask));
        tape.note(&passed.below(start), &phrase("Ok"));
        match &polled {
            Poll::Ready(value) => {
                step.end(phrase("Ready(").message((counted.values.naming)(value)).text(")"), number);
            }
            Poll::Pending => {
                step.end(phrase("Pending"), None);
                tape.step(phrase(format_args!("end {}", Shown(number)))).end(phrase("Ok"), number);
            }
        }
        polled
    }
}

const HAS_RECEIVER: &str = "upstream's receiver is there until the end";

/// The calls of each receiver, and its end.
macro_rules! receiver {
    ($Receiver:ident, [$($generics:tt)*], [$($arguments:tt)*]) => {
        impl<$($generics)*> $Receiver<'_, $($arguments)*> {
            /// Returns the value where there is one.
            pub fn try_get(&mut self) -> Option<T> {
                let inner = self.inner.as_mut().expect(HAS_RECEIVER);
                self.counted.look("get", || inner.try_get())
            }

            /// Returns the value where there is one that passes.
            pub fn try_get_and<F: Fn(&T) -> bool>(&mut self, test: F) -> Option<T> {
                let inner = self.inner.as_mut().expect(HAS_RECEIVER);
                let (passed, test) = Passed::keeping(self.counted.values.naming, test);
                self.counted.look_and("get-below", &passed, || inner.try_get_and(test))
            }

            /// Returns the value where it is new.
            pub fn try_changed(&mut self) -> Option<T> {
                let inner = self.inner.as_mut().expect(HAS_RECEIVER);
                self.counted.look("changed", || inner.try_changed())
            }

            /// Returns the value where it is new and passes.
            pub fn try_changed_and<F: Fn(&T) -> bool>(&mut self, test: F) -> Option<T> {
                let inner = self.inner.as_mut().expect(HAS_RECEIVER);
                let (passed, test) = Passed::keeping(self.counted.values.naming, test);
                self.counted.look_and("changed-below", &passed, || inner.try_changed_and(test))
            }

            /// Returns whether there is a value.
            pub fn contains_value(&self) -> bool {
                let inner = self.inner.as_ref().expect(HAS_RECEIVER);
                self.counted.values.tape.call(phrase("contains"), || inner.contains_value(), |is_there| phrase(is_there))
            }
        }

        impl<$($generics)*> Drop for $Receiver<'_, $($arguments)*> {
            fn drop(&mut self) {
                // (one that became dynamic has none)
                if let Some(inner) = self.inner.take() {
                    self.counted.leave(inner);
                }
            }
        }
    };
}

/// The calls of a receiver that can wait.
macro_rules! waiting_receiver {
    ($Receiver:ident, [$($generics:tt)*], [$($arguments:tt)*]) => {
        receiver!($Receiver, [$($generics)*], [$($arguments)*]);

        impl<$($generics)*> $Receiver<'_, $($arguments)*> {
            /// Waits for a value.
            pub fn get(&mut self) -> impl Future<Output = T> + '_ {
                let inner = self.inner.as_mut().expect(HAS_RECEIVER);
                self.counted.start("get", inner.get())
            }

            /// Waits for a new value.
            pub fn changed(&mut self) -> impl Future<Output = T> + '_ {
                let inner = self.inner.as_mut().expect(HAS_RECEIVER);
                self.counted.start("changed", inner.changed())
            }

            /// Waits for a value that passes.
            pub fn get_and<F: Fn(&T) -> bool>(&mut self, test: F) -> impl Future<Output = T> {
                let inner = self.inner.as_mut().expect(HAS_RECEIVER);
                let (passed, test) = Passed::keeping(self.counted.values.naming, test);
                self.counted.testing("get-below", passed, inner.get_and(test))
            }

            /// Waits for a new value that passes.
            pub fn changed_and<F: Fn(&T) -> bool>(&mut self, test: F) -> impl Future<Output = T> {
                let inner = self.inner.as_mut().expect(HAS_RECEIVER);
                let (passed, test) = Passed::keeping(self.counted.values.naming, test);
                self.counted.testing("changed-below", passed, inner.changed_and(test))
            }
        }
    };
}

/// A receiver of a [`Watch`].
pub struct Receiver<'a, M: RawMutex, T: Clone, const N: usize> {
    inner: Option<upstream::Receiver<'a, M, T, N>>,
    counted: Counted<'a, T>,
}

waiting_receiver!(Receiver, [M: RawMutex, T: Clone, const N: usize], [M, T, N]);

impl<'a, M: RawMutex, T: Clone, const N: usize> Receiver<'a, M, T, N> {
    /// Returns a receiver that doesn't name the number of receivers.
    pub fn as_dyn(mut self) -> DynReceiver<'a, T> {
        DynReceiver { inner: self.inner.take().map(|inner| inner.as_dyn()), counted: self.counted }
    }
}

impl<'a, M: RawMutex, T: Clone, const N: usize> From<Receiver<'a, M, T, N>> for DynReceiver<'a, T> {
    fn from(receiver: Receiver<'a, M, T, N>) -> Self {
        receiver.as_dyn()
    }
}

/// A receiver that doesn't name the number of receivers.
pub struct DynReceiver<'a, T: Clone> {
    inner: Option<upstream::DynReceiver<'a, T>>,
    counted: Counted<'a, T>,
}

waiting_receiver!(DynReceiver, [T: Clone], [T]);

/// A receiver that isn't counted, and can't wait.
pub struct AnonReceiver<'a, M: RawMutex, T: Clone, const N: usize> {
    inner: Option<upstream::AnonReceiver<'a, M, T, N>>,
    counted: Counted<'a, T>,
}

receiver!(AnonReceiver, [M: RawMutex, T: Clone, const N: usize], [M, T, N]);

impl<'a, M: RawMutex, T: Clone, const N: usize> AnonReceiver<'a, M, T, N> {
    /// Returns a receiver that doesn't name the number of receivers.
    pub fn as_dyn(mut self) -> DynAnonReceiver<'a, T> {
        DynAnonReceiver { inner: self.inner.take().map(|inner| inner.as_dyn()), counted: self.counted }
    }
}

impl<'a, M: RawMutex, T: Clone, const N: usize> From<AnonReceiver<'a, M, T, N>> for DynAnonReceiver<'a, T> {
    fn from(receiver: AnonReceiver<'a, M, T, N>) -> Self {
        receiver.as_dyn()
    }
}

/// A receiver that isn't counted, can't wait, and doesn't name the number of receivers.
pub struct DynAnonReceiver<'a, T: Clone> {
    inner: Option<upstream::DynAnonReceiver<'a, T>>,
    counted: Counted<'a, T>,
}

receiver!(DynAnonReceiver, [T: Clone], [T]);
