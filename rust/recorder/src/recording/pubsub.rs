//! `embassy_sync::pubsub`, recorded.
use std::future::Future;

use embassy_sync::blocking_mutex::raw::RawMutex;
use embassy_sync::pubsub as upstream;
pub use embassy_sync::pubsub::{Error, WaitResult};

use super::limits::{self, Stop};
use super::name::{Name, Named, Phrase, phrase};
use super::request::{Answer, Held, Outcome, Ready, ReadyWith, Request};
use super::runs::{Recorded, Run};
use super::signal::optional;
use super::tape::{Head, Number, Recording, Shown, Table, Tape};

/// `embassy_sync::pubsub::PubSubChannel`, recorded.
pub struct PubSubChannel<M: RawMutex, T: Clone, const CAP: usize, const SUBS: usize, const PUBS: usize> {
    inner: upstream::PubSubChannel<M, T, CAP, SUBS, PUBS>,
    recording: Recording,
    naming: fn(&T) -> Name,
}

impl<M: RawMutex, T: Clone, const CAP: usize, const SUBS: usize, const PUBS: usize>
    PubSubChannel<M, T, CAP, SUBS, PUBS>
{
    /// Returns an empty channel.
    #[track_caller]
    pub const fn new() -> Self
    where
        T: Named,
    {
        Self::named(T::name)
    }

    /// Returns an empty channel, of which a run calls the messages so.
    #[track_caller]
    pub const fn named(naming: fn(&T) -> Name) -> Self {
        PubSubChannel { inner: upstream::PubSubChannel::new(), recording: Recording::new(), naming }
    }

    fn tape(&self) -> &Tape {
        self.recording.tape(|| {
            let head = Head::of_capacity("pubsub", CAP);
            let rest = match (SUBS, PUBS) {
                // (line 1 without these numbers says four of each)
                (4, 4) => head.rest,
                // (upstream's first message is number 0)
                _ => head.rest.text(format_args!(" 0 {SUBS} {PUBS}")),
            };
            Head { rest, limit: head.limit.and(limits::handles(SUBS, PUBS)), ..head }
        })
    }

    fn handle(&self, number: Option<Number>) -> Handle<'_, T> {
        Handle { tape: self.tape(), naming: self.naming, number }
    }

    /// Makes a call for a handle, which has a number of this table from then on.
    fn come<R>(
        &self,
        table: Table,
        command: &str,
        come: impl FnOnce() -> Result<R, Error>,
    ) -> Result<(R, Handle<'_, T>), Error> {
        let refusal = |error: &Error| phrase(format_args!("Err({error:?})"));
        let (inner, number) = self.tape().call_for_handle(table, command, come, refusal)?;
        Ok((inner, self.handle(number)))
    }

    /// Returns a subscriber, where fewer than SUBS are there.
    pub fn subscriber(&self) -> Result<Subscriber<'_, M, T, CAP, SUBS, PUBS>, Error> {
        let (inner, handle) = self.come(Table::Subscribers, "join", || self.inner.subscriber())?;
        Ok(Subscriber { inner: Some(inner), handle })
    }

    /// Returns a subscriber that doesn't name the sizes, where fewer than SUBS are there.
    pub fn dyn_subscriber(&self) -> Result<DynSubscriber<'_, T>, Error> {
        let (inner, handle) = self.come(Table::Subscribers, "join", || self.inner.dyn_subscriber())?;
        Ok(DynSubscriber { inner: Some(inner), handle })
    }

    /// Returns a publisher, where fewer than PUBS are there.
    pub fn publisher(&self) -> Result<Publisher<'_, M, T, CAP, SUBS, PUBS>, Error> {
        let (inner, handle) = self.come(Table::Publishers, "publisher", || self.inner.publisher())?;
        Ok(Publisher { inner: Some(inner), handle })
    }

    /// Returns a publisher that doesn't name the sizes, where fewer than PUBS are there.
    pub fn dyn_publisher(&self) -> Result<DynPublisher<'_, T>, Error> {
        let (inner, handle) = self.come(Table::Publishers, "publisher", || self.inner.dyn_publisher())?;
        Ok(DynPublisher { inner: Some(inner), handle })
    }

    /// Returns a publisher that isn't counted, and doesn't wait.
    pub fn immediate_publisher(&self) -> ImmediatePublisher<'_, M, T, CAP, SUBS, PUBS> {
        ImmediatePublisher { inner: Some(self.inner.immediate_publisher()), handle: self.handle(None) }
    }

    /// Returns a publisher that isn't counted, doesn't wait, and doesn't name the sizes.
    pub fn dyn_immediate_publisher(&self) -> DynImmediatePublisher<'_, T> {
        DynImmediatePublisher { inner: Some(self.inner.dyn_immediate_publisher()), handle: self.handle(None) }
    }

    /// Returns the capacity.
    pub const fn capacity(&self) -> usize {
        self.inner.capacity()
    }

    /// Returns for how many messages there is room.
    pub fn free_capacity(&self) -> usize {
        self.tape().free_capacity(|| self.inner.free_capacity())
    }

    /// Drops the messages.
    pub fn clear(&self) {
        self.tape().clear(|| self.inner.clear());
    }

    /// Returns how many messages there are.
    pub fn len(&self) -> usize {
        self.tape().len(|| self.inner.len())
    }

    /// Returns whether there is no message.
    pub fn is_empty(&self) -> bool {
        self.tape().is_empty(|| self.inner.is_empty(), || self.inner.len())
    }

    /// Returns whether there is no room.
    pub fn is_full(&self) -> bool {
        self.tape().is_full(|| self.inner.is_full(), || self.inner.free_capacity())
    }
}

impl<M: RawMutex, T: Clone, const CAP: usize, const SUBS: usize, const PUBS: usize> Recorded
    for PubSubChannel<M, T, CAP, SUBS, PUBS>
{
    fn run(&self) -> Run {
        self.tape().run()
    }
}

/// What is recorded of a publisher or a subscriber.
struct Handle<'a, T> {
    tape: &'a Tape,
    naming: fn(&T) -> Name,
    number: Option<Number>,
}

impl<T> Clone for Handle<'_, T> {
    fn clone(&self) -> Self {
        *self
    }
}

impl<T> Copy for Handle<'_, T> {}

impl<T> Handle<'_, T> {
    fn command(&self, command: &str) -> Phrase {
        phrase(format_args!("{command} {}", Shown(self.number)))
    }

    fn with_message(&self, command: Phrase, message: &T) -> Phrase {
        command.text(" ").message((self.naming)(message))
    }

    /// Records a message that makes its own room.
    fn publish_immediate(&self, message: T, publish: impl FnOnce(T)) {
        let command = self.with_message(phrase("immediate"), &message);
        self.tape.done(command, || publish(message));
    }

    /// Records the end of the handle.
    fn leave(&self, command: &str, end: impl FnOnce()) {
        let step = self.tape.step(self.command(command));
        end();
        step.end(phrase("Ok"), self.number);
    }

    fn told(&self, told: &WaitResult<T>) -> Phrase {
        match told {
            WaitResult::Lagged(count) => phrase(format_args!("Lagged({count})")),
            WaitResult::Message(message) => phrase("Message(").message((self.naming)(message)).text(")"),
        }
    }
}

const HAS_HANDLE: &str = "upstream's handle is there until the end";

/// What became of a message that a subscriber waited for.
struct Told<'a, T>(Handle<'a, T>);

impl<T> Outcome<'_, WaitResult<T>> for Told<'_, T> {
    type Output = WaitResult<T>;

    fn answer(&self, told: &WaitResult<T>) -> Answer {
        Answer::Over(phrase("Ready(").then(&self.0.told(told)).text(")"))
    }

    fn hand_over(&self, told: WaitResult<T>, _held: Held<'_>) -> WaitResult<T> {
        told
    }
}

/// The sizes that each handle shows.
macro_rules! sizes {
    () => {
        /// Returns the capacity.
        pub fn capacity(&self) -> usize {
            self.inner().capacity()
        }

        /// Returns for how many messages there is room.
        pub fn free_capacity(&self) -> usize {
            self.handle.tape.free_capacity(|| self.inner().free_capacity())
        }

        /// Drops the messages.
        pub fn clear(&self) {
            self.handle.tape.clear(|| self.inner().clear());
        }

        /// Returns how many messages there are.
        pub fn len(&self) -> usize {
            self.handle.tape.len(|| self.inner().len())
        }

        /// Returns whether there is no message.
        pub fn is_empty(&self) -> bool {
            self.handle.tape.is_empty(|| self.inner().is_empty(), || self.inner().len())
        }

        /// Returns whether there is no room.
        pub fn is_full(&self) -> bool {
            self.handle.tape.is_full(|| self.inner().is_full(), || self.inner().free_capacity())
        }
    };
}

/// A handle over one of upstream's.
macro_rules! handle {
    ($(#[$doc:meta])* $Handle:ident, [$($generics:tt)*], [$($arguments:tt)*]) => {
        $(#[$doc])*
        pub struct $Handle<'a, $($generics)*> {
            inner: Option<upstream::$Handle<'a, $($arguments)*>>,
            handle: Handle<'a, T>,
        }

        impl<'a, $($generics)*> $Handle<'a, $($arguments)*> {
            fn inner(&self) -> &upstream::$Handle<'a, $($arguments)*> {
                self.inner.as_ref().expect(HAS_HANDLE)
            }

            sizes!();
        }
    };
}

/// The calls of a publisher that is counted, and its end.
macro_rules! publisher {
    ($Handle:ident, [$($generics:tt)*], [$($arguments:tt)*]) => {
        impl<$($generics)*> $Handle<'_, $($arguments)*> {
            /// Publishes a message that makes its own room.
            pub fn publish_immediate(&self, message: T) {
                self.handle.publish_immediate(message, |message| self.inner().publish_immediate(message));
            }

            /// Waits for room, and publishes a message.
            pub fn publish(&self, message: T) -> impl Future<Output = ()> {
                let ask = self.handle.with_message(self.handle.command("publish"), &message);
                Request::start(self.handle.tape, &ask, self.inner().publish(message), Ready)
            }

            /// Publishes a message where there is room.
            pub fn try_publish(&self, message: T) -> Result<(), T> {
                let command = self.handle.with_message(self.handle.command("try-publish"), &message);
                self.handle.tape.call(command, || self.inner().try_publish(message), |published| match published {
                    Ok(()) => phrase("Ok"),
                    Err(message) => phrase("Err(Full(").message((self.handle.naming)(message)).text("))"),
                })
            }
        }

        impl<$($generics)*> Drop for $Handle<'_, $($arguments)*> {
            fn drop(&mut self) {
                let inner = self.inner.take();
                self.handle.leave("retire", || drop(inner));
            }
        }
    };
}

/// The calls of a publisher that isn't counted.
macro_rules! immediate_publisher {
    ($Handle:ident, [$($generics:tt)*], [$($arguments:tt)*]) => {
        impl<$($generics)*> $Handle<'_, $($arguments)*> {
            /// Publishes a message that makes its own room.
            pub fn publish_immediate(&self, message: T) {
                self.handle.publish_immediate(message, |message| self.inner().publish_immediate(message));
            }

            /// Publishes a message where there is room. No run can have this call.
            pub fn try_publish(&self, message: T) -> Result<(), T> {
                self.handle.tape.stop(Stop::NoCounterpart("try_publish of an immediate publisher"));
                self.inner().try_publish(message)
            }
        }
    };
}

/// The calls of a subscriber, and its end.
macro_rules! subscriber {
    ($Handle:ident, [$($generics:tt)*], [$($arguments:tt)*]) => {
        impl<$($generics)*> $Handle<'_, $($arguments)*> {
            /// Waits for the next message, or hears how many were missed.
            pub fn next_message(&mut self) -> impl Future<Output = WaitResult<T>> {
                let inner = self.inner.as_mut().expect(HAS_HANDLE);
                let ask = self.handle.command("message");
                Request::start(self.handle.tape, &ask, inner.next_message(), Told(self.handle))
            }

            /// Waits for the next message, and passes over a lag.
            pub fn next_message_pure(&mut self) -> impl Future<Output = T> {
                let inner = self.inner.as_mut().expect(HAS_HANDLE);
                let ask = self.handle.command("message-pure");
                Request::start(self.handle.tape, &ask, inner.next_message_pure(), ReadyWith(self.handle.naming))
            }

            /// Returns the next message where there is one, or how many were missed.
            pub fn try_next_message(&mut self) -> Option<WaitResult<T>> {
                let inner = self.inner.as_mut().expect(HAS_HANDLE);
                let handle = self.handle;
                handle.tape.call(handle.command("next"), || inner.try_next_message(), |told| match told {
                    Some(told) => handle.told(told),
                    None => phrase("None"),
                })
            }

            /// Returns the next message where there is one, and passes over a lag.
            pub fn try_next_message_pure(&mut self) -> Option<T> {
                let inner = self.inner.as_mut().expect(HAS_HANDLE);
                let command = self.handle.command("next-pure");
                let answer = |found: &Option<T>| optional(found.as_ref().map(self.handle.naming));
                self.handle.tape.call(command, || inner.try_next_message_pure(), answer)
            }

            /// Returns how many messages there are that weren't read.
            pub fn available(&self) -> u64 {
                self.handle.tape.call(self.handle.command("available"), || self.inner().available(), |count| phrase(count))
            }
        }

        impl<$($generics)*> Drop for $Handle<'_, $($arguments)*> {
            fn drop(&mut self) {
                let inner = self.inner.take();
                self.handle.leave("leave", || drop(inner));
            }
        }
    };
}

/// Gives each of the handles below its generics.
macro_rules! sized {
    ($calls:ident, $Handle:ident) => {
        handle!(
            /// A handle of a [`PubSubChannel`].
            $Handle,
            [M: RawMutex, T: Clone, const CAP: usize, const SUBS: usize, const PUBS: usize],
            [M, T, CAP, SUBS, PUBS]
        );
        $calls!(
            $Handle,
            [M: RawMutex, T: Clone, const CAP: usize, const SUBS: usize, const PUBS: usize],
            [M, T, CAP, SUBS, PUBS]
        );
    };
}

/// Gives each of the handles below its generics: they don't name the sizes.
macro_rules! dynamic {
    ($calls:ident, $Handle:ident) => {
        handle!(
            /// A handle of a [`PubSubChannel`] that doesn't name the sizes.
            $Handle,
            [T: Clone],
            [T]
        );
        $calls!($Handle, [T: Clone], [T]);
    };
}

sized!(publisher, Publisher);
dynamic!(publisher, DynPublisher);
sized!(immediate_publisher, ImmediatePublisher);
dynamic!(immediate_publisher, DynImmediatePublisher);
sized!(subscriber, Subscriber);
dynamic!(subscriber, DynSubscriber);
