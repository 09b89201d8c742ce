//! `embassy_sync::zerocopy_channel`, recorded.
use std::future::Future;
use std::sync::atomic::{AtomicBool, Ordering::Relaxed};
use std::task::{Context, Poll};

use embassy_sync::blocking_mutex::raw::RawMutex;
use embassy_sync::zerocopy_channel as upstream;

use super::limits::Stop;
use super::name::{Name, Named, Phrase, phrase};
use super::request::{Answer, Held, Outcome, Request};
use super::runs::{Recorded, Run};
use super::tape::{Head, Recording, Tape};

/// `embassy_sync::zerocopy_channel::Channel`, recorded.
pub struct Channel<'a, M: RawMutex, T> {
    inner: upstream::Channel<'a, M, T>,
    recording: Recording,
    slots: Slots<T>,
}

/// What is known of the slots, and whether a run says that one is lent.
struct Slots<T> {
    first: usize,
    count: usize,
    naming: fn(&T) -> Name,
    sender_has_one: AtomicBool,
    receiver_has_one: AtomicBool,
}

impl<'a, M: RawMutex, T> Channel<'a, M, T> {
    /// Returns an empty channel of these slots.
    #[track_caller]
    pub fn new(slots: &'a mut [T]) -> Self
    where
        T: Named,
    {
        Self::named(slots, T::name)
    }

    /// Returns an empty channel of these slots, of which a run calls the values so.
    #[track_caller]
    pub fn named(slots: &'a mut [T], naming: fn(&T) -> Name) -> Self {
        let (first, count) = (slots.as_ptr() as usize, slots.len());
        let (sender_has_one, receiver_has_one) = Default::default();
        let known = Slots { first, count, naming, sender_has_one, receiver_has_one };
        Channel { inner: upstream::Channel::new(slots), recording: Recording::new(), slots: known }
    }

    fn parts(&mut self) -> (&mut upstream::Channel<'a, M, T>, Side<'_, T>) {
        let tape = self.recording.tape(|| self.slots.head());
        (&mut self.inner, Side { tape, slots: &self.slots, end: End::Send })
    }

    fn tape(&self) -> &Tape {
        self.recording.tape(|| self.slots.head())
    }

    /// Returns the two ends.
    pub fn split(&mut self) -> (Sender<'_, M, T>, Receiver<'_, M, T>) {
        let (inner, side) = self.parts();
        let (sender, receiver) = inner.split();
        (Sender { inner: sender, side }, Receiver { inner: receiver, side: Side { end: End::Receive, ..side } })
    }

    /// Makes each slot the sender's.
    pub fn clear(&mut self) {
        let (inner, side) = self.parts();
        // (the ends are gone, and what was lent is with them)
        Side { end: End::Receive, ..side }.end_loan();
        side.clear(|| inner.clear());
    }

    /// Returns how many slots the receiver can have.
    pub fn len(&self) -> usize {
        self.tape().len(|| self.inner.len())
    }

    /// Returns whether the receiver can have none.
    pub fn is_empty(&self) -> bool {
        self.tape().is_empty(|| self.inner.is_empty(), || self.inner.len())
    }

    /// Returns whether the sender can have none.
    pub fn is_full(&self) -> bool {
        self.tape().is_full(|| self.inner.is_full(), || self.slots.count - self.inner.len())
    }
}

impl<M: RawMutex, T> Recorded for Channel<'_, M, T> {
    fn run(&self) -> Run {
        self.tape().run()
    }
}

impl<T> Slots<T> {
    fn head(&self) -> Head {
        let head = Head::of_capacity("zerocopy", self.count);
        match size_of::<T>() {
            0 => Head { limit: Err(Stop::NoCounterpart("slots without a size")), ..head },
            _ => head,
        }
    }

    /// Returns the number of this slot.
    fn number(&self, slot: &T) -> usize {
        let distance = std::ptr::from_ref(slot) as usize - self.first;
        distance.checked_div(size_of::<T>()).unwrap_or(0)
    }
}

/// The two ends of a channel.
#[derive(Clone, Copy, PartialEq)]
enum End {
    Send,
    Receive,
}

/// An end of a channel, as it is recorded.
struct Side<'a, T> {
    tape: &'a Tape,
    slots: &'a Slots<T>,
    end: End,
}

impl<T> Clone for Side<'_, T> {
    fn clone(&self) -> Self {
        *self
    }
}

impl<T> Copy for Side<'_, T> {}

impl<'a, T> Side<'a, T> {
    /// Returns the command of this end that begins so.
    fn command(&self, command: &str) -> Phrase {
        let end = if self.end == End::Send { "send" } else { "receive" };
        phrase(format_args!("{command}{end}"))
    }

    /// Returns what a run says of a slot that is lent: of one that was written also the value.
    fn told(&self, slot: &T) -> Phrase {
        let number = phrase(self.slots.number(slot));
        match self.end {
            End::Send => number,
            End::Receive => number.text(",").message((self.slots.naming)(slot)),
        }
    }

    fn has_one(&self) -> &AtomicBool {
        match self.end {
            End::Send => &self.slots.sender_has_one,
            End::Receive => &self.slots.receiver_has_one,
        }
    }

    /// Records the end of a loan, which the borrow of a call ends.
    fn end_loan(&self) {
        if self.has_one().swap(false, Relaxed) {
            self.tape.done(self.command("end-"), || ());
        }
    }

    /// Lends a slot where there is one.
    fn try_lend<'s>(&self, lend: impl FnOnce() -> Option<&'s mut T>) -> Option<&'s mut T>
    where
        T: 's,
    {
        self.tape.call(self.command("try-"), lend, |slot| match slot {
            Some(slot) => {
                self.has_one().store(true, Relaxed);
                phrase("Some(").then(&self.told(slot)).text(")")
            }
            None => phrase("None"),
        })
    }

    /// Makes a request for a slot.
    fn lend<'s, F: Future<Output = &'s mut T>>(&self, future: F) -> Request<'a, F, Self>
    where
        T: 's,
    {
        self.end_loan();
        Request::start(self.tape, &self.command(""), future, *self)
    }

    /// Polls once for a slot.
    fn poll_lend<'s>(
        &self,
        cx: &mut Context<'_>,
        poll: impl FnOnce(&mut Context<'_>) -> Poll<&'s mut T>,
    ) -> Poll<&'s mut T> {
        self.end_loan();
        self.tape.poll_once(&self.command(""), cx, poll, |slot| self.ready(slot))
    }

    fn ready(&self, slot: &T) -> Phrase {
        self.has_one().store(true, Relaxed);
        phrase("Ready(").then(&self.told(slot)).text(")")
    }

    /// Hands a slot over, which a run says is lent, and by the sender written, before.
    fn done<I>(&self, inner: &mut I, lend: impl Fn(&mut I) -> Option<&mut T>, done: impl FnOnce(&mut I)) {
        if !self.has_one().load(Relaxed) {
            self.try_lend(|| lend(inner));
        }
        let is_sent = self.end == End::Send && self.has_one().load(Relaxed);
        if let Some(slot) = is_sent.then(|| lend(inner)).flatten() {
            let write = phrase("write ").message((self.slots.naming)(slot));
            self.tape.done(write, || ());
        }
        self.has_one().store(false, Relaxed);
        self.tape.done(self.command("done-"), || done(inner));
    }

    /// Makes each slot the sender's. Nobody sees whether the other end's slot is still in use.
    fn clear(&self, clear: impl FnOnce()) {
        self.end_loan();
        let other = Side { end: if self.end == End::Send { End::Receive } else { End::Send }, ..*self };
        if other.has_one().load(Relaxed) {
            self.tape.stop(Stop::NoCounterpart("a clear while the other end may have a slot"));
        }
        self.tape.done(self.command("clear-"), clear);
    }
}

impl<'s, T> Outcome<'_, &'s mut T> for Side<'_, T> {
    type Output = &'s mut T;

    fn answer(&self, slot: &&'s mut T) -> Answer {
        Answer::Over(self.ready(slot))
    }

    fn hand_over(&self, slot: &'s mut T, _held: Held<'_>) -> &'s mut T {
        slot
    }
}

/// The calls of an end, by their names.
macro_rules! end {
    ($End:ident, $lend:ident, $try_lend:ident, $poll_lend:ident, $done:ident) => {
        /// An end of a [`Channel`].
        pub struct $End<'a, M: RawMutex, T> {
            inner: upstream::$End<'a, M, T>,
            side: Side<'a, T>,
        }

        impl<'a, M: RawMutex, T> $End<'a, M, T> {
            /// Returns the end for a time.
            pub fn borrow(&mut self) -> $End<'_, M, T> {
                $End { inner: self.inner.borrow(), side: self.side }
            }

            /// Lends a slot where there is one.
            pub fn $try_lend(&mut self) -> Option<&mut T> {
                let $End { inner, side } = self;
                side.end_loan();
                side.try_lend(|| inner.$try_lend())
            }

            /// Polls for a slot.
            pub fn $poll_lend(&mut self, cx: &mut Context<'_>) -> Poll<&mut T> {
                let $End { inner, side } = self;
                side.poll_lend(cx, |cx| inner.$poll_lend(cx))
            }

            /// Waits for a slot.
            pub fn $lend(&mut self) -> impl Future<Output = &mut T> {
                let $End { inner, side } = self;
                side.lend(inner.$lend())
            }

            /// Hands the slot to the other end.
            pub fn $done(&mut self) {
                self.side.done(&mut self.inner, |inner| inner.$try_lend(), |inner| inner.$done());
            }

            /// Makes each slot the sender's.
            pub fn clear(&mut self) {
                self.side.clear(|| self.inner.clear());
            }

            /// Returns how many slots the receiver can have.
            pub fn len(&self) -> usize {
                self.side.tape.len(|| self.inner.len())
            }

            /// Returns whether the receiver can have none.
            pub fn is_empty(&self) -> bool {
                self.side.tape.is_empty(|| self.inner.is_empty(), || self.inner.len())
            }

            /// Returns whether the sender can have none.
            pub fn is_full(&self) -> bool {
                let count = self.side.slots.count;
                self.side.tape.is_full(|| self.inner.is_full(), || count - self.inner.len())
            }
        }
    };
}

end!(Sender, send, try_send, poll_send, send_done);
end!(Receiver, receive, try_receive, poll_receive, receive_done);
