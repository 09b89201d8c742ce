//! `embassy_sync::priority_channel`, recorded.
use std::cmp::Ordering;
use std::task::{Context, Poll};

use embassy_sync::blocking_mutex::raw::RawMutex;
use embassy_sync::priority_channel as upstream;
pub use embassy_sync::priority_channel::{Kind, Max, Min};

use super::channel::{DynamicReceiver, DynamicSender, TryReceiveError, TrySendError};
use super::messages::Messages;
use super::name::{Name, Named};
use super::request::{Ready, ReadyWith, Request};
use super::runs::{Recorded, Run};
use super::tape::{Head, Recording, Tape};

/// The future of [`PriorityChannel::send`] and [`Sender::send`].
pub type SendFuture<'ch, M, T, K, const N: usize> = Request<'ch, upstream::SendFuture<'ch, M, T, K, N>, Ready>;
/// The future of [`PriorityChannel::receive`] and [`Receiver::receive`].
pub type ReceiveFuture<'ch, M, T, K, const N: usize> =
    Request<'ch, upstream::ReceiveFuture<'ch, M, T, K, N>, ReadyWith<T>>;

/// `embassy_sync::priority_channel::PriorityChannel`, recorded.
pub struct PriorityChannel<M: RawMutex, T: Ord, K: Kind, const N: usize> {
    inner: upstream::PriorityChannel<M, T, K, N>,
    recording: Recording,
    naming: fn(&T) -> Name,
}

impl<M: RawMutex, T: Ord, K: Kind, const N: usize> PriorityChannel<M, T, K, N> {
    /// Returns an empty channel.
    #[track_caller]
    pub const fn new() -> Self
    where
        T: Named,
    {
        Self::named(T::name)
    }

    /// Returns an empty channel, of which a run calls the messages so: by numbers that have their order.
    #[track_caller]
    pub const fn named(naming: fn(&T) -> Name) -> Self {
        PriorityChannel { inner: upstream::PriorityChannel::new(), recording: Recording::new(), naming }
    }

    fn tape(&self) -> &Tape {
        let kind = if K::ordering() == Ordering::Less { "min" } else { "max" };
        self.recording.tape(|| Head { has_order: true, ..Head::of_capacity(kind, N) })
    }

    fn messages(&self) -> Messages<'_, T> {
        Messages { tape: self.tape(), naming: self.naming }
    }

    /// Returns a sender.
    pub fn sender(&self) -> Sender<'_, M, T, K, N> {
        Sender { channel: self }
    }

    /// Returns a receiver.
    pub fn receiver(&self) -> Receiver<'_, M, T, K, N> {
        Receiver { channel: self }
    }

    /// Waits for room, and sends.
    pub fn send(&self, message: T) -> SendFuture<'_, M, T, K, N> {
        self.messages().send(message, |message| self.inner.send(message))
    }

    /// Sends where there is room.
    pub fn try_send(&self, message: T) -> Result<(), TrySendError<T>> {
        self.messages().try_send(message, |message| self.inner.try_send(message))
    }

    /// Waits for a message, and receives the one that leaves first.
    pub fn receive(&self) -> ReceiveFuture<'_, M, T, K, N> {
        self.messages().receive(self.inner.receive())
    }

    /// Receives the message that leaves first, where there is one.
    pub fn try_receive(&self) -> Result<T, TryReceiveError> {
        self.messages().try_receive(|| self.inner.try_receive())
    }

    /// Polls for a message.
    pub fn poll_receive(&self, cx: &mut Context<'_>) -> Poll<T> {
        self.messages().poll_receive(cx, |cx| self.inner.poll_receive(cx))
    }

    /// Polls whether there is room.
    pub fn poll_ready_to_send(&self, cx: &mut Context<'_>) -> Poll<()> {
        self.messages().poll_ready("send-ready", cx, |cx| self.inner.poll_ready_to_send(cx))
    }

    /// Polls whether there is a message.
    pub fn poll_ready_to_receive(&self, cx: &mut Context<'_>) -> Poll<()> {
        self.messages().poll_ready("receive-ready", cx, |cx| self.inner.poll_ready_to_receive(cx))
    }

    /// Returns the capacity.
    pub const fn capacity(&self) -> usize {
        self.inner.capacity()
    }

    /// Returns for how many messages there is room.
    pub fn free_capacity(&self) -> usize {
        self.tape().free_capacity(|| self.inner.free_capacity())
    }

    /// Drops the messages.
    pub fn clear(&self) {
        self.tape().clear(|| self.inner.clear());
    }

    /// Returns how many messages there are.
    pub fn len(&self) -> usize {
        self.tape().len(|| self.inner.len())
    }

    /// Returns whether there is no message.
    pub fn is_empty(&self) -> bool {
        self.tape().is_empty(|| self.inner.is_empty(), || self.inner.len())
    }

    /// Returns whether there is no room.
    pub fn is_full(&self) -> bool {
        self.tape().is_full(|| self.inner.is_full(), || self.inner.free_capacity())
    }
}

impl<M: RawMutex, T: Ord, K: Kind, const N: usize> Recorded for PriorityChannel<M, T, K, N> {
    fn run(&self) -> Run {
        self.tape().run()
    }
}

/// A sender of a [`PriorityChannel`].
pub struct Sender<'ch, M: RawMutex, T: Ord, K: Kind, const N: usize> {
    channel: &'ch PriorityChannel<M, T, K, N>,
}

impl<M: RawMutex, T: Ord, K: Kind, const N: usize> Clone for Sender<'_, M, T, K, N> {
    fn clone(&self) -> Self {
        *self
    }
}

impl<M: RawMutex, T: Ord, K: Kind, const N: usize> Copy for Sender<'_, M, T, K, N> {}

impl<'ch, M: RawMutex, T: Ord, K: Kind, const N: usize> From<Sender<'ch, M, T, K, N>> for DynamicSender<'ch, T> {
    fn from(sender: Sender<'ch, M, T, K, N>) -> Self {
        DynamicSender { inner: sender.channel.inner.sender().into(), messages: sender.channel.messages() }
    }
}

impl<'ch, M: RawMutex, T: Ord, K: Kind, const N: usize> Sender<'ch, M, T, K, N> {
    /// Waits for room, and sends.
    pub fn send(&self, message: T) -> SendFuture<'ch, M, T, K, N> {
        self.channel.send(message)
    }

    /// Sends where there is room.
    pub fn try_send(&self, message: T) -> Result<(), TrySendError<T>> {
        self.channel.try_send(message)
    }

    /// Polls whether there is room.
    pub fn poll_ready_to_send(&self, cx: &mut Context<'_>) -> Poll<()> {
        self.channel.poll_ready_to_send(cx)
    }

    super::channel::sizes!();
}

/// A receiver of a [`PriorityChannel`].
pub struct Receiver<'ch, M: RawMutex, T: Ord, K: Kind, const N: usize> {
    channel: &'ch PriorityChannel<M, T, K, N>,
}

impl<M: RawMutex, T: Ord, K: Kind, const N: usize> Clone for Receiver<'_, M, T, K, N> {
    fn clone(&self) -> Self {
        *self
    }
}

impl<M: RawMutex, T: Ord, K: Kind, const N: usize> Copy for Receiver<'_, M, T, K, N> {}

impl<'ch, M: RawMutex, T: Ord, K: Kind, const N: usize> From<Receiver<'ch, M, T, K, N>> for DynamicReceiver<'ch, T> {
    fn from(receiver: Receiver<'ch, M, T, K, N>) -> Self {
        DynamicReceiver { inner: receiver.channel.inner.receiver().into(), messages: receiver.channel.messages() }
    }
}

impl<M: RawMutex, T: Ord, K: Kind, const N: usize> Receiver<'_, M, T, K, N> {
    /// Waits for a message, and receives the one that leaves first.
    pub fn receive(&self) -> ReceiveFuture<'_, M, T, K, N> {
        self.channel.receive()
    }

    /// Receives the message that leaves first, where there is one.
    pub fn try_receive(&self) -> Result<T, TryReceiveError> {
        self.channel.try_receive()
    }

    /// Polls whether there is a message.
    pub fn poll_ready_to_receive(&self, cx: &mut Context<'_>) -> Poll<()> {
        self.channel.poll_ready_to_receive(cx)
    }

    /// Polls for a message.
    pub fn poll_receive(&self, cx: &mut Context<'_>) -> Poll<T> {
        self.channel.poll_receive(cx)
    }

    super::channel::sizes!();
}
