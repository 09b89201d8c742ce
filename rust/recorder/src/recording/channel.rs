//! `embassy_sync::channel`, recorded.
use std::task::{Context, Poll};

use embassy_sync::blocking_mutex::raw::RawMutex;
use embassy_sync::channel as upstream;
pub use embassy_sync::channel::{TryReceiveError, TrySendError};

use super::messages::Messages;
use super::name::{Name, Named};
use super::request::{Ready, ReadyWith, Request};
use super::runs::{Recorded, Run};
use super::tape::{Head, Recording, Tape};

/// The future of [`Channel::send`] and [`Sender::send`].
pub type SendFuture<'ch, M, T, const N: usize> = Request<'ch, upstream::SendFuture<'ch, M, T, N>, Ready>;
/// The future of [`Channel::receive`] and [`Receiver::receive`].
pub type ReceiveFuture<'ch, M, T, const N: usize> = Request<'ch, upstream::ReceiveFuture<'ch, M, T, N>, ReadyWith<T>>;
/// The future of [`Channel::ready_to_receive`] and [`Receiver::ready_to_receive`].
pub type ReceiveReadyFuture<'ch, M, T, const N: usize> =
    Request<'ch, upstream::ReceiveReadyFuture<'ch, M, T, N>, Ready>;
/// The future of [`DynamicSender::send`].
pub type DynamicSendFuture<'ch, T> = Request<'ch, upstream::DynamicSendFuture<'ch, T>, Ready>;
/// The future of [`DynamicReceiver::receive`].
pub type DynamicReceiveFuture<'ch, T> = Request<'ch, upstream::DynamicReceiveFuture<'ch, T>, ReadyWith<T>>;

/// `embassy_sync::channel::Channel`, recorded.
pub struct Channel<M: RawMutex, T, const N: usize> {
    inner: upstream::Channel<M, T, N>,
    recording: Recording,
    naming: fn(&T) -> Name,
}

impl<M: RawMutex, T, const N: usize> Channel<M, T, N> {
    /// Returns an empty channel.
    #[track_caller]
    pub const fn new() -> Self
    where
        T: Named,
    {
        Self::named(T::name)
    }

    /// Returns an empty channel, of which a run calls the messages so.
    #[track_caller]
    pub const fn named(naming: fn(&T) -> Name) -> Self {
        Channel { inner: upstream::Channel::new(), recording: Recording::new(), naming }
    }

    fn tape(&self) -> &Tape {
        self.recording.tape(|| Head::of_capacity("channel", N))
    }

    fn messages(&self) -> Messages<'_, T> {
        Messages { tape: self.tape(), naming: self.naming }
    }

    /// Returns a sender.
    pub fn sender(&self) -> Sender<'_, M, T, N> {
        Sender { channel: self }
    }

    /// Returns a receiver.
    pub fn receiver(&self) -> Receiver<'_, M, T, N> {
        Receiver { channel: self }
    }

    /// Returns a sender that doesn't name the capacity.
    pub fn dyn_sender(&self) -> DynamicSender<'_, T> {
        DynamicSender { inner: self.inner.dyn_sender(), messages: self.messages() }
    }

    /// Returns a receiver that doesn't name the capacity.
    pub fn dyn_receiver(&self) -> DynamicReceiver<'_, T> {
        DynamicReceiver { inner: self.inner.dyn_receiver(), messages: self.messages() }
    }

    /// Waits for room, and sends.
    pub fn send(&self, message: T) -> SendFuture<'_, M, T, N> {
        self.messages().send(message, |message| self.inner.send(message))
    }

    /// Sends where there is room.
    pub fn try_send(&self, message: T) -> Result<(), TrySendError<T>> {
        self.messages().try_send(message, |message| self.inner.try_send(message))
    }

    /// Waits for a message.
    pub fn receive(&self) -> ReceiveFuture<'_, M, T, N> {
        self.messages().receive(self.inner.receive())
    }

    /// Waits for a message, and leaves it.
    pub fn ready_to_receive(&self) -> ReceiveReadyFuture<'_, M, T, N> {
        self.messages().ready_to_receive(self.inner.ready_to_receive())
    }

    /// Receives a message where there is one.
    pub fn try_receive(&self) -> Result<T, TryReceiveError> {
        self.messages().try_receive(|| self.inner.try_receive())
    }

    /// Polls for a message.
    pub fn poll_receive(&self, cx: &mut Context<'_>) -> Poll<T> {
        self.messages().poll_receive(cx, |cx| self.inner.poll_receive(cx))
    }

    /// Polls whether there is room.
    pub fn poll_ready_to_send(&self, cx: &mut Context<'_>) -> Poll<()> {
        self.messages().poll_ready("send-ready", cx, |cx| self.inner.poll_ready_to_send(cx))
    }

    /// Polls whether there is a message.
    pub fn poll_ready_to_receive(&self, cx: &mut Context<'_>) -> Poll<()> {
        self.messages().poll_ready("receive-ready", cx, |cx| self.inner.poll_ready_to_receive(cx))
    }

    /// Returns the capacity.
    pub const fn capacity(&self) -> usize {
        self.inner.capacity()
    }

    /// Returns for how many messages there is room.
    pub fn free_capacity(&self) -> usize {
        self.tape().free_capacity(|| self.inner.free_capacity())
    }

    /// Drops the messages.
    pub fn clear(&self) {
        self.tape().clear(|| self.inner.clear());
    }

    /// Returns how many messages there are.
    pub fn len(&self) -> usize {
        self.tape().len(|| self.inner.len())
    }

    /// Returns whether there is no message.
    pub fn is_empty(&self) -> bool {
        self.tape().is_empty(|| self.inner.is_empty(), || self.inner.len())
    }

    /// Returns whether there is no room.
    pub fn is_full(&self) -> bool {
        self.tape().is_full(|| self.inner.is_full(), || self.inner.free_capacity())
    }
}

impl<M: RawMutex, T, const N: usize> Recorded for Channel<M, T, N> {
    fn run(&self) -> Run {
        self.tape().run()
    }
}

/// Hands the sizes of a channel's handle to the channel.
macro_rules! sizes {
    () => {
        /// Returns the capacity.
        pub const fn capacity(&self) -> usize {
            self.channel.capacity()
        }

        /// Returns for how many messages there is room.
        pub fn free_capacity(&self) -> usize {
            self.channel.free_capacity()
        }

        /// Drops the messages.
        pub fn clear(&self) {
            self.channel.clear();
        }

        /// Returns how many messages there are.
        pub fn len(&self) -> usize {
            self.channel.len()
        }

        /// Returns whether there is no message.
        pub fn is_empty(&self) -> bool {
            self.channel.is_empty()
        }

        /// Returns whether there is no room.
        pub fn is_full(&self) -> bool {
            self.channel.is_full()
        }
    };
}

pub(super) use sizes;

/// A sender of a [`Channel`].
pub struct Sender<'ch, M: RawMutex, T, const N: usize> {
    channel: &'ch Channel<M, T, N>,
}

impl<M: RawMutex, T, const N: usize> Clone for Sender<'_, M, T, N> {
    fn clone(&self) -> Self {
        *self
    }
}

impl<M: RawMutex, T, const N: usize> Copy for Sender<'_, M, T, N> {}

impl<'ch, M: RawMutex, T, const N: usize> Sender<'ch, M, T, N> {
    /// Waits for room, and sends.
    pub fn send(&self, message: T) -> SendFuture<'ch, M, T, N> {
        self.channel.send(message)
    }

    /// Sends where there is room.
    pub fn try_send(&self, message: T) -> Result<(), TrySendError<T>> {
        self.channel.try_send(message)
    }

    /// Polls whether there is room.
    pub fn poll_ready_to_send(&self, cx: &mut Context<'_>) -> Poll<()> {
        self.channel.poll_ready_to_send(cx)
    }

    sizes!();
}

/// A receiver of a [`Channel`].
pub struct Receiver<'ch, M: RawMutex, T, const N: usize> {
    channel: &'ch Channel<M, T, N>,
}

impl<M: RawMutex, T, const N: usize> Clone for Receiver<'_, M, T, N> {
    fn clone(&self) -> Self {
        *self
    }
}

impl<M: RawMutex, T, const N: usize> Copy for Receiver<'_, M, T, N> {}

impl<M: RawMutex, T, const N: usize> Receiver<'_, M, T, N> {
    /// Waits for a message.
    pub fn receive(&self) -> ReceiveFuture<'_, M, T, N> {
        self.channel.receive()
    }

    /// Waits for a message, and leaves it.
    pub fn ready_to_receive(&self) -> ReceiveReadyFuture<'_, M, T, N> {
        self.channel.ready_to_receive()
    }

    /// Receives a message where there is one.
    pub fn try_receive(&self) -> Result<T, TryReceiveError> {
        self.channel.try_receive()
    }

    /// Polls whether there is a message.
    pub fn poll_ready_to_receive(&self, cx: &mut Context<'_>) -> Poll<()> {
        self.channel.poll_ready_to_receive(cx)
    }

    /// Polls for a message.
    pub fn poll_receive(&self, cx: &mut Context<'_>) -> Poll<T> {
        self.channel.poll_receive(cx)
    }

    sizes!();
}

/// A sender that doesn't name the capacity.
pub struct DynamicSender<'ch, T> {
    pub(super) inner: upstream::DynamicSender<'ch, T>,
    pub(super) messages: Messages<'ch, T>,
}

impl<T> Clone for DynamicSender<'_, T> {
    fn clone(&self) -> Self {
        *self
    }
}

impl<T> Copy for DynamicSender<'_, T> {}

impl<'ch, M: RawMutex, T, const N: usize> From<Sender<'ch, M, T, N>> for DynamicSender<'ch, T> {
    fn from(sender: Sender<'ch, M, T, N>) -> Self {
        sender.channel.dyn_sender()
    }
}

impl<'ch, T> DynamicSender<'ch, T> {
    /// Waits for room, and sends.
    pub fn send(&self, message: T) -> DynamicSendFuture<'ch, T> {
        self.messages.send(message, |message| self.inner.send(message))
    }

    /// Sends where there is room.
    pub fn try_send(&self, message: T) -> Result<(), TrySendError<T>> {
        self.messages.try_send(message, |message| self.inner.try_send(message))
    }

    /// Polls whether there is room.
    pub fn poll_ready_to_send(&self, cx: &mut Context<'_>) -> Poll<()> {
        self.messages.poll_ready("send-ready", cx, |cx| self.inner.poll_ready_to_send(cx))
    }
}

/// A receiver that doesn't name the capacity.
pub struct DynamicReceiver<'ch, T> {
    pub(super) inner: upstream::DynamicReceiver<'ch, T>,
    pub(super) messages: Messages<'ch, T>,
}

impl<T> Clone for DynamicReceiver<'_, T> {
    fn clone(&self) -> Self {
        *self
    }
}

impl<T> Copy for DynamicReceiver<'_, T> {}

impl<'ch, M: RawMutex, T, const N: usize> From<Receiver<'ch, M, T, N>> for DynamicReceiver<'ch, T> {
    fn from(receiver: Receiver<'ch, M, T, N>) -> Self {
        receiver.channel.dyn_receiver()
    }
}

impl<T> DynamicReceiver<'_, T> {
    /// Waits for a message.
    pub fn receive(&self) -> DynamicReceiveFuture<'_, T> {
        self.messages.receive(self.inner.receive())
    }

    /// Receives a message where there is one.
    pub fn try_receive(&self) -> Result<T, TryReceiveError> {
        self.messages.try_receive(|| self.inner.try_receive())
    }

    /// Polls whether there is a message.
    pub fn poll_ready_to_receive(&self, cx: &mut Context<'_>) -> Poll<()> {
        self.messages.poll_ready("receive-ready", cx, |cx| self.inner.poll_ready_to_receive(cx))
    }

    /// Polls for a message.
    pub fn poll_receive(&self, cx: &mut Context<'_>) -> Poll<T> {
        self.messages.poll_receive(cx, |cx| self.inner.poll_receive(cx))
    }
}
