//! Channels and priority channels.

use std::future::{poll_fn, Future};
use std::task::{Context, Poll};

use embassy_sync::blocking_mutex::raw::RawMutex;
use embassy_sync::channel::{Channel, TryReceiveError, TrySendError};
use embassy_sync::priority_channel::{Kind, PriorityChannel};

use crate::answer;
use crate::machine::{Nothing, Primitive};
use crate::table::{NoSuch, Request, Table};
use crate::words::Words;

/// What upstream's two kinds of channel have in common.
pub trait Queue {
    /// Waits for room, and stores the message.
    fn send(&self, message: u32) -> impl Future<Output = ()>;
    /// Waits for a message.
    fn receive(&self) -> impl Future<Output = u32>;
    /// Is Ready where there is room, and leaves the waker in any case.
    fn poll_ready_to_send(&self, context: &mut Context<'_>) -> Poll<()>;
    /// Is Ready where there is a message, and leaves the waker in any case.
    fn poll_ready_to_receive(&self, context: &mut Context<'_>) -> Poll<()>;
    /// Stores the message where there is room.
    fn try_send(&self, message: u32) -> Result<(), TrySendError<u32>>;
    /// Takes a message where there is one.
    fn try_receive(&self) -> Result<u32, TryReceiveError>;
    /// How many messages are stored.
    fn len(&self) -> usize;
    /// For how many messages there is room.
    fn free_capacity(&self) -> usize;
    /// Drops the messages.
    fn clear(&self);
}

/// Hands each call of `Queue` to the method of the same name.
macro_rules! queue {
    () => {
        fn send(&self, message: u32) -> impl Future<Output = ()> {
            Self::send(self, message)
        }
        fn receive(&self) -> impl Future<Output = u32> {
            Self::receive(self)
        }
        fn poll_ready_to_send(&self, context: &mut Context<'_>) -> Poll<()> {
            Self::poll_ready_to_send(self, context)
        }
        fn poll_ready_to_receive(&self, context: &mut Context<'_>) -> Poll<()> {
            Self::poll_ready_to_receive(self, context)
        }
        fn try_send(&self, message: u32) -> Result<(), TrySendError<u32>> {
            Self::try_send(self, message)
        }
        fn try_receive(&self) -> Result<u32, TryReceiveError> {
            Self::try_receive(self)
        }
        fn len(&self) -> usize {
            Self::len(self)
        }
        fn free_capacity(&self) -> usize {
            Self::free_capacity(self)
        }
        fn clear(&self) {
            Self::clear(self)
        }
    };
}

impl<M: RawMutex, const N: usize> Queue for Channel<M, u32, N> {
    queue!();
}

impl<M: RawMutex, K: Kind, const N: usize> Queue for PriorityChannel<M, u32, K, N> {
    queue!();
}

/// What can be asked of a channel.
#[derive(Clone)]
pub enum Ask {
    Send(u32),
    Receive,
    SendReady,
    ReceiveReady,
}

/// The other commands of a channel.
#[derive(Clone)]
pub enum Call {
    TrySend(u32),
    TryReceive,
    Len,
    Free,
    Clear,
}

/// A channel by the commands of a script.
pub struct Messages<'a, Q> {
    channel: &'a Q,
}

impl<'a, Q: Queue> Messages<'a, Q> {
    /// The commands of `channel`.
    pub fn new(channel: &'a Q) -> Self {
        Messages { channel }
    }
}

impl<'a, Q: Queue> Primitive<'a> for Messages<'a, Q> {
    type Ask = Ask;
    type Call = Call;
    type Held = Nothing;

    fn read_ask(mut words: Words<'_>) -> Option<Ask> {
        let ask = match words.name()? {
            "send" => Ask::Send(words.number()?),
            "receive" => Ask::Receive,
            "send-ready" => Ask::SendReady,
            "receive-ready" => Ask::ReceiveReady,
            _ => return None,
        };
        words.end(ask)
    }

    fn read_call(mut words: Words<'_>) -> Option<Call> {
        let call = match words.name()? {
            "try-send" => Call::TrySend(words.number()?),
            "try-receive" => Call::TryReceive,
            "len" => Call::Len,
            "free" => Call::Free,
            "clear" => Call::Clear,
            _ => return None,
        };
        words.end(call)
    }

    fn request(&mut self, ask: Ask) -> Result<Request<'a, Nothing>, NoSuch> {
        let channel = self.channel;
        Ok(match ask {
            Ask::Send(message) => ready(channel.send(message)),
            Ask::Receive => {
                let receive = channel.receive();
                Request::answering(async { answer::ready(receive.await) })
            }
            Ask::SendReady => ready(poll_fn(|context| channel.poll_ready_to_send(context))),
            Ask::ReceiveReady => ready(poll_fn(|context| channel.poll_ready_to_receive(context))),
        })
    }

    fn call(&mut self, call: Call, _table: &mut Table<'a, Nothing>) -> Result<String, NoSuch> {
        let channel = self.channel;
        Ok(match call {
            Call::TrySend(message) => answer::outcome(channel.try_send(message)),
            Call::TryReceive => answer::result(channel.try_receive()),
            Call::Len => channel.len().to_string(),
            Call::Free => channel.free_capacity().to_string(),
            Call::Clear => {
                channel.clear();
                answer::done()
            }
        })
    }
}

/// A request that tells nothing but that it is Ready.
fn ready<'a>(future: impl Future<Output = ()> + 'a) -> Request<'a, Nothing> {
    Request::answering(async {
        future.await;
        "Ready".to_string()
    })
}
