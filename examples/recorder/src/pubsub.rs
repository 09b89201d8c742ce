//! Channels for publishers and subscribers.

use std::cell::RefCell;
use std::collections::BTreeMap;
use std::future::{poll_fn, Future};
use std::pin::{pin, Pin};
use std::rc::Rc;
use std::task::{Context, Poll};

use embassy_sync::blocking_mutex::raw::NoopRawMutex;
use embassy_sync::pubsub::{self, PubSubChannel, WaitResult};
use futures_util::Stream;

use crate::answer;
use crate::machine::{Nothing, Primitive};
use crate::table::{is_free, NoSuch, Owner, Request, Table};
use crate::words::Words;

/// The greatest number that a run's first message can have. Upstream counts from 0, and each message before it is passed.
pub const LAST_FIRST: u64 = 1_000_000;
/// How many subscribers, and how many publishers, there can be.
const HANDLES: usize = 4;

type Channel<const N: usize> = PubSubChannel<NoopRawMutex, u32, N, HANDLES, HANDLES>;
type Publisher<'a, const N: usize> = pubsub::Publisher<'a, NoopRawMutex, u32, N, HANDLES, HANDLES>;
type Subscriber<'a, const N: usize> =
    RefCell<pubsub::Subscriber<'a, NoopRawMutex, u32, N, HANDLES, HANDLES>>;

/// A poll of a subscriber's future, that is made for it.
type PollSubscriber<'a, const N: usize> = fn(&Subscriber<'a, N>, &mut Context<'_>) -> Poll<String>;

/// Publishes `count` messages and reads each, so that the next one has the number `count`.
pub fn pass_messages<const N: usize>(channel: &Channel<N>, count: u64) {
    let mut subscriber = channel.subscriber().expect("nobody has subscribed yet");
    for _ in 0..count {
        channel.immediate_publisher().publish_immediate(0);
        subscriber.try_next_message();
    }
}

/// What can be asked of a publisher or a subscriber.
#[derive(Clone)]
pub enum Ask {
    Publish(u64, u32),
    Message(u64),
    MessagePure(u64),
    Stream(u64),
}

/// The other commands.
#[derive(Clone)]
pub enum Call {
    Join(u64),
    Leave(u64),
    Publisher(u64),
    Retire(u64),
    TryPublish(u64, u32),
    Immediate(u32),
    Read(u64, Read),
    Len,
    Free,
    Clear,
}

/// What a subscriber looks for without waiting.
#[derive(Clone)]
pub enum Read {
    Next,
    NextPure,
    Available,
}

/// A channel by the commands of a script.
///
/// A future of upstream borrows its subscriber for itself alone, and keeps nothing. So a request of a subscriber makes its
/// future anew for each poll.
pub struct Broadcast<'a, const N: usize> {
    channel: &'a Channel<N>,
    subscribers: BTreeMap<u64, Rc<Subscriber<'a, N>>>,
    publishers: BTreeMap<u64, Rc<Publisher<'a, N>>>,
}

impl<'a, const N: usize> Broadcast<'a, N> {
    /// The commands of `channel`, which has no handles.
    pub fn new(channel: &'a Channel<N>) -> Self {
        Broadcast {
            channel,
            subscribers: BTreeMap::new(),
            publishers: BTreeMap::new(),
        }
    }

    fn subscriber(&self, number: u64) -> Result<&Rc<Subscriber<'a, N>>, NoSuch> {
        self.subscribers.get(&number).ok_or(NoSuch)
    }

    fn publisher(&self, number: u64) -> Result<&Rc<Publisher<'a, N>>, NoSuch> {
        self.publishers.get(&number).ok_or(NoSuch)
    }

    fn join(&mut self, number: u64) -> Result<String, NoSuch> {
        is_free(&self.subscribers, number)?;
        let subscriber = self.channel.subscriber().map(|subscriber| {
            self.subscribers
                .insert(number, Rc::new(RefCell::new(subscriber)));
        });
        Ok(answer::outcome(subscriber))
    }

    fn add_publisher(&mut self, number: u64) -> Result<String, NoSuch> {
        is_free(&self.publishers, number)?;
        let publisher = self.channel.publisher().map(|publisher| {
            self.publishers.insert(number, Rc::new(publisher));
        });
        Ok(answer::outcome(publisher))
    }

    /// Reads without waiting.
    fn read(&self, number: u64, read: Read) -> Result<String, NoSuch> {
        let mut subscriber = self.subscriber(number)?.borrow_mut();
        Ok(match read {
            Read::Next => subscriber
                .try_next_message()
                .map_or_else(|| "None".to_string(), told),
            Read::NextPure => answer::optional(subscriber.try_next_message_pure()),
            Read::Available => subscriber.available().to_string(),
        })
    }

    /// A request of subscriber `number`.
    fn reading(
        &self,
        number: u64,
        poll: PollSubscriber<'a, N>,
    ) -> Result<Request<'a, Nothing>, NoSuch> {
        let subscriber = Rc::clone(self.subscriber(number)?);
        let request = Request::answering(poll_fn(move |context| poll(&subscriber, context)));
        Ok(request.of(Owner::Subscriber(number)))
    }
}

impl<'a, const N: usize> Primitive<'a> for Broadcast<'a, N> {
    type Ask = Ask;
    type Call = Call;
    type Held = Nothing;

    fn read_ask(mut words: Words<'_>) -> Option<Ask> {
        let ask = match words.name()? {
            "publish" => Ask::Publish(words.number()?, words.number()?),
            "message" => Ask::Message(words.number()?),
            "message-pure" => Ask::MessagePure(words.number()?),
            "stream" => Ask::Stream(words.number()?),
            _ => return None,
        };
        words.end(ask)
    }

    fn read_call(mut words: Words<'_>) -> Option<Call> {
        let call = match words.name()? {
            "join" => Call::Join(words.number()?),
            "leave" => Call::Leave(words.number()?),
            "publisher" => Call::Publisher(words.number()?),
            "retire" => Call::Retire(words.number()?),
            "try-publish" => Call::TryPublish(words.number()?, words.number()?),
            "immediate" => Call::Immediate(words.number()?),
            "next" => Call::Read(words.number()?, Read::Next),
            "next-pure" => Call::Read(words.number()?, Read::NextPure),
            "available" => Call::Read(words.number()?, Read::Available),
            "len" => Call::Len,
            "free" => Call::Free,
            "clear" => Call::Clear,
            _ => return None,
        };
        words.end(call)
    }

    fn request(&mut self, ask: Ask) -> Result<Request<'a, Nothing>, NoSuch> {
        match ask {
            Ask::Publish(number, message) => {
                let request = publish(Rc::clone(self.publisher(number)?), message);
                Ok(request.of(Owner::Publisher(number)))
            }
            Ask::Message(number) => self.reading(number, poll_message),
            Ask::MessagePure(number) => self.reading(number, poll_message_pure),
            Ask::Stream(number) => self.reading(number, poll_stream),
        }
    }

    fn call(&mut self, call: Call, table: &mut Table<'a, Nothing>) -> Result<String, NoSuch> {
        match call {
            Call::Join(number) => return self.join(number),
            Call::Publisher(number) => return self.add_publisher(number),
            Call::Leave(number) => {
                table.end_requests_of(Owner::Subscriber(number));
                self.subscribers.remove(&number).ok_or(NoSuch)?;
            }
            Call::Retire(number) => {
                table.end_requests_of(Owner::Publisher(number));
                self.publishers.remove(&number).ok_or(NoSuch)?;
            }
            Call::TryPublish(number, message) => {
                let refused = self.publisher(number)?.try_publish(message).err();
                return Ok(
                    refused.map_or_else(answer::done, |message| format!("Err(Full({message}))"))
                );
            }
            Call::Immediate(message) => self
                .channel
                .immediate_publisher()
                .publish_immediate(message),
            Call::Read(number, read) => return self.read(number, read),
            Call::Len => return Ok(self.channel.len().to_string()),
            Call::Free => return Ok(self.channel.free_capacity().to_string()),
            Call::Clear => self.channel.clear(),
        }
        Ok(answer::done())
    }
}

/// A request that publishes.
fn publish<const N: usize>(publisher: Rc<Publisher<'_, N>>, message: u32) -> Request<'_, Nothing> {
    Request::answering(async move {
        publisher.publish(message).await;
        "Ready".to_string()
    })
}

fn poll_message<const N: usize>(
    subscriber: &Subscriber<'_, N>,
    context: &mut Context<'_>,
) -> Poll<String> {
    let mut subscriber = subscriber.borrow_mut();
    let next = pin!(subscriber.next_message());
    next.poll(context).map(|result| answer::ready(told(result)))
}

fn poll_message_pure<const N: usize>(
    subscriber: &Subscriber<'_, N>,
    context: &mut Context<'_>,
) -> Poll<String> {
    let mut subscriber = subscriber.borrow_mut();
    let next = pin!(subscriber.next_message_pure());
    next.poll(context).map(answer::ready)
}

fn poll_stream<const N: usize>(
    subscriber: &Subscriber<'_, N>,
    context: &mut Context<'_>,
) -> Poll<String> {
    let mut subscriber = subscriber.borrow_mut();
    let next = Pin::new(&mut **subscriber).poll_next(context);
    next.map(|item| answer::ready(answer::optional(item)))
}

/// What a subscriber was told.
fn told(result: WaitResult<u32>) -> String {
    match result {
        WaitResult::Lagged(count) => format!("Lagged({count})"),
        WaitResult::Message(message) => format!("Message({message})"),
    }
}
