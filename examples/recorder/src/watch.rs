//! Watches.

use std::cell::RefCell;
use std::collections::BTreeMap;
use std::future::{poll_fn, Future};
use std::pin::pin;
use std::rc::Rc;
use std::task::{Context, Poll};

use embassy_sync::blocking_mutex::raw::NoopRawMutex;
use embassy_sync::watch::{self, Watch};

use crate::answer;
use crate::machine::{Nothing, Primitive};
use crate::table::{is_free, NoSuch, Owner, Request, Table};
use crate::words::Words;

type Counted<'a, const N: usize> = Rc<RefCell<watch::Receiver<'a, NoopRawMutex, u32, N>>>;
type Anonymous<'a, const N: usize> = watch::AnonReceiver<'a, NoopRawMutex, u32, N>;

/// A receiver.
enum Receiver<'a, const N: usize> {
    /// One that is counted, and can wait.
    Counted(Counted<'a, N>),
    /// One that can't wait.
    Anonymous(Anonymous<'a, N>),
}

/// What a receiver looks for.
#[derive(Clone, Copy)]
pub enum Look {
    Get,
    Changed,
    GetBelow(u32),
    ChangedBelow(u32),
}

/// Hands a look to the method that looks so without waiting: the two kinds of receiver have no type in common.
macro_rules! look {
    ($receiver:expr, $look:expr) => {
        match $look {
            Look::Get => $receiver.try_get(),
            Look::Changed => $receiver.try_changed(),
            Look::GetBelow(limit) => $receiver.try_get_and(|value| *value < limit),
            Look::ChangedBelow(limit) => $receiver.try_changed_and(|value| *value < limit),
        }
    };
}

impl<const N: usize> Receiver<'_, N> {
    /// Looks without waiting.
    fn look(&mut self, look: Look) -> Option<u32> {
        match self {
            Receiver::Counted(receiver) => look!(receiver.borrow_mut(), look),
            Receiver::Anonymous(receiver) => look!(receiver, look),
        }
    }
}

impl Look {
    /// The look that `name` says of the receiver that `words` name.
    fn read(name: &str, words: &mut Words<'_>) -> Option<(u64, Self)> {
        let receiver = words.number();
        let look = match name {
            "get" => Look::Get,
            "changed" => Look::Changed,
            "get-below" => Look::GetBelow(words.number()?),
            "changed-below" => Look::ChangedBelow(words.number()?),
            _ => return None,
        };
        Some((receiver?, look))
    }
}

/// The commands that aren't asks.
#[derive(Clone)]
pub enum Call {
    Receiver(u64),
    Anon(u64),
    Leave(u64),
    Look(u64, Look),
    Send(u32),
    Modify(u32),
    ModifyIf(u32),
    Clear,
    TryGet,
    Id,
    Contains,
}

/// A watch by the commands of a script.
///
/// A future of upstream borrows its receiver for itself alone, and keeps nothing. So a request makes its future anew for
/// each poll.
pub struct Watched<'a, const N: usize> {
    watch: &'a Watch<NoopRawMutex, u32, N>,
    receivers: BTreeMap<u64, Receiver<'a, N>>,
}

impl<'a, const N: usize> Watched<'a, N> {
    /// The commands of `watch`, which has no receivers.
    pub fn new(watch: &'a Watch<NoopRawMutex, u32, N>) -> Self {
        Watched {
            watch,
            receivers: BTreeMap::new(),
        }
    }

    /// Makes a counted receiver, where fewer than N are counted.
    fn add_receiver(&mut self, number: u64) -> Result<String, NoSuch> {
        is_free(&self.receivers, number)?;
        let Some(receiver) = self.watch.receiver() else {
            return Ok("None".to_string());
        };
        let receiver = Receiver::Counted(Rc::new(RefCell::new(receiver)));
        self.receivers.insert(number, receiver);
        Ok(answer::done())
    }

    /// Makes a receiver that isn't counted.
    fn add_anonymous(&mut self, number: u64) -> Result<String, NoSuch> {
        is_free(&self.receivers, number)?;
        let receiver = Receiver::Anonymous(self.watch.anon_receiver());
        self.receivers.insert(number, receiver);
        Ok(answer::done())
    }

    /// Adds `more` to the value where there is one, and tells each receiver.
    fn modify(&self, more: u32) {
        self.watch.sender().send_modify(|value| {
            add(value, more);
        });
    }
}

impl<'a, const N: usize> Primitive<'a> for Watched<'a, N> {
    type Ask = (u64, Look);
    type Call = Call;
    type Held = Nothing;

    fn read_ask(mut words: Words<'_>) -> Option<(u64, Look)> {
        let name = words.name()?;
        let ask = Look::read(name, &mut words)?;
        words.end(ask)
    }

    fn read_call(mut words: Words<'_>) -> Option<Call> {
        let call = match words.name()? {
            "receiver" => Call::Receiver(words.number()?),
            "anon" => Call::Anon(words.number()?),
            "leave" => Call::Leave(words.number()?),
            "send" => Call::Send(words.number()?),
            "modify" => Call::Modify(words.number()?),
            "modify-if" => Call::ModifyIf(words.number()?),
            "clear" => Call::Clear,
            "try-get" => Call::TryGet,
            "id" => Call::Id,
            "contains" => Call::Contains,
            name => {
                let (number, look) = Look::read(name, &mut words)?;
                Call::Look(number, look)
            }
        };
        words.end(call)
    }

    fn request(&mut self, (number, look): (u64, Look)) -> Result<Request<'a, Nothing>, NoSuch> {
        let Some(Receiver::Counted(receiver)) = self.receivers.get(&number) else {
            return Err(NoSuch);
        };
        let receiver = Rc::clone(receiver);
        let request =
            Request::answering(poll_fn(move |context| poll_look(&receiver, look, context)));
        Ok(request.of(Owner::Receiver(number)))
    }

    fn call(&mut self, call: Call, table: &mut Table<'a, Nothing>) -> Result<String, NoSuch> {
        let sender = self.watch.sender();
        match call {
            Call::Receiver(number) => return self.add_receiver(number),
            Call::Anon(number) => return self.add_anonymous(number),
            Call::Leave(number) => {
                table.end_requests_of(Owner::Receiver(number));
                self.receivers.remove(&number).ok_or(NoSuch)?;
            }
            Call::Look(number, look) => {
                let receiver = self.receivers.get_mut(&number).ok_or(NoSuch)?;
                return Ok(answer::optional(receiver.look(look)));
            }
            Call::Send(value) => sender.send(value),
            Call::Modify(more) => self.modify(more),
            Call::ModifyIf(more) => sender.send_if_modified(|value| add(value, more)),
            Call::Clear => sender.clear(),
            Call::TryGet => return Ok(answer::optional(self.watch.try_get())),
            Call::Id => return Ok(self.watch.get_msg_id().to_string()),
            Call::Contains => return Ok(sender.contains_value().to_string()),
        }
        Ok(answer::done())
    }
}

/// Polls for what is looked for.
fn poll_look<const N: usize>(
    receiver: &Counted<'_, N>,
    look: Look,
    context: &mut Context<'_>,
) -> Poll<String> {
    let mut receiver = receiver.borrow_mut();
    let poll = match look {
        Look::Get => pin!(receiver.get()).poll(context),
        Look::Changed => pin!(receiver.changed()).poll(context),
        Look::GetBelow(limit) => pin!(receiver.get_and(|value| *value < limit)).poll(context),
        Look::ChangedBelow(limit) => {
            pin!(receiver.changed_and(|value| *value < limit)).poll(context)
        }
    };
    poll.map(answer::ready)
}

/// Adds `more` modulo 2^32 where there is a value, and tells whether that changed it.
fn add(value: &mut Option<u32>, more: u32) -> bool {
    match value {
        Some(value) if more != 0 => {
            *value = value.wrapping_add(more);
            true
        }
        _ => false,
    }
}
