//! Zero-copy channels.

use std::cell::{Cell, RefCell};
use std::future::{poll_fn, Future};
use std::pin::pin;
use std::rc::Rc;

use embassy_sync::blocking_mutex::raw::RawMutex;
use embassy_sync::zerocopy_channel::{Receiver, Sender};

use crate::answer;
use crate::machine::{Nothing, Primitive};
use crate::table::{NoSuch, Request, Table};
use crate::words::Words;

/// A slot of the channel's buffer. A copy of it writes the same value.
#[derive(Clone)]
pub struct Slot {
    number: usize,
    value: Rc<Cell<u32>>,
}

impl Slot {
    /// The slot at place `number`, with the value 0.
    pub fn new(number: usize) -> Self {
        Slot {
            number,
            value: Rc::new(Cell::new(0)),
        }
    }
}

/// What upstream's two ends of a channel have in common.
pub trait End {
    /// Waits for a slot, and lends it.
    fn lend(&mut self) -> impl Future<Output = &mut Slot>;
    /// Lends a slot where there is one.
    fn try_lend(&mut self) -> Option<&mut Slot>;
    /// Hands the slot that is first to the other end.
    fn done(&mut self);
    /// Makes each slot the sender's.
    fn clear(&mut self);
    /// What an answer tells of a slot that is lent.
    fn told(slot: &Slot) -> String;
}

impl<M: RawMutex> End for Sender<'_, M, Slot> {
    fn lend(&mut self) -> impl Future<Output = &mut Slot> {
        self.send()
    }

    fn try_lend(&mut self) -> Option<&mut Slot> {
        self.try_send()
    }

    fn done(&mut self) {
        self.send_done();
    }

    fn clear(&mut self) {
        Sender::clear(self);
    }

    fn told(slot: &Slot) -> String {
        slot.number.to_string()
    }
}

impl<M: RawMutex> End for Receiver<'_, M, Slot> {
    fn lend(&mut self) -> impl Future<Output = &mut Slot> {
        self.receive()
    }

    fn try_lend(&mut self) -> Option<&mut Slot> {
        self.try_receive()
    }

    fn done(&mut self) {
        self.receive_done();
    }

    fn clear(&mut self) {
        Receiver::clear(self);
    }

    fn told(slot: &Slot) -> String {
        format!("{},{}", slot.number, slot.value.get())
    }
}

/// What can be asked of a zero-copy channel.
#[derive(Clone)]
pub enum Ask {
    Send,
    Receive,
}

/// The other commands of a zero-copy channel.
#[derive(Clone)]
pub enum Call {
    Sender(EndCall),
    Receiver(EndCall),
    Write(u32),
    Len,
    Free,
}

/// The commands that both ends have.
#[derive(Clone)]
pub enum EndCall {
    Try,
    Done,
    EndLoan,
    Clear,
}

/// An end of the channel, with a copy of the slot that it has lent.
struct Lender<E> {
    end: E,
    lent: Option<Slot>,
}

impl<E: End> Lender<E> {
    fn new(end: E) -> Rc<RefCell<Self>> {
        Rc::new(RefCell::new(Lender { end, lent: None }))
    }

    fn call(&mut self, call: EndCall) -> Result<String, NoSuch> {
        match call {
            EndCall::Try => {
                let lent = &mut self.lent;
                let slot = self
                    .end
                    .try_lend()
                    .map(|slot| E::told(lent.insert(slot.clone())));
                return Ok(answer::optional(slot));
            }
            EndCall::Done => self.end.done(),
            EndCall::EndLoan if self.lent.is_none() => return Err(NoSuch),
            EndCall::EndLoan => (),
            EndCall::Clear => self.end.clear(),
        }
        // Each of these calls borrows the end, so the loan is over.
        self.lent = None;
        Ok(answer::done())
    }
}

/// A zero-copy channel by the commands of a script.
///
/// Upstream lends a slot for as long as the end of the channel is borrowed, and so does the future that waits for one.
/// So a request makes its future anew for each poll, and what is kept of a loan is a copy of the slot.
pub struct Slots<S, R> {
    sender: Rc<RefCell<Lender<S>>>,
    receiver: Rc<RefCell<Lender<R>>>,
    capacity: usize,
}

impl<'a, M: RawMutex> Slots<Sender<'a, M, Slot>, Receiver<'a, M, Slot>> {
    /// The commands of a channel of `capacity` slots, by its two ends.
    pub fn new(
        (sender, receiver): (Sender<'a, M, Slot>, Receiver<'a, M, Slot>),
        capacity: usize,
    ) -> Self {
        Slots {
            sender: Lender::new(sender),
            receiver: Lender::new(receiver),
            capacity,
        }
    }

    /// How many slots the receiver can have.
    fn len(&self) -> usize {
        self.receiver.borrow().end.len()
    }
}

impl<'a, M: RawMutex> Primitive<'a> for Slots<Sender<'a, M, Slot>, Receiver<'a, M, Slot>> {
    type Ask = Ask;
    type Call = Call;
    type Held = Nothing;

    fn read_ask(mut words: Words<'_>) -> Option<Ask> {
        let ask = match words.name()? {
            "send" => Ask::Send,
            "receive" => Ask::Receive,
            _ => return None,
        };
        words.end(ask)
    }

    fn read_call(mut words: Words<'_>) -> Option<Call> {
        let call = match words.name()? {
            "try-send" => Call::Sender(EndCall::Try),
            "done-send" => Call::Sender(EndCall::Done),
            "end-send" => Call::Sender(EndCall::EndLoan),
            "clear-send" => Call::Sender(EndCall::Clear),
            "try-receive" => Call::Receiver(EndCall::Try),
            "done-receive" => Call::Receiver(EndCall::Done),
            "end-receive" => Call::Receiver(EndCall::EndLoan),
            "clear-receive" => Call::Receiver(EndCall::Clear),
            "write" => Call::Write(words.number()?),
            "len" => Call::Len,
            "free" => Call::Free,
            _ => return None,
        };
        words.end(call)
    }

    fn request(&mut self, ask: Ask) -> Result<Request<'a, Nothing>, NoSuch> {
        Ok(match ask {
            Ask::Send => borrowing(Rc::clone(&self.sender)),
            Ask::Receive => borrowing(Rc::clone(&self.receiver)),
        })
    }

    fn call(&mut self, call: Call, _table: &mut Table<'a, Nothing>) -> Result<String, NoSuch> {
        match call {
            Call::Sender(call) => self.sender.borrow_mut().call(call),
            Call::Receiver(call) => self.receiver.borrow_mut().call(call),
            Call::Write(value) => {
                let sender = self.sender.borrow();
                sender.lent.as_ref().ok_or(NoSuch)?.value.set(value);
                Ok(answer::done())
            }
            Call::Len => Ok(self.len().to_string()),
            Call::Free => Ok((self.capacity - self.len()).to_string()),
        }
    }
}

/// A request for a slot.
fn borrowing<'a, E: End + 'a>(lender: Rc<RefCell<Lender<E>>>) -> Request<'a, Nothing> {
    Request::answering(poll_fn(move |context| {
        let Lender { end, lent } = &mut *lender.borrow_mut();
        let poll = pin!(end.lend()).poll(context);
        poll.map(|slot| answer::ready(E::told(lent.insert(slot.clone()))))
    }))
}
