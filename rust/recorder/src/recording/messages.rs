//! What the channels of messages have in common: how each of their calls is recorded.
use std::future::Future;
use std::task::{Context, Poll};

use embassy_sync::channel::{TryReceiveError, TrySendError};

use super::name::{Name, Phrase, phrase};
use super::request::{Ready, ReadyWith, Request};
use super::tape::Tape;

/// The tape of a channel, and what a run calls its messages.
pub struct Messages<'a, T> {
    pub tape: &'a Tape,
    pub naming: fn(&T) -> Name,
}

impl<T> Clone for Messages<'_, T> {
    fn clone(&self) -> Self {
        *self
    }
}

impl<T> Copy for Messages<'_, T> {}

impl<'a, T> Messages<'a, T> {
    fn with_message(&self, command: &str, message: &T) -> Phrase {
        phrase(command).text(" ").message((self.naming)(message))
    }

    fn ready(&self, message: &T) -> Phrase {
        phrase("Ready(").message((self.naming)(message)).text(")")
    }

    /// Makes a request that sends.
    pub fn send<F: Future<Output = ()>>(&self, message: T, send: impl FnOnce(T) -> F) -> Request<'a, F, Ready> {
        let ask = self.with_message("send", &message);
        Request::start(self.tape, &ask, send(message), Ready)
    }

    /// Makes a request that receives.
    pub fn receive<F: Future<Output = T>>(&self, receive: F) -> Request<'a, F, ReadyWith<T>> {
        Request::start(self.tape, &phrase("receive"), receive, ReadyWith(self.naming))
    }

    /// Makes a request that waits for a message, and leaves it.
    pub fn ready_to_receive<F: Future<Output = ()>>(&self, ready: F) -> Request<'a, F, Ready> {
        Request::start(self.tape, &phrase("receive-ready"), ready, Ready)
    }

    /// Polls once whether there is room, or a message.
    pub fn poll_ready(
        &self,
        ask: &str,
        cx: &mut Context<'_>,
        poll: impl FnOnce(&mut Context<'_>) -> Poll<()>,
    ) -> Poll<()> {
        self.tape.poll_once(&phrase(ask), cx, poll, |()| phrase("Ready"))
    }

    /// Polls once for a message.
    pub fn poll_receive(&self, cx: &mut Context<'_>, poll: impl FnOnce(&mut Context<'_>) -> Poll<T>) -> Poll<T> {
        self.tape.poll_once(&phrase("receive"), cx, poll, |message| self.ready(message))
    }

    /// Sends a message where there is room.
    pub fn try_send(
        &self,
        message: T,
        send: impl FnOnce(T) -> Result<(), TrySendError<T>>,
    ) -> Result<(), TrySendError<T>> {
        let command = self.with_message("try-send", &message);
        self.tape.call(
            command,
            || send(message),
            |sent| match sent {
                Ok(()) => phrase("Ok"),
                Err(TrySendError::Full(message)) => phrase("Err(Full(").message((self.naming)(message)).text("))"),
            },
        )
    }

    /// Receives a message where there is one.
    pub fn try_receive(&self, receive: impl FnOnce() -> Result<T, TryReceiveError>) -> Result<T, TryReceiveError> {
        self.tape.call(phrase("try-receive"), receive, |received| match received {
            Ok(message) => phrase("Ok(").message((self.naming)(message)).text(")"),
            Err(TryReceiveError::Empty) => phrase("Err(Empty)"),
        })
    }
}

impl Tape {
    /// Makes a call that empties the primitive.
    pub fn clear(&self, clear: impl FnOnce()) {
        self.done(phrase("clear"), clear);
    }

    /// Asks for the number of messages or bytes.
    pub fn len(&self, len: impl FnOnce() -> usize) -> usize {
        self.call(phrase("len"), len, phrase_of)
    }

    /// Asks for the number of messages or bytes for which there is room.
    pub fn free_capacity(&self, free: impl FnOnce() -> usize) -> usize {
        self.call(phrase("free"), free, phrase_of)
    }

    /// Asks whether the primitive is empty. A run has the number of messages or bytes in its place.
    pub fn is_empty(&self, is_empty: impl FnOnce() -> bool, len: impl FnOnce() -> usize) -> bool {
        self.is_none("len", is_empty, len)
    }

    /// Asks whether the primitive is full. A run has the number for which there is room in its place.
    pub fn is_full(&self, is_full: impl FnOnce() -> bool, free: impl FnOnce() -> usize) -> bool {
        self.is_none("free", is_full, free)
    }

    /// Records a question by the number whose being 0 it is about. An answer that isn't so stands in the run as it is.
    fn is_none(&self, command: &str, question: impl FnOnce() -> bool, number: impl FnOnce() -> usize) -> bool {
        let answer = |(answer, number): &(bool, usize)| match *answer == (*number == 0) {
            true => phrase(number),
            false => phrase(format_args!("{number}, and {answer}")),
        };
        self.call(phrase(command), || (question(), number()), answer).0
    }
}

fn phrase_of(number: &usize) -> Phrase {
    phrase(number)
}
