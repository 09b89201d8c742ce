//! Pipes.

use std::cell::RefCell;
use std::future::{poll_fn, Future};
use std::pin::pin;
use std::task::{Context, Poll};

use embassy_sync::blocking_mutex::raw::RawMutex;
use embassy_sync::pipe::Pipe;

use crate::answer;
use crate::machine::{Nothing, Primitive};
use crate::table::{NoSuch, Request, Table};
use crate::words::{Words, LONGEST_ROW};

/// What can be asked of a pipe.
#[derive(Clone)]
pub enum Ask {
    Write(Vec<u8>),
    WriteAll(Vec<u8>),
    Read(usize),
    Fill,
}

/// The other commands of a pipe.
#[derive(Clone)]
pub enum Call {
    TryWrite(Vec<u8>),
    TryRead(usize),
    TryFill,
    Consume(usize),
    Len,
    Free,
    Clear,
}

/// A pipe by the commands of a script.
///
/// Upstream's reader borrows the pipe for itself alone, and no other call can be made while there is one. So the reader,
/// and each future, is made anew for each poll.
pub struct Bytes<'a, M: RawMutex, const N: usize> {
    pipe: &'a RefCell<Pipe<M, N>>,
}

impl<'a, M: RawMutex, const N: usize> Bytes<'a, M, N> {
    /// The commands of `pipe`.
    pub fn new(pipe: &'a RefCell<Pipe<M, N>>) -> Self {
        Bytes { pipe }
    }
}

impl<'a, M: RawMutex, const N: usize> Primitive<'a> for Bytes<'a, M, N> {
    type Ask = Ask;
    type Call = Call;
    type Held = Nothing;

    fn read_ask(mut words: Words<'_>) -> Option<Ask> {
        let ask = match words.name()? {
            "write" => Ask::Write(words.row()?),
            "write-all" => Ask::WriteAll(words.row()?),
            "read" => Ask::Read(words.row_length()?),
            "fill" => Ask::Fill,
            _ => return None,
        };
        words.end(ask)
    }

    fn read_call(mut words: Words<'_>) -> Option<Call> {
        let call = match words.name()? {
            "try-write" => Call::TryWrite(words.row()?),
            "try-read" => Call::TryRead(words.row_length()?),
            "try-fill" => Call::TryFill,
            "consume" => Call::Consume(words.number()?),
            "len" => Call::Len,
            "free" => Call::Free,
            "clear" => Call::Clear,
            _ => return None,
        };
        words.end(call)
    }

    fn request(&mut self, ask: Ask) -> Result<Request<'a, Nothing>, NoSuch> {
        let pipe = self.pipe;
        Ok(match ask {
            Ask::Write(row) => Request::answering(poll_fn(move |context| {
                let pipe = pipe.borrow();
                let write = pin!(pipe.write(&row));
                write.poll(context).map(answer::ready)
            })),
            Ask::WriteAll(row) => write_all(pipe, row),
            Ask::Read(length) => Request::answering(poll_fn(move |context| {
                let mut bytes = [0; LONGEST_ROW];
                let pipe = pipe.borrow();
                let poll = pin!(pipe.read(&mut bytes[..length])).poll(context);
                poll.map(|count| answer::ready(answer::row(&bytes[..count])))
            })),
            Ask::Fill => Request::answering(poll_fn(move |context| poll_fill(pipe, context))),
        })
    }

    fn call(&mut self, call: Call, _table: &mut Table<'a, Nothing>) -> Result<String, NoSuch> {
        let mut pipe = self.pipe.borrow_mut();
        Ok(match call {
            Call::TryWrite(row) => answer::result(pipe.try_write(&row)),
            Call::TryRead(length) => {
                let mut bytes = [0; LONGEST_ROW];
                let read = pipe.try_read(&mut bytes[..length]);
                answer::result(read.map(|count| answer::row(&bytes[..count])))
            }
            Call::TryFill => {
                let (mut reader, _) = pipe.split();
                let fill = reader.try_fill_buf();
                answer::result(fill.map(answer::row))
            }
            Call::Consume(count) => {
                let (mut reader, _) = pipe.split();
                reader.consume(count);
                answer::done()
            }
            Call::Len => pipe.len().to_string(),
            Call::Free => pipe.free_capacity().to_string(),
            Call::Clear => {
                pipe.clear();
                answer::done()
            }
        })
    }
}

/// A request that writes `rest`, in as many polls as it takes.
///
/// Its future is made anew for what the polls before have left. How much a poll has put is seen by the length.
fn write_all<'a, M: RawMutex, const N: usize>(
    pipe: &'a RefCell<Pipe<M, N>>,
    mut rest: Vec<u8>,
) -> Request<'a, Nothing> {
    Request::answering(poll_fn(move |context| {
        let pipe = pipe.borrow();
        let before = pipe.len();
        let poll = pin!(pipe.write_all(&rest)).poll(context);
        rest.drain(..pipe.len() - before);
        poll.map(|()| "Ready".to_string())
    }))
}

/// Polls for the bytes that are there, and leaves them.
fn poll_fill<M: RawMutex, const N: usize>(
    pipe: &RefCell<Pipe<M, N>>,
    context: &mut Context<'_>,
) -> Poll<String> {
    let mut pipe = pipe.borrow_mut();
    let (mut reader, _) = pipe.split();
    let fill = pin!(reader.fill_buf());
    fill.poll(context)
        .map(|bytes| answer::ready(answer::row(bytes)))
}
