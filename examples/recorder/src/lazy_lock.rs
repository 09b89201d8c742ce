//! Values that are made when they are first asked for.

use embassy_sync::lazy_lock::LazyLock;

use crate::machine::{Nothing, Primitive};
use crate::table::{NoSuch, Request, Table};
use crate::words::Words;

/// The commands of a lazy lock.
#[derive(Clone)]
pub enum Call {
    Get,
    Into,
}

/// A lazy lock by the commands of a script, until it is consumed.
pub struct Lazy<F> {
    lock: Option<LazyLock<u32, F>>,
}

impl<F: FnOnce() -> u32> Lazy<F> {
    /// The commands of `lock`.
    pub fn new(lock: LazyLock<u32, F>) -> Self {
        Lazy { lock: Some(lock) }
    }
}

impl<'a, F: FnOnce() -> u32> Primitive<'a> for Lazy<F> {
    /// Nothing can be asked of it.
    type Ask = Nothing;
    type Call = Call;
    type Held = Nothing;

    fn read_ask(_words: Words<'_>) -> Option<Nothing> {
        None
    }

    fn read_call(mut words: Words<'_>) -> Option<Call> {
        let call = match words.name()? {
            "get" => Call::Get,
            "into" => Call::Into,
            _ => return None,
        };
        words.end(call)
    }

    fn request(&mut self, ask: Nothing) -> Result<Request<'a, Nothing>, NoSuch> {
        match ask {}
    }

    fn call(&mut self, call: Call, _table: &mut Table<'a, Nothing>) -> Result<String, NoSuch> {
        let value = match call {
            Call::Get => self.lock.as_ref().map(|lock| *lock.get()),
            Call::Into => self.lock.take().map(LazyLock::into_inner),
        };
        value.map(|value| value.to_string()).ok_or(NoSuch)
    }
}
