//! Values that are set once.

use std::cell::RefCell;
use std::future::{poll_fn, Future};
use std::pin::pin;

use embassy_sync::once_lock::OnceLock;

use crate::answer;
use crate::machine::{Nothing, Primitive};
use crate::table::{NoSuch, Request, Table};
use crate::words::Words;

/// What can be asked of a once lock: its value.
#[derive(Clone)]
pub struct Get;

/// The other commands of a once lock.
#[derive(Clone)]
pub enum Call {
    TryGet,
    Init(u32),
    GetOrInit(u32),
    Take,
    IsSet,
}

/// A once lock by the commands of a script.
///
/// A value can be taken only where nobody has a reference to the lock, so a request makes its future anew for each poll.
pub struct Once<'a> {
    lock: &'a RefCell<OnceLock<u32>>,
}

impl<'a> Once<'a> {
    /// The commands of `lock`.
    pub fn new(lock: &'a RefCell<OnceLock<u32>>) -> Self {
        Once { lock }
    }
}

impl<'a> Primitive<'a> for Once<'a> {
    type Ask = Get;
    type Call = Call;
    type Held = Nothing;

    fn read_ask(mut words: Words<'_>) -> Option<Get> {
        match words.name()? {
            "get" => words.end(Get),
            _ => None,
        }
    }

    fn read_call(mut words: Words<'_>) -> Option<Call> {
        let call = match words.name()? {
            "try-get" => Call::TryGet,
            "init" => Call::Init(words.number()?),
            "get-or-init" => Call::GetOrInit(words.number()?),
            "take" => Call::Take,
            "is-set" => Call::IsSet,
            _ => return None,
        };
        words.end(call)
    }

    fn request(&mut self, Get: Get) -> Result<Request<'a, Nothing>, NoSuch> {
        let lock = self.lock;
        Ok(Request::answering(poll_fn(|context| {
            let lock = lock.borrow();
            let get = pin!(lock.get());
            get.poll(context).map(answer::ready)
        })))
    }

    fn call(&mut self, call: Call, _table: &mut Table<'a, Nothing>) -> Result<String, NoSuch> {
        let lock = self.lock;
        Ok(match call {
            Call::TryGet => answer::optional(lock.borrow().try_get()),
            Call::Init(value) => match lock.borrow().init(value) {
                Ok(()) => answer::done(),
                Err(value) => format!("Err(Set({value}))"),
            },
            Call::GetOrInit(value) => lock.borrow().get_or_init(|| value).to_string(),
            Call::Take => answer::optional(lock.borrow_mut().take()),
            Call::IsSet => lock.borrow().is_set().to_string(),
        })
    }
}
