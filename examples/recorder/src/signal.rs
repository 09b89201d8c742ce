//! Signals.

use embassy_sync::blocking_mutex::raw::NoopRawMutex;
use embassy_sync::signal::Signal;

use crate::answer;
use crate::machine::{Nothing, Primitive};
use crate::table::{NoSuch, Request, Table};
use crate::words::Words;

/// What can be asked of a signal: to wait for its value.
#[derive(Clone)]
pub struct Wait;

/// The other commands of a signal.
#[derive(Clone)]
pub enum Call {
    Signal(u32),
    Reset,
    TryTake,
    Signaled,
}

/// A signal by the commands of a script.
pub struct Signals<'a> {
    signal: &'a Signal<NoopRawMutex, u32>,
}

impl<'a> Signals<'a> {
    /// The commands of `signal`.
    pub fn new(signal: &'a Signal<NoopRawMutex, u32>) -> Self {
        Signals { signal }
    }
}

impl<'a> Primitive<'a> for Signals<'a> {
    type Ask = Wait;
    type Call = Call;
    type Held = Nothing;

    fn read_ask(mut words: Words<'_>) -> Option<Wait> {
        match words.name()? {
            "wait" => words.end(Wait),
            _ => None,
        }
    }

    fn read_call(mut words: Words<'_>) -> Option<Call> {
        let call = match words.name()? {
            "signal" => Call::Signal(words.number()?),
            "reset" => Call::Reset,
            "try-take" => Call::TryTake,
            "signaled" => Call::Signaled,
            _ => return None,
        };
        words.end(call)
    }

    fn request(&mut self, Wait: Wait) -> Result<Request<'a, Nothing>, NoSuch> {
        let wait = self.signal.wait();
        Ok(Request::answering(async { answer::ready(wait.await) }))
    }

    fn call(&mut self, call: Call, _table: &mut Table<'a, Nothing>) -> Result<String, NoSuch> {
        Ok(match call {
            Call::Signal(value) => {
                self.signal.signal(value);
                answer::done()
            }
            Call::Reset => {
                self.signal.reset();
                answer::done()
            }
            Call::TryTake => answer::optional(self.signal.try_take()),
            Call::Signaled => self.signal.signaled().to_string(),
        })
    }
}
