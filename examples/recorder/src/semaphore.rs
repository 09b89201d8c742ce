//! Greedy and fair semaphores.

use std::fmt::Debug;
use std::future::Future;

use embassy_sync::blocking_mutex::raw::RawMutex;
use embassy_sync::semaphore::{FairSemaphore, GreedySemaphore, Semaphore, SemaphoreReleaser};

use crate::answer;
use crate::machine::{Command, Machine, Primitive};
use crate::table::{NoSuch, Request, Table};
use crate::words::Words;

/// What upstream's two kinds of semaphore have in common.
pub trait Counter: Semaphore<Error: Debug> {
    /// A semaphore of so many permits.
    fn with(permits: usize) -> Self;
}

impl<M: RawMutex> Counter for GreedySemaphore<M> {
    fn with(permits: usize) -> Self {
        Self::new(permits)
    }
}

impl<M: RawMutex, const N: usize> Counter for FairSemaphore<M, N> {
    fn with(permits: usize) -> Self {
        Self::new(permits)
    }
}

/// What can be asked of a semaphore.
#[derive(Clone)]
pub enum Ask {
    Acquire(usize),
    AcquireAll(usize),
}

/// The other commands of a semaphore.
#[derive(Clone)]
pub enum Call {
    Try(u64, usize),
    TryAll(u64, usize),
    Disarm(u64),
    Release(usize),
    Set(usize),
    Permits,
}

/// A semaphore by the commands of a script.
///
/// Upstream shows nobody how many permits there are. So the commands are kept, and the permits are counted on a second
/// semaphore that goes through the same ones.
pub struct Permits<'a, S> {
    semaphore: &'a S,
    /// How many permits there were at the beginning.
    first: usize,
    heard: Vec<Command<Ask, Call>>,
}

impl<'a, S: Counter> Permits<'a, S> {
    /// The commands of `semaphore`, which nobody has called and which has `first` permits.
    pub fn new(semaphore: &'a S, first: usize) -> Self {
        Permits {
            semaphore,
            first,
            heard: Vec::new(),
        }
    }

    /// How many permits there are.
    fn count(&self) -> usize {
        let second = S::with(self.first);
        let mut machine = Machine::new(Permits::new(&second, self.first));
        for command in &self.heard {
            machine.step(command.clone());
        }
        machine.end_requests();
        let all = second.try_acquire_all(0);
        all.expect("nobody waits any more").disarm()
    }

    /// The answer of a `try`, whose permits number `number` has if there were enough.
    fn hold(
        number: u64,
        releaser: Option<SemaphoreReleaser<'a, S>>,
        table: &mut Table<'a, SemaphoreReleaser<'a, S>>,
    ) -> String {
        let permits = releaser.as_ref().map(SemaphoreReleaser::permits);
        if let Some(releaser) = releaser {
            table.hold(number, releaser);
        }
        answer::optional(permits)
    }
}

impl<'a, S: Counter> Primitive<'a> for Permits<'a, S> {
    type Ask = Ask;
    type Call = Call;
    type Held = SemaphoreReleaser<'a, S>;

    fn read_ask(mut words: Words<'_>) -> Option<Ask> {
        let ask = match words.name()? {
            "acquire" => Ask::Acquire(words.number()?),
            "acquire-all" => Ask::AcquireAll(words.number()?),
            _ => return None,
        };
        words.end(ask)
    }

    fn read_call(mut words: Words<'_>) -> Option<Call> {
        let call = match words.name()? {
            "try" => Call::Try(words.number()?, words.number()?),
            "try-all" => Call::TryAll(words.number()?, words.number()?),
            "disarm" => Call::Disarm(words.number()?),
            "release" => Call::Release(words.number()?),
            "set" => Call::Set(words.number()?),
            "permits" => Call::Permits,
            _ => return None,
        };
        words.end(call)
    }

    fn request(&mut self, ask: Ask) -> Result<Request<'a, Self::Held>, NoSuch> {
        Ok(match ask {
            Ask::Acquire(permits) => granting(self.semaphore.acquire(permits)),
            Ask::AcquireAll(least) => granting(self.semaphore.acquire_all(least)),
        })
    }

    fn call(&mut self, call: Call, table: &mut Table<'a, Self::Held>) -> Result<String, NoSuch> {
        match call {
            Call::Try(number, permits) => {
                table.free(number)?;
                Ok(Self::hold(
                    number,
                    self.semaphore.try_acquire(permits),
                    table,
                ))
            }
            Call::TryAll(number, least) => {
                table.free(number)?;
                Ok(Self::hold(
                    number,
                    self.semaphore.try_acquire_all(least),
                    table,
                ))
            }
            Call::Disarm(number) => table
                .take(number)
                .map(|releaser| releaser.disarm().to_string()),
            Call::Release(permits) => {
                self.semaphore.release(permits);
                Ok(answer::done())
            }
            Call::Set(permits) => {
                self.semaphore.set(permits);
                Ok(answer::done())
            }
            Call::Permits => Ok(self.count().to_string()),
        }
    }

    fn hear(&mut self, command: &Command<Ask, Call>) {
        // Who counts changes nothing.
        if !matches!(command, Command::Call(Call::Permits)) {
            self.heard.push(command.clone());
        }
    }
}

/// A request that leaves its releaser under its number.
fn granting<'a, S: Counter>(
    acquire: impl Future<Output = Result<SemaphoreReleaser<'a, S>, S::Error>> + 'a,
) -> Request<'a, SemaphoreReleaser<'a, S>> {
    Request::granting(async {
        match acquire.await {
            Ok(releaser) => (answer::ready(releaser.permits()), Some(releaser)),
            Err(error) => (answer::ready(format_args!("Err({error:?})")), None),
        }
    })
}
