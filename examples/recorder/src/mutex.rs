//! Mutexes.

use embassy_sync::blocking_mutex::raw::NoopRawMutex;
use embassy_sync::mutex::{MappedMutexGuard, Mutex, MutexGuard};

use crate::answer;
use crate::machine::Primitive;
use crate::table::{NoSuch, Request, Table};
use crate::words::Words;

/// The two values that are locked. The second one is the part of a mapped guard.
type Pair = (u32, u32);

/// What can be asked of a mutex: to lock it.
#[derive(Clone)]
pub struct Lock;

/// The other commands of a mutex.
#[derive(Clone)]
pub enum Call {
    TryLock(u64),
    Read(u64),
    Write(u64, Pair),
    WritePart(u64, u32),
    Map(u64),
}

/// What a number stands for that has the lock.
pub enum Guard<'a> {
    /// A guard of both values.
    Whole(MutexGuard<'a, NoopRawMutex, Pair>),
    /// A guard of the second one.
    Part(MappedMutexGuard<'a, NoopRawMutex, u32>),
}

impl Guard<'_> {
    /// The values that the guard shows.
    fn read(&self) -> String {
        match self {
            Guard::Whole(guard) => format!("({},{})", guard.0, guard.1),
            Guard::Part(guard) => format!("({})", **guard),
        }
    }
}

/// A mutex by the commands of a script.
pub struct Locks<'a> {
    mutex: &'a Mutex<NoopRawMutex, Pair>,
}

impl<'a> Locks<'a> {
    /// The commands of `mutex`.
    pub fn new(mutex: &'a Mutex<NoopRawMutex, Pair>) -> Self {
        Locks { mutex }
    }
}

impl<'a> Primitive<'a> for Locks<'a> {
    type Ask = Lock;
    type Call = Call;
    type Held = Guard<'a>;

    fn read_ask(mut words: Words<'_>) -> Option<Lock> {
        match words.name()? {
            "lock" => words.end(Lock),
            _ => None,
        }
    }

    fn read_call(mut words: Words<'_>) -> Option<Call> {
        let call = match words.name()? {
            "try-lock" => Call::TryLock(words.number()?),
            "read" => Call::Read(words.number()?),
            "write" => Call::Write(words.number()?, (words.number()?, words.number()?)),
            "write-part" => Call::WritePart(words.number()?, words.number()?),
            "map" => Call::Map(words.number()?),
            _ => return None,
        };
        words.end(call)
    }

    fn request(&mut self, Lock: Lock) -> Result<Request<'a, Guard<'a>>, NoSuch> {
        let lock = self.mutex.lock();
        Ok(Request::granting(async {
            ("Ready".to_string(), Some(Guard::Whole(lock.await)))
        }))
    }

    fn call(&mut self, call: Call, table: &mut Table<'a, Guard<'a>>) -> Result<String, NoSuch> {
        match call {
            Call::TryLock(number) => {
                table.free(number)?;
                let guard = self.mutex.try_lock();
                Ok(answer::outcome(
                    guard.map(|guard| table.hold(number, Guard::Whole(guard))),
                ))
            }
            Call::Read(number) => table.held(number).map(|guard| guard.read()),
            Call::Write(number, pair) => match table.held(number)? {
                Guard::Whole(guard) => {
                    **guard = pair;
                    Ok(answer::done())
                }
                Guard::Part(_) => Err(NoSuch),
            },
            Call::WritePart(number, part) => match table.held(number)? {
                Guard::Part(guard) => {
                    **guard = part;
                    Ok(answer::done())
                }
                Guard::Whole(_) => Err(NoSuch),
            },
            Call::Map(number) => map(number, table),
        }
    }
}

/// Maps the guard of `number` to the second value. A guard that is mapped stays, and can't be mapped again.
fn map<'a>(number: u64, table: &mut Table<'a, Guard<'a>>) -> Result<String, NoSuch> {
    match table.take(number)? {
        Guard::Whole(guard) => {
            let part = MutexGuard::map(guard, |pair| &mut pair.1);
            table.hold(number, Guard::Part(part));
            Ok(answer::done())
        }
        mapped @ Guard::Part(_) => {
            table.hold(number, mapped);
            Err(NoSuch)
        }
    }
}
