//! The table of requests: what stands under each number of a script.

use std::collections::BTreeMap;
use std::future::Future;
use std::panic::{catch_unwind, AssertUnwindSafe};
use std::pin::Pin;
use std::task::{Context, Poll};

/// How many numbers there are for requests, receivers, subscribers and publishers, from 0.
const NUMBERS: u64 = 16;

/// Nothing stands under the number, or something else does. A script is answered `Err(NoSuch)`.
#[derive(Debug, PartialEq, Eq)]
pub struct NoSuch;

/// The handle to which a request belongs, and with which it ends.
#[derive(Clone, Copy, PartialEq, Eq)]
pub enum Owner {
    /// A receiver of a watch.
    Receiver(u64),
    /// A subscriber.
    Subscriber(u64),
    /// A publisher.
    Publisher(u64),
}

/// The answer of a poll that is Ready, and what the number stands for from then on: a releaser or a guard.
type Outcome<Held> = (String, Option<Held>);

/// A future of upstream, which the end of the request drops.
pub struct Request<'a, Held> {
    owner: Option<Owner>,
    future: Pin<Box<dyn Future<Output = Outcome<Held>> + 'a>>,
}

impl<'a, Held: 'a> Request<'a, Held> {
    /// A request whose number is free once it was answered.
    pub fn answering(future: impl Future<Output = String> + 'a) -> Self {
        Self::granting(async { (future.await, None) })
    }

    /// A request that may leave a releaser or a guard under its number.
    pub fn granting(future: impl Future<Output = Outcome<Held>> + 'a) -> Self {
        Request {
            owner: None,
            future: Box::pin(future),
        }
    }

    /// The request as one that ends with `owner`.
    pub fn of(mut self, owner: Owner) -> Self {
        self.owner = Some(owner);
        self
    }
}

/// What stands under a number.
enum Entry<'a, Held> {
    Request(Request<'a, Held>),
    Held(Held),
}

/// The numbers that are in use. What is left in it when it is dropped ends then, each by itself.
pub struct Table<'a, Held>(BTreeMap<u64, Entry<'a, Held>>);

impl<'a, Held> Table<'a, Held> {
    /// A table in which each number is free.
    pub fn new() -> Self {
        Table(BTreeMap::new())
    }

    /// Whether `number` can be given away.
    pub fn free(&self, number: u64) -> Result<(), NoSuch> {
        is_free(&self.0, number)
    }

    /// Puts a request under a free number.
    pub fn start(&mut self, number: u64, request: Request<'a, Held>) {
        self.0.insert(number, Entry::Request(request));
    }

    /// Puts a releaser or a guard under a free number.
    pub fn hold(&mut self, number: u64, held: Held) {
        self.0.insert(number, Entry::Held(held));
    }

    /// Polls request `number`. When it is Ready its future is dropped, and the number has what was granted.
    pub fn poll(&mut self, number: u64, context: &mut Context<'_>) -> Result<String, NoSuch> {
        let Some(Entry::Request(request)) = self.0.get_mut(&number) else {
            return Err(NoSuch);
        };
        let Poll::Ready((answer, held)) = request.future.as_mut().poll(context) else {
            return Ok("Pending".to_string());
        };
        self.0.remove(&number);
        if let Some(held) = held {
            self.hold(number, held);
        }
        Ok(answer)
    }

    /// Drops what stands under `number`.
    pub fn end(&mut self, number: u64) -> Result<(), NoSuch> {
        self.0.remove(&number).map(drop).ok_or(NoSuch)
    }

    /// Drops each request, and leaves the releasers and guards.
    pub fn end_requests(&mut self) {
        self.0.retain(|_, entry| matches!(entry, Entry::Held(_)));
    }

    /// Drops each request of `owner`.
    pub fn end_requests_of(&mut self, owner: Owner) {
        self.0.retain(|_, entry| match entry {
            Entry::Request(request) => request.owner != Some(owner),
            Entry::Held(_) => true,
        });
    }

    /// The releaser or guard that stands under `number`.
    pub fn held(&mut self, number: u64) -> Result<&mut Held, NoSuch> {
        match self.0.get_mut(&number) {
            Some(Entry::Held(held)) => Ok(held),
            Some(Entry::Request(_)) | None => Err(NoSuch),
        }
    }

    /// Takes the releaser or guard that stands under `number`, which is free then.
    pub fn take(&mut self, number: u64) -> Result<Held, NoSuch> {
        self.held(number)?;
        match self.0.remove(&number) {
            Some(Entry::Held(held)) => Ok(held),
            Some(Entry::Request(_)) | None => Err(NoSuch),
        }
    }
}

impl<Held> Drop for Table<'_, Held> {
    fn drop(&mut self) {
        while let Some(entry) = self.0.pop_first() {
            // A releaser that is dropped can panic, as upstream's sum of permits does in a debug build.
            let _ = catch_unwind(AssertUnwindSafe(|| drop(entry)));
        }
    }
}

/// Whether `number` is one, and isn't in use in `numbers`.
pub fn is_free<T>(numbers: &BTreeMap<u64, T>, number: u64) -> Result<(), NoSuch> {
    let free = number < NUMBERS && !numbers.contains_key(&number);
    free.then_some(()).ok_or(NoSuch)
}
