//! `embassy_sync::semaphore`, recorded.
use std::fmt::Debug;
use std::future::Future;
use std::marker::PhantomData;

use embassy_sync::blocking_mutex::raw::RawMutex;
pub use embassy_sync::semaphore::WaitQueueFull;
use embassy_sync::semaphore::{self as upstream, Semaphore as _};

use super::name::{Phrase, phrase};
use super::request::{Answer, Held, Outcome, Request};
use super::runs::{Recorded, Run};
use super::tape::{Head, Recording, Shown, Table, Tape};

/// What is recorded of a semaphore.
pub trait Permits {
    /// Upstream's semaphore.
    type Inner: upstream::Semaphore<Error: Debug>;

    /// Returns upstream's semaphore.
    fn inner(&self) -> &Self::Inner;

    /// Returns its tape.
    fn tape(&self) -> &Tape;
}

/// `embassy_sync::semaphore::Semaphore`, recorded.
pub trait Semaphore: Sized + Permits {
    /// The error of a request that can't wait.
    type Error;

    /// Waits for so many permits, and takes them.
    fn acquire(&self, permits: usize) -> impl Future<Output = Result<SemaphoreReleaser<'_, Self>, Self::Error>>;

    /// Takes so many permits, where they are there.
    fn try_acquire(&self, permits: usize) -> Option<SemaphoreReleaser<'_, Self>>;

    /// Waits for so many permits, and takes all that are there.
    fn acquire_all(&self, min: usize) -> impl Future<Output = Result<SemaphoreReleaser<'_, Self>, Self::Error>>;

    /// Takes all permits, where so many are there.
    fn try_acquire_all(&self, min: usize) -> Option<SemaphoreReleaser<'_, Self>>;

    /// Adds so many permits.
    fn release(&self, permits: usize);

    /// Replaces the permits.
    fn set(&self, permits: usize);
}

impl<S: Permits> Semaphore for S {
    type Error = <S::Inner as upstream::Semaphore>::Error;

    fn acquire(&self, permits: usize) -> impl Future<Output = Result<SemaphoreReleaser<'_, Self>, Self::Error>> {
        let ask = phrase(format_args!("acquire {permits}"));
        Request::start(self.tape(), &ask, self.inner().acquire(permits), Granted(PhantomData))
    }

    fn try_acquire(&self, permits: usize) -> Option<SemaphoreReleaser<'_, Self>> {
        try_hold(self, "try", permits, || self.inner().try_acquire(permits))
    }

    fn acquire_all(&self, min: usize) -> impl Future<Output = Result<SemaphoreReleaser<'_, Self>, Self::Error>> {
        let ask = phrase(format_args!("acquire-all {min}"));
        Request::start(self.tape(), &ask, self.inner().acquire_all(min), Granted(PhantomData))
    }

    fn try_acquire_all(&self, min: usize) -> Option<SemaphoreReleaser<'_, Self>> {
        try_hold(self, "try-all", min, || self.inner().try_acquire_all(min))
    }

    fn release(&self, permits: usize) {
        self.tape().done(phrase(format_args!("release {permits}")), || self.inner().release(permits));
    }

    fn set(&self, permits: usize) {
        self.tape().done(phrase(format_args!("set {permits}")), || self.inner().set(permits));
    }
}

/// Makes a call that gives a releaser where there are enough permits.
fn try_hold<'a, S: Permits>(
    semaphore: &'a S,
    command: &str,
    permits: usize,
    act: impl FnOnce() -> Option<upstream::SemaphoreReleaser<'a, S::Inner>>,
) -> Option<SemaphoreReleaser<'a, S>> {
    let tape = semaphore.tape();
    let number = tape.take(Table::Requests);
    let command = phrase(format_args!("{command} {} {permits}", Shown(number)));
    let (found, held) = Held::try_hold(tape, number, command, act, |found| match found {
        Some(releaser) => Answer::Holds(phrase(format_args!("Some({})", releaser.permits()))),
        None => Answer::Over(phrase("None")),
    });
    found.map(|releaser| SemaphoreReleaser { inner: Some(releaser), held })
}

/// What becomes of a grant: a releaser.
struct Granted<S>(PhantomData<fn() -> S>);

impl<'a, S: Permits> Outcome<'a, Grant<'a, S>> for Granted<S> {
    type Output = Result<SemaphoreReleaser<'a, S>, <S::Inner as upstream::Semaphore>::Error>;

    fn answer(&self, grant: &Grant<'a, S>) -> Answer {
        match grant {
            Ok(releaser) => Answer::Holds(phrase(format_args!("Ready({})", releaser.permits()))),
            Err(error) => Answer::Over(phrase(format_args!("Ready(Err({error:?}))"))),
        }
    }

    fn hand_over(&self, grant: Grant<'a, S>, held: Held<'a>) -> Self::Output {
        grant.map(|releaser| SemaphoreReleaser { inner: Some(releaser), held })
    }
}

/// What upstream's future answers.
type Grant<'a, S> = Result<
    upstream::SemaphoreReleaser<'a, <S as Permits>::Inner>,
    <<S as Permits>::Inner as upstream::Semaphore>::Error,
>;

/// Permits that are released with it.
pub struct SemaphoreReleaser<'a, S: Semaphore> {
    inner: Option<upstream::SemaphoreReleaser<'a, S::Inner>>,
    held: Held<'a>,
}

impl<S: Semaphore> SemaphoreReleaser<'_, S> {
    /// Returns how many permits there are.
    pub fn permits(&self) -> usize {
        self.inner.as_ref().map_or(0, |inner| inner.permits())
    }

    /// Returns how many permits there are, and doesn't release them.
    pub fn disarm(mut self) -> usize {
        let permits = self.permits();
        let inner = self.inner.take();
        self.held.end("disarm", || inner.map(|inner| inner.disarm()), |_| phrase(permits));
        permits
    }
}

impl<S: Semaphore> Drop for SemaphoreReleaser<'_, S> {
    fn drop(&mut self) {
        if let Some(inner) = self.inner.take() {
            self.held.end("end", || drop(inner), |()| phrase("Ok"));
        }
    }
}

/// `embassy_sync::semaphore::GreedySemaphore`, recorded.
pub struct GreedySemaphore<M: RawMutex> {
    inner: upstream::GreedySemaphore<M>,
    recording: Recording,
    first: usize,
}

impl<M: RawMutex> GreedySemaphore<M> {
    /// Returns a semaphore of so many permits.
    #[track_caller]
    pub const fn new(permits: usize) -> Self {
        let inner = upstream::GreedySemaphore::new(permits);
        GreedySemaphore { inner, recording: Recording::new(), first: permits }
    }
}

impl<M: RawMutex> Default for GreedySemaphore<M> {
    #[track_caller]
    fn default() -> Self {
        Self::new(0)
    }
}

impl<M: RawMutex> Permits for GreedySemaphore<M> {
    type Inner = upstream::GreedySemaphore<M>;

    fn inner(&self) -> &Self::Inner {
        &self.inner
    }

    fn tape(&self) -> &Tape {
        self.recording.tape(|| Head::new("greedy", format_args!("1 {}", self.first)))
    }
}

impl<M: RawMutex> Recorded for GreedySemaphore<M> {
    fn run(&self) -> Run {
        self.tape().run()
    }
}

/// `embassy_sync::semaphore::FairSemaphore`, recorded.
pub struct FairSemaphore<M: RawMutex, const N: usize> {
    inner: upstream::FairSemaphore<M, N>,
    recording: Recording,
    first: usize,
}

impl<M: RawMutex, const N: usize> FairSemaphore<M, N> {
    /// Returns a semaphore of so many permits, at which N requests can wait.
    #[track_caller]
    pub const fn new(permits: usize) -> Self {
        let inner = upstream::FairSemaphore::new(permits);
        FairSemaphore { inner, recording: Recording::new(), first: permits }
    }

    fn head(&self) -> Head {
        let rest: Phrase = phrase(format_args!("{N} {}", self.first));
        Head { rest, ..Head::of_capacity("fair", N) }
    }
}

impl<M: RawMutex, const N: usize> Default for FairSemaphore<M, N> {
    #[track_caller]
    fn default() -> Self {
        Self::new(0)
    }
}

impl<M: RawMutex, const N: usize> Permits for FairSemaphore<M, N> {
    type Inner = upstream::FairSemaphore<M, N>;

    fn inner(&self) -> &Self::Inner {
        &self.inner
    }

    fn tape(&self) -> &Tape {
        self.recording.tape(|| self.head())
    }
}

impl<M: RawMutex, const N: usize> Recorded for FairSemaphore<M, N> {
    fn run(&self) -> Run {
        self.tape().run()
    }
}
