//! Requests: upstream's futures, of which each poll and the end are recorded.
use std::future::Future;
use std::pin::Pin;
use std::task::{Context, Poll};

use super::limits::Stop;
use super::name::{Name, Phrase, phrase};
use super::tape::{Number, Shown, Tape};

/// What a Ready poll says in a run.
pub enum Answer {
    /// The request is over, and its number is free.
    Over(Phrase),
    /// A guard or a releaser has the number.
    Holds(Phrase),
}

/// What becomes of the answer of upstream's future.
pub trait Outcome<'a, Inner> {
    /// What the program gets.
    type Output;

    /// Returns what a run says of it.
    fn answer(&self, inner: &Inner) -> Answer;

    /// Returns what the program gets, with the number where that is held.
    fn hand_over(&self, inner: Inner, held: Held<'a>) -> Self::Output;
}

/// A future of upstream, as a request of a run.
#[must_use = "futures do nothing unless you `.await` or poll them"]
pub struct Request<'a, F, O> {
    tape: &'a Tape,
    number: Option<Number>,
    is_over: bool,
    future: Option<Pin<Box<F>>>,
    outcome: O,
}

impl<'a, F, O> Request<'a, F, O> {
    /// Records that the request was made.
    pub fn start(tape: &'a Tape, ask: &Phrase, future: F, outcome: O) -> Self {
        let number = tape.start(ask);
        Request { tape, number, is_over: false, future: Some(Box::pin(future)), outcome }
    }
}

impl<F, O> Unpin for Request<'_, F, O> {}

impl<'a, F: Future, O: Outcome<'a, F::Output>> Future for Request<'a, F, O> {
    type Output = O::Output;

    fn poll(self: Pin<&mut Self>, cx: &mut Context<'_>) -> Poll<O::Output> {
        let Request { tape, number, is_over, future, outcome } = self.get_mut();
        if *is_over {
            tape.stop(Stop::PolledAgain);
        }
        let future = future.as_mut().expect("only the end of a request takes its future");
        let mut held = Held { tape, number: None };
        let polled = tape.poll(
            *number,
            cx,
            |cx| future.as_mut().poll(cx),
            |value| match outcome.answer(value) {
                Answer::Over(answer) => (answer, *number),
                Answer::Holds(answer) => {
                    held.number = *number;
                    (answer, None)
                }
            },
        );
        polled.map(|value| {
            *is_over = true;
            outcome.hand_over(value, held)
        })
    }
}

impl<F, O> Drop for Request<'_, F, O> {
    fn drop(&mut self) {
        let future = self.future.take();
        if self.is_over {
            return;
        }
        let step = self.tape.step(phrase(format_args!("end {}", Shown(self.number))));
        drop(future);
        step.end(phrase("Ok"), self.number);
    }
}

/// The number of a guard or a releaser.
pub struct Held<'a> {
    tape: &'a Tape,
    number: Option<Number>,
}

impl<'a> Held<'a> {
    /// Makes a call that may give something to hold, which has a number then.
    pub fn try_hold<R>(
        tape: &'a Tape,
        number: Option<Number>,
        command: Phrase,
        act: impl FnOnce() -> R,
        answer: impl FnOnce(&R) -> Answer,
    ) -> (R, Self) {
        let step = tape.step(command);
        let result = act();
        let (answer, held) = match answer(&result) {
            Answer::Over(answer) => (answer, None),
            Answer::Holds(answer) => (answer, number),
        };
        step.end(answer, if held.is_some() { None } else { number });
        (result, Held { tape, number: held })
    }

    /// Makes a call that speaks of the number.
    pub fn call<R>(&self, command: &str, act: impl FnOnce() -> R, answer: impl FnOnce(&R) -> Phrase) -> R {
        self.tape.call(self.command(command), act, answer)
    }

    /// Makes a call that speaks of the number. A run has it only if it panics: else it changes nothing and wakes nobody.
    pub fn record_panic<R>(&self, command: &str, act: impl FnOnce() -> R) -> R {
        let step = self.tape.step(self.command(command));
        let result = act();
        step.leave_out();
        result
    }

    /// Makes a call after which nothing is held.
    pub fn end<R>(&self, command: &str, act: impl FnOnce() -> R, answer: impl FnOnce(&R) -> Phrase) -> R {
        let step = self.tape.step(self.command(command));
        let result = act();
        step.end(answer(&result), self.number);
        result
    }

    fn command(&self, command: &str) -> Phrase {
        phrase(format_args!("{command} {}", Shown(self.number)))
    }
}

/// The answer of a request that tells nothing but that it is Ready.
pub struct Ready;

impl Outcome<'_, ()> for Ready {
    type Output = ();

    fn answer(&self, (): &()) -> Answer {
        Answer::Over(phrase("Ready"))
    }

    fn hand_over(&self, (): (), _held: Held<'_>) {}
}

/// The answer of a request that gives a message, and what a run calls that.
pub struct ReadyWith<T>(pub fn(&T) -> Name);

impl<'v, T> Outcome<'_, &'v T> for ReadyWith<T> {
    type Output = &'v T;

    fn answer(&self, value: &&'v T) -> Answer {
        Answer::Over(phrase("Ready(").message((self.0)(value)).text(")"))
    }

    fn hand_over(&self, value: &'v T, _held: Held<'_>) -> &'v T {
        value
    }
}

impl<T> Outcome<'_, T> for ReadyWith<T> {
    type Output = T;

    fn answer(&self, message: &T) -> Answer {
        Answer::Over(phrase("Ready(").message((self.0)(message)).text(")"))
    }

    fn hand_over(&self, message: T, _held: Held<'_>) -> T {
        message
    }
}
