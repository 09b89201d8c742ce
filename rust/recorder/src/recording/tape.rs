//! The tape of one primitive: what was called, answered and woken, line for line.
use std::collections::BTreeSet;
use std::fmt;
use std::panic::Location;
use std::sync::{Arc, Mutex, OnceLock};
use std::task::{Context, Poll, Waker};

use super::limits::{NAMES, REQUESTS, Stop};
use super::name::{Names, Phrase, phrase};
use super::runs::{self, Run};
use super::tasks::Tasks;
use super::turn::{Turn, Turns, lock};

/// What line 1 of a run says of the primitive, and the limits of such a run.
pub struct Head {
    /// The primitive's name.
    pub kind: &'static str,
    /// What stands behind the name.
    pub rest: Phrase,
    /// Whether messages are compared by their numbers, as in a priority channel.
    pub has_order: bool,
    /// How many requests, guards and releasers a run can have at a time, all together.
    pub requests: usize,
    /// Why no run can have this primitive, if none can. Then the recording stops behind line 1.
    pub limit: Result<(), Stop>,
}

impl Head {
    /// Returns the head of a primitive of this name, behind which `rest` stands.
    pub fn new(kind: &'static str, rest: impl fmt::Display) -> Self {
        Head { kind, rest: phrase(rest), has_order: false, requests: REQUESTS, limit: Ok(()) }
    }

    /// Returns the head of a primitive of this name and capacity.
    pub fn of_capacity(kind: &'static str, capacity: usize) -> Self {
        Head { limit: super::limits::capacity(capacity), ..Self::new(kind, capacity) }
    }

    fn written(&self, names: &mut Names) -> Result<String, Stop> {
        let rest = self.rest.written(names)?;
        Ok(format!("{} {rest}", self.kind))
    }
}

/// The place of a primitive's tape, which is made at its first call.
pub struct Recording {
    origin: &'static Location<'static>,
    tape: OnceLock<Arc<Tape>>,
}

impl Recording {
    /// Returns the place of a primitive that the caller of this call's caller makes.
    #[track_caller]
    pub const fn new() -> Self {
        Recording { origin: Location::caller(), tape: OnceLock::new() }
    }

    /// Returns the tape, with this head where it isn't made yet.
    pub fn tape(&self, head: impl FnOnce() -> Head) -> &Tape {
        self.tape.get_or_init(|| runs::add(self.origin, head()))
    }
}

impl Drop for Recording {
    fn drop(&mut self) {
        if let Some(tape) = self.tape.get() {
            // (what a task's waker keeps alive may have requests at other tapes)
            let wakers = lock(&tape.page).tasks.forget();
            drop(wakers);
        }
    }
}

/// What a run calls by a number. Each table has numbers of its own, from 0 on.
#[derive(Clone, Copy, Debug)]
pub enum Table {
    /// Requests, guards and releasers.
    Requests,
    /// Receivers of a watch, also those that aren't counted.
    Receivers,
    /// Subscribers of a pub-sub channel.
    Subscribers,
    /// Publishers of a pub-sub channel that are counted.
    Publishers,
}

/// A number that is in use.
#[derive(Clone, Copy, Debug)]
pub struct Number {
    table: Table,
    place: usize,
}

impl fmt::Display for Number {
    fn fmt(&self, f: &mut fmt::Formatter<'_>) -> fmt::Result {
        write!(f, "{}", self.place)
    }
}

/// Writes a number. If there is none, the recording has stopped, and this writes nothing.
pub struct Shown(pub Option<Number>);

impl fmt::Display for Shown {
    fn fmt(&self, f: &mut fmt::Formatter<'_>) -> fmt::Result {
        self.0.map_or(Ok(()), |number| number.fmt(f))
    }
}

/// The numbers of a table, which are those below `count`.
struct Numbers {
    count: usize,
    // The numbers below this one have been in use. Those from it on never were.
    used: usize,
    // The numbers that have been in use and are free again.
    freed: BTreeSet<usize>,
}

impl Numbers {
    /// Returns the numbers below this count, all of them free.
    fn new(count: usize) -> Self {
        Numbers { count, used: 0, freed: BTreeSet::new() }
    }

    /// Takes the lowest number that is free, and returns `None` if none is.
    fn take(&mut self) -> Option<usize> {
        // (each freed number is below those that were never in use)
        if self.freed.is_empty() && self.used < self.count {
            self.used += 1;
            return Some(self.used - 1);
        }
        self.freed.pop_first()
    }

    fn free(&mut self, number: usize) {
        self.freed.insert(number);
    }
}

/// The tape of one primitive.
pub struct Tape {
    name: String,
    turns: Turns,
    page: Mutex<Page>,
}

struct Page {
    head: String,
    lines: Vec<String>,
    // (in the order of `Table`)
    numbers: [Numbers; 4],
    tasks: Tasks,
    names: Names,
    stop: Option<Stop>,
}

impl Page {
    /// Stops the recording, where it hasn't stopped.
    fn stop(&mut self, stop: Stop) {
        self.stop.get_or_insert(stop);
        self.tasks.stop_noting();
    }

    /// Takes the lowest number that is free. If none is, the recording stops.
    fn take(&mut self, table: Table) -> Option<Number> {
        let number = self.try_take(table);
        if number.is_none() {
            self.stop(Stop::Numbers);
        }
        number
    }

    /// Takes the lowest number that is free. Returns `None` if none is, or if the recording has stopped.
    fn try_take(&mut self, table: Table) -> Option<Number> {
        if self.stop.is_some() {
            return None;
        }
        self.numbers[table as usize].take().map(|place| Number { table, place })
    }

    fn free(&mut self, number: Option<Number>) {
        if let Some(Number { table, place }) = number {
            self.numbers[table as usize].free(place);
        }
    }

    fn write(&mut self, command: &Phrase, answer: &Phrase, woken: &[u64]) {
        if self.stop.is_some() {
            return;
        }
        match self.line(command, answer, woken) {
            Ok(line) => self.lines.push(line),
            Err(stop) => self.stop(stop),
        }
    }

    fn line(&mut self, command: &Phrase, answer: &Phrase, woken: &[u64]) -> Result<String, Stop> {
        let command = command.written(&mut self.names)?;
        let answer = answer.written(&mut self.names)?;
        let woken: Vec<String> = woken.iter().map(u64::to_string).collect();
        let wakers = if woken.is_empty() { "-".to_string() } else { woken.join(" ") };
        Ok(format!("{command} => {answer} | {wakers}"))
    }
}

impl Tape {
    /// Returns a tape with line 1 alone.
    pub fn new(name: String, head: Head) -> Self {
        let mut names = Names::new(head.has_order);
        let (text, unwritten) = match head.written(&mut names) {
            Ok(text) => (text, None),
            Err(stop) => (head.kind.to_string(), Some(stop)),
        };
        let numbers = [head.requests, NAMES, NAMES, NAMES].map(Numbers::new);
        let mut page = Page { head: text, lines: Vec::new(), numbers, tasks: Tasks::new(), names, stop: None };
        if let Some(stop) = head.limit.err().or(unwritten) {
            page.stop(stop);
        }
        Tape { name, turns: Turns::default(), page: Mutex::new(page) }
    }

    /// Returns what was recorded so far.
    pub fn run(&self) -> Run {
        let page = lock(&self.page);
        let mut text = format!("{}\n", page.head);
        for line in &page.lines {
            text += line;
            text.push('\n');
        }
        if let Some(stop) = &page.stop {
            text += &format!("# stopped at {stop}\n");
        }
        Run { name: self.name.clone(), text, legend: page.names.legend(), stop: page.stop.clone() }
    }

    /// Stops the recording, where it hasn't stopped.
    pub fn stop(&self, stop: Stop) {
        lock(&self.page).stop(stop);
    }

    /// Puts this in place of line 1: what it says is known now.
    pub fn set_head(&self, head: &Head) {
        let mut page = lock(&self.page);
        match head.written(&mut page.names) {
            Ok(text) => page.head = text,
            Err(stop) => page.stop(stop),
        }
    }

    /// Takes the lowest number that is free. If none is, the recording stops. Returns `None` if it has stopped.
    pub fn take(&self, table: Table) -> Option<Number> {
        lock(&self.page).take(table)
    }

    /// Records that a request was made, and returns its number.
    pub fn start(&self, ask: &Phrase) -> Option<Number> {
        let mut page = lock(&self.page);
        let number = page.take(Table::Requests)?;
        let start = phrase(format_args!("start {number} ")).then(ask);
        page.write(&start, &phrase("Ok"), &[]);
        Some(number)
    }

    /// Returns the number of the task that has this waker, and the waker that upstream gets in its place.
    pub fn task(&self, waker: &Waker) -> (u64, Waker) {
        lock(&self.page).tasks.find(waker)
    }

    /// Records a call that wakes nobody. It was made in this turn, or else it changes nothing and has one answer, whatever
    /// other threads call meanwhile.
    pub fn note(&self, command: &Phrase, answer: &Phrase) {
        lock(&self.page).write(command, answer, &[]);
    }

    /// Begins a call: nobody else's is made until it is answered.
    pub fn step(&self, command: Phrase) -> Step<'_> {
        let mut step = Step { tape: self, command, turn: None };
        if lock(&self.page).stop.is_none() {
            step.turn = self.turns.take();
            if step.turn.is_none() {
                self.stop(Stop::Nested);
            }
        }
        step
    }

    /// Makes a call and records it.
    pub fn call<R>(&self, command: Phrase, act: impl FnOnce() -> R, answer: impl FnOnce(&R) -> Phrase) -> R {
        let step = self.step(command);
        let result = act();
        step.end(answer(&result), None);
        result
    }

    /// Makes a call and records that it is done.
    pub fn done(&self, command: Phrase, act: impl FnOnce()) {
        self.call(command, act, |()| phrase("Ok"));
    }

    /// Makes a call for a handle, and gives the handle the lowest number that is free. If no number is free, the
    /// recording stops at a call that upstream grants. A call that it refuses changes nothing, and isn't recorded then.
    pub fn call_for_handle<R, E>(
        &self,
        table: Table,
        command: &str,
        make: impl FnOnce() -> Result<R, E>,
        refusal: impl FnOnce(&E) -> Phrase,
    ) -> Result<(R, Option<Number>), E> {
        let mut step = self.step(phrase(command));
        // (in the turn: else another thread's call could have the last number, and this one get the last handle)
        let number = lock(&self.page).try_take(table);
        if let Some(number) = number {
            step.command = phrase(format_args!("{command} {number}"));
        }
        let made = make();
        match (&made, number) {
            (Ok(_), Some(_)) => step.end(phrase("Ok"), None),
            (Err(error), Some(_)) => step.end(refusal(error), number),
            (Ok(_), None) => self.stop(Stop::Numbers),
            (Err(_), None) => step.leave_out(),
        }
        made.map(|handle| (handle, number))
    }

    /// Makes a poll outside of a future, and records it as the one poll of a request.
    pub fn poll_once<R>(
        &self,
        ask: &Phrase,
        cx: &mut Context<'_>,
        act: impl FnOnce(&mut Context<'_>) -> Poll<R>,
        answer: impl FnOnce(&R) -> Phrase,
    ) -> Poll<R> {
        let number = self.start(ask);
        let polled = self.poll(number, cx, act, |value| (answer(value), number));
        if polled.is_pending() {
            self.step(phrase(format_args!("end {}", Shown(number)))).end(phrase("Ok"), number);
        }
        polled
    }

    /// Makes a poll of a request. `answer` says what is answered, and which number is free then.
    pub fn poll<R>(
        &self,
        number: Option<Number>,
        cx: &mut Context<'_>,
        act: impl FnOnce(&mut Context<'_>) -> Poll<R>,
        answer: impl FnOnce(&R) -> (Phrase, Option<Number>),
    ) -> Poll<R> {
        let (task, waker) = self.task(cx.waker());
        let step = self.step(phrase(format_args!("poll {} {task}", Shown(number))));
        let polled = act(&mut Context::from_waker(&waker));
        match &polled {
            Poll::Pending => step.end(phrase("Pending"), None),
            Poll::Ready(value) => {
                let (answer, frees) = answer(value);
                step.end(answer, frees);
            }
        }
        polled
    }
}

/// A call that is being made. Dropped without an answer, it is recorded as one that panicked.
pub struct Step<'a> {
    tape: &'a Tape,
    command: Phrase,
    turn: Option<Turn<'a>>,
}

impl Step<'_> {
    /// Ends the call: records its answer and who was woken, frees the number, and gives the turn to the next call.
    pub fn end(mut self, answer: Phrase, frees: Option<Number>) {
        self.write(&answer, frees);
    }

    /// Ends a call whose command is known only now.
    pub fn end_as(mut self, command: Phrase, answer: Phrase) {
        self.command = command;
        self.write(&answer, None);
    }

    /// Ends a call that changed nothing and woke nobody, and records nothing of it.
    pub fn leave_out(mut self) {
        self.turn = None;
    }

    fn write(&mut self, answer: &Phrase, frees: Option<Number>) {
        if let Some(turn) = self.turn.take() {
            let mut page = lock(&self.tape.page);
            let woken = page.tasks.take_woken();
            page.write(&self.command, answer, &woken);
            page.free(frees);
            drop(page);
            drop(turn);
        }
    }
}

impl Drop for Step<'_> {
    fn drop(&mut self) {
        self.write(&phrase("Panic"), None);
    }
}

#[cfg(test)]
mod tests {
    use super::*;

    fn woken_by_one_wake(tape: &Tape) -> Vec<u64> {
        tape.task(Waker::noop()).1.wake();
        lock(&tape.page).tasks.take_woken()
    }

    #[test]
    fn wakes_are_noted_until_the_recording_stops() {
        let tape = Tape::new("signal".to_string(), Head::new("signal", 1));
        assert_eq!(woken_by_one_wake(&tape), [0]);
        tape.task(Waker::noop()).1.wake();
        tape.stop(Stop::Nested);
        assert_eq!(woken_by_one_wake(&tape), []);
        assert_eq!(woken_by_one_wake(&Tape::new("pipe".to_string(), Head::of_capacity("pipe", 0))), []);
    }
}
