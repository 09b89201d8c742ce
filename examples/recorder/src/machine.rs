//! A primitive of upstream with its requests, which answers one command at a time.

use std::convert::Infallible;
use std::panic::{catch_unwind, AssertUnwindSafe};
use std::task::Context;

use crate::answer;
use crate::table::{NoSuch, Request, Table};
use crate::tasks::Tasks;
use crate::words::Words;

/// What stands under a number after a Ready answer, where nothing does.
pub type Nothing = Infallible;

/// A primitive of upstream, by the commands that the script language has for it.
pub trait Primitive<'a>: Sized {
    /// What `start` can ask for.
    type Ask: Clone;
    /// The commands that aren't `start`, `poll` and `end`.
    type Call: Clone;
    /// What a number stands for after its request was granted: a releaser or a guard.
    type Held: 'a;

    /// The ask that `words` say.
    fn read_ask(words: Words<'_>) -> Option<Self::Ask>;

    /// The command that `words` say.
    fn read_call(words: Words<'_>) -> Option<Self::Call>;

    /// Makes the future that is asked for, and doesn't poll it.
    fn request(&mut self, ask: Self::Ask) -> Result<Request<'a, Self::Held>, NoSuch>;

    /// Answers a command. `table` has the requests, releasers and guards.
    fn call(
        &mut self,
        call: Self::Call,
        table: &mut Table<'a, Self::Held>,
    ) -> Result<String, NoSuch>;

    /// Is told of each command before it is answered.
    fn hear(&mut self, _command: &CommandOf<'a, Self>) {}
}

/// A command of the primitive `P`.
pub type CommandOf<'a, P> = Command<<P as Primitive<'a>>::Ask, <P as Primitive<'a>>::Call>;

/// A line of a script behind line 1.
#[derive(Clone)]
pub enum Command<Ask, Call> {
    /// Makes a request.
    Start(u64, Ask),
    /// Polls a request with a task's waker.
    Poll(u64, u64),
    /// Drops a request, a releaser or a guard.
    End(u64),
    /// A command that only this primitive has.
    Call(Call),
}

impl<Ask, Call> Command<Ask, Call> {
    /// The command that a line says. `None` where it says none of the primitive `P`.
    pub fn read<'a, P: Primitive<'a, Ask = Ask, Call = Call>>(line: &[u8]) -> Option<Self> {
        let mut words = Words::of(line)?;
        match words.name()? {
            "start" => Some(Command::Start(words.number()?, P::read_ask(words)?)),
            "poll" => {
                let poll = Command::Poll(words.number()?, words.number()?);
                words.end(poll)
            }
            "end" => {
                let end = Command::End(words.number()?);
                words.end(end)
            }
            _ => P::read_call(Words::of(line)?).map(Command::Call),
        }
    }
}

/// A primitive with the requests and the tasks of a run.
pub struct Machine<'a, P: Primitive<'a>> {
    primitive: P,
    table: Table<'a, P::Held>,
    tasks: Tasks,
}

impl<'a, P: Primitive<'a>> Machine<'a, P> {
    /// The machine over a primitive that nobody has called.
    pub fn new(primitive: P) -> Self {
        Machine {
            primitive,
            table: Table::new(),
            tasks: Tasks::default(),
        }
    }

    /// Answers a command: the answer, and who was woken meanwhile. Where upstream panics the answer is `Panic`.
    pub fn step(&mut self, command: CommandOf<'a, P>) -> (String, Vec<u64>) {
        let answer = catch_unwind(AssertUnwindSafe(|| self.answer(command)));
        let answer = match answer {
            Ok(Ok(answer)) => answer,
            Ok(Err(NoSuch)) => "Err(NoSuch)".to_string(),
            Err(_) => "Panic".to_string(),
        };
        (answer, self.tasks.take_woken())
    }

    /// Drops each request.
    pub fn end_requests(&mut self) {
        self.table.end_requests();
    }

    fn answer(&mut self, command: CommandOf<'a, P>) -> Result<String, NoSuch> {
        self.primitive.hear(&command);
        match command {
            Command::Start(number, ask) => {
                self.table.free(number)?;
                let request = self.primitive.request(ask)?;
                self.table.start(number, request);
                Ok(answer::done())
            }
            Command::Poll(number, task) => {
                let waker = self.tasks.waker(task);
                self.table.poll(number, &mut Context::from_waker(&waker))
            }
            Command::End(number) => self.table.end(number).map(|()| answer::done()),
            Command::Call(call) => self.primitive.call(call, &mut self.table),
        }
    }
}
