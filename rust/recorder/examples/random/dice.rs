//! Chance, and the futures and tasks of a random program.
use std::future::Future;
use std::pin::Pin;
use std::task::{Context, Poll};

use crate::executor::Task;

/// How many futures a program has at a time, and a wide one.
const FUTURES: (usize, usize) = (7, 120);
/// How many tasks poll them, and those of a wide one: these are more than any channel here has subscribers.
const TASKS: (usize, usize) = (3, 20);

/// Numbers that a seed determines, and the tasks that poll.
pub struct Dice {
    state: u64,
    tasks: Vec<Task>,
    /// Whether the program keeps off all that upstream does otherwise.
    pub is_plain: bool,
    /// Whether the program has many steps, futures and tasks.
    pub is_wide: bool,
}

impl Dice {
    /// Returns the dice of this seed.
    pub fn new(seed: u64, is_plain: bool) -> Self {
        let mut dice = Dice { state: seed, tasks: Vec::new(), is_plain, is_wide: false };
        dice.is_wide = dice.below(8) == 0;
        dice.tasks.resize_with(dice.width(TASKS), Task::new);
        dice
    }

    /// Returns the first of two sizes, or the second where the program is wide.
    fn width(&self, (narrow, wide): (usize, usize)) -> usize {
        if self.is_wide { wide } else { narrow }
    }

    /// Returns a number below this one.
    pub fn below(&mut self, limit: u64) -> u64 {
        // (the steps and the mix of splitmix64)
        self.state = self.state.wrapping_add(0x9e37_79b9_7f4a_7c15);
        let mixed = (self.state ^ (self.state >> 30)).wrapping_mul(0xbf58_476d_1ce4_e5b9);
        let mixed = (mixed ^ (mixed >> 27)).wrapping_mul(0x94d0_49bb_1331_11eb);
        (mixed ^ (mixed >> 31)) % limit
    }

    /// Returns a place below this number.
    pub fn place(&mut self, limit: usize) -> usize {
        self.below(limit as u64) as usize
    }

    /// Returns a message: a small number, or one of more than 32 bits.
    pub fn message(&mut self) -> u64 {
        [0, 1, 2, 1 << 32, 1 << 63][self.place(5)]
    }

    /// Returns some bytes for a pipe of this capacity: up to three, or up to three quarters of a large one.
    pub fn bytes(&mut self, capacity: usize) -> Vec<u8> {
        let most = (capacity * 3 / 4).max(3);
        (0..self.place(most + 1)).map(|_| self.below(5) as u8).collect()
    }

    /// Returns whether a coin shows heads.
    pub fn coin(&mut self) -> bool {
        self.below(2) == 0
    }

    /// Returns a task's context.
    pub fn context(&mut self) -> Context<'_> {
        let place = self.place(self.tasks.len());
        self.tasks[place].context()
    }
}

type Kept<'a, K> = Pin<Box<dyn Future<Output = K> + 'a>>;

/// Futures that were made and haven't ended, and what they leave.
pub struct Futures<'a, K> {
    kept: Vec<Kept<'a, K>>,
    room: usize,
}

impl<'a, K> Futures<'a, K> {
    /// Returns no futures of a program over these dice.
    pub fn new(dice: &Dice) -> Self {
        Futures { kept: Vec::new(), room: dice.width(FUTURES) }
    }

    /// Returns these, of which no more than this number are kept.
    pub fn at_most(self, room: usize) -> Self {
        Futures { room: self.room.min(room), ..self }
    }

    /// Returns how many there are.
    pub fn count(&self) -> usize {
        self.kept.len()
    }

    /// Adds the future that this makes, where there is room.
    pub fn add<F: Future<Output = K> + 'a>(&mut self, make: impl FnOnce() -> F) {
        if self.has_room() {
            self.kept.push(Box::pin(make()));
        }
    }

    /// Takes the last of these and adds the future that this makes of it, where there is room and one to take.
    pub fn add_with<H, F: Future<Output = K> + 'a>(&mut self, handles: &mut Vec<H>, make: impl FnOnce(H) -> F) {
        if self.has_room() {
            self.kept.extend(handles.pop().map(|handle| Box::pin(make(handle)) as Kept<'a, K>));
        }
    }

    fn has_room(&self) -> bool {
        self.kept.len() < self.room
    }

    /// Polls one of the futures, and returns what it leaves.
    pub fn poll(&mut self, dice: &mut Dice) -> Option<K> {
        if self.kept.is_empty() {
            return None;
        }
        let place = dice.place(self.kept.len());
        match self.kept[place].as_mut().poll(&mut dice.context()) {
            Poll::Pending => None,
            Poll::Ready(left) => {
                drop(self.kept.swap_remove(place));
                Some(left)
            }
        }
    }

    /// Drops one of the futures.
    pub fn end(&mut self, dice: &mut Dice) {
        if !self.kept.is_empty() {
            let place = dice.place(self.kept.len());
            drop(self.kept.swap_remove(place));
        }
    }
}
