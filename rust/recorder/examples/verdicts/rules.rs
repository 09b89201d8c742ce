//! The corrected rules of `docs/DIFFERENCES.md` that a run of upstream can meet.

/// Where a run of upstream isn't one of the primitive.
pub struct Difference<'a> {
    /// The primitive's name.
    pub primitive: &'a str,
    /// The command that is answered otherwise. Of a poll, `poll` and what was asked.
    pub command: &'a str,
    /// The lines before it.
    pub before: &'a [&'a str],
    /// What upstream answered.
    pub recorded: Reply<'a>,
    /// What the primitive answers.
    pub given: Reply<'a>,
}

/// An answer, and the wakers behind it.
pub struct Reply<'a> {
    pub answer: &'a str,
    pub wakers: &'a str,
}

impl<'a> Reply<'a> {
    /// Takes a reply apart.
    pub fn read(text: &'a str) -> Option<Self> {
        let (answer, wakers) = text.split_once(" | ")?;
        Some(Reply { answer, wakers })
    }
}

/// A corrected rule.
pub struct Rule {
    /// What the rule says.
    pub name: &'static str,
    /// Whether this is a difference that it makes.
    pub makes: fn(&Difference<'_>) -> bool,
}

/// The rules, in the order of the documentation.
pub const RULES: [Rule; 12] = [
    Rule {
        name: "`clear` of a channel wakes the senders that wait for room",
        makes: |it| it.is_of(&["channel", "max", "min"]) && it.command == "clear" && it.wakes_more(),
    },
    Rule {
        name: "`PriorityChannel::poll_ready_to_send` is Ready where the channel isn't full",
        makes: |it| it.is_of(&["max", "min"]) && it.command == "poll send-ready" && it.answers("Pending", "Ready"),
    },
    Rule {
        name: "`Signal::reset` keeps the waiter",
        makes: |it| it.is_of(&["signal"]) && it.was_called("reset") && it.wakes_more(),
    },
    Rule {
        name: "the end of the request that is in front of a fair semaphore wakes the one that is in front then",
        makes: |it| it.is_of(&["fair"]) && it.command.starts_with("end ") && it.wakes_more(),
    },
    Rule {
        name: "a grant to the front request of a fair semaphore wakes the new front, also where no permits are left",
        makes: |it| it.is_of(&["fair"]) && it.command.starts_with("poll acquire") && it.wakes_more(),
    },
    Rule {
        name: "the end of a request that waits behind the front of a fair semaphore gives its place back at once",
        makes: |it| it.is_of(&["fair"]) && it.was_called("end") && it.answers("Ready(Err(WaitQueueFull))", "Pending"),
    },
    Rule {
        name: "`release` of a semaphore stops at `usize::MAX`",
        makes: |it| it.is_of(&["greedy", "fair"]) && it.command.starts_with("release ") && it.answers("Panic", "Ok"),
    },
    Rule {
        name: "`consume` of a full pipe wakes the writer that waits for room, and a fill wakes nobody",
        makes: |it| {
            let fills = ["poll fill", "try-fill"].contains(&it.command) && it.wakes_less();
            it.is_of(&["pipe"]) && (fills || (it.command.starts_with("consume ") && it.wakes_more()))
        },
    },
    Rule {
        name: "a read and a write of a pipe go across the wrap of its ring",
        makes: |it| it.is_of(&["pipe"]) && it.recorded.wakers == it.given.wakers && it.moves_less(),
    },
    Rule {
        name: "a subscriber that leaves while it lags lets the messages go that it was the last to read",
        makes: |it| it.is_of(&["pubsub"]) && it.has_lagging_leaver() && (it.wakes_more() || it.has_less_room()),
    },
    Rule {
        name: "`clear` of publishers and subscribers, and of a zero-copy channel, wakes who waits for room",
        makes: |it| it.is_of(&["pubsub", "zerocopy"]) && it.command.starts_with("clear") && it.wakes_more(),
    },
    Rule {
        name: "`consume` of more bytes than a fill shows, `send_done` and `receive_done` where there is no slot don't panic",
        makes: |it| {
            let calls = ["consume", "done-send", "done-receive"];
            calls.iter().any(|call| it.command.starts_with(call)) && it.answers("Panic", "Err(NoSuch)")
        },
    },
];

impl Difference<'_> {
    fn is_of(&self, primitives: &[&str]) -> bool {
        primitives.contains(&self.primitive)
    }

    fn was_called(&self, call: &str) -> bool {
        self.before.iter().any(|line| line.split(' ').next() == Some(call))
    }

    fn answers(&self, recorded: &str, given: &str) -> bool {
        (self.recorded.answer, self.given.answer) == (recorded, given)
    }

    /// Whether upstream gives the right answer, and leaves out who has to be woken.
    fn wakes_more(&self) -> bool {
        self.recorded.answer == self.given.answer && self.recorded.wakers == "-" && self.given.wakers != "-"
    }

    /// Whether upstream gives the right answer, and wakes where nobody has to be woken.
    fn wakes_less(&self) -> bool {
        self.recorded.answer == self.given.answer && self.recorded.wakers != "-" && self.given.wakers == "-"
    }

    /// Whether a subscriber that leaves, here or before, had more available than the channel held.
    fn has_lagging_leaver(&self) -> bool {
        let number = |line: &str, command: &str| {
            let (asked, reply) = line.split_once(" => ")?;
            asked.strip_prefix(command)?;
            reply.split(' ').next()?.parse::<u64>().ok()
        };
        let lags = |lines: &[&str]| match lines {
            [available, len, leave] if leave.starts_with("leave ") => {
                number(available, "available ") > number(len, "len").or(Some(u64::MAX))
            }
            _ => false,
        };
        let leaves = [self.before, &[self.command]].concat();
        leaves.windows(3).any(lags)
    }

    /// Whether upstream waits or refuses where the primitive has room.
    fn has_less_room(&self) -> bool {
        let refused = self.recorded.answer.starts_with("Err(Full(") && self.given.answer == "Ok";
        refused || (self.command == "poll publish" && self.answers("Pending", "Ready")) || self.holds_more()
    }

    /// Whether upstream holds more messages.
    fn holds_more(&self) -> bool {
        let numbers = (self.recorded.answer.parse::<u64>(), self.given.answer.parse::<u64>());
        match numbers {
            (Ok(recorded), Ok(given)) if self.command == "len" => recorded > given,
            (Ok(recorded), Ok(given)) if self.command == "free" => recorded < given,
            _ => false,
        }
    }

    /// Whether upstream reads the first of the bytes that the primitive reads, or writes fewer bytes.
    fn moves_less(&self) -> bool {
        let (Some(recorded), Some(given)) = (inside(self.recorded.answer), inside(self.given.answer)) else {
            return false;
        };
        match (recorded.parse::<usize>(), given.parse::<usize>()) {
            (Ok(recorded), Ok(given)) if self.command.contains("write") => recorded < given,
            _ => given.strip_prefix(recorded).is_some_and(|rest| rest.starts_with(',')),
        }
    }
}

/// Returns what stands in the brackets of an answer.
fn inside(answer: &str) -> Option<&str> {
    answer.split_once('(')?.1.strip_suffix(')')
}
