//! The numbers by which messages go.
use std::collections::BTreeMap;
use std::fmt::{Debug, Display};

use super::limits::{self, FIRST_GIVEN, Stop};

/// What a run calls a message.
#[derive(Clone, Debug, PartialEq, Eq)]
pub struct Name(Kind);

#[derive(Clone, Debug, PartialEq, Eq)]
enum Kind {
    Number(i128),
    Text(String),
}

impl Name {
    /// Returns a message's own number. In a priority channel the numbers have to have the order of the messages.
    pub fn number(number: impl Into<i128>) -> Self {
        Name(Kind::Number(number.into()))
    }

    /// Returns the name that this text gives. Equal texts are one number, and numbers go by first appearance.
    pub fn text(text: impl Into<String>) -> Self {
        Name(Kind::Text(text.into()))
    }

    /// Returns the name that the message's `Debug` gives.
    pub fn by_debug<T: Debug + ?Sized>(message: &T) -> Self {
        Self::text(format!("{message:?}"))
    }
}

/// A message that has a name. Numbers that have a sign go by their number plus 2^31, and those of 64 bits by theirs plus
/// 2^63, so that their order stays.
pub trait Named {
    /// Returns what a run calls the message.
    fn name(&self) -> Name;
}

macro_rules! numbered {
    ($plus:expr => $($number:ty),+) => {
        $(impl Named for $number {
            fn name(&self) -> Name {
                Name::number(*self as i128 + $plus)
            }
        })+
    };
}

numbered!(0 => u8, u16, u32, u64, usize, bool);
numbered!(1 << 31 => i8, i16, i32);
numbered!(1 << 63 => i64, isize);

impl Named for () {
    fn name(&self) -> Name {
        Name::number(0_u32)
    }
}

impl Named for char {
    fn name(&self) -> Name {
        Name::number(*self as u32)
    }
}

crate::named_by_debug!(String);

impl<T: Named + ?Sized> Named for &T {
    fn name(&self) -> Name {
        T::name(self)
    }
}

/// The numbers of a run's messages.
pub struct Names {
    texts: BTreeMap<String, u64>,
    // Of messages whose own number no run can say.
    given: BTreeMap<i128, u64>,
    has_numbers: bool,
    has_order: bool,
}

impl Names {
    /// Returns the numbers of no messages. With an order, each message has to have a number of its own.
    pub fn new(has_order: bool) -> Self {
        Names { texts: BTreeMap::new(), given: BTreeMap::new(), has_numbers: false, has_order }
    }

    /// Returns the number of the message that is called so.
    pub fn number(&mut self, name: &Name) -> Result<u64, Stop> {
        match &name.0 {
            Kind::Number(number) => self.own_number(*number),
            Kind::Text(text) => self.number_of_text(text),
        }
    }

    /// Returns each number that isn't a message's own, with what it stands for, in order.
    pub fn legend(&self) -> Vec<(u64, String)> {
        let texts = self.texts.iter().map(|(text, number)| (*number, text.clone()));
        let given = self.given.iter().map(|(own, number)| (*number, own.to_string()));
        let mut legend: Vec<_> = texts.chain(given).collect();
        legend.sort_unstable();
        legend
    }

    fn own_number(&mut self, number: i128) -> Result<u64, Stop> {
        if self.has_order {
            limits::message(number)?;
        }
        self.has_numbers = true;
        if !self.texts.is_empty() {
            return Err(Stop::MixedNames);
        }
        match u64::try_from(number) {
            Ok(own) if self.has_order || own < FIRST_GIVEN => Ok(own),
            _ => self.given_number(number),
        }
    }

    fn given_number(&mut self, number: i128) -> Result<u64, Stop> {
        let next = FIRST_GIVEN + self.given.len() as u64;
        match self.given.get(&number) {
            Some(given) => Ok(*given),
            // (the greatest number has none above it)
            None if next == u64::MAX => Err(Stop::Message(number)),
            None => Ok(*self.given.entry(number).or_insert(next)),
        }
    }

    fn number_of_text(&mut self, text: &str) -> Result<u64, Stop> {
        if self.has_order {
            return Err(Stop::NoOrder);
        }
        if self.has_numbers {
            return Err(Stop::MixedNames);
        }
        let next = self.texts.len() as u64;
        Ok(*self.texts.entry(text.to_string()).or_insert(next))
    }
}

/// A command or an answer, in which messages stand by their names.
#[derive(Clone, Debug, Default)]
pub struct Phrase(Vec<Piece>);

#[derive(Clone, Debug)]
enum Piece {
    Text(String),
    Message(Name),
    Above(Name),
    Change(Name, Name),
    Bytes(Vec<u8>),
}

/// Returns a phrase that begins with this text.
pub fn phrase(text: impl Display) -> Phrase {
    Phrase::default().text(text)
}

impl Phrase {
    /// Appends a text or a number.
    pub fn text(mut self, text: impl Display) -> Self {
        self.0.push(Piece::Text(text.to_string()));
        self
    }

    /// Appends a message.
    pub fn message(mut self, name: Name) -> Self {
        self.0.push(Piece::Message(name));
        self
    }

    /// Appends the number above a message's.
    pub fn above(mut self, name: Name) -> Self {
        self.0.push(Piece::Above(name));
        self
    }

    /// Appends what has to be added to one message's number, modulo 2^64, for another's.
    pub fn change(mut self, from: Name, to: Name) -> Self {
        self.0.push(Piece::Change(from, to));
        self
    }

    /// Appends bytes, with a comma between, or `-` for none.
    pub fn bytes(mut self, bytes: &[u8]) -> Self {
        self.0.push(Piece::Bytes(bytes.to_vec()));
        self
    }

    /// Appends another phrase.
    pub fn then(mut self, phrase: &Phrase) -> Self {
        self.0.extend_from_slice(&phrase.0);
        self
    }

    /// Returns the text, where the messages and the bytes are within the limits.
    pub fn written(&self, names: &mut Names) -> Result<String, Stop> {
        self.0.iter().map(|piece| piece.written(names)).collect()
    }
}

impl Piece {
    fn written(&self, names: &mut Names) -> Result<String, Stop> {
        match self {
            Piece::Text(text) => Ok(text.clone()),
            Piece::Message(name) => Ok(names.number(name)?.to_string()),
            Piece::Above(name) => {
                let above = i128::from(names.number(name)?) + 1;
                limits::message(above).map(|()| above.to_string())
            }
            Piece::Change(from, to) => {
                let from = names.number(from)?;
                Ok(names.number(to)?.wrapping_sub(from).to_string())
            }
            Piece::Bytes(bytes) if bytes.len() > limits::ROW => Err(Stop::Bytes(bytes.len())),
            Piece::Bytes(bytes) if bytes.is_empty() => Ok("-".to_string()),
            Piece::Bytes(bytes) => Ok(bytes.iter().map(u8::to_string).collect::<Vec<_>>().join(",")),
        }
    }
}
