//! Names of messages that have no number and whose types are of `core`: they go by their `Debug`.
use core::fmt::Debug;

use crate::{Name, Named, named_by_debug};

named_by_debug!(str, f32, f64);

macro_rules! named_with_parts {
    ($([$($part:ident),+] $message:ty),+) => {
        $(impl<$($part: Debug),+> Named for $message {
            fn name(&self) -> Name {
                Name::by_debug(self)
            }
        })+
    };
}

named_with_parts!([T] Option<T>, [T] [T], [A] (A,), [A, B] (A, B), [A, B, C] (A, B, C), [A, B, C, D] (A, B, C, D));

impl<T: Debug, const N: usize> Named for [T; N] {
    fn name(&self) -> Name {
        Name::by_debug(self)
    }
}
