//! What a call of the layer returns, in one type. So a table can have rows of calls of every kind.

use bakhsney::{integer::Integer, Ratio, Reduced};
use num_traits::ToPrimitive;
use std::cell::Cell;
use std::panic::{catch_unwind, set_hook, take_hook, AssertUnwindSafe};
use std::sync::Once;

/// The two fields of a fraction.
pub type Fields = (i64, i64);

#[derive(Clone, Debug, PartialEq)]
pub enum Answer {
    Panics,
    /// `None`, or an error.
    None,
    Number(i128),
    /// A numerator and a denominator.
    Fields(i128, i128),
    /// The bits of a float.
    Float(u64),
    Truth(bool),
    Text(String),
    List(Vec<Answer>),
}

pub trait Answered {
    fn answer(self) -> Answer;
}

impl Answered for Answer {
    fn answer(self) -> Answer {
        self
    }
}

impl<A: Answered> Answered for Option<A> {
    fn answer(self) -> Answer {
        self.map_or(Answer::None, A::answer)
    }
}

impl<A: Answered, E> Answered for Result<A, E> {
    fn answer(self) -> Answer {
        self.ok().answer()
    }
}

impl<A: Answered> Answered for Vec<A> {
    fn answer(self) -> Answer {
        Answer::List(self.into_iter().map(A::answer).collect())
    }
}

impl<T: Integer> Answered for (T, T) {
    fn answer(self) -> Answer {
        Answer::Fields(self.0.to_i128().unwrap(), self.1.to_i128().unwrap())
    }
}

impl<T: Integer> Answered for Ratio<T> {
    fn answer(self) -> Answer {
        self.into_raw().answer()
    }
}

impl<T: Integer> Answered for Reduced<T> {
    fn answer(self) -> Answer {
        self.into_raw().answer()
    }
}

impl Answered for bool {
    fn answer(self) -> Answer {
        Answer::Truth(self)
    }
}

impl Answered for String {
    fn answer(self) -> Answer {
        Answer::Text(self)
    }
}

impl Answered for f64 {
    fn answer(self) -> Answer {
        Answer::Float(self.to_bits())
    }
}

impl Answered for f32 {
    fn answer(self) -> Answer {
        Answer::Float(self.to_bits().into())
    }
}

macro_rules! numbers {
    ($($T:ty)*) => {$(
        impl Answered for $T {
            fn answer(self) -> Answer {
                Answer::Number(self.to_i128().unwrap())
            }
        }
    )*};
}

numbers! { i8 i16 i32 i64 i128 isize u8 u16 u32 u64 u128 usize }

impl Answered for std::cmp::Ordering {
    fn answer(self) -> Answer {
        Answer::Number(self as i128)
    }
}

/// What the model says, where `None` means that the call panics.
pub fn or_panic<A: Answered>(answer: Option<A>) -> Answer {
    answer.map_or(Answer::Panics, A::answer)
}

thread_local! {
    /// Whether a call of a table runs now.
    static RUNS: Cell<bool> = const { Cell::new(false) };
}

/// What the call returns. If it panics, nothing prints that.
pub fn run(call: impl FnOnce() -> Answer) -> Answer {
    static ONCE: Once = Once::new();
    ONCE.call_once(|| {
        let old = take_hook();
        set_hook(Box::new(move |panic| {
            if !RUNS.with(Cell::get) {
                old(panic);
            }
        }));
    });
    RUNS.with(|runs| runs.set(true));
    let answer = catch_unwind(AssertUnwindSafe(call)).unwrap_or(Answer::Panics);
    RUNS.with(|runs| runs.set(false));
    answer
}
