//! Calls that may panic.

use std::any::Any;
use std::panic::{catch_unwind, set_hook, take_hook, AssertUnwindSafe};

fn text_of(cause: Box<dyn Any + Send>) -> String {
    match cause.downcast::<String>() {
        Ok(text) => *text,
        Err(cause) => cause.downcast_ref::<&str>().unwrap().to_string(),
    }
}

/// What a call returns, or the text of its panic.
pub fn outcome<R>(call: impl FnOnce() -> R) -> Result<R, String> {
    catch_unwind(AssertUnwindSafe(call)).map_err(text_of)
}

/// Runs the tests without a line for each panic. If they fail, it panics with their text.
pub fn quietly(tests: impl FnOnce()) {
    let hook = take_hook();
    set_hook(Box::new(|_| ()));
    let result = outcome(tests);
    set_hook(hook);
    if let Err(text) = result {
        panic!("{text}");
    }
}
