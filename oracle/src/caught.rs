//! Panics of the original code, turned into values.

use crate::world::AnswersRanOut;
use std::any::Any;
use std::cell::Cell;
use std::panic::{AssertUnwindSafe, catch_unwind, set_hook, take_hook};

thread_local! {
    static INSIDE: Cell<bool> = const { Cell::new(false) };
}

/// How the original code ended where it did not return.
pub enum Ended {
    /// A wait or a measurement found no more answers.
    AnswersRanOut,
    /// A panic with this text.
    Panic(String),
}

/// Runs original code and gives what it returned, or how it ended.
pub fn caught<T>(original: impl FnOnce() -> T) -> Result<T, Ended> {
    catch(original).map_err(|payload| {
        if payload.is::<AnswersRanOut>() {
            return Ended::AnswersRanOut;
        }
        let text = match payload.downcast::<String>() {
            Ok(text) => *text,
            Err(payload) => payload.downcast::<&str>().map_or("", |text| *text).into(),
        };
        Ended::Panic(text)
    })
}

/// Runs original code that can only panic with a fixed text.
pub fn caught_text(original: impl FnOnce()) -> Result<(), &'static str> {
    catch(original).map_err(|payload| payload.downcast::<&'static str>().map_or("", |text| *text))
}

/// Keeps panics of original code from printing; all others print as before.
pub fn quiet() {
    let printing = take_hook();
    set_hook(Box::new(move |info| {
        if !INSIDE.get() {
            printing(info);
        }
    }));
}

fn catch<T>(original: impl FnOnce() -> T) -> Result<T, Box<dyn Any + Send>> {
    INSIDE.set(true);
    let result = catch_unwind(AssertUnwindSafe(original));
    INSIDE.set(false);
    result
}
