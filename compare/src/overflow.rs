//! Runs the original where its sums may overflow.

use std::any::Any;
use std::panic::{catch_unwind, resume_unwind, set_hook, take_hook, AssertUnwindSafe};
use std::sync::Once;

/// A sum of the original overflowed, so it has no answer to compare.
#[derive(Debug, PartialEq)]
pub struct Overflow;

/// Runs a part of the original and catches an overflow. Any other panic goes on.
/// After an overflow, what the part was lent may be partly changed.
pub fn caught<T>(part: impl FnOnce() -> T) -> Result<T, Overflow> {
    static QUIET: Once = Once::new();
    QUIET.call_once(quiet);
    catch_unwind(AssertUnwindSafe(part)).map_err(|payload| {
        if !is_overflow(&*payload) {
            resume_unwind(payload);
        }
        Overflow
    })
}

/// Keeps the panic messages of overflows off standard error.
fn quiet() {
    let usual = take_hook();
    set_hook(Box::new(move |info| {
        let original = info.location().is_some_and(|at| at.file().contains("pocket-kernel"));
        if !(original && is_overflow(info.payload())) {
            usual(info);
        }
    }));
}

fn is_overflow(payload: &(dyn Any + Send)) -> bool {
    payload.downcast_ref::<&str>().is_some_and(|message| message.ends_with("with overflow"))
}
