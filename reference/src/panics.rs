//! A panic caught, so that the one who asked can name the case that made it.

use std::panic::{catch_unwind, AssertUnwindSafe};

/// What some work gives, or the message of its panic. The panic has been written to standard error by then,
/// with its place in the code.
pub fn caught<T>(work: impl FnOnce() -> T) -> Result<T, String> {
    catch_unwind(AssertUnwindSafe(work)).map_err(|payload| {
        let text = payload.downcast_ref::<&str>().map(|text| text.to_string());
        let text = text.or_else(|| payload.downcast_ref::<String>().cloned());
        text.unwrap_or_else(|| "a panic without a message".to_string())
    })
}
