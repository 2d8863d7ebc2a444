//! Stands in for the crate `log`, to which the given tokenizer tells each
//! state that it calls. What it tells is kept while somebody listens, so that
//! the states of a run are known without a change to a given file.

use std::cell::RefCell;
use std::fmt::Arguments;

thread_local! {
    static TOLD: RefCell<Option<Vec<String>>> = const { RefCell::new(None) };
}

/// Steps of the machine.
#[macro_export]
macro_rules! trace {
    ($($words:tt)*) => {
        $crate::tell(format_args!($($words)*))
    };
}

/// Events: those are in the answers already.
#[macro_export]
macro_rules! debug {
    ($($words:tt)*) => {};
}

/// Keep a line, if somebody listens.
pub fn tell(line: Arguments) {
    TOLD.with_borrow_mut(|told| {
        if let Some(lines) = told {
            lines.push(line.to_string());
        }
    });
}

/// What is told during a call.
pub fn listen(call: impl FnOnce()) -> Vec<String> {
    TOLD.set(Some(vec![]));
    call();
    TOLD.take().unwrap_or_default()
}
