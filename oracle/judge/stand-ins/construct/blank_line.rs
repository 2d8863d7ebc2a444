//! Stands in for `construct/blank_line.rs`: a line with nothing but spaces and
//! tabs, up to its line ending or the end of the page.

use crate::construct::partial_space_or_tab::space_or_tab;
use crate::state::{Name as StateName, State};
use crate::tokenizer::Tokenizer;

/// At the start of the line: pass spaces and tabs, if there are any.
pub fn start(tokenizer: &mut Tokenizer) -> State {
    match tokenizer.current {
        Some(b'\t' | b' ') => {
            tokenizer.attempt(State::Next(StateName::BlankLineAfter), State::Nok);
            State::Retry(space_or_tab(tokenizer))
        }
        _ => State::Retry(StateName::BlankLineAfter),
    }
}

/// After them: the line must be over.
pub fn after(tokenizer: &mut Tokenizer) -> State {
    match tokenizer.current {
        None | Some(b'\n') => State::Ok,
        Some(_) => State::Nok,
    }
}
