//! The lists by name; each is made in a file of its own.

mod bus;
mod envelope;
mod forecasts;
mod oscillator;
mod packs;
mod renders;
mod replay;
mod rises;
mod settling;
mod sid;
mod watches;
mod waveforms;
mod writer;

use std::ffi::OsStr;

pub use envelope::{any_state, record_state, FALLING_TO_ZERO};
pub use forecasts::{BREAKS, ENGINES};
pub use replay::{listing_in_one, scores_in_one};
pub use rises::{target, Rates, Rise, Start, PHASES};
pub use writer::{Calls as WriterCalls, MOST_ROOM};

type List = fn() -> Vec<u8>;

const LISTS: [(&str, List); 13] = [
    ("bus", bus::list),
    ("envelope", envelope::list),
    ("forecasts", forecasts::list),
    ("oscillator_calls", oscillator::calls),
    ("oscillator_states", oscillator::states),
    ("replay_listings", replay::listings),
    ("replay_scores", replay::scores),
    ("rises", rises::list),
    ("settling", settling::list),
    ("sid", sid::list),
    ("waveforms", waveforms::list),
    ("writer_answers", writer::answers),
    ("writer_lists", writer::lists),
];

pub fn named(name: &OsStr) -> Option<List> {
    let found = LISTS.iter().find(|(known, _)| name == *known);
    found.map(|(_, list)| *list)
}

/// All names, for the usage line.
pub fn names() -> String {
    LISTS.map(|(name, _)| name).join(" or ")
}
