//! The net of a subapplication or a system: its flat network, or why it has none.

mod flat;
mod reach;
mod shown;

pub use flat::{Composer, Flat, Link, Spot};
pub use reach::{inner_first, recursive};
pub use shown::Shown;

use crate::names::Symbol;
use std::rc::Rc;

/// The most instances of all depths that a net may hold.
const MOST_INSTANCES: usize = 4096;

pub enum Net {
    /// The names that the unit rests on that are absent or have faults.
    Blocked(Vec<Symbol>),
    /// Those that reach themselves.
    Recursive(Vec<Symbol>),
    TooLarge,
    Flat(Rc<Flat>),
}
