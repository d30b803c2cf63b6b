//! Which types reach themselves, and an order of those that don't.

use crate::library::Library;
use crate::names::Symbol;
use std::collections::{HashMap, HashSet};

/// Those of the names that reach themselves by parts.
pub fn recursive(names: &[Symbol], library: &Library) -> Vec<Symbol> {
    names.iter().copied().filter(|name| reaches_itself(*name, library)).collect()
}

fn reaches_itself(name: Symbol, library: &Library) -> bool {
    let mut seen = HashSet::new();
    let mut left = vec![name];
    while let Some(next) = left.pop() {
        left.extend(library.parts(next).iter().filter(|part| seen.insert(**part)));
    }
    seen.contains(&name)
}

enum Step {
    Enter(Symbol),
    Leave(Symbol),
}

/// The units and what they reach by parts, each after all of its parts, or none if one of them reaches itself. What the first unit reaches
/// comes first, up to that unit. Names that are done are passed over with all that they rest on, of which none reaches itself.
pub fn inner_first(units: &[Symbol], library: &Library, is_done: impl Fn(Symbol) -> bool) -> Option<Vec<Symbol>> {
    let mut found = Vec::new();
    let mut was_left = HashMap::new();
    let mut steps: Vec<Step> = units.iter().rev().copied().map(Step::Enter).collect();
    while let Some(step) = steps.pop() {
        match step {
            Step::Leave(name) => {
                was_left.insert(name, true);
                found.push(name);
            }
            Step::Enter(name) => match was_left.get(&name) {
                Some(true) => {}
                Some(false) => return None,
                None if is_done(name) => {}
                None => {
                    was_left.insert(name, false);
                    steps.push(Step::Leave(name));
                    steps.extend(library.parts(name).iter().copied().map(Step::Enter));
                }
            },
        }
    }
    Some(found)
}
