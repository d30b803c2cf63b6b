//! From each name to the units that mention it, by which a commit finds what it reaches.

use crate::library::{closure, Library, Mentions};
use crate::names::Symbol;
use std::collections::{HashMap, HashSet};

type Users = HashMap<Symbol, HashSet<Symbol>>;

#[derive(Default)]
pub struct Index {
    of_parts: Users,
    of_values: Users,
}

impl Index {
    /// Files the unit under what it mentions now, in place of what it mentioned before.
    pub fn replace(&mut self, unit: Symbol, old: &Mentions, new: &Mentions) {
        move_user(&mut self.of_parts, unit, &old.parts, &new.parts);
        move_user(&mut self.of_values, unit, &old.values, &new.values);
    }

    /// The units near which one of these is, in any order and perhaps more than once.
    pub fn near(&self, units: &[Symbol], library: &Library) -> Vec<Symbol> {
        let carrying = closure(units.iter().copied(), |name| {
            let leads_on = units.contains(&name) || library.is_structure(name);
            users(&self.of_values, name).filter(move |_| leads_on)
        });
        let holding: Vec<Symbol> = carrying.iter().flat_map(|name| users(&self.of_parts, *name)).collect();
        [carrying, holding].concat()
    }

    /// The units that rest on one of these, each once.
    pub fn far(&self, units: &[Symbol]) -> Vec<Symbol> {
        closure(units.iter().copied(), |name| {
            users(&self.of_parts, name).chain(users(&self.of_values, name))
        })
    }
}

fn users(all: &Users, name: Symbol) -> impl Iterator<Item = Symbol> + '_ {
    all.get(&name).into_iter().flatten().copied()
}

fn move_user(all: &mut Users, unit: Symbol, old: &[Symbol], new: &[Symbol]) {
    if old == new {
        return;
    }
    for name in old {
        if let Some(users) = all.get_mut(name) {
            users.remove(&unit);
        }
    }
    for name in new {
        all.entry(*name).or_default().insert(unit);
    }
}
