//! The units with their revisions and texts.

use crate::faults::Body;
use crate::names::{Names, Symbol};
use crate::parser::read;
use crate::tree::{Unit, UnitKind};
use std::collections::{HashMap, HashSet};
use std::rc::Rc;

/// A text that was read. The text is shared apart from the body, so that the history keeps no trees.
pub struct Source {
    pub text: Rc<str>,
    pub body: Body,
    pub mentions: Mentions,
}

/// The units that a unit mentions, each once.
#[derive(Default, PartialEq, Eq)]
pub struct Mentions {
    /// The types of its instances, plugs and sockets.
    pub parts: Box<[Symbol]>,
    /// The types of its variables or fields that are not elementary.
    pub values: Box<[Symbol]>,
}

impl Source {
    pub fn new(text: &str, names: &mut Names) -> Source {
        let body = read(text, names);
        let mentions = body.as_ref().map(Mentions::of).unwrap_or_default();
        let text = Rc::from(text);
        Source { text, body, mentions }
    }

    pub fn unit(&self) -> Option<&Unit> {
        self.body.as_ref().ok()
    }
}

impl Mentions {
    fn of(unit: &Unit) -> Mentions {
        Mentions {
            parts: each_once(unit.parts().collect()),
            values: each_once(unit.values().collect()),
        }
    }
}

fn each_once(mut names: Vec<Symbol>) -> Box<[Symbol]> {
    names.sort_unstable();
    names.dedup();
    names.into()
}

#[derive(Clone)]
pub struct Held {
    /// The number of the commit that put it.
    pub revision: u64,
    pub source: Rc<Source>,
}

#[derive(Default)]
pub struct Library {
    units: HashMap<Symbol, Held>,
}

impl Library {
    pub fn get(&self, unit: Symbol) -> Option<&Held> {
        self.units.get(&unit)
    }

    pub fn len(&self) -> usize {
        self.units.len()
    }

    pub fn put(&mut self, unit: Symbol, held: Held) {
        self.units.insert(unit, held);
    }

    pub fn remove(&mut self, unit: Symbol) {
        self.units.remove(&unit);
    }

    /// The unit of this name, if it is there and not broken.
    pub fn unit(&self, name: Symbol) -> Option<&Unit> {
        self.get(name)?.source.unit()
    }

    pub fn kind(&self, name: Symbol) -> Option<UnitKind> {
        Some(self.unit(name)?.kind)
    }

    /// The types of the instances, plugs and sockets of a unit, each once.
    pub fn parts(&self, name: Symbol) -> &[Symbol] {
        self.get(name).map_or(&[], |held| &held.source.mentions.parts)
    }

    /// The types of the variables or fields of a unit that are not elementary, each once.
    pub fn values(&self, name: Symbol) -> &[Symbol] {
        self.get(name).map_or(&[], |held| &held.source.mentions.values)
    }

    pub fn is_structure(&self, name: Symbol) -> bool {
        self.kind(name) == Some(UnitKind::Structure)
    }

    /// What the units carry, each once: the types of their values, and what the structures among these carry.
    fn carried(&self, units: &[Symbol]) -> Vec<Symbol> {
        let values = units.iter().flat_map(|unit| self.values(*unit));
        closure(values.copied(), |name| {
            let leads_on = self.is_structure(name);
            self.values(name).iter().copied().filter(move |_| leads_on)
        })
    }

    pub fn carries(&self, unit: Symbol, name: Symbol) -> bool {
        self.carried(&[unit]).contains(&name)
    }

    /// The unit, its parts, and what one of these carries, in any order and perhaps more than once.
    pub fn near(&self, name: Symbol) -> Vec<Symbol> {
        let mut near = vec![name];
        near.extend(self.parts(name));
        near.extend(self.carried(&near));
        near
    }

    /// The unit, what it mentions, what that mentions and so on, but for names that are passed over with all that is reached through them alone.
    pub fn far_but(&self, name: Symbol, is_passed_over: impl Fn(Symbol) -> bool) -> Vec<Symbol> {
        closure([name].into_iter(), |next| {
            let mentioned = self.parts(next).iter().chain(self.values(next)).copied();
            mentioned.filter(|name| !is_passed_over(*name))
        })
    }

    /// The unit, what it mentions, what that mentions and so on.
    pub fn far(&self, name: Symbol) -> Vec<Symbol> {
        self.far_but(name, |_| false)
    }
}

/// The names and all that follows from them, each once.
pub fn closure<I: Iterator<Item = Symbol>>(names: impl Iterator<Item = Symbol>, following: impl Fn(Symbol) -> I) -> Vec<Symbol> {
    let mut seen = HashSet::new();
    let mut found: Vec<Symbol> = names.filter(|name| seen.insert(*name)).collect();
    let mut at = 0;
    while let Some(next) = found.get(at).copied() {
        found.extend(following(next).filter(|name| seen.insert(*name)));
        at += 1;
    }
    found
}
