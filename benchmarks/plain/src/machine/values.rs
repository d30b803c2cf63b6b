//! Values by the present texts. What is found on the way is kept with the entries of inner types, so that each is found once.

use super::{Key, Kind, Value, Workbench};
use crate::faults::{faults, Fault};
use crate::library::Library;
use crate::names::Symbol;
use crate::nets::{inner_first, recursive, Composer, Flat, Net};
use crate::plans::{plan, Plan};
use std::collections::HashSet;
use std::rc::Rc;

impl Workbench {
    /// Finds the value of an entry, if it is not known.
    pub(super) fn find_value(&mut self, key: Key) {
        match key.kind {
            Kind::Faults => drop(self.faults(key.unit)),
            Kind::Net => drop(self.net(key.unit)),
            Kind::Deploy => self.find_plan(key),
        }
    }

    fn known(&self, kind: Kind, unit: Symbol) -> Option<&Value> {
        self.entries.get(&Key { kind, unit })?.known.as_ref()
    }

    fn keep(&mut self, key: Key, value: Value) {
        if let Some(entry) = self.entries.get_mut(&key) {
            entry.known = Some(value);
        }
    }

    fn faults(&mut self, unit: Symbol) -> Rc<[Fault]> {
        let kind = Kind::Faults;
        if let Some(Value::Faults(known)) = self.known(kind, unit) {
            return known.clone();
        }
        let held = self.library.get(unit);
        let found: Rc<[Fault]> = held.map_or_else(Vec::new, |held| faults(unit, &held.source, &self.library)).into();
        self.keep(Key { kind, unit }, Value::Faults(found.clone()));
        found
    }

    fn find_plan(&mut self, key: Key) {
        let net = self.net(key.unit);
        let found: Plan = plan(key.unit, net, &self.library, &self.names);
        self.keep(key, Value::Plan(Rc::new(found)));
    }
}

// ---- nets

impl Workbench {
    fn net(&mut self, unit: Symbol) -> Rc<Net> {
        let kind = Kind::Net;
        if let Some(Value::Net(known)) = self.known(kind, unit) {
            return known.clone();
        }
        let found = Rc::new(self.new_net(unit));
        self.keep(Key { kind, unit }, Value::Net(found.clone()));
        found
    }

    fn new_net(&mut self, unit: Symbol) -> Net {
        let is_known = |name| self.inner(name).is_some();
        let rest = self.library.far_but(unit, is_known);
        let order = inner_first(&rest, &self.library, is_known);
        match order {
            // A unit of which a part is absent has faults itself.
            Some(order) if !rest.iter().any(|name| self.has_faults(*name)) => self.composed_in_order(unit, order),
            _ => self.hindered(unit),
        }
    }

    /// Why a unit that rests on faults, or on types that reach themselves, has no flat network.
    fn hindered(&mut self, unit: Symbol) -> Net {
        let kind = Kind::Net;
        let needs = self.needs(Key { kind, unit });
        let parts: HashSet<Symbol> = needs.iter().flat_map(|name| self.library.parts(*name)).copied().collect();
        let is_absent = |name, library: &Library| parts.contains(&name) && library.get(name).is_none();
        let blocked: Vec<Symbol> = needs
            .iter()
            .copied()
            .filter(|name| is_absent(*name, &self.library) || self.has_faults(*name))
            .collect();
        if blocked.is_empty() {
            Net::Recursive(recursive(&needs, &self.library))
        } else {
            Net::Blocked(blocked)
        }
    }

    /// Composes the inner nets that are not known, and the net of the unit, which comes after them.
    fn composed_in_order(&mut self, unit: Symbol, order: Vec<Symbol>) -> Net {
        let kind = Kind::Net;
        for inner in order.into_iter().take_while(|inner| *inner != unit) {
            let key = Key { kind, unit: inner };
            if self.has_key(key) {
                let net = Rc::new(self.composed(inner));
                self.keep(key, Value::Net(net));
            }
        }
        self.composed(unit)
    }

    fn has_faults(&mut self, unit: Symbol) -> bool {
        !self.faults(unit).is_empty()
    }

    /// The net of a unit whose inner nets are known.
    fn composed(&self, unit: Symbol) -> Net {
        let composer = Composer {
            library: &self.library,
            inner: &|name| self.inner(name).flatten(),
        };
        let flat = self.library.unit(unit).and_then(|unit| composer.unit(unit));
        flat.map_or(Net::TooLarge, |flat| Net::Flat(Rc::new(flat)))
    }

    /// The flat network of a type, or none if it is too large, if one of both is known.
    fn inner(&self, name: Symbol) -> Option<Option<Rc<Flat>>> {
        match self.known(Kind::Net, name) {
            Some(Value::Net(net)) => match &**net {
                Net::Flat(flat) => Some(Some(flat.clone())),
                Net::TooLarge => Some(None),
                Net::Blocked(_) | Net::Recursive(_) => None,
            },
            _ => None,
        }
    }
}
