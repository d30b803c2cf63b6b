//! Names, interfaces, initial values, and the parts of systems.

use super::{usable_types, Code, Judge};
use crate::classes::Class;
use crate::names::Symbol;
use crate::tree::{Constant, Name, System, Type, UnitKind};
use std::collections::HashSet;

impl Judge<'_> {
    pub(super) fn declarations(&mut self, name: Symbol) {
        let unit = self.unit;
        if unit.name.symbol != name {
            self.report(Code::NameDiffers, unit.name.span);
        }
        if unit.kind == UnitKind::Block && unit.chart.is_written && unit.network.is_written {
            self.report(Code::MixedKind, unit.name.span);
        }
        if unit.kind == UnitKind::Structure && self.library.carries(name, name) {
            self.report(Code::StructRecursive, unit.name.span);
        }
        self.duplicates(unit.interface.events.iter().map(|event| event.name));
        self.duplicates(unit.interface.variables.iter().map(|variable| variable.name));
        self.duplicates(unit.chart.states.iter().map(|state| state.name));
        self.duplicates(unit.chart.algorithms.iter().map(|algorithm| algorithm.name));
        self.with_lists();
        for (type_use, constant) in &unit.interface.initial_values {
            self.constant(*type_use, constant);
        }
    }

    /// Reports each name that came before.
    pub(super) fn duplicates(&mut self, names: impl Iterator<Item = Name>) {
        let mut seen = HashSet::new();
        for name in names {
            if !seen.insert(name.symbol) {
                self.report(Code::Duplicate, name.span);
            }
        }
    }

    fn with_lists(&mut self) {
        let interface = &self.unit.interface;
        for event in &interface.events {
            for name in &event.with {
                let variable = interface.variable(name.symbol);
                if !variable.is_some_and(|variable| variable.side == event.side) {
                    self.report(Code::WithUnknown, name.span);
                }
            }
        }
    }

    /// Reports a constant, or elements of a list, where they do not fit the type.
    pub(super) fn constant(&mut self, type_use: Type, constant: &Constant) {
        match (constant, type_use.element) {
            (Constant::One(simple), None) if type_use.class.takes(simple.class) => {}
            (Constant::One(simple), Some(_)) if simple.class == Class::Free => {}
            (Constant::One(simple), _) => self.report(Code::Literal, simple.span),
            (Constant::List(_, span), None) => {
                if type_use.class != Class::Free {
                    self.report(Code::Literal, *span);
                }
            }
            (Constant::List(items, _), Some(element)) => {
                for item in items.iter().filter(|item| !element.takes(item.class)) {
                    self.report(Code::Literal, item.span);
                }
            }
        }
    }

    pub(super) fn system(&mut self, system: &System) {
        self.duplicates(system.applications.iter().map(|application| application.name));
        self.duplicates(system.devices.iter().map(|device| device.name));
        for application in &system.applications {
            let types = usable_types(&application.network, self.library);
            self.network(&application.network, &types);
        }
        for device in &system.devices {
            self.duplicates(device.resources.iter().copied());
        }
        self.mappings(system);
    }

    fn mappings(&mut self, system: &System) {
        let mut paths = HashSet::new();
        for mapping in &system.mappings {
            if !paths.insert(&mapping.path) {
                self.report(Code::MappedTwice, mapping.span);
            }
            if !has_resource(system, mapping.device.symbol, mapping.resource.symbol) {
                let span = mapping.device.span.through(mapping.resource.span);
                self.report(Code::NoSuchResource, span);
            }
        }
    }
}

/// Whether the first device of this name has such a resource.
fn has_resource(system: &System, device: Symbol, resource: Symbol) -> bool {
    let mut devices = system.devices.iter();
    let found = devices.find(|it| it.name.symbol == device);
    found.is_some_and(|it| it.resources.iter().any(|name| name.symbol == resource))
}
