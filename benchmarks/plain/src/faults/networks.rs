//! Instances and connections.

use super::{Code, Judge};
use crate::classes::Class;
use crate::names::Symbol;
use crate::tree::{Connection, End, Instance, Network, Role, Side, Sort, Type, Unit, UnitKind};
use std::collections::HashSet;

/// What an end of a connection means.
enum Judged {
    /// A port of the right side.
    Port(Port),
    Fault(Code),
    /// It rests on a type that is not usable.
    Unjudged,
}

#[derive(Clone, Copy)]
enum Port {
    Event,
    Data(Type),
    /// The name of the adapter's type.
    Adapter(Symbol),
}

/// A network with the usable types of its instances.
#[derive(Clone, Copy)]
struct Scope<'a, 'n> {
    network: &'n Network,
    types: &'n [Option<&'a Unit>],
}

/// Names of ends that came before.
#[derive(Default)]
struct Seen {
    destinations: HashSet<(Symbol, Option<Symbol>)>,
    adapter_ends: HashSet<(Symbol, Option<Symbol>)>,
}

impl<'a> Judge<'a> {
    /// Checks the network of the unit, or that of an application of a system.
    pub(super) fn network(&mut self, network: &Network, types: &[Option<&'a Unit>]) {
        self.duplicates(network.instances.iter().map(|instance| instance.name));
        for (instance, unit) in network.instances.iter().zip(types) {
            self.instance(instance, *unit);
        }
        let scope = Scope { network, types };
        let mut seen = Seen::default();
        for connection in &network.connections {
            self.connection(scope, connection);
            self.repeats(connection, &mut seen);
        }
    }

    fn instance(&mut self, instance: &Instance, unit: Option<&'a Unit>) {
        self.duplicates(instance.parameters.iter().map(|(name, _)| *name));
        let Some(unit) = unit else {
            let is_read = self.library.unit(instance.type_name.symbol).is_some();
            let code = if is_read { Code::WrongKind } else { Code::UnknownType };
            self.report(code, instance.type_name.span);
            return;
        };
        for (name, constant) in &instance.parameters {
            match unit.interface.variable(name.symbol) {
                Some(variable) if variable.side == Side::Input => self.constant(variable.type_use, constant),
                _ => self.report(Code::ParameterUnknown, name.span),
            }
        }
    }

    fn connection(&mut self, scope: Scope<'a, '_>, connection: &Connection) {
        let source = self.end(scope, connection.sort, &connection.source, true);
        let destination = self.end(scope, connection.sort, &connection.destination, false);
        for (end, judged) in [(&connection.source, &source), (&connection.destination, &destination)] {
            if let Judged::Fault(code) = judged {
                self.report(*code, end.span);
            }
        }
        if let (Judged::Port(from), Judged::Port(to)) = (source, destination) {
            self.joined(connection, from, to);
        }
    }

    /// Checks two ports of the right sides.
    fn joined(&mut self, connection: &Connection, from: Port, to: Port) {
        if !are_same(from, to) {
            self.report(Code::DataType, connection.destination.span);
        }
        let are_own = connection.source.second.is_none() && connection.destination.second.is_none();
        if self.unit.kind == UnitKind::Subapplication && are_own {
            let span = connection.source.span.through(connection.destination.span);
            self.report(Code::PassThrough, span);
        }
    }

    fn repeats(&mut self, connection: &Connection, seen: &mut Seen) {
        let (source, destination) = (&connection.source, &connection.destination);
        match connection.sort {
            Sort::Event => {}
            Sort::Data => {
                if !seen.destinations.insert(destination.names()) {
                    self.report(Code::SecondSource, destination.span);
                }
            }
            Sort::Adapter => {
                for end in [source, destination] {
                    if !seen.adapter_ends.insert(end.names()) {
                        self.report(Code::SecondAdapter, end.span);
                    }
                }
            }
        }
    }
}

fn are_same(from: Port, to: Port) -> bool {
    match (from, to) {
        (Port::Data(a), Port::Data(b)) => a.spelling == b.spelling || a.class == Class::Free || b.class == Class::Free,
        (Port::Adapter(a), Port::Adapter(b)) => a == b,
        _ => true,
    }
}

// ---- ends

const UNKNOWN: Judged = Judged::Fault(Code::PortUnknown);

fn on_right_side(is_right: bool, port: Port) -> Judged {
    if is_right {
        Judged::Port(port)
    } else {
        Judged::Fault(Code::PortSide)
    }
}

/// A port of a unit, which has to be of this side.
fn port_of(unit: &Unit, sort: Sort, name: Symbol, side: Side) -> Judged {
    match sort {
        Sort::Event => match unit.interface.event(name) {
            None => UNKNOWN,
            Some(event) => on_right_side(event.side == side, Port::Event),
        },
        Sort::Data => match unit.interface.variable(name) {
            Some(variable) if variable.side != Side::Internal => on_right_side(variable.side == side, Port::Data(variable.type_use)),
            _ => UNKNOWN,
        },
        // Going out of an instance an adapter is a plug.
        Sort::Adapter if side == Side::Output => adapter_of(&unit.network, name, Role::Plug),
        Sort::Adapter => adapter_of(&unit.network, name, Role::Socket),
    }
}

/// A plug or socket of a network, which has to be of this role.
fn adapter_of(network: &Network, name: Symbol, role: Role) -> Judged {
    match network.place(name).map(|place| &network.instances[place]) {
        Some(instance) if instance.role.is_adapter() => on_right_side(instance.role == role, Port::Adapter(instance.type_name.symbol)),
        _ => UNKNOWN,
    }
}

/// The side that a port has as it is seen from outside.
fn outer_side(is_source: bool) -> Side {
    if is_source {
        Side::Output
    } else {
        Side::Input
    }
}

impl<'a> Judge<'a> {
    fn end(&self, scope: Scope<'a, '_>, sort: Sort, end: &End, is_source: bool) -> Judged {
        match end.second {
            None if self.unit.kind == UnitKind::System => UNKNOWN,
            // What comes into the unit goes out of the end.
            None => port_of(self.unit, sort, end.first, outer_side(!is_source)),
            Some(name) => self.inner_end(scope, sort, end.first, name, is_source),
        }
    }

    fn inner_end(&self, scope: Scope<'a, '_>, sort: Sort, instance: Symbol, name: Symbol, is_source: bool) -> Judged {
        let Some(place) = scope.network.place(instance) else {
            return UNKNOWN;
        };
        let role = scope.network.instances[place].role;
        if role.is_adapter() && (self.unit.kind != UnitKind::Block || sort == Sort::Adapter) {
            return UNKNOWN;
        }
        // Inside the unit, a plug means the inputs of its type as sources, a socket for the outputs.
        let side = outer_side(is_source != (role == Role::Plug));
        match scope.types[place] {
            None => Judged::Unjudged,
            Some(unit) => port_of(unit, sort, name, side),
        }
    }
}
