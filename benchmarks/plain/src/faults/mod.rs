//! The faults of a unit, by its text and those of the units near it.

mod charts;
mod declarations;
mod expressions;
mod networks;

use crate::library::{Library, Source};
use crate::names::Symbol;
use crate::tokens::Span;
use crate::tree::{End, Event, Network, Role, Side, Unit, UnitKind, Variable};

#[derive(Clone, Copy, PartialEq, Eq, PartialOrd, Ord, Debug)]
pub enum Code {
    Syntax,
    NameDiffers,
    Duplicate,
    MixedKind,
    UnknownType,
    WrongKind,
    WithUnknown,
    StateUnknown,
    EventUnknown,
    AlgorithmUnknown,
    VariableUnknown,
    Class,
    PortUnknown,
    PortSide,
    DataType,
    SecondSource,
    SecondAdapter,
    PassThrough,
    ParameterUnknown,
    Literal,
    MappedTwice,
    NoSuchResource,
    MemberUnknown,
    StructRecursive,
}

impl Code {
    pub fn word(self) -> &'static str {
        match self {
            Code::Syntax => "SYNTAX",
            Code::NameDiffers => "NAME_DIFFERS",
            Code::Duplicate => "DUPLICATE",
            Code::MixedKind => "MIXED_KIND",
            Code::UnknownType => "UNKNOWN_TYPE",
            Code::WrongKind => "WRONG_KIND",
            Code::WithUnknown => "WITH_UNKNOWN",
            Code::StateUnknown => "STATE_UNKNOWN",
            Code::EventUnknown => "EVENT_UNKNOWN",
            Code::AlgorithmUnknown => "ALGORITHM_UNKNOWN",
            Code::VariableUnknown => "VARIABLE_UNKNOWN",
            Code::Class => "CLASS",
            Code::PortUnknown => "PORT_UNKNOWN",
            Code::PortSide => "PORT_SIDE",
            Code::DataType => "DATA_TYPE",
            Code::SecondSource => "SECOND_SOURCE",
            Code::SecondAdapter => "SECOND_ADAPTER",
            Code::PassThrough => "PASS_THROUGH",
            Code::ParameterUnknown => "PARAMETER_UNKNOWN",
            Code::Literal => "LITERAL",
            Code::MappedTwice => "MAPPED_TWICE",
            Code::NoSuchResource => "NO_SUCH_RESOURCE",
            Code::MemberUnknown => "MEMBER_UNKNOWN",
            Code::StructRecursive => "STRUCT_RECURSIVE",
        }
    }
}

/// Ordered by the place and then by the code.
#[derive(Clone, Copy, PartialEq, Eq, PartialOrd, Ord, Debug)]
pub struct Fault {
    pub span: Span,
    pub code: Code,
}

/// What reading a text gave.
pub type Body = Result<Unit, Span>;

/// All faults of the unit of this name, in order, each once.
pub fn faults(name: Symbol, source: &Source, library: &Library) -> Vec<Fault> {
    let unit = match &source.body {
        Ok(unit) => unit,
        Err(span) => {
            let code = Code::Syntax;
            return vec![Fault { span: *span, code }];
        }
    };
    let mut judge = Judge {
        unit,
        library,
        types: usable_types(&unit.network, library),
        faults: Vec::new(),
    };
    judge.unit(name);
    let mut faults = judge.faults;
    faults.sort_unstable();
    faults.dedup();
    faults
}

/// For each instance its type, if that is usable: present, not broken and of the wanted kind.
fn usable_types<'a>(network: &Network, library: &'a Library) -> Vec<Option<&'a Unit>> {
    let types = network.instances.iter().map(|instance| {
        let unit = library.unit(instance.type_name.symbol)?;
        (unit.kind == instance.role.wanted()).then_some(unit)
    });
    types.collect()
}

struct Judge<'a> {
    unit: &'a Unit,
    library: &'a Library,
    /// The usable types of the unit's own instances.
    types: Vec<Option<&'a Unit>>,
    faults: Vec<Fault>,
}

/// What a name means that is sought in a type.
enum Sought<T> {
    /// The type is not usable, so the name is not checked.
    Unjudged,
    Unknown,
    Found(T),
}

impl<T> From<Option<T>> for Sought<T> {
    fn from(found: Option<T>) -> Sought<T> {
        found.map_or(Sought::Unknown, Sought::Found)
    }
}

impl<'a> Judge<'a> {
    fn report(&mut self, code: Code, span: Span) {
        self.faults.push(Fault { span, code });
    }

    fn unit(&mut self, name: Symbol) {
        let unit = self.unit;
        self.declarations(name);
        if unit.kind == UnitKind::System {
            self.system(&unit.system);
        } else {
            let types = std::mem::take(&mut self.types);
            self.network(&unit.network, &types);
            self.types = types;
        }
        self.chart(&unit.chart);
        for algorithm in &unit.chart.algorithms {
            self.statements(&algorithm.statements);
        }
    }

    /// The role of the own plug or socket of this name, and its type.
    fn adapter(&self, name: Symbol) -> Option<(Role, Option<&'a Unit>)> {
        let place = self.unit.network.place(name)?;
        let role = self.unit.network.instances[place].role;
        role.is_adapter().then(|| (role, self.types[place]))
    }

    /// What `p.X` means, p an own plug or socket.
    fn port<T>(&self, plug: Symbol, find: impl Fn(Role, &'a Unit) -> Option<T>) -> Sought<T> {
        match self.adapter(plug) {
            None => Sought::Unknown,
            Some((_, None)) => Sought::Unjudged,
            Some((role, Some(unit))) => find(role, unit).into(),
        }
    }

    fn port_variable(&self, plug: Symbol, name: Symbol) -> Sought<&'a Variable> {
        self.port(plug, |_, unit| unit.interface.variable(name))
    }

    fn port_event(&self, plug: Symbol, name: Symbol) -> Sought<(Role, &'a Event)> {
        self.port(plug, |role, unit| Some((role, unit.interface.event(name)?)))
    }

    /// Whether an end is an event of this side, or is not checked. Seen from the unit, the sides of a socket's type are turned round.
    fn is_event(&self, end: &End, side: Side) -> bool {
        let Some(name) = end.second else {
            return self.unit.interface.event(end.first).is_some_and(|event| event.side == side);
        };
        match self.port_event(end.first, name) {
            Sought::Unjudged => true,
            Sought::Unknown => false,
            Sought::Found((Role::Plug, event)) => event.side == side,
            Sought::Found((_, event)) => event.side != side,
        }
    }
}
