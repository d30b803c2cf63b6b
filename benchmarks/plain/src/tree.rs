//! What the text of a unit says.

use crate::classes::Class;
use crate::names::Symbol;
use crate::tokens::Span;
use std::collections::HashMap;

#[derive(Clone, Copy, Debug)]
pub struct Name {
    pub symbol: Symbol,
    pub span: Span,
}

#[derive(Clone, Copy, PartialEq, Eq, Debug)]
pub enum UnitKind {
    Block,
    Adapter,
    Subapplication,
    System,
    Structure,
}

/// From each name to the place of its first declaration.
pub type Places = HashMap<Symbol, u32>;

pub fn first_places(names: impl Iterator<Item = Symbol>) -> Places {
    let mut places = Places::new();
    for (place, name) in names.enumerate() {
        places.entry(name).or_insert(place as u32);
    }
    places
}

pub struct Unit {
    pub kind: UnitKind,
    pub name: Name,
    pub interface: Interface,
    pub network: Network,
    pub chart: Chart,
    pub system: System,
}

// ---- interfaces

#[derive(Default)]
pub struct Interface {
    pub events: Vec<Event>,
    /// Those of a structure are its fields.
    pub variables: Vec<Variable>,
    pub initial_values: Vec<(Type, Constant)>,
    event_places: Places,
    variable_places: Places,
}

impl Interface {
    /// Makes the tables of names, once all declarations are there.
    pub fn index(&mut self) {
        self.event_places = first_places(self.events.iter().map(|e| e.name.symbol));
        self.variable_places = first_places(self.variables.iter().map(|v| v.name.symbol));
    }

    pub fn event(&self, name: Symbol) -> Option<&Event> {
        let place = self.event_places.get(&name)?;
        self.events.get(*place as usize)
    }

    pub fn variable(&self, name: Symbol) -> Option<&Variable> {
        let place = self.variable_places.get(&name)?;
        self.variables.get(*place as usize)
    }
}

/// Where an event or a variable is declared.
#[derive(Clone, Copy, PartialEq, Eq, Debug)]
pub enum Side {
    Input,
    Output,
    Internal,
}

pub struct Event {
    pub side: Side,
    pub name: Name,
    pub with: Vec<Name>,
}

#[derive(Clone, Copy)]
pub struct Variable {
    pub side: Side,
    pub name: Name,
    pub type_use: Type,
}

/// A type at the place of its use.
#[derive(Clone, Copy)]
pub struct Type {
    pub class: Class,
    /// The class of the elements of an array.
    pub element: Option<Class>,
    /// A length is after the name.
    pub has_length: bool,
    /// The name in it, unless that is elementary.
    pub mentioned: Option<Symbol>,
    /// Its tokens in upper case: types that are spelled alike are the same.
    pub spelling: Symbol,
}

#[derive(Clone, Copy)]
pub struct Simple {
    pub class: Class,
    pub span: Span,
}

pub enum Constant {
    One(Simple),
    List(Vec<Simple>, Span),
}

// ---- networks

#[derive(Default)]
pub struct Network {
    pub instances: Vec<Instance>,
    pub connections: Vec<Connection>,
    /// A section of blocks or connections is there, an empty one too.
    pub is_written: bool,
    instance_places: Places,
}

impl Network {
    pub fn index(&mut self) {
        self.instance_places = first_places(self.instances.iter().map(|i| i.name.symbol));
    }

    /// The place of the instance that the name means.
    pub fn place(&self, name: Symbol) -> Option<usize> {
        self.instance_places.get(&name).map(|place| *place as usize)
    }
}

#[derive(Clone, Copy, PartialEq, Eq, Debug)]
pub enum Role {
    Plug,
    Socket,
    Block,
    Subapplication,
}

impl Role {
    pub fn is_adapter(self) -> bool {
        matches!(self, Role::Plug | Role::Socket)
    }

    /// The kind of unit that its type has to be.
    pub fn wanted(self) -> UnitKind {
        match self {
            Role::Plug | Role::Socket => UnitKind::Adapter,
            Role::Block => UnitKind::Block,
            Role::Subapplication => UnitKind::Subapplication,
        }
    }
}

pub struct Instance {
    pub role: Role,
    pub name: Name,
    pub type_name: Name,
    pub parameters: Vec<(Name, Constant)>,
}

#[derive(Clone, Copy, PartialEq, Eq, PartialOrd, Ord, Debug)]
pub enum Sort {
    Event,
    Data,
    Adapter,
}

/// One name, or two with a point between.
#[derive(Clone, Copy, Debug)]
pub struct End {
    pub first: Symbol,
    pub second: Option<Symbol>,
    pub span: Span,
}

impl End {
    pub fn names(&self) -> (Symbol, Option<Symbol>) {
        (self.first, self.second)
    }
}

pub struct Connection {
    pub sort: Sort,
    pub source: End,
    pub destination: End,
}

// ---- charts and algorithms

#[derive(Default)]
pub struct Chart {
    pub states: Vec<State>,
    pub transitions: Vec<Transition>,
    pub algorithms: Vec<Algorithm>,
    /// A section of states is there, an empty one too.
    pub is_written: bool,
}

pub struct State {
    pub name: Name,
    pub actions: Vec<Action>,
}

pub struct Action {
    pub algorithm: Option<Name>,
    pub event: Option<End>,
}

pub struct Transition {
    pub source: Name,
    pub destination: Name,
    pub event: Option<End>,
    pub guard: Option<Expression>,
}

pub struct Algorithm {
    pub name: Name,
    /// None of them where the language is not ST.
    pub statements: Vec<Statement>,
}

pub enum Statement {
    /// `;`, `EXIT` and `RETURN`, of which nothing is checked.
    Plain,
    Assign {
        to: Reference,
        at: Span,
        value: Expression,
    },
    If {
        branches: Vec<(Expression, Vec<Statement>)>,
        otherwise: Vec<Statement>,
    },
    Case {
        selector: Expression,
        cases: Vec<Vec<Statement>>,
    },
    For {
        variable: Name,
        bounds: Vec<Expression>,
        body: Vec<Statement>,
    },
    While {
        condition: Expression,
        body: Vec<Statement>,
    },
}

pub struct Reference {
    pub name: Name,
    /// Where the last name ends, or the subscripts after it.
    pub end: u32,
    /// What is after the first name.
    pub steps: Box<[Step]>,
}

pub enum Step {
    /// One of the subscripts after a name.
    Subscript(Expression),
    /// A further name.
    Member(Name),
}

pub enum Expression {
    Literal(Simple),
    Reference(Reference),
    Unary {
        operator: Operator,
        at: Span,
        operand: Box<Expression>,
    },
    /// Operands of one strength, from the left. A row is as long as the text has it, so it is no tree of pairs, which could be too deep for
    /// the stack.
    Row {
        first: Box<Expression>,
        rest: Vec<(Operator, Span, Expression)>,
    },
    Parentheses(Box<Expression>, Span),
}

#[derive(Clone, Copy, PartialEq, Eq, Debug)]
pub enum Operator {
    Not,
    /// `OR`, `XOR`, `AND` and `&`.
    Logic,
    Compare,
    Modulo,
    /// `+`, `-`, `*`, `/` and `**`.
    Arithmetic,
}

impl Expression {
    pub fn span(&self) -> Span {
        match self {
            Expression::Literal(literal) => literal.span,
            Expression::Reference(reference) => Span {
                start: reference.name.span.start,
                end: reference.end,
            },
            Expression::Unary { at, operand, .. } => at.through(operand.span()),
            Expression::Row { first, rest } => match rest.last() {
                Some((_, _, last)) => first.span().through(last.span()),
                None => first.span(),
            },
            Expression::Parentheses(_, span) => *span,
        }
    }
}

// ---- systems

#[derive(Default)]
pub struct System {
    pub applications: Vec<Application>,
    pub devices: Vec<Device>,
    pub mappings: Vec<Mapping>,
}

pub struct Application {
    pub name: Name,
    pub network: Network,
}

pub struct Device {
    pub name: Name,
    pub resources: Vec<Name>,
}

pub struct Mapping {
    pub path: Vec<Symbol>,
    pub span: Span,
    pub device: Name,
    pub resource: Name,
}

impl Unit {
    /// The types of its instances, plugs and sockets, in any order and perhaps more than once.
    pub fn parts(&self) -> impl Iterator<Item = Symbol> + '_ {
        let applications = self.system.applications.iter().map(|a| &a.network);
        std::iter::once(&self.network)
            .chain(applications)
            .flat_map(|network| network.instances.iter().map(|i| i.type_name.symbol))
    }

    /// The types of its variables or fields but for elementary ones, in any order and perhaps more than once.
    pub fn values(&self) -> impl Iterator<Item = Symbol> + '_ {
        self.interface.variables.iter().filter_map(|variable| variable.type_use.mentioned)
    }
}
