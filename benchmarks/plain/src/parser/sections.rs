//! Sections of interfaces and networks.

use super::{Parsed, Parser};
use crate::classes::{is_elementary, Class};
use crate::keywords::{Keyword, Sign};
use crate::names::Symbol;
use crate::tokens::{Kind, Span};
use crate::tree::{Connection, Constant, Event, Instance, Interface, Name, Network, Role, Side, Simple, Sort, Type, Variable};

// ---- interfaces

impl Parser<'_> {
    /// Reads a section of events or of data inputs or outputs, if one begins with this word.
    pub(super) fn port_section(&mut self, word: Keyword, interface: &mut Interface) -> Parsed<bool> {
        match word {
            Keyword::EventInput => self.events(Side::Input, interface)?,
            Keyword::EventOutput => self.events(Side::Output, interface)?,
            Keyword::VarInput => self.variables(Side::Input, interface)?,
            Keyword::VarOutput => self.variables(Side::Output, interface)?,
            _ => return Ok(false),
        }
        Ok(true)
    }

    pub(super) fn internal_variables(&mut self, interface: &mut Interface) -> Parsed<()> {
        self.variables(Side::Internal, interface)
    }

    fn events(&mut self, side: Side, interface: &mut Interface) -> Parsed<()> {
        self.take();
        while self.is_name() {
            let event = self.event(side)?;
            interface.events.push(event);
        }
        self.need_word(Keyword::EndEvent)?;
        Ok(())
    }

    fn event(&mut self, side: Side) -> Parsed<Event> {
        let name = self.name()?;
        if self.eat_sign(Sign::Colon) {
            self.name()?;
        }
        let mut with = Vec::new();
        if self.eat_word(Keyword::With) {
            with = self.name_list()?;
        }
        self.need_sign(Sign::Semicolon)?;
        Ok(Event { side, name, with })
    }

    fn name_list(&mut self) -> Parsed<Vec<Name>> {
        let mut names = vec![self.name()?];
        while self.eat_sign(Sign::Comma) {
            names.push(self.name()?);
        }
        Ok(names)
    }

    /// The fields of a structure, after its name.
    pub(super) fn fields(&mut self, interface: &mut Interface) -> Parsed<()> {
        self.need_sign(Sign::Colon)?;
        self.need_word(Keyword::Struct)?;
        self.declarations(Side::Internal, interface)?;
        self.need_word(Keyword::EndStruct)?;
        self.eat_sign(Sign::Semicolon);
        Ok(())
    }

    fn variables(&mut self, side: Side, interface: &mut Interface) -> Parsed<()> {
        self.take();
        self.declarations(side, interface)?;
        self.need_word(Keyword::EndVar)?;
        Ok(())
    }

    fn declarations(&mut self, side: Side, interface: &mut Interface) -> Parsed<()> {
        while self.is_name() {
            let names = self.name_list()?;
            self.need_sign(Sign::Colon)?;
            let type_use = self.type_use()?;
            if self.eat_sign(Sign::Assign) {
                interface.initial_values.push((type_use, self.constant()?));
            }
            self.need_sign(Sign::Semicolon)?;
            let declared = names.into_iter().map(|name| Variable { side, name, type_use });
            interface.variables.extend(declared);
        }
        Ok(())
    }

    fn type_use(&mut self) -> Parsed<Type> {
        let first = self.at;
        if self.eat_word(Keyword::Array) {
            return self.array(first);
        }
        let name = self.name()?;
        let mut type_use = Type {
            class: Class::of_type(name.span.of(self.text)),
            element: None,
            has_length: false,
            mentioned: self.mentioned(name),
            spelling: name.symbol,
        };
        if self.eat_sign(Sign::OpenBracket) {
            self.need(Kind::Number)?;
            self.need_sign(Sign::CloseBracket)?;
            type_use.class = Class::Other;
            type_use.has_length = true;
            type_use.spelling = self.spelling(first);
        }
        Ok(type_use)
    }

    fn array(&mut self, first: usize) -> Parsed<Type> {
        self.need_sign(Sign::OpenBracket)?;
        self.range()?;
        while self.eat_sign(Sign::Comma) {
            self.range()?;
        }
        self.need_sign(Sign::CloseBracket)?;
        self.need_word(Keyword::Of)?;
        let name = self.name()?;
        Ok(Type {
            class: Class::Other,
            element: Some(Class::of_type(name.span.of(self.text))),
            has_length: false,
            mentioned: self.mentioned(name),
            spelling: self.spelling(first),
        })
    }

    /// The name of a value's type, unless it is elementary.
    fn mentioned(&self, name: Name) -> Option<Symbol> {
        (!is_elementary(name.span.of(self.text))).then_some(name.symbol)
    }

    /// The spelling of a type that began at this token.
    fn spelling(&mut self, first: usize) -> Symbol {
        let words: Vec<&str> = self.tokens[first..self.at].iter().map(|token| token.span.of(self.text)).collect();
        self.names.symbol(&words.join(" "))
    }

    fn range(&mut self) -> Parsed<()> {
        self.bound()?;
        self.need_sign(Sign::Range)?;
        self.bound()
    }

    /// A number with perhaps a sign.
    pub(super) fn bound(&mut self) -> Parsed<()> {
        self.eat_plus_or_minus();
        self.need(Kind::Number)?;
        Ok(())
    }
}

// ---- constants

impl Parser<'_> {
    fn constant(&mut self) -> Parsed<Constant> {
        if !self.is_sign(Sign::OpenBracket) {
            return Ok(Constant::One(self.simple()?));
        }
        let open = self.take();
        let mut items = vec![self.simple()?];
        while self.eat_sign(Sign::Comma) {
            items.push(self.simple()?);
        }
        let close = self.need_sign(Sign::CloseBracket)?;
        Ok(Constant::List(items, open.through(close)))
    }

    fn simple(&mut self) -> Parsed<Simple> {
        if self.is_name() {
            let class = Class::Free;
            let span = self.take();
            return Ok(Simple { class, span });
        }
        let start = self.span();
        if !self.eat_plus_or_minus() {
            return self.literal();
        }
        if !self.is(Kind::Number) {
            return self.fail();
        }
        let number = self.literal()?;
        let class = match number.class {
            Class::Any => Class::Num,
            class => class,
        };
        let span = start.through(number.span);
        Ok(Simple { class, span })
    }

    /// A number, a typed literal, a text, `TRUE` or `FALSE`.
    pub(super) fn literal(&mut self) -> Parsed<Simple> {
        let written = self.span().of(self.text);
        let class = match self.kind() {
            Some(Kind::Number) => Class::of_number(written),
            Some(Kind::Typed) => Class::of_type(written.split('#').next().unwrap_or_default()),
            Some(Kind::Text) => Class::Other,
            Some(Kind::Reserved(Keyword::True | Keyword::False)) => Class::Bool,
            _ => return self.fail(),
        };
        let span = self.take();
        Ok(Simple { class, span })
    }
}

// ---- networks

impl Parser<'_> {
    pub(super) fn adapters(&mut self, word: Keyword, network: &mut Network) -> Parsed<bool> {
        match word {
            Keyword::Plugs => self.instances(Role::Plug, Keyword::EndPlugs, network)?,
            Keyword::Sockets => self.instances(Role::Socket, Keyword::EndSockets, network)?,
            _ => return Ok(false),
        }
        Ok(true)
    }

    /// Reads a section of blocks or of connections, if one begins with this word.
    pub(super) fn network_section(&mut self, word: Keyword, network: &mut Network) -> Parsed<bool> {
        match word {
            Keyword::Fbs => self.instances(Role::Block, Keyword::EndFbs, network)?,
            Keyword::EventConnections => self.connections(Sort::Event, network)?,
            Keyword::DataConnections => self.connections(Sort::Data, network)?,
            Keyword::AdapterConnections => self.connections(Sort::Adapter, network)?,
            _ => return Ok(false),
        }
        network.is_written = true;
        Ok(true)
    }

    pub(super) fn subapplications(&mut self, word: Keyword, network: &mut Network) -> Parsed<bool> {
        if word != Keyword::Subapps {
            return Ok(false);
        }
        self.instances(Role::Subapplication, Keyword::EndSubapps, network)?;
        Ok(true)
    }

    fn instances(&mut self, role: Role, last: Keyword, network: &mut Network) -> Parsed<()> {
        self.take();
        while self.is_name() {
            let instance = self.instance(role)?;
            network.instances.push(instance);
        }
        self.need_word(last)?;
        Ok(())
    }

    fn instance(&mut self, role: Role) -> Parsed<Instance> {
        let name = self.name()?;
        self.need_sign(Sign::Colon)?;
        let type_name = self.name()?;
        let mut parameters = Vec::new();
        if role != Role::Subapplication {
            parameters = self.parameters()?;
        }
        self.need_sign(Sign::Semicolon)?;
        if role != Role::Block {
            // Those of plugs and sockets are read and not checked.
            parameters.clear();
        }
        Ok(Instance {
            role,
            name,
            type_name,
            parameters,
        })
    }

    /// Parameters in parentheses, if they are there.
    pub(super) fn parameters(&mut self) -> Parsed<Vec<(Name, Constant)>> {
        let mut found = Vec::new();
        if !self.eat_sign(Sign::Open) || self.eat_sign(Sign::Close) {
            return Ok(found);
        }
        loop {
            let name = self.name()?;
            self.need_sign(Sign::Assign)?;
            found.push((name, self.constant()?));
            if !self.eat_sign(Sign::Comma) {
                break;
            }
        }
        self.need_sign(Sign::Close)?;
        Ok(found)
    }

    fn connections(&mut self, sort: Sort, network: &mut Network) -> Parsed<()> {
        self.take();
        while self.is_name() {
            let source = self.end()?;
            self.need_word(Keyword::To)?;
            let destination = self.end()?;
            self.need_sign(Sign::Semicolon)?;
            network.connections.push(Connection { sort, source, destination });
        }
        self.need_word(Keyword::EndConnections)?;
        Ok(())
    }

    /// A path of names with points between, and its place.
    pub(super) fn path(&mut self) -> Parsed<(Vec<Name>, Span)> {
        let first = self.name()?;
        let mut names = vec![first];
        while self.eat_sign(Sign::Dot) {
            names.push(self.name()?);
        }
        let span = names.last().map_or(first.span, |last| first.span.through(last.span));
        Ok((names, span))
    }
}
