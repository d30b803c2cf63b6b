//! From tokens to a tree, or to the first token with which no unit continues.

mod charts;
mod sections;
mod statements;
mod systems;

use crate::keywords::{Keyword, Sign};
use crate::names::Names;
use crate::tokens::{tokens, Kind, Span, Token};
use crate::tree::{Chart, End, Interface, Name, Network, System, Unit, UnitKind};

/// What was read, or the place where the text is broken.
pub type Parsed<T> = Result<T, Span>;

/// The unit that a text spells.
pub fn read(text: &str, names: &mut Names) -> Parsed<Unit> {
    let tokens = tokens(text)?;
    let mut parser = Parser {
        text,
        tokens: &tokens,
        at: 0,
        names,
    };
    parser.unit()
}

struct Parser<'a> {
    text: &'a str,
    tokens: &'a [Token],
    at: usize,
    names: &'a mut Names,
}

// ---- small steps

impl Parser<'_> {
    fn kind(&self) -> Option<Kind> {
        self.tokens.get(self.at).map(|token| token.kind)
    }

    /// The place of the next token, or the empty one at the end.
    fn span(&self) -> Span {
        match self.tokens.get(self.at) {
            Some(token) => token.span,
            None => Span::new(self.text.len(), self.text.len()),
        }
    }

    fn fail<T>(&self) -> Parsed<T> {
        Err(self.span())
    }

    fn take(&mut self) -> Span {
        let span = self.span();
        self.at += 1;
        span
    }

    fn is(&self, kind: Kind) -> bool {
        self.kind() == Some(kind)
    }

    fn is_sign(&self, sign: Sign) -> bool {
        self.is(Kind::Sign(sign))
    }

    fn is_word(&self, word: Keyword) -> bool {
        self.is(Kind::Reserved(word))
    }

    fn is_name(&self) -> bool {
        self.is(Kind::Name)
    }

    /// Whether the next token is a name that is spelled so, in any case.
    fn is_named(&self, word: &str) -> bool {
        self.is_name() && self.span().of(self.text).eq_ignore_ascii_case(word)
    }

    fn eat(&mut self, kind: Kind) -> bool {
        let is = self.is(kind);
        self.at += usize::from(is);
        is
    }

    fn eat_sign(&mut self, sign: Sign) -> bool {
        self.eat(Kind::Sign(sign))
    }

    fn eat_word(&mut self, word: Keyword) -> bool {
        self.eat(Kind::Reserved(word))
    }

    fn eat_plus_or_minus(&mut self) -> bool {
        self.eat_sign(Sign::Plus) || self.eat_sign(Sign::Minus)
    }

    fn need(&mut self, kind: Kind) -> Parsed<Span> {
        if self.is(kind) {
            Ok(self.take())
        } else {
            self.fail()
        }
    }

    fn need_sign(&mut self, sign: Sign) -> Parsed<Span> {
        self.need(Kind::Sign(sign))
    }

    fn need_word(&mut self, word: Keyword) -> Parsed<Span> {
        self.need(Kind::Reserved(word))
    }

    fn need_named(&mut self, word: &str) -> Parsed<Span> {
        if self.is_named(word) {
            Ok(self.take())
        } else {
            self.fail()
        }
    }

    fn name(&mut self) -> Parsed<Name> {
        let span = self.need(Kind::Name)?;
        let symbol = self.names.symbol(span.of(self.text));
        Ok(Name { symbol, span })
    }

    /// One name, or two with a point between.
    fn end(&mut self) -> Parsed<End> {
        let first = self.name()?;
        let mut end = End {
            first: first.symbol,
            second: None,
            span: first.span,
        };
        if self.eat_sign(Sign::Dot) {
            let second = self.name()?;
            end.second = Some(second.symbol);
            end.span = first.span.through(second.span);
        }
        Ok(end)
    }

    /// Any tokens up to this word, which has to come.
    fn skip_through(&mut self, word: Keyword) -> Parsed<()> {
        while self.kind().is_some() && !self.is_word(word) {
            self.take();
        }
        self.need_word(word)?;
        Ok(())
    }
}

// ---- units

impl Parser<'_> {
    fn unit(&mut self) -> Parsed<Unit> {
        let (kind, last) = match self.kind() {
            Some(Kind::Reserved(Keyword::FunctionBlock)) => (UnitKind::Block, Keyword::EndFunctionBlock),
            Some(Kind::Reserved(Keyword::Adapter)) => (UnitKind::Adapter, Keyword::EndAdapter),
            Some(Kind::Reserved(Keyword::Subapplication)) => (UnitKind::Subapplication, Keyword::EndSubapplication),
            Some(Kind::Reserved(Keyword::System)) => (UnitKind::System, Keyword::EndSystem),
            Some(Kind::Reserved(Keyword::Type)) => (UnitKind::Structure, Keyword::EndType),
            _ => return self.fail(),
        };
        self.take();
        let mut unit = Unit {
            kind,
            name: self.name()?,
            interface: Interface::default(),
            network: Network::default(),
            chart: Chart::default(),
            system: System::default(),
        };
        if kind == UnitKind::Structure {
            self.fields(&mut unit.interface)?;
        } else {
            while self.section(&mut unit)? {}
        }
        self.need_word(last)?;
        if self.kind().is_some() {
            return self.fail();
        }
        unit.interface.index();
        unit.network.index();
        Ok(unit)
    }

    /// Reads a section of the unit, and returns whether there was one.
    fn section(&mut self, unit: &mut Unit) -> Parsed<bool> {
        let Some(Kind::Reserved(word)) = self.kind() else {
            return Ok(false);
        };
        match unit.kind {
            UnitKind::Block => Ok(self.block_section(word, unit)? || self.chart_section(word, &mut unit.chart)?),
            UnitKind::Adapter => Ok(self.port_section(word, &mut unit.interface)? || self.service(word)?),
            UnitKind::Subapplication => Ok(self.block_section(word, unit)? || self.subapplications(word, &mut unit.network)?),
            UnitKind::System => self.system_section(word, &mut unit.system),
            UnitKind::Structure => Ok(false),
        }
    }

    /// A section that function blocks and subapplications may both have, or `VAR` of a block.
    fn block_section(&mut self, word: Keyword, unit: &mut Unit) -> Parsed<bool> {
        if word == Keyword::Var && unit.kind == UnitKind::Block {
            self.internal_variables(&mut unit.interface)?;
            return Ok(true);
        }
        Ok(self.port_section(word, &mut unit.interface)?
            || self.adapters(word, &mut unit.network)?
            || self.network_section(word, &mut unit.network)?
            || self.service(word)?)
    }

    fn service(&mut self, word: Keyword) -> Parsed<bool> {
        if word != Keyword::Service {
            return Ok(false);
        }
        self.take();
        self.skip_through(Keyword::EndService)?;
        Ok(true)
    }
}
