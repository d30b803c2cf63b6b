//! Charts and algorithms.

use super::{Parsed, Parser};
use crate::keywords::{Keyword, Sign};
use crate::tokens::Kind;
use crate::tree::{Action, Algorithm, Chart, End, Expression, State, Transition};

impl Parser<'_> {
    /// Reads a section of a chart or an algorithm, if one begins with this word.
    pub(super) fn chart_section(&mut self, word: Keyword, chart: &mut Chart) -> Parsed<bool> {
        match word {
            Keyword::EcStates => self.states(chart)?,
            Keyword::EcTransitions => self.transitions(chart)?,
            Keyword::Algorithm => chart.algorithms.push(self.algorithm()?),
            _ => return Ok(false),
        }
        Ok(true)
    }

    fn states(&mut self, chart: &mut Chart) -> Parsed<()> {
        self.take();
        chart.is_written = true;
        while self.is_name() {
            let name = self.name()?;
            let mut actions = Vec::new();
            if self.eat_sign(Sign::Colon) {
                actions.push(self.action()?);
                while self.eat_sign(Sign::Comma) {
                    actions.push(self.action()?);
                }
            }
            self.need_sign(Sign::Semicolon)?;
            chart.states.push(State { name, actions });
        }
        self.need_word(Keyword::EndStates)?;
        Ok(())
    }

    fn action(&mut self) -> Parsed<Action> {
        let mut action = Action {
            algorithm: None,
            event: None,
        };
        if !self.is_sign(Sign::Arrow) {
            action.algorithm = Some(self.name()?);
        }
        if self.eat_sign(Sign::Arrow) {
            action.event = Some(self.end()?);
        }
        Ok(action)
    }

    fn transitions(&mut self, chart: &mut Chart) -> Parsed<()> {
        self.take();
        while self.is_name() {
            let source = self.name()?;
            self.need_word(Keyword::To)?;
            let destination = self.name()?;
            self.need_sign(Sign::Assign)?;
            let (event, guard) = self.condition()?;
            self.need_sign(Sign::Semicolon)?;
            chart.transitions.push(Transition {
                source,
                destination,
                event,
                guard,
            });
        }
        self.need_word(Keyword::EndTransitions)?;
        Ok(())
    }

    fn condition(&mut self) -> Parsed<(Option<End>, Option<Expression>)> {
        if self.is(Kind::Number) && self.span().of(self.text) == "1" {
            self.take();
            return Ok((None, None));
        }
        if self.is_sign(Sign::OpenBracket) {
            return Ok((None, Some(self.guard()?)));
        }
        let event = Some(self.end()?);
        if self.is_sign(Sign::OpenBracket) {
            return Ok((event, Some(self.guard()?)));
        }
        if self.eat_sign(Sign::Ampersand) || self.eat_word(Keyword::And) {
            return Ok((event, Some(self.expression(0)?)));
        }
        Ok((event, None))
    }

    fn guard(&mut self) -> Parsed<Expression> {
        self.take();
        let guard = self.expression(0)?;
        self.need_sign(Sign::CloseBracket)?;
        Ok(guard)
    }

    fn algorithm(&mut self) -> Parsed<Algorithm> {
        self.take();
        let name = self.name()?;
        self.need_named("IN")?;
        let is_structured = self.is_named("ST");
        self.name()?;
        let mut statements = Vec::new();
        if is_structured {
            self.eat_sign(Sign::Colon);
            statements = self.statements(0)?;
            self.need_word(Keyword::EndAlgorithm)?;
        } else {
            self.skip_through(Keyword::EndAlgorithm)?;
        }
        Ok(Algorithm { name, statements })
    }
}
