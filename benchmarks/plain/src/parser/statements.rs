//! Statements and expressions of Structured Text.

use super::{Parsed, Parser};
use crate::keywords::{Keyword, Sign};
use crate::tokens::{Kind, Span};
use crate::tree::{Expression, Operator, Reference, Statement, Step};

/// Below this level neither statements nor expressions nest.
const DEEPEST: u32 = 64;

/// The operators from the weakest to the strongest.
const STRONGEST: u8 = 7;

fn binary(kind: Kind) -> Option<(u8, Operator)> {
    use Operator::{Arithmetic, Compare, Logic, Modulo};
    Some(match kind {
        Kind::Reserved(Keyword::Or) => (0, Logic),
        Kind::Reserved(Keyword::Xor) => (1, Logic),
        Kind::Reserved(Keyword::And) | Kind::Sign(Sign::Ampersand) => (2, Logic),
        Kind::Sign(Sign::Equal | Sign::NotEqual) => (3, Compare),
        Kind::Sign(Sign::Less | Sign::Greater | Sign::LessEqual | Sign::GreaterEqual) => (4, Compare),
        Kind::Sign(Sign::Plus | Sign::Minus) => (5, Arithmetic),
        Kind::Sign(Sign::Star | Sign::Slash) => (6, Arithmetic),
        Kind::Reserved(Keyword::Mod) => (6, Modulo),
        Kind::Sign(Sign::Power) => (STRONGEST, Arithmetic),
        _ => return None,
    })
}

// ---- statements

impl Parser<'_> {
    pub(super) fn statements(&mut self, level: u32) -> Parsed<Vec<Statement>> {
        let mut found = Vec::new();
        while let Some(statement) = self.statement(level)? {
            found.push(statement);
        }
        Ok(found)
    }

    fn statement(&mut self, level: u32) -> Parsed<Option<Statement>> {
        let statement = match self.kind() {
            Some(Kind::Sign(Sign::Semicolon)) => {
                self.take();
                Statement::Plain
            }
            Some(Kind::Name) => self.assignment(level)?,
            Some(Kind::Reserved(Keyword::Exit | Keyword::Return)) => {
                self.take();
                self.need_sign(Sign::Semicolon)?;
                Statement::Plain
            }
            Some(Kind::Reserved(word)) if level < DEEPEST => return self.nested(word, level),
            _ => return Ok(None),
        };
        Ok(Some(statement))
    }

    /// A statement that has others within, if one begins with this word.
    fn nested(&mut self, word: Keyword, level: u32) -> Parsed<Option<Statement>> {
        Ok(Some(match word {
            Keyword::If => self.if_statement(level)?,
            Keyword::Case => self.case_statement(level)?,
            Keyword::For => self.for_statement(level)?,
            Keyword::While => self.while_statement(level)?,
            Keyword::Repeat => self.repeat_statement(level)?,
            _ => return Ok(None),
        }))
    }

    fn assignment(&mut self, level: u32) -> Parsed<Statement> {
        let to = self.reference(level)?;
        let at = self.need_sign(Sign::Assign)?;
        let value = self.expression(level)?;
        self.need_sign(Sign::Semicolon)?;
        Ok(Statement::Assign { to, at, value })
    }

    fn if_statement(&mut self, level: u32) -> Parsed<Statement> {
        let mut branches = Vec::new();
        self.take();
        loop {
            let condition = self.expression(level)?;
            self.need_word(Keyword::Then)?;
            branches.push((condition, self.statements(level + 1)?));
            if !self.eat_word(Keyword::Elsif) {
                break;
            }
        }
        let otherwise = self.otherwise(level)?;
        self.need_word(Keyword::EndIf)?;
        Ok(Statement::If { branches, otherwise })
    }

    fn otherwise(&mut self, level: u32) -> Parsed<Vec<Statement>> {
        if self.eat_word(Keyword::Else) {
            self.statements(level + 1)
        } else {
            Ok(Vec::new())
        }
    }

    fn case_statement(&mut self, level: u32) -> Parsed<Statement> {
        self.take();
        let selector = self.expression(level)?;
        self.need_word(Keyword::Of)?;
        let mut cases = vec![self.case(level)?];
        while self.is_sign(Sign::Plus) || self.is_sign(Sign::Minus) || self.is(Kind::Number) || self.is(Kind::Typed) {
            cases.push(self.case(level)?);
        }
        cases.push(self.otherwise(level)?);
        self.need_word(Keyword::EndCase)?;
        Ok(Statement::Case { selector, cases })
    }

    fn case(&mut self, level: u32) -> Parsed<Vec<Statement>> {
        self.label()?;
        while self.eat_sign(Sign::Comma) {
            self.label()?;
        }
        self.need_sign(Sign::Colon)?;
        self.statements(level + 1)
    }

    fn label(&mut self) -> Parsed<()> {
        self.label_bound()?;
        if self.eat_sign(Sign::Range) {
            self.label_bound()?;
        }
        Ok(())
    }

    fn label_bound(&mut self) -> Parsed<()> {
        if self.eat(Kind::Typed) {
            Ok(())
        } else {
            self.bound()
        }
    }

    fn for_statement(&mut self, level: u32) -> Parsed<Statement> {
        self.take();
        let variable = self.name()?;
        self.need_sign(Sign::Assign)?;
        let mut bounds = vec![self.expression(level)?];
        self.need_word(Keyword::To)?;
        bounds.push(self.expression(level)?);
        if self.eat_word(Keyword::By) {
            bounds.push(self.expression(level)?);
        }
        self.need_word(Keyword::Do)?;
        let body = self.statements(level + 1)?;
        self.need_word(Keyword::EndFor)?;
        Ok(Statement::For { variable, bounds, body })
    }

    fn while_statement(&mut self, level: u32) -> Parsed<Statement> {
        self.take();
        let condition = self.expression(level)?;
        self.need_word(Keyword::Do)?;
        let body = self.statements(level + 1)?;
        self.need_word(Keyword::EndWhile)?;
        Ok(Statement::While { condition, body })
    }

    fn repeat_statement(&mut self, level: u32) -> Parsed<Statement> {
        self.take();
        let body = self.statements(level + 1)?;
        self.need_word(Keyword::Until)?;
        let condition = self.expression(level)?;
        self.need_word(Keyword::EndRepeat)?;
        // It is checked as a WHILE.
        Ok(Statement::While { condition, body })
    }
}

// ---- expressions

impl Parser<'_> {
    pub(super) fn expression(&mut self, level: u32) -> Parsed<Expression> {
        self.row(level, 0)
    }

    /// Operands with operators between that are at least so strong.
    fn row(&mut self, level: u32, weakest: u8) -> Parsed<Expression> {
        let mut left = self.unary(level)?;
        let mut last_strength = None;
        while let Some((strength, operator)) = self.kind().and_then(binary).filter(|found| weakest <= found.0) {
            let at = self.take();
            let operand = match strength {
                STRONGEST => self.unary(level)?,
                _ => self.row(level, strength + 1)?,
            };
            left = with_operand(left, last_strength == Some(strength), (operator, at, operand));
            last_strength = Some(strength);
        }
        Ok(left)
    }

    fn unary(&mut self, level: u32) -> Parsed<Expression> {
        let operator = match self.kind() {
            Some(Kind::Sign(Sign::Plus | Sign::Minus)) => Operator::Arithmetic,
            Some(Kind::Reserved(Keyword::Not)) => Operator::Not,
            _ => return self.primary(level),
        };
        let at = self.take();
        let operand = Box::new(self.primary(level)?);
        Ok(Expression::Unary { operator, at, operand })
    }

    fn primary(&mut self, level: u32) -> Parsed<Expression> {
        if self.is_name() {
            return Ok(Expression::Reference(self.reference(level)?));
        }
        if self.is_sign(Sign::Open) && level < DEEPEST {
            let open = self.take();
            let inner = Box::new(self.expression(level + 1)?);
            let close = self.need_sign(Sign::Close)?;
            return Ok(Expression::Parentheses(inner, open.through(close)));
        }
        Ok(Expression::Literal(self.literal()?))
    }

    fn reference(&mut self, level: u32) -> Parsed<Reference> {
        let name = self.name()?;
        let mut end = name.span.end;
        let mut steps = Vec::new();
        self.subscripts(level, &mut steps, &mut end)?;
        while self.eat_sign(Sign::Dot) {
            let name = self.name()?;
            end = name.span.end;
            steps.push(Step::Member(name));
            self.subscripts(level, &mut steps, &mut end)?;
        }
        let steps = steps.into();
        Ok(Reference { name, end, steps })
    }

    /// Adds the subscripts after a name, if they are there. Then `end` becomes where they end.
    fn subscripts(&mut self, level: u32, steps: &mut Vec<Step>, end: &mut u32) -> Parsed<()> {
        if level < DEEPEST && self.eat_sign(Sign::OpenBracket) {
            steps.push(Step::Subscript(self.expression(level + 1)?));
            while self.eat_sign(Sign::Comma) {
                steps.push(Step::Subscript(self.expression(level + 1)?));
            }
            *end = self.need_sign(Sign::CloseBracket)?.end;
        }
        Ok(())
    }
}

/// One operand more: in the row on the left, if that is of the same strength, or in a new one.
fn with_operand(left: Expression, is_same: bool, operand: (Operator, Span, Expression)) -> Expression {
    match left {
        Expression::Row { first, mut rest } if is_same => {
            rest.push(operand);
            Expression::Row { first, rest }
        }
        left => Expression::Row {
            first: Box::new(left),
            rest: vec![operand],
        },
    }
}
