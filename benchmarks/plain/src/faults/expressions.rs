//! Variables and classes of expressions and statements.

use super::{Code, Judge, Sought};
use crate::classes::Class;
use crate::names::Symbol;
use crate::tokens::Span;
use crate::tree::{Expression, Name, Operator, Reference, Statement, Step, Type, UnitKind, Variable};

// ---- statements

impl Judge<'_> {
    pub(super) fn statements(&mut self, statements: &[Statement]) {
        for statement in statements {
            self.statement(statement);
        }
    }

    fn statement(&mut self, statement: &Statement) {
        match statement {
            Statement::Plain => {}
            Statement::Assign { to, at, value } => {
                let target = self.reference(to);
                let value = self.class(value);
                if target.join(value).is_none() {
                    self.report(Code::Class, *at);
                }
            }
            Statement::If { branches, otherwise } => {
                for (condition, body) in branches {
                    self.condition(condition);
                    self.statements(body);
                }
                self.statements(otherwise);
            }
            Statement::Case { selector, cases } => {
                if self.class(selector) == Class::Bool {
                    self.report(Code::Class, selector.span());
                }
                for body in cases {
                    self.statements(body);
                }
            }
            Statement::For { variable, bounds, body } => {
                self.counter(*variable);
                for bound in bounds {
                    self.whole_number(bound);
                }
                self.statements(body);
            }
            Statement::While { condition, body } => {
                self.condition(condition);
                self.statements(body);
            }
        }
    }

    /// The variable of a `FOR`.
    fn counter(&mut self, name: Name) {
        match self.unit.interface.variable(name.symbol) {
            None => self.report(Code::VariableUnknown, name.span),
            Some(variable) => match variable.type_use.class {
                Class::Int | Class::Free => {}
                _ => self.report(Code::Class, name.span),
            },
        }
    }

    pub(super) fn condition(&mut self, expression: &Expression) {
        if !matches!(self.class(expression), Class::Bool | Class::Any | Class::Free) {
            self.report(Code::Class, expression.span());
        }
    }

    fn whole_number(&mut self, expression: &Expression) {
        if !matches!(self.class(expression), Class::Int | Class::Num | Class::Any | Class::Free) {
            self.report(Code::Class, expression.span());
        }
    }
}

// ---- expressions

impl<'a> Judge<'a> {
    fn class(&mut self, expression: &Expression) -> Class {
        match expression {
            Expression::Literal(literal) => literal.class,
            Expression::Reference(reference) => self.reference(reference),
            Expression::Parentheses(inner, _) => self.class(inner),
            Expression::Unary { operator, at, operand } => {
                let class = self.class(operand);
                self.unary(*operator, *at, class)
            }
            Expression::Row { first, rest } => {
                let mut class = self.class(first);
                for (operator, at, operand) in rest {
                    let right = self.class(operand);
                    class = self.binary(*operator, *at, class, right);
                }
                class
            }
        }
    }

    fn unary(&mut self, operator: Operator, at: Span, operand: Class) -> Class {
        if operand == Class::Free {
            return Class::Free;
        }
        if !takes(operator, operand) {
            self.report(Code::Class, at);
            return Class::Free;
        }
        result(operator, operand)
    }

    fn binary(&mut self, operator: Operator, at: Span, left: Class, right: Class) -> Class {
        let joined = left.join(right).filter(|class| *class == Class::Free || takes(operator, *class));
        if joined.is_none() {
            self.report(Code::Class, at);
        }
        match joined {
            _ if operator == Operator::Compare => Class::Bool,
            Some(class) => result(operator, class),
            None => Class::Free,
        }
    }
}

// ---- references

/// A type that names of a reference have led to.
#[derive(Clone, Copy)]
struct Place {
    type_use: Type,
    /// Subscripts are after the name.
    is_subscripted: bool,
}

impl Place {
    fn of(variable: &Variable) -> Place {
        Place {
            type_use: variable.type_use,
            is_subscripted: false,
        }
    }

    fn class(self) -> Class {
        if self.is_subscripted {
            self.type_use.element.unwrap_or(Class::Other)
        } else {
            self.type_use.class
        }
    }
}

impl<'a> Judge<'a> {
    /// The class of a reference, whose faults and those of its subscripts are reported.
    fn reference(&mut self, reference: &Reference) -> Class {
        for step in &reference.steps {
            if let Step::Subscript(subscript) = step {
                self.whole_number(subscript);
            }
        }
        let class = self.beginning(reference).and_then(|(place, steps)| self.followed(place, steps));
        class.unwrap_or(Class::Free)
    }

    /// The class of what these steps lead to, or none where a name is unknown, which is reported, or not checked.
    fn followed(&mut self, mut place: Place, steps: &[Step]) -> Option<Class> {
        for step in steps {
            let Step::Member(name) = step else {
                place.is_subscripted = true;
                continue;
            };
            match self.field(place, name.symbol) {
                Sought::Found(variable) => place = Place::of(variable),
                Sought::Unjudged => return None,
                Sought::Unknown => {
                    self.report(Code::MemberUnknown, name.span);
                    return None;
                }
            }
        }
        Some(place.class())
    }

    /// What a reference begins with and the steps that follow, or none if that is unknown, which is reported, or not checked.
    fn beginning<'r>(&mut self, reference: &'r Reference) -> Option<(Place, &'r [Step])> {
        let first = reference.name;
        let second = match reference.steps.first() {
            Some(Step::Member(name)) => Some(*name),
            _ => None,
        };
        let port = second.filter(|_| self.adapter(first.symbol).is_some());
        let variable = match port {
            Some(port) => self.port_variable(first.symbol, port.symbol),
            None => self.unit.interface.variable(first.symbol).into(),
        };
        match variable {
            Sought::Found(variable) => Some((Place::of(variable), &reference.steps[usize::from(port.is_some())..])),
            Sought::Unjudged => None,
            Sought::Unknown => {
                let last = second.unwrap_or(first);
                self.report(Code::VariableUnknown, first.span.through(last.span));
                None
            }
        }
    }

    /// The field of this name of what is before it.
    fn field(&self, place: Place, name: Symbol) -> Sought<&'a Variable> {
        let Type { class, element, .. } = place.type_use;
        let (class, is_plain) = match element {
            Some(class) => (class, place.is_subscripted),
            None => (class, !place.type_use.has_length),
        };
        if is_plain && class == Class::Free {
            return Sought::Unjudged;
        }
        let Some(mentioned) = place.type_use.mentioned.filter(|_| is_plain) else {
            return Sought::Unknown;
        };
        let Some(unit) = self.library.unit(mentioned) else {
            return Sought::Unjudged;
        };
        let has_fields = unit.kind == UnitKind::Structure && (element.is_some() || !place.is_subscripted);
        unit.interface.variable(name).filter(|_| has_fields).into()
    }
}

/// Whether the operator takes operands of this class.
fn takes(operator: Operator, class: Class) -> bool {
    use Class::{Any, Bool, Int, Num, Other, Word};
    match operator {
        Operator::Compare => true,
        Operator::Not | Operator::Logic => matches!(class, Bool | Word | Num | Any),
        Operator::Modulo => matches!(class, Int | Num | Any),
        Operator::Arithmetic => matches!(class, Int | Other | Num | Any),
    }
}

/// What the operator gives for operands of a class that it takes.
fn result(operator: Operator, class: Class) -> Class {
    match operator {
        Operator::Arithmetic | Operator::Modulo if class == Class::Any => Class::Num,
        _ => class,
    }
}
