//! Classes of types, constants and expressions.

#[derive(Clone, Copy, PartialEq, Eq, Debug)]
pub enum Class {
    Bool,
    Int,
    Word,
    /// All other types.
    Other,
    /// Of no class that is known: it meets every rule.
    Free,
    /// A number other than `0` and `1`.
    Num,
    /// The number `0` or `1` without a sign.
    Any,
}

impl Class {
    /// The class of the type of this name.
    pub fn of_type(name: &str) -> Class {
        let is = |other: &&str| other.eq_ignore_ascii_case(name);
        if is(&"BOOL") {
            Class::Bool
        } else if INTEGERS.iter().any(is) {
            Class::Int
        } else if ["BYTE", "WORD", "DWORD", "LWORD"].iter().any(is) {
            Class::Word
        } else if is(&"ANY") || name.get(..4).is_some_and(|front| front.eq_ignore_ascii_case("ANY_")) {
            Class::Free
        } else {
            Class::Other
        }
    }

    /// The class of a number that is written so.
    pub fn of_number(text: &str) -> Class {
        if text.contains('.') {
            Class::Other
        } else if text == "0" || text == "1" {
            Class::Any
        } else {
            Class::Num
        }
    }

    /// The class that both have together, if there is one.
    pub fn join(self, other: Class) -> Option<Class> {
        use Class::*;
        match (self, other) {
            (Free, _) | (_, Free) => Some(Free),
            (a, b) if a == b => Some(a),
            (Any, class) | (class, Any) => Some(class),
            (Num, class @ (Int | Word | Other)) | (class @ (Int | Word | Other), Num) => Some(class),
            (Int, Other) | (Other, Int) => Some(Other),
            _ => None,
        }
    }

    /// Whether a type of this class takes a constant of that class.
    pub fn takes(self, constant: Class) -> bool {
        use Class::*;
        match self {
            _ if constant == Free => true,
            Bool => matches!(constant, Bool | Any),
            Int => matches!(constant, Int | Num | Any),
            Word => matches!(constant, Word | Num | Any),
            Other => matches!(constant, Other | Int | Num | Any),
            Free | Num | Any => true,
        }
    }
}

/// Whether a value's type of this name never means a unit.
pub fn is_elementary(name: &str) -> bool {
    const OTHERS: &str = "REAL LREAL TIME DATE TOD TIME_OF_DAY DT DATE_AND_TIME STRING WSTRING";
    Class::of_type(name) != Class::Other || OTHERS.split(' ').any(|other| other.eq_ignore_ascii_case(name))
}

const INTEGERS: [&str; 8] = ["SINT", "INT", "DINT", "LINT", "USINT", "UINT", "UDINT", "ULINT"];
