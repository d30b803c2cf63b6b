//! Names, each kept once and known by its number.

use std::collections::HashMap;
use std::num::NonZeroU32;
use std::rc::Rc;

/// The most bytes of a name.
pub const LONGEST_NAME: usize = 64;

/// A name in upper case, by its number. Numbers begin at 1, so that an absent name takes the room of a name.
#[derive(Clone, Copy, PartialEq, Eq, PartialOrd, Ord, Hash, Debug)]
pub struct Symbol(NonZeroU32);

#[derive(Default)]
pub struct Names {
    numbers: HashMap<Rc<str>, Symbol>,
    texts: Vec<Rc<str>>,
}

impl Names {
    /// The symbol of a word, whatever its case.
    pub fn symbol(&mut self, word: &str) -> Symbol {
        if word.bytes().any(|b| b.is_ascii_lowercase()) {
            self.upper_symbol(&word.to_ascii_uppercase())
        } else {
            self.upper_symbol(word)
        }
    }

    fn upper_symbol(&mut self, upper: &str) -> Symbol {
        if let Some(symbol) = self.numbers.get(upper) {
            return *symbol;
        }
        let text: Rc<str> = Rc::from(upper);
        self.texts.push(text.clone());
        let number = NonZeroU32::new(self.texts.len() as u32);
        let symbol = Symbol(number.expect("a text was pushed"));
        self.numbers.insert(text, symbol);
        symbol
    }

    pub fn text(&self, symbol: Symbol) -> &Rc<str> {
        &self.texts[symbol.0.get() as usize - 1]
    }

    /// Puts names in the order of their bytes, each once.
    pub fn sort(&self, symbols: &mut Vec<Symbol>) {
        symbols.sort_unstable_by(|a, b| self.text(*a).cmp(self.text(*b)));
        symbols.dedup();
    }

    /// The symbol of a unit's name in a request, if it is one. Reserved words may name units.
    pub fn unit(&mut self, text: &str) -> Option<Symbol> {
        let is_word = text.bytes().all(|b| b.is_ascii_alphanumeric() || b == b'_');
        let begins = text.bytes().next().is_some_and(|b| !b.is_ascii_digit());
        if is_word && begins && text.len() <= LONGEST_NAME {
            Some(self.symbol(text))
        } else {
            None
        }
    }
}
