//! Reading JSON.

use std::collections::HashMap;

/// How deep arrays and objects may nest.
const DEEPEST: u32 = 127;

pub enum Value {
    Null,
    Boolean,
    /// A number that is written by digits alone and fits 64 bits.
    Whole(u64),
    OtherNumber,
    Text(String),
    Array(Vec<Value>),
    /// Of a name that occurs twice, the last value.
    Object(HashMap<String, Value>),
}

/// The value that a text is, if it is one.
pub fn read(text: &str) -> Option<Value> {
    let mut reader = Reader { text, at: 0 };
    let value = reader.value(DEEPEST)?;
    reader.skip_blanks();
    (reader.at == text.len()).then_some(value)
}

struct Reader<'a> {
    text: &'a str,
    at: usize,
}

impl Reader<'_> {
    fn rest(&self) -> &[u8] {
        &self.text.as_bytes()[self.at..]
    }

    fn peek(&self) -> Option<u8> {
        self.rest().first().copied()
    }

    fn skip_blanks(&mut self) {
        while let Some(b' ' | b'\t' | b'\n' | b'\r') = self.peek() {
            self.at += 1;
        }
    }

    /// Takes this byte, if it is the next one that is no blank.
    fn eat(&mut self, byte: u8) -> bool {
        self.skip_blanks();
        let is = self.peek() == Some(byte);
        self.at += usize::from(is);
        is
    }

    fn need(&mut self, byte: u8) -> Option<()> {
        self.eat(byte).then_some(())
    }

    fn value(&mut self, depth: u32) -> Option<Value> {
        self.skip_blanks();
        match self.peek()? {
            b'{' => Some(Value::Object(self.object(depth.checked_sub(1)?)?)),
            b'[' => Some(Value::Array(self.array(depth.checked_sub(1)?)?)),
            b'"' => Some(Value::Text(self.text()?)),
            b'-' | b'0'..=b'9' => self.number(),
            _ => self.word(),
        }
    }

    fn object(&mut self, depth: u32) -> Option<HashMap<String, Value>> {
        let mut members = HashMap::new();
        self.need(b'{')?;
        if self.eat(b'}') {
            return Some(members);
        }
        loop {
            let name = self.text()?;
            self.need(b':')?;
            let value = self.value(depth)?;
            members.insert(name, value);
            if !self.eat(b',') {
                break;
            }
        }
        self.need(b'}')?;
        Some(members)
    }

    fn array(&mut self, depth: u32) -> Option<Vec<Value>> {
        let mut items = Vec::new();
        self.need(b'[')?;
        if self.eat(b']') {
            return Some(items);
        }
        loop {
            items.push(self.value(depth)?);
            if !self.eat(b',') {
                break;
            }
        }
        self.need(b']')?;
        Some(items)
    }

    fn word(&mut self) -> Option<Value> {
        let words = [("null", Value::Null), ("true", Value::Boolean), ("false", Value::Boolean)];
        let (word, value) = words.into_iter().find(|(word, _)| self.rest().starts_with(word.as_bytes()))?;
        self.at += word.len();
        Some(value)
    }
}

// ---- numbers

impl Reader<'_> {
    /// How many digits come next, which are passed over.
    fn digits(&mut self) -> usize {
        let count = self.rest().iter().take_while(|b| b.is_ascii_digit()).count();
        self.at += count;
        count
    }

    fn number(&mut self) -> Option<Value> {
        let start = self.at;
        self.at += usize::from(self.peek() == Some(b'-'));
        let leads_with_zero = self.peek() == Some(b'0');
        let whole = self.digits();
        if whole == 0 || (leads_with_zero && whole > 1) {
            return None;
        }
        if self.peek() == Some(b'.') {
            self.at += 1;
            (self.digits() > 0).then_some(())?;
        }
        if let Some(b'e' | b'E') = self.peek() {
            self.at += 1;
            self.at += usize::from(matches!(self.peek(), Some(b'+' | b'-')));
            (self.digits() > 0).then_some(())?;
        }
        let written = &self.text[start..self.at];
        if let Ok(number) = written.parse() {
            return Some(Value::Whole(number));
        }
        let number: f64 = written.parse().ok()?;
        number.is_finite().then_some(Value::OtherNumber)
    }
}

// ---- texts

impl Reader<'_> {
    fn text(&mut self) -> Option<String> {
        self.need(b'"')?;
        let mut found = String::new();
        loop {
            let plain = self.rest().iter().position(|b| matches!(b, b'"' | b'\\' | 0..=0x1f))?;
            found.push_str(&self.text[self.at..self.at + plain]);
            self.at += plain + 1;
            match self.text.as_bytes()[self.at - 1] {
                b'"' => return Some(found),
                b'\\' => found.push(self.escaped()?),
                _ => return None,
            }
        }
    }

    /// The character that is written after a backslash.
    fn escaped(&mut self) -> Option<char> {
        let letter = self.peek()?;
        self.at += 1;
        Some(match letter {
            b'"' | b'\\' | b'/' => char::from(letter),
            b'b' => '\u{8}',
            b'f' => '\u{c}',
            b'n' => '\n',
            b'r' => '\r',
            b't' => '\t',
            b'u' => return self.unicode(),
            _ => return None,
        })
    }

    /// One character of one escape, or of two that are a pair.
    fn unicode(&mut self) -> Option<char> {
        let first = self.four_digits()?;
        if !(0xd800..0xdc00).contains(&first) {
            return char::from_u32(first);
        }
        if !self.rest().starts_with(b"\\u") {
            return None;
        }
        self.at += 2;
        let second = self.four_digits()?;
        if !(0xdc00..0xe000).contains(&second) {
            return None;
        }
        char::from_u32(0x10000 + ((first - 0xd800) << 10) + (second - 0xdc00))
    }

    fn four_digits(&mut self) -> Option<u32> {
        let digits = self.rest().get(..4)?;
        if !digits.iter().all(u8::is_ascii_hexdigit) {
            return None;
        }
        let number = std::str::from_utf8(digits).ok()?;
        let number = u32::from_str_radix(number, 16).ok()?;
        self.at += 4;
        Some(number)
    }
}

// ---- members

impl Value {
    pub fn get(&self, name: &str) -> Option<&Value> {
        match self {
            Value::Object(members) => members.get(name),
            _ => None,
        }
    }

    pub fn text(&self, name: &str) -> Option<&str> {
        match self.get(name)? {
            Value::Text(text) => Some(text),
            _ => None,
        }
    }

    pub fn whole(&self, name: &str) -> Option<u64> {
        match self.get(name)? {
            Value::Whole(number) => Some(*number),
            _ => None,
        }
    }

    pub fn items(&self, name: &str) -> Option<&[Value]> {
        match self.get(name)? {
            Value::Array(items) => Some(items),
            _ => None,
        }
    }
}
