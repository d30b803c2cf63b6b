//! From a text to its tokens.

use crate::keywords::{keyword, sign, Keyword, Sign};
use crate::names::LONGEST_NAME;

/// A place in a text, in bytes.
#[derive(Clone, Copy, PartialEq, Eq, PartialOrd, Ord, Debug)]
pub struct Span {
    pub start: u32,
    pub end: u32,
}

impl Span {
    pub fn new(start: usize, end: usize) -> Span {
        Span {
            start: start as u32,
            end: end as u32,
        }
    }

    /// From the start of this one to the end of the other.
    pub fn through(self, last: Span) -> Span {
        Span {
            start: self.start,
            end: last.end,
        }
    }

    pub fn of(self, text: &str) -> &str {
        &text[self.start as usize..self.end as usize]
    }
}

#[derive(Clone, Copy, PartialEq, Eq, Debug)]
pub enum Kind {
    Name,
    Reserved(Keyword),
    /// A word that is too long for a name.
    LongWord,
    Number,
    Typed,
    Text,
    Sign(Sign),
    Other,
}

#[derive(Clone, Copy, Debug)]
pub struct Token {
    pub kind: Kind,
    pub span: Span,
}

/// The tokens of a text, or the place of a comment that is never closed.
pub fn tokens(text: &str) -> Result<Vec<Token>, Span> {
    let mut found = Vec::with_capacity(text.len() / 4);
    let bytes = text.as_bytes();
    let mut quotes = Quotes::default();
    let mut at = 0;
    while let Some(byte) = bytes.get(at) {
        let rest = &bytes[at..];
        if matches!(byte, b' ' | b'\t' | b'\r' | b'\n') {
            at += 1;
        } else if rest.starts_with(b"(*") {
            at += comment_len(rest).ok_or(Span::new(at, bytes.len()))?;
        } else if rest.starts_with(b"//") {
            at += rest.iter().position(|b| *b == b'\n').unwrap_or(rest.len());
        } else {
            let (kind, len) = token(text, at, &mut quotes);
            let span = Span::new(at, at + len);
            found.push(Token { kind, span });
            at += len;
        }
    }
    Ok(found)
}

/// How long the comment is that begins here, if it is closed.
fn comment_len(rest: &[u8]) -> Option<usize> {
    let close = rest[2..].windows(2).position(|two| two == b"*)")?;
    Some(close + 4)
}

/// The token that begins there, if neither a blank nor a comment does.
fn token(text: &str, at: usize, quotes: &mut Quotes) -> (Kind, usize) {
    let rest = &text[at..];
    let bytes = rest.as_bytes();
    let first = bytes[0];
    if is_letter(first) {
        return word(bytes);
    }
    if first.is_ascii_digit() {
        return (Kind::Number, number_len(bytes));
    }
    if let Some((sign, len)) = sign(bytes) {
        return (Kind::Sign(sign), len);
    }
    if let Some(len) = quotes.quoted_len(rest, at) {
        return (Kind::Text, len);
    }
    let len = rest.chars().next().map_or(1, char::len_utf8);
    (Kind::Other, len)
}

fn is_letter(byte: u8) -> bool {
    byte.is_ascii_alphabetic() || byte == b'_'
}

fn is_word_byte(byte: u8) -> bool {
    byte.is_ascii_alphanumeric() || byte == b'_'
}

/// How many bytes at the start meet the condition.
fn run(bytes: &[u8], meets: impl Fn(u8) -> bool) -> usize {
    bytes.iter().take_while(|b| meets(**b)).count()
}

fn word(bytes: &[u8]) -> (Kind, usize) {
    let len = run(bytes, is_word_byte);
    if let Some(whole) = typed_len(bytes, len) {
        return (Kind::Typed, whole);
    }
    let kind = match keyword(&bytes[..len]) {
        Some(keyword) => Kind::Reserved(keyword),
        None if len <= LONGEST_NAME => Kind::Name,
        None => Kind::LongWord,
    };
    (kind, len)
}

fn number_len(bytes: &[u8]) -> usize {
    let whole = run(bytes, |b| b.is_ascii_digit() || b == b'_');
    match bytes.get(whole) {
        Some(b'#') => match run(&bytes[whole + 1..], is_word_byte) {
            0 => whole,
            digits => whole + 1 + digits,
        },
        Some(b'.') => match run(&bytes[whole + 1..], |b| b.is_ascii_digit()) {
            0 => whole,
            digits => with_exponent(bytes, whole + 1 + digits),
        },
        _ => whole,
    }
}

fn with_exponent(bytes: &[u8], len: usize) -> usize {
    if !matches!(bytes.get(len), Some(b'e' | b'E')) {
        return len;
    }
    let signed = len + 1 + usize::from(matches!(bytes.get(len + 1), Some(b'+' | b'-')));
    match run(&bytes[signed.min(bytes.len())..], |b| b.is_ascii_digit()) {
        0 => len,
        digits => signed + digits,
    }
}

/// What may be in a typed literal beside letters, digits, `_`, `#` and points.
#[derive(Clone, Copy, PartialEq, Eq)]
enum Typed {
    Plain,
    Date,
    Real,
}

fn typed(word: &[u8]) -> Typed {
    const DATES: [&str; 6] = ["D", "DATE", "TOD", "TIME_OF_DAY", "DT", "DATE_AND_TIME"];
    let is = |name: &&str| name.as_bytes().eq_ignore_ascii_case(word);
    if DATES.iter().any(is) {
        Typed::Date
    } else if ["REAL", "LREAL"].iter().any(is) {
        Typed::Real
    } else {
        Typed::Plain
    }
}

/// How long the typed literal is that begins with a word of this length, if there is one.
fn typed_len(bytes: &[u8], word_len: usize) -> Option<usize> {
    if bytes.get(word_len) != Some(&b'#') {
        return None;
    }
    let typed = typed(&bytes[..word_len]);
    let mut at = word_len + 1;
    at += usize::from(matches!(bytes.get(at), Some(b'+' | b'-')));
    let first = at;
    while at < bytes.len() && belongs(bytes, at, typed) {
        at += 1;
    }
    (first < at).then_some(at)
}

/// Whether the byte there belongs to a typed literal that has come so far.
fn belongs(bytes: &[u8], at: usize, typed: Typed) -> bool {
    let before_digit = bytes.get(at + 1).is_some_and(u8::is_ascii_digit);
    match bytes[at] {
        b'#' => true,
        b'.' => before_digit,
        b':' => typed == Typed::Date && before_digit,
        b'-' if typed == Typed::Date => before_digit,
        b'+' | b'-' => typed == Typed::Real && before_digit && matches!(bytes[at - 1], b'e' | b'E'),
        byte => is_word_byte(byte),
    }
}

/// Up to the place from which no text that begins with one of both quotes is closed, so that a text of quotes that are never closed is not gone through again from each.
#[derive(Default)]
struct Quotes {
    single: usize,
    double: usize,
}

impl Quotes {
    /// How long the text in quotes is that begins there, if it is closed.
    fn quoted_len(&mut self, rest: &str, at: usize) -> Option<usize> {
        let open = match rest.as_bytes()[0] {
            b'\'' => &mut self.single,
            b'"' => &mut self.double,
            _ => return None,
        };
        if at < *open {
            return None;
        }
        let found = quoted_len(rest);
        if let Err(len) = found {
            *open = at + len;
        }
        found.ok()
    }
}

/// How long the text is that begins with a quote, or else up to the place from which no text is closed that begins with such a quote.
fn quoted_len(rest: &str) -> Result<usize, usize> {
    let mut chars = rest.char_indices();
    let quote = chars.next().map(|(_, quote)| quote);
    while let Some((at, c)) = chars.next() {
        match c {
            '\r' | '\n' => return Err(at),
            '$' => match chars.next() {
                None | Some((_, '\r' | '\n')) => return Err(at),
                Some(_) => {}
            },
            c if Some(c) == quote => return Ok(at + 1),
            _ => {}
        }
    }
    Err(rest.len())
}
