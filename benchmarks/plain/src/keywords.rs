//! Reserved words and signs.

macro_rules! keywords {
    ($($variant:ident $text:literal)*) => {
        #[derive(Clone, Copy, PartialEq, Eq, Debug)]
        pub enum Keyword { $($variant,)* }

        /// The reserved word that is spelled so in upper case.
        fn spelled(upper: &[u8]) -> Option<Keyword> {
            match upper {
                $($text => Some(Keyword::$variant),)*
                _ => None,
            }
        }
    };
}

keywords! {
    FunctionBlock b"FUNCTION_BLOCK" EndFunctionBlock b"END_FUNCTION_BLOCK"
    Adapter b"ADAPTER" EndAdapter b"END_ADAPTER"
    Subapplication b"SUBAPPLICATION" EndSubapplication b"END_SUBAPPLICATION"
    System b"SYSTEM" EndSystem b"END_SYSTEM"
    Type b"TYPE" EndType b"END_TYPE" Struct b"STRUCT" EndStruct b"END_STRUCT"
    Application b"APPLICATION" EndApplication b"END_APPLICATION"
    Device b"DEVICE" EndDevice b"END_DEVICE"
    Resource b"RESOURCE" EndResource b"END_RESOURCE"
    Mappings b"MAPPINGS" EndMappings b"END_MAPPINGS"
    EventInput b"EVENT_INPUT" EventOutput b"EVENT_OUTPUT" EndEvent b"END_EVENT"
    Var b"VAR" VarInput b"VAR_INPUT" VarOutput b"VAR_OUTPUT" EndVar b"END_VAR"
    Plugs b"PLUGS" EndPlugs b"END_PLUGS"
    Sockets b"SOCKETS" EndSockets b"END_SOCKETS"
    Fbs b"FBS" EndFbs b"END_FBS"
    Subapps b"SUBAPPS" EndSubapps b"END_SUBAPPS"
    EventConnections b"EVENT_CONNECTIONS" DataConnections b"DATA_CONNECTIONS"
    AdapterConnections b"ADAPTER_CONNECTIONS" EndConnections b"END_CONNECTIONS"
    EcStates b"EC_STATES" EndStates b"END_STATES"
    EcTransitions b"EC_TRANSITIONS" EndTransitions b"END_TRANSITIONS"
    Algorithm b"ALGORITHM" EndAlgorithm b"END_ALGORITHM"
    Service b"SERVICE" EndService b"END_SERVICE"
    With b"WITH" To b"TO" Array b"ARRAY" Of b"OF"
    If b"IF" Then b"THEN" Elsif b"ELSIF" Else b"ELSE" EndIf b"END_IF"
    Case b"CASE" EndCase b"END_CASE"
    For b"FOR" By b"BY" Do b"DO" EndFor b"END_FOR"
    While b"WHILE" EndWhile b"END_WHILE"
    Repeat b"REPEAT" Until b"UNTIL" EndRepeat b"END_REPEAT"
    Exit b"EXIT" Return b"RETURN"
    And b"AND" Or b"OR" Xor b"XOR" Not b"NOT" Mod b"MOD"
    True b"TRUE" False b"FALSE"
}

const LONGEST: usize = "ADAPTER_CONNECTIONS".len();

/// The reserved word that a word is, in any case.
pub fn keyword(word: &[u8]) -> Option<Keyword> {
    let mut upper = [0; LONGEST];
    let upper = upper.get_mut(..word.len())?;
    upper.copy_from_slice(word);
    upper.make_ascii_uppercase();
    spelled(upper)
}

#[derive(Clone, Copy, PartialEq, Eq, Debug)]
pub enum Sign {
    Assign,
    LessEqual,
    GreaterEqual,
    NotEqual,
    Power,
    Arrow,
    Range,
    Semicolon,
    Colon,
    Comma,
    Dot,
    Open,
    Close,
    OpenBracket,
    CloseBracket,
    Equal,
    Less,
    Greater,
    Plus,
    Minus,
    Star,
    Slash,
    Ampersand,
}

/// The longest sign at the front of the bytes, with its length.
pub fn sign(bytes: &[u8]) -> Option<(Sign, usize)> {
    let two = match bytes.get(..2).unwrap_or_default() {
        b":=" => Sign::Assign,
        b"<=" => Sign::LessEqual,
        b">=" => Sign::GreaterEqual,
        b"<>" => Sign::NotEqual,
        b"**" => Sign::Power,
        b"->" => Sign::Arrow,
        b".." => Sign::Range,
        _ => return Some((short_sign(*bytes.first()?)?, 1)),
    };
    Some((two, 2))
}

fn short_sign(byte: u8) -> Option<Sign> {
    Some(match byte {
        b';' => Sign::Semicolon,
        b':' => Sign::Colon,
        b',' => Sign::Comma,
        b'.' => Sign::Dot,
        b'(' => Sign::Open,
        b')' => Sign::Close,
        b'[' => Sign::OpenBracket,
        b']' => Sign::CloseBracket,
        b'=' => Sign::Equal,
        b'<' => Sign::Less,
        b'>' => Sign::Greater,
        b'+' => Sign::Plus,
        b'-' => Sign::Minus,
        b'*' => Sign::Star,
        b'/' => Sign::Slash,
        b'&' => Sign::Ampersand,
        _ => return None,
    })
}
