//! From a line to the request that it is.

use crate::json::{read, Value};
use crate::machine::Kind;

pub enum Request {
    Commit(Vec<Asked>),
    Ask { kind: Kind, unit: String },
    Work { turns: u64 },
    Take,
    Deliver { job: u64 },
    GiveBack { kind: Kind, unit: String },
    Checkpoint { units: usize, history: usize },
}

/// A change of a commit, before its name is read. Without a text the unit is removed.
pub struct Asked {
    pub unit: String,
    pub base: u64,
    pub text: Option<String>,
}

/// The request, or none where the line is no JSON or asks for nothing that is known.
pub fn request(line: &[u8]) -> Option<Request> {
    let value = read(std::str::from_utf8(line).ok()?)?;
    match value.text("op")? {
        "commit" => Some(Request::Commit(value.items("changes")?.iter().map(change).collect::<Option<_>>()?)),
        "ask" => {
            let (kind, unit) = key(&value)?;
            Some(Request::Ask { kind, unit })
        }
        "work" => {
            let turns = value.whole("turns").filter(|turns| (1..=1000).contains(turns))?;
            Some(Request::Work { turns })
        }
        "take" => Some(Request::Take),
        "deliver" => Some(Request::Deliver { job: value.whole("job")? }),
        "give_back" => {
            let (kind, unit) = key(&value)?;
            Some(Request::GiveBack { kind, unit })
        }
        "checkpoint" => {
            let units = value.whole("units").filter(|units| (1..=16_384).contains(units))? as usize;
            let history = value.whole("history").filter(|history| (1..=10_000_000).contains(history))? as usize;
            Some(Request::Checkpoint { units, history })
        }
        _ => None,
    }
}

fn key(value: &Value) -> Option<(Kind, String)> {
    let kind = match value.text("kind")? {
        "faults" => Kind::Faults,
        "net" => Kind::Net,
        "deploy" => Kind::Deploy,
        _ => return None,
    };
    Some((kind, value.text("unit")?.to_string()))
}

/// A change has one of `put` and `remove`.
fn change(value: &Value) -> Option<Asked> {
    let (unit, text) = match (value.get("put"), value.get("remove")) {
        (Some(_), None) => (value.text("put")?, Some(value.text("text")?.to_string())),
        (None, Some(_)) => (value.text("remove")?, None),
        _ => return None,
    };
    Some(Asked {
        unit: unit.to_string(),
        base: value.whole("base")?,
        text,
    })
}
