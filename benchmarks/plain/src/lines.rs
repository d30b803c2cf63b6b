//! From each request line to its reply line.

use crate::library::Source;
use crate::machine::{Committed, Delivered, Edit, HistoryFull, Job, Key, Kind, Shown, Workbench};
use crate::names::Symbol;
use crate::replies::{kind_text, value_reply};
use crate::requests::{request, Asked, Request};
use std::rc::Rc;

const LONGEST_TEXT: usize = 65_536;

/// How many jobs a script may hold.
const MOST_HELD: usize = 64;

pub struct Desk {
    workbench: Workbench,
    held: Vec<Job>,
}

/// The reply that refuses.
struct Refused(String);

type Replied = Result<String, Refused>;

impl From<HistoryFull> for Refused {
    fn from(_: HistoryFull) -> Refused {
        refused("HistoryFull")
    }
}

fn refused(reason: &str) -> Refused {
    Refused(format!("{{\"refused\":\"{reason}\"}}"))
}

impl Desk {
    pub fn new(workbench: Workbench) -> Desk {
        let held = Vec::new();
        Desk { workbench, held }
    }

    /// The reply to a line, or none for a blank one.
    pub fn reply(&mut self, line: &[u8]) -> Option<String> {
        if line.iter().all(|byte| matches!(byte, b' ' | b'\t' | b'\r')) {
            return None;
        }
        let replied = match request(line) {
            None => Err(refused("BadRequest")),
            Some(request) => self.answer(request),
        };
        Some(replied.unwrap_or_else(|Refused(reply)| reply))
    }

    fn answer(&mut self, request: Request) -> Replied {
        match request {
            Request::Commit(changes) => self.commit(changes),
            Request::Ask { kind, unit } => self.ask(kind, &unit),
            Request::Work { turns } => Ok(self.work(turns)),
            Request::Take => self.take(),
            Request::Deliver { job } => self.deliver(job),
            Request::GiveBack { kind, unit } => self.give_back(kind, &unit),
            Request::Checkpoint { units, history } => match self.workbench.checkpoint(units, history) {
                Some(before) => Ok(format!("{{\"checkpoint\":{before}}}")),
                None => Err(refused("UnitsOver")),
            },
        }
    }

    fn name(&mut self, unit: &str) -> Result<Symbol, Refused> {
        self.workbench.names.unit(unit).ok_or_else(|| refused("BadName"))
    }

    /// A refusal that names a unit.
    fn refused_unit(&self, reason: &str, unit: Symbol) -> Refused {
        let unit = self.workbench.names.text(unit);
        Refused(format!("{{\"refused\":\"{reason}\",\"unit\":\"{unit}\"}}"))
    }
}

// ---- commits

impl Desk {
    fn commit(&mut self, changes: Vec<Asked>) -> Replied {
        let edits = changes.into_iter().map(|change| self.edit(change)).collect::<Result<Vec<_>, _>>()?;
        match self.workbench.commit(edits)? {
            Committed::Done(number) => Ok(format!("{{\"commit\":{number}}}")),
            Committed::NoChange => Err(refused("NoChange")),
            Committed::TooManyChanges => Err(refused("TooManyChanges")),
            Committed::SameUnitTwice(unit) => Err(self.refused_unit("SameUnitTwice", unit)),
            Committed::StaleBase { unit, current } => Err(self.stale_base(unit, current)),
            Committed::NoSuchUnit(unit) => Err(self.refused_unit("NoSuchUnit", unit)),
            Committed::TooManyUnits => Err(refused("TooManyUnits")),
        }
    }

    fn edit(&mut self, change: Asked) -> Result<Edit, Refused> {
        let unit = self.name(&change.unit)?;
        let source = match change.text {
            Some(text) if text.len() > LONGEST_TEXT => return Err(refused("TextTooLong")),
            Some(text) => Some(Rc::new(Source::new(&text, &mut self.workbench.names))),
            None => None,
        };
        let base = change.base;
        Ok(Edit { unit, base, source })
    }

    fn stale_base(&self, unit: Symbol, current: u64) -> Refused {
        let unit = self.workbench.names.text(unit);
        Refused(format!("{{\"current\":{current},\"refused\":\"StaleBase\",\"unit\":\"{unit}\"}}"))
    }
}

// ---- questions, jobs and work

impl Desk {
    fn ask(&mut self, kind: Kind, unit: &str) -> Replied {
        let unit = self.name(unit)?;
        match self.workbench.ask(Key { kind, unit })? {
            Shown::Value(value) => Ok(value_reply(&value, &self.workbench.names)),
            Shown::Pending => Ok("{\"answer\":\"pending\"}".to_string()),
            Shown::NoSuchKey => Err(refused("NoSuchKey")),
        }
    }

    fn take(&mut self) -> Replied {
        if self.held.len() >= MOST_HELD {
            return Err(refused("TooManyJobs"));
        }
        let Some(job) = self.workbench.take()? else {
            return Ok("{\"job\":0}".to_string());
        };
        let number = self.held.len() + 1;
        let kind = kind_text(job.key.kind);
        let unit = self.workbench.names.text(job.key.unit);
        let reply = format!("{{\"job\":{number},\"kind\":\"{kind}\",\"unit\":\"{unit}\"}}");
        self.held.push(job);
        Ok(reply)
    }

    fn deliver(&mut self, number: u64) -> Replied {
        let place = usize::try_from(number).ok().and_then(|number| number.checked_sub(1));
        let Some(job) = place.and_then(|place| self.held.get(place)) else {
            return Err(refused("NoSuchJob"));
        };
        match self.workbench.deliver(job)? {
            Delivered::Accepted => Ok("{\"delivered\":\"accepted\"}".to_string()),
            Delivered::NoSuchKey => Err(refused("NoSuchKey")),
            Delivered::NotPending => Err(refused("NotPending")),
            Delivered::Stale(unit) => Err(self.refused_unit("Stale", unit)),
        }
    }

    fn give_back(&mut self, kind: Kind, unit: &str) -> Replied {
        let unit = self.name(unit)?;
        let was_out = self.workbench.give_back(Key { kind, unit })?;
        Ok(format!("{{\"returned\":{was_out}}}"))
    }

    /// Takes, runs and delivers at most this number of jobs.
    fn work(&mut self, turns: u64) -> String {
        let mut accepted = 0;
        for _ in 0..turns {
            match self.workbench.work() {
                Ok(true) => accepted += 1,
                Ok(false) => break,
                Err(HistoryFull) => return format!("{{\"accepted\":{accepted},\"refused\":\"HistoryFull\"}}"),
            }
        }
        format!("{{\"accepted\":{accepted}}}")
    }
}
