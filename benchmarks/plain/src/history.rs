//! The recorded calls with the kinds of their answers. Texts are shared with the workbench, as long as that has them; values and what jobs have
//! read are not kept.

use crate::machine::{Called, Committed, Delivered, Edit, HistoryFull, Key, Shown};
use crate::names::Symbol;
use std::rc::Rc;

/// The caller of all calls of a script.
const CALLER: u32 = 1;

/// A change of a commit with its text, or a removal.
pub struct Change {
    pub unit: Symbol,
    pub base: u64,
    pub text: Option<Rc<str>>,
}

impl Change {
    pub fn of(edit: &Edit) -> Change {
        Change {
            unit: edit.unit,
            base: edit.base,
            text: edit.source.as_ref().map(|source| source.text.clone()),
        }
    }
}

pub enum Call {
    Commit(Box<[Change]>),
    Take,
    Deliver(Key),
    GiveBack(Key),
    Ask(Key),
}

pub enum Answer {
    Commit(Committed),
    Take(Option<Key>),
    Deliver(Delivered),
    GiveBack(bool),
    Ask(Asked),
}

/// What an ask has shown.
#[derive(Clone, Copy)]
pub enum Asked {
    Value,
    Pending,
    NoSuchKey,
}

impl Asked {
    pub fn of(shown: &Shown) -> Asked {
        match shown {
            Shown::Value(_) => Asked::Value,
            Shown::Pending => Asked::Pending,
            Shown::NoSuchKey => Asked::NoSuchKey,
        }
    }
}

/// One call.
struct Record {
    caller: u32,
    /// How many calls its caller had made then, this one included.
    turn: u64,
    call: Call,
    answer: Answer,
}

pub struct History {
    /// How many calls came before the records.
    before: u64,
    limit: usize,
    records: Vec<Record>,
}

impl History {
    pub fn new(limit: usize) -> History {
        let records = Vec::new();
        History { before: 0, limit, records }
    }

    /// Whether one more call may be recorded.
    pub fn check(&self) -> Called<()> {
        if self.records.len() < self.limit {
            Ok(())
        } else {
            Err(HistoryFull)
        }
    }

    /// How many calls were made, those before the records included.
    fn last(&self) -> u64 {
        self.before + self.records.len() as u64
    }

    /// Drops the records, with another limit, and gives how many calls were made.
    pub fn restart(&mut self, limit: usize) -> u64 {
        self.before = self.last();
        self.limit = limit;
        self.records.clear();
        self.before
    }

    pub fn push(&mut self, call: Call, answer: Answer) {
        let record = Record {
            caller: CALLER,
            turn: self.last() + 1,
            call,
            answer,
        };
        self.records.push(record);
    }
}
