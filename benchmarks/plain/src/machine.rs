//! The workbench: units, entries, and the calls that change them.

mod values;

use crate::faults::Fault;
use crate::history::{Answer, Asked, Call, Change, History};
use crate::index::Index;
use crate::library::{Held, Library, Mentions, Source};
use crate::names::{Names, Symbol};
use crate::nets::Net;
use crate::plans::Plan;
use crate::tree::UnitKind;
use std::collections::{BTreeSet, HashMap, HashSet};
use std::rc::Rc;

const MOST_CHANGES: usize = 16;

#[derive(Clone, Copy, PartialEq, Eq, PartialOrd, Ord, Hash, Debug)]
pub enum Kind {
    Faults,
    Net,
    Deploy,
}

const KINDS: [Kind; 3] = [Kind::Faults, Kind::Net, Kind::Deploy];

#[derive(Clone, Copy, PartialEq, Eq, Hash, Debug)]
pub struct Key {
    pub kind: Kind,
    pub unit: Symbol,
}

#[derive(Clone)]
pub enum Value {
    Faults(Rc<[Fault]>),
    Net(Rc<Net>),
    Plan(Rc<Plan>),
}

/// What a job has read under a name: the revision of its text, or nothing.
struct Read {
    name: Symbol,
    revision: Option<u64>,
}

/// A key with what its value depends on. The value is computed when it is delivered, if all that was read is still there.
pub struct Job {
    pub key: Key,
    reads: Vec<Read>,
}

struct Entry {
    /// The value, if it has been needed since one of the texts that decide it was changed.
    known: Option<Value>,
    is_pending: bool,
    is_out: bool,
}

impl Entry {
    fn pending() -> Entry {
        Entry {
            known: None,
            is_pending: true,
            is_out: false,
        }
    }
}

#[derive(Clone, Copy)]
pub enum Committed {
    Done(u64),
    NoChange,
    TooManyChanges,
    SameUnitTwice(Symbol),
    StaleBase { unit: Symbol, current: u64 },
    NoSuchUnit(Symbol),
    TooManyUnits,
}

#[derive(Clone, Copy)]
pub enum Delivered {
    Accepted,
    NoSuchKey,
    NotPending,
    Stale(Symbol),
}

#[derive(Clone)]
pub enum Shown {
    Value(Value),
    Pending,
    NoSuchKey,
}

/// The history has no room for one more call.
pub struct HistoryFull;

pub type Called<T> = Result<T, HistoryFull>;

/// A change of a commit. Without a source the unit is removed.
pub struct Edit {
    pub unit: Symbol,
    pub base: u64,
    pub source: Option<Rc<Source>>,
}

pub struct Workbench {
    pub names: Names,
    most_units: usize,
    library: Library,
    commits: u64,
    entries: HashMap<Key, Entry>,
    index: Index,
    /// The keys that are pending and not handed out, by kind and then by name.
    ready: BTreeSet<(Kind, Rc<str>, Symbol)>,
    history: History,
}

impl Workbench {
    pub fn new(most_units: usize, most_calls: usize) -> Workbench {
        Workbench {
            names: Names::default(),
            most_units,
            library: Library::default(),
            commits: 0,
            entries: HashMap::new(),
            index: Index::default(),
            ready: BTreeSet::new(),
            history: History::new(most_calls),
        }
    }
}

impl Workbench {
    /// Empties the history and sets new limits; none where more units are there.
    pub fn checkpoint(&mut self, most_units: usize, most_calls: usize) -> Option<u64> {
        if self.library.len() > most_units {
            return None;
        }
        self.most_units = most_units;
        Some(self.history.restart(most_calls))
    }
}

// ---- commits

impl Workbench {
    pub fn commit(&mut self, edits: Vec<Edit>) -> Called<Committed> {
        self.history.check()?;
        let changes: Vec<Change> = edits.iter().take(MOST_CHANGES + 1).map(Change::of).collect();
        let answer = self.judged(&edits);
        if let Committed::Done(number) = answer {
            self.commits = number;
            self.apply(edits);
        }
        self.history.push(Call::Commit(changes.into()), Answer::Commit(answer));
        Ok(answer)
    }

    fn judged(&self, edits: &[Edit]) -> Committed {
        if edits.is_empty() {
            return Committed::NoChange;
        }
        if edits.len() > MOST_CHANGES {
            return Committed::TooManyChanges;
        }
        let mut seen = HashSet::new();
        if let Some(edit) = edits.iter().find(|edit| !seen.insert(edit.unit)) {
            return Committed::SameUnitTwice(edit.unit);
        }
        if let Some(refusal) = edits.iter().find_map(|edit| self.misfit(edit)) {
            return refusal;
        }
        if self.len_after(edits) > self.most_units {
            return Committed::TooManyUnits;
        }
        Committed::Done(self.commits + 1)
    }

    fn misfit(&self, edit: &Edit) -> Option<Committed> {
        let unit = edit.unit;
        let held = self.library.get(unit);
        if held.is_none() && edit.source.is_none() {
            return Some(Committed::NoSuchUnit(unit));
        }
        let current = held.map_or(0, |held| held.revision);
        (edit.base != current).then_some(Committed::StaleBase { unit, current })
    }

    fn len_after(&self, edits: &[Edit]) -> usize {
        let is_new = |edit: &&Edit| self.library.get(edit.unit).is_none();
        let added = edits.iter().filter(is_new).count();
        let removed = edits.iter().filter(|edit| edit.source.is_none()).count();
        self.library.len() + added - removed
    }

    fn apply(&mut self, edits: Vec<Edit>) {
        let units: Vec<Symbol> = edits.iter().map(|edit| edit.unit).collect();
        for key in self.reached(&units) {
            if let Some(entry) = self.entries.get_mut(&key) {
                *entry = Entry::pending();
                self.ready.insert(self.place(key));
            }
        }
        for edit in edits {
            self.put(edit);
        }
        for unit in units {
            for kind in KINDS {
                self.renew(Key { kind, unit });
            }
        }
    }

    /// The keys that the texts of these units decide: faults of those that they are near to, nets and plans of all that rest on them.
    fn reached(&self, units: &[Symbol]) -> Vec<Key> {
        let key = |kind| move |unit| Key { kind, unit };
        let near = self.index.near(units, &self.library);
        let far = self.index.far(units);
        let mut keys: Vec<Key> = near.into_iter().map(key(Kind::Faults)).collect();
        keys.extend(far.iter().copied().map(key(Kind::Net)));
        keys.extend(far.into_iter().map(key(Kind::Deploy)));
        keys
    }

    fn put(&mut self, edit: Edit) {
        let unit = edit.unit;
        let old = self.library.get(unit).map(|held| held.source.clone());
        let revision = self.commits;
        match edit.source {
            Some(source) => self.library.put(unit, Held { revision, source }),
            None => self.library.remove(unit),
        }
        let nothing = Mentions::default();
        let old = old.as_ref().map_or(&nothing, |source| &source.mentions);
        let new = self.library.get(unit).map_or(&nothing, |held| &held.source.mentions);
        self.index.replace(unit, old, new);
    }

    fn has_key(&self, key: Key) -> bool {
        match (key.kind, self.library.kind(key.unit)) {
            (Kind::Faults, _) => self.library.get(key.unit).is_some(),
            (Kind::Net, kind) => matches!(kind, Some(UnitKind::Subapplication | UnitKind::System)),
            (Kind::Deploy, kind) => kind == Some(UnitKind::System),
        }
    }

    /// Makes a pending entry in place of the entry, if there is such a key.
    fn renew(&mut self, key: Key) {
        if self.has_key(key) {
            self.entries.insert(key, Entry::pending());
            self.ready.insert(self.place(key));
        } else if self.entries.remove(&key).is_some() {
            self.ready.remove(&self.place(key));
        }
    }

    /// The names whose texts decide the value of a key, in order.
    fn needs(&self, key: Key) -> Vec<Symbol> {
        let mut needs = match key.kind {
            Kind::Faults => self.library.near(key.unit),
            Kind::Net | Kind::Deploy => self.library.far(key.unit),
        };
        self.names.sort(&mut needs);
        needs
    }

    /// The place of a key in the order of work.
    fn place(&self, key: Key) -> (Kind, Rc<str>, Symbol) {
        (key.kind, self.names.text(key.unit).clone(), key.unit)
    }
}

// ---- the other calls

impl Workbench {
    /// Hands out the least key that is pending and not handed out.
    pub fn take(&mut self) -> Called<Option<Job>> {
        let key = self.take_key()?;
        Ok(key.map(|key| self.job(key)))
    }

    fn take_key(&mut self) -> Called<Option<Key>> {
        self.history.check()?;
        let key = self.ready.pop_first().map(|(kind, _, unit)| Key { kind, unit });
        if let Some(entry) = key.and_then(|key| self.entries.get_mut(&key)) {
            entry.is_out = true;
        }
        self.history.push(Call::Take, Answer::Take(key));
        Ok(key)
    }

    fn job(&self, key: Key) -> Job {
        let reads = self.needs(key).into_iter().map(|name| Read {
            name,
            revision: self.library.get(name).map(|held| held.revision),
        });
        let reads = reads.collect();
        Job { key, reads }
    }

    /// Takes a key and delivers its value at once, so that all that it needs is still there. Returns whether there was one.
    pub fn work(&mut self) -> Called<bool> {
        let Some(key) = self.take_key()? else {
            return Ok(false);
        };
        self.history.check()?;
        self.finish(key, Delivered::Accepted);
        Ok(true)
    }

    /// Takes the result of a job. It is computed from the present texts, since those that the job has read have to be the same.
    pub fn deliver(&mut self, job: &Job) -> Called<Delivered> {
        self.history.check()?;
        let answer = self.delivery(job);
        self.finish(job.key, answer);
        Ok(answer)
    }

    /// Ends that a key is pending, if the delivery is accepted.
    fn finish(&mut self, key: Key, answer: Delivered) {
        if matches!(answer, Delivered::Accepted) {
            self.find_value(key);
            self.ready.remove(&self.place(key));
            if let Some(entry) = self.entries.get_mut(&key) {
                entry.is_pending = false;
                entry.is_out = false;
            }
        }
        self.history.push(Call::Deliver(key), Answer::Deliver(answer));
    }

    fn delivery(&self, job: &Job) -> Delivered {
        match self.entries.get(&job.key) {
            None => Delivered::NoSuchKey,
            Some(entry) if !entry.is_pending => Delivered::NotPending,
            Some(_) => match job.reads.iter().find(|read| !self.is_current(read)) {
                Some(read) => Delivered::Stale(read.name),
                None => Delivered::Accepted,
            },
        }
    }

    fn is_current(&self, read: &Read) -> bool {
        self.library.get(read.name).map(|held| held.revision) == read.revision
    }

    /// Takes a key's handed-out mark away, and returns whether it had one.
    pub fn give_back(&mut self, key: Key) -> Called<bool> {
        self.history.check()?;
        let place = self.place(key);
        let mut was_out = false;
        if let Some(entry) = self.entries.get_mut(&key).filter(|entry| entry.is_out) {
            was_out = true;
            entry.is_out = false;
            self.ready.insert(place);
        }
        self.history.push(Call::GiveBack(key), Answer::GiveBack(was_out));
        Ok(was_out)
    }

    pub fn ask(&mut self, key: Key) -> Called<Shown> {
        self.history.check()?;
        let shown = match self.entries.get(&key) {
            None => Shown::NoSuchKey,
            Some(entry) => match &entry.known {
                Some(value) if !entry.is_pending => Shown::Value(value.clone()),
                _ => Shown::Pending,
            },
        };
        self.history.push(Call::Ask(key), Answer::Ask(Asked::of(&shown)));
        Ok(shown)
    }
}
