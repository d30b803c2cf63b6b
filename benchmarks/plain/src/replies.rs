//! Values as JSON. Paths, links and commands are made here, of nets and plans that are asked for.

use crate::faults::Fault;
use crate::machine::{Kind, Value};
use crate::names::{Names, Symbol};
use crate::nets::{Flat, Link, Net, Shown, Spot};
use crate::plans::{Plan, Planned, Resource, Write};
use crate::tree::Sort;
use std::fmt::Write as _;

pub fn kind_text(kind: Kind) -> &'static str {
    match kind {
        Kind::Faults => "faults",
        Kind::Net => "net",
        Kind::Deploy => "deploy",
    }
}

pub fn value_reply(value: &Value, names: &Names) -> String {
    let mut out = String::new();
    match value {
        Value::Faults(faults) => {
            out.push_str("{\"faults\":");
            add_list(&mut out, faults.iter(), add_fault);
        }
        Value::Net(net) => {
            out.push_str("{\"net\":");
            add_net(&mut out, net, names);
        }
        Value::Plan(plan) => {
            out.push_str("{\"deploy\":");
            add_plan(&mut out, plan, names);
        }
    }
    out.push('}');
    out
}

/// Adds a list of items, each by this function.
fn add_list<T>(out: &mut String, items: impl Iterator<Item = T>, mut add: impl FnMut(&mut String, T)) {
    out.push('[');
    for (at, item) in items.enumerate() {
        if at > 0 {
            out.push(',');
        }
        add(out, item);
    }
    out.push(']');
}

fn add_all(out: &mut String, parts: &[&str]) {
    for part in parts {
        out.push_str(part);
    }
}

fn add_fault(out: &mut String, fault: &Fault) {
    let (word, start, end) = (fault.code.word(), fault.span.start, fault.span.end);
    write!(out, "[\"{word}\",{start},{end}]").expect("a String takes all");
}

// ---- nets

fn add_net(out: &mut String, net: &Net, names: &Names) {
    match net {
        Net::Blocked(found) => add_names(out, "blocked", found, names),
        Net::Recursive(found) => add_names(out, "recursive", found, names),
        Net::TooLarge => out.push_str("\"too_large\""),
        Net::Flat(flat) => add_flat(out, flat, names),
    }
}

fn add_names(out: &mut String, word: &str, found: &[Symbol], names: &Names) {
    add_all(out, &["{\"", word, "\":"]);
    add_list(out, found.iter(), |out, name| add_all(out, &["\"", names.text(*name), "\""]));
    out.push('}');
}

fn add_flat(out: &mut String, flat: &Flat, names: &Names) {
    let shown = Shown::new(flat, names);
    out.push_str("{\"blocks\":");
    add_list(out, 0..flat.blocks, |out, number| {
        add_all(out, &["[\"", shown.path(number), "\",\"", shown.type_name(number), "\"]"]);
    });
    out.push_str(",\"borders\":");
    add_list(out, shown.borders().iter(), |out, border| {
        add_all(out, &["[\"", sort_text(border.sort), "\",\"", shown.name(border.port), "\",\""]);
        add_spot(out, border.spot, &shown);
        out.push_str("\"]");
    });
    out.push_str(",\"links\":");
    add_list(out, shown.links().iter(), |out, link| add_link(out, link, &shown));
    out.push('}');
}

fn sort_text(sort: Sort) -> &'static str {
    match sort {
        Sort::Event => "event",
        Sort::Data => "data",
        Sort::Adapter => "adapter",
    }
}

fn add_link(out: &mut String, link: &Link, shown: &Shown) {
    add_all(out, &["[\"", sort_text(link.sort), "\",\""]);
    add_spot(out, link.from, shown);
    out.push_str("\",\"");
    add_spot(out, link.to, shown);
    out.push_str("\"]");
}

fn add_spot(out: &mut String, spot: Spot, shown: &Shown) {
    add_all(out, &[shown.path(spot.block), ".", shown.name(spot.port)]);
    if let Some(member) = spot.member {
        add_all(out, &[".", shown.name(member)]);
    }
}

// ---- plans

fn add_plan(out: &mut String, plan: &Plan, names: &Names) {
    match plan {
        Plan::Stopped(net) => {
            out.push_str("{\"stopped\":");
            add_net(out, net, names);
            out.push('}');
        }
        Plan::Faulty { unmapped, astray } => {
            let unmapped = unmapped.iter().map(|path| ("UNMAPPED", path));
            let astray = astray.iter().map(|path| ("NO_SUCH_BLOCK", path));
            out.push_str("{\"faulty\":");
            add_list(out, unmapped.chain(astray), |out, (word, path)| {
                add_all(out, &["[\"", word, "\",\"", path, "\"]"])
            });
            out.push('}');
        }
        Plan::Planned(planned) => Commands::new(planned, names).add(out),
    }
}

/// What is shown of one resource, each list in its order.
#[derive(Clone, Default)]
struct Told {
    blocks: Vec<u32>,
    writes: Vec<Write>,
    links: Vec<Link>,
}

struct Commands<'a> {
    planned: &'a Planned,
    shown: Shown<'a>,
    cuts: Vec<Link>,
    /// By the number of the resource.
    told: Vec<Told>,
}

impl<'a> Commands<'a> {
    fn new(planned: &'a Planned, names: &'a Names) -> Commands<'a> {
        let mut commands = Commands {
            planned,
            shown: Shown::new(&planned.flat, names),
            cuts: Vec::new(),
            told: vec![Told::default(); planned.resources.len()],
        };
        for block in &commands.shown.order {
            commands.told[planned.homes[*block as usize] as usize].blocks.push(*block);
        }
        for write in commands.writes() {
            commands.told[planned.homes[write.block as usize] as usize].writes.push(write);
        }
        for link in commands.shown.links() {
            let [from, to] = [link.from, link.to].map(|spot| planned.homes[spot.block as usize]);
            let list = if from == to {
                &mut commands.told[from as usize].links
            } else {
                &mut commands.cuts
            };
            list.push(link);
        }
        commands
    }

    /// By the path of the block, then by the parameter.
    fn writes(&self) -> Vec<Write> {
        let mut writes = self.planned.writes.clone();
        writes.sort_unstable_by_key(|write| (self.shown.rank(write.block), self.shown.name(write.parameter)));
        writes
    }

    fn add(&self, out: &mut String) {
        out.push_str("{\"cuts\":");
        add_list(out, self.cuts.iter(), |out, link| add_link(out, link, &self.shown));
        out.push_str(",\"resources\":");
        let resources = self.planned.resources.iter().zip(&self.told);
        add_list(out, resources, |out, (resource, told)| self.add_resource(out, *resource, told));
        out.push('}');
    }

    fn add_resource(&self, out: &mut String, resource: Resource, told: &Told) {
        let (device, name) = (self.shown.name(resource.device), self.shown.name(resource.name));
        add_all(out, &["[\"", device, ".", name, "\",["]);
        for block in &told.blocks {
            add_all(out, &["\"CREATE FB ", self.shown.path(*block), " ", self.shown.type_name(*block), "\","]);
        }
        for write in &told.writes {
            self.add_write(out, write);
        }
        for link in &told.links {
            out.push_str("\"CREATE CONNECTION ");
            add_spot(out, link.from, &self.shown);
            out.push(' ');
            add_spot(out, link.to, &self.shown);
            out.push_str("\",");
        }
        add_all(out, &["\"START ", device, ".", name, "\"]]"]);
    }

    fn add_write(&self, out: &mut String, write: &Write) {
        let (path, parameter) = (self.shown.path(write.block), self.shown.name(write.parameter));
        add_all(out, &["\"WRITE ", path, ".", parameter, " "]);
        add_escaped(out, write.constant.of(&self.planned.constants));
        out.push_str("\",");
    }
}

/// Adds a text that may hold any characters, as constants do.
fn add_escaped(out: &mut String, text: &str) {
    for c in text.chars() {
        match c {
            '"' | '\\' => out.extend(['\\', c]),
            '\u{8}' => out.push_str("\\b"),
            '\u{c}' => out.push_str("\\f"),
            '\n' => out.push_str("\\n"),
            '\r' => out.push_str("\\r"),
            '\t' => out.push_str("\\t"),
            c if c < ' ' => write!(out, "\\u{:04x}", u32::from(c)).expect("a String takes all"),
            c => out.push(c),
        }
    }
}
