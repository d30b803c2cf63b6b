//! The plan of a system: where its blocks are, and the constants that are written to them. Its commands are made where they are shown.

use crate::library::Library;
use crate::names::{Names, Symbol};
use crate::nets::{Flat, Net, Shown};
use crate::tokens::{tokens, Span};
use crate::tree::{Constant, Instance, Network, System};
use std::collections::HashMap;
use std::rc::Rc;

pub enum Plan {
    Stopped(Rc<Net>),
    /// Blocks that no mapping places, and mappings that place nothing.
    Faulty {
        unmapped: Vec<String>,
        astray: Vec<String>,
    },
    Planned(Planned),
}

pub struct Planned {
    pub flat: Rc<Flat>,
    pub resources: Vec<Resource>,
    /// The number of the resource of each block.
    pub homes: Vec<u32>,
    pub writes: Vec<Write>,
    /// The constants of all writes.
    pub constants: String,
}

/// A resource with its device.
#[derive(Clone, Copy, PartialEq, Eq, Hash)]
pub struct Resource {
    pub device: Symbol,
    pub name: Symbol,
}

/// A constant that is written to a parameter of a block.
#[derive(Clone, Copy)]
pub struct Write {
    pub block: u32,
    pub parameter: Symbol,
    pub constant: Span,
}

/// The plan of a system without faults whose net this is.
pub fn plan(system: Symbol, net: Rc<Net>, library: &Library, names: &Names) -> Plan {
    match (&*net, library.unit(system)) {
        (Net::Flat(flat), Some(unit)) => {
            let mut planner = Planner::new(&unit.system, library);
            planner.applications(system, &unit.system, flat);
            planner.plan(&unit.system, flat.clone(), names)
        }
        _ => Plan::Stopped(net),
    }
}

// ---- mapped paths

/// The paths of the mappings as a tree of names. The root has no name.
struct Mapped {
    children: HashMap<(usize, Symbol), usize>,
    nodes: Vec<Node>,
}

#[derive(Default)]
struct Node {
    /// The resource that the first mapping of the path names.
    home: Option<u32>,
    /// Something is there.
    is_met: bool,
}

impl Mapped {
    fn new(system: &System, resources: &[Resource]) -> Mapped {
        let numbers: HashMap<Resource, u32> = resources.iter().copied().zip(0..).collect();
        let mut mapped = Mapped {
            children: HashMap::new(),
            nodes: vec![Node::default()],
        };
        for mapping in &system.mappings {
            let (device, name) = (mapping.device.symbol, mapping.resource.symbol);
            let node = mapped.node(&mapping.path);
            let home = &mut mapped.nodes[node].home;
            *home = home.or(numbers.get(&Resource { device, name }).copied());
        }
        mapped
    }

    /// The node of a path, which is made if it is not there.
    fn node(&mut self, path: &[Symbol]) -> usize {
        let mut node = 0;
        for name in path {
            let next = self.nodes.len();
            node = *self.children.entry((node, *name)).or_insert(next);
            if node == next {
                self.nodes.push(Node::default());
            }
        }
        node
    }
}

impl Mapped {
    /// Whether something is at a path, which a mapping has.
    fn is_met(&self, path: &[Symbol]) -> bool {
        let child = |node, name: &Symbol| self.children.get(&(node, *name)).copied();
        path.iter().try_fold(0, child).is_some_and(|node| self.nodes[node].is_met)
    }
}

/// What the mappings say of a place in the network.
#[derive(Clone, Copy)]
struct Place {
    /// The node of its path, if a mapping begins so.
    node: Option<usize>,
    /// The resource of the longest front of its path.
    home: Option<u32>,
}

impl Mapped {
    fn root(&self) -> Place {
        let (node, home) = (Some(0), None);
        Place { node, home }
    }

    /// Continues at a place of this name, which is there.
    fn meet(&mut self, outer: Place, name: Symbol) -> Place {
        let node = outer.node.and_then(|node| self.children.get(&(node, name)).copied());
        let mut home = outer.home;
        if let Some(node) = node {
            self.nodes[node].is_met = true;
            home = self.nodes[node].home.or(home);
        }
        Place { node, home }
    }
}

// ---- plans

struct Planner<'a> {
    library: &'a Library,
    resources: Vec<Resource>,
    mapped: Mapped,
    /// Of each block, by number.
    homes: Vec<Option<u32>>,
    writes: Vec<Write>,
    constants: String,
}

impl<'a> Planner<'a> {
    fn new(system: &System, library: &'a Library) -> Planner<'a> {
        let resources = resources(system);
        Planner {
            library,
            mapped: Mapped::new(system, &resources),
            resources,
            homes: Vec::new(),
            writes: Vec::new(),
            constants: String::new(),
        }
    }

    /// Goes over all that is in the system.
    fn applications(&mut self, unit: Symbol, system: &System, flat: &Flat) {
        for (item, application) in flat.items.iter().zip(&system.applications) {
            let place = self.mapped.meet(self.mapped.root(), item.name);
            if let Some(inner) = &item.inner {
                self.network(unit, &application.network, inner, place);
            }
        }
    }

    /// Goes over a network that a unit declares, by its flat network.
    fn network(&mut self, unit: Symbol, network: &Network, flat: &Flat, outer: Place) {
        for item in &flat.items {
            let place = self.mapped.meet(outer, item.name);
            match &item.inner {
                None => {
                    self.writes_to(unit, &network.instances[item.place as usize]);
                    self.homes.push(place.home);
                }
                Some(inner) => {
                    if let Some(holder) = self.library.unit(item.type_name) {
                        self.network(item.type_name, &holder.network, inner, place);
                    }
                }
            }
        }
    }

    /// Adds the parameters of the block that comes next.
    fn writes_to(&mut self, unit: Symbol, instance: &Instance) {
        for (name, constant) in &instance.parameters {
            let start = self.constants.len();
            self.add_constant(unit, constant);
            self.writes.push(Write {
                block: self.homes.len() as u32,
                parameter: name.symbol,
                constant: Span::new(start, self.constants.len()),
            });
        }
    }

    /// Adds a constant as the text has it, without blanks and comments between its tokens.
    fn add_constant(&mut self, unit: Symbol, constant: &Constant) {
        let span = match constant {
            Constant::One(simple) => simple.span,
            Constant::List(_, span) => *span,
        };
        let part = self.library.get(unit).map_or("", |held| span.of(&held.source.text));
        let tokens = tokens(part).unwrap_or_default();
        self.constants.extend(tokens.iter().map(|token| token.span.of(part)));
    }

    fn plan(self, system: &System, flat: Rc<Flat>, names: &Names) -> Plan {
        let astray = self.astray(system, names);
        let homes: Option<Vec<u32>> = self.homes.iter().copied().collect();
        match homes {
            Some(homes) if astray.is_empty() => Plan::Planned(Planned {
                flat,
                resources: self.resources,
                homes,
                writes: self.writes,
                constants: self.constants,
            }),
            _ => {
                let unmapped = self.unmapped(&flat, names);
                Plan::Faulty { unmapped, astray }
            }
        }
    }

    /// The paths of blocks without homes, in order.
    fn unmapped(&self, flat: &Flat, names: &Names) -> Vec<String> {
        let shown = Shown::new(flat, names);
        let homeless = shown.order.iter().filter(|number| self.homes[**number as usize].is_none());
        homeless.map(|number| shown.path(*number).to_string()).collect()
    }

    /// The mapped paths at which nothing is, in order, each once.
    fn astray(&self, system: &System, names: &Names) -> Vec<String> {
        let paths = system.mappings.iter().map(|mapping| &mapping.path);
        let mut found: Vec<String> = paths.filter(|path| !self.mapped.is_met(path)).map(|path| dotted(path, names)).collect();
        found.sort_unstable();
        found.dedup();
        found
    }
}

fn dotted(path: &[Symbol], names: &Names) -> String {
    let names: Vec<&str> = path.iter().map(|name| &**names.text(*name)).collect();
    names.join(".")
}

/// All resources in the order of the text.
fn resources(system: &System) -> Vec<Resource> {
    let mut found = Vec::new();
    for device in &system.devices {
        let device_name = device.name.symbol;
        found.extend(device.resources.iter().map(|resource| Resource {
            device: device_name,
            name: resource.symbol,
        }));
    }
    found
}
