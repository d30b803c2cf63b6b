//! Flat networks, composed of those of inner types. A network keeps what it adds itself and shares the inner ones; blocks are numbers, in the
//! order of the texts. The units that are met have no faults, and none reaches itself.

use super::MOST_INSTANCES;
use crate::library::Library;
use crate::names::Symbol;
use crate::tree::{Connection, End, Instance, Network, Role, Side, Sort, Unit};
use std::rc::Rc;

#[derive(Default)]
pub struct Flat {
    /// The instances of all depths.
    instances: usize,
    /// How many blocks there are in all depths.
    pub blocks: u32,
    /// Its blocks and subapplication instances in the order of the text, or the applications of a system.
    pub items: Vec<Item>,
    /// The links that hold one of its own connections, each once.
    pub links: Vec<Link>,
    /// All borders by sort and port, each once.
    pub borders: Vec<Border>,
}

pub struct Item {
    pub name: Symbol,
    /// The type of an instance. An application has that of its system.
    pub type_name: Symbol,
    /// The place of its declaration, among the instances of the network or the applications of the system.
    pub place: u32,
    /// The number of its first block.
    pub first: u32,
    /// What is in it, if it is no block.
    pub inner: Option<Rc<Flat>>,
}

/// A port of a block, or a port of the adapter there.
#[derive(Clone, Copy, PartialEq, Eq, PartialOrd, Ord)]
pub struct Spot {
    pub block: u32,
    pub port: Symbol,
    pub member: Option<Symbol>,
}

#[derive(Clone, Copy, PartialEq, Eq, PartialOrd, Ord)]
pub struct Link {
    pub sort: Sort,
    pub from: Spot,
    pub to: Spot,
}

#[derive(Clone, Copy, PartialEq, Eq, PartialOrd, Ord)]
pub struct Border {
    pub sort: Sort,
    pub port: Symbol,
    pub spot: Spot,
}

impl Spot {
    /// The spot as it is seen where the blocks begin at this number.
    pub fn behind(self, first: u32) -> Spot {
        let block = first + self.block;
        Spot { block, ..self }
    }

    fn member(self, name: Symbol) -> Spot {
        let member = Some(name);
        Spot { member, ..self }
    }
}

impl Flat {
    /// Adds an item, which holds this number of instances.
    fn add(&mut self, name: Symbol, type_name: Symbol, place: usize, inner: Option<Rc<Flat>>) {
        let item = Item {
            name,
            type_name,
            place: place as u32,
            first: self.blocks,
            inner,
        };
        self.blocks += item.inner.as_ref().map_or(1, |inner| inner.blocks);
        self.instances += item.inner.as_ref().map_or(0, |inner| inner.instances);
        self.items.push(item);
    }

    fn sort(&mut self) {
        self.links.sort_unstable();
        self.links.dedup();
        self.borders.sort_unstable();
        self.borders.dedup();
    }

    fn borders_of(&self, sort: Sort, port: Symbol) -> &[Border] {
        let key = |border: &Border| (border.sort, border.port);
        let start = self.borders.partition_point(|border| key(border) < (sort, port));
        let len = self.borders[start..].partition_point(|border| key(border) == (sort, port));
        &self.borders[start..start + len]
    }
}

/// Composes flat networks of those of inner types.
pub struct Composer<'a> {
    pub library: &'a Library,
    /// The flat network of a subapplication type, or none if it is too large.
    pub inner: &'a dyn Fn(Symbol) -> Option<Rc<Flat>>,
}

// ---- networks

impl Composer<'_> {
    /// The flat network of a subapplication or a system, or none if it is too large.
    pub fn unit(&self, unit: &Unit) -> Option<Flat> {
        let mut flat = self.network(&unit.network)?;
        for (place, application) in unit.system.applications.iter().enumerate() {
            let inner = self.network(&application.network)?;
            flat.add(application.name.symbol, unit.name.symbol, place, Some(Rc::new(inner)));
        }
        (flat.instances <= MOST_INSTANCES).then_some(flat)
    }

    fn network(&self, network: &Network) -> Option<Flat> {
        let mut flat = Flat::default();
        for (place, instance) in network.instances.iter().enumerate() {
            self.instance(place, instance, &mut flat)?;
        }
        let mut ends = Ends::default();
        for connection in &network.connections {
            self.connection(network, connection, &mut ends, &mut flat);
        }
        flat.sort();
        Some(flat)
    }

    fn instance(&self, place: usize, instance: &Instance, flat: &mut Flat) -> Option<()> {
        let type_name = instance.type_name.symbol;
        let inner = match instance.role {
            Role::Plug | Role::Socket => return Some(()),
            Role::Block => None,
            Role::Subapplication => Some((self.inner)(type_name)?),
        };
        flat.add(instance.name.symbol, type_name, place, inner);
        flat.instances += 1;
        (flat.instances <= MOST_INSTANCES).then_some(())
    }
}

// ---- connections

/// The ports of blocks at the ends of a connection.
#[derive(Default)]
struct Ends {
    froms: Vec<Spot>,
    tos: Vec<Spot>,
}

impl Composer<'_> {
    fn connection(&self, network: &Network, connection: &Connection, ends: &mut Ends, flat: &mut Flat) {
        let sort = connection.sort;
        spots_behind(network, sort, &connection.source, flat, &mut ends.froms);
        spots_behind(network, sort, &connection.destination, flat, &mut ends.tos);
        add_borders(sort, &connection.source, &ends.tos, flat);
        add_borders(sort, &connection.destination, &ends.froms, flat);
        for from in ends.froms.iter().copied() {
            for to in ends.tos.iter().copied() {
                match sort {
                    Sort::Adapter => self.adapter_links(network, &connection.source, from, to, flat),
                    _ => flat.links.push(Link { sort, from, to }),
                }
            }
        }
    }

    /// The links of the events and data of an adapter: its outputs go from the plug to the socket, its inputs back.
    fn adapter_links(&self, network: &Network, source: &End, plug: Spot, socket: Spot, flat: &mut Flat) {
        let adapter = self.adapter_name(network, source).and_then(|name| self.library.unit(name));
        let Some(adapter) = adapter else {
            return;
        };
        let events = adapter.interface.events.iter().map(|event| (Sort::Event, event.side, event.name));
        let variables = adapter.interface.variables.iter().map(|it| (Sort::Data, it.side, it.name));
        for (sort, side, name) in events.chain(variables) {
            let (plug, socket) = (plug.member(name.symbol), socket.member(name.symbol));
            let (from, to) = if side == Side::Output { (plug, socket) } else { (socket, plug) };
            flat.links.push(Link { sort, from, to });
        }
    }

    /// The adapter type of the plug or socket that an end names.
    fn adapter_name(&self, network: &Network, end: &End) -> Option<Symbol> {
        let type_name = network.instances[network.place(end.first)?].type_name.symbol;
        match end.second {
            None => Some(type_name),
            Some(port) => {
                let inner = &self.library.unit(type_name)?.network;
                Some(inner.instances[inner.place(port)?].type_name.symbol)
            }
        }
    }
}

/// Finds the ports of blocks at an end: none at an own port.
fn spots_behind(network: &Network, sort: Sort, end: &End, flat: &Flat, found: &mut Vec<Spot>) {
    found.clear();
    let (Some(port), Some(place)) = (end.second, network.place(end.first)) else {
        return;
    };
    let Ok(at) = flat.items.binary_search_by_key(&(place as u32), |item| item.place) else {
        return;
    };
    let item = &flat.items[at];
    match &item.inner {
        None => found.push(Spot {
            block: item.first,
            port,
            member: None,
        }),
        Some(inner) => found.extend(inner.borders_of(sort, port).iter().map(|border| border.spot.behind(item.first))),
    }
}

/// Adds the borders of an own port that is joined with these spots.
fn add_borders(sort: Sort, end: &End, spots: &[Spot], flat: &mut Flat) {
    if end.second.is_none() {
        let port = end.first;
        flat.borders.extend(spots.iter().map(|spot| Border { sort, port, spot: *spot }));
    }
}
