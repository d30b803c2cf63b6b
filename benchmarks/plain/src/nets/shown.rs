//! A flat network as replies show it: with paths, and all links in the order of their bytes.

use super::flat::{Border, Flat, Link, Spot};
use crate::names::{Names, Symbol};
use std::cmp::Ordering;

/// A block as it is shown.
struct Block {
    /// Where its path is in the text of all paths.
    start: usize,
    end: usize,
    type_name: Symbol,
    /// How many paths come before it in the order of bytes.
    rank: u32,
}

pub struct Shown<'a> {
    names: &'a Names,
    flat: &'a Flat,
    paths: String,
    /// By number.
    blocks: Vec<Block>,
    /// The numbers of the blocks in the order of their paths.
    pub order: Vec<u32>,
}

impl<'a> Shown<'a> {
    pub fn new(flat: &'a Flat, names: &'a Names) -> Shown<'a> {
        let mut shown = Shown {
            names,
            flat,
            paths: String::new(),
            blocks: Vec::with_capacity(flat.blocks as usize),
            order: Vec::with_capacity(flat.blocks as usize),
        };
        shown.add_paths(flat, &mut String::new());
        shown.add_order(flat, 0);
        for (rank, number) in shown.order.iter().enumerate() {
            shown.blocks[*number as usize].rank = rank as u32;
        }
        shown
    }

    pub fn path(&self, number: u32) -> &str {
        let block = &self.blocks[number as usize];
        &self.paths[block.start..block.end]
    }

    pub fn type_name(&self, number: u32) -> &str {
        self.names.text(self.blocks[number as usize].type_name)
    }

    pub fn name(&self, name: Symbol) -> &str {
        self.names.text(name)
    }

    pub fn rank(&self, number: u32) -> u32 {
        self.blocks[number as usize].rank
    }

    /// Adds the paths of all blocks of this network, which is after these names.
    fn add_paths(&mut self, flat: &Flat, front: &mut String) {
        for item in &flat.items {
            let len = front.len();
            front.push_str(self.names.text(item.name));
            match &item.inner {
                None => self.add_path(front, item.type_name),
                Some(inner) => {
                    front.push('.');
                    self.add_paths(inner, front);
                }
            }
            front.truncate(len);
        }
    }

    fn add_path(&mut self, path: &str, type_name: Symbol) {
        let start = self.paths.len();
        self.paths.push_str(path);
        self.blocks.push(Block {
            start,
            end: self.paths.len(),
            type_name,
            rank: 0,
        });
    }

    /// A point comes before all bytes of names, so paths are in the order of their names one after the other.
    fn add_order(&mut self, flat: &Flat, first: u32) {
        let mut items: Vec<(&str, usize)> = flat.items.iter().map(|item| &**self.names.text(item.name)).zip(0..).collect();
        items.sort_unstable();
        for item in items.into_iter().map(|(_, at)| &flat.items[at]) {
            match &item.inner {
                None => self.order.push(first + item.first),
                Some(inner) => self.add_order(inner, first + item.first),
            }
        }
    }
}

// ---- links and borders

impl Shown<'_> {
    /// All links in order, each once.
    pub fn links(&self) -> Vec<Link> {
        let mut found = Vec::new();
        add_links(self.flat, 0, &mut found);
        let mut sorted = found.clone();
        let mut ends = self.group_ends(&found);
        for link in found.iter().rev() {
            let end = &mut ends[self.group(link)];
            *end -= 1;
            sorted[*end] = *link;
        }
        for group in sorted.chunk_by_mut(|a, b| self.group(a) == self.group(b)) {
            group.sort_unstable_by(|a, b| self.compare_in_group(a, b));
        }
        sorted.dedup();
        sorted
    }

    /// The number of the group of links of one sort from one block.
    fn group(&self, link: &Link) -> usize {
        link.sort as usize * self.blocks.len() + self.rank(link.from.block) as usize
    }

    /// Where the links of each group end, counted.
    fn group_ends(&self, links: &[Link]) -> Vec<usize> {
        let mut ends = vec![0; 3 * self.blocks.len()];
        for link in links {
            ends[self.group(link)] += 1;
        }
        let mut sum = 0;
        for end in &mut ends {
            sum += *end;
            *end = sum;
        }
        ends
    }

    fn compare_in_group(&self, a: &Link, b: &Link) -> Ordering {
        self.compare_ports(a.from, b.from).then_with(|| self.compare(a.to, b.to))
    }

    pub fn borders(&self) -> Vec<Border> {
        let mut sorted = self.flat.borders.clone();
        sorted.sort_unstable_by(|a, b| {
            let ports = || self.name(a.port).cmp(self.name(b.port));
            a.sort.cmp(&b.sort).then_with(ports).then_with(|| self.compare(a.spot, b.spot))
        });
        sorted
    }

    fn compare(&self, a: Spot, b: Spot) -> Ordering {
        let ranks = self.rank(a.block).cmp(&self.rank(b.block));
        ranks.then_with(|| self.compare_ports(a, b))
    }

    fn compare_ports(&self, a: Spot, b: Spot) -> Ordering {
        if a.port != b.port {
            return self.name(a.port).cmp(self.name(b.port));
        }
        let text = |member: Option<Symbol>| member.map(|name| self.name(name));
        text(a.member).cmp(&text(b.member))
    }
}

/// Adds the links of this network, whose blocks begin at this number, and those of the networks in it.
fn add_links(flat: &Flat, first: u32, found: &mut Vec<Link>) {
    found.extend(flat.links.iter().map(|link| Link {
        from: link.from.behind(first),
        to: link.to.behind(first),
        ..*link
    }));
    for item in &flat.items {
        if let Some(inner) = &item.inner {
            add_links(inner, first + item.first, found);
        }
    }
}
