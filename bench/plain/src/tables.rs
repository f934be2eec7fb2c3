//! The tables of a line, and the rules that refuse edits of them.

use crate::input::{Cause, Edit, Kind, Names, Verb};
use std::collections::HashMap;
use std::sync::Arc;

pub type Name = Arc<[u8]>;

#[derive(Clone, Copy)]
pub struct Leg { pub running: u32, pub dwell: u32 }

pub struct Block { pub length: u32 }
#[rustfmt::skip]
pub struct Signal {
    pub block: u32, pub approach: u32, pub watch: u32, pub form: u32, pub overlap: u32, pub release: u32,
}
pub struct Run { pub route: u32, pub length: u32, pub tail: u32, pub start: u32, pub legs: Vec<Leg> }
pub struct Section { pub from: u32, pub to: u32, pub rate: u32 }
pub struct Connect { pub first: u32, pub second: u32, pub minimum: u32 }

/// How many items of each kind there may be, in the order of `Kind`.
const MOST: [usize; 6] = [4096, 8192, 4096, 2048, 64, 1024];
/// The kind of the items that one of each kind names; blocks name nothing.
const NAMED: [Kind; 6] = [Kind::Block, Kind::Block, Kind::Signal, Kind::Route, Kind::Block, Kind::Run];

/// What is known of an item of any kind.
struct Entry {
    name: Name,
    there: bool,
    /// How many items name this one, and the numbers of those that it names itself.
    users: u32,
    named: Vec<u32>,
}

/// The names of one kind. Each item has a number, by which others name it; the number of a dropped item is
/// given to one that is put later, so numbers stay below the limit of the kind.
#[derive(Default)]
pub struct Table {
    numbers: HashMap<Name, u32>,
    entries: Vec<Entry>,
    free: Vec<u32>,
}

impl Table {
    pub fn find(&self, name: &[u8]) -> Option<u32> {
        self.numbers.get(name).copied()
    }

    /// The numbers of a list of names, which often follows the order in which they were put.
    fn find_all(&self, names: Names) -> Result<Vec<u32>, Cause> {
        let mut found = Vec::with_capacity(names.iter().len());
        let mut near = 0;
        for name in names.iter() {
            let guess = self.entries.get(near as usize).filter(|entry| entry.there && *entry.name == *name);
            let number = if guess.is_some() { near } else { self.find(name).ok_or("unknown")? };
            found.push(number);
            near = number + 1;
        }
        Ok(found)
    }

    pub fn has(&self, number: u32) -> bool {
        self.entries[number as usize].there
    }

    /// The name of the item of a number, or of the last one that had it.
    pub fn name(&self, number: u32) -> &Name {
        &self.entries[number as usize].name
    }

    /// The numbers of what an item names: the signals of a route, the blocks of a section.
    pub fn named(&self, number: u32) -> &[u32] {
        &self.entries[number as usize].named
    }

    fn is_used(&self, number: u32) -> bool {
        self.entries[number as usize].users > 0
    }

    /// All numbers are below this one.
    pub fn room(&self) -> usize {
        self.entries.len()
    }

    pub fn numbers(&self) -> impl Iterator<Item = u32> + '_ {
        (0..self.entries.len() as u32).filter(|&number| self.has(number))
    }

    /// The numbers in the order of names.
    pub fn by_name(&self) -> Vec<u32> {
        let mut numbers: Vec<u32> = self.numbers().collect();
        numbers.sort_unstable_by(|&a, &b| self.name(a).cmp(self.name(b)));
        numbers
    }

    /// The names of all numbers.
    pub fn names(&self) -> Vec<Name> {
        self.entries.iter().map(|entry| entry.name.clone()).collect()
    }

    fn put(&mut self, name: &[u8]) -> u32 {
        let name = Name::from(name);
        let entry = Entry { name: name.clone(), there: true, users: 0, named: Vec::new() };
        let number = self.free.pop().unwrap_or(self.entries.len() as u32);
        set(&mut self.entries, number, entry);
        self.numbers.insert(name, number);
        number
    }

    fn drop(&mut self, number: u32) {
        let entry = &mut self.entries[number as usize];
        entry.there = false;
        self.numbers.remove(&entry.name);
        self.free.push(number);
    }

    fn count(&mut self, numbers: &[u32], by: i32) {
        for &number in numbers {
            let users = &mut self.entries[number as usize].users;
            *users = users.wrapping_add_signed(by);
        }
    }
}

fn set<T>(items: &mut Vec<T>, number: u32, item: T) {
    match items.get_mut(number as usize) {
        Some(old) => *old = item,
        None => items.push(item),
    }
}

/// The item that an edit has put, changed or dropped, and what it names or named.
pub struct Change { pub kind: Kind, pub number: u32, pub named: Vec<u32> }

/// Of each signal and of each block the routes that pass it, with a bit for each of 4,096 routes.
struct Passing { signals: Vec<[u64; 64]>, blocks: Vec<[u64; 64]> }

impl Passing {
    fn of(routes: &Table, signals: &[Signal]) -> Passing {
        let none = |kind| vec![[0; 64]; MOST[kind as usize]];
        let mut passing = Passing { signals: none(Kind::Signal), blocks: none(Kind::Block) };
        routes.numbers().for_each(|route| passing.turn(Kind::Route, route, routes.named(route), signals));
        passing
    }

    /// Turns the bit of a route, or those of a signal's routes, at what it names now and at what it named
    /// before; where it names it still, they are turned twice and stay.
    fn turn(&mut self, kind: Kind, number: u32, named: &[u32], signals: &[Signal]) {
        let number = number as usize;
        for named in named.iter().map(|&named| named as usize) {
            if kind == Kind::Signal {
                let pairs = self.blocks[named].iter_mut().zip(&self.signals[number]);
                pairs.for_each(|(block, signal)| *block ^= signal);
            } else if kind == Kind::Route {
                self.signals[named][number / 64] ^= 1 << (number % 64);
                self.blocks[signals[named].block as usize][number / 64] ^= 1 << (number % 64);
            }
        }
    }
}

/// The tables; of each kind the items stand by their numbers.
#[derive(Default)]
pub struct Line {
    tables: [Table; 6],
    pub blocks: Vec<Block>,
    pub signals: Vec<Signal>,
    pub runs: Vec<Run>,
    pub sections: Vec<Section>,
    pub connects: Vec<Connect>,
    /// For each block the last look at a list of blocks that saw it.
    seen: Vec<u32>,
    looks: u32,
    /// Made when a signal is to move to another block for the first time.
    passing: Option<Passing>,
}

impl Line {
    pub fn table(&self, kind: Kind) -> &Table {
        &self.tables[kind as usize]
    }

    /// Makes an edit, or tells the first rule that refuses it.
    pub fn apply(&mut self, edit: Edit) -> Result<Change, Cause> {
        let Edit { verb, kind, name, names, .. } = edit;
        let table = self.table(kind);
        let found = table.find(name);
        if !edit.is_in_range() {
            return Err("range");
        }
        if verb == Verb::Put && (found.is_some() || self.is_taken(kind, name)) {
            return Err("twice");
        }
        if verb != Verb::Put && found.is_none() {
            return Err("unknown");
        }
        if verb == Verb::Put && table.numbers.len() == MOST[kind as usize] {
            return Err("limit");
        }
        let new = self.table(NAMED[kind as usize]).find_all(names)?;
        if verb != Verb::Drop {
            self.check(kind, found, &new, edit.legs.len())?;
        } else if found.is_some_and(|number| self.table(kind).is_used(number)) {
            return Err("in-use");
        }
        Ok(self.make(edit, found, new))
    }

    /// Whether a block has the name of a connection, or the other way round.
    fn is_taken(&self, kind: Kind, name: &[u8]) -> bool {
        let has = |other| self.table(other).find(name).is_some();
        kind == Kind::Block && has(Kind::Connect) || kind == Kind::Connect && has(Kind::Block)
    }

    /// The last rules of a put or a change, of what the item names.
    fn check(&mut self, kind: Kind, found: Option<u32>, named: &[u32], legs: usize) -> Result<(), Cause> {
        let twice = match kind {
            Kind::Block | Kind::Run => false,
            Kind::Signal => found.is_some_and(|signal| self.meets(signal, named[0])),
            Kind::Route => {
                let blocks: Vec<u32> = named.iter().map(|&signal| self.signals[signal as usize].block).collect();
                self.names_twice(&blocks)
            }
            Kind::Section => self.names_twice(named),
            Kind::Connect => named[0] == named[1],
        };
        let routes = self.table(Kind::Route);
        let miscounts = match kind {
            Kind::Run => routes.named(named[0]).len() != legs,
            Kind::Route => found.is_some_and(|route| routes.is_used(route) && routes.named(route).len() != named.len()),
            _ => false,
        };
        if twice { Err("twice") } else if miscounts { Err("count") } else { Ok(()) }
    }

    fn names_twice(&mut self, blocks: &[u32]) -> bool {
        self.looks += 1;
        self.seen.resize(self.blocks.len(), 0);
        blocks.iter().any(|&block| std::mem::replace(&mut self.seen[block as usize], self.looks) == self.looks)
    }

    /// Whether a route of the signal has another one at the block.
    fn meets(&mut self, signal: u32, block: u32) -> bool {
        if self.signals[signal as usize].block == block {
            return false;
        }
        let (routes, signals) = (&self.tables[Kind::Route as usize], &self.signals);
        let passing = self.passing.get_or_insert_with(|| Passing::of(routes, signals));
        let mut pairs = passing.signals[signal as usize].iter().zip(&passing.blocks[block as usize]);
        pairs.any(|(signal, block)| signal & block != 0)
    }

    /// Makes an edit that no rule refuses.
    fn make(&mut self, edit: Edit, found: Option<u32>, new: Vec<u32>) -> Change {
        let kind = edit.kind;
        let table = &mut self.tables[kind as usize];
        let number = found.unwrap_or_else(|| table.put(edit.name));
        let old = std::mem::replace(&mut table.entries[number as usize].named, new.clone());
        let named_table = &mut self.tables[NAMED[kind as usize] as usize];
        named_table.count(&new, 1);
        named_table.count(&old, -1);
        if edit.verb == Verb::Drop {
            self.tables[kind as usize].drop(number);
        } else {
            self.store(edit, number, &new);
        }
        let named = [old, new].concat();
        self.passing.iter_mut().for_each(|passing| passing.turn(kind, number, &named, &self.signals));
        Change { kind, number, named }
    }

    fn store(&mut self, edit: Edit, number: u32, named: &[u32]) {
        let [a, b, c, d, e] = edit.numbers;
        match (edit.kind, named) {
            (Kind::Block, _) => set(&mut self.blocks, number, Block { length: a }),
            (Kind::Signal, &[block]) => {
                let signal = Signal { block, approach: a, watch: b, form: c, overlap: d, release: e };
                set(&mut self.signals, number, signal);
            }
            (Kind::Run, &[route]) => {
                set(&mut self.runs, number, Run { route, length: a, tail: b, start: c, legs: edit.legs });
            }
            (Kind::Section, _) => set(&mut self.sections, number, Section { from: a, to: b, rate: c }),
            (Kind::Connect, &[first, second]) => {
                set(&mut self.connects, number, Connect { first, second, minimum: a });
            }
            _ => (),
        }
    }

    /// Whether the way of a run depends on the block, signal or route of a change.
    pub fn depends(&self, run: u32, change: &Change) -> bool {
        let route = self.runs[run as usize].route;
        let signals = self.table(Kind::Route).named(route);
        match change.kind {
            Kind::Block => signals.iter().any(|&signal| self.signals[signal as usize].block == change.number),
            Kind::Signal => signals.contains(&change.number),
            _ => change.number == route,
        }
    }
}
