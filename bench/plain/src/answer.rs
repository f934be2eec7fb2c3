//! The answer of a section's cut: the least schedule of its trains in the order that they have, or where they
//! have none.
//!
//! At each place the uses are kept in order. A use is never empty, so a train that comes after its neighbour
//! comes after all before it too, and the neighbours alone are looked at.

use crate::cut::{Cut, FIRST_BLOCK};
use crate::stairs::Use;
use std::sync::Arc;

/// A use in the list of its place.
#[derive(Clone, Copy)]
pub struct Spot { pub start: i32, pub end: i32, pub train: u32 }

impl Spot {
    pub fn key(&self) -> (i32, u32) {
        (self.start, self.train)
    }
}

/// One train precedes another at a place.
#[derive(Clone, Copy, PartialEq, Eq)]
pub struct Tie { pub train: u32, pub place: u32 }

pub enum Disorder {
    /// The first precedes the second at the one place, and the second the first at the other.
    Opposite { first: u32, second: u32, places: [u32; 2] },
    /// Each train precedes the next at the place, and the last the first.
    Ring(Vec<Tie>),
}

pub struct Answer {
    pub cut: Cut,
    /// The uses of each place, by their starts and then by the names of the trains.
    pub lists: Vec<Vec<Spot>>,
    /// The least shift of each train from its planned entry.
    pub floors: Vec<i64>,
    /// The shifts of the least schedule, and what holds each train that isn't at its floor.
    pub shifts: Vec<i64>,
    pub ties: Vec<Option<Tie>>,
    /// Trains, each after all that precede it; not all where they have no order.
    order: Vec<u32>,
    /// The place of each train in this order.
    pub ranks: Vec<u32>,
}

/// No use ends as early as this.
const NEVER: i64 = i64::MIN / 4;

impl Answer {
    /// The compressed timetable: no train enters before the window.
    pub fn compressed(cut: Cut) -> Answer {
        let floors = floors_of(&cut);
        Answer::above(cut, floors)
    }

    /// The least schedule in which no train has a lesser shift than its floor.
    pub fn above(cut: Cut, floors: Vec<i64>) -> Answer {
        let (lists, shifts, ties) = (lay_out(&cut), Vec::new(), Vec::new());
        let mut answer = Answer { cut, lists, floors, shifts, ties, order: Vec::new(), ranks: Vec::new() };
        answer.solve();
        answer
    }

    pub fn is_ordered(&self) -> bool {
        self.order.len() == self.cut.members.len()
    }

    /// When a train enters.
    pub fn entry(&self, train: usize) -> i64 {
        i64::from(self.cut.members[train].entry) + self.shifts[train]
    }

    /// Takes the trains in order, each when it is the next at all its places.
    fn solve(&mut self) {
        let members = &self.cut.members;
        self.shifts = vec![0; members.len()];
        self.ties = vec![None; members.len()];
        self.order.clear();
        let mut free = vec![NEVER; self.lists.len()];
        // How many uses of each place are done, and of each train are not yet the next at their place.
        let mut done = vec![0; self.lists.len()];
        let mut waiting: Vec<usize> = members.iter().map(|member| member.uses.len()).collect();
        let mut ready = Vec::new();
        let mut reach = |spot: Option<&Spot>, ready: &mut Vec<u32>| {
            if let Some(spot) = spot {
                waiting[spot.train as usize] -= 1;
                if waiting[spot.train as usize] == 0 {
                    ready.push(spot.train);
                }
            }
        };
        self.lists.iter().for_each(|list| reach(list.first(), &mut ready));
        while let Some(train) = ready.pop() {
            let uses = &members[train as usize].uses;
            let floor = self.floors[train as usize];
            let held = |each: &Use| free[each.place as usize] - i64::from(each.start);
            let shift = uses.iter().map(held).fold(floor, i64::max);
            let mut tie = None;
            for each in uses {
                let place = each.place as usize;
                let list = &self.lists[place];
                if shift > floor && free[place] == i64::from(each.start) + shift {
                    tie = self.cut.lesser_tie(tie, Tie { train: list[done[place] - 1].train, place: each.place });
                }
                free[place] = i64::from(each.end) + shift;
                done[place] += 1;
                reach(list.get(done[place]), &mut ready);
            }
            self.shifts[train as usize] = shift;
            self.ties[train as usize] = tie;
            self.order.push(train);
        }
        self.rank();
    }

    fn rank(&mut self) {
        self.ranks.resize(self.cut.members.len(), 0);
        for (rank, &train) in self.order.iter().enumerate() {
            self.ranks[train as usize] = rank as u32;
        }
    }

    /// From when until when a place that is used is kept.
    pub fn kept(&self, place: u32) -> (i64, i64) {
        let list = &self.lists[place as usize];
        let (first, last) = (list[0], list[list.len() - 1]);
        let moved = |moment: i32, train: u32| i64::from(moment) + self.shifts[train as usize];
        (moved(first.start, first.train), moved(last.end, last.train))
    }

    /// The block that is kept longest, where there is a train, and for how long; of several the first by
    /// name.
    pub fn busiest(&self) -> Option<(u32, i64)> {
        let used = (FIRST_BLOCK..self.lists.len() as u32).filter(|&place| !self.lists[place as usize].is_empty());
        let kept = used.map(|place| (place, self.kept(place).1 - self.kept(place).0));
        let names = |a: u32, b: u32| self.cut.place(a).cmp(self.cut.place(b));
        kept.max_by(|a, b| a.1.cmp(&b.1).then_with(|| names(b.0, a.0)))
    }

    /// Where the trains have no order.
    pub fn disorder(&self) -> Option<Disorder> {
        let mut remaining = vec![true; self.cut.members.len()];
        self.order.iter().for_each(|&train| remaining[train as usize] = false);
        let least = remaining.iter().position(|&left| left)? as u32;
        let opposite = (least..remaining.len() as u32).find_map(|first| {
            let second = if remaining[first as usize] { self.opposite_of(first)? } else { return None };
            let places = [self.first_place(first, second), self.first_place(second, first)];
            Some(Disorder::Opposite { first, second, places })
        });
        opposite.or_else(|| Some(Disorder::Ring(self.ring(&remaining, least))))
    }

    /// The first train that precedes this one at some place and comes after it at another.
    fn opposite_of(&self, train: u32) -> Option<u32> {
        const BEFORE: u8 = 1;
        const AFTER: u8 = 2;
        let mut sides = vec![0; self.cut.members.len()];
        let mut least = None;
        for each in &self.cut.members[train as usize].uses {
            let mut side = BEFORE;
            for spot in &self.lists[each.place as usize] {
                if spot.train == train {
                    side = AFTER;
                    continue;
                }
                sides[spot.train as usize] |= side;
                if sides[spot.train as usize] == BEFORE | AFTER {
                    least = Some(least.map_or(spot.train, |least: u32| least.min(spot.train)));
                }
            }
        }
        least
    }

    /// The first place by name at which one train precedes another.
    fn first_place(&self, first: u32, second: u32) -> u32 {
        let uses = |train: u32| &self.cut.members[train as usize].uses;
        let mut starts = vec![i32::MIN; self.lists.len()];
        uses(second).iter().for_each(|each| starts[each.place as usize] = each.start);
        let precedes = |each: &&Use| (each.start, first) < (starts[each.place as usize], second);
        let places = uses(first).iter().filter(precedes).map(|each| each.place);
        places.min_by_key(|&place| self.cut.place(place)).expect("the first precedes the second")
    }

    /// Goes from the least train to its least predecessor, again and again, until one comes again.
    fn ring(&self, remaining: &[bool], least: u32) -> Vec<Tie> {
        let mut walked = vec![least];
        let from = loop {
            let before = self.least_before(*walked.last().expect("a walk has a train"), remaining);
            match walked.iter().position(|&train| train == before) {
                Some(from) => break from,
                None => walked.push(before),
            }
        };
        let mut ring = walked.split_off(from);
        ring.reverse();
        let lead = (0..ring.len()).min_by_key(|&at| ring[at]).expect("a ring has a train");
        ring.rotate_left(lead);
        let next = ring.iter().cycle().skip(1);
        let link = |(&train, &next)| Tie { train, place: self.first_place(train, next) };
        ring.iter().zip(next).map(link).collect()
    }

    fn least_before(&self, train: u32, remaining: &[bool]) -> u32 {
        let mut least = u32::MAX;
        for each in &self.cut.members[train as usize].uses {
            for spot in &self.lists[each.place as usize] {
                if spot.train == train {
                    break;
                }
                if spot.train < least && remaining[spot.train as usize] {
                    least = spot.train;
                }
            }
        }
        least
    }

    /// Mends the answer, so that it is that of another cut of the section: only the trains whose rows are
    /// others are laid out again, and only those that they reach get new shifts. Where trains came or went,
    /// all are numbered anew, and the answer is made from scratch.
    pub fn mend(&mut self, cut: Cut) {
        let pairs = || self.cut.members.iter().zip(&cut.members);
        let same_trains = self.cut.members.len() == cut.members.len()
            && pairs().all(|(old, new)| Arc::ptr_eq(old, new) || old.name == new.name);
        let differ = pairs().zip(0..).filter(|((old, new), _)| !Arc::ptr_eq(old, new));
        let trains: Vec<u32> = differ.map(|(_, train)| train).collect();
        if !same_trains || cut.from != self.cut.from || trains.len() * 4 > cut.members.len() {
            *self = Answer::compressed(cut);
            return;
        }
        let mut orderly = self.is_ordered();
        // The trains that have to be looked at again.
        let mut dirty = vec![false; cut.members.len()];
        for &train in &trains {
            self.take_out(train, &mut dirty);
        }
        self.floors = floors_of(&cut);
        self.cut = cut;
        self.lists.resize_with(self.cut.places.len(), Vec::new);
        for &train in &trains {
            let between = self.lay_in(train, &mut dirty);
            orderly = orderly && self.move_between(train, between);
        }
        if orderly {
            self.settle(dirty);
        } else {
            self.solve();
        }
    }

    fn find(&self, each: &Use, train: u32) -> usize {
        self.lists[each.place as usize].partition_point(|spot| spot.key() < (each.start, train))
    }

    /// Takes a train's uses out of the lists.
    fn take_out(&mut self, train: u32, dirty: &mut [bool]) {
        let member = self.cut.members[train as usize].clone();
        for each in &member.uses {
            let at = self.find(each, train);
            let list = &mut self.lists[each.place as usize];
            list.remove(at);
            list.get(at).iter().for_each(|next| dirty[next.train as usize] = true);
        }
    }

    /// Puts a train's uses into the lists; gives between which ranks it has to stand.
    fn lay_in(&mut self, train: u32, dirty: &mut [bool]) -> (i64, i64) {
        let member = self.cut.members[train as usize].clone();
        let (mut after, mut before) = (-1, i64::MAX);
        dirty[train as usize] = true;
        for each in &member.uses {
            let at = self.find(each, train);
            let list = &mut self.lists[each.place as usize];
            if at > 0 {
                after = after.max(i64::from(self.ranks[list[at - 1].train as usize]));
            }
            if let Some(next) = list.get(at) {
                before = before.min(i64::from(self.ranks[next.train as usize]));
                dirty[next.train as usize] = true;
            }
            list.insert(at, Spot { start: each.start, end: each.end, train });
        }
        (after, before)
    }

    /// Moves a train in the order to where it has to stand; tells whether it can.
    fn move_between(&mut self, train: u32, (after, before): (i64, i64)) -> bool {
        let rank = i64::from(self.ranks[train as usize]);
        if after < before && rank < after {
            self.order[rank as usize..=after as usize].rotate_left(1);
        } else if after < before && rank > before {
            self.order[before as usize..=rank as usize].rotate_right(1);
        }
        self.rank();
        after < before
    }

    /// Works the shifts of these trains out again, in order, and of those that they then reach.
    fn settle(&mut self, mut dirty: Vec<bool>) {
        for train in self.order.clone().into_iter().map(|train| train as usize) {
            let old = self.shifts[train];
            let ats = if dirty[train] { self.resolve(train as u32) } else { continue };
            for (each, at) in self.cut.members[train].uses.iter().zip(ats).filter(|_| self.shifts[train] != old) {
                let next = self.lists[each.place as usize].get(at + 1);
                next.iter().for_each(|next| dirty[next.train as usize] = true);
            }
        }
    }

    /// The shift and the tie of one train, out of those of its neighbours; gives where its uses stand.
    fn resolve(&mut self, train: u32) -> Vec<usize> {
        let uses = &self.cut.members[train as usize].uses;
        let floor = self.floors[train as usize];
        let mut shift = floor;
        let mut tie = None;
        let mut ats = Vec::with_capacity(uses.len());
        for each in uses {
            let at = self.find(each, train);
            ats.push(at);
            let Some(before) = at.checked_sub(1).map(|at| self.lists[each.place as usize][at]) else { continue };
            let held = i64::from(before.end) + self.shifts[before.train as usize] - i64::from(each.start);
            if held > shift {
                (shift, tie) = (held, None);
            }
            if held == shift && held > floor {
                tie = self.cut.lesser_tie(tie, Tie { train: before.train, place: each.place });
            }
        }
        self.shifts[train as usize] = shift;
        self.ties[train as usize] = tie;
        ats
    }
}

fn floors_of(cut: &Cut) -> Vec<i64> {
    cut.members.iter().map(|member| i64::from(cut.from) - i64::from(member.entry)).collect()
}

impl Cut {
    /// Of two ties the one with the first train, and of these that with the first place.
    fn lesser_tie(&self, old: Option<Tie>, new: Tie) -> Option<Tie> {
        let key = |tie: Tie| (tie.train, self.place(tie.place));
        old.filter(|&old| old.train < new.train || old.train == new.train && key(old) < key(new)).or(Some(new))
    }
}

/// Lays the uses out by place, in the order of the trains' entries, in which most lists are nearly sorted at
/// once.
fn lay_out(cut: &Cut) -> Vec<Vec<Spot>> {
    let mut counts = vec![0; cut.places.len()];
    cut.members.iter().flat_map(|member| &member.uses).for_each(|each| counts[each.place as usize] += 1);
    let mut lists: Vec<Vec<Spot>> = counts.into_iter().map(Vec::with_capacity).collect();
    let mut trains: Vec<u32> = (0..cut.members.len() as u32).collect();
    trains.sort_unstable_by_key(|&train| (cut.members[train as usize].entry, train));
    for train in trains {
        for each in &cut.members[train as usize].uses {
            lists[each.place as usize].push(Spot { start: each.start, end: each.end, train });
        }
    }
    for list in lists.iter_mut().filter(|list| !list.is_sorted_by_key(Spot::key)) {
        list.sort_unstable_by_key(Spot::key);
    }
    lists
}
