//! The cut of a section: its members, with their entries and their uses of its places.

use crate::input::Kind;
use crate::stairs::{Use, Way};
use crate::tables::{Line, Name};
use std::sync::Arc;

/// A section with more members is crowded.
pub const MOST_MEMBERS: usize = 768;
/// Places are numbered over the whole line: first the connections, then the blocks.
pub const FIRST_BLOCK: u32 = 1024;

/// A train of a section.
#[derive(PartialEq, Eq)]
pub struct Member {
    pub name: Name,
    pub entry: i32,
    /// Its uses of blocks, in the order of its path, and then of connections.
    pub uses: Vec<Use>,
}

/// What is made of the line for all its sections.
#[derive(Default)]
pub struct Traffic {
    /// The runs in the order of names.
    pub runs: Vec<u32>,
    /// By the runs' numbers their ways, and the connections that name them.
    pub ways: Vec<Way>,
    pub links: Vec<Vec<u32>>,
    /// The names of all places.
    pub places: Arc<Vec<Name>>,
}

impl Traffic {
    pub fn of(line: &Line) -> Traffic {
        let mut traffic = Traffic::default();
        traffic.follow_names(line);
        traffic
    }

    /// Brings up to date what depends on which items there are; and on which runs connections name.
    pub fn follow_names(&mut self, line: &Line) {
        self.runs = line.table(Kind::Run).by_name();
        self.ways.extend((self.ways.len()..line.runs.len()).map(|run| Way::of(line, run as u32)));
        self.links = vec![Vec::new(); line.table(Kind::Run).room()];
        for number in line.table(Kind::Connect).numbers() {
            let connect = &line.connects[number as usize];
            self.links[connect.first as usize].push(number);
            self.links[connect.second as usize].push(number);
        }
        let mut places = line.table(Kind::Connect).names();
        places.resize(FIRST_BLOCK as usize, Name::from(&b""[..]));
        places.extend(line.table(Kind::Block).names());
        self.places = Arc::new(places);
    }
}

#[derive(Clone)]
pub struct Cut {
    pub name: Name,
    pub from: i32,
    pub to: i32,
    pub rate: u32,
    /// The section's blocks, by their numbers, in its order.
    pub blocks: Arc<[u32]>,
    /// In the order of names.
    pub members: Vec<Arc<Member>>,
    pub places: Arc<Vec<Name>>,
}

impl Cut {
    /// Whether a section has this cut still, for which its name doesn't count.
    pub fn is_same(&self, other: &Cut) -> bool {
        let head = |cut: &Cut| (cut.from, cut.to, cut.rate, cut.blocks.clone());
        head(self) == head(other) && self.members == other.members
    }

    pub fn is_crowded(&self) -> bool {
        self.members.len() > MOST_MEMBERS
    }

    pub fn train(&self, train: u32) -> &Name {
        &self.members[train as usize].name
    }

    pub fn place(&self, place: u32) -> &Name {
        &self.places[place as usize]
    }

    pub fn find(&self, name: &[u8]) -> Result<usize, usize> {
        self.members.binary_search_by(|member| (*member.name).cmp(name))
    }

    /// The length of the window.
    pub fn window(&self) -> u64 {
        (self.to - self.from) as u64
    }
}

/// A cut that follows the line's edits.
pub struct Cutter {
    pub cut: Cut,
    /// Which blocks are the section's.
    ours: Vec<bool>,
    /// The entry of each run that is a member.
    entries: Vec<Option<i32>>,
}

impl Cutter {
    pub fn of(line: &Line, traffic: &Traffic, section: u32) -> Cutter {
        let item = &line.sections[section as usize];
        let mut ours = vec![false; line.table(Kind::Block).room()];
        let blocks: Arc<[u32]> = line.table(Kind::Section).named(section).into();
        blocks.iter().for_each(|&block| ours[block as usize] = true);
        let (name, places) = (line.table(Kind::Section).name(section).clone(), traffic.places.clone());
        let (from, to) = (item.from as i32, item.to as i32);
        let cut = Cut { name, from, to, rate: item.rate, blocks, members: Vec::new(), places };
        let mut cutter = Cutter { cut, ours, entries: vec![None; traffic.ways.len()] };
        let mut hops: Vec<Option<Vec<u16>>> = vec![None; line.table(Kind::Route).room()];
        let route = |run: u32| line.runs[run as usize].route as usize;
        for &run in &traffic.runs {
            cutter.entries[run as usize] = cutter.entry(&traffic.ways[run as usize], &mut hops[route(run)]);
        }
        for &run in &traffic.runs {
            if let (Some(entry), Some(hops)) = (cutter.entries[run as usize], &hops[route(run)]) {
                let uses = cutter.uses(line, traffic, run, hops);
                cutter.cut.members.push(Arc::new(Member { name: line.table(Kind::Run).name(run).clone(), entry, uses }));
            }
        }
        cutter
    }

    /// Which of a way's uses are of the section's blocks; the same for all ways along a route.
    fn hops(&self, way: &Way) -> Vec<u16> {
        let ours = |&hop: &u16| self.ours.get((way.uses[hop as usize].place - FIRST_BLOCK) as usize) == Some(&true);
        (0..way.uses.len() as u16).filter(ours).collect()
    }

    /// Where the run enters the section within the window, its entry; its route's hops are found on the way.
    fn entry(&self, way: &Way, hops: &mut Option<Vec<u16>>) -> Option<i32> {
        let Cut { from, to, .. } = self.cut;
        if way.first >= to || way.last < from {
            return None;
        }
        let hops = hops.get_or_insert_with(|| self.hops(way));
        hops.iter().map(|&hop| way.uses[hop as usize].start).min().filter(|entry| (from..to).contains(entry))
    }

    /// A member's uses of the section's blocks and of the connections that bind in it.
    fn uses(&self, line: &Line, traffic: &Traffic, run: u32, hops: &[u16]) -> Vec<Use> {
        let (way, links) = (&traffic.ways[run as usize], &traffic.links[run as usize]);
        let mut uses = Vec::with_capacity(hops.len() + links.len());
        uses.extend(hops.iter().map(|&hop| way.uses[hop as usize]));
        uses.extend(links.iter().filter_map(|&link| self.link_use(line, traffic, run, link)));
        uses
    }

    /// A run's use of a connection that names it, where that binds: the first run keeps it from its entry
    /// until the second may start, and the second for the second in which it starts.
    fn link_use(&self, line: &Line, traffic: &Traffic, run: u32, place: u32) -> Option<Use> {
        let connect = &line.connects[place as usize];
        let entry = self.entries[connect.first as usize]?;
        self.entries[connect.second as usize]?;
        let start = traffic.ways[connect.second as usize].start;
        if (start, line.table(Kind::Run).name(connect.second)) < (entry, line.table(Kind::Run).name(connect.first)) {
            return None;
        }
        let until = traffic.ways[connect.first as usize].arrival + connect.minimum as i32;
        let (start, end) = if run == connect.first { (entry, until) } else { (start, start + 1) };
        Some(Use { place, start, end })
    }

    /// Whether the section has one of these blocks.
    pub fn has_any(&self, blocks: &[bool]) -> bool {
        self.ours.iter().zip(blocks).any(|(&ours, &block)| ours && block)
    }

    /// Makes the members anew where these runs, or connections that name them, were edited; tells whether the
    /// cut is another one now.
    pub fn refresh(&mut self, line: &Line, traffic: &Traffic, runs: &[u32]) -> bool {
        self.entries.resize(line.table(Kind::Run).room(), None);
        for &run in runs {
            self.entries[run as usize] = self.entry(&traffic.ways[run as usize], &mut None);
        }
        let mut differs = false;
        for &run in runs {
            differs |= self.renew(line, traffic, run);
            for &link in &traffic.links[run as usize] {
                let connect = &line.connects[link as usize];
                let partner = if run == connect.first { connect.second } else { connect.first };
                differs |= self.renew(line, traffic, partner);
            }
        }
        differs
    }

    fn renew(&mut self, line: &Line, traffic: &Traffic, run: u32) -> bool {
        let name = line.table(Kind::Run).name(run);
        let found = self.cut.find(name);
        let Some(entry) = self.entries[run as usize] else {
            return found.map(|at| self.cut.members.remove(at)).is_ok();
        };
        let uses = self.uses(line, traffic, run, &self.hops(&traffic.ways[run as usize]));
        let new = Member { name: name.clone(), entry, uses };
        match found {
            Ok(at) if *self.cut.members[at] == new => return false,
            Ok(at) => self.cut.members[at] = Arc::new(new),
            Err(at) => self.cut.members.insert(at, Arc::new(new)),
        }
        true
    }
}
