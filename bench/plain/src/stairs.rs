//! Blocking times: the walk along each path, and the command `stairs`.

use crate::cut::FIRST_BLOCK;
use crate::input::Kind;
use crate::tables::{Line, Run};
use crate::text::Text;

/// A run's blocking of one block, with its six parts in the order of the output.
struct Hop { block: u32, start: i32, end: i32, parts: [i32; 6] }

/// A place, and when it is kept.
#[derive(Clone, Copy, PartialEq, Eq)]
pub struct Use { pub place: u32, pub start: i32, pub end: i32 }

/// The blockings of a run along its path.
pub struct Way {
    pub uses: Vec<Use>,
    /// The least and the greatest start of them.
    pub first: i32,
    pub last: i32,
    /// When the run starts, and when it arrives at the path's end.
    pub start: i32,
    pub arrival: i32,
}

/// The head's motion: where each block ends, and when the head departs from there. The first place is the
/// path's start.
struct Motion<'a> { run: &'a Run, places: [u32; 257], departures: [i32; 257] }

impl<'a> Motion<'a> {
    fn of(line: &Line, run: &'a Run) -> Motion<'a> {
        let mut motion = Motion { run, places: [0; 257], departures: [0; 257] };
        let (mut place, mut moment) = (0, run.start);
        motion.departures[0] = moment as i32;
        let signals = &line.table(Kind::Route).named(run.route);
        for (k, (&signal, leg)) in signals.iter().zip(&run.legs).enumerate() {
            place += line.blocks[line.signals[signal as usize].block as usize].length;
            moment += leg.running + leg.dwell;
            motion.places[k + 1] = place;
            motion.departures[k + 1] = moment as i32;
        }
        motion
    }

    /// How long the head takes from the start of block `k` to a place in it, and the rest of the division
    /// that is rounded down.
    fn share(&self, k: usize, place: u32) -> (i32, bool) {
        let way = u64::from(place - self.places[k]);
        let length = u64::from(self.places[k + 1] - self.places[k]);
        let product = u64::from(self.run.legs[k].running) * way;
        ((product / length) as i32, product % length > 0)
    }

    /// When the head comes to the approach point of block `k`, or departs from its last stop there or beyond.
    fn approach_moment(&self, k: usize, approach: u32) -> i32 {
        let point = self.places[k].saturating_sub(approach);
        let mut at = k;
        while self.places[at] > point {
            if self.run.legs[at - 1].dwell > 0 {
                return self.departures[at];
            }
            at -= 1;
        }
        self.departures[at] + if self.places[at] < point { self.share(at, point).0 } else { 0 }
    }

    /// When the rear has left block `k` and its overlap.
    fn clearing_moment(&self, k: usize, overlap: u32) -> i32 {
        let place = self.places[k + 1] + overlap + self.run.length;
        for at in k + 1..self.run.legs.len() {
            if place <= self.places[at + 1] {
                let (whole, more) = self.share(at, place);
                return self.departures[at] + whole + i32::from(more);
            }
        }
        self.departures[self.run.legs.len()] + self.run.tail as i32
    }
}

/// Walks along a run's path, and hands on each of its hops; gives the last arrival.
#[inline(always)]
fn walk(line: &Line, run: &Run, mut hand_on: impl FnMut(Hop)) -> i32 {
    let motion = Motion::of(line, run);
    for (k, &signal) in line.table(Kind::Route).named(run.route).iter().enumerate() {
        let signal = &line.signals[signal as usize];
        let seen = motion.approach_moment(k, signal.approach);
        let cleared = motion.clearing_moment(k, signal.overlap);
        let (form, watch, release) = (signal.form as i32, signal.watch as i32, signal.release as i32);
        let (entered, left) = (motion.departures[k], motion.departures[k + 1]);
        let parts = [form, watch, entered - seen, left - entered, cleared - left, release];
        hand_on(Hop { block: signal.block, start: seen - watch - form, end: cleared + release, parts });
    }
    motion.departures[run.legs.len()]
}

impl Way {
    /// The way of a run; where there is none of this number, one without blocks.
    pub fn of(line: &Line, run: u32) -> Way {
        if !line.table(Kind::Run).has(run) {
            return Way { uses: Vec::new(), first: i32::MAX, last: i32::MIN, start: 0, arrival: 0 };
        }
        let run = &line.runs[run as usize];
        let mut uses = Vec::with_capacity(run.legs.len());
        let (mut first, mut last) = (i32::MAX, i32::MIN);
        let arrival = walk(line, run, |hop| {
            first = first.min(hop.start);
            last = last.max(hop.start);
            uses.push(Use { place: FIRST_BLOCK + hop.block, start: hop.start, end: hop.end });
        });
        Way { uses, first, last, start: run.start as i32, arrival }
    }
}

pub fn stairs(line: &Line) -> Text {
    let mut text = Text::default();
    let field = |name: &[u8]| std::mem::take(Text::default().name(name));
    let fields: Vec<Text> = line.table(Kind::Block).names().iter().map(|name| field(name)).collect();
    for number in line.table(Kind::Run).by_name() {
        let name = field(line.table(Kind::Run).name(number));
        walk(line, &line.runs[number as usize], |hop| {
            text.row("use");
            text.append(&name);
            text.append(&fields[hop.block as usize]);
            text.number(hop.start.into()).number(hop.end.into());
            hop.parts.iter().for_each(|&part| _ = text.number(part.into()));
            text.end();
        });
    }
    text
}
