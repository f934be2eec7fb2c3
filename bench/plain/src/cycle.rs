//! The command `cycle`: how soon the trains of a section can come again.

use crate::answer::{Answer, Spot};
use crate::compress::on_ordered;
use crate::cut::{Cut, FIRST_BLOCK};
use crate::text::Text;

/// One train has to enter so long after another, which is of the same pattern or the next; in shifts from
/// their planned entries.
#[derive(Clone, Copy)]
struct Step { from: u32, to: u32, place: u32, time: i64, next: bool }

/// Steps that lead back to the train with which they begin.
type Ring = Vec<Step>;

pub fn cycle(text: &mut Text, cut: Cut) {
    let answer = Answer::compressed(cut);
    on_ordered(text, &answer, |text| write_cycle(text, &answer));
}

fn write_cycle(text: &mut Text, answer: &Answer) {
    let cut = &answer.cut;
    let (period, shifts, mut ring) = least_period(answer);
    let lead = (0..ring.len()).min_by_key(|&at| ring[at].from).unwrap_or(0);
    ring.rotate_left(lead);
    text.row("period").name(&cut.name).number(period).number(ring.len() as i64).end();
    for (member, shift) in cut.members.iter().zip(shifts) {
        text.row("slot").name(&member.name).number(i64::from(member.entry) + shift).end();
    }
    for step in &ring {
        text.row("step").name(cut.train(step.from)).name(cut.place(step.place)).name(cut.train(step.to));
        text.word(if step.next { "next" } else { "same" }).end();
    }
}

/// Raises the period by the rings that refuse it, until none does.
fn least_period(answer: &Answer) -> (i64, Vec<i64>, Ring) {
    let steps = steps(answer);
    let mut ring = block_ring(answer);
    loop {
        // The least period that the ring allows.
        let time: i64 = ring.iter().map(|step| step.time).sum();
        let patterns = ring.iter().filter(|step| step.next).count().max(1) as i64;
        let period = (time + patterns - 1).div_euclid(patterns);
        match repeat(answer, &steps, period) {
            Ok(shifts) => return (period, shifts, ring),
            Err(refusing) => ring = refusing,
        }
    }
}

/// The steps between neighbours: those in one pattern, in the order of the trains, and then those to the next
/// pattern, from the last train on a block to the first.
fn steps(answer: &Answer) -> Vec<Step> {
    let mut same: Vec<Step> = Vec::new();
    let mut next = Vec::new();
    // Between the same two trains the greatest time counts. Neighbours on one block are mostly neighbours on
    // the one before.
    let mut latest = vec![usize::MAX; answer.cut.members.len()];
    for (list, place) in answer.lists.iter().zip(0..) {
        for pair in list.windows(2) {
            let step = step(&pair[0], &pair[1], place, false);
            match same.get_mut(latest[step.from as usize]) {
                Some(old) if old.to == step.to && old.time >= step.time => (),
                Some(old) if old.to == step.to => *old = step,
                _ => {
                    latest[step.from as usize] = same.len();
                    same.push(step);
                }
            }
        }
        if let (Some(first), Some(last), true) = (list.first(), list.last(), place >= FIRST_BLOCK) {
            next.push(step(last, first, place, true));
        }
    }
    same.sort_by_key(|step| answer.ranks[step.from as usize]);
    same.extend(next);
    same
}

fn step(from: &Spot, to: &Spot, place: u32, next: bool) -> Step {
    let time = i64::from(from.end) - i64::from(to.start);
    Step { from: from.train, to: to.train, place, time, next }
}

/// The trains of a block one after the other, and the first again: the ring of the block that is kept
/// longest.
fn block_ring(answer: &Answer) -> Ring {
    let kept = |list: &[Spot]| list.iter().map(|spot| i64::from(spot.end - spot.start)).sum::<i64>();
    let blocks = answer.lists.iter().zip(0..).skip(FIRST_BLOCK as usize);
    let Some((list, place)) = blocks.max_by_key(|(list, _)| kept(list)) else { return Vec::new() };
    let mut ring: Ring = list.windows(2).map(|pair| step(&pair[0], &pair[1], place, false)).collect();
    if let (Some(first), Some(last)) = (list.first(), list.last()) {
        ring.push(step(last, first, place, true));
    }
    ring
}

/// The earliest shifts that repeat in a period, or a ring that refuses it.
fn repeat(answer: &Answer, steps: &[Step], period: i64) -> Result<Vec<i64>, Ring> {
    let mut shifts = answer.floors.clone();
    // What raised each shift last.
    let mut raised: Vec<Option<Step>> = vec![None; shifts.len()];
    loop {
        let mut any = false;
        for step in steps {
            let least = shifts[step.from as usize] + step.time - if step.next { period } else { 0 };
            if least > shifts[step.to as usize] {
                shifts[step.to as usize] = least;
                raised[step.to as usize] = Some(*step);
                any = true;
            }
        }
        if !any {
            return Ok(shifts);
        }
        if let Some(ring) = ring_of(&raised) {
            return Err(ring);
        }
    }
}

/// Where shifts raise one another in a circle, no period as short can do.
fn ring_of(raised: &[Option<Step>]) -> Option<Ring> {
    // For each train the walk that came to it first.
    let mut walks = vec![usize::MAX; raised.len()];
    for walk in 0..raised.len() {
        let mut at = walk;
        while let Some(step) = raised[at].filter(|_| walks[at] == usize::MAX) {
            walks[at] = walk;
            at = step.from as usize;
        }
        if walks[at] == walk {
            let mut ring = vec![raised[at]?];
            while ring[ring.len() - 1].from as usize != at {
                ring.push(raised[ring[ring.len() - 1].from as usize]?);
            }
            ring.reverse();
            return Some(ring);
        }
    }
    None
}
