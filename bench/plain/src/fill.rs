//! The command `fill`: how many copies of a train a section can take behind all others.

use crate::answer::Answer;
use crate::compress::{on_ordered, write_consumption};
use crate::cut::{Cut, FIRST_BLOCK};
use crate::text::Text;

/// How the occupancy time grows with the copies.
struct Filling {
    /// Without copies.
    none: i64,
    /// Of the blocks of the train with one copy; and by how much each further one raises it.
    one: i64,
    headway: i64,
}

impl Filling {
    fn occupancy(&self, copies: i64) -> i64 {
        let copied = self.one + (copies - 1) * self.headway;
        if copies == 0 { self.none } else { self.none.max(copied) }
    }
}

pub fn fill(text: &mut Text, cut: Cut, train: usize) {
    let answer = Answer::compressed(cut);
    on_ordered(text, &answer, |text| write_filling(text, &answer.cut, train, &filling(&answer, train)));
}

fn write_filling(text: &mut Text, cut: &Cut, train: usize, filling: &Filling) {
    // The occupancy time at which the consumption is 1, rounded down.
    let full = 100 * cut.window() as i64 / i64::from(100 + cut.rate);
    text.row("fill").name(&cut.name).name(&cut.members[train].name);
    let mut copies = vec![0];
    if filling.none > full {
        text.word("none").end();
    } else {
        let most = if filling.one > full { 0 } else { (full - filling.one) / filling.headway + 1 };
        text.number(most).end();
        copies = vec![most, most + 1];
    }
    for copies in copies {
        text.row("at").number(copies).number(filling.occupancy(copies));
        write_consumption(text, cut, filling.occupancy(copies));
    }
}

/// The first copy enters when its blocks are free of all trains; the next one, which has the same uses, by
/// its headway to itself later, the longest time for which it keeps a block.
fn filling(answer: &Answer, train: usize) -> Filling {
    let member = &answer.cut.members[train];
    let mut filling = Filling { none: answer.busiest().map_or(0, |(_, occupancy)| occupancy), one: 0, headway: 0 };
    let blocks = || member.uses.iter().filter(|each| each.place >= FIRST_BLOCK);
    let mut shift = answer.floors[train];
    for each in blocks() {
        shift = shift.max(answer.kept(each.place).1 - i64::from(each.start));
        filling.headway = filling.headway.max(i64::from(each.end - each.start));
    }
    for each in blocks() {
        filling.one = filling.one.max(i64::from(each.end) + shift - answer.kept(each.place).0);
    }
    filling
}
