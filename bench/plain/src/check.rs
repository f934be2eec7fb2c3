//! The command `check`: the conflicts of the timetable on its blocks.

use crate::answer::Spot;
use crate::cut::FIRST_BLOCK;
use crate::input::Kind;
use crate::stairs::Way;
use crate::tables::Line;
use crate::text::Text;

const MOST_LISTED: i64 = 10_000;

pub fn check(line: &Line) -> Text {
    let runs = line.table(Kind::Run).by_name();
    // Trains are here the places of the runs in the order of names.
    let mut by_block: Vec<Vec<Spot>> = line.table(Kind::Block).names().iter().map(|_| Vec::new()).collect();
    // In the order in which the runs start, so that the blockings of a block are nearly in order.
    let mut ranks: Vec<u32> = (0..runs.len() as u32).collect();
    ranks.sort_unstable_by_key(|&rank| (line.runs[runs[rank as usize] as usize].start, rank));
    for rank in ranks {
        for each in Way::of(line, runs[rank as usize]).uses {
            by_block[(each.place - FIRST_BLOCK) as usize].push(Spot { start: each.start, end: each.end, train: rank });
        }
    }
    let mut text = Text::default();
    let mut found = 0;
    for block in line.table(Kind::Block).by_name() {
        let blockings = &mut by_block[block as usize];
        if !blockings.is_sorted_by_key(Spot::key) {
            blockings.sort_unstable_by_key(Spot::key);
        }
        for (at, one) in blockings.iter().enumerate() {
            for other in blockings[at + 1..].iter().take_while(|other| other.start < one.end) {
                found += 1;
                if found > MOST_LISTED {
                    continue;
                }
                text.row("conflict").name(line.table(Kind::Block).name(block));
                for run in [one, other] {
                    text.name(line.table(Kind::Run).name(runs[run.train as usize]));
                }
                text.number(other.start.into()).number(one.end.min(other.end).into()).end();
            }
        }
    }
    text.row("conflicts").number(found.min(MOST_LISTED)).number((found - MOST_LISTED).max(0)).end();
    text
}
