//! The command `headways`.

use crate::cut::Cut;
use crate::text::Text;

/// Stands for the start of a train that doesn't use the place: later than all ends by far.
const NO_START: i32 = i32::MAX / 2;
/// Less than any headway, and more than what comes of `NO_START`.
const NO_HEADWAY: i32 = i32::MIN / 4;

pub fn headways(text: &mut Text, cut: Cut) {
    let starts = starts_by_place(&cut);
    let mut row = vec![0; cut.members.len()];
    for (first, member) in cut.members.iter().enumerate() {
        row.fill(NO_HEADWAY);
        for each in &member.uses {
            for (headway, &start) in row.iter_mut().zip(&starts[each.place as usize]) {
                *headway = (*headway).max(each.end - start);
            }
        }
        for (second, other) in cut.members.iter().enumerate() {
            if second != first && row[second] > NO_HEADWAY {
                let headway = row[second] - member.entry + other.entry;
                text.row("headway").name(&member.name).name(&other.name).number(headway.into()).end();
            }
        }
    }
}

/// For each place that is used the starts of all trains, side by side, so that many are compared at once.
fn starts_by_place(cut: &Cut) -> Vec<Vec<i32>> {
    let mut starts = vec![Vec::new(); cut.places.len()];
    for (train, member) in cut.members.iter().enumerate() {
        for each in &member.uses {
            let starts = &mut starts[each.place as usize];
            starts.resize(cut.members.len(), NO_START);
            starts[train] = each.start;
        }
    }
    starts
}
