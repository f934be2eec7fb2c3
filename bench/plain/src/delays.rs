//! The command `delays`: the least delayed schedule of a section's trains.

use crate::answer::Answer;
use crate::compress::{on_ordered, write_tie};
use crate::cut::Cut;
use crate::text::Text;

pub fn delays(text: &mut Text, cut: Cut, trains: &[usize], seconds: &[u32]) {
    let mut own = vec![0; cut.members.len()];
    for (&train, &delay) in trains.iter().zip(seconds) {
        own[train] = i64::from(delay);
    }
    // A train enters no earlier than planned and by its own delay, so that is its least shift.
    let answer = Answer::above(cut, own.clone());
    on_ordered(text, &answer, |text| {
        let (mut late, mut sum) = (0, 0);
        for (train, member) in answer.cut.members.iter().enumerate() {
            let knock_on = answer.shifts[train] - own[train];
            late += i64::from(knock_on > 0);
            sum += knock_on;
            text.row("held").name(&member.name).number(own[train]).number(answer.entry(train)).number(knock_on);
            write_tie(text, &answer, train);
        }
        text.row("knock-on").number(late).number(sum).end();
    });
}
