//! The command `made`: a line and scripts that are made from a number. They are written as the rows of an
//! input and then read like one.

use crate::compress::{heads, write_total, Head};
use crate::text::Text;
use crate::{input, session};

const WORKERS: usize = 4;

pub fn made(seed: u32) -> Text {
    let input = input::read(&rows(seed).bytes, true).expect("a made line is accepted");
    let (edits, planners) = (input.edits, input.scripts.len());
    let mut text = Text::default();
    text.row("made").number(seed.into()).number(edits as i64).end();
    write_sums(&mut text, &heads(&input.line));
    let session = session::session(input, WORKERS);
    text.row("made-session").number(planners as i64).number(WORKERS as i64);
    text.number((session.at - edits) as i64).end();
    write_sums(&mut text, &session.heads);
    text
}

fn write_sums(text: &mut Text, heads: &[Head]) {
    write_total(text, heads);
    text.row("occupancy").number(heads.iter().map(|head| head.occupancy).sum()).end();
}

fn rows(seed: u32) -> Text {
    let mut x = u64::from(seed);
    let mut draw = |below: u64| {
        x = (x * 1_103_515_245 + 12_345) % 2_147_483_648;
        (x / 65_536 % below) as i64
    };
    let name = |word: &str, number: usize| format!("{word}{number:02}");
    let list = |word: &str, from: usize, to: usize| (from..to).map(|number| name(word, number)).collect::<Vec<_>>().join(",");
    let mut rows = Text::default();
    for block in 0..64 {
        rows.row("block").word(&name("b", block)).number(1_000 + draw(1_000)).end();
    }
    (0..64).for_each(|at| rows.row("signal").word(&name("s", at)).word(&name("b", at)).word("1000,10,5,50,5").end());
    rows.row("route").word("line").word(&list("s", 0, 64)).end();
    let runs: Vec<(i64, [i64; 64])> = (0..300).map(|_| (100 + draw(300), [(); 64].map(|()| 40 + draw(11)))).collect();
    let run = |rows: &mut Text, word: &str, number: usize, later: i64| {
        let (length, [first, others @ ..]) = &runs[number];
        rows.row(word).word(&format!("r{number:03}")).word("line").number(*length).number(10);
        rows.number(1_000 + 300 * number as i64 + later).number(*first);
        others.iter().for_each(|&running| _ = rows.number(0).number(running));
        rows.end();
    };
    (0..300).for_each(|number| run(&mut rows, "run", number, 0));
    for section in 0..8 {
        rows.row("section").word(&format!("q{section},0,86400,33")).word(&list("b", section * 8, section * 8 + 8)).end();
    }
    for planner in 1..=4 {
        rows.row("planner").number(planner as i64).end();
        for k in 0..16 {
            run(&mut rows, "change-run", 60 * planner + k, 30);
            rows.row("ask").word(&format!("q{}", k % 8)).end();
        }
    }
    rows
}
