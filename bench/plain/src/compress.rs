//! The commands `compress` and `report`, and the rows that tell of an answer.

use crate::answer::{Answer, Disorder};
use crate::cut::{Cut, Cutter, Traffic};
use crate::input::{Kind, Refusal};
use crate::tables::Line;
use crate::text::Text;
use rayon::prelude::*;

/// What the row `total` counts an answer as.
#[derive(Clone, Copy, PartialEq, Eq)]
pub enum Verdict { Within, Over, Disordered, Crowded }

/// The rows of an answer that `report` writes, its verdict and its occupancy time.
#[derive(Clone)]
pub struct Head { pub rows: Text, pub verdict: Verdict, pub occupancy: i64 }

/// The text of a command that speaks of one section, and of these trains of it.
pub fn on_section(line: &Line, name: &[u8], runs: &[&[u8]], write: impl FnOnce(&mut Text, Cut, &[usize])) -> Result<Text, Refusal> {
    let section = line.table(Kind::Section).find(name).ok_or(Refusal { row: 0, cause: "no-section" })?;
    let cut = Cutter::of(line, &Traffic::of(line), section).cut;
    let trains: Result<Vec<usize>, _> = runs.iter().map(|run| cut.find(run)).collect();
    let trains = trains.map_err(|_| Refusal { row: 0, cause: "no-member" })?;
    let mut text = Text::default();
    if cut.is_crowded() {
        text.append(&crowded(&cut).rows);
    } else {
        write(&mut text, cut, &trains);
    }
    Ok(text)
}

/// What is written of an answer in order; of another one its disorder is.
pub fn on_ordered(text: &mut Text, answer: &Answer, write: impl FnOnce(&mut Text)) {
    match answer.disorder() {
        None => write(text),
        Some(disorder) => write_disorder(text, &answer.cut, &disorder),
    }
}

pub fn compress(text: &mut Text, cut: Cut) {
    let answer = Answer::compressed(cut);
    text.append(&head(&answer).rows);
    write_trains(text, &answer);
    let Some((block, _)) = answer.busiest().filter(|_| answer.is_ordered()) else { return };
    let critical = answer.lists[block as usize].last().map_or(0, |spot| spot.train);
    let mut chain = Vec::new();
    let mut train = critical;
    while let Some(tie) = answer.ties[train as usize] {
        chain.push([tie.train, tie.place, train]);
        train = tie.train;
    }
    text.row("critical").name(answer.cut.train(critical)).number(chain.len() as i64).end();
    chain.iter().rev().for_each(|link| write_link(text, &answer.cut, *link));
}

/// Writes the report behind what the text has.
pub fn report(mut text: Text, heads: &[Head]) -> Text {
    heads.iter().for_each(|head| text.append(&head.rows));
    write_total(&mut text, heads);
    text
}

/// The heads of the answers of all sections, in the order of names.
pub fn heads(line: &Line) -> Vec<Head> {
    let traffic = Traffic::of(line);
    let head_of = |&section: &u32| {
        let cut = Cutter::of(line, &traffic, section).cut;
        if cut.is_crowded() { crowded(&cut) } else { head(&Answer::compressed(cut)) }
    };
    line.table(Kind::Section).by_name().par_iter().map(head_of).collect()
}

pub fn crowded(cut: &Cut) -> Head {
    let mut rows = Text::default();
    rows.row("crowded").name(&cut.name).number(cut.members.len() as i64).end();
    Head { rows, verdict: Verdict::Crowded, occupancy: 0 }
}

/// The rows of an answer but for its trains.
pub fn head(answer: &Answer) -> Head {
    let mut rows = Text::default();
    let (mut verdict, mut occupancy) = (Verdict::Disordered, 0);
    on_ordered(&mut rows, answer, |text| (verdict, occupancy) = write_ordered(text, answer));
    Head { rows, verdict, occupancy }
}

fn write_ordered(text: &mut Text, answer: &Answer) -> (Verdict, i64) {
    let cut = &answer.cut;
    let busiest = answer.busiest();
    let occupancy = busiest.map_or(0, |(_, occupancy)| occupancy);
    text.row("ordered").name(&cut.name).number(cut.members.len() as i64).number(occupancy);
    text.name(busiest.map_or(&[], |(block, _)| cut.place(block))).end();
    text.row("rate").name(&cut.name).fraction(occupancy as u64, cut.window());
    (write_consumption(text, cut, occupancy), occupancy)
}

/// The end of a row: the capacity consumption that goes with an occupancy time.
pub fn write_consumption(text: &mut Text, cut: &Cut, occupancy: i64) -> Verdict {
    let (over, under) = (occupancy as u64 * u64::from(100 + cut.rate), 100 * cut.window());
    text.fraction(over, under);
    let (word, verdict) = if over <= under { ("within", Verdict::Within) } else { ("over", Verdict::Over) };
    text.word(word).end();
    verdict
}

pub fn write_disorder(text: &mut Text, cut: &Cut, disorder: &Disorder) {
    match disorder {
        Disorder::Opposite { first, second, places } => {
            text.row("opposite").name(&cut.name).name(cut.train(*first)).name(cut.train(*second));
            text.name(cut.place(places[0])).name(cut.place(places[1])).end();
        }
        Disorder::Ring(ring) => {
            text.row("ring").name(&cut.name).number(ring.len() as i64).end();
            for (tie, next) in ring.iter().zip(ring.iter().cycle().skip(1)) {
                write_link(text, cut, [tie.train, tie.place, next.train]);
            }
        }
    }
}

fn write_link(text: &mut Text, cut: &Cut, [train, place, next]: [u32; 3]) {
    text.row("link").name(cut.train(train)).name(cut.place(place)).name(cut.train(next)).end();
}

/// A row for each train of an answer in order; none of one that has no order.
pub fn write_trains(text: &mut Text, answer: &Answer) {
    if answer.is_ordered() {
        for (train, member) in answer.cut.members.iter().enumerate() {
            text.row("train").name(&member.name).number(member.entry.into());
            text.number(answer.entry(train)).number(answer.shifts[train]);
            write_tie(text, answer, train);
        }
    }
}

/// The end of a row: what holds a train.
pub fn write_tie(text: &mut Text, answer: &Answer, train: usize) {
    match answer.ties[train] {
        None => text.word("start").end(),
        Some(tie) => text.word("after").name(answer.cut.train(tie.train)).name(answer.cut.place(tie.place)).end(),
    }
}

pub fn write_total(text: &mut Text, heads: &[Head]) {
    let count = |verdict| heads.iter().filter(|head| head.verdict == verdict).count() as i64;
    let [within, over, disordered, crowded] =
        [Verdict::Within, Verdict::Over, Verdict::Disordered, Verdict::Crowded].map(count);
    text.row("total").number(heads.len() as i64).number(within + over);
    text.number(within).number(over).number(disordered).number(crowded).end();
}
