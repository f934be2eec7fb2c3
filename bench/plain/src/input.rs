//! The rows of the input: what each spells, and which is refused for its form or its place.

use crate::tables::{Leg, Line};
use crate::text::Text;
use csv::ByteRecord;

/// An input of more bytes is refused.
pub const MOST_BYTES: usize = 16_777_216;
const MOST_PLANNERS: usize = 16;
const MOST_TASKS: usize = 256;
/// Signals of a route, legs of a run, blocks of a section.
const MOST_PARTS: usize = 256;

/// Why a row is refused, in the word that the output has for it.
pub type Cause = &'static str;

/// A refused input: the row, counted from 1, or 0 where it is refused as a whole.
#[derive(Clone, Copy, Debug)]
pub struct Refusal { pub row: usize, pub cause: Cause }

#[derive(Clone, Copy, PartialEq, Eq)]
pub enum Kind { Block, Signal, Route, Run, Section, Connect }

/// How a number is read, in which version, and its limits.
type Number = (fn(&[u8], u32) -> Result<u32, Cause>, u32, u32);

/// What stands at the end of a row.
#[derive(Clone, Copy)]
enum Tail { Nothing, Names, Legs }

/// The fields of a row that puts or changes an item, behind its word and name: some names, some numbers with
/// their limits, and a tail.
struct Shape { kind: Kind, noun: &'static str, names: usize, numbers: &'static [Number], tail: Tail }

const DAY: u32 = 86_400;
const FAR: u32 = 1_000_000;
const PLAIN: fn(&[u8], u32) -> Result<u32, Cause> = |field, _| number(field);
const LENGTH: Number = (PLAIN, 1, FAR);
const AT_MOST_FAR: Number = (PLAIN, 0, FAR);
const AT_MOST_A_DAY: Number = (PLAIN, 0, DAY);
const IN_A_WEEK: Number = (time, 0, 604_800);
const SIGNAL: [Number; 5] = [AT_MOST_FAR, AT_MOST_A_DAY, AT_MOST_A_DAY, AT_MOST_FAR, AT_MOST_A_DAY];
const WINDOW: [Number; 3] = [IN_A_WEEK, (time, 1, 1_209_600), (rate, 0, 1000)];

#[rustfmt::skip]
static SHAPES: [Shape; 6] = [
    Shape { kind: Kind::Block, noun: "block", names: 0, numbers: &[LENGTH], tail: Tail::Nothing },
    Shape { kind: Kind::Signal, noun: "signal", names: 1, numbers: &SIGNAL, tail: Tail::Nothing },
    Shape { kind: Kind::Route, noun: "route", names: 0, numbers: &[], tail: Tail::Names },
    Shape { kind: Kind::Run, noun: "run", names: 1, numbers: &[LENGTH, AT_MOST_A_DAY, IN_A_WEEK], tail: Tail::Legs },
    Shape { kind: Kind::Section, noun: "section", names: 0, numbers: &WINDOW, tail: Tail::Names },
    Shape { kind: Kind::Connect, noun: "connect", names: 2, numbers: &[AT_MOST_A_DAY], tail: Tail::Nothing },
];

#[derive(Clone, Copy, PartialEq, Eq)]
pub enum Verb { Put, Change, Drop }

/// What a row spells; names are still the bytes of the row.
pub enum Row<'a> { Edit(Edit<'a>), Planner(u32), Ask(&'a [u8]) }

/// An edit; a drop has a name alone.
pub struct Edit<'a> {
    pub verb: Verb,
    pub kind: Kind,
    pub name: &'a [u8],
    /// The names that the item refers to, and its numbers, in the order of the row.
    pub names: Names<'a>,
    pub numbers: [u32; 5],
    pub legs: Vec<Leg>,
}

/// The names in some fields of a row.
#[derive(Clone, Copy)]
pub struct Names<'a> { record: &'a ByteRecord, from: usize, to: usize }

impl<'a> Names<'a> {
    pub fn iter(self) -> impl ExactSizeIterator<Item = &'a [u8]> {
        (self.from..self.to).map(move |field| &self.record[field])
    }
}

/// A task of a planner, kept as its row with the version, and spelled again when it is done.
pub struct Task(ByteRecord, u32);

impl Task {
    pub fn row(&self) -> Row<'_> {
        spell(&self.0, self.1).expect("the row was spelled when it was read")
    }
}

/// What an accepted input says.
#[derive(Default)]
pub struct Input {
    pub line: Line,
    /// How many edits the base has.
    pub edits: u64,
    pub scripts: Vec<Vec<Task>>,
}

/// Reads the whole input. A row that spells nothing, or may not stand where it does, is refused before any
/// row whose edit a rule refuses, so the rows are looked at to the end in any case.
pub fn read(bytes: &[u8], scripts_allowed: bool) -> Result<Input, Refusal> {
    let mut reader = csv::ReaderBuilder::new().has_headers(false).flexible(true).from_reader(bytes);
    let mut record = ByteRecord::new();
    let mut input = Input::default();
    let mut refused = None;
    let (mut version, mut row, mut tasks) = (1, 0, 0);
    while reader.read_byte_record(&mut record).expect("memory can be read") {
        row += 1;
        let refuse = |cause| Refusal { row, cause };
        if row == 1 && &record[0] == b"version" {
            let field = record.get(1).filter(|_| record.len() == 2).ok_or(refuse("fields"))?;
            version = number(field).ok().filter(|version| matches!(version, 1 | 2)).ok_or(refuse("number"))?;
            continue;
        }
        match spell(&record, version).map_err(refuse)? {
            Row::Edit(edit) if input.scripts.is_empty() => {
                if refused.is_none() {
                    refused = input.line.apply(edit).err().map(refuse);
                    input.edits += 1;
                }
            }
            Row::Planner(number) => {
                let next = input.scripts.len() + 1;
                if !scripts_allowed || number as usize != next || next > MOST_PLANNERS {
                    return Err(refuse("script"));
                }
                input.scripts.push(Vec::new());
            }
            Row::Edit(_) | Row::Ask(_) => {
                let script = input.scripts.last_mut().filter(|_| tasks < MOST_TASKS).ok_or(refuse("script"))?;
                tasks += 1;
                script.push(Task(record.clone(), version));
            }
        }
    }
    refused.map_or(Ok(input), Err)
}

/// What a row spells, or the first fault of its form.
fn spell(record: &ByteRecord, version: u32) -> Result<Row<'_>, Cause> {
    let word = &record[0];
    let single = record.len() == 2;
    match word {
        b"planner" if single => return Ok(Row::Planner(number(&record[1])?)),
        b"ask" if single => return Ok(Row::Ask(name(&record[1])?)),
        b"planner" | b"ask" => return Err("fields"),
        _ => (),
    }
    let (verb, noun) = match (word.strip_prefix(b"change-"), word.strip_prefix(b"drop-")) {
        (Some(noun), _) => (Verb::Change, noun),
        (_, Some(noun)) => (Verb::Drop, noun),
        _ => (Verb::Put, word),
    };
    let shape = SHAPES.iter().find(|shape| shape.noun.as_bytes() == noun).ok_or("kind")?;
    if !(if verb == Verb::Drop { single } else { shape.may_have(record.len()) }) {
        return Err("fields");
    }
    let (kind, own, names) = (shape.kind, name(&record[1])?, Names { record, from: 2, to: 2 });
    let mut edit = Edit { verb, kind, name: own, names, numbers: [0; 5], legs: Vec::new() };
    if verb != Verb::Drop {
        shape.spell(&mut edit, record, version)?;
    }
    Ok(Row::Edit(edit))
}

impl Shape {
    /// How many fields there are before the tail.
    fn head(&self) -> usize {
        2 + self.names + self.numbers.len()
    }

    fn may_have(&self, fields: usize) -> bool {
        let tail = fields.wrapping_sub(self.head());
        match self.tail {
            Tail::Nothing => tail == 0,
            Tail::Names => (1..=MOST_PARTS).contains(&tail),
            Tail::Legs => tail % 2 == 1 && tail < 2 * MOST_PARTS,
        }
    }

    /// Reads the fields behind the name, in their order, so that the first bad one decides.
    fn spell<'a>(&self, edit: &mut Edit<'a>, record: &'a ByteRecord, version: u32) -> Result<(), Cause> {
        edit.names = names(record, 2, 2 + self.names)?;
        for (at, (read, ..)) in self.numbers.iter().enumerate() {
            edit.numbers[at] = read(&record[2 + self.names + at], version)?;
        }
        match self.tail {
            Tail::Nothing => (),
            Tail::Names => edit.names = names(record, self.head(), record.len())?,
            Tail::Legs if version == 1 => edit.legs = legs(record)?,
            Tail::Legs => edit.legs = legs_of_times(record, edit.numbers[2])?,
        }
        Ok(())
    }
}

/// A run's running and dwell times; the last leg has no dwell.
fn legs(record: &ByteRecord) -> Result<Vec<Leg>, Cause> {
    let leg = |field| {
        let running = number(&record[field])?;
        Ok(Leg { running, dwell: record.get(field + 1).map_or(Ok(0), number)? })
    };
    (6..record.len()).step_by(2).map(leg).collect()
}

/// The same from the times of arrivals and departures, as the second version has them.
fn legs_of_times(record: &ByteRecord, start: u32) -> Result<Vec<Leg>, Cause> {
    let times: Vec<u32> = (6..record.len()).map(|field| time(&record[field], 2)).collect::<Result<_, _>>()?;
    let mut before = start;
    let leg = |pair: &[u32]| {
        let (arrival, departure) = (pair[0], *pair.last()?);
        let leg = Leg { running: arrival.checked_sub(before)?, dwell: departure.checked_sub(arrival)? };
        before = departure;
        Some(leg)
    };
    times.chunks(2).map(leg).collect::<Option<_>>().ok_or("order")
}

fn names(record: &ByteRecord, from: usize, to: usize) -> Result<Names<'_>, Cause> {
    (from..to).try_for_each(|field| name(&record[field]).map(|_| ()))?;
    Ok(Names { record, from, to })
}

/// 1 to 64 bytes of UTF-8 without a control character.
fn name(field: &[u8]) -> Result<&[u8], Cause> {
    let control = field.iter().any(|&byte| byte < b' ' || byte == 0x7f);
    let good = !control && (1..=64).contains(&field.len()) && (field.is_ascii() || std::str::from_utf8(field).is_ok());
    if good { Ok(field) } else { Err("name") }
}

/// One to nine digits.
pub fn number(field: &[u8]) -> Result<u32, Cause> {
    if field.is_empty() || field.len() > 9 {
        return Err("number");
    }
    field.iter().try_fold(0, |sum, &byte| match byte.wrapping_sub(b'0') {
        digit @ 0..=9 => Ok(sum * 10 + u32::from(digit)),
        _ => Err("number"),
    })
}

fn time(field: &[u8], version: u32) -> Result<u32, Cause> {
    if version == 2 && field.contains(&b':') { clock(field).ok_or("number") } else { number(field) }
}

/// `HOURS:MM:SS`, with one to five digits of hours.
fn clock(field: &[u8]) -> Option<u32> {
    let colon = field.len().checked_sub(6).filter(|&hours| hours <= 5)?;
    let (b':', b':') = (field[colon], field[colon + 3]) else { return None };
    let below_60 = |digits| number(digits).ok().filter(|&part| part < 60);
    let (minutes, seconds) = (below_60(&field[colon + 1..colon + 3])?, below_60(&field[colon + 4..])?);
    Some(number(&field[..colon]).ok()? * 3600 + minutes * 60 + seconds)
}

fn rate(field: &[u8], _: u32) -> Result<u32, Cause> {
    match field {
        b"suburban-peak" => Ok(18),
        b"suburban-day" => Ok(43),
        b"highspeed-peak" | b"mixed-peak" => Ok(33),
        b"highspeed-day" | b"mixed-day" => Ok(67),
        _ => number(field),
    }
}

impl Edit<'_> {
    /// Whether all numbers lie within their limits, and a window ends after it begins.
    pub fn is_in_range(&self) -> bool {
        let limits = SHAPES[self.kind as usize].numbers.iter();
        let within = |(&(_, least, most), number)| (least..=most).contains(number);
        let timely = |leg: &Leg| (1..=DAY).contains(&leg.running) && leg.dwell <= DAY;
        let windowless = self.kind != Kind::Section || self.numbers[0] < self.numbers[1];
        self.verb == Verb::Drop || windowless && limits.zip(&self.numbers).all(within) && self.legs.iter().all(timely)
    }

    /// The edit's row as the first version spells it, as fields behind those of the text.
    pub fn write(&self, text: &mut Text) {
        let shape = &SHAPES[self.kind as usize];
        let verb = ["", "change-", "drop-"][self.verb as usize];
        text.word(verb).row(shape.noun).name(self.name);
        let count = if self.verb == Verb::Drop { 0 } else { shape.numbers.len() };
        let legs = self.legs.iter().flat_map(|leg| [leg.running, leg.dwell]);
        let numbers = self.numbers[..count].iter().copied().chain(legs.take((2 * self.legs.len()).saturating_sub(1)));
        let names_last = matches!(shape.tail, Tail::Names);
        self.names.iter().filter(|_| !names_last).for_each(|name| _ = text.name(name));
        numbers.for_each(|number| _ = text.number(number.into()));
        self.names.iter().filter(|_| names_last).for_each(|name| _ = text.name(name));
        text.end();
    }
}
