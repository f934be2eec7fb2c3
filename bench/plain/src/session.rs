//! The command `session`: planners edit the timetable and ask, workers answer, and the journal tells it.

use crate::answer::Answer;
use crate::compress::{crowded, head, write_trains, Head};
use crate::cut::{Cut, Cutter, Traffic, FIRST_BLOCK};
use crate::input::{Edit, Input, Kind, Row, Task};
use crate::stairs::Way;
use crate::tables::{Change, Line, Name};
use crate::text::Text;
use indexmap::IndexMap;
use std::sync::{Condvar, Mutex, MutexGuard};

/// A session that is over: its journal, the heads of the answers in the end, in the order of the sections'
/// names, and the number of the last edit.
pub struct Session { pub journal: Text, pub heads: Vec<Head>, pub at: u64 }

pub fn session(input: Input, workers: usize) -> Session {
    let scripts = input.scripts;
    let mut book = Book::open(input.line, input.edits, scripts.len());
    if workers == 0 {
        for (script, planner) in scripts.iter().zip(1..) {
            for task in script {
                book.publish_all();
                book.do_task(planner, task);
            }
        }
        book.publish_all();
        return book.close();
    }
    for pass in 1..=scripts.len() + workers {
        book.journal.row("entered").number(pass as i64).end();
    }
    let desk = Desk { book: Mutex::new(book), changed: Condvar::new() };
    std::thread::scope(|threads| {
        for (script, planner) in scripts.iter().zip(1..) {
            let desk = &desk;
            threads.spawn(move || desk.plan(planner, script));
        }
        for _ in 0..workers {
            threads.spawn(|| desk.work());
        }
    });
    desk.book.into_inner().expect("no thread panics").close()
}

/// The book, where one thread at a time looks into it.
struct Desk { book: Mutex<Book>, changed: Condvar }

impl Desk {
    fn take(&self) -> MutexGuard<'_, Book> {
        self.book.lock().expect("no thread panics")
    }

    fn plan(&self, planner: i64, script: &[Task]) {
        for task in script {
            self.take().do_task(planner, task);
            self.changed.notify_all();
        }
        self.take().planning -= 1;
        self.changed.notify_all();
    }

    /// Answers the first section that isn't current and that no other worker has in hand, until there is none
    /// and the planners are done. Answers are worked out while others have the book.
    fn work(&self) {
        let mut book = self.take();
        loop {
            let open = book.open_sections().next();
            if let Some(section) = open {
                let work = book.take_up(section);
                drop(book);
                let done = work.done();
                book = self.take();
                book.publish(done);
                self.changed.notify_all();
            } else if book.planning == 0 {
                return;
            } else {
                book = self.changed.wait(book).expect("no thread panics");
            }
        }
    }
}

/// What the journal says of the sections of one name. It outlives the section.
#[derive(Default)]
struct Standing { published: Option<u64>, touched: u64 }

impl Standing {
    fn is_current(&self) -> bool {
        self.published.is_some_and(|published| published >= self.touched)
    }
}

/// A section of the book.
struct Shelf {
    cutter: Cutter,
    /// The edit that put or changed the section.
    since: u64,
    in_hand: bool,
    /// The last answer that was worked out, to be mended, and the head of the last one published.
    answer: Option<Box<Answer>>,
    head: Option<Head>,
}

struct Book {
    line: Line,
    traffic: Traffic,
    /// By the sections' numbers.
    shelves: Vec<Option<Shelf>>,
    standings: IndexMap<Name, Standing>,
    at: u64,
    /// How many planners aren't done.
    planning: usize,
    journal: Text,
}

impl Book {
    fn open(line: Line, at: u64, planners: usize) -> Book {
        let traffic = Traffic::of(&line);
        let shelves = (0..line.sections.len() as u32).map(|section| shelf(&line, &traffic, section, at)).collect();
        let sections = line.table(Kind::Section).by_name();
        let standing = |&section: &u32| (line.table(Kind::Section).name(section).clone(), Standing::default());
        let standings = sections.iter().map(standing).collect();
        let mut journal = Text::default();
        journal.row("opened").number(at as i64).number(planners as i64).number(sections.len() as i64).end();
        Book { line, traffic, shelves, standings, at, planning: planners, journal }
    }

    fn close(self) -> Session {
        let head = |&section: &u32| self.shelf(section).head.clone().expect("each section is current in the end");
        let heads = self.line.table(Kind::Section).by_name().iter().map(head).collect();
        Session { journal: self.journal, heads, at: self.at }
    }

    fn shelf(&self, section: u32) -> &Shelf {
        self.shelves[section as usize].as_ref().expect("each section has its shelf")
    }

    fn do_task(&mut self, planner: i64, task: &Task) {
        match task.row() {
            Row::Ask(name) => self.ask(planner, name),
            Row::Edit(edit) => self.edit(planner, edit),
            Row::Planner(_) => (),
        }
    }

    fn ask(&mut self, planner: i64, name: &[u8]) {
        let reply = self.journal.row("asked").number(planner).name(name);
        if self.line.table(Kind::Section).find(name).is_none() {
            return reply.word("unknown").end();
        }
        let standing = &self.standings[name];
        match standing.published {
            None => reply.word("not-yet").end(),
            Some(at) if standing.is_current() => reply.word("ready").number(at as i64).end(),
            Some(at) => reply.word("stale").number(at as i64).number(standing.touched as i64).end(),
        }
    }

    fn edit(&mut self, planner: i64, edit: Edit) {
        let mut row = Text::default();
        edit.write(&mut row);
        match self.line.apply(edit) {
            Err(cause) => self.journal.row("rejected").number(planner).word(cause).append(&row),
            Ok(change) => {
                self.at += 1;
                self.journal.row("edited").number(planner).number(self.at as i64).append(&row);
                self.follow(&change);
            }
        }
    }

    /// Brings the cuts up to an edit.
    fn follow(&mut self, change: &Change) {
        match change.kind {
            Kind::Section => self.follow_section(change.number),
            Kind::Connect => {
                self.traffic.follow_names(&self.line);
                self.refresh(&change.named, |_| true);
            }
            Kind::Run => {
                if self.line.table(Kind::Run).numbers().count() != self.traffic.runs.len() {
                    self.traffic.follow_names(&self.line);
                }
                // A connection of the run may bind otherwise where no blocking has changed.
                self.walk_again(&[change.number]);
                self.refresh(&[change.number], |_| true);
            }
            Kind::Block | Kind::Signal | Kind::Route => {
                self.traffic.follow_names(&self.line);
                let line = &self.line;
                let runs: Vec<u32> = line.table(Kind::Run).numbers().filter(|&run| line.depends(run, change)).collect();
                let blocks = self.walk_again(&runs);
                self.refresh(&runs, |cutter| cutter.has_any(&blocks));
            }
        }
    }

    /// Makes the ways of these runs anew; gives on which blocks they differ.
    fn walk_again(&mut self, runs: &[u32]) -> Vec<bool> {
        let mut differ = vec![false; self.line.table(Kind::Block).room()];
        for &run in runs {
            let new = Way::of(&self.line, run);
            let old = &mut self.traffic.ways[run as usize];
            for (old, new) in old.uses.iter().zip(&new.uses).filter(|(old, new)| old != new) {
                differ[(old.place - FIRST_BLOCK) as usize] = true;
                differ[(new.place - FIRST_BLOCK) as usize] = true;
            }
            *old = new;
        }
        differ
    }

    /// Brings the members of these runs up to date in the cuts that may have changed.
    fn refresh(&mut self, runs: &[u32], may_differ: impl Fn(&Cutter) -> bool) {
        for shelf in self.shelves.iter_mut().flatten() {
            shelf.cutter.cut.places = self.traffic.places.clone();
            if may_differ(&shelf.cutter) && shelf.cutter.refresh(&self.line, &self.traffic, runs) {
                self.standings[&shelf.cutter.cut.name].touched = self.at;
            }
        }
    }

    fn follow_section(&mut self, section: u32) {
        self.shelves.resize_with(self.line.table(Kind::Section).room(), || None);
        let old = &mut self.shelves[section as usize];
        let new = shelf(&self.line, &self.traffic, section, self.at);
        if !matches!((&old, &new), (Some(old), Some(new)) if old.cutter.cut.is_same(&new.cutter.cut)) {
            let name = self.line.table(Kind::Section).name(section).clone();
            self.standings.entry(name).or_default().touched = self.at;
            *old = new;
        }
    }

    /// The sections that aren't current, in the order of names.
    fn open_sections(&self) -> impl Iterator<Item = u32> + '_ {
        let open = |section: &u32| {
            let shelf = self.shelf(*section);
            !shelf.in_hand && !self.standings[&shelf.cutter.cut.name].is_current()
        };
        self.line.table(Kind::Section).by_name().into_iter().filter(open)
    }

    /// Reads a section, to work its answer out.
    fn take_up(&mut self, section: u32) -> Work {
        let shelf = self.shelves[section as usize].as_mut().expect("the section is there");
        shelf.in_hand = true;
        let cut = &shelf.cutter.cut;
        let head = cut.is_crowded().then(|| crowded(cut));
        let cut = if head.is_none() { Some(cut.clone()) } else { None };
        let (answer, trains) = (shelf.answer.take(), Text::default());
        Work { section, at: self.at, since: shelf.since, cut, answer, head, trains }
    }

    /// Publishes an answer, if no edit has touched its section since it was read.
    fn publish(&mut self, done: Work) {
        let shelf = self.shelves[done.section as usize].as_mut();
        let Some(shelf) = shelf.filter(|shelf| shelf.since == done.since) else { return };
        shelf.in_hand = false;
        shelf.answer = done.answer;
        let standing = &mut self.standings[&shelf.cutter.cut.name];
        if standing.touched <= done.at {
            standing.published = Some(done.at);
            shelf.head = done.head;
            self.journal.row("published").name(&shelf.cutter.cut.name).number(done.at as i64).end();
            shelf.head.iter().for_each(|head| self.journal.append(&head.rows));
            self.journal.append(&done.trains);
        }
    }

    fn publish_all(&mut self) {
        for section in self.open_sections().collect::<Vec<u32>>() {
            let done = self.take_up(section).done();
            self.publish(done);
        }
    }
}

/// The shelf of a section, where there is one of this number.
fn shelf(line: &Line, traffic: &Traffic, section: u32, since: u64) -> Option<Shelf> {
    let there = line.table(Kind::Section).has(section);
    let cutter = there.then(|| Cutter::of(line, traffic, section));
    cutter.map(|cutter| Shelf { cutter, since, in_hand: false, answer: None, head: None })
}

/// A section whose answer is to be worked out from the one of an earlier cut, or has been; then there is no cut.
struct Work {
    section: u32,
    at: u64,
    since: u64,
    cut: Option<Cut>,
    answer: Option<Box<Answer>>,
    head: Option<Head>,
    trains: Text,
}

impl Work {
    fn done(mut self) -> Work {
        let Some(cut) = self.cut.take() else { return self };
        let answer = match self.answer.take() {
            Some(mut answer) => {
                answer.mend(cut);
                answer
            }
            None => Box::new(Answer::compressed(cut)),
        };
        write_trains(&mut self.trains, &answer);
        self.head = Some(head(&answer));
        Work { answer: Some(answer), ..self }
    }
}
