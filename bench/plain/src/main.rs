//! A plain program that does what the capacity engine does: it reads a line as CSV from standard input and
//! writes the answer to the command of its words. Written from docs/FORMATS.md and docs/METHOD.md alone, as a
//! second reading of them, and to compare speeds with.

mod answer;
mod check;
mod compress;
mod cut;
mod cycle;
mod delays;
mod fill;
mod headways;
mod input;
mod made;
mod memory;
mod pieces;
mod session;
mod stairs;
mod tables;
mod text;
mod words;

use compress::on_section;
use input::Refusal;
use std::io::{Read, Write};
use text::Text;
use words::Command;

const USAGE: &str = "usage: plain COMMAND < LINE.csv, COMMAND being stairs, check, report, \
compress NAME, headways NAME, cut NAME, cycle NAME, delays NAME RUN SECONDS .., fill NAME RUN or \
session W, W from 0 to 16; or plain made N, N of one to nine digits, which reads no line";

fn main() {
    std::process::exit(run());
}

/// Does what the words say; gives the status.
fn run() -> i32 {
    let words: Option<Vec<String>> = std::env::args_os().skip(1).map(|word| word.into_string().ok()).collect();
    let Some(command) = words.as_deref().and_then(words::command) else { return end(2, USAGE) };
    let Ok(bytes) = read_input(&command) else { return end(3, "the input could not be read") };
    let (text, refusal) = match outcome(&command, &bytes) {
        Ok(text) => (text.bytes, None),
        Err(refusal) => (format!("refused,{},{}\n", refusal.row, refusal.cause).into_bytes(), Some(refusal)),
    };
    let mut output = std::io::stdout().lock();
    if output.write_all(&text).and_then(|()| output.flush()).is_err() {
        return end(4, "the output could not be written");
    }
    refusal.map_or(0, |refusal| end(1, &format!("row {}: it is refused, {}", refusal.row, refusal.cause)))
}

/// Tells why the program ends with a status.
pub fn end(status: i32, why: &str) -> i32 {
    // Where standard error can't be written to, the status says enough.
    let _ = writeln!(std::io::stderr(), "{why}");
    status
}

/// All of standard input, or one byte more than is taken.
fn read_input(command: &Command) -> std::io::Result<Vec<u8>> {
    let mut bytes = Vec::new();
    if !matches!(command, Command::Made(_)) {
        let most = input::MOST_BYTES as u64 + 1;
        std::io::stdin().lock().take(most).read_to_end(&mut bytes)?;
    }
    Ok(bytes)
}

fn outcome(command: &Command, bytes: &[u8]) -> Result<Text, Refusal> {
    if bytes.len() > input::MOST_BYTES {
        return Err(Refusal { row: 0, cause: "too-long" });
    }
    let input = input::read(bytes, matches!(command, Command::Session(_)))?;
    let line = &input.line;
    match command {
        Command::Stairs => Ok(stairs::stairs(line)),
        Command::Check => Ok(check::check(line)),
        Command::Report => Ok(compress::report(Text::default(), &compress::heads(line))),
        Command::Compress(name) => on_section(line, name, &[], |text, cut, _| compress::compress(text, cut)),
        Command::Headways(name) => on_section(line, name, &[], |text, cut, _| headways::headways(text, cut)),
        Command::Cut(name) => on_section(line, name, &[], |text, cut, _| pieces::cut(text, cut)),
        Command::Cycle(name) => on_section(line, name, &[], |text, cut, _| cycle::cycle(text, cut)),
        Command::Delays(name, runs, seconds) => {
            on_section(line, name, runs, |text, cut, trains| delays::delays(text, cut, trains, seconds))
        }
        Command::Fill(name, run) => {
            on_section(line, name, &[run], |text, cut, trains| fill::fill(text, cut, trains[0]))
        }
        Command::Session(workers) => {
            let session = session::session(input, *workers);
            Ok(compress::report(session.journal, &session.heads))
        }
        Command::Made(number) => Ok(made::made(*number)),
    }
}
