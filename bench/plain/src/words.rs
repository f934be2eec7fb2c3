//! The words after the program's name.

use crate::input::number;

pub enum Command<'a> {
    Stairs,
    Check,
    Report,
    Compress(&'a [u8]),
    Headways(&'a [u8]),
    Cut(&'a [u8]),
    Cycle(&'a [u8]),
    Delays(&'a [u8], Vec<&'a [u8]>, Vec<u32>),
    Fill(&'a [u8], &'a [u8]),
    Session(usize),
    Made(u32),
}

/// The command that the words spell, where they spell one.
pub fn command(words: &[String]) -> Option<Command<'_>> {
    let words: Vec<&[u8]> = words.iter().map(|word| word.as_bytes()).collect();
    Some(match words[..] {
        [b"stairs"] => Command::Stairs,
        [b"check"] => Command::Check,
        [b"report"] => Command::Report,
        [b"compress", name] => Command::Compress(name),
        [b"headways", name] => Command::Headways(name),
        [b"cut", name] => Command::Cut(name),
        [b"cycle", name] => Command::Cycle(name),
        [b"delays", name, ref pairs @ ..] if pairs.len() % 2 == 0 => delays(name, pairs)?,
        [b"fill", name, run] => Command::Fill(name, run),
        [b"session", workers] if workers.len() <= 2 => {
            Command::Session(number(workers).ok().filter(|&workers| workers <= 16)? as usize)
        }
        [b"made", seed] => Command::Made(number(seed).ok()?),
        _ => return None,
    })
}

/// 1 to 64 pairs of a run and its seconds, of one to five digits; no run comes twice.
fn delays<'a>(name: &'a [u8], pairs: &[&'a [u8]]) -> Option<Command<'a>> {
    let (mut runs, mut seconds) = (Vec::new(), Vec::new());
    for pair in pairs.chunks(2) {
        if runs.contains(&pair[0]) {
            return None;
        }
        runs.push(pair[0]);
        seconds.push(number(pair[1]).ok().filter(|&delay| delay <= 86_400 && pair[1].len() <= 5)?);
    }
    (1..=64).contains(&runs.len()).then_some(Command::Delays(name, runs, seconds))
}
