//! The command `cut`: the fewest pieces of a section whose trains have an order.

use crate::answer::Answer;
use crate::compress::write_disorder;
use crate::cut::{Cut, Member, FIRST_BLOCK};
use crate::stairs::Use;
use crate::tables::Name;
use crate::text::Text;
use std::ops::Range;
use std::sync::Arc;

pub fn cut(text: &mut Text, cut: Cut) {
    let whole = Answer::compressed(by_position(cut));
    let cut = &whole.cut;
    let mut pieces: Vec<Range<usize>> = Vec::new();
    let mut from = 0;
    while from < cut.places.len() {
        pieces.push(from..longest(&whole, from));
        from = pieces[pieces.len() - 1].end;
    }
    for (piece, number) in pieces.iter().zip(1..) {
        text.row("piece").name(&cut.name).number(number);
        text.name(&cut.places[piece.start]).name(&cut.places[piece.end - 1]).end();
    }
    for piece in &pieces[..pieces.len() - 1] {
        text.row("stretch").name(&cut.places[piece.start]).name(&cut.places[piece.end]).end();
        let answer = Answer::compressed(part(cut, piece.start..piece.end + 1));
        let disorder = answer.disorder().expect("no order reaches beyond the longest piece");
        write_disorder(text, &answer.cut, &disorder);
    }
    text.row("cut").name(&cut.name).number(pieces.len() as i64).end();
}

/// The same without connections, with the section's blocks as the places, in their order, and with each
/// train's uses in this order.
fn by_position(mut cut: Cut) -> Cut {
    let mut positions = vec![None; cut.places.len()];
    for (&block, position) in cut.blocks.iter().zip(0..) {
        positions[(FIRST_BLOCK + block) as usize] = Some(position);
    }
    for member in &mut cut.members {
        let moved = |each: &Use| Some(Use { place: positions[each.place as usize]?, ..*each });
        let mut uses: Vec<Use> = member.uses.iter().filter_map(moved).collect();
        uses.sort_unstable_by_key(|each| each.place);
        *member = Arc::new(Member { name: member.name.clone(), entry: member.entry, uses });
    }
    let places: Vec<Name> = cut.blocks.iter().map(|&block| cut.place(FIRST_BLOCK + block).clone()).collect();
    Cut { places: Arc::new(places), ..cut }
}

/// A train's uses of a piece's blocks, one of each block at most.
fn uses_in<'a>(member: &'a Member, piece: &Range<usize>) -> &'a [Use] {
    let count = |uses: &[Use], end: usize| uses.partition_point(|each| (each.place as usize) < end);
    let uses = &member.uses[count(&member.uses, piece.start)..];
    &uses[..count(&uses[..piece.len().min(uses.len())], piece.end)]
}

/// The trains that use one of a piece's blocks, with these uses alone.
fn part(cut: &Cut, piece: Range<usize>) -> Cut {
    let moved = |each: &Use| Use { place: each.place - piece.start as u32, ..*each };
    let members = cut.members.iter().map(|member| {
        let uses: Vec<Use> = uses_in(member, &piece).iter().map(moved).collect();
        Arc::new(Member { name: member.name.clone(), entry: member.entry, uses })
    });
    let members = members.filter(|member| !member.uses.is_empty()).collect();
    Cut { members, places: Arc::new(cut.places[piece.clone()].to_vec()), ..cut.clone() }
}

/// Whether the trains have an order on a piece's blocks: each is taken when it is the next on all of these
/// that it uses.
fn is_orderly(whole: &Answer, piece: Range<usize>) -> bool {
    let uses: Vec<&[Use]> = whole.cut.members.iter().map(|member| uses_in(member, &piece)).collect();
    // On how many blocks each train isn't the next yet, and which trains come yet on each block.
    let mut waiting: Vec<usize> = uses.iter().map(|uses| uses.len()).collect();
    let mut coming: Vec<_> = whole.lists[piece.clone()].iter().map(|list| list.iter()).collect();
    let mut free: Vec<usize> = piece.clone().collect();
    while let Some(block) = free.pop() {
        let Some(next) = coming[block - piece.start].next() else { continue };
        waiting[next.train as usize] -= 1;
        if waiting[next.train as usize] == 0 {
            free.extend(uses[next.train as usize].iter().map(|each| each.place as usize));
        }
    }
    waiting.iter().all(|&blocks| blocks == 0)
}

/// Where the longest orderly piece from a block on ends. A part of an orderly piece is orderly, so steps are
/// doubled until one is too long, and then halved.
fn longest(whole: &Answer, from: usize) -> usize {
    let reaches = |end: usize| end <= whole.lists.len() && is_orderly(whole, from..end);
    let (mut end, mut step) = (from + 1, 1);
    while reaches(end + step) {
        end += step;
        step *= 2;
    }
    while step > 1 {
        step /= 2;
        if reaches(end + step) {
            end += step;
        }
    }
    end
}
