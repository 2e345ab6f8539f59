//! First refusal: a contest for a firm row, run by its seller from two lists of moves.

use crate::actions::{
    accepted, both_sound, displace, find, is_firm, refuse_if, seller_may_move, span_hours, Outcome,
};
use crate::layout::*;
use crate::{Action, Answer};

/// A challenger's move that ends the contest; every other word is the term it names.
const STOPS: u32 = 0;

/// A holder's answer that ends the contest; every other word matches the term named.
const YIELDS: u32 = 0;

/// Who runs a contest, and for which row.
#[derive(Clone, Copy, Debug, Default, PartialEq, Eq)]
pub struct Contest {
    pub actor: u32,
    pub reference: u32,
    /// The challenger's greatest term, in hours.
    pub challenger: u32,
    /// The holder's greatest term, in hours.
    pub holder: u32,
}

impl Contest {
    /// The action that a lost contest comes to.
    pub fn displacement(&self) -> Action {
        let Contest { actor, reference, .. } = *self;
        Action { kind: SELLER_STATUS, actor, reference, status: DISPLACED, ..Action::default() }
    }
}

/// How the moves ended.
enum Ending {
    Kept,
    Lost,
    Unfinished,
}

/// A contest: `moves` are the challenger's, `replies` the holder's.
pub fn contest(
    ledger: &mut [u32],
    postings: &[u32],
    contest: &Contest,
    moves: &[u32],
    replies: &[u32],
) -> Answer {
    if !both_sound(ledger, postings) {
        return Answer::refused(BAD_LEDGER);
    }
    run(ledger, contest, moves, replies).unwrap_or_else(Answer::refused)
}

fn run(ledger: &mut [u32], contest: &Contest, moves: &[u32], replies: &[u32]) -> Outcome {
    let &Contest { actor, reference, challenger, holder } = contest;
    refuse_if(!is_entity(actor), BAD_PARTY)?;
    let row = find(ledger, reference)?;
    refuse_if(actor != row.get(ledger, SELLER), BAD_PARTY)?;
    refuse_if(!seller_may_move(ledger, row, DISPLACED), BAD_MOVE)?;
    refuse_if(!is_firm(ledger, reference), BAD_MOVE)?;
    let present = span_hours(ledger, row);
    let terms = 1..=ledger[HOURS];
    let fit = terms.contains(&challenger) && terms.contains(&holder) && holder >= present;
    refuse_if(!fit, TERM_RANGE)?;
    match play(contest, present, moves, replies)? {
        Ending::Lost => displace(ledger, reference, row),
        Ending::Kept | Ending::Unfinished => accepted(reference, CONFIRMED, CONFIRMED, 0),
    }
}

/// Move by move, or 25. A term is judged before its answer is looked for.
fn play(
    &Contest { challenger, holder, .. }: &Contest,
    present: u32,
    moves: &[u32],
    replies: &[u32],
) -> Result<Ending, u32> {
    let mut last = present;
    let mut replies = replies.iter();
    for &term in moves {
        if term == STOPS {
            return Ok(Ending::Kept);
        }
        refuse_if(term > challenger || term <= last, TERM_RANGE)?;
        match replies.next() {
            None => return Ok(Ending::Unfinished),
            Some(&YIELDS) => return Ok(Ending::Lost),
            Some(_) => refuse_if(term > holder, TERM_RANGE)?,
        }
        last = term;
    }
    Ok(Ending::Unfinished)
}
