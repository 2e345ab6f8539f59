//! Annulments in order: a deal chain unwound on a copy, to see whether it can be.

use crate::actions::{answer, both_sound, find};
use crate::layout::*;
use crate::Action;

/// The annulment of a row by its seller, in a sound ledger; none where there is no such
/// reference.
pub fn annulment(ledger: &[u32], reference: u32) -> Option<Action> {
    let actor = find(ledger, reference).ok()?.get(ledger, SELLER);
    let annuls = Action { kind: SELLER_STATUS, status: ANNULLED, ..Action::default() };
    Some(Action { actor, reference, ..annuls })
}

/// True where the annulments of the references in that order, each on what the one before
/// left, are all accepted.
pub fn annuls_in_order(ledger: &[u32], postings: &[u32], references: &[u32]) -> bool {
    if references.is_empty() {
        return true;
    }
    if !both_sound(ledger, postings) {
        return false;
    }
    let (mut ledger, mut postings) = (ledger.to_vec(), postings.to_vec());
    references.iter().all(|&reference| {
        annulment(&ledger, reference)
            .is_some_and(|action| answer(&mut ledger, &mut postings, &[], &action).number == 0)
    })
}
