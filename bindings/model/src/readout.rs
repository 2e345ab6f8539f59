//! Reading out: the charge and the profile in force.

use crate::layout::*;
use crate::sound::sound;

fn row_in_use(ledger: &[u32], reference: u32) -> Option<Row> {
    (1..=ledger[USED]).contains(&reference).then(|| Row::of(ledger, reference))
}

/// The charge of a CONFIRMED row in cents: MW-hours granted × bid ÷ 24, a half up.
/// Where it is refused, the number.
pub fn charge(ledger: &[u32], reference: u32) -> Result<u64, u32> {
    if !sound(ledger) {
        return Err(BAD_LEDGER);
    }
    let row = row_in_use(ledger, reference).ok_or(NO_REFERENCE)?;
    if row.get(ledger, STATUS) != CONFIRMED {
        return Err(BAD_MOVE);
    }
    let mwh: u64 = ledger[row.profile(GRANTED)].iter().map(|&mw| u64::from(mw)).sum();
    Ok((mwh * u64::from(row.get(ledger, BID)) + 12) / 24)
}

/// The profile in force: granted once given, requested before, the span only.
/// Empty where the ledger is unsound or has no such reference.
pub fn profile_in_force(ledger: &[u32], reference: u32) -> &[u32] {
    if !sound(ledger) {
        return &[];
    }
    match row_in_use(ledger, reference) {
        Some(row) => &ledger[row.span(ledger, in_force(ledger, row))],
        None => &[],
    }
}

/// Which of requested and granted is in force.
pub(crate) fn in_force(ledger: &[u32], row: Row) -> usize {
    if row.get(ledger, FLAGS) & GRANTED_GIVEN != 0 {
        GRANTED
    } else {
        REQUESTED
    }
}
