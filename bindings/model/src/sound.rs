//! The sound ledger: one pass over the words.

use crate::layout::*;

pub(crate) fn creation_numbers_fit(
    len: usize,
    rows: u32,
    hours: u32,
    provider: u32,
    window: u32,
    base: u32,
) -> bool {
    (1..=MAX_ROWS).contains(&rows)
        && (1..=MAX_HOURS).contains(&hours)
        && len == ledger_words(rows, hours)
        && is_entity(provider)
        && (1..=MAX_WINDOW).contains(&window)
        && base <= END_HOUR - hours
}

/// True where the words are a sound ledger.
pub fn sound(ledger: &[u32]) -> bool {
    if ledger.len() < HEAD_WORDS {
        return false;
    }
    let rows = ledger[ROWS];
    let hours = ledger[HOURS];
    if !creation_numbers_fit(
        ledger.len(),
        rows,
        hours,
        ledger[PROVIDER],
        ledger[WINDOW],
        ledger[BASE],
    ) || ledger[NOW] >= END_SECOND
        || ledger[USED] > rows
        || ledger[HEAD_ZERO] != 0
    {
        return false;
    }
    let used = ledger[USED];
    let first_unused = ledger_words(used, hours);
    (1..=used).all(|reference| row_is_sound(ledger, reference)) && all_zero(&ledger[first_unused..])
}

fn row_is_sound(ledger: &[u32], reference: u32) -> bool {
    let row = Row::of(ledger, reference);
    let start = row.get(ledger, START);
    let stop = row.get(ledger, STOP);
    (1..=8).contains(&row.get(ledger, TYPE))
        && (1..=17).contains(&row.get(ledger, STATUS))
        && is_entity(row.get(ledger, CUSTOMER))
        && is_entity(row.get(ledger, SELLER))
        && start < stop
        && stop as usize <= row.hours
        && row.get(ledger, FLAGS) <= MAX_FLAGS
        && row.get(ledger, BID) <= MAX_PRICE
        && row.get(ledger, OFFER) <= MAX_PRICE
        && row.get(ledger, LIMIT) < END_LIMIT
        && is_path(row.get(ledger, PATH))
        && all_zero(&ledger[row.at + FIRST_ZERO..row.at + FIELD_WORDS])
        && relation_is_sound(ledger, reference, row)
        && (0..PROFILES).all(|profile| {
            let words = &ledger[row.profile(profile)];
            let (before, rest) = words.split_at(start as usize);
            let (span, after) = rest.split_at((stop - start) as usize);
            all_zero(before) && greatest(span) <= MAX_MW && all_zero(after)
        })
}

fn relation_is_sound(ledger: &[u32], reference: u32, row: Row) -> bool {
    let reqtype = row.get(ledger, TYPE);
    let related = row.get(ledger, RELATED);
    if reqtype <= ORIGINAL_NON_FIRM {
        return related == 0;
    }
    if related == 0 || related >= reference {
        return false;
    }
    let above = Row::of(ledger, related);
    type_may_relate(reqtype, above.get(ledger, TYPE))
        && above.get(ledger, START) <= row.get(ledger, START)
        && row.get(ledger, STOP) <= above.get(ledger, STOP)
}

/// Type 8 is related to a type 5, types 3 to 7 to neither 5 nor 8.
pub(crate) fn type_may_relate(reqtype: u32, related_type: u32) -> bool {
    if reqtype == RELINQUISH {
        related_type == REDIRECT_NON_FIRM
    } else {
        related_type != REDIRECT_NON_FIRM && related_type != RELINQUISH
    }
}

fn all_zero(words: &[u32]) -> bool {
    words.iter().fold(0, |bits, &word| bits | word) == 0
}

pub(crate) fn greatest(words: &[u32]) -> u32 {
    words.iter().fold(0, |most, &word| most.max(word))
}
