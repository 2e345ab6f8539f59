//! The tally of resold, redirected, transferred, relinquished and reduced
//! megawatts, and the balance that demand 3 claims after a list of actions and
//! contests.

use std::collections::BTreeMap;

use crate::layout::*;
use crate::{Action, Answer, Contest};

/// What the tally keeps under one reference. The five are signed.
#[derive(Clone, Debug, PartialEq, Eq)]
pub struct Entry {
    pub reqtype: u32,
    pub status: u32,
    pub related: u32,
    pub start: usize,
    pub requested: Vec<u32>,
    pub granted: Vec<u32>,
    pub resold: Vec<i64>,
    pub redirected: Vec<i64>,
    pub transferred: Vec<i64>,
    pub relinquished: Vec<i64>,
    pub reduced: Vec<i64>,
}

/// The tally of a list of actions and contests, empty at first.
#[derive(Clone, Debug)]
pub struct Tally {
    hours: usize,
    entries: BTreeMap<u32, Entry>,
}

impl Tally {
    pub fn new(hours: u32) -> Tally {
        Tally { hours: hours as usize, entries: BTreeMap::new() }
    }

    pub fn entries(&self) -> &BTreeMap<u32, Entry> {
        &self.entries
    }

    /// Feeds a list, or none of it where the call gave 17.
    pub fn feed_list(
        &mut self,
        words: &[u32],
        actions: &[Action],
        answers: &[Answer],
        number: u32,
    ) {
        if number == 0 {
            for (action, answer) in actions.iter().zip(answers) {
                self.feed(words, action, answer);
            }
        }
    }

    /// Feeds one action with its profile and its answer.
    pub fn feed(&mut self, words: &[u32], action: &Action, answer: &Answer) {
        if answer.number != 0 || answer.reference == 0 {
            return;
        }
        if action.kind == SUBMIT {
            let start = action.start as usize;
            let entry = Entry {
                reqtype: action.reqtype,
                status: answer.after,
                related: action.related,
                start,
                requested: self.profile_from(start, words, action),
                granted: vec![0; self.hours],
                resold: vec![0; self.hours],
                redirected: vec![0; self.hours],
                transferred: vec![0; self.hours],
                relinquished: vec![0; self.hours],
                reduced: vec![0; self.hours],
            };
            self.entries.insert(answer.reference, entry);
            return;
        }
        let Some(start) = self.entries.get(&answer.reference).map(|entry| entry.start) else {
            return;
        };
        let profile = self.profile_from(start, words, action);
        let entry = self.entries.get_mut(&answer.reference).expect("just found");
        entry.status = answer.after;
        if action.length > 0 {
            match (action.kind, action.status) {
                (SELLER_STATUS, COUNTEROFFER | CR_COUNTEROFFER | ACCEPTED | CR_ACCEPTED) => {
                    entry.granted.clone_from(&profile);
                }
                (CUSTOMER_STATUS, REBID | CONFIRMED) => entry.requested.clone_from(&profile),
                _ => (),
            }
        }
        if matches!(answer.after, ACCEPTED | CR_ACCEPTED | CONFIRMED)
            && entry.granted.iter().all(|&mw| mw == 0)
        {
            entry.granted.clone_from(&entry.requested);
        }
        if action.kind == REDUCE {
            add(&mut entry.reduced, &profile, 1);
        }
        if answer.before != CONFIRMED && answer.after == CONFIRMED {
            self.move_granted(answer.reference, 1);
        }
        if answer.before == CONFIRMED && answer.after == ANNULLED {
            self.move_granted(answer.reference, -1);
        }
    }

    /// Feeds a contest with its answer: one that was lost as the displacement that it
    /// came to, any other not at all.
    pub fn feed_contest(&mut self, contest: &Contest, answer: &Answer) {
        if answer.number == 0 && answer.after == DISPLACED {
            self.feed(&[], &contest.displacement(), answer);
        }
    }

    /// An action's profile from an hour on, with 0 elsewhere.
    fn profile_from(&self, start: usize, words: &[u32], action: &Action) -> Vec<u32> {
        let mut profile = vec![0; self.hours];
        let from = words.get(action.offset as usize..).unwrap_or(&[]);
        let from = &from[..from.len().min(action.length as usize)];
        if let Some(to) = profile.get_mut(start..) {
            for (to, &from) in to.iter_mut().zip(from) {
                *to = from;
            }
        }
        profile
    }

    /// Adds granted to what the related entry gave up, or takes it back.
    fn move_granted(&mut self, reference: u32, sign: i64) {
        let entry = &self.entries[&reference];
        let (reqtype, related, granted) = (entry.reqtype, entry.related, entry.granted.clone());
        let Some(above) = self.entries.get_mut(&related) else {
            return;
        };
        match reqtype {
            RESALE => add(&mut above.resold, &granted, sign),
            REDIRECT_FIRM | REDIRECT_NON_FIRM => add(&mut above.redirected, &granted, sign),
            PART_TRANSFER | FULL_TRANSFER => add(&mut above.transferred, &granted, sign),
            RELINQUISH => {
                add(&mut above.relinquished, &granted, sign);
                let top = above.related;
                if let Some(top) = self.entries.get_mut(&top) {
                    add(&mut top.redirected, &granted, -sign);
                }
            }
            _ => (),
        }
    }
}

fn add(to: &mut [i64], profile: &[u32], sign: i64) {
    for (to, &mw) in to.iter_mut().zip(profile) {
        *to += sign * i64::from(mw);
    }
}

/// Demand 3 for a sound ledger and the tally of the list that made it: entries and
/// used rows agree, no sum of any entry is negative, rows and trees balance by the
/// tally's reduced and by the stored one, and in every row the two are the same.
pub fn balanced(ledger: &[u32], tally: &Tally) -> Result<(), String> {
    rows_agree(ledger, tally)?;
    none_is_negative(tally)?;
    for reduced in [Reduced::Tallied, Reduced::Stored] {
        rows_balance(ledger, tally, reduced)?;
        trees_balance(ledger, tally, reduced)?;
    }
    reductions_are_kept(ledger, tally)
}

/// Which reduced megawatts a balance goes by.
#[derive(Clone, Copy, Debug)]
enum Reduced {
    /// The sum from the list.
    Tallied,
    /// The words of the row.
    Stored,
}

impl Reduced {
    fn of(self, ledger: &[u32], row: Row, entry: &Entry, hour: usize) -> i64 {
        match self {
            Reduced::Tallied => entry.reduced[hour],
            Reduced::Stored => stored(ledger, row, REDUCED_MW, hour),
        }
    }
}

fn stored(ledger: &[u32], row: Row, profile: usize, hour: usize) -> i64 {
    i64::from(ledger[row.profile(profile)][hour])
}

/// Available and displaced together.
fn held(ledger: &[u32], row: Row, hour: usize) -> i64 {
    stored(ledger, row, AVAILABLE, hour) + stored(ledger, row, DISPLACED_MW, hour)
}

fn is_counted(entry: &Entry) -> bool {
    entry.status == CONFIRMED || entry.status == DISPLACED
}

/// The same references, types, statuses, related references and granted.
fn rows_agree(ledger: &[u32], tally: &Tally) -> Result<(), String> {
    let used = ledger[USED];
    if !tally.entries.keys().copied().eq(1..=used) {
        let keys: Vec<_> = tally.entries.keys().collect();
        return Err(format!("{used} rows used, entries {keys:?}"));
    }
    let hours = ledger[HOURS] as usize;
    if tally.hours != hours {
        return Err(format!("{hours} hours in the ledger, {} in the tally", tally.hours));
    }
    for (&reference, entry) in &tally.entries {
        let row = Row::of(ledger, reference);
        let fields = [
            ("type", entry.reqtype, row.get(ledger, TYPE)),
            ("status", entry.status, row.get(ledger, STATUS)),
            ("related", entry.related, row.get(ledger, RELATED)),
        ];
        for (name, ours, theirs) in fields {
            if ours != theirs {
                return Err(format!(
                    "reference {reference}: {name} {ours} in the tally, {theirs} in the ledger"
                ));
            }
        }
        let granted = &ledger[row.profile(GRANTED)];
        if entry.granted != granted {
            return Err(format!(
                "reference {reference}: granted {:?} in the tally, {granted:?} in the ledger",
                entry.granted
            ));
        }
    }
    Ok(())
}

/// Of any entry, whatever its status.
fn none_is_negative(tally: &Tally) -> Result<(), String> {
    for (reference, entry) in &tally.entries {
        let five = [
            ("resold", &entry.resold),
            ("redirected", &entry.redirected),
            ("transferred", &entry.transferred),
            ("relinquished", &entry.relinquished),
            ("reduced", &entry.reduced),
        ];
        for (name, sums) in five {
            if let Some(hour) = sums.iter().position(|&mw| mw < 0) {
                return Err(format!("reference {reference}, hour {hour}: {name} {}", sums[hour]));
            }
        }
    }
    Ok(())
}

/// In each row at 13 or 15 that is no type 8: granted = available + displaced + the
/// five.
fn rows_balance(ledger: &[u32], tally: &Tally, by: Reduced) -> Result<(), String> {
    for (&reference, entry) in &tally.entries {
        if !is_counted(entry) || entry.reqtype == RELINQUISH {
            continue;
        }
        let row = Row::of(ledger, reference);
        for hour in 0..tally.hours {
            let held = held(ledger, row, hour);
            let five = [
                entry.resold[hour],
                entry.redirected[hour],
                entry.transferred[hour],
                entry.relinquished[hour],
                by.of(ledger, row, entry, hour),
            ];
            let granted = stored(ledger, row, GRANTED, hour);
            if granted != held + five.iter().sum::<i64>() {
                return Err(format!(
                    "reference {reference}, hour {hour}: granted {granted}, available and \
                     displaced {held}, the five {five:?}, reduced {by:?}"
                ));
            }
        }
    }
    Ok(())
}

/// Granted of each original at 13 or 15 is available + displaced + reduced of itself
/// and of all that descends from it.
fn trees_balance(ledger: &[u32], tally: &Tally, by: Reduced) -> Result<(), String> {
    // The original above each reference, and its tree's sum hour by hour.
    let mut original: BTreeMap<u32, u32> = BTreeMap::new();
    let mut trees: BTreeMap<u32, Vec<i64>> = BTreeMap::new();
    for (&reference, entry) in &tally.entries {
        let top = original.get(&entry.related).copied().unwrap_or(reference);
        original.insert(reference, top);
        let row = Row::of(ledger, reference);
        let sums = trees.entry(top).or_insert_with(|| vec![0; tally.hours]);
        for (hour, sum) in sums.iter_mut().enumerate() {
            *sum += held(ledger, row, hour) + by.of(ledger, row, entry, hour);
        }
    }
    for (reference, sums) in trees {
        if !is_counted(&tally.entries[&reference]) {
            continue;
        }
        let row = Row::of(ledger, reference);
        for (hour, sum) in sums.into_iter().enumerate() {
            let granted = stored(ledger, row, GRANTED, hour);
            if granted != sum {
                return Err(format!(
                    "original {reference}, hour {hour}: granted {granted}, its tree holds {sum}, \
                     reduced {by:?}"
                ));
            }
        }
    }
    Ok(())
}

/// What is stored as reduced is what the list reduced by, in every used row.
fn reductions_are_kept(ledger: &[u32], tally: &Tally) -> Result<(), String> {
    for (&reference, entry) in &tally.entries {
        let row = Row::of(ledger, reference);
        for (hour, &sum) in entry.reduced.iter().enumerate() {
            let kept = stored(ledger, row, REDUCED_MW, hour);
            if kept != sum {
                return Err(format!(
                    "reference {reference}, hour {hour}: reduced {sum} in the tally, {kept} in the ledger"
                ));
            }
        }
    }
    Ok(())
}
