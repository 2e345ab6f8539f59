//! Creation, the eight kinds of action, and the batch.
//!
//! Every kind first runs its checks in the paper's order and writes only when
//! nothing can refuse it any more.

use crate::layout::*;
use crate::paths::{exceeds, path_use, postings_fit, Left};
use crate::readout::in_force;
use crate::sound::{creation_numbers_fit, sound, type_may_relate};
use crate::{Action, Answer};

/// Makes the slice a ledger with no rows used: 0, or 1 and nothing written.
pub fn create(
    ledger: &mut [u32],
    rows: u32,
    hours: u32,
    provider: u32,
    window: u32,
    base: u32,
) -> u32 {
    if !creation_numbers_fit(ledger.len(), rows, hours, provider, window, base) {
        return BAD_LEDGER;
    }
    ledger.fill(0);
    ledger[..5].copy_from_slice(&[rows, hours, provider, window, base]);
    0
}

/// One action by itself.
pub fn act(ledger: &mut [u32], postings: &mut [u32], words: &[u32], action: &Action) -> Answer {
    if !both_sound(ledger, postings) {
        return Answer::refused(BAD_LEDGER);
    }
    answer(ledger, postings, words, action)
}

/// A list of actions, each answered in turn: 0, or 17 and nothing done.
///
/// A sound ledger and its postings stay so under every action, others are left as
/// they are, so soundness is looked at once.
pub fn batch(
    ledger: &mut [u32],
    postings: &mut [u32],
    words: &[u32],
    actions: &[Action],
    answers: &mut [Answer],
) -> u32 {
    if answers.len() < actions.len() {
        return TOO_FEW_ANSWERS;
    }
    if actions.is_empty() {
        return 0;
    }
    let are_sound = both_sound(ledger, postings);
    for (action, place) in actions.iter().zip(answers) {
        *place = if are_sound {
            answer(ledger, postings, words, action)
        } else {
            Answer::refused(BAD_LEDGER)
        };
    }
    0
}

pub(crate) fn both_sound(ledger: &[u32], postings: &[u32]) -> bool {
    sound(ledger) && postings_fit(postings, ledger[HOURS])
}

/// The answer to one action on a sound ledger and its postings.
pub(crate) fn answer(
    ledger: &mut [u32],
    postings: &mut [u32],
    words: &[u32],
    action: &Action,
) -> Answer {
    if !(SUBMIT..=POST).contains(&action.kind) {
        return Answer::refused(BAD_CODE);
    }
    if !is_entity(action.actor) {
        return Answer::refused(BAD_PARTY);
    }
    let outcome = match action.kind {
        SUBMIT => submit(ledger, words, action),
        SELLER_STATUS => seller_status(ledger, postings, words, action),
        CUSTOMER_STATUS => customer_status(ledger, postings, words, action),
        APPROVE => approve(ledger, postings, action),
        REDUCE => reduce(ledger, words, action),
        LAPSE => lapse(ledger, postings, action),
        CLOCK => clock(ledger, action),
        _ => post(ledger, postings, words, action),
    };
    outcome.unwrap_or_else(Answer::refused)
}

pub(crate) type Outcome = Result<Answer, u32>;

pub(crate) fn accepted(reference: u32, before: u32, after: u32, moved: u32) -> Outcome {
    Ok(Answer { number: 0, reference, before, after, moved })
}

/// The number where it applies.
pub(crate) fn refuse_if(applies: bool, number: u32) -> Result<(), u32> {
    if applies {
        Err(number)
    } else {
        Ok(())
    }
}

pub(crate) fn find(ledger: &[u32], reference: u32) -> Result<Row, u32> {
    refuse_if(reference == 0 || reference > ledger[USED], NO_REFERENCE)?;
    Ok(Row::of(ledger, reference))
}

/// The profile of an action for a span of so many hours, or 7; it may be all 0.
fn any_profile<'a>(words: &'a [u32], action: &Action, hours: u32) -> Result<&'a [u32], u32> {
    let first = action.offset as usize;
    let end = first.checked_add(action.length as usize).ok_or(BAD_PROFILE)?;
    let part = words.get(first..end).ok_or(BAD_PROFILE)?;
    refuse_if(action.length != hours || part.iter().any(|&mw| mw > MAX_MW), BAD_PROFILE)?;
    Ok(part)
}

/// The same, but all 0 is a 7.
fn profile<'a>(words: &'a [u32], action: &Action, hours: u32) -> Result<&'a [u32], u32> {
    let part = any_profile(words, action, hours)?;
    refuse_if(part.iter().all(|&mw| mw == 0), BAD_PROFILE)?;
    Ok(part)
}

/// A profile that is not all 0, or none where length 0 says that none comes.
fn profile_if_any<'a>(
    words: &'a [u32],
    action: &Action,
    hours: u32,
) -> Result<Option<&'a [u32]>, u32> {
    if action.length == 0 {
        return Ok(None);
    }
    profile(words, action, hours).map(Some)
}

pub(crate) fn span_hours(ledger: &[u32], row: Row) -> u32 {
    row.get(ledger, STOP) - row.get(ledger, START)
}

fn sum(words: &[u32]) -> u32 {
    words.iter().sum()
}

fn is_transfer(reqtype: u32) -> bool {
    reqtype == PART_TRANSFER || reqtype == FULL_TRANSFER
}

/// The class of a row: types 1 and 4 are firm, types 3, 6 and 7 are what their
/// related row is.
pub(crate) fn is_firm(ledger: &[u32], reference: u32) -> bool {
    let row = Row::of(ledger, reference);
    match row.get(ledger, TYPE) {
        ORIGINAL_FIRM | REDIRECT_FIRM => true,
        RESALE | PART_TRANSFER | FULL_TRANSFER => is_firm(ledger, row.get(ledger, RELATED)),
        _ => false,
    }
}

// Kind 1.

/// Unfit is a path other than that of the row named, whatever its status, but
/// originals name none and redirects may leave theirs.
fn is_unfit(ledger: &[u32], action: &Action) -> bool {
    let stays = matches!(action.reqtype, RESALE | PART_TRANSFER | FULL_TRANSFER | RELINQUISH);
    stays && find(ledger, action.related).is_ok_and(|named| named.get(ledger, PATH) != action.path)
}

fn submit(ledger: &mut [u32], words: &[u32], action: &Action) -> Outcome {
    let reqtype = action.reqtype;
    refuse_if(!(ORIGINAL_FIRM..=RELINQUISH).contains(&reqtype), BAD_CODE)?;
    refuse_if(!is_entity(action.seller), BAD_PARTY)?;
    refuse_if(action.start >= action.stop || action.stop > ledger[HOURS], BAD_SPAN)?;
    let requested = profile(words, action, action.stop - action.start)?;
    let unconfirmed_redirect = reqtype == REDIRECT_NON_FIRM && action.flags & PRECONFIRMED == 0;
    refuse_if(action.flags > PRECONFIRMED + COORDINATED || unconfirmed_redirect, BAD_FLAGS)?;
    refuse_if(!is_path(action.path) || is_unfit(ledger, action), BAD_PATH)?;
    refuse_if(action.price > MAX_PRICE, BAD_TERMS)?;
    if reqtype <= ORIGINAL_NON_FIRM {
        refuse_if(action.related != 0, BAD_RELATED)?;
        refuse_if(action.seller != ledger[PROVIDER], BAD_PARTY)?;
    } else {
        let related = find(ledger, action.related).map_err(|_| BAD_RELATED)?;
        let redirects = reqtype == REDIRECT_FIRM || reqtype == REDIRECT_NON_FIRM;
        refuse_if(
            related.get(ledger, STATUS) != CONFIRMED
                || !type_may_relate(reqtype, related.get(ledger, TYPE))
                || redirects && !is_firm(ledger, action.related)
                || action.start < related.get(ledger, START)
                || action.stop > related.get(ledger, STOP),
            BAD_RELATED,
        )?;
        let holder = related.get(ledger, CUSTOMER);
        if reqtype == RESALE || is_transfer(reqtype) {
            refuse_if(action.seller != holder, BAD_PARTY)?;
        } else {
            refuse_if(action.seller != ledger[PROVIDER] || action.actor != holder, BAD_PARTY)?;
        }
    }
    refuse_if(ledger[USED] == ledger[ROWS], LEDGER_FULL)?;

    ledger[USED] += 1;
    let reference = ledger[USED];
    let row = Row::of(ledger, reference);
    row.set(ledger, TYPE, reqtype);
    row.set(ledger, STATUS, QUEUED);
    row.set(ledger, CUSTOMER, action.actor);
    row.set(ledger, SELLER, action.seller);
    row.set(ledger, RELATED, action.related);
    row.set(ledger, START, action.start);
    row.set(ledger, STOP, action.stop);
    row.set(ledger, FLAGS, action.flags);
    row.set(ledger, BID, action.price);
    row.set(ledger, PATH, action.path);
    let span = row.span(ledger, REQUESTED);
    ledger[span].copy_from_slice(requested);
    accepted(reference, 0, QUEUED, 0)
}

// Kind 2.

fn seller_status(ledger: &mut [u32], postings: &[u32], words: &[u32], action: &Action) -> Outcome {
    let row = find(ledger, action.reference)?;
    let status = action.status;
    refuse_if(!(QUEUED..=RETRACTED).contains(&status), BAD_CODE)?;
    let provider_annuls =
        status == ANNULLED && row.get(ledger, TYPE) == RESALE && action.actor == ledger[PROVIDER];
    refuse_if(action.actor != row.get(ledger, SELLER) && !provider_annuls, BAD_PARTY)?;
    refuse_if(!seller_may_move(ledger, row, status), BAD_MOVE)?;
    let before = row.get(ledger, STATUS);
    match status {
        COUNTEROFFER | CR_COUNTEROFFER | ACCEPTED | CR_ACCEPTED => {
            offer(ledger, postings, words, action, row)
        }
        DISPLACED => displace(ledger, action.reference, row),
        ANNULLED if before == CONFIRMED => annul_confirmed(ledger, postings, action.reference, row),
        _ => {
            row.set(ledger, STATUS, status);
            accepted(action.reference, before, status, 0)
        }
    }
}

pub(crate) fn seller_may_move(ledger: &[u32], row: Row, to: u32) -> bool {
    let from = row.get(ledger, STATUS);
    let flags = row.get(ledger, FLAGS);
    let coordinated = flags & COORDINATED != 0;
    let undecided = matches!(from, QUEUED | RECEIVED | STUDY | REBID);
    match to {
        RECEIVED => from == QUEUED,
        STUDY => matches!(from, QUEUED | RECEIVED),
        INVALID => matches!(from, QUEUED | RECEIVED | STUDY),
        REFUSED | DECLINED => undecided,
        SUPERSEDED => is_open(from),
        COUNTEROFFER | CR_COUNTEROFFER => {
            (undecided || matches!(from, ACCEPTED | CR_ACCEPTED))
                && coordinated == (to == CR_COUNTEROFFER)
        }
        ACCEPTED | CR_ACCEPTED => undecided && coordinated == (to == CR_ACCEPTED),
        DISPLACED => from == CONFIRMED && row.get(ledger, TYPE) != RELINQUISH,
        ANNULLED => {
            if from == CONFIRMED {
                row.get(ledger, TYPE) != RELINQUISH
            } else {
                is_open(from) && flags & PRECONFIRMED != 0
            }
        }
        _ => false,
    }
}

/// Moves to 6, 7, 10, 11; a preconfirmed row moved to 10 goes on to 13, but
/// types 6 and 7 only when approved.
fn offer(
    ledger: &mut [u32],
    postings: &[u32],
    words: &[u32],
    action: &Action,
    row: Row,
) -> Outcome {
    let status = action.status;
    let accepts = status == ACCEPTED || status == CR_ACCEPTED;
    let comes = profile_if_any(words, action, span_hours(ledger, row))?;
    let mut flags = row.get(ledger, FLAGS);
    let requested = &ledger[row.span(ledger, REQUESTED)];
    let granted = comes.unwrap_or(&ledger[row.span(ledger, in_force(ledger, row))]);
    refuse_if(action.price > MAX_PRICE, BAD_TERMS)?;
    if accepts {
        refuse_if(action.price != row.get(ledger, BID) || granted != requested, BAD_TERMS)?;
    } else {
        refuse_if(granted.iter().zip(requested).any(|(g, r)| g > r), BAD_TERMS)?;
    }
    let waits = is_transfer(row.get(ledger, TYPE)) && flags & APPROVED == 0;
    let confirms = status == ACCEPTED && flags & PRECONFIRMED != 0 && !waits;
    if confirms {
        // Here granted equals requested in every hour.
        check_confirming(ledger, postings, action.reference, REQUESTED, true)?;
    }

    let before = row.get(ledger, STATUS);
    row.set(ledger, STATUS, status);
    row.set(ledger, OFFER, action.price);
    row.set(ledger, LIMIT, ledger[NOW] + ledger[WINDOW]);
    flags |= OFFER_GIVEN;
    if !accepts {
        flags |= COUNTERED;
    }
    if let Some(profile) = comes {
        let span = row.span(ledger, GRANTED);
        ledger[span].copy_from_slice(profile);
        flags |= GRANTED_GIVEN;
    }
    row.set(ledger, FLAGS, flags);
    if accepts {
        grant_requested_if_none(ledger, row);
    }
    if confirms {
        let moved = confirm(ledger, row);
        return accepted(action.reference, before, CONFIRMED, moved);
    }
    accepted(action.reference, before, status, 0)
}

pub(crate) fn displace(ledger: &mut [u32], reference: u32, row: Row) -> Outcome {
    let available = row.span(ledger, AVAILABLE);
    let displaced = row.span(ledger, DISPLACED_MW);
    refuse_if(sum_passes(&ledger[displaced.clone()], &ledger[available.clone()]), BAD_LEDGER)?;
    let moved = sum(&ledger[available.clone()]);
    for (from, to) in available.zip(displaced) {
        ledger[to] += ledger[from];
        ledger[from] = 0;
    }
    row.set(ledger, STATUS, DISPLACED);
    accepted(reference, CONFIRMED, DISPLACED, moved)
}

fn annul_confirmed(ledger: &mut [u32], postings: &[u32], reference: u32, row: Row) -> Outcome {
    let available = row.span(ledger, AVAILABLE);
    let granted = row.span(ledger, GRANTED);
    refuse_if(ledger[available.clone()] != ledger[granted.clone()], IN_USE)?;
    refuse_if(annulled(ledger, reference).exceeds(postings), OVER_POSTING)?;
    let above = (row.get(ledger, TYPE) > ORIGINAL_NON_FIRM)
        .then(|| Row::of(ledger, row.get(ledger, RELATED)));
    if let Some(above) = above {
        refuse_if(giving_back_passes(ledger, above, row, GRANTED), BAD_LEDGER)?;
    }

    let moved = sum(&ledger[granted]);
    ledger[available].fill(0);
    if let Some(above) = above {
        give_back(ledger, above, row);
    }
    row.set(ledger, STATUS, ANNULLED);
    accepted(reference, CONFIRMED, ANNULLED, moved)
}

// Kind 3.

fn customer_status(
    ledger: &mut [u32],
    postings: &[u32],
    words: &[u32],
    action: &Action,
) -> Outcome {
    let row = find(ledger, action.reference)?;
    let status = action.status;
    refuse_if(!(QUEUED..=RETRACTED).contains(&status), BAD_CODE)?;
    refuse_if(action.actor != row.get(ledger, CUSTOMER), BAD_PARTY)?;
    let before = row.get(ledger, STATUS);
    let flags = row.get(ledger, FLAGS);
    let moves = match status {
        REBID => matches!(before, COUNTEROFFER | CR_COUNTEROFFER),
        CONFIRMED => matches!(before, COUNTEROFFER | CR_COUNTEROFFER | ACCEPTED | CR_ACCEPTED),
        WITHDRAWN if flags & (PRECONFIRMED | COUNTERED) == PRECONFIRMED => {
            matches!(before, COUNTEROFFER | CR_COUNTEROFFER | CR_ACCEPTED)
        }
        WITHDRAWN => is_open(before),
        _ => false,
    };
    refuse_if(!moves, BAD_MOVE)?;
    if status == WITHDRAWN {
        row.set(ledger, STATUS, WITHDRAWN);
        return accepted(action.reference, before, WITHDRAWN, 0);
    }

    let comes = profile_if_any(words, action, span_hours(ledger, row))?;
    refuse_if(action.price > MAX_PRICE, BAD_TERMS)?;
    if status == CONFIRMED {
        // Granted never given counts as the requested before the action.
        let in_force = in_force(ledger, row);
        let granted = &ledger[row.span(ledger, in_force)];
        let requested = comes.unwrap_or(&ledger[row.span(ledger, REQUESTED)]);
        let unequal = action.price != row.get(ledger, OFFER) || requested != granted;
        refuse_if(unequal, BAD_TERMS)?;
        let approved = flags & APPROVED != 0;
        check_confirming(ledger, postings, action.reference, in_force, approved)?;
    }

    row.set(ledger, BID, action.price);
    if let Some(profile) = comes {
        let span = row.span(ledger, REQUESTED);
        ledger[span].copy_from_slice(profile);
    }
    if status == REBID {
        row.set(ledger, STATUS, REBID);
        return accepted(action.reference, before, REBID, 0);
    }
    let moved = confirm(ledger, row);
    accepted(action.reference, before, CONFIRMED, moved)
}

// Kind 4.

fn approve(ledger: &mut [u32], postings: &[u32], action: &Action) -> Outcome {
    let row = find(ledger, action.reference)?;
    refuse_if(action.actor != ledger[PROVIDER], BAD_PARTY)?;
    let before = row.get(ledger, STATUS);
    let flags = row.get(ledger, FLAGS);
    let approvable = is_transfer(row.get(ledger, TYPE)) && is_open(before) && flags & APPROVED == 0;
    refuse_if(!approvable, BAD_MOVE)?;
    let confirms = flags & PRECONFIRMED != 0 && before == ACCEPTED;
    if confirms {
        check_confirming(ledger, postings, action.reference, in_force(ledger, row), true)?;
    }

    row.set(ledger, FLAGS, flags | APPROVED);
    if confirms {
        let moved = confirm(ledger, row);
        return accepted(action.reference, before, CONFIRMED, moved);
    }
    accepted(action.reference, before, before, 0)
}

// Kind 5.

fn reduce(ledger: &mut [u32], words: &[u32], action: &Action) -> Outcome {
    let row = find(ledger, action.reference)?;
    refuse_if(action.actor != ledger[PROVIDER], BAD_PARTY)?;
    let reducible = row.get(ledger, STATUS) == CONFIRMED && row.get(ledger, TYPE) != RELINQUISH;
    refuse_if(!reducible, BAD_MOVE)?;
    let reduction = profile(words, action, span_hours(ledger, row))?;
    let available = row.span(ledger, AVAILABLE);
    let reduced = row.span(ledger, REDUCED_MW);
    let short = ledger[available.clone()].iter().zip(reduction).any(|(has, less)| has < less);
    refuse_if(short, SHORT)?;
    refuse_if(sum_passes(&ledger[reduced.clone()], reduction), BAD_LEDGER)?;

    for ((from, to), mw) in available.zip(reduced).zip(reduction) {
        ledger[from] -= mw;
        ledger[to] += mw;
    }
    accepted(action.reference, CONFIRMED, CONFIRMED, sum(reduction))
}

// Kind 6.

fn lapse(ledger: &mut [u32], postings: &[u32], action: &Action) -> Outcome {
    let row = find(ledger, action.reference)?;
    refuse_if(action.actor != ledger[PROVIDER], BAD_PARTY)?;
    let before = row.get(ledger, STATUS);
    let flags = row.get(ledger, FLAGS);
    let preconfirmed = flags & PRECONFIRMED != 0;
    let offered = matches!(before, COUNTEROFFER | CR_COUNTEROFFER | ACCEPTED | CR_ACCEPTED);
    refuse_if(!offered || preconfirmed && before == ACCEPTED, BAD_MOVE)?;
    refuse_if(ledger[NOW] < row.get(ledger, LIMIT), BEFORE_LIMIT)?;
    if preconfirmed && before == CR_ACCEPTED {
        let in_force = in_force(ledger, row);
        let approved = flags & APPROVED != 0;
        check_confirming(ledger, postings, action.reference, in_force, approved)?;
        let moved = confirm(ledger, row);
        return accepted(action.reference, before, CONFIRMED, moved);
    }
    row.set(ledger, STATUS, RETRACTED);
    accepted(action.reference, before, RETRACTED, 0)
}

// Kind 7.

fn clock(ledger: &mut [u32], action: &Action) -> Outcome {
    refuse_if(action.actor != ledger[PROVIDER], BAD_PARTY)?;
    refuse_if(action.time < ledger[NOW] || action.time >= END_SECOND, BAD_TIME)?;
    ledger[NOW] = action.time;
    accepted(0, 0, 0, 0)
}

// Kind 8.

fn post(ledger: &[u32], postings: &mut [u32], words: &[u32], action: &Action) -> Outcome {
    refuse_if(action.actor != ledger[PROVIDER], BAD_PARTY)?;
    refuse_if(!is_path(action.path), BAD_PATH)?;
    refuse_if(action.start >= action.stop || action.stop > ledger[HOURS], BAD_SPAN)?;
    let profile = any_profile(words, action, action.stop - action.start)?;
    let path_postings = &mut postings[posted(action.path, ledger[HOURS] as usize)];
    let mut anew = path_postings.to_vec();
    anew[action.start as usize..action.stop as usize].copy_from_slice(profile);
    refuse_if(exceeds(&path_use(ledger, action.path), &anew), OVER_POSTING)?;

    path_postings.copy_from_slice(&anew);
    accepted(0, 0, 0, 0)
}

// Confirming and giving back.

/// The checks of confirming, with `granted` naming the profile that holds what
/// will be granted. Last comes the 1 for what a type 8 row gives back.
fn check_confirming(
    ledger: &[u32],
    postings: &[u32],
    reference: u32,
    granted: usize,
    approved: bool,
) -> Result<(), u32> {
    let row = Row::of(ledger, reference);
    let reqtype = row.get(ledger, TYPE);
    if reqtype > ORIGINAL_NON_FIRM {
        check_related(ledger, row, granted, approved)?;
    }
    refuse_if(confirmed(ledger, reference, granted).exceeds(postings), OVER_POSTING)?;
    if reqtype == RELINQUISH {
        let related = Row::of(ledger, row.get(ledger, RELATED));
        let above = Row::of(ledger, related.get(ledger, RELATED));
        refuse_if(giving_back_passes(ledger, above, row, granted), BAD_LEDGER)?;
    }
    Ok(())
}

/// 13, 9 and 14 of types 3 to 8.
fn check_related(ledger: &[u32], row: Row, granted: usize, approved: bool) -> Result<(), u32> {
    let reqtype = row.get(ledger, TYPE);
    refuse_if(is_transfer(reqtype) && !approved, NOT_APPROVED)?;
    let related = Row::of(ledger, row.get(ledger, RELATED));
    refuse_if(related.get(ledger, STATUS) != CONFIRMED, BAD_RELATED)?;
    let start = row.get(ledger, START);
    let stop = row.get(ledger, STOP);
    let has = &ledger[related.part(AVAILABLE, start as usize, stop as usize)];
    let wants = &ledger[row.span(ledger, granted)];
    refuse_if(has.iter().zip(wants).any(|(has, wants)| has < wants), SHORT)?;
    if reqtype == FULL_TRANSFER {
        let same_span = start == related.get(ledger, START) && stop == related.get(ledger, STOP);
        refuse_if(!same_span || has != wants, SHORT)?;
    }
    Ok(())
}

/// What the confirmation of a row would leave, where available suffices.
fn confirmed(ledger: &[u32], reference: u32, granted: usize) -> Left<'_> {
    let row = Row::of(ledger, reference);
    let hours = row.get(ledger, START) as usize..row.get(ledger, STOP) as usize;
    let granted = &ledger[row.span(ledger, granted)];
    let relinquishes = row.get(ledger, TYPE) == RELINQUISH;
    let mut left = Left::new(ledger, reference, CONFIRMED);
    left.change(reference, hours.clone(), granted, |_, mw| if relinquishes { 0 } else { mw });
    let related = row.get(ledger, RELATED);
    if related != 0 {
        left.change(related, hours.clone(), granted, |has, mw| has - mw);
    }
    if relinquishes {
        let above = Row::of(ledger, related).get(ledger, RELATED);
        if giving_back_adds_to(ledger, Row::of(ledger, above)) == AVAILABLE {
            left.change(above, hours, granted, |has, mw| has + mw);
        }
    }
    left
}

/// What the annulment of a CONFIRMED row would leave.
fn annulled(ledger: &[u32], reference: u32) -> Left<'_> {
    let row = Row::of(ledger, reference);
    let hours = row.get(ledger, START) as usize..row.get(ledger, STOP) as usize;
    let granted = &ledger[row.span(ledger, GRANTED)];
    let mut left = Left::new(ledger, reference, ANNULLED);
    left.change(reference, hours.clone(), granted, |_, _| 0);
    let related = row.get(ledger, RELATED);
    if related != 0 && giving_back_adds_to(ledger, Row::of(ledger, related)) == AVAILABLE {
        left.change(related, hours, granted, |has, mw| has + mw);
    }
    left
}

/// Moves the megawatts of a checked confirmation and gives the MW-hours granted.
fn confirm(ledger: &mut [u32], row: Row) -> u32 {
    grant_requested_if_none(ledger, row);
    row.set(ledger, STATUS, CONFIRMED);
    let reqtype = row.get(ledger, TYPE);
    let granted = row.span(ledger, GRANTED);
    let available = row.span(ledger, AVAILABLE);
    if reqtype > ORIGINAL_NON_FIRM {
        let related = Row::of(ledger, row.get(ledger, RELATED));
        let from = same_hours(ledger, related, AVAILABLE, row);
        for (from, granted) in from.zip(granted.clone()) {
            ledger[from] -= ledger[granted];
        }
        if reqtype == RELINQUISH {
            let above = Row::of(ledger, related.get(ledger, RELATED));
            give_back(ledger, above, row);
        }
    }
    let moved = sum(&ledger[granted.clone()]);
    if reqtype == RELINQUISH {
        ledger[available].fill(0);
    } else {
        ledger.copy_within(granted, available.start);
    }
    moved
}

/// Copies requested into granted where granted was never given.
fn grant_requested_if_none(ledger: &mut [u32], row: Row) {
    let flags = row.get(ledger, FLAGS);
    if flags & GRANTED_GIVEN == 0 {
        ledger.copy_within(row.profile(REQUESTED), row.profile(GRANTED).start);
        row.set(ledger, FLAGS, flags | GRANTED_GIVEN);
    }
}

/// The words of another row's profile in the hours of this row's span.
fn same_hours(ledger: &[u32], other: Row, profile: usize, row: Row) -> std::ops::Range<usize> {
    other.part(profile, row.get(ledger, START) as usize, row.get(ledger, STOP) as usize)
}

/// Where giving back adds: available of a CONFIRMED row, otherwise displaced.
fn giving_back_adds_to(ledger: &[u32], above: Row) -> usize {
    if above.get(ledger, STATUS) == CONFIRMED {
        AVAILABLE
    } else {
        DISPLACED_MW
    }
}

fn giving_back_passes(ledger: &[u32], above: Row, row: Row, granted: usize) -> bool {
    let to = same_hours(ledger, above, giving_back_adds_to(ledger, above), row);
    sum_passes(&ledger[to], &ledger[row.span(ledger, granted)])
}

fn give_back(ledger: &mut [u32], above: Row, row: Row) {
    let to = same_hours(ledger, above, giving_back_adds_to(ledger, above), row);
    let granted = row.span(ledger, GRANTED);
    for (to, granted) in to.zip(granted) {
        ledger[to] += ledger[granted];
    }
}

/// True where the sum of the two passes 100,000 in an hour.
fn sum_passes(to: &[u32], more: &[u32]) -> bool {
    to.iter().zip(more).any(|(to, more)| to + more > MAX_MW)
}
