//! Annulments in order: of rows that lists left, of any sound ledger, and of foreign deals
//! made to be unwound; with postings that suffice for just one order, with words at their
//! edges, and all lists there are on small ledgers.

use luddrisa_model::*;

use crate::contests::{alone, lists_of, spoil_words, wrong_grounds, FEED};
use crate::dense::{lower, postings_of, sound_ledger};
use crate::limits::both_paths;
use crate::lists::PATHS;
use crate::openings::{balanced_ledger, day_after, greatest_ledger, of_1_024_rows, Shape};
use crate::rng::Rng;
use crate::rules::Model;
use crate::run::{Desk, Difference, Run};
use crate::unwound::status;

/// Keeps these numbers apart from those of the other generators.
const OWN_NUMBERS: u64 = 0x616e_6e75_6c6c_6564;

/// So many times all of these.
pub fn annulments(run: &mut Run, seed: u64, count: u32) -> Result<(), Difference> {
    for number in 0..count {
        let seed = seed + u64::from(number);
        let rng = &mut Rng::new(seed ^ OWN_NUMBERS);
        one_seed(run, rng, number).map_err(|told| format!("annulments, seed {seed}: {told}"))?;
    }
    Ok(())
}

fn one_seed(run: &mut Run, rng: &mut Rng, number: u32) -> Result<(), Difference> {
    let any = sound_ledger(rng, 8, 3);
    for ledger in [deal(rng), shaped(rng), any] {
        for _ in 0..4 {
            let order = any_order(rng, &ledger);
            let postings = postings_for(rng, &ledger, &order);
            tries(run, rng, &mut Desk::new(&ledger, &postings), &order)?;
        }
    }
    if number.is_multiple_of(4) {
        along_a_list(run, rng, 50)?;
    }
    if number.is_multiple_of(10) {
        let ledger = deal(rng);
        let start = Desk::new(&ledger, &postings_of(rng, &ledger));
        on_wrong_grounds(run, rng, &start)?;
    }
    if number.is_multiple_of(100) {
        spoilt(run, rng)?;
    }
    Ok(())
}

/// Orders on ledgers along so many lists, with the postings that the lists left too.
pub fn along_lists(run: &mut Run, seed: u64, count: u32) -> Result<(), Difference> {
    for seed in seed..seed + u64::from(count) {
        let rng = &mut Rng::new(seed ^ OWN_NUMBERS);
        along_a_list(run, rng, 100)
            .map_err(|told| format!("annulments along lists, seed {seed}: {told}"))?;
    }
    Ok(())
}

/// Only the annulments are the subject's, the list is the model's. So many times in a
/// hundred the postings are those of the list.
fn along_a_list(run: &mut Run, rng: &mut Rng, own_postings: u32) -> Result<(), Difference> {
    let seed = rng.draw();
    alone(&Model, seed, FEED, |ledger, postings, _| {
        if ledger[USED] < 2 || !rng.chance(5) {
            return Ok(());
        }
        let order = any_order(rng, ledger);
        let any = postings_for(rng, ledger, &order);
        let postings = if rng.chance(own_postings) { postings } else { &any };
        tries(run, rng, &mut Desk::new(ledger, postings), &order)
    })
}

/// An order, the same changed a little, and the same handed over as a list of actions.
fn tries(run: &mut Run, rng: &mut Rng, desk: &mut Desk, order: &[u32]) -> Result<(), Difference> {
    let answer = run.annuls_in_order(desk, order)?;
    together(run, desk, order, answer)?;
    for _ in 0..2 {
        let other = changed(rng, desk.ledger(), order);
        run.annuls_in_order(desk, &other)?;
    }
    Ok(())
}

/// Handed over together the annulments are all accepted where the answer is yes, and only
/// there.
fn together(run: &mut Run, desk: &Desk, order: &[u32], expected: bool) -> Result<(), Difference> {
    let annulments: Option<Vec<Action>> =
        order.iter().map(|&reference| annulment(desk.ledger(), reference)).collect();
    let Some(annulments) = annulments else { return Ok(()) };
    let (_, answers) = run.batch(&mut desk.clone(), &[], &annulments, order.len())?;
    match answers.iter().all(|answer| answer.number == 0) == expected {
        true => Ok(()),
        false => Err(format!("annulling {order:?}: {expected}, but handed over {answers:?}")),
    }
}

// Deals.

/// A foreign ledger of chains that mostly can be unwound: balanced, on several paths, by
/// several sellers, and then out of balance in a few words.
fn deal(rng: &mut Rng) -> Vec<u32> {
    let most_rows = rng.pick(&[4, 10, 14]);
    let mut ledger = balanced_ledger(rng, most_rows, 3);
    let whole = rng.chance(75);
    let holds = rng.chance(60);
    let paths = [rng.pick(&PATHS), rng.pick(&PATHS)];
    for reference in 1..=ledger[USED] {
        let row = Row::of(&ledger, reference);
        if whole {
            make_whole(&mut ledger, row);
        }
        if holds && row.get(&ledger, STATUS) == DISPLACED {
            row.set(&mut ledger, STATUS, CONFIRMED);
        }
        row.set(&mut ledger, SELLER, rng.pick(&[1, 10, 11, MAX_ENTITY]));
        row.set(&mut ledger, FLAGS, if rng.chance(80) { PRECONFIRMED } else { 0 });
        let moves = matches!(row.get(&ledger, TYPE), 1 | 2 | 4 | 5) || rng.chance(10);
        let path = match row.get(&ledger, RELATED) {
            related if related != 0 && !moves => Row::of(&ledger, related).get(&ledger, PATH),
            _ => rng.pick(&paths),
        };
        row.set(&mut ledger, PATH, path);
    }
    while rng.chance(40) {
        unbalance(rng, &mut ledger);
    }
    assert!(sound(&ledger), "a deal is sound");
    ledger
}

/// How the rows of a deal are related.
#[derive(Clone, Copy)]
enum Deal {
    /// Each to the one before.
    Chain,
    /// All to the first.
    Fan,
    /// Each to any before.
    Tree,
}

/// A deal all of whose rows are CONFIRMED, on three paths, and then out of balance in a few
/// words.
fn shaped(rng: &mut Rng) -> Vec<u32> {
    let few = rng.chance(40);
    let (used, hours) = (rng.from_to(3, if few { 5 } else { 12 }), rng.from_to(1, 2));
    let mut ledger = vec![0; ledger_words(used, hours)];
    assert_eq!(create(&mut ledger, used, hours, 1, 3_600, 0), 0);
    let deal = rng.pick(&[Deal::Chain, Deal::Fan, Deal::Tree]);
    let firm = rng.chance(50);
    for reference in 1..=used {
        ledger[USED] = reference;
        let above = match deal {
            Deal::Chain => reference - 1,
            Deal::Fan => 1,
            Deal::Tree => rng.from_to(1, reference.max(2) - 1),
        };
        // Nothing comes from a non-firm redirect but its relinquish record.
        let of = Row::of(&ledger, above.max(1)).get(&ledger, TYPE);
        let (reqtype, related) = match of {
            _ if reference == 1 => (rng.pick(&[ORIGINAL_FIRM, ORIGINAL_NON_FIRM]), 0),
            REDIRECT_NON_FIRM if rng.chance(60) => (RELINQUISH, above),
            REDIRECT_NON_FIRM | RELINQUISH => (RESALE, 1),
            _ if firm => (REDIRECT_FIRM, above),
            _ => (rng.pick(&[RESALE, REDIRECT_FIRM, REDIRECT_NON_FIRM, 6, 7]), above),
        };
        let row = Row::of(&ledger, reference);
        let leaves = matches!(reqtype, 1 | 2 | 4 | 5);
        let path = match related {
            related if leaves || related == 0 => rng.pick(&PATHS[..3]),
            related => Row::of(&ledger, related).get(&ledger, PATH),
        };
        let seller = rng.pick(&[1, 10, MAX_ENTITY]);
        let fields = [reqtype, CONFIRMED, 10, seller, related, 0, hours, 0, 0, 0, 0, path];
        ledger[row.at..row.at + fields.len()].copy_from_slice(&fields);
        for hour in 0..hours as usize {
            let [granted, available] = [GRANTED, AVAILABLE].map(|of| row.profile(of).start + hour);
            let mut mw = rng.from_to(60, 100);
            if related != 0 {
                let from = Row::of(&ledger, related).profile(AVAILABLE).start + hour;
                let most = if matches!(deal, Deal::Chain) { ledger[from] } else { 9 };
                mw = rng.from_to(most.saturating_sub(8), most).min(ledger[from]);
                ledger[from] -= mw;
            }
            ledger[granted] = mw;
            ledger[available] = if reqtype == RELINQUISH { 0 } else { mw };
        }
    }
    if few && rng.chance(60) {
        goes_between(rng, &mut ledger);
    } else {
        while rng.chance(35) {
            unbalance(rng, &mut ledger);
        }
    }
    assert!(sound(&ledger), "a shaped deal is sound");
    ledger
}

/// All that a row holds becomes available.
fn make_whole(ledger: &mut [u32], row: Row) {
    for profile in [DISPLACED_MW, REDUCED_MW] {
        for (from, to) in row.profile(profile).zip(row.profile(AVAILABLE)) {
            ledger[to] = (ledger[to] + std::mem::take(&mut ledger[from])).min(MAX_MW);
        }
    }
}

/// Words of a row that no list leaves behind.
fn unbalance(rng: &mut Rng, ledger: &mut [u32]) {
    let reference = rng.from_to(1, ledger[USED]);
    let row = Row::of(ledger, reference);
    let (start, stop) = (row.get(ledger, START), row.get(ledger, STOP));
    let hour = rng.from_to(start, stop - 1) as usize;
    let other_hour = rng.from_to(start, stop - 1) as usize;
    let available = row.profile(AVAILABLE).start;
    match rng.below(100) {
        // Nothing was taken from it, so that it can go before what came from it.
        0..30 => ledger.copy_within(row.profile(GRANTED), available),
        // About as much room is left in its displaced as may come back.
        30..75 => {
            row.set(ledger, STATUS, rng.pick(&[CONFIRMED, DISPLACED]));
            let room = (ledger[row.profile(GRANTED).start + hour] + 9).min(MAX_MW);
            for word in row.span(ledger, DISPLACED_MW) {
                ledger[word] = MAX_MW - rng.below(room);
            }
        }
        75..83 => ledger[available + hour] = (ledger[available + hour] + 1).min(MAX_MW),
        83..90 => ledger[available + hour] = ledger[available + hour].saturating_sub(1),
        _ if ledger[available + hour] > 0 && ledger[available + other_hour] < MAX_MW => {
            ledger[available + hour] -= 1;
            ledger[available + other_hour] += 1;
        }
        _ => (),
    }
}

/// A row still has what was taken from it by some of those that came from it, so that it
/// can go once the others went, and has room for about that much in its displaced.
fn goes_between(rng: &mut Rng, ledger: &mut [u32]) {
    let reference = rng.from_to(1, ledger[USED].min(2));
    let row = Row::of(ledger, reference);
    let mut not_taken = vec![0; row.hours];
    for other in reference + 1..=ledger[USED] {
        let other = Row::of(ledger, other);
        if other.get(ledger, RELATED) == reference && rng.chance(60) {
            for (hour, word) in other.profile(GRANTED).enumerate() {
                not_taken[hour] += ledger[word];
            }
        }
    }
    for (hour, word) in row.span(ledger, AVAILABLE).enumerate() {
        ledger[word] = (ledger[word] + not_taken[hour]).min(MAX_MW);
    }
    for (hour, word) in row.span(ledger, DISPLACED_MW).enumerate() {
        ledger[word] = MAX_MW - (not_taken[hour] + rng.below(4)).saturating_sub(1);
    }
}

// Orders.

/// A list of references: some rows that can be annulled or a row with all that descends
/// from it, mostly the later ones first.
pub fn any_order(rng: &mut Rng, ledger: &[u32]) -> Vec<u32> {
    let used = ledger[USED];
    let may_go = |reference: &u32| status(ledger, Row::of(ledger, *reference)).is_none();
    let mut some: Vec<u32> = (1..=used).filter(|one| may_go(one) || rng.chance(6)).collect();
    match rng.below(100) {
        0..35 => some.retain(|_| rng.chance(50)),
        35..60 if used > 0 => {
            let top = rng.from_to(1, used);
            some.retain(|&reference| descends(ledger, reference, top));
        }
        60..75 => some.truncate(rng.from_to(1, 5) as usize),
        _ => (),
    }
    match rng.below(100) {
        0..25 => some.reverse(),
        25..55 => some = from_the_ends(rng, ledger, some),
        55..80 => some = as_accepted(rng, ledger, some),
        _ => shuffle(rng, &mut some),
    }
    match rng.below(100) {
        0..75 => some,
        _ => changed(rng, ledger, &some),
    }
}

/// True for the row itself too.
fn descends(ledger: &[u32], mut reference: u32, top: u32) -> bool {
    while reference > top {
        reference = Row::of(ledger, reference).get(ledger, RELATED);
    }
    reference == top
}

fn shuffle(rng: &mut Rng, order: &mut [u32]) {
    for place in (1..order.len()).rev() {
        order.swap(place, rng.below(place as u32 + 1) as usize);
    }
}

/// Any order in which no row goes before one that came from it.
fn from_the_ends(rng: &mut Rng, ledger: &[u32], mut rest: Vec<u32>) -> Vec<u32> {
    let mut order = Vec::new();
    while !rest.is_empty() {
        let is_end = |reference: &u32| {
            !rest.iter().any(|&other| Row::of(ledger, other).get(ledger, RELATED) == *reference)
        };
        let ends: Vec<u32> = rest.iter().copied().filter(is_end).collect();
        let next = rng.pick(&ends);
        rest.retain(|&reference| reference != next);
        order.push(next);
    }
    order
}

/// Any order in which each is accepted, as far as there is one where paths carry all.
fn as_accepted(rng: &mut Rng, ledger: &[u32], mut rest: Vec<u32>) -> Vec<u32> {
    let mut left = ledger.to_vec();
    let mut full = vec![MAX_MW; posting_words(ledger[HOURS])];
    let mut order = Vec::new();
    shuffle(rng, &mut rest);
    let mut goes = |reference: &u32| {
        annulment(&left, *reference)
            .is_some_and(|action| act(&mut left, &mut full, &[], &action).number == 0)
    };
    while let Some(place) = rest.iter().position(&mut goes) {
        order.push(rest.remove(place));
    }
    order
}

/// The same a little otherwise: two swapped, one left out or named again, or another named.
fn changed(rng: &mut Rng, ledger: &[u32], order: &[u32]) -> Vec<u32> {
    let used = ledger[USED];
    let mut order = order.to_vec();
    let place = rng.below(order.len() as u32 + 1) as usize;
    let other = rng.below(order.len().max(1) as u32) as usize;
    match rng.below(100) {
        0..25 if place < order.len() => order.swap(place, other),
        25..45 if place + 1 < order.len() => order.swap(place, place + 1),
        45..55 if place < order.len() => drop(order.remove(place)),
        55..65 if !order.is_empty() => order.insert(place, order[other]),
        65..70 => {
            // The last is row 1 by its lower half.
            let absent = rng.pick(&[0, used + 1, u32::MAX, (1 << 16) + 1]);
            order.insert(place, absent);
        }
        70..85 if used > 0 => order.insert(place, rng.from_to(1, used)),
        85..90 => order.reverse(),
        90..93 => order.extend(order.clone()),
        93..96 => order.clear(),
        _ => shuffle(rng, &mut order),
    }
    order
}

/// Postings that carry all, or just what an order uses, or one less in an hour, or any.
fn postings_for(rng: &mut Rng, ledger: &[u32], order: &[u32]) -> Vec<u32> {
    match rng.below(100) {
        0..35 => vec![MAX_MW; posting_words(ledger[HOURS])],
        35..85 => {
            let mut postings = just_enough(ledger, order);
            if rng.chance(45) {
                lower(rng, &mut postings);
            }
            postings
        }
        _ => postings_of(rng, ledger),
    }
}

/// The most that each path is used where it is asked, along an order.
fn just_enough(ledger: &[u32], order: &[u32]) -> Vec<u32> {
    let hours = ledger[HOURS] as usize;
    let mut postings = vec![0; posting_words(ledger[HOURS])];
    let mut full = vec![MAX_MW; postings.len()];
    let mut after = ledger.to_vec();
    for &reference in order {
        let Some(action) = annulment(&after, reference) else { continue };
        if act(&mut after, &mut full, &[], &action).before != CONFIRMED {
            continue;
        }
        for path in both_paths(&after, Row::of(&after, reference)) {
            let used = path_use(&after, path);
            for (posted, mw) in postings[posted(path, hours)].iter_mut().zip(used) {
                *posted = mw.min(MAX_MW).max(*posted);
            }
        }
    }
    postings
}

// Edges.

/// With words that are no ledger or no postings only the empty list is accepted.
fn on_wrong_grounds(run: &mut Run, rng: &mut Rng, start: &Desk) -> Result<(), Difference> {
    let order = any_order(rng, start.ledger());
    for mut desk in wrong_grounds(rng, start) {
        for order in [&order[..], &[], &[1], &[0]] {
            let answer = run.annuls_in_order(&mut desk, order)?;
            assert_eq!(answer, order.is_empty());
        }
    }
    Ok(())
}

/// An order that is accepted on a small ledger, with each word put to other values.
fn spoilt(run: &mut Run, rng: &mut Rng) -> Result<(), Difference> {
    let (start, order) = loop {
        let ledger = deal(rng);
        let order = any_order(rng, &ledger);
        let start = Desk::new(&ledger, &postings_for(rng, &ledger, &order));
        let accepted = annuls_in_order(&ledger, start.postings(), &order);
        if ledger.len() <= 130 && accepted && !order.is_empty() {
            break (start, order);
        }
    };
    let used = start.ledger()[USED];
    spoil_words(&start, |desk| run.annuls_in_order(desk, &order).map(|_| ()))?;
    let mut desk = start;
    for most in [order.len(), order.len().saturating_sub(1)] {
        for at in 0..most {
            for value in [0, 1, order[at] ^ 1, used, used + 1, 1 << 31, u32::MAX] {
                let mut other = order[..most].to_vec();
                other[at] = value;
                run.annuls_in_order(&mut desk, &other)?;
            }
        }
    }
    Ok(())
}

/// All lists of up to five references, there or not, on the day's ledger before row 1 is
/// displaced, and of up to three at its end; path 1 as it is posted and a megawatt lower.
pub fn every_list_of_the_day(run: &mut Run) -> Result<(), Difference> {
    for (actions, most) in [(9, 5), (14, 3)] {
        let day = day_after(run, actions)?;
        let named: Vec<u32> = (0..=day.ledger()[USED] + 1).collect();
        let mut lowered = day.clone();
        lowered.postings.set(2, 99);
        for mut desk in [day, lowered] {
            for list in lists_of(&named, most) {
                run.annuls_in_order(&mut desk, &list)?;
            }
        }
    }
    Ok(())
}

/// Chains and wide deals of 1,024 rows: from the ends, with two swapped, with the first row
/// too early, and with one named that is there no longer.
pub fn of_many_rows(run: &mut Run) -> Result<(), Difference> {
    for shape in [Shape::Chain, Shape::Wide] {
        let ledger = of_1_024_rows(run, shape)?;
        let desk = &mut Desk::new(&ledger, &vec![MAX_MW; posting_words(1)]);
        let ends: Vec<u32> = (1..=MAX_ROWS).rev().collect();
        let is_chain = matches!(shape, Shape::Chain);
        assert!(run.annuls_in_order(desk, &ends)?);
        for (place, expected) in [(0, !is_chain), (511, !is_chain), (1_022, false)] {
            let mut swapped = ends.clone();
            swapped.swap(place, place + 1);
            assert_eq!(run.annuls_in_order(desk, &swapped)?, expected, "{place}");
        }
        for more in [1, MAX_ROWS + 1] {
            assert!(!run.annuls_in_order(desk, &[&ends[..], &[more]].concat())?);
        }
    }
    Ok(())
}

/// The greatest ledger, full: resales of the first row over all hours, where its last hour
/// holds a megawatt too few in one of them, or its path's posting does.
pub fn greatest(run: &mut Run) -> Result<(), Difference> {
    let ledger = greatest_ledger();
    let mut desk = Desk::new(&ledger, &vec![MAX_MW; posting_words(MAX_HOURS)]);
    let ends = [MAX_ROWS, 2, 700, MAX_ROWS - 1];
    assert!(run.annuls_in_order(&mut desk, &ends)?);
    assert!(!run.annuls_in_order(&mut desk, &[&ends[..], &[1]].concat())?);
    let last_hour = MAX_HOURS as usize - 1;
    desk.postings.set(last_hour, MAX_MW - 1);
    assert!(!run.annuls_in_order(&mut desk, &ends)?);
    desk.postings.set(last_hour, MAX_MW);
    let last = Row::of(&ledger, MAX_ROWS).profile(AVAILABLE).end - 1;
    desk.ledger.set(last, ledger[last] - 1);
    assert!(!run.annuls_in_order(&mut desk, &ends)?);
    assert!(run.annuls_in_order(&mut desk, &ends[1..])?);
    Ok(())
}
