//! Any kind on any sound ledger and postings: rows built at random, in any status,
//! on any of several paths, with words near 100,000 and use beyond the posting now
//! and then, and actions by the right party most of the time.

use luddrisa_model::*;

use crate::lists::{disturb, posting, submission, with_profile, Words, PATHS};
use crate::rng::Rng;
use crate::run::{Desk, Difference, Run};

const WORDS: [u32; 8] = [0, 0, 1, 40, 50_000, 99_960, 99_999, 100_000];

/// A word that may be near the bound.
fn word(rng: &mut Rng) -> u32 {
    if rng.chance(30) {
        rng.below(100)
    } else {
        rng.pick(&WORDS)
    }
}

/// A word of a light row, which leaves room on its path.
fn light_word(rng: &mut Rng) -> u32 {
    rng.pick(&[0, 1, 40, 1_000]) + rng.below(60)
}

fn price(rng: &mut Rng) -> u32 {
    rng.pick(&[0, 0, 1, 500, MAX_PRICE])
}

/// A sound ledger that need not come from any list.
pub fn sound_ledger(rng: &mut Rng, most_rows: u32, most_hours: u32) -> Vec<u32> {
    let rows = rng.from_to(1, most_rows);
    let hours = rng.from_to(1, most_hours);
    let mut ledger = vec![0; ledger_words(rows, hours)];
    let provider = rng.pick(&[1, 65_535]);
    let window = rng.pick(&[1, 3_600, MAX_WINDOW]);
    assert_eq!(create(&mut ledger, rows, hours, provider, window, END_HOUR - hours), 0);
    ledger[NOW] = rng.pick(&[0, 3_600, 1_000_000, END_SECOND - 1]);
    let used =
        if rng.chance(10) { rng.below(rows + 1) } else { rng.from_to(rows.div_ceil(2), rows) };
    let relinquishes = rng.chance(30);
    let rows_are = Rows { heavy: rng.pick(&[0, 15, 60]), paths: some_paths(rng) };
    for reference in 1..=used {
        ledger[USED] = reference;
        let wish = if relinquishes {
            // An original, a redirect of it, and what gives megawatts back.
            match reference {
                1 => ORIGINAL_FIRM,
                2 => REDIRECT_NON_FIRM,
                _ if rng.chance(70) => RELINQUISH,
                _ => rng.from_to(ORIGINAL_FIRM, RELINQUISH),
            }
        } else {
            rng.from_to(ORIGINAL_FIRM, RELINQUISH)
        };
        fill_row(rng, &mut ledger, reference, wish, &rows_are);
        if relinquishes && reference == 2 && rng.chance(70) {
            Row::of(&ledger, 1).set(&mut ledger, STATUS, rng.pick(&[CONFIRMED, DISPLACED]));
            Row::of(&ledger, 2).set(&mut ledger, STATUS, CONFIRMED);
        }
    }
    assert!(sound(&ledger), "a dense ledger is sound");
    ledger
}

/// What the rows of a ledger have in common.
struct Rows {
    /// So many in a hundred have words near the bound.
    heavy: u32,
    paths: Vec<u32>,
}

fn some_paths(rng: &mut Rng) -> Vec<u32> {
    if rng.chance(50) {
        PATHS.to_vec()
    } else {
        vec![rng.pick(&PATHS), rng.pick(&PATHS)]
    }
}

/// Postings for a sound ledger: generous, just the use of the path, one less in an
/// hour, or anything.
pub fn postings_of(rng: &mut Rng, ledger: &[u32]) -> Vec<u32> {
    let hours = ledger[HOURS] as usize;
    let mut postings: Vec<u32> =
        (0..posting_words(ledger[HOURS])).map(|_| rng.below(MAX_MW + 1)).collect();
    for path in PATHS {
        let path_postings = &mut postings[posted(path, hours)];
        match rng.below(100) {
            0..60 => path_postings.fill(MAX_MW),
            60..80 => set_to_use(path_postings, ledger, path),
            80..90 => {
                set_to_use(path_postings, ledger, path);
                lower(rng, path_postings);
            }
            90..95 => path_postings.fill(0),
            _ => (),
        }
    }
    postings
}

pub(crate) fn set_to_use(path_postings: &mut [u32], ledger: &[u32], path: u32) {
    for (posted, mw) in path_postings.iter_mut().zip(path_use(ledger, path)) {
        *posted = mw.min(MAX_MW);
    }
}

/// One less in an hour that has something.
pub(crate) fn lower(rng: &mut Rng, postings: &mut [u32]) {
    let some: Vec<usize> = (0..postings.len()).filter(|&hour| postings[hour] > 0).collect();
    if !some.is_empty() {
        postings[rng.pick(&some)] -= 1;
    }
}

/// A used row of the type wished for, or an original where no row above fits.
fn fill_row(rng: &mut Rng, ledger: &mut [u32], reference: u32, wish: u32, rows: &Rows) {
    let row = Row::of(ledger, reference);
    let hours = ledger[HOURS];
    // The type, and a row above that it may be related to.
    let mut reqtype = wish;
    let fits = |above: &u32| {
        let of = Row::of(ledger, *above).get(ledger, TYPE);
        match reqtype {
            ORIGINAL_FIRM | ORIGINAL_NON_FIRM => false,
            RELINQUISH => of == REDIRECT_NON_FIRM,
            _ => of != REDIRECT_NON_FIRM && of != RELINQUISH,
        }
    };
    let above: Vec<u32> = (1..reference).filter(fits).collect();
    let (mut start, mut stop) = (0, hours);
    let mut related = 0;
    if above.is_empty() {
        reqtype = rng.from_to(ORIGINAL_FIRM, ORIGINAL_NON_FIRM);
    } else {
        related = above[rng.late(above.len())];
        start = Row::of(ledger, related).get(ledger, START);
        stop = Row::of(ledger, related).get(ledger, STOP);
    }
    if rng.chance(40) {
        start = rng.from_to(start, stop - 1);
        stop = rng.from_to(start + 1, stop);
    }
    // Rows that the next move may well confirm.
    let ready = rng.chance(if reqtype == RELINQUISH { 60 } else { 25 });
    let status = if ready {
        rng.pick(&[QUEUED, ACCEPTED, ACCEPTED, CR_ACCEPTED])
    } else if rng.chance(40) {
        CONFIRMED
    } else if rng.chance(10) {
        DISPLACED
    } else if rng.chance(70) {
        rng.pick(&[
            QUEUED,
            RECEIVED,
            STUDY,
            COUNTEROFFER,
            CR_COUNTEROFFER,
            REBID,
            ACCEPTED,
            CR_ACCEPTED,
        ])
    } else {
        rng.from_to(QUEUED, RETRACTED)
    };
    let provider = ledger[PROVIDER];
    let trades = matches!(reqtype, RESALE | PART_TRANSFER | FULL_TRANSFER);
    let seller = if rng.chance(10) {
        rng.pick(&[1, 10, 11])
    } else if trades {
        Row::of(ledger, related).get(ledger, CUSTOMER)
    } else {
        provider
    };
    let bid = price(rng);
    let offer = if ready || rng.chance(60) { bid } else { price(rng) };
    let flags = if ready {
        let coordinated = if status == CR_ACCEPTED { COORDINATED } else { 0 };
        let approved = if rng.chance(50) { APPROVED } else { 0 };
        let countered = if rng.chance(50) { COUNTERED } else { 0 };
        PRECONFIRMED | GRANTED_GIVEN | OFFER_GIVEN | coordinated | approved | countered
    } else {
        rng.below(MAX_FLAGS + 1)
    };
    let now = ledger[NOW];
    let limit = rng.pick(&[0, now, now, now + 1, now.saturating_sub(1), END_LIMIT - 1]);
    // Where rows stand on other paths than a list would put them, they are sound too.
    let stays = related != 0 && rng.chance(if trades { 70 } else { 40 });
    let path =
        if stays { Row::of(ledger, related).get(ledger, PATH) } else { rng.pick(&rows.paths) };
    let fields = [
        reqtype,
        status,
        rng.pick(&[provider, 10, 11, 12]),
        seller,
        related,
        start,
        stop,
        flags,
        bid,
        offer,
        limit,
        path,
    ];
    ledger[row.at..row.at + fields.len()].copy_from_slice(&fields);

    // Profiles that agree with each other, and with the row above, now and then.
    let span = (start as usize)..(stop as usize);
    let fits_above = related != 0 && (ready || rng.chance(60));
    let takes_all = rng.chance(40);
    let agrees = ready || rng.chance(65);
    let untouched = rng.chance(60);
    let never_displaced = rng.chance(60);
    let never_reduced = rng.chance(50);
    let word_of = if rng.chance(rows.heavy) { word } else { light_word };
    for hour in span {
        let mut requested = word_of(rng);
        if fits_above {
            let has = ledger[Row::of(ledger, related).profile(AVAILABLE).start + hour];
            requested = if takes_all { has } else { requested.min(has) };
        }
        let granted = if agrees { requested } else { word_of(rng).min(requested) };
        let available = if untouched { granted } else { word_of(rng) };
        let displaced = if never_displaced { 0 } else { word(rng) };
        let reduced = if never_reduced { 0 } else { word(rng) };
        let profiles: [u32; PROFILES] = [requested, granted, available, displaced, reduced];
        for (profile, mw) in profiles.into_iter().enumerate() {
            ledger[row.profile(profile).start + hour] = mw;
        }
    }
}

/// An action that may well be accepted on a ledger of any kind.
pub fn any_action(rng: &mut Rng, ledger: &[u32], words: &mut Words) -> Action {
    let kind = rng.pick(&[1, 2, 2, 2, 2, 3, 3, 3, 4, 5, 5, 6, 6, 7, 8]);
    let used = ledger[USED];
    let provider = ledger[PROVIDER];
    let mut action = if kind == CLOCK {
        let now = ledger[NOW];
        let time = rng.pick(&[now, now + 1, now.wrapping_sub(1), END_SECOND - 1, END_SECOND]);
        Action { kind, actor: provider, time, ..Action::default() }
    } else if kind == POST {
        posting(rng, ledger, words)
    } else if kind == SUBMIT || used == 0 {
        submission(rng, ledger, words)
    } else {
        let reference = rng.from_to(1, used);
        on_row(rng, ledger, words, kind, reference)
    };
    if rng.chance(10) {
        action.actor = rng.pick(&[provider, 10, 11, 12, 0, 65_535]);
    }
    if kind == SUBMIT && rng.chance(8) {
        // Any row, CONFIRMED or not, or none.
        action.related = rng.below(used + 2);
    }
    if rng.chance(8) {
        action = disturb(rng, action);
    }
    if rng.chance(2) {
        action = disturb(rng, action);
    }
    action
}

/// An action of a kind on a row, at whatever status, that may well be accepted.
pub(crate) fn on_row(
    rng: &mut Rng,
    ledger: &[u32],
    words: &mut Words,
    kind: u32,
    reference: u32,
) -> Action {
    let row = Row::of(ledger, reference);
    let from = row.get(ledger, STATUS);
    let statuses: &[u32] = match (kind, from) {
        (SELLER_STATUS, CONFIRMED) => &[DISPLACED, ANNULLED, ANNULLED],
        (SELLER_STATUS, _) => &[2, 3, 4, 5, 6, 7, 9, 10, 10, 10, 10, 11, 11, 12, 15, 16],
        (CUSTOMER_STATUS, _) => &[REBID, CONFIRMED, CONFIRMED, CONFIRMED, WITHDRAWN],
        _ => &[0],
    };
    let status = if rng.chance(5) { rng.from_to(0, 18) } else { rng.pick(statuses) };
    let actor = match kind {
        SELLER_STATUS if rng.chance(90) => row.get(ledger, SELLER),
        CUSTOMER_STATUS => row.get(ledger, CUSTOMER),
        _ => ledger[PROVIDER],
    };
    let price = match rng.below(20) {
        0 => MAX_PRICE + 1,
        1 => price(rng),
        _ if kind == SELLER_STATUS => row.get(ledger, BID),
        _ => row.get(ledger, OFFER),
    };
    let action = Action { kind, actor, reference, status, price, ..Action::default() };
    let comes = if kind == REDUCE { rng.chance(95) } else { rng.chance(45) };
    if !comes {
        return Action { offset: rng.pick(&[0, u32::MAX]), ..action };
    }
    let part = |profile: usize| ledger[row.span(ledger, profile)].to_vec();
    let source = match kind {
        SELLER_STATUS => REQUESTED,
        CUSTOMER_STATUS => GRANTED,
        _ => AVAILABLE,
    };
    let mut profile = part(rng.pick(&[source, source, source, REQUESTED, GRANTED, AVAILABLE]));
    if rng.chance(30) {
        let hour = rng.below(profile.len() as u32) as usize;
        profile[hour] = match rng.below(4) {
            0 => profile[hour] + 1,
            1 => profile[hour].saturating_sub(1),
            2 => 0,
            _ => word(rng),
        };
    }
    if kind == REDUCE && rng.chance(50) {
        to_the_room(rng, &part(REDUCED_MW), &mut profile);
    }
    if rng.chance(3) {
        profile.push(1);
    }
    with_profile(words, action, &profile)
}

/// A reduction by no more than there is room for in the reduced words, or by one
/// more in an hour.
fn to_the_room(rng: &mut Rng, reduced: &[u32], profile: &mut [u32]) {
    for (mw, reduced) in profile.iter_mut().zip(reduced) {
        *mw = (*mw).min(MAX_MW - reduced);
    }
    if rng.chance(30) {
        let hour = rng.below(profile.len() as u32) as usize;
        profile[hour] += 1;
    }
}

/// So many ledgers, a few actions on each.
pub fn dense(run: &mut Run, seed: u64, count: u32) -> Result<(), Difference> {
    for number in 0..count {
        let seed = seed + u64::from(number);
        let rng = &mut Rng::new(seed);
        one_ledger(run, rng).map_err(|difference| format!("dense, seed {seed}: {difference}"))?;
    }
    Ok(())
}

fn one_ledger(run: &mut Run, rng: &mut Rng) -> Result<(), Difference> {
    let ledger = sound_ledger(rng, 7, 5);
    let start = Desk::new(&ledger, &postings_of(rng, &ledger));
    let mut desk = start.clone();
    run.open(&desk.ledger)?;
    let mut words = Words::new();
    for number in 0..24 {
        // Mostly on the ledger as built, now and then on from there.
        if number % 3 == 0 {
            desk = start.clone();
        }
        let action = any_action(rng, desk.ledger(), &mut words);
        to_the_limit(run, rng, desk.ledger(), &words, &action)?;
        run.act(&mut desk, &words, &action)?;
    }
    run.open(&desk.ledger)?;
    if rng.chance(20) {
        run.read_all_out(&desk.ledger)?;
    }
    Ok(())
}

/// The same action with just what it would use posted, and with one less on the
/// paths up the chain.
fn to_the_limit(
    run: &mut Run,
    rng: &mut Rng,
    ledger: &[u32],
    words: &[u32],
    action: &Action,
) -> Result<(), Difference> {
    let mut after = ledger.to_vec();
    let mut postings = vec![MAX_MW; posting_words(ledger[HOURS])];
    let answer = act(&mut after, &mut postings, words, action);
    let asks = answer.after == CONFIRMED || (answer.before, answer.after) == (CONFIRMED, ANNULLED);
    if answer.number != 0 || !asks {
        return Ok(());
    }
    let hours = ledger[HOURS] as usize;
    for path in PATHS {
        set_to_use(&mut postings[posted(path, hours)], &after, path);
    }
    run.act(&mut Desk::new(ledger, &postings), words, action)?;
    // The path of the row, of its related row, and of the one above that.
    let mut at = answer.reference;
    while at != 0 {
        let row = Row::of(ledger, at);
        let path = posted(row.get(ledger, PATH), hours);
        let mut lowered = postings.clone();
        lower(rng, &mut lowered[path]);
        run.act(&mut Desk::new(ledger, &lowered), words, action)?;
        at = row.get(ledger, RELATED);
    }
    Ok(())
}

/// The greatest ledger, full, with a few actions of each kind.
pub fn greatest(run: &mut Run, seed: u64) -> Result<(), Difference> {
    let rng = &mut Rng::new(seed);
    let mut words = vec![0; ledger_words(MAX_ROWS, MAX_HOURS)];
    assert_eq!(create(&mut words, MAX_ROWS, MAX_HOURS, 1, 3_600, 0), 0);
    for reference in 1..=MAX_ROWS {
        words[USED] = reference;
        let wish = rng.from_to(ORIGINAL_FIRM, RELINQUISH);
        let rows_are = Rows { heavy: 0, paths: (1..=MAX_PATH).collect() };
        fill_row(rng, &mut words, reference, wish, &rows_are);
    }
    let postings = vec![MAX_MW; posting_words(MAX_HOURS)];
    let mut desk = Desk::new(&words, &postings);
    let mut profiles = Words::new();
    let tell = |difference| format!("greatest, seed {seed}: {difference}");
    for _ in 0..40 {
        let action = any_action(rng, desk.ledger(), &mut profiles);
        run.act(&mut desk, &profiles, &action).map_err(tell)?;
    }
    run.read_out(&desk.ledger, MAX_ROWS).map_err(tell)?;
    run.open(&desk.ledger).map_err(tell)?;
    // The very last word of the postings, one over, and of the ledger.
    let action = Action { kind: 9, ..Action::default() };
    let mut over = desk.clone();
    over.postings.set(postings.len() - 1, MAX_MW + 1);
    desk.ledger.set(words.len() - 1, MAX_MW + 1);
    for mut desk in [over, desk] {
        let answer = run.act(&mut desk, &profiles, &action).map_err(tell)?;
        assert_eq!(answer.number, BAD_LEDGER);
    }
    Ok(())
}
