//! Lists from fresh ledgers with nothing posted, biased to accepted actions and
//! deep chains: resale of redirect of resale, transfers, relinquishing, reductions
//! of one row again and again, displacement, annulments, lapses, the clock, and
//! postings going up and down on several paths. After each action no path is used
//! beyond its posting and the ledger opens, and after each list the tally must
//! balance.

use luddrisa_model::*;

use crate::limits::within;
use crate::rng::Rng;
use crate::rules::Rules;
use crate::run::{Desk, Difference, Run, UNWRITTEN};

/// The paths that are traded on.
pub const PATHS: [u32; 4] = [1, 2, 33, MAX_PATH];

/// Where profiles of a list are kept.
pub type Words = Vec<u32>;

/// A list as it was answered.
pub struct Answered {
    pub numbers: [u32; 5],
    pub words: Words,
    pub actions: Vec<Action>,
    pub answers: Vec<Answer>,
    pub desk: Desk,
}

/// How a list goes.
#[derive(Clone, Copy)]
pub(crate) struct Mood {
    /// Nothing confirmed is displaced or annulled, so that chains grow.
    pub(crate) calm: bool,
    /// Postings are low.
    pub(crate) tight: bool,
}

/// Creation numbers of a small ledger.
pub fn small_numbers(rng: &mut Rng) -> [u32; 5] {
    let hours = rng.from_to(1, 6);
    let rows = if rng.chance(15) { rng.from_to(1, 4) } else { rng.from_to(8, 40) };
    let provider = rng.pick(&[1, 2, 65_535]);
    let window = rng.pick(&[1, 60, 3_600, MAX_WINDOW]);
    [rows, hours, provider, window, rng.pick(&[0, 70_000, END_HOUR - hours])]
}

/// Puts a profile into the words and into the action.
pub fn with_profile(words: &mut Words, action: Action, profile: &[u32]) -> Action {
    let offset = words.len() as u32;
    words.extend_from_slice(profile);
    Action { offset, length: profile.len() as u32, ..action }
}

fn customer_of(rng: &mut Rng, ledger: &[u32]) -> u32 {
    if rng.chance(5) {
        ledger[PROVIDER]
    } else {
        rng.from_to(10, 13)
    }
}

/// The references of the rows that pass a test.
fn rows_that(ledger: &[u32], test: impl Fn(Row) -> bool) -> Vec<u32> {
    (1..=ledger[USED]).filter(|&reference| test(Row::of(ledger, reference))).collect()
}

fn confirmed(ledger: &[u32]) -> Vec<u32> {
    rows_that(ledger, |row| row.get(ledger, STATUS) == CONFIRMED)
}

/// One of the references, often the last.
fn late_pick(rng: &mut Rng, references: &[u32]) -> Option<u32> {
    let last = references.last().copied()?;
    Some(if rng.chance(30) { last } else { references[rng.late(references.len())] })
}

/// A submission that mostly is accepted and mostly can be confirmed.
pub fn submission(rng: &mut Rng, ledger: &[u32], words: &mut Words) -> Action {
    let hours = ledger[HOURS];
    let rights = rows_that(ledger, |row| {
        row.get(ledger, STATUS) == CONFIRMED
            && !matches!(row.get(ledger, TYPE), REDIRECT_NON_FIRM | RELINQUISH)
    });
    let redirects = rows_that(ledger, |row| {
        row.get(ledger, STATUS) == CONFIRMED && row.get(ledger, TYPE) == REDIRECT_NON_FIRM
    });
    let mut flags = 0;
    if rng.chance(60) {
        flags |= PRECONFIRMED;
    }
    if rng.chance(20) {
        flags |= COORDINATED;
    }
    let price = rng.pick(&[0, 1, 500, 99_999_999]);
    let relinquishes = !redirects.is_empty() && rng.chance(45);
    let above = if relinquishes { late_pick(rng, &redirects) } else { late_pick(rng, &rights) };
    let Some(above) = above.filter(|_| rng.chance(88)) else {
        let start = rng.below(hours);
        let stop = rng.from_to(start + 1, hours);
        let (start, stop) = if rng.chance(70) { (0, hours) } else { (start, stop) };
        let most = rng.pick(&[10, 10, 1_000, 1_000, 1_000, 20_000, MAX_MW]);
        let least = if rng.chance(40) { most } else { most / 2 + 1 };
        let profile: Vec<u32> = (start..stop).map(|_| rng.from_to(least, most)).collect();
        let action = Action {
            kind: SUBMIT,
            actor: customer_of(rng, ledger),
            reqtype: if rng.chance(85) { ORIGINAL_FIRM } else { ORIGINAL_NON_FIRM },
            seller: ledger[PROVIDER],
            start,
            stop,
            flags,
            price,
            path: rng.pick(&PATHS),
            ..Action::default()
        };
        return with_profile(words, action, &profile);
    };
    let row = Row::of(ledger, above);
    let (first, end) = (row.get(ledger, START), row.get(ledger, STOP));
    let holder = row.get(ledger, CUSTOMER);
    let reqtype = if relinquishes {
        RELINQUISH
    } else {
        rng.pick(&[
            RESALE,
            RESALE,
            RESALE,
            REDIRECT_FIRM,
            REDIRECT_FIRM,
            REDIRECT_FIRM,
            REDIRECT_NON_FIRM,
            REDIRECT_NON_FIRM,
            PART_TRANSFER,
            FULL_TRANSFER,
        ])
    };
    let whole = reqtype == FULL_TRANSFER || rng.chance(50);
    let start = if whole { first } else { rng.from_to(first, end - 1) };
    let stop = if whole { end } else { rng.from_to(start + 1, end) };
    let available = &ledger[row.part(AVAILABLE, start as usize, stop as usize)];
    let greed = rng.below(100);
    let profile: Vec<u32> = available
        .iter()
        .map(|&mw| match greed {
            _ if reqtype == FULL_TRANSFER && greed < 80 => mw,
            0..70 => rng.from_to(0, mw),
            70..90 => mw,
            _ => (mw + rng.below(3)).min(MAX_MW),
        })
        .collect();
    if reqtype == REDIRECT_NON_FIRM {
        flags |= PRECONFIRMED;
    }
    let trades = matches!(reqtype, RESALE | PART_TRANSFER | FULL_TRANSFER);
    let leaves = matches!(reqtype, REDIRECT_FIRM | REDIRECT_NON_FIRM) && rng.chance(60);
    let path = if leaves || rng.chance(2) { rng.pick(&PATHS) } else { row.get(ledger, PATH) };
    let action = Action {
        kind: SUBMIT,
        actor: if trades { customer_of(rng, ledger) } else { holder },
        reqtype,
        seller: if trades { holder } else { ledger[PROVIDER] },
        related: above,
        start,
        stop,
        flags,
        price,
        path,
        ..Action::default()
    };
    with_profile(words, action, &profile)
}

/// What a posting sets its hours to.
#[derive(Clone, Copy)]
enum Level {
    Full,
    AboveUse,
    Use,
    BelowUse,
    Any,
    Nothing,
}

/// A posting of one of the paths: up, down to the use, or below it.
pub fn posting(rng: &mut Rng, ledger: &[u32], words: &mut Words) -> Action {
    let path = if rng.chance(95) { rng.pick(&PATHS) } else { rng.from_to(1, MAX_PATH) };
    let level = match rng.below(100) {
        0..45 => Level::Full,
        45..60 => Level::AboveUse,
        60..75 => Level::Use,
        75..85 => Level::BelowUse,
        85..95 => Level::Any,
        _ => Level::Nothing,
    };
    let hours = ledger[HOURS];
    let start = rng.below(hours);
    let stop = rng.from_to(start + 1, hours);
    let (start, stop) = if rng.chance(60) { (0, hours) } else { (start, stop) };
    let action = Action { kind: POST, path, start, stop, ..Action::default() };
    at_level(rng, ledger, words, action, level)
}

/// The provider's posting with a profile.
fn at_level(
    rng: &mut Rng,
    ledger: &[u32],
    words: &mut Words,
    action: Action,
    level: Level,
) -> Action {
    let path_use = path_use(ledger, action.path);
    let profile: Vec<u32> = path_use[action.start as usize..action.stop as usize]
        .iter()
        .map(|&mw| match level {
            Level::Full => MAX_MW,
            Level::AboveUse => mw + rng.below(2_000),
            Level::Use => mw,
            Level::BelowUse => mw.saturating_sub(rng.below(2)),
            Level::Any => rng.from_to(0, MAX_MW),
            Level::Nothing => 0,
        })
        .map(|mw| mw.min(MAX_MW))
        .collect();
    with_profile(words, Action { actor: ledger[PROVIDER], ..action }, &profile)
}

/// The next step of an open row.
pub(crate) fn step(rng: &mut Rng, ledger: &[u32], words: &mut Words, reference: u32) -> Action {
    let row = Row::of(ledger, reference);
    let status = row.get(ledger, STATUS);
    let flags = row.get(ledger, FLAGS);
    let coordinated = flags & COORDINATED != 0;
    let by_seller = Action {
        kind: SELLER_STATUS,
        actor: row.get(ledger, SELLER),
        reference,
        ..Action::default()
    };
    let by_customer = Action {
        kind: CUSTOMER_STATUS,
        actor: row.get(ledger, CUSTOMER),
        reference,
        ..Action::default()
    };
    let by_provider = Action { actor: ledger[PROVIDER], reference, ..Action::default() };
    let requested = ledger[row.span(ledger, REQUESTED)].to_vec();
    let granted = ledger[row.span(ledger, GRANTED)].to_vec();
    let given = flags & GRANTED_GIVEN != 0;
    let counteroffer = if coordinated { CR_COUNTEROFFER } else { COUNTEROFFER };
    let lower = |rng: &mut Rng, profile: &[u32]| -> Vec<u32> {
        profile.iter().map(|&mw| if rng.chance(50) { mw } else { rng.from_to(0, mw) }).collect()
    };
    let unapproved =
        matches!(row.get(ledger, TYPE), PART_TRANSFER | FULL_TRANSFER) && flags & APPROVED == 0;
    // Once countered, a preconfirmed row can be withdrawn, also a transfer that waits at 10.
    let countered = flags & COUNTERED != 0;
    if unapproved && rng.chance(if countered { 15 } else { 40 }) {
        return Action { kind: APPROVE, ..by_provider };
    }
    let die = rng.below(100);
    if die < 4 {
        let status = rng.pick(&[INVALID, REFUSED, SUPERSEDED, DECLINED, ANNULLED]);
        return Action { status, ..by_seller };
    }
    let withdrawn = match status {
        _ if !countered => 6,
        ACCEPTED if flags & PRECONFIRMED != 0 => 40,
        _ => 12,
    };
    if die < withdrawn {
        // Its profile is not read.
        let length = rng.pick(&[0, 0, u32::MAX]);
        return Action { status: WITHDRAWN, length, ..by_customer };
    }
    match status {
        QUEUED | RECEIVED | STUDY | REBID if die < 18 => {
            Action { status: rng.pick(&[RECEIVED, STUDY]), ..by_seller }
        }
        QUEUED | RECEIVED | STUDY | REBID if die < 70 => {
            let status = if coordinated { CR_ACCEPTED } else { ACCEPTED };
            let action = Action { status, price: row.get(ledger, BID), ..by_seller };
            if given || rng.chance(20) {
                with_profile(words, action, &requested)
            } else {
                action
            }
        }
        ACCEPTED | CR_ACCEPTED if die < 70 => {
            Action { status: CONFIRMED, price: row.get(ledger, OFFER), ..by_customer }
        }
        ACCEPTED | CR_ACCEPTED if die < 80 => Action { kind: LAPSE, ..by_provider },
        COUNTEROFFER | CR_COUNTEROFFER if die < 60 => {
            let action = Action { status: CONFIRMED, price: row.get(ledger, OFFER), ..by_customer };
            if given {
                with_profile(words, action, &granted)
            } else {
                action
            }
        }
        COUNTEROFFER | CR_COUNTEROFFER if die < 90 => {
            let price = rng.pick(&[row.get(ledger, OFFER), 3]);
            let action = Action { status: REBID, price, ..by_customer };
            if rng.chance(70) {
                let profile = lower(rng, if given { &granted } else { &requested });
                with_profile(words, action, &profile)
            } else {
                action
            }
        }
        COUNTEROFFER | CR_COUNTEROFFER => Action { kind: LAPSE, ..by_provider },
        _ => {
            let price = rng.pick(&[row.get(ledger, BID), 2, 600]);
            let action = Action { status: counteroffer, price, ..by_seller };
            if rng.chance(60) {
                let profile = lower(rng, &requested);
                with_profile(words, action, &profile)
            } else {
                action
            }
        }
    }
}

/// Those of the references whose rows were reduced before.
fn reduced(ledger: &[u32], references: &[u32]) -> Vec<u32> {
    let is_reduced = |reference: &u32| {
        let row = Row::of(ledger, *reference);
        ledger[row.profile(REDUCED_MW)].iter().any(|&mw| mw > 0)
    };
    references.iter().copied().filter(is_reduced).collect()
}

/// A reduction of a CONFIRMED row, often of one that was reduced before.
pub(crate) fn reduction(rng: &mut Rng, ledger: &[u32], words: &mut Words, held: &[u32]) -> Action {
    let again = reduced(ledger, held);
    let any = again.is_empty() || rng.chance(50);
    let reference = rng.pick(if any { held } else { &again });
    let row = Row::of(ledger, reference);
    let extent = rng.below(100);
    let profile: Vec<u32> = ledger[row.span(ledger, AVAILABLE)]
        .iter()
        .map(|&mw| match extent {
            0..12 => mw,
            12..30 => rng.pick(&[0, mw]),
            30..34 => (mw + rng.below(2)).min(MAX_MW),
            _ => rng.from_to(0, mw.min(20)),
        })
        .collect();
    let action = Action { kind: REDUCE, actor: ledger[PROVIDER], reference, ..Action::default() };
    with_profile(words, action, &profile)
}

/// The next action of a list.
pub(crate) fn next_action(
    rng: &mut Rng,
    ledger: &[u32],
    postings: &[u32],
    words: &mut Words,
    Mood { calm, tight }: Mood,
) -> Action {
    // A path with nothing posted is seen to soon.
    let hours = ledger[HOURS] as usize;
    let is_idle = |path: &u32| postings[posted(*path, hours)].iter().all(|&mw| mw == 0);
    let idle = PATHS.into_iter().find(is_idle);
    if let Some(path) = idle.filter(|_| rng.chance(30)) {
        let action = Action { kind: POST, path, stop: ledger[HOURS], ..Action::default() };
        let level = if tight { rng.pick(&[Level::AboveUse, Level::Any]) } else { Level::Full };
        return at_level(rng, ledger, words, action, level);
    }
    let open = rows_that(ledger, |row| is_open(row.get(ledger, STATUS)));
    let held = confirmed(ledger);
    let provider = Action { actor: ledger[PROVIDER], ..Action::default() };
    let full = ledger[USED] == ledger[ROWS];
    let die = match (full && rng.chance(95), open.is_empty()) {
        (true, true) => rng.below(17),
        (true, false) => rng.below(70),
        (false, _) => rng.below(100),
    };
    let action = match die {
        _ if rng.chance(4) => posting(rng, ledger, words),
        0..4 => {
            let steps = [0, 1, ledger[WINDOW], ledger[WINDOW] / 2 + 1];
            Action { kind: CLOCK, time: ledger[NOW].saturating_add(rng.pick(&steps)), ..provider }
        }
        4..10 if !held.is_empty() => reduction(rng, ledger, words, &held),
        10..17 if !held.is_empty() && !calm => {
            let of_reduced = late_pick(rng, &reduced(ledger, &held)).filter(|_| rng.chance(30));
            let reference = of_reduced.or_else(|| late_pick(rng, &held)).unwrap();
            let row = Row::of(ledger, reference);
            let status = if rng.chance(25) { DISPLACED } else { ANNULLED };
            let actor = if rng.chance(20) { ledger[PROVIDER] } else { row.get(ledger, SELLER) };
            Action { kind: SELLER_STATUS, actor, reference, status, ..Action::default() }
        }
        10..70 if !open.is_empty() => {
            let reference = late_pick(rng, &open).unwrap();
            step(rng, ledger, words, reference)
        }
        _ => submission(rng, ledger, words),
    };
    if rng.chance(3) {
        return disturb(rng, action);
    }
    action
}

/// One field a little off, or far off.
pub fn disturb(rng: &mut Rng, mut action: Action) -> Action {
    let field = rng.below(15) as usize;
    let word = &mut *fields_mut(&mut action)[field];
    *word = match rng.below(5) {
        0 => word.wrapping_add(1),
        1 => word.wrapping_sub(1),
        2 => 0,
        3 => rng.below(20),
        _ => u32::MAX,
    };
    action
}

/// The 15 fields of an action.
pub fn fields_mut(action: &mut Action) -> [&mut u32; 15] {
    let Action {
        kind,
        actor,
        reference,
        reqtype,
        status,
        seller,
        related,
        start,
        stop,
        flags,
        price,
        time,
        offset,
        length,
        path,
    } = action;
    [
        kind, actor, reference, reqtype, status, seller, related, start, stop, flags, price, time,
        offset, length, path,
    ]
}

/// One list, action by action.
pub fn list(run: &mut Run, rng: &mut Rng, length: u32) -> Result<Answered, Difference> {
    let numbers = small_numbers(rng);
    let mut desk = run.fresh(numbers)?;
    let mut words = Words::new();
    let mut actions = Vec::new();
    let mut answers = Vec::new();
    let calm = if rng.chance(70) { length / 2 } else { 0 };
    let tight = rng.chance(20);
    for number in 0..length {
        let mood = Mood { calm: number < calm, tight };
        let action = next_action(rng, desk.ledger(), desk.postings(), &mut words, mood);
        let answer = run.act(&mut desk, &words, &action)?;
        within(desk.ledger(), desk.postings()).map_err(|told| format!("{action:?}: {told}"))?;
        run.opens(&desk.ledger).map_err(|told| format!("{action:?}: {told}"))?;
        actions.push(action);
        answers.push(answer);
    }
    Ok(Answered { numbers, words, actions, answers, desk })
}

/// Lists, each balanced, read out, and given again in batches.
pub fn lists(run: &mut Run, seed: u64, count: u32) -> Result<(), Difference> {
    for number in 0..count {
        let seed = seed + u64::from(number);
        let rng = &mut Rng::new(seed);
        one_list(run, rng).map_err(|difference| format!("lists, seed {seed}: {difference}"))?;
    }
    Ok(())
}

fn one_list(run: &mut Run, rng: &mut Rng) -> Result<(), Difference> {
    let length = rng.from_to(20, 160);
    let answered = list(run, rng, length)?;
    let mut tally = Tally::new(answered.numbers[1]);
    for (action, answer) in answered.actions.iter().zip(&answered.answers) {
        tally.feed(&answered.words, action, answer);
    }
    balanced(answered.desk.ledger(), &tally)?;
    run.read_all_out(&answered.desk.ledger)?;

    // The same list again with all its words there from the start, one by one and
    // in batches: a profile that was outside its slice may now be inside.
    let mut desk = run.fresh(answered.numbers)?;
    let mut one_by_one = Vec::new();
    for action in &answered.actions {
        one_by_one.push(run.act(&mut desk, &answered.words, action)?);
    }
    let left_behind = desk;
    let mut desk = run.fresh(answered.numbers)?;
    let mut tally = Tally::new(answered.numbers[1]);
    let mut left = &answered.actions[..];
    let mut given = Vec::new();
    while !left.is_empty() {
        let (now, later) = left.split_at(rng.from_to(1, left.len() as u32) as usize);
        let (number, answers) = run.batch(&mut desk, &answered.words, now, now.len())?;
        tally.feed_list(&answered.words, now, &answers, number);
        given.extend(answers);
        left = later;
    }
    let left = (desk.ledger(), desk.postings());
    if given != one_by_one || left != (left_behind.ledger(), left_behind.postings()) {
        return Err("in batches the list is answered otherwise than one by one".into());
    }
    within(desk.ledger(), desk.postings())?;
    run.opens(&desk.ledger)?;
    balanced(desk.ledger(), &tally)
}

/// A list answered by the subject alone: does its ledger balance?
pub fn balance_of(subject: &dyn Rules, seed: u64) -> Result<(), String> {
    alone(subject, seed, |ledger, _, tally| balanced(ledger, tally))
        .map_err(|told| format!("balance, seed {seed}: {told}"))
}

/// A list answered by the subject alone: is each path used within its posting?
pub fn limits_of(subject: &dyn Rules, seed: u64) -> Result<(), String> {
    alone(subject, seed, |ledger, postings, _| within(ledger, postings))
        .map_err(|told| format!("limits, seed {seed}: {told}"))
}

/// A list answered by the subject alone: does its ledger open, by the model?
pub fn opening_of(subject: &dyn Rules, seed: u64) -> Result<(), String> {
    alone(subject, seed, |ledger, _, _| match open(ledger) {
        0 => Ok(()),
        number => Err(format!("opens with {number}")),
    })
    .map_err(|told| format!("opening, seed {seed}: {told}"))
}

/// A list of actions answered by the subject, what it left looked at after each.
fn alone(
    subject: &dyn Rules,
    seed: u64,
    look: impl Fn(&[u32], &[u32], &Tally) -> Result<(), String>,
) -> Result<(), String> {
    let rng = &mut Rng::new(seed);
    let numbers = small_numbers(rng);
    turns(subject, rng, numbers, seed.is_multiple_of(2), |_, _, _, _| false, look)
}

/// A list answered by the subject, what it left looked at after each turn: an action, where
/// nothing else has taken the turn.
pub(crate) fn turns(
    subject: &dyn Rules,
    rng: &mut Rng,
    numbers: [u32; 5],
    tight: bool,
    taken: impl Fn(&mut Rng, &mut [u32], &mut [u32], &mut Tally) -> bool,
    mut look: impl FnMut(&[u32], &[u32], &Tally) -> Result<(), String>,
) -> Result<(), String> {
    let mut ledger = vec![0; ledger_words(numbers[0], numbers[1])];
    let mut postings = vec![0; posting_words(numbers[1])];
    if subject.create(&mut ledger, numbers) != 0 {
        return Err("not created".into());
    }
    let mut tally = Tally::new(numbers[1]);
    let mut words = Words::new();
    for number in 0..100 {
        if !taken(rng, &mut ledger, &mut postings, &mut tally) {
            let mood = Mood { calm: number < 40, tight };
            let action = next_action(rng, &ledger, &postings, &mut words, mood);
            let mut answer = [UNWRITTEN];
            let number = subject.batch(&mut ledger, &mut postings, &words, &[action], &mut answer);
            tally.feed_list(&words, &[action], &answer, number);
        }
        if !sound(&ledger) || !postings_fit(&postings, ledger[HOURS]) {
            return Err("unsound".into());
        }
        look(&ledger, &postings, &tally)?;
    }
    Ok(())
}
