//! Edges: each head, row and posting word at its bound and one over, damaged
//! ledgers and postings of any length, rows with a profile too few or too many,
//! wild numbers in every field, creation at its bounds, reductions to the bound,
//! withdrawals and offers at every status with all flags.

use luddrisa_model::*;

use crate::dense::{any_action, postings_of, sound_ledger};
use crate::lists::{fields_mut, Words, PATHS};
use crate::rng::Rng;
use crate::run::{Desk, Difference, Run, Twice};

/// The last number allowed, by word of the head.
const HEAD_BOUNDS: [u32; HEAD_WORDS] =
    [MAX_ROWS, MAX_HOURS, MAX_ENTITY, MAX_WINDOW, END_HOUR, END_SECOND - 1, MAX_ROWS, 0];

/// The last number allowed, by field of a row; the span's stands for start and stop.
const ROW_BOUNDS: [u32; FIELD_WORDS] = [
    RELINQUISH,
    RETRACTED,
    MAX_ENTITY,
    MAX_ENTITY,
    MAX_ROWS,
    MAX_HOURS,
    MAX_HOURS,
    MAX_FLAGS,
    MAX_PRICE,
    MAX_PRICE,
    END_LIMIT - 1,
    MAX_PATH,
    0,
    0,
    0,
    0,
];

/// The last number allowed, by field of an action.
const ACTION_BOUNDS: [u32; 15] = [
    POST,
    MAX_ENTITY,
    MAX_ROWS,
    RELINQUISH,
    RETRACTED,
    MAX_ENTITY,
    MAX_ROWS,
    MAX_HOURS,
    MAX_HOURS,
    PRECONFIRMED + COORDINATED,
    MAX_PRICE,
    END_SECOND - 1,
    MAX_MW,
    MAX_HOURS,
    MAX_PATH,
];

/// Answers 1 on an unsound ledger or wrong postings, else 2.
const NO_KIND: Action = Action {
    kind: 9,
    actor: 0,
    reference: 0,
    reqtype: 0,
    status: 0,
    seller: 0,
    related: 0,
    start: 0,
    stop: 0,
    flags: 0,
    price: 0,
    time: 0,
    offset: 0,
    length: 0,
    path: 0,
};

/// What a word is set to in turn.
fn values(old: u32, bound: u32) -> [u32; 10] {
    [
        0,
        1,
        old.wrapping_sub(1),
        old.wrapping_add(1),
        bound,
        bound + 1,
        2,
        1 << 16,
        1 << 31,
        u32::MAX,
    ]
}

/// What an action is put to, before it is spoilt.
struct Ground {
    ledger: Vec<u32>,
    postings: Vec<u32>,
    words: Words,
}

/// An action that is accepted on the ledger, or at least answered.
fn base(rng: &mut Rng, ground: &mut Ground) -> Action {
    let Ground { ledger, postings, words } = ground;
    for _ in 0..12 {
        words.clear();
        let action = any_action(rng, ledger, words);
        if act(&mut ledger.to_vec(), &mut postings.to_vec(), words, &action).number == 0 {
            return action;
        }
    }
    words.clear();
    any_action(rng, ledger, words)
}

/// So many ledgers, each spoilt word by word, and so many actions, field by field.
pub fn edges(run: &mut Run, seed: u64, count: u32) -> Result<(), Difference> {
    for number in 0..count {
        let seed = seed + u64::from(number);
        let rng = &mut Rng::new(seed);
        one_edge(run, rng).map_err(|difference| format!("edges, seed {seed}: {difference}"))?;
    }
    Ok(())
}

fn one_edge(run: &mut Run, rng: &mut Rng) -> Result<(), Difference> {
    let ledger = sound_ledger(rng, 4, 3);
    let postings = postings_of(rng, &ledger);
    let mut ground = Ground { ledger, postings, words: Words::new() };
    let action = base(rng, &mut ground);
    spoil_words(run, &ground, &action)?;
    spoil_postings(run, rng, &ground, &action)?;
    spoil_action(run, &ground, &action)?;
    spoil_slice(run, &ground, &action)?;
    damage(run, rng, &ground, &action)
}

impl Ground {
    fn act(&self, run: &mut Run, action: &Action) -> Result<(), Difference> {
        run.act(&mut Desk::new(&self.ledger, &self.postings), &self.words, action).map(|_| ())
    }

    fn act_on(&self, run: &mut Run, ledger: &[u32], action: &Action) -> Result<(), Difference> {
        run.act(&mut Desk::new(ledger, &self.postings), &self.words, action).map(|_| ())
    }

    fn act_with(&self, run: &mut Run, words: &[u32], action: &Action) -> Result<(), Difference> {
        run.act(&mut Desk::new(&self.ledger, &self.postings), words, action).map(|_| ())
    }

    fn act_under(
        &self,
        run: &mut Run,
        postings: &[u32],
        action: &Action,
    ) -> Result<(), Difference> {
        run.act(&mut Desk::new(&self.ledger, postings), &self.words, action).map(|_| ())
    }
}

/// The words of a row with so many profiles.
fn row_words(hours: u32, profiles: usize) -> usize {
    FIELD_WORDS + profiles * hours as usize
}

/// The length of a ledger whose rows had so many profiles.
pub fn length_with(profiles: usize, rows: u32, hours: u32) -> usize {
    HEAD_WORDS + rows as usize * row_words(hours, profiles)
}

/// The rows with another number of profiles each: the first ones kept, further
/// ones 0.
pub fn laid_out(ledger: &[u32], profiles: usize, anew: usize) -> Vec<u32> {
    let (head, rows) = ledger.split_at(HEAD_WORDS);
    let mut words = head.to_vec();
    for row in rows.chunks(row_words(head[HOURS], profiles)) {
        let mut row = row.to_vec();
        row.resize(row_words(head[HOURS], anew), 0);
        words.extend(row);
    }
    words
}

fn spoil_words(run: &mut Run, ground: &Ground, action: &Action) -> Result<(), Difference> {
    let ledger = &ground.ledger;
    let row_words = row_words(ledger[HOURS], PROFILES);
    let mut spoilt = ledger.to_vec();
    for at in 0..ledger.len() {
        let bound = match at.checked_sub(HEAD_WORDS) {
            None => HEAD_BOUNDS[at],
            Some(at) => *ROW_BOUNDS.get(at % row_words).unwrap_or(&MAX_MW),
        };
        for value in values(ledger[at], bound) {
            spoilt[at] = value;
            ground.act_on(run, &spoilt, action)?;
            run.open_words(&spoilt)?;
        }
        // Soundness by itself, and what is read out.
        for value in [bound, bound + 1] {
            spoilt[at] = value;
            ground.act_on(run, &spoilt, &NO_KIND)?;
            run.read_out(&Twice::new(&spoilt), 1)?;
        }
        spoilt[at] = ledger[at];
    }
    // Every kind on an unsound ledger.
    spoilt[HEAD_ZERO] = 1;
    for kind in 0..=POST + 1 {
        ground.act_on(run, &spoilt, &Action { kind, ..*action })?;
    }
    spoilt[HEAD_ZERO] = 0;
    // Base and hours at their common bound.
    for base in [END_HOUR - ledger[HOURS], END_HOUR - ledger[HOURS] + 1] {
        spoilt[BASE] = base;
        ground.act_on(run, &spoilt, action)?;
    }
    Ok(())
}

/// Postings of other lengths, and words of them at their bound and over.
fn spoil_postings(
    run: &mut Run,
    rng: &mut Rng,
    ground: &Ground,
    action: &Action,
) -> Result<(), Difference> {
    let postings = &ground.postings;
    let hours = ground.ledger[HOURS] as usize;
    let mut grown = postings.to_vec();
    grown.extend([0; MAX_PATH as usize + 1]);
    let kinds = (0..=POST + 1).map(|kind| Action { kind, ..*action });
    let by_none = Action { actor: 0, ..*action };
    let actions: Vec<Action> = kinds.chain([*action, by_none, NO_KIND]).collect();
    let len = postings.len();
    for length in [0, 1, hours, len - 64, len - 1, len + 1, len + 64, len + 65] {
        for action in &actions {
            ground.act_under(run, &grown[..length], action)?;
        }
    }
    let mut spoilt = postings.to_vec();
    for at in [0, len - 1, rng.below(len as u32) as usize] {
        spoilt[at] = MAX_MW + 1;
        for action in &actions {
            ground.act_under(run, &spoilt, action)?;
        }
        spoilt[at] = postings[at];
    }
    for at in PATHS.into_iter().flat_map(|path| posted(path, hours)) {
        for value in values(postings[at], MAX_MW) {
            spoilt[at] = value;
            ground.act_under(run, &spoilt, action)?;
        }
        spoilt[at] = postings[at];
    }
    Ok(())
}

fn spoil_action(run: &mut Run, ground: &Ground, action: &Action) -> Result<(), Difference> {
    for (field, bound) in ACTION_BOUNDS.into_iter().enumerate() {
        let mut spoilt = *action;
        let old = *fields_mut(&mut spoilt)[field];
        for value in values(old, bound).into_iter().chain(3..18) {
            *fields_mut(&mut spoilt)[field] = value;
            ground.act(run, &spoilt)?;
        }
    }
    // The ledger's own flags, with and without those of a submission.
    for own in [APPROVED, GRANTED_GIVEN, OFFER_GIVEN, COUNTERED] {
        for flags in own..=own + PRECONFIRMED + COORDINATED {
            ground.act(run, &Action { flags, ..*action })?;
        }
    }
    // Two fields at once, one over their bound: which is told first?
    for one in 0..ACTION_BOUNDS.len() {
        for other in 0..one {
            let mut spoilt = *action;
            for field in [one, other] {
                *fields_mut(&mut spoilt)[field] = ACTION_BOUNDS[field] + 1;
            }
            ground.act(run, &spoilt)?;
        }
    }
    // Only what a kind reads, and all else wild.
    let Action { kind, actor, reference, start, stop, offset, length, path, .. } = *action;
    let wild = Action { kind, actor, ..wild_action() };
    ground.act(run, &wild)?;
    ground.act(run, &Action { reference, ..wild })?;
    ground.act(run, &Action { path, start, stop, offset, length, ..wild })?;
    ground.act(run, &wild_action())
}

fn wild_action() -> Action {
    let mut action = Action::default();
    for field in fields_mut(&mut action) {
        *field = u32::MAX;
    }
    action
}

/// The slice of profiles cut short, empty, and longer, and profiles at its end.
fn spoil_slice(run: &mut Run, ground: &Ground, action: &Action) -> Result<(), Difference> {
    let words = &ground.words;
    ground.act_with(run, &[], action)?;
    if action.length == 0 || action.length > 744 {
        return Ok(());
    }
    let first = action.offset as usize;
    let end = first + action.length as usize;
    if end > words.len() {
        return Ok(());
    }
    ground.act_with(run, &words[..end - 1], action)?;
    let mut longer = words.to_vec();
    longer.extend([MAX_MW + 1, u32::MAX]);
    ground.act_with(run, &longer, action)?;
    for offset in [words.len() as u32, u32::MAX - action.length + 1, u32::MAX] {
        ground.act(run, &Action { offset, ..*action })?;
    }
    // Each word at its bound and over, and the profile all 0.
    for at in first..end {
        let mut changed = words.to_vec();
        for value in values(words[at], MAX_MW) {
            changed[at] = value;
            ground.act_with(run, &changed, action)?;
        }
    }
    let mut none = words.to_vec();
    none[first..end].fill(0);
    ground.act_with(run, &none, action)
}

/// Ledgers of every short length, cut or grown ones, and words of no ledger.
fn damage(
    run: &mut Run,
    rng: &mut Rng,
    ground: &Ground,
    action: &Action,
) -> Result<(), Difference> {
    let ledger = &ground.ledger;
    let len = ledger.len();
    let row_words = row_words(ledger[HOURS], PROFILES);
    let mut grown = ledger.to_vec();
    grown.extend(vec![0; row_words]);
    // A row more or less among them.
    let others = [len - row_words, len - 1, len + 1, len + FIELD_WORDS, len + row_words];
    for length in (0..=12).chain(others) {
        ground.act_on(run, &grown[..length], action)?;
        run.read_out(&Twice::new(&grown[..length]), 1)?;
        run.open_words(&grown[..length])?;
        let noise: Vec<u32> = (0..length).map(|_| rng.pick(&[0, 1, 2, 3, u32::MAX])).collect();
        ground.act_on(run, &noise, action)?;
        run.read_out(&Twice::new(&noise), 1)?;
        run.open_words(&noise)?;
    }
    for profiles in [PROFILES - 1, PROFILES + 1] {
        let other = laid_out(ledger, PROFILES, profiles);
        ground.act_on(run, &other, action)?;
        ground.act_on(run, &other, &NO_KIND)?;
        run.read_out(&Twice::new(&other), 1)?;
        run.open_words(&other)?;
    }
    // The head of the greatest ledger, and one whose length wraps 32 bits, over few words.
    for (rows, hours) in [(MAX_ROWS, MAX_HOURS), (1 << 28, 0), (1 << 30, u32::MAX), (0, 0)] {
        let head = [rows, hours, 1, 1, 0, 0, 0, 0];
        ground.act_on(run, &head, action)?;
        run.open_words(&head)?;
    }
    Ok(())
}

/// Creation at every bound and one over, over slices of the right and wrong length.
pub fn creations(run: &mut Run) -> Result<(), Difference> {
    let good = [2, 3, 1, 3_600, 0];
    let bounds = [MAX_ROWS, MAX_HOURS, MAX_ENTITY, MAX_WINDOW, END_HOUR];
    let with = |profiles: usize, rows: u32, hours: u32| {
        length_with(profiles, rows.min(MAX_ROWS + 1), hours.min(MAX_HOURS + 1))
    };
    let full = |rows: u32, hours: u32| with(PROFILES, rows, hours);
    for at in 0..5 {
        for value in values(good[at], bounds[at]) {
            let mut numbers = good;
            numbers[at] = value;
            let [rows, hours, ..] = numbers;
            let len = full(rows, hours);
            let fewer = with(PROFILES - 1, rows, hours);
            let more = with(PROFILES + 1, rows, hours);
            for len in [len, len + 1, len.saturating_sub(1), fewer, more, 0, 7, 8] {
                run.create(&vec![9; len], numbers)?;
            }
        }
    }
    for (hours, base) in
        [(1, END_HOUR - 1), (1, END_HOUR), (744, END_HOUR - 744), (744, END_HOUR - 743)]
    {
        run.create(&vec![9; full(1, hours)], [1, hours, 1, 1, base])?;
    }
    let (number, _) = run.create(&vec![9; full(MAX_ROWS, MAX_HOURS)], bounds_of_creation())?;
    assert_eq!(number, 0, "the greatest ledger is created");
    Ok(())
}

/// Ledgers of every size at its bound and one over, of the length that goes with it.
pub fn sizes(run: &mut Run) -> Result<(), Difference> {
    for (rows, hours) in
        [(0, 1), (1, 0), (0, 0), (1, 1), (1_024, 1), (1_025, 1), (1, 744), (1, 745), (1_025, 745)]
    {
        let mut words = vec![0; ledger_words(rows, hours)];
        words[..4].copy_from_slice(&[rows, hours, 1, 1]);
        let mut desk = Desk::new(&words, &vec![0; posting_words(hours)]);
        let answer = run.act(&mut desk, &[], &NO_KIND)?;
        let fits = (1..=MAX_ROWS).contains(&rows) && (1..=MAX_HOURS).contains(&hours);
        assert_eq!(answer.number, if fits { BAD_CODE } else { BAD_LEDGER });
        assert_eq!(run.open(&desk.ledger)?, if fits { 0 } else { BAD_LEDGER });
        let clock = Action { kind: CLOCK, actor: 1, time: 5, ..NO_KIND };
        assert_eq!(run.act(&mut desk, &[], &clock)?.number, if fits { 0 } else { BAD_LEDGER });
        run.read_out(&desk.ledger, 1)?;
    }
    Ok(())
}

/// Reductions of a CONFIRMED row of two hours, with each of several numbers for
/// available, reduced and the profile in each hour. What must come is worked out
/// here once more.
pub fn reductions(run: &mut Run) -> Result<(), Difference> {
    let two = |of: &[u32]| -> Vec<[u32; 2]> {
        of.iter().flat_map(|&one| of.iter().map(move |&other| [one, other])).collect()
    };
    let profiles = two(&[0, 1, 40, MAX_MW]);
    for available in two(&[0, 1, 40, MAX_MW]) {
        for reduced in two(&[0, MAX_MW - 40, MAX_MW - 1, MAX_MW]) {
            let ledger = one_row(available, reduced);
            for profile in &profiles {
                reduction(run, &ledger, available, reduced, *profile).map_err(|difference| {
                    format!("reductions of {available:?}, reduced {reduced:?}: {difference}")
                })?;
            }
        }
    }
    Ok(())
}

/// A ledger of three hours with a CONFIRMED original in the last two.
pub fn one_row(available: [u32; 2], reduced: [u32; 2]) -> Vec<u32> {
    let mut ledger = vec![0; ledger_words(1, 3)];
    assert_eq!(create(&mut ledger, 1, 3, 1, 1, 0), 0);
    ledger[USED] = 1;
    let row = Row::of(&ledger, 1);
    for (field, word) in [
        (TYPE, ORIGINAL_FIRM),
        (STATUS, CONFIRMED),
        (CUSTOMER, 10),
        (SELLER, 1),
        (START, 1),
        (STOP, 3),
        (PATH, 1),
    ] {
        row.set(&mut ledger, field, word);
    }
    for (profile, words) in [(AVAILABLE, available), (REDUCED_MW, reduced)] {
        let span = row.span(&ledger, profile);
        ledger[span].copy_from_slice(&words);
    }
    ledger
}

fn reduction(
    run: &mut Run,
    ledger: &[u32],
    available: [u32; 2],
    reduced: [u32; 2],
    profile: [u32; 2],
) -> Result<(), Difference> {
    let either = |test: fn(u32, u32) -> bool, has: [u32; 2]| {
        test(has[0], profile[0]) || test(has[1], profile[1])
    };
    let number = if profile == [0, 0] {
        BAD_PROFILE
    } else if either(|has, mw| has < mw, available) {
        SHORT
    } else if either(|has, mw| mw > MAX_MW - has, reduced) {
        BAD_LEDGER
    } else {
        0
    };
    let mut desk = Desk::new(ledger, &vec![0; posting_words(3)]);
    let action = Action { kind: REDUCE, actor: 1, reference: 1, length: 2, ..NO_KIND };
    let answer = run.act(&mut desk, &profile, &action)?;
    assert_eq!(answer.number, number, "{profile:?} of {available:?} and {reduced:?}");
    let mut left = one_row(available, reduced);
    if number == 0 {
        let less = [available[0] - profile[0], available[1] - profile[1]];
        let more = [reduced[0] + profile[0], reduced[1] + profile[1]];
        left = one_row(less, more);
        let moved = profile[0] + profile[1];
        assert_eq!(answer, Answer { number, reference: 1, before: 13, after: 13, moved });
    }
    assert_eq!(desk.ledger(), left, "{profile:?} of {available:?} and {reduced:?}");
    Ok(())
}

/// Withdrawals and offers of a row at every status, with all flags and one over. What
/// must come of them is worked out here once more, as far as the flags go.
pub fn withdrawals(run: &mut Run) -> Result<(), Difference> {
    for status in QUEUED..=RETRACTED {
        for flags in 0..=MAX_FLAGS + 1 {
            withdrawal(run, status, flags)
                .and_then(|()| offers(run, status, flags))
                .map_err(|told| format!("withdrawals at {status} with flags {flags}: {told}"))?;
        }
    }
    Ok(())
}

/// An original without megawatts, at any status and with any flags.
fn flagged_row(status: u32, flags: u32) -> Vec<u32> {
    let mut ledger = one_row([0, 0], [0, 0]);
    let row = Row::of(&ledger, 1);
    row.set(&mut ledger, STATUS, status);
    row.set(&mut ledger, FLAGS, flags);
    ledger
}

fn withdrawal(run: &mut Run, status: u32, flags: u32) -> Result<(), Difference> {
    let held = flags & PRECONFIRMED != 0 && flags & COUNTERED == 0;
    let from: &[u32] = if held { &[6, 7, 11] } else { &[1, 3, 4, 6, 7, 8, 10, 11] };
    let expected = match (flags, from.contains(&status)) {
        (64.., _) => Answer::refused(BAD_LEDGER),
        (_, true) => Answer { number: 0, reference: 1, before: status, after: 14, moved: 0 },
        (_, false) => Answer::refused(BAD_MOVE),
    };
    let mut desk = Desk::new(&flagged_row(status, flags), &vec![0; posting_words(3)]);
    let withdraw =
        Action { kind: CUSTOMER_STATUS, actor: 10, reference: 1, status: WITHDRAWN, ..NO_KIND };
    assert_eq!(run.act(&mut desk, &[], &withdraw)?, expected, "{status} with flags {flags}");
    let left = if expected.number == 0 { WITHDRAWN } else { status };
    assert_eq!(desk.ledger(), flagged_row(left, flags), "{status} with flags {flags}");
    Ok(())
}

/// An offer notes that it was given, a counteroffer itself, and an acceptance that
/// granted was given, by the copy at least.
fn offers(run: &mut Run, status: u32, flags: u32) -> Result<(), Difference> {
    for (offer, noted) in [(6, 16 | 32), (7, 16 | 32), (10, 16 | 8), (11, 16 | 8)] {
        let mut desk = Desk::new(&flagged_row(status, flags), &vec![0; posting_words(3)]);
        let action =
            Action { kind: SELLER_STATUS, actor: 1, reference: 1, status: offer, ..NO_KIND };
        let accepted = run.act(&mut desk, &[], &action)?.number == 0;
        let left = Row::of(desk.ledger(), 1).get(desk.ledger(), FLAGS);
        let expected = if accepted { flags | noted } else { flags };
        assert_eq!(left, expected, "{offer} from {status} with flags {flags}");
    }
    Ok(())
}

fn bounds_of_creation() -> [u32; 5] {
    [MAX_ROWS, MAX_HOURS, MAX_ENTITY, MAX_WINDOW, END_HOUR - MAX_HOURS]
}
