//! Opening: ledgers that lists left, foreign ones made to balance, any sound ones, and
//! all of these damaged; the day at the desk word by word; chains and wide ledgers of
//! 1,024 rows; slices of every length and words of no ledger.

use luddrisa_model::*;

use crate::dense::sound_ledger;
use crate::lists::{list, with_profile, Words};
use crate::rng::Rng;
use crate::run::{Desk, Difference, Run};

/// What a row holds of its megawatts.
const HELD: [usize; 3] = [AVAILABLE, DISPLACED_MW, REDUCED_MW];

/// What the balance looks at.
const BALANCED: [usize; 4] = [GRANTED, AVAILABLE, DISPLACED_MW, REDUCED_MW];

/// Keeps these numbers apart from those of the other generators.
const OWN_NUMBERS: u64 = 0x6f70_656e_696e_6773;

/// What is done to a ledger before it is opened.
#[derive(Clone, Copy, Debug, PartialEq, Eq, PartialOrd, Ord)]
pub enum Damage {
    /// A word of granted, available, displaced or reduced goes up or down by one.
    ByOne,
    /// A megawatt goes from one hour of a profile to another.
    BetweenHours,
    /// A megawatt goes from one row of a tree to another, in the same hour.
    BetweenRows,
    /// A megawatt goes from one of available, displaced and reduced to another.
    WithinRow,
    /// A row at 13 goes to 15, or back.
    Standing,
    /// A row at 13 or 15 goes to 16 or 1, or back.
    Status,
    Type,
    Related,
    /// A word that the balance does not look at, within its bounds.
    Elsewhere,
    /// A word out of its bounds, or outside a row's span.
    Unsound,
}

impl Damage {
    pub const ALL: [Damage; 10] = [
        Damage::ByOne,
        Damage::BetweenHours,
        Damage::BetweenRows,
        Damage::WithinRow,
        Damage::Standing,
        Damage::Status,
        Damage::Type,
        Damage::Related,
        Damage::Elsewhere,
        Damage::Unsound,
    ];

    /// The numbers that a sound ledger so damaged can give.
    pub fn numbers(self) -> &'static [u32] {
        match self {
            Damage::ByOne | Damage::Type | Damage::Related => &[0, BAD_LEDGER, UNBALANCED],
            Damage::Unsound => &[BAD_LEDGER],
            _ => &[0, UNBALANCED],
        }
    }

    /// True where a ledger opens as it did before.
    fn is_harmless(self) -> bool {
        matches!(self, Damage::WithinRow | Damage::Standing | Damage::Elsewhere)
    }
}

/// So many ledgers of each sort, each damaged in several ways.
pub fn openings(run: &mut Run, seed: u64, count: u32) -> Result<(), Difference> {
    for number in 0..count {
        let seed = seed + u64::from(number);
        let rng = &mut Rng::new(seed ^ OWN_NUMBERS);
        one_opening(run, rng)
            .map_err(|difference| format!("openings, seed {seed}: {difference}"))?;
    }
    Ok(())
}

fn one_opening(run: &mut Run, rng: &mut Rng) -> Result<(), Difference> {
    let length = rng.from_to(10, 80);
    let left = list(run, rng, length)?.desk.ledger().to_vec();
    let made = balanced_ledger(rng, 12, 4);
    if run.open_words(&made)? != 0 {
        return Err("a ledger made to balance does not open".into());
    }
    let any = sound_ledger(rng, 7, 4);
    for ledger in [&left, &made, &made, &any] {
        damages(run, rng, ledger)?;
    }
    lengths(run, rng, &made)?;
    noise(run, rng)
}

fn damages(run: &mut Run, rng: &mut Rng, ledger: &[u32]) -> Result<(), Difference> {
    let before = run.open_words(ledger)?;
    for damage in Damage::ALL {
        let mut damaged = ledger.to_vec();
        if !apply(rng, &mut damaged, damage) {
            continue;
        }
        let number = run.open_words(&damaged).map_err(|told| format!("{damage:?}: {told}"))?;
        run.reached.note_damage(damage, number);
        if damage.is_harmless() && number != before {
            return Err(format!("{damage:?}: opens with {number}, before with {before}"));
        }
        // And another upon it.
        let other = rng.pick(&Damage::ALL);
        if number != BAD_LEDGER && apply(rng, &mut damaged, other) {
            run.open_words(&damaged).map_err(|told| format!("{damage:?}, {other:?}: {told}"))?;
        }
    }
    Ok(())
}

/// The place of a profile's word in an hour.
fn at(row: Row, profile: usize, hour: u32) -> usize {
    row.profile(profile).start + hour as usize
}

fn hour_of(rng: &mut Rng, ledger: &[u32], row: Row) -> u32 {
    rng.from_to(row.get(ledger, START), row.get(ledger, STOP) - 1)
}

/// Moves a megawatt from one word to another, where there is one and room for it.
fn move_one(ledger: &mut [u32], from: usize, to: usize) -> bool {
    let moves = from != to && ledger[from] > 0 && ledger[to] < MAX_MW;
    if moves {
        ledger[from] -= 1;
        ledger[to] += 1;
    }
    moves
}

fn original_of(ledger: &[u32], mut reference: u32) -> u32 {
    loop {
        match Row::of(ledger, reference).get(ledger, RELATED) {
            0 => return reference,
            related => reference = related,
        }
    }
}

/// Damages a sound ledger; false where this one can't be so.
fn apply(rng: &mut Rng, ledger: &mut [u32], damage: Damage) -> bool {
    if ledger[USED] == 0 {
        return false;
    }
    let reference = rng.from_to(1, ledger[USED]);
    let row = Row::of(ledger, reference);
    let hour = hour_of(rng, ledger, row);
    let status = row.get(ledger, STATUS);
    match damage {
        Damage::ByOne => {
            let word = &mut ledger[at(row, rng.pick(&BALANCED), hour)];
            // Below 0 it is out of its bounds.
            let down = rng.chance(50) && (*word > 0 || rng.chance(10));
            *word = if down { word.wrapping_sub(1) } else { *word + 1 };
            true
        }
        Damage::BetweenHours => {
            let profile = rng.pick(&BALANCED);
            let other = hour_of(rng, ledger, row);
            move_one(ledger, at(row, profile, hour), at(row, profile, other))
        }
        Damage::BetweenRows => {
            let original = original_of(ledger, reference);
            let in_tree = |other: &u32| {
                let row = Row::of(ledger, *other);
                let hours = row.get(ledger, START)..row.get(ledger, STOP);
                *other != reference
                    && original_of(ledger, *other) == original
                    && hours.contains(&hour)
            };
            let others: Vec<u32> = (1..=ledger[USED]).filter(in_tree).collect();
            let held: Vec<usize> = HELD.map(|profile| at(row, profile, hour)).to_vec();
            let Some(&from) = held.iter().find(|&&word| ledger[word] > 0) else { return false };
            if others.is_empty() {
                return false;
            }
            let other = Row::of(ledger, rng.pick(&others));
            move_one(ledger, from, at(other, rng.pick(&HELD), hour))
        }
        Damage::WithinRow => {
            let [from, to] = [rng.pick(&HELD), rng.pick(&HELD)];
            move_one(ledger, at(row, from, hour), at(row, to, hour))
        }
        Damage::Standing => {
            let other = match status {
                CONFIRMED => DISPLACED,
                DISPLACED => CONFIRMED,
                _ => return false,
            };
            row.set(ledger, STATUS, other);
            true
        }
        Damage::Status => {
            let others = match status {
                CONFIRMED | DISPLACED => [ANNULLED, QUEUED],
                _ => [CONFIRMED, DISPLACED],
            };
            row.set(ledger, STATUS, rng.pick(&others));
            true
        }
        Damage::Type => {
            let reqtype = rng.from_to(ORIGINAL_FIRM, RELINQUISH);
            let changes = reqtype != row.get(ledger, TYPE);
            row.set(ledger, TYPE, reqtype);
            changes
        }
        Damage::Related => {
            let related = rng.below(ledger[USED] + 1);
            let changes = related != row.get(ledger, RELATED);
            row.set(ledger, RELATED, related);
            changes
        }
        Damage::Elsewhere => elsewhere(rng, ledger, row, hour),
        Damage::Unsound => unsound(rng, ledger, row, hour),
    }
}

fn elsewhere(rng: &mut Rng, ledger: &mut [u32], row: Row, hour: u32) -> bool {
    let (place, bound) = rng.pick(&[
        (PROVIDER, MAX_ENTITY),
        (WINDOW, MAX_WINDOW),
        (NOW, END_SECOND - 1),
        (row.at + CUSTOMER, MAX_ENTITY),
        (row.at + SELLER, MAX_ENTITY),
        (row.at + FLAGS, MAX_FLAGS),
        (row.at + BID, MAX_PRICE),
        (row.at + OFFER, MAX_PRICE),
        (row.at + LIMIT, END_LIMIT - 1),
        (row.at + PATH, MAX_PATH),
        (at(row, REQUESTED, hour), MAX_MW),
    ]);
    ledger[place] = rng.from_to(1, bound);
    true
}

fn unsound(rng: &mut Rng, ledger: &mut [u32], row: Row, hour: u32) -> bool {
    let any_profile = rng.below(PROFILES as u32) as usize;
    let (start, stop) = (row.get(ledger, START), row.get(ledger, STOP));
    // An hour outside the span, if there is one.
    let outside = (0..ledger[HOURS]).find(|hour| !(start..stop).contains(hour));
    let unused = ledger_words(ledger[USED], ledger[HOURS]);
    let (place, word) = match rng.below(12) {
        0 => (HEAD_ZERO, 1),
        1 => (NOW, END_SECOND),
        2 => (USED, ledger[ROWS] + 1),
        3 => (row.at + TYPE, RELINQUISH + 1),
        4 => (row.at + STATUS, RETRACTED + 1),
        5 => (row.at + STOP, start),
        6 => (row.at + FLAGS, MAX_FLAGS + 1),
        7 => (row.at + PATH, 0),
        8 => (row.at + RELATED, ledger[USED] + 1),
        9 if unused < ledger.len() => (unused + rng.below(16) as usize, 1),
        10 if outside.is_some() => (at(row, any_profile, outside.unwrap_or(0)), 1),
        _ => (at(row, any_profile, hour), rng.pick(&[MAX_MW + 1, u32::MAX])),
    };
    ledger[place] = word;
    true
}

/// A foreign ledger that opens by the way it is made: rows of any type and status, each
/// granted no more than its related row has left, and then what is left shared out
/// among available, displaced and reduced.
pub fn balanced_ledger(rng: &mut Rng, most_rows: u32, most_hours: u32) -> Vec<u32> {
    let used = rng.from_to(1, most_rows);
    let rows = used + rng.below(2);
    let hours = rng.from_to(1, most_hours);
    let mut ledger = vec![0; ledger_words(rows, hours)];
    assert_eq!(create(&mut ledger, rows, hours, 1, 3_600, 0), 0);
    let most = rng.pick(&[3, 100, MAX_MW]);
    // By reference: what is left of granted, hour by hour.
    let mut left: Vec<Vec<u32>> = vec![Vec::new()];
    let mut owing = None;
    for reference in 1..=used {
        ledger[USED] = reference;
        owing = fill_row(rng, &mut ledger, reference, most, owing, &mut left);
    }
    // A redirect that nobody gave back ends its ledger: it was granted nothing.
    if let Some(redirect) = owing {
        let row = Row::of(&ledger, redirect);
        ledger[row.profile(GRANTED)].fill(0);
        left[redirect as usize].fill(0);
    }
    for reference in 1..=used {
        share_out(rng, &mut ledger, reference, most, &left);
    }
    assert!(sound(&ledger), "a ledger made to balance is sound");
    ledger
}

fn stands(ledger: &[u32], reference: u32) -> bool {
    reference != 0
        && matches!(Row::of(ledger, reference).get(ledger, STATUS), CONFIRMED | DISPLACED)
}

/// The next row. `owing` is a redirect of a row that does not stand, in a tree that is
/// added up: all that it has left must be given back, by the row that comes next.
fn fill_row(
    rng: &mut Rng,
    ledger: &mut [u32],
    reference: u32,
    most: u32,
    owing: Option<u32>,
    left: &mut Vec<Vec<u32>>,
) -> Option<u32> {
    let hours = ledger[HOURS];
    let wish = rng.pick(&[1, 2, 3, 3, 3, 4, 4, 5, 5, 5, 6, 7, 8, 8, 8, 8]);
    let fits = |above: &u32| {
        let of = Row::of(ledger, *above).get(ledger, TYPE);
        match wish {
            ORIGINAL_FIRM | ORIGINAL_NON_FIRM => false,
            RELINQUISH => of == REDIRECT_NON_FIRM,
            _ => of != REDIRECT_NON_FIRM && of != RELINQUISH,
        }
    };
    let above: Vec<u32> = (1..reference).filter(fits).collect();
    let (reqtype, related) = match (owing, above.is_empty()) {
        (Some(redirect), _) => (RELINQUISH, redirect),
        (None, true) => (rng.from_to(ORIGINAL_FIRM, ORIGINAL_NON_FIRM), 0),
        (None, false) => (wish, above[rng.late(above.len())]),
    };
    let status = if owing.is_some() || rng.chance(if related == 0 { 85 } else { 70 }) {
        rng.pick(&[CONFIRMED, CONFIRMED, DISPLACED])
    } else {
        rng.pick(&[QUEUED, STUDY, ACCEPTED, WITHDRAWN, ANNULLED, ANNULLED, ANNULLED])
    };
    let (mut start, mut stop) = (0, hours);
    if related != 0 {
        let above = Row::of(ledger, related);
        (start, stop) = (above.get(ledger, START), above.get(ledger, STOP));
    }
    if owing.is_none() && rng.chance(40) {
        start = rng.from_to(start, stop - 1);
        stop = rng.from_to(start + 1, stop);
    }
    let row = Row::of(ledger, reference);
    let fields = [reqtype, status, 10, 1, related, start, stop, 0, 0, 0, 0, 1];
    ledger[row.at..row.at + fields.len()].copy_from_slice(&fields);

    let added_up = stands(ledger, original_of(ledger, reference));
    let takes = stands(ledger, reference) && related != 0;
    let from_a_standing = stands(ledger, related);
    let owes = takes && !from_a_standing && added_up && reqtype != RELINQUISH;
    left.push(vec![0; hours as usize]);
    let takes_all = owing.is_some() || rng.chance(20);
    for hour in start..stop {
        let bound = match (takes && from_a_standing, owes) {
            (true, _) => left[related as usize][hour as usize],
            (_, true) if reqtype != REDIRECT_NON_FIRM => 0,
            _ => most,
        };
        let granted = if takes_all { bound } else { rng.from_to(0, bound) };
        ledger[at(row, GRANTED, hour)] = granted;
        if takes && from_a_standing {
            left[related as usize][hour as usize] -= granted;
            let above = Row::of(ledger, related).get(ledger, RELATED);
            if reqtype == RELINQUISH && stands(ledger, above) {
                left[above as usize][hour as usize] += granted;
            }
        }
        if stands(ledger, reference) && reqtype != RELINQUISH {
            left[reference as usize][hour as usize] = granted;
        }
    }
    (owes && reqtype == REDIRECT_NON_FIRM).then_some(reference)
}

/// What is left goes into the words that a row holds. Relinquish records and rows that
/// do not stand hold nothing, unless their tree is not added up.
fn share_out(rng: &mut Rng, ledger: &mut [u32], reference: u32, most: u32, left: &[Vec<u32>]) {
    let row = Row::of(ledger, reference);
    let has_equation = stands(ledger, reference) && row.get(ledger, TYPE) != RELINQUISH;
    let added_up = stands(ledger, original_of(ledger, reference));
    let untouched = rng.chance(30);
    for hour in row.get(ledger, START)..row.get(ledger, STOP) {
        if has_equation {
            let mut rest = left[reference as usize][hour as usize];
            for profile in [DISPLACED_MW, REDUCED_MW] {
                let part = if untouched { 0 } else { rng.from_to(0, rest) };
                ledger[at(row, profile, hour)] = part;
                rest -= part;
            }
            ledger[at(row, AVAILABLE, hour)] = rest;
        } else if !added_up && !untouched {
            for profile in HELD {
                ledger[at(row, profile, hour)] = rng.from_to(0, most);
            }
        }
    }
}

/// Slices of every length up to the ledger's and beyond.
fn lengths(run: &mut Run, rng: &mut Rng, ledger: &[u32]) -> Result<(), Difference> {
    let mut grown = ledger.to_vec();
    grown.extend([0; 40]);
    let last = grown.len() as u32;
    let some = (0..12).map(|_| rng.from_to(0, last) as usize).collect::<Vec<_>>();
    let near = ledger.len() - 2..ledger.len() + 3;
    for length in (0..HEAD_WORDS + 3).chain(some).chain(near) {
        let number = run.open_words(&grown[..length])?;
        assert_eq!(number == BAD_LEDGER, length != ledger.len(), "length {length}");
    }
    Ok(())
}

/// Words of no ledger, and a good head before any words.
fn noise(run: &mut Run, rng: &mut Rng) -> Result<(), Difference> {
    let length = rng.from_to(0, 120) as usize;
    let noise: Vec<u32> = (0..length).map(|_| rng.draw() as u32).collect();
    run.open_words(&noise)?;
    let small: Vec<u32> = (0..length).map(|_| rng.pick(&[0, 1, 2, 3, u32::MAX])).collect();
    run.open_words(&small)?;
    let (rows, hours) = (rng.from_to(1, 3), rng.from_to(1, 3));
    let mut words: Vec<u32> = (0..ledger_words(rows, hours)).map(|_| rng.below(4)).collect();
    words[..HEAD_WORDS].copy_from_slice(&[rows, hours, 1, 1, 0, 0, rng.below(rows + 1), 0]);
    run.open_words(&words)?;
    Ok(())
}

/// A small ledger cut to every length.
pub fn every_length(run: &mut Run) -> Result<(), Difference> {
    let day = day(run)?;
    for length in 0..day.len() {
        assert_eq!(run.open_words(&day[..length])?, BAD_LEDGER, "length {length}");
    }
    assert_eq!(run.open_words(&day)?, 0);
    for more in 1..=day.len() {
        let mut grown = day.clone();
        grown.resize(day.len() + more, 0);
        assert_eq!(run.open_words(&grown)?, BAD_LEDGER, "{more} words more");
    }
    Ok(())
}

// Made by actions.

fn seller(actor: u32, reference: u32, status: u32, price: u32) -> Action {
    Action { kind: SELLER_STATUS, actor, reference, status, price, ..Action::default() }
}

fn submitted(words: &mut Words, action: Action, hours: [u32; 2], profile: &[u32]) -> Action {
    let [start, stop] = hours;
    with_profile(words, Action { kind: SUBMIT, start, stop, ..action }, profile)
}

fn posted_in_full(words: &mut Words, path: u32, hours: u32, mw: u32) -> Action {
    let action = Action { kind: POST, actor: 1, path, stop: hours, ..Action::default() };
    with_profile(words, action, &vec![mw; hours as usize])
}

/// Document 01's day at the desk, with the two postings beforehand.
fn day_list(words: &mut Words) -> [Action; 16] {
    let none = Action::default();
    let by_holder = Action { actor: 10, seller: 1, path: 1, ..none };
    let resale = Action { reqtype: RESALE, seller: 10, related: 1, flags: 1, path: 1, ..none };
    [
        posted_in_full(words, 1, 4, 100),
        posted_in_full(words, 2, 4, 100),
        submitted(words, Action { reqtype: 1, price: 500, ..by_holder }, [0, 4], &[100; 4]),
        seller(1, 1, ACCEPTED, 500),
        Action {
            kind: CUSTOMER_STATUS,
            actor: 10,
            reference: 1,
            status: CONFIRMED,
            price: 500,
            ..none
        },
        submitted(words, Action { actor: 20, price: 700, ..resale }, [1, 3], &[40, 60]),
        seller(10, 2, ACCEPTED, 700),
        submitted(
            words,
            Action { reqtype: REDIRECT_NON_FIRM, related: 1, flags: 1, path: 2, ..by_holder },
            [2, 4],
            &[40, 50],
        ),
        seller(1, 3, ACCEPTED, 0),
        submitted(words, Action { actor: 30, ..resale }, [2, 3], &[1]),
        seller(10, 4, ACCEPTED, 0),
        seller(1, 1, DISPLACED, 0),
        submitted(
            words,
            Action { reqtype: RELINQUISH, related: 3, flags: 1, path: 2, ..by_holder },
            [3, 4],
            &[20],
        ),
        seller(1, 5, ACCEPTED, 0),
        seller(10, 2, ANNULLED, 0),
        seller(1, 3, ANNULLED, 0),
    ]
}

/// What the day leaves after so many of its actions, opened after each.
pub(crate) fn day_after(run: &mut Run, actions: usize) -> Result<Desk, Difference> {
    let words = &mut Words::new();
    let list = day_list(words);
    let mut desk = run.fresh([8, 4, 1, 3_600, 0])?;
    let mut numbers = Vec::new();
    for action in &list[..2 + actions] {
        numbers.push(run.act(&mut desk, words, action)?.number);
        run.opens(&desk.ledger)?;
    }
    let all = [0, 0, 0, 0, 0, 0, 0, 0, 0, 0, 14, 0, 0, 0, 0, 15];
    assert_eq!(numbers, all[..2 + actions]);
    Ok(desk)
}

/// The ledger that the whole day leaves.
pub fn day(run: &mut Run) -> Result<Vec<u32>, Difference> {
    Ok(day_after(run, 14)?.ledger().to_vec())
}

/// How many ledgers opened with 0, 1 and 20.
#[derive(Clone, Copy, Debug, Default, PartialEq, Eq)]
pub struct Opened {
    pub well: u32,
    pub unsound: u32,
    pub unbalanced: u32,
}

impl Opened {
    fn note(&mut self, number: u32) {
        match number {
            0 => self.well += 1,
            BAD_LEDGER => self.unsound += 1,
            _ => self.unbalanced += 1,
        }
    }
}

/// Each word that the balance looks at, in some rows, one up and one down. A 0 goes down
/// to the greatest word.
pub fn word_by_word(
    run: &mut Run,
    ledger: &[u32],
    references: &[u32],
) -> Result<[Opened; 2], Difference> {
    let mut opened = [Opened::default(); 2];
    let mut changed = ledger.to_vec();
    for &reference in references {
        for profile in BALANCED {
            for place in Row::of(ledger, reference).profile(profile) {
                let word = ledger[place];
                for (opened, word) in
                    opened.iter_mut().zip([word.wrapping_add(1), word.wrapping_sub(1)])
                {
                    changed[place] = word;
                    opened.note(run.open_words(&changed)?);
                }
                changed[place] = word;
            }
        }
    }
    Ok(opened)
}

/// The day at the desk, word by word. By hand, of the 16 words of each of five rows,
/// hours outside the span being a 1 whichever way they go:
///
/// | row | hours | up | down |
/// |---|---|---|---|
/// | 1 original at 15 | 4 | 16 × 20 | granted and displaced 8 × 20, 8 × 1 |
/// | 2 resale at 16 | 2 | held 6 × 20, granted 2 × 0, 8 × 1 | granted 2 × 0, 14 × 1 |
/// | 3 redirect at 13 | 2 | 8 × 20, 8 × 1 | granted and available 4 × 20, 12 × 1 |
/// | 4 resale at 1 | 1 | held 3 × 20, granted 1 × 0, 12 × 1 | nothing granted: 16 × 1 |
/// | 5 record at 13 | 1 | 4 × 20, 12 × 1 | granted 1 × 20, 15 × 1 |
pub fn day_word_by_word(run: &mut Run) -> Result<(), Difference> {
    let day = day(run)?;
    let [up, down] = word_by_word(run, &day, &[1, 2, 3, 4, 5])?;
    assert_eq!(up, Opened { well: 3, unsound: 40, unbalanced: 37 });
    assert_eq!(down, Opened { well: 2, unsound: 65, unbalanced: 13 });
    Ok(())
}

/// How the rows of a ledger are related.
#[derive(Clone, Copy, Debug)]
pub enum Shape {
    /// Each row a resale of the one before, which keeps 1 MW.
    Chain,
    /// All rows resales of 1 MW of the first.
    Wide,
}

/// A ledger of 1,024 rows over one hour, made by actions.
pub fn of_1_024_rows(run: &mut Run, shape: Shape) -> Result<Vec<u32>, Difference> {
    let words = &mut Words::new();
    let mut list = vec![posted_in_full(words, 1, 1, MAX_MW)];
    for reference in 1..=MAX_ROWS {
        let (related, mw) = match shape {
            Shape::Chain => (reference - 1, MAX_ROWS + 1 - reference),
            Shape::Wide if reference == 1 => (0, MAX_ROWS),
            Shape::Wide => (1, 1),
        };
        let (reqtype, from) = if related == 0 { (ORIGINAL_FIRM, 1) } else { (RESALE, 10) };
        let none = Action::default();
        let action =
            Action { actor: 10, reqtype, seller: from, related, flags: 1, path: 1, ..none };
        list.push(submitted(words, action, [0, 1], &[mw]));
        list.push(seller(from, reference, ACCEPTED, 0));
    }
    let mut desk: Desk = run.fresh([MAX_ROWS, 1, 1, 3_600, 0])?;
    let (_, answers) = run.batch(&mut desk, words, &list, list.len())?;
    assert!(answers.iter().all(|answer| answer.number == 0), "{shape:?}: all is accepted");
    let ledger = desk.ledger();
    for reference in 1..=MAX_ROWS {
        let row = Row::of(ledger, reference);
        assert_eq!(row.get(ledger, STATUS), CONFIRMED);
        assert_eq!(ledger[row.profile(AVAILABLE)], [1], "{shape:?}, {reference}");
    }
    run.opens(&desk.ledger)?;
    Ok(ledger.to_vec())
}

/// Ledgers of 1,024 rows, with a word changed in some of them, and a megawatt moved. In
/// each row 1 MW is available and something granted, nothing displaced or reduced: up
/// all four are a 20, down the first two, and the others are a 1.
pub fn of_many_rows(run: &mut Run) -> Result<(), Difference> {
    const SOME: [u32; 8] = [1, 2, 3, 511, 512, 700, 1_023, 1_024];
    for shape in [Shape::Chain, Shape::Wide] {
        let ledger = of_1_024_rows(run, shape)?;
        let [up, down] = word_by_word(run, &ledger, &SOME)?;
        assert_eq!(up, Opened { well: 0, unsound: 0, unbalanced: 4 * 8 }, "{shape:?}");
        assert_eq!(down, Opened { well: 0, unsound: 2 * 8, unbalanced: 2 * 8 }, "{shape:?}");
        for two in SOME.windows(2) {
            let mut moved = ledger.clone();
            let [from, to] = [two[0], two[1]].map(|n| Row::of(&ledger, n).profile(AVAILABLE).start);
            assert!(move_one(&mut moved, from, to));
            assert_eq!(run.open_words(&moved)?, UNBALANCED, "{shape:?}, {two:?}");
        }
    }
    Ok(())
}

/// The greatest ledger, full: resales of the first row over all hours.
pub(crate) fn greatest_ledger() -> Vec<u32> {
    let mut ledger = vec![0; ledger_words(MAX_ROWS, MAX_HOURS)];
    assert_eq!(create(&mut ledger, MAX_ROWS, MAX_HOURS, 1, 3_600, 0), 0);
    ledger[USED] = MAX_ROWS;
    for reference in 1..=MAX_ROWS {
        let row = Row::of(&ledger, reference);
        let (reqtype, related, granted, available) = match reference {
            1 => (ORIGINAL_FIRM, 0, MAX_MW, MAX_MW - 97 * (MAX_ROWS - 1)),
            _ => (RESALE, 1, 97, 97),
        };
        let fields = [reqtype, CONFIRMED, 10, 1, related, 0, MAX_HOURS, 0, 0, 0, 0, 1];
        ledger[row.at..row.at + fields.len()].copy_from_slice(&fields);
        ledger[row.profile(GRANTED)].fill(granted);
        ledger[row.profile(AVAILABLE)].fill(available);
    }
    ledger
}

/// The greatest ledger with its very last reduced word changed, and its last granted word.
pub fn greatest(run: &mut Run) -> Result<(), Difference> {
    let mut ledger = greatest_ledger();
    assert_eq!(run.open_words(&ledger)?, 0, "the greatest ledger opens");
    let last = Row::of(&ledger, MAX_ROWS);
    for profile in [REDUCED_MW, GRANTED] {
        let place = at(last, profile, MAX_HOURS - 1);
        ledger[place] += 1;
        assert_eq!(run.open_words(&ledger)?, UNBALANCED, "its last hour does not balance");
        ledger[place] -= 1;
    }
    Ok(())
}
