//! Desks that work in parallel: two actions in either order, on ledgers that lists with
//! contests leave. Trees and their paths are worked out apart from the model. The lists
//! are the model's whatever the subject, so that a difference is one of order alone.

use std::collections::{BTreeMap, BTreeSet};

use luddrisa_model::*;

use crate::contests::{alone, FEED};
use crate::dense::{on_row, postings_of, set_to_use};
use crate::lists::{disturb, reduction, step, Words, PATHS};
use crate::reached::{NO_KIND, PAIRS};
use crate::rng::Rng;
use crate::rules::{Model, Rules};
use crate::run::{Difference, UNWRITTEN};

/// Keeps these numbers apart from those of the lists.
const OWN_NUMBERS: u64 = 0x6465_736b_735f_3132;

/// Actions tried on one ledger, each with each.
const ACTIONS: usize = 10;

// Trees.

/// The original that a row is or descends from, where the reference names a row.
pub fn original_of(ledger: &[u32], reference: u32) -> Option<u32> {
    let mut above = Some(reference).filter(|named| (1..=ledger[USED]).contains(named))?;
    loop {
        match Row::of(ledger, above).get(ledger, RELATED) {
            0 => return Some(above),
            related => above = related,
        }
    }
}

/// The paths of the rows of a tree, whatever their status.
pub fn paths_of(ledger: &[u32], original: u32) -> BTreeSet<u32> {
    tree(ledger, original).map(|reference| Row::of(ledger, reference).get(ledger, PATH)).collect()
}

fn tree(ledger: &[u32], original: u32) -> impl Iterator<Item = u32> + '_ {
    (1..=ledger[USED]).filter(move |&reference| original_of(ledger, reference) == Some(original))
}

/// How the rows that two actions name stand to each other.
#[derive(Clone, Copy, Debug, PartialEq, Eq, PartialOrd, Ord)]
pub enum Between {
    /// One of them names no row, whatever the other does.
    NoRow,
    /// Of different trees, with no path in common.
    Apart,
    /// Of different trees, with a path in common.
    CommonPath,
    OneTree,
}

impl Between {
    /// True where the order may make no difference.
    pub fn is_claimed(self) -> bool {
        matches!(self, Between::NoRow | Between::Apart)
    }
}

pub fn between(ledger: &[u32], one: u32, other: u32) -> Between {
    match (original_of(ledger, one), original_of(ledger, other)) {
        (Some(one), Some(other)) if one == other => Between::OneTree,
        (Some(one), Some(other)) => {
            match paths_of(ledger, one).is_disjoint(&paths_of(ledger, other)) {
                true => Between::Apart,
                false => Between::CommonPath,
            }
        }
        _ => Between::NoRow,
    }
}

// Actions and postings.

/// An action with the words lent to it.
#[derive(Clone, Debug)]
pub struct Lent {
    pub action: Action,
    pub words: Words,
}

/// Why words are no postings.
#[derive(Clone, Copy, Debug, PartialEq, Eq, PartialOrd, Ord)]
pub enum Wrong {
    Length,
    Word,
}

/// A ledger that a list left, postings, and what the desks ask for.
struct Start {
    ledger: Vec<u32>,
    postings: Vec<u32>,
    wrong: Option<Wrong>,
    lent: Vec<Lent>,
}

/// Actions on rows of all trees, mostly such as are accepted.
fn start(rng: &mut Rng, ledger: &[u32], postings: &[u32]) -> Start {
    let originals: Vec<u32> =
        (1..=ledger[USED]).filter(|&n| original_of(ledger, n) == Some(n)).collect();
    let trees: Vec<Vec<u32>> = originals.iter().map(|&n| tree(ledger, n).collect()).collect();
    let lent: Vec<Lent> = (0..ACTIONS).map(|_| any_lent(rng, ledger, &trees)).collect();
    let (postings, wrong) = match rng.below(100) {
        0..60 => (postings.to_vec(), None),
        60..75 => (postings_of(rng, ledger), None),
        75..94 => (just_enough(rng, ledger, &lent), None),
        94..97 => (wrong_length(rng, postings), Some(Wrong::Length)),
        _ => {
            let mut postings = postings.to_vec();
            let at = rng.below(postings.len() as u32) as usize;
            postings[at] = rng.pick(&[MAX_MW + 1, u32::MAX]);
            (postings, Some(Wrong::Word))
        }
    };
    Start { ledger: ledger.to_vec(), postings, wrong, lent }
}

/// Postings that one of the actions uses in full.
fn just_enough(rng: &mut Rng, ledger: &[u32], lent: &[Lent]) -> Vec<u32> {
    let Lent { action, words } = &lent[rng.below(lent.len() as u32) as usize];
    let mut postings = vec![MAX_MW; posting_words(ledger[HOURS])];
    let mut after = ledger.to_vec();
    act(&mut after, &mut postings, words, action);
    for path in PATHS {
        set_to_use(&mut postings[posted(path, ledger[HOURS] as usize)], &after, path);
    }
    postings
}

fn wrong_length(rng: &mut Rng, postings: &[u32]) -> Vec<u32> {
    let len = postings.len();
    let mut other = postings.to_vec();
    other.resize(rng.pick(&[0, 1, len - 64, len - 1, len + 1, len + 64, 2 * len]), 0);
    other
}

fn any_lent(rng: &mut Rng, ledger: &[u32], trees: &[Vec<u32>]) -> Lent {
    let mut words = Words::new();
    let used = ledger[USED];
    let mut action = if trees.is_empty() {
        Action { kind: rng.from_to(SELLER_STATUS, LAPSE), actor: 10, ..Action::default() }
    } else {
        // Every tree alike, or the greater the likelier.
        let any_row = rng.from_to(1, used);
        let holds = |rows: &&Vec<u32>| rows.contains(&any_row);
        let greater = trees.iter().find(holds).filter(|_| rng.chance(50));
        let alike = &trees[rng.below(trees.len() as u32) as usize];
        on_a_row_of(rng, ledger, &mut words, greater.unwrap_or(alike))
    };
    if rng.chance(6) {
        action = disturb(rng, action);
    }
    match rng.below(100) {
        0..5 => action.reference = rng.pick(&[0, used + 1, u32::MAX]),
        5..7 => action.kind = rng.pick(&[0, POST + 1, u32::MAX]),
        _ => (),
    }
    if matches!(action.kind, SUBMIT | CLOCK | POST) {
        action.kind = POST + 1;
    }
    Lent { action, words }
}

/// Mostly the next step of an open row, or what befalls a CONFIRMED one.
fn on_a_row_of(rng: &mut Rng, ledger: &[u32], words: &mut Words, rows: &[u32]) -> Action {
    let status = |reference: u32| Row::of(ledger, reference).get(ledger, STATUS);
    let lives = |reference: &u32| is_open(status(*reference)) || status(*reference) == CONFIRMED;
    let live: Vec<u32> = rows.iter().copied().filter(lives).collect();
    let any = live.is_empty() || rng.chance(8);
    let reference = rng.pick(if any { rows } else { &live });
    let row = Row::of(ledger, reference);
    let waits = matches!(row.get(ledger, TYPE), PART_TRANSFER | FULL_TRANSFER)
        && row.get(ledger, FLAGS) & APPROVED == 0;
    let kind = match (status(reference), rng.below(100)) {
        (CONFIRMED, 0..35) => return reduction(rng, ledger, words, &[reference]),
        (CONFIRMED, 35..85) => SELLER_STATUS,
        (open, 0..25) if is_open(open) && waits => APPROVE,
        (COUNTEROFFER | CR_COUNTEROFFER | ACCEPTED | CR_ACCEPTED, 25..50) => LAPSE,
        (open, 0..90) if is_open(open) => return step(rng, ledger, words, reference),
        _ => rng.from_to(SELLER_STATUS, LAPSE),
    };
    on_row(rng, ledger, words, kind, reference)
}

// Either order.

/// What a subject left, and its answer.
struct Left {
    ledger: Vec<u32>,
    postings: Vec<u32>,
    answer: Answer,
}

impl Left {
    fn by(
        subject: &dyn Rules,
        ledger: &[u32],
        postings: &[u32],
        Lent { action, words }: &Lent,
    ) -> Result<Left, Difference> {
        let (mut ledger, mut postings) = (ledger.to_vec(), postings.to_vec());
        let mut answers = [UNWRITTEN];
        let one = std::slice::from_ref(action);
        match subject.batch(&mut ledger, &mut postings, words, one, &mut answers) {
            0 => Ok(Left { ledger, postings, answer: answers[0] }),
            number => Err(format!("{action:?}: a list of one gives {number}")),
        }
    }

    /// Another action on what was left.
    fn then(&self, subject: &dyn Rules, lent: &Lent) -> Result<Left, Difference> {
        Left::by(subject, &self.ledger, &self.postings, lent)
    }
}

/// Two actions in either order.
pub struct Either {
    /// The answers to the one, where it comes first and where it comes second.
    pub one: [Answer; 2],
    /// The same to the other.
    pub other: [Answer; 2],
    /// What is left where the one comes first, and where the other does.
    pub ledgers: [Vec<u32>; 2],
    pub postings: [Vec<u32>; 2],
}

impl Either {
    pub fn order(
        subject: &dyn Rules,
        ledger: &[u32],
        postings: &[u32],
        one: &Lent,
        other: &Lent,
    ) -> Result<Either, Difference> {
        let one_first = Left::by(subject, ledger, postings, one)?;
        let other_first = Left::by(subject, ledger, postings, other)?;
        Either::after(subject, (one, &one_first), (other, &other_first))
    }

    /// The same where each is known by itself.
    fn after(
        subject: &dyn Rules,
        (one, one_first): (&Lent, &Left),
        (other, other_first): (&Lent, &Left),
    ) -> Result<Either, Difference> {
        let other_second = one_first.then(subject, other)?;
        let one_second = other_first.then(subject, one)?;
        Ok(Either {
            one: [one_first.answer, one_second.answer],
            other: [other_first.answer, other_second.answer],
            ledgers: [other_second.ledger, one_second.ledger],
            postings: [other_second.postings, one_second.postings],
        })
    }

    /// What the order makes a difference to: the first of the answers and words.
    pub fn difference(&self) -> Option<Difference> {
        answers_differ("one", self.one)
            .or_else(|| answers_differ("other", self.other))
            .or_else(|| words_differ("ledger", &self.ledgers))
            .or_else(|| words_differ("postings", &self.postings))
    }

    /// True where a 22 stands in one of the orders.
    fn meets_a_limit(&self) -> bool {
        self.one.iter().chain(&self.other).any(|answer| answer.number == OVER_POSTING)
    }
}

fn answers_differ(name: &str, [first, second]: [Answer; 2]) -> Option<Difference> {
    (first != second).then(|| format!("the {name} is {first:?} first and {second:?} second"))
}

fn words_differ(name: &str, [ours, theirs]: &[Vec<u32>; 2]) -> Option<Difference> {
    let at = (0..ours.len()).find(|&at| ours[at] != theirs[at])?;
    Some(format!("word {at} of the {name} is {} or {}", ours[at], theirs[at]))
}

/// So many lists with contests, and pairs on ledgers along them. Where the claim is made,
/// the order may make no difference.
pub fn either_order(subject: &dyn Rules, seed: u64, count: u32) -> Result<Met, Difference> {
    let mut met = Met::default();
    for seed in seed..seed + u64::from(count) {
        let rng = &mut Rng::new(seed ^ OWN_NUMBERS);
        alone(&Model, seed, FEED, |ledger, postings, _| match rng.chance(4) {
            true => all_pairs(subject, &start(rng, ledger, postings), &mut met),
            false => Ok(()),
        })
        .map_err(|told| format!("either order, seed {seed}: {told}"))?;
    }
    Ok(met)
}

/// Each action of a start with each.
fn all_pairs(subject: &dyn Rules, start: &Start, met: &mut Met) -> Result<(), Difference> {
    let mut by_itself = Vec::new();
    for lent in &start.lent {
        by_itself.push((lent, Left::by(subject, &start.ledger, &start.postings, lent)?));
    }
    for (number, (one, one_first)) in by_itself.iter().enumerate() {
        for (other, other_first) in &by_itself[number + 1..] {
            let either = Either::after(subject, (one, one_first), (other, other_first))?;
            let actions = [&one.action, &other.action];
            let between = between(&start.ledger, one.action.reference, other.action.reference);
            let difference = either.difference();
            met.note_order(between, &either, difference.is_some());
            if !between.is_claimed() {
                continue;
            }
            if let Some(told) = difference {
                return Err(format!("one {:?}, other {:?}: {told}", actions[0], actions[1]));
            }
            met.note_claimed(start, between, actions, [either.one[0], either.other[0]]);
        }
    }
    Ok(())
}

// What the pairs met.

#[derive(Clone, Copy, Debug, PartialEq, Eq, PartialOrd, Ord)]
pub enum Point {
    Tried(Between),
    /// The order makes a difference, and in one of the two there is a 22.
    DiffersByLimit(Between),
    /// It makes a difference, and in neither there is.
    Differs(Between),

    // Where the claim is made.
    /// The kind and the number of an answer.
    Answered(u32, u32),
    /// Postings that are none.
    WrongPostings(Wrong),
    /// One action names no row, the other is accepted.
    AcceptedBesideNone,
    NeitherNamesARow,

    // Of trees apart, with sound postings.
    BothRefused,
    OneRefused,
    /// One is refused with 22 where the other confirms, or annuls a CONFIRMED row.
    OverBesideMoved,
    /// Both are accepted: their kinds, the lesser first.
    Accepted(u32, u32),
    /// Both confirm.
    Confirmed(u32, u32),
    /// The type of a row and its status, where both are accepted.
    Type(u32),
    Status(u32),
}

/// How often each was met.
#[derive(Clone, Debug, Default)]
pub struct Met(BTreeMap<Point, u64>);

impl Met {
    pub fn times(&self, point: Point) -> u64 {
        self.0.get(&point).copied().unwrap_or(0)
    }

    pub fn told(&self) -> String {
        self.0.iter().map(|(point, times)| format!("{point:?} × {times}\n")).collect()
    }

    /// Everything that the claim speaks of must have been met.
    pub fn check(&self) -> Result<(), String> {
        let seldom = |&(point, least): &(Point, u64)| self.times(point) < least;
        match must_meet().into_iter().find(seldom) {
            Some((point, _)) => Err(format!("{point:?} only {} times", self.times(point))),
            None => Ok(()),
        }
    }

    fn note(&mut self, point: Point) {
        *self.0.entry(point).or_default() += 1;
    }

    fn note_order(&mut self, between: Between, either: &Either, differs: bool) {
        self.note(Point::Tried(between));
        if differs {
            self.note(match either.meets_a_limit() {
                true => Point::DiffersByLimit(between),
                false => Point::Differs(between),
            });
        }
    }

    fn note_claimed(
        &mut self,
        Start { ledger, wrong, .. }: &Start,
        between: Between,
        actions: [&Action; 2],
        answers: [Answer; 2],
    ) {
        for (action, answer) in actions.iter().zip(answers) {
            let known = (SELLER_STATUS..=LAPSE).contains(&action.kind);
            self.note(Point::Answered(if known { action.kind } else { NO_KIND }, answer.number));
        }
        let accepted = answers.iter().filter(|answer| answer.number == 0).count();
        match (wrong, between) {
            (Some(wrong), _) => self.note(Point::WrongPostings(*wrong)),
            (None, Between::Apart) => self.note_apart(ledger, actions, answers, accepted),
            _ if accepted == 1 => self.note(Point::AcceptedBesideNone),
            _ => {
                if actions.iter().all(|action| original_of(ledger, action.reference).is_none()) {
                    self.note(Point::NeitherNamesARow);
                }
            }
        }
    }

    fn note_apart(
        &mut self,
        ledger: &[u32],
        actions: [&Action; 2],
        answers: [Answer; 2],
        accepted: usize,
    ) {
        match accepted {
            0 => return self.note(Point::BothRefused),
            1 => {
                self.note(Point::OneRefused);
                let over = answers.iter().any(|answer| answer.number == OVER_POSTING);
                if over && answers.iter().any(|answer| confirms(answer) || annuls(answer)) {
                    self.note(Point::OverBesideMoved);
                }
                return;
            }
            _ => (),
        }
        let [one, other] = actions.map(|action| action.kind);
        let (less, more) = (one.min(other), one.max(other));
        self.note(Point::Accepted(less, more));
        if answers.iter().all(confirms) {
            self.note(Point::Confirmed(less, more));
        }
        for action in actions {
            let row = Row::of(ledger, action.reference);
            self.note(Point::Type(row.get(ledger, TYPE)));
            self.note(Point::Status(row.get(ledger, STATUS)));
        }
    }
}

fn confirms(answer: &Answer) -> bool {
    answer.number == 0 && answer.before != CONFIRMED && answer.after == CONFIRMED
}

fn annuls(answer: &Answer) -> bool {
    (answer.number, answer.before, answer.after) == (0, CONFIRMED, ANNULLED)
}

/// What must be met, and at least how often.
fn must_meet() -> Vec<(Point, u64)> {
    use Point::*;
    let mut all = vec![
        (Tried(Between::Apart), 100_000),
        (Tried(Between::NoRow), 20_000),
        (WrongPostings(Wrong::Length), 1_000),
        (WrongPostings(Wrong::Word), 1_000),
        (AcceptedBesideNone, 5_000),
        (NeitherNamesARow, 1_000),
        (BothRefused, 20_000),
        (OneRefused, 20_000),
        (OverBesideMoved, 1_000),
        (Confirmed(SELLER_STATUS, SELLER_STATUS), 100),
        (Confirmed(SELLER_STATUS, CUSTOMER_STATUS), 100),
        (Confirmed(SELLER_STATUS, LAPSE), 5),
        (Confirmed(CUSTOMER_STATUS, CUSTOMER_STATUS), 100),
        (Confirmed(CUSTOMER_STATUS, LAPSE), 5),
    ];
    for less in SELLER_STATUS..=LAPSE {
        all.extend((less..=LAPSE).map(|more| (Accepted(less, more), 5)));
    }
    all.extend((ORIGINAL_FIRM..=RELINQUISH).map(|reqtype| (Type(reqtype), 300)));
    let acts = |&status: &u32| is_open(status) || status == CONFIRMED;
    all.extend((QUEUED..=RETRACTED).filter(acts).map(|status| (Status(status), 1_000)));
    // Every number that a kind can give.
    for (kind, numbers) in PAIRS {
        if kind == NO_KIND || (SELLER_STATUS..=LAPSE).contains(&kind) {
            all.extend(numbers.iter().map(|&number| (Answered(kind, number), 1)));
        }
    }
    all
}

#[cfg(test)]
mod tests {
    use super::*;

    /// A row for each type, related reference and path.
    fn ledger_of(rows: &[(u32, u32, u32)]) -> Vec<u32> {
        let used = rows.len() as u32;
        let mut ledger = vec![0; ledger_words(used + 1, 1)];
        assert_eq!(create(&mut ledger, used + 1, 1, 1, 3_600, 0), 0);
        ledger[USED] = used;
        for (reference, &(reqtype, related, path)) in (1..).zip(rows) {
            let row = Row::of(&ledger, reference);
            let fields = [reqtype, QUEUED, 10, 1, related, 0, 1, 0, 0, 0, 0, path];
            ledger[row.at..row.at + fields.len()].copy_from_slice(&fields);
        }
        assert!(sound(&ledger));
        ledger
    }

    #[test]
    fn trees_and_their_paths_are_told_apart() {
        let ledger = ledger_of(&[
            (ORIGINAL_FIRM, 0, 1),
            (ORIGINAL_FIRM, 0, 2),
            (REDIRECT_FIRM, 1, 33),
            (RESALE, 3, 33),
            (ORIGINAL_NON_FIRM, 0, 33),
            (REDIRECT_NON_FIRM, 2, 64),
            (RELINQUISH, 6, 64),
        ]);
        let originals: Vec<_> = (0..9).map(|named| original_of(&ledger, named)).collect();
        let named = [1, 2, 1, 1, 5, 2, 2].map(Some);
        assert_eq!(originals, [&[None][..], &named, &[None]].concat());
        assert_eq!(original_of(&ledger, u32::MAX), None);
        assert_eq!(paths_of(&ledger, 1), BTreeSet::from([1, 33]));
        assert_eq!(paths_of(&ledger, 2), BTreeSet::from([2, 64]));
        for (one, other, expected) in [
            (4, 7, Between::Apart),
            (1, 2, Between::Apart),
            (5, 6, Between::Apart),
            // By the paths of the redirect below, not by their own.
            (1, 5, Between::CommonPath),
            (4, 5, Between::CommonPath),
            (1, 4, Between::OneTree),
            (7, 7, Between::OneTree),
            (0, 7, Between::NoRow),
            (7, 8, Between::NoRow),
            (0, 0, Between::NoRow),
        ] {
            assert_eq!(between(&ledger, one, other), expected, "{one} and {other}");
            assert_eq!(between(&ledger, other, one), expected, "{other} and {one}");
        }
    }

    #[test]
    fn a_point_never_met_is_seen() {
        let mut all = Met(must_meet().into_iter().collect());
        assert_eq!(all.check(), Ok(()));
        for (point, least) in must_meet() {
            all.0.insert(point, least - 1);
            assert_eq!(all.check(), Err(format!("{point:?} only {} times", least - 1)));
            all.0.insert(point, least);
        }
    }
}
