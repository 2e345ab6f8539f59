//! What documents 01 and 02 list and the tests must reach, written down from them.

use std::collections::{BTreeMap, BTreeSet};

use luddrisa_model::*;

use crate::openings::Damage;
use crate::plays::{row_named, Ending, Play};
use crate::stamps::{order_number, zone_named, zone_past_the_last};
use crate::unwound::{alone, Left, Obstacle, Step, UNWINDING};

/// Stands for every kind that is not 1 to 8.
pub const NO_KIND: u32 = 0;

/// Each kind with the numbers it can give; a 1 here is an unsound ledger.
pub const PAIRS: [(u32, &[u32]); 9] = [
    (NO_KIND, &[1, 2]),
    (SUBMIT, &[0, 1, 2, 3, 6, 7, 8, 9, 10, 12, 21]),
    // 13 never: an unapproved transfer stays at 10.
    (SELLER_STATUS, &[0, 1, 2, 3, 4, 7, 9, 11, 12, 14, 15, 22]),
    (CUSTOMER_STATUS, &[0, 1, 2, 3, 4, 7, 9, 11, 12, 13, 14, 22]),
    // 13 never: it counts as approved.
    (APPROVE, &[0, 1, 3, 4, 9, 11, 14, 22]),
    (REDUCE, &[0, 1, 3, 4, 7, 11, 14]),
    (LAPSE, &[0, 1, 3, 4, 9, 11, 13, 14, 16, 22]),
    (CLOCK, &[0, 1, 3, 5]),
    (POST, &[0, 1, 3, 6, 7, 21, 22]),
];

/// The kinds that can give 1 on a sound ledger and its postings, for a word over
/// 100,000: displacing, annulling, confirming a type 8 row, and reducing.
pub const OVER_BOUND: [u32; 4] = [SELLER_STATUS, CUSTOMER_STATUS, REDUCE, LAPSE];

/// What a 1 was for; all other numbers are plain.
#[derive(Clone, Copy, Debug, PartialEq, Eq, PartialOrd, Ord)]
pub enum Of {
    Plain,
    WrongPostings,
    WordOverBound,
}

/// The numbers of the other calls; those of annulments in order are no and yes.
pub const ANNULS_IN_ORDER: [u32; 2] = [0, 1];
pub const CHARGE: [u32; 4] = [0, 1, 4, 11];
pub const CONTEST: [u32; 6] = [0, 1, 3, 4, 11, 25];
pub const CREATE: [u32; 2] = [0, 1];
pub const OPENING: [u32; 3] = [0, 1, 20];
pub const BATCH: [u32; 2] = [0, 17];
pub const READ_STAMP: [u32; 2] = [0, 18];
pub const COMPARE_STAMPS: [u32; 2] = [0, 18];
pub const WRITE_STAMP: [u32; 2] = [0, 19];

const OPEN: [u32; 8] = [1, 3, 4, 6, 7, 8, 10, 11];

/// Accepted moves: kind, status after, statuses before.
const MOVES: [(u32, u32, &[u32]); 24] = [
    (SUBMIT, 1, &[0]),
    (SELLER_STATUS, 3, &[1]),
    (SELLER_STATUS, 4, &[1, 3]),
    (SELLER_STATUS, 2, &[1, 3, 4]),
    (SELLER_STATUS, 5, &[1, 3, 4, 8]),
    (SELLER_STATUS, 12, &[1, 3, 4, 8]),
    (SELLER_STATUS, 9, &OPEN),
    (SELLER_STATUS, 6, &[1, 3, 4, 8, 10, 11]),
    (SELLER_STATUS, 7, &[1, 3, 4, 8, 10, 11]),
    (SELLER_STATUS, 10, &[1, 3, 4, 8]),
    (SELLER_STATUS, 11, &[1, 3, 4, 8]),
    // A preconfirmed row moved to 10.
    (SELLER_STATUS, 13, &[1, 3, 4, 8]),
    (SELLER_STATUS, 15, &[13]),
    (SELLER_STATUS, 16, &[13]),
    (SELLER_STATUS, 16, &OPEN),
    (CUSTOMER_STATUS, 8, &[6, 7]),
    (CUSTOMER_STATUS, 13, &[6, 7, 10, 11]),
    (CUSTOMER_STATUS, 14, &OPEN),
    // An approval that does not confirm leaves any open status as it is.
    (APPROVE, 13, &[10]),
    (REDUCE, 13, &[13]),
    (LAPSE, 17, &[6, 7, 10, 11]),
    (LAPSE, 13, &[11]),
    (CLOCK, 0, &[0]),
    (POST, 0, &[0]),
];

/// What an accepted action did with megawatts.
#[derive(Clone, Copy, Debug, PartialEq, Eq, PartialOrd, Ord)]
pub enum Moved {
    Confirmed,
    Annulled,
    Displaced,
    Reduced,
}

/// Where megawatts were given back.
#[derive(Clone, Copy, Debug, PartialEq, Eq, PartialOrd, Ord)]
pub enum Back {
    Nowhere,
    ToAvailable,
    ToDisplaced,
}

type Effect = (u32, Moved, u32, Back);

/// The flags that a withdrawal looks at.
const ASKED: u32 = PRECONFIRMED | COUNTERED;

/// Rows by these flags.
const BY_FLAGS: [u32; 4] = [0, PRECONFIRMED, COUNTERED, ASKED];

/// What an action met in the reduced words of a row.
#[derive(Clone, Copy, Debug, PartialEq, Eq, PartialOrd, Ord)]
pub enum Reduced {
    /// A row with none is reduced.
    First,
    /// A row with some is reduced again.
    Again,
    /// A reduction reaches 100,000 in an hour.
    ToBound,
    /// A reduction adds 0 in an hour that has 100,000.
    NoMoreAtBound,
    /// A reduction is refused with 1, for a reduced word alone.
    Over,
    /// A reduction is refused with 14, and a reduced word would pass as well.
    ShortAndOver,
    /// A row with some is displaced.
    Displaced,
    /// A CONFIRMED row with some is annulled.
    Annulled,
    /// A row with some is confirmed.
    Confirmed,
    /// A row with some is given megawatts back, to its available.
    BackToAvailable,
    /// The same to its displaced.
    BackToDisplaced,
}

/// All of them.
pub const REDUCED: [Reduced; 11] = [
    Reduced::First,
    Reduced::Again,
    Reduced::ToBound,
    Reduced::NoMoreAtBound,
    Reduced::Over,
    Reduced::ShortAndOver,
    Reduced::Displaced,
    Reduced::Annulled,
    Reduced::Confirmed,
    Reduced::BackToAvailable,
    Reduced::BackToDisplaced,
];

/// Which of the two tests on opening found a ledger unbalanced.
#[derive(Clone, Copy, Debug, PartialEq, Eq, PartialOrd, Ord)]
pub enum Found {
    ByEquation,
    ByTree,
    ByBoth,
}

pub const FOUND: [Found; 3] = [Found::ByEquation, Found::ByTree, Found::ByBoth];

/// Where what an annulment gives back goes.
#[derive(Clone, Copy, Debug, PartialEq, Eq, PartialOrd, Ord)]
pub enum Receiver {
    /// The related row is CONFIRMED still.
    Confirmed,
    /// It was CONFIRMED, and went before in the same list.
    Gone,
    Displaced,
    /// It is at any other status.
    Neither,
}

/// What a list of references to annul met.
#[derive(Clone, Copy, Debug, PartialEq, Eq, PartialOrd, Ord)]
pub enum InOrder {
    /// Nothing is named, on a ledger and its postings, and on words that are none.
    Nothing,
    NothingOfNoLedger,
    /// So many are accepted, to the last; `MANY` stands for more.
    Accepted(usize),
    /// More are named than rows are used.
    LongerThanRows,
    /// All are accepted, and among them is a chain of `MANY` CONFIRMED rows.
    Deep,
    /// The same with so many CONFIRMED rows of one.
    Wide,
    /// An open row goes.
    Open,
    /// A row goes for whose non-firm redirect its path was kept free.
    ReturnGivenUp,
    /// Where what comes back goes.
    BackTo(Receiver),
    /// Accepted at a later step, though by itself it is stopped so.
    Freed(Obstacle),
    /// Stopped so at a later step, though by itself it is accepted.
    Blocked(Obstacle),
    /// Stopped so, though in another order all are accepted.
    InAnotherOrder(Obstacle),
}

/// References that are many.
pub const MANY: usize = 6;

/// All that a list can meet. What comes back to a row's displaced stays there, so that
/// nobody is freed from the last 1, and in any order it is the same.
pub const IN_ORDER: [InOrder; 24] = [
    InOrder::Nothing,
    InOrder::NothingOfNoLedger,
    InOrder::Accepted(1),
    InOrder::Accepted(2),
    InOrder::Accepted(3),
    InOrder::Accepted(4),
    InOrder::Accepted(5),
    InOrder::Accepted(MANY),
    InOrder::LongerThanRows,
    InOrder::Deep,
    InOrder::Wide,
    InOrder::Open,
    InOrder::ReturnGivenUp,
    InOrder::BackTo(Receiver::Confirmed),
    InOrder::BackTo(Receiver::Gone),
    InOrder::BackTo(Receiver::Displaced),
    InOrder::BackTo(Receiver::Neither),
    InOrder::Freed(Obstacle::InUse),
    InOrder::Freed(Obstacle::OverPosting),
    InOrder::Blocked(Obstacle::InUse),
    InOrder::Blocked(Obstacle::OverPosting),
    InOrder::Blocked(Obstacle::OverBound),
    InOrder::InAnotherOrder(Obstacle::InUse),
    InOrder::InAnotherOrder(Obstacle::OverPosting),
];

/// What comparisons of stamps met.
#[derive(Clone, Copy, Debug, PartialEq, Eq, PartialOrd, Ord)]
pub enum Compared {
    /// One of the two is read and is of this zone.
    OfZone(u32),
    /// One of the two, of this zone, is refused for passing the last second alone.
    Past(u32),
    /// Two of one zone are compared, and this is their order.
    InOneZone(u32),
    /// The same for two zones.
    InTwoZones(u32),
    /// Two are compared, and the order of the bytes is another, which is the second.
    NotAsBytes(u32, u32),
    /// A comparison is refused by the first alone, by the second alone, and by both.
    ByFirst,
    BySecond,
    ByBoth,
}

/// All orders of some references.
pub fn all_orders(references: &[u32]) -> Vec<Vec<u32>> {
    let mut orders = vec![Vec::new()];
    for &reference in references {
        let with_it = |order: Vec<u32>| {
            (0..=order.len()).map(move |place| {
                let (front, back) = order.split_at(place);
                [front, &[reference], back].concat()
            })
        };
        orders = orders.into_iter().flat_map(with_it).collect();
    }
    orders
}

/// What a run reached.
#[derive(Clone, Debug, Default)]
pub struct Reached {
    /// Kind, number, and what a 1 was for; how often.
    pairs: BTreeMap<(u32, u32, Of), u64>,
    /// Kind, status before, status after of accepted actions.
    moves: BTreeSet<(u32, u32, u32)>,
    effects: BTreeSet<Effect>,
    /// Kind, what it would have done, and type of the rows refused with 22.
    over_posting: BTreeSet<(u32, Moved, u32)>,
    /// Status and flags of a row whose customer withdraws it, and the number; how often.
    withdrawn: BTreeMap<(u32, u32, u32), u64>,
    /// Status that an accepted offer names, status before, and flags left.
    offered: BTreeSet<(u32, u32, u32)>,
    /// What was met in reduced words, and type of the row; how often.
    reduced: BTreeMap<(Reduced, u32), u64>,
    calls: BTreeSet<(&'static str, u32)>,
    /// Numbers that opening gave; how often.
    opened: BTreeMap<u32, u64>,
    /// What found the ledgers opened with 20; how often.
    found: BTreeMap<Found, u64>,
    /// What was done to a ledger, and the number it was opened with; how often.
    damaged: BTreeMap<(Damage, u32), u64>,
    /// What contests came to, and type of the row, 0 where none is found; how often.
    contested: BTreeMap<(Ending, u32), u64>,
    /// What lists of references to annul were stopped by, where, and type of the row, 0
    /// where none is found; how often.
    stopped: BTreeMap<(Obstacle, Step, u32), u64>,
    /// What such lists met; how often.
    in_order: BTreeMap<InOrder, u64>,
    /// What comparisons of stamps met; how often.
    compared: BTreeMap<Compared, u64>,
}

impl Reached {
    /// Notes an answer; the ledger and its postings are as the action left them.
    pub fn note(
        &mut self,
        ledger: &[u32],
        postings: &[u32],
        words: &[u32],
        action: &Action,
        answer: &Answer,
    ) {
        let kind = if (SUBMIT..=POST).contains(&action.kind) { action.kind } else { NO_KIND };
        let of = match answer.number {
            BAD_LEDGER if sound(ledger) && !postings_fit(postings, ledger[HOURS]) => {
                Of::WrongPostings
            }
            BAD_LEDGER if sound(ledger) => Of::WordOverBound,
            _ => Of::Plain,
        };
        *self.pairs.entry((kind, answer.number, of)).or_default() += 1;
        let is_compared = matches!(answer.number, 0 | SHORT) || of == Of::WordOverBound;
        if kind == REDUCE && is_compared {
            self.note_reduction(ledger, words, action, answer.number);
        }
        if answer.number == OVER_POSTING && kind != POST {
            let annuls = kind == SELLER_STATUS && action.status == ANNULLED;
            let moved = if annuls { Moved::Annulled } else { Moved::Confirmed };
            let reqtype = Row::of(ledger, action.reference).get(ledger, TYPE);
            self.over_posting.insert((kind, moved, reqtype));
        }
        self.note_flags(ledger, action, answer);
        if answer.number != 0 {
            return;
        }
        self.moves.insert((kind, answer.before, answer.after));
        let moved = match (kind, answer.before, answer.after) {
            (REDUCE, _, _) => Moved::Reduced,
            (_, CONFIRMED, ANNULLED) => Moved::Annulled,
            (_, CONFIRMED, DISPLACED) => Moved::Displaced,
            (_, _, CONFIRMED) => Moved::Confirmed,
            _ => return,
        };
        let row = Row::of(ledger, answer.reference);
        let reqtype = row.get(ledger, TYPE);
        let related = row.get(ledger, RELATED);
        let receiver = match (moved, reqtype) {
            (Moved::Annulled, RESALE..=FULL_TRANSFER) => Some(related),
            (Moved::Confirmed, RELINQUISH) => Some(Row::of(ledger, related).get(ledger, RELATED)),
            _ => None,
        };
        let back = match receiver.map(|above| Row::of(ledger, above).get(ledger, STATUS)) {
            None => Back::Nowhere,
            Some(CONFIRMED) => Back::ToAvailable,
            Some(_) => Back::ToDisplaced,
        };
        self.effects.insert((kind, moved, reqtype, back));
        match moved {
            Moved::Confirmed => self.met_if_reduced(ledger, row, Reduced::Confirmed),
            Moved::Annulled => self.met_if_reduced(ledger, row, Reduced::Annulled),
            Moved::Displaced => self.met_if_reduced(ledger, row, Reduced::Displaced),
            Moved::Reduced => (),
        }
        if let Some(above) = receiver.map(|above| Row::of(ledger, above)) {
            let to_available = back == Back::ToAvailable;
            let met =
                if to_available { Reduced::BackToAvailable } else { Reduced::BackToDisplaced };
            self.met_if_reduced(ledger, above, met);
        }
    }

    /// A withdrawal that was judged by status and flags, or an accepted offer.
    fn note_flags(&mut self, ledger: &[u32], action: &Action, answer: &Answer) {
        let flags = |row: Row| row.get(ledger, FLAGS) & ASKED;
        match (action.kind, action.status, answer.number) {
            (CUSTOMER_STATUS, WITHDRAWN, 0 | BAD_MOVE) => {
                let row = Row::of(ledger, action.reference);
                let refused = answer.number != 0;
                let before = if refused { row.get(ledger, STATUS) } else { answer.before };
                *self.withdrawn.entry((before, flags(row), answer.number)).or_default() += 1;
            }
            (SELLER_STATUS, offer @ (6 | 7 | 10 | 11), 0) => {
                let left = flags(Row::of(ledger, action.reference));
                self.offered.insert((offer, answer.before, left));
            }
            _ => (),
        }
    }

    fn met(&mut self, ledger: &[u32], row: Row, met: Reduced) {
        *self.reduced.entry((met, row.get(ledger, TYPE))).or_default() += 1;
    }

    fn met_if_reduced(&mut self, ledger: &[u32], row: Row, met: Reduced) {
        if ledger[row.profile(REDUCED_MW)].iter().any(|&mw| mw > 0) {
            self.met(ledger, row, met);
        }
    }

    /// A reduction whose profile was compared with what is available.
    fn note_reduction(&mut self, ledger: &[u32], words: &[u32], action: &Action, number: u32) {
        let row = Row::of(ledger, action.reference);
        let profile = &words[action.offset as usize..][..action.length as usize];
        // Reduced words, as they stand afterwards, with what was to be added.
        let hours: Vec<(u32, u32)> = ledger[row.span(ledger, REDUCED_MW)]
            .iter()
            .copied()
            .zip(profile.iter().copied())
            .collect();
        let any = |test: fn(u32, u32) -> bool| hours.iter().any(|&(stands, mw)| test(stands, mw));
        let met = match number {
            BAD_LEDGER => vec![(Reduced::Over, true)],
            SHORT => vec![(Reduced::ShortAndOver, any(|stands, mw| stands + mw > MAX_MW))],
            _ => {
                let had_some = any(|stands, mw| stands > mw);
                vec![
                    (Reduced::First, !had_some),
                    (Reduced::Again, had_some),
                    (Reduced::ToBound, any(|stands, mw| stands == MAX_MW && mw > 0)),
                    (Reduced::NoMoreAtBound, any(|stands, mw| stands == MAX_MW && mw == 0)),
                ]
            }
        };
        for (met, _) in met.into_iter().filter(|&(_, was_met)| was_met) {
            self.met(ledger, row, met);
        }
    }

    pub fn note_call(&mut self, call: &'static str, number: u32) {
        self.calls.insert((call, number));
    }

    pub fn note_opening(&mut self, ledger: &[u32], number: u32) {
        self.note_call("open", number);
        *self.opened.entry(number).or_default() += 1;
        if number == UNBALANCED {
            let all = || 1..=ledger[USED];
            let rows = all().all(|reference| row_balances(ledger, reference));
            let trees = all().all(|reference| tree_balances(ledger, reference));
            let found = match (rows, trees) {
                (false, true) => Found::ByEquation,
                (true, false) => Found::ByTree,
                _ => Found::ByBoth,
            };
            *self.found.entry(found).or_default() += 1;
        }
    }

    pub fn note_damage(&mut self, damage: Damage, number: u32) {
        *self.damaged.entry((damage, number)).or_default() += 1;
    }

    /// Notes what a contest came to; the ledger is as it left it.
    pub fn note_contest(&mut self, ledger: &[u32], play: &Play, ending: Ending) {
        self.note_call("contest", ending.number());
        let row = match ending.types() {
            [] => None,
            _ => row_named(ledger, play.contest.reference),
        };
        let reqtype = row.map_or(0, |row| row.get(ledger, TYPE));
        *self.contested.entry((ending, reqtype)).or_default() += 1;
    }

    /// Notes what stopped a list of references to annul, or that nothing did.
    pub fn note_order(
        &mut self,
        ledger: &[u32],
        postings: &[u32],
        references: &[u32],
        stopped: Option<(usize, Obstacle)>,
    ) {
        self.note_call("annuls in order", u32::from(stopped.is_none()));
        let grounds = sound(ledger) && postings_fit(postings, ledger[HOURS]);
        if references.is_empty() {
            let of_none = InOrder::NothingOfNoLedger;
            self.note_in_order(if grounds { InOrder::Nothing } else { of_none });
        }
        if let Some((place, obstacle)) = stopped {
            let row = match obstacle.types() {
                [] => None,
                _ => row_named(ledger, references[place]),
            };
            let reqtype = row.map_or(0, |row| row.get(ledger, TYPE));
            *self.stopped.entry((obstacle, Step::at(place), reqtype)).or_default() += 1;
        }
        // Long lists are for the answer alone.
        if grounds && references.len() <= 64 {
            self.note_steps(ledger, postings, references, stopped);
        }
    }

    fn note_steps(
        &mut self,
        ledger: &[u32],
        postings: &[u32],
        references: &[u32],
        stopped: Option<(usize, Obstacle)>,
    ) {
        let accepted = &references[..stopped.map_or(references.len(), |(place, _)| place)];
        for (place, &reference) in accepted.iter().enumerate() {
            let left = Left::new(&UNWINDING, ledger, &references[..place]);
            self.note_step(&left, reference);
            if let Some(obstacle) = alone(ledger, postings, reference) {
                self.note_in_order(InOrder::Freed(obstacle));
            }
        }
        if references.len() > ledger[USED] as usize {
            self.note_in_order(InOrder::LongerThanRows);
        }
        match stopped {
            None if accepted.is_empty() => (),
            None => {
                self.note_in_order(InOrder::Accepted(accepted.len().min(MANY)));
                self.note_shape(ledger, accepted);
            }
            Some((place, obstacle)) => {
                let by_itself = alone(ledger, postings, references[place]);
                if place > 0 && by_itself.is_none() && obstacle != Obstacle::Twice {
                    self.note_in_order(InOrder::Blocked(obstacle));
                }
                // Other obstacles are there in any order, and more orders take long.
                let may_be = obstacle >= Obstacle::InUse && references.len() <= 4;
                let is_accepted = |order: &Vec<u32>| annuls_in_order(ledger, postings, order);
                if may_be && all_orders(references).iter().any(is_accepted) {
                    self.note_in_order(InOrder::InAnotherOrder(obstacle));
                }
            }
        }
    }

    /// A step that is accepted.
    fn note_step(&mut self, left: &Left, reference: u32) {
        let (path, related) = (left.field(reference, PATH), left.field(reference, RELATED));
        if !left.was_confirmed(reference) {
            return self.note_in_order(InOrder::Open);
        }
        let returns = |other: u32| {
            left.field(other, RELATED) == reference
                && left.field(other, PATH) != path
                && left.keeps_free(other, path)
        };
        if (1..=left.ledger[USED]).any(returns) {
            self.note_in_order(InOrder::ReturnGivenUp);
        }
        if related != 0 {
            self.note_in_order(InOrder::BackTo(match left.field(related, STATUS) {
                CONFIRMED if left.is_confirmed(related) => Receiver::Confirmed,
                CONFIRMED => Receiver::Gone,
                DISPLACED => Receiver::Displaced,
                _ => Receiver::Neither,
            }));
        }
    }

    /// How the CONFIRMED rows among the references are related.
    fn note_shape(&mut self, ledger: &[u32], references: &[u32]) {
        let left = Left::new(&UNWINDING, ledger, &[]);
        let is_one =
            |reference: &u32| references.contains(reference) && left.is_confirmed(*reference);
        let related = |reference: u32| Some(left.field(reference, RELATED)).filter(is_one);
        let depth = |reference: u32| {
            std::iter::successors(Some(reference).filter(is_one), |&one| related(one)).count()
        };
        let breadth = |of: u32| {
            references.iter().filter(|&&one| is_one(&one) && related(one) == Some(of)).count()
        };
        if references.iter().any(|&reference| depth(reference) >= MANY) {
            self.note_in_order(InOrder::Deep);
        }
        if references.iter().any(|&reference| breadth(reference) >= MANY) {
            self.note_in_order(InOrder::Wide);
        }
    }

    fn note_in_order(&mut self, met: InOrder) {
        *self.in_order.entry(met).or_default() += 1;
    }

    /// Notes what comparing gave: number, order.
    pub fn note_comparison(&mut self, first: &[u8], second: &[u8], (number, order): (u32, u32)) {
        self.note_call("compare stamps", number);
        for bytes in [first, second] {
            if read_stamp(bytes).is_ok() {
                self.note_compared(Compared::OfZone(zone_named(bytes).expect("a zone")));
            } else if let Some(zone) = zone_past_the_last(bytes) {
                self.note_compared(Compared::Past(zone));
            }
        }
        self.note_compared(match (read_stamp(first), read_stamp(second)) {
            (Err(_), Err(_)) => Compared::ByBoth,
            (Err(_), Ok(_)) => Compared::ByFirst,
            (Ok(_), Err(_)) => Compared::BySecond,
            (Ok(_), Ok(_)) if zone_named(first) == zone_named(second) => Compared::InOneZone(order),
            (Ok(_), Ok(_)) => Compared::InTwoZones(order),
        });
        let of_bytes = order_number(first.cmp(second));
        if number == 0 && of_bytes != order {
            self.note_compared(Compared::NotAsBytes(order, of_bytes));
        }
    }

    fn note_compared(&mut self, met: Compared) {
        *self.compared.entry(met).or_default() += 1;
    }

    /// How often comparisons of stamps met a thing.
    pub fn times_compared(&self, met: Compared) -> u64 {
        self.compared.get(&met).copied().unwrap_or(0)
    }

    /// How often lists of references met a thing.
    pub fn times_in_order(&self, met: InOrder) -> u64 {
        self.in_order.get(&met).copied().unwrap_or(0)
    }

    /// How often lists were stopped so at a step, for rows of any type.
    pub fn times_stopped(&self, obstacle: Obstacle, step: Step) -> u64 {
        let so = |&(what, at, _): &(Obstacle, Step, u32)| (what, at) == (obstacle, step);
        self.stopped.iter().filter(|(what, _)| so(what)).map(|(_, times)| times).sum()
    }

    /// The types of row at which lists were stopped so.
    pub fn types_stopped(&self, obstacle: Obstacle) -> BTreeSet<u32> {
        let so = |&&(what, _, _): &&(Obstacle, Step, u32)| what == obstacle;
        self.stopped.keys().filter(so).map(|&(_, _, reqtype)| reqtype).collect()
    }

    /// How often contests came to an ending, for rows of any type.
    pub fn times_contested(&self, ending: Ending) -> u64 {
        self.contested.iter().filter(|((what, _), _)| *what == ending).map(|(_, times)| times).sum()
    }

    /// How often a withdrawal from a status, of rows with these of the flags 1 and 32, gave
    /// a number.
    pub fn times_withdrawn(&self, status: u32, flags: u32, number: u32) -> u64 {
        self.withdrawn.get(&(status, flags, number)).copied().unwrap_or(0)
    }

    /// How often opening gave a number.
    pub fn times_opened(&self, number: u32) -> u64 {
        self.opened.get(&number).copied().unwrap_or(0)
    }

    /// How often a ledger was found unbalanced so.
    pub fn times_found(&self, found: Found) -> u64 {
        self.found.get(&found).copied().unwrap_or(0)
    }

    /// The pairs reached and how often, a line for each kind.
    pub fn told(&self) -> String {
        let mut lines = String::new();
        for (kind, _) in PAIRS {
            lines.push_str(&format!("kind {kind}:"));
            for (&(_, number, of), times) in self.pairs.iter().filter(|(pair, _)| pair.0 == kind) {
                let mark = match of {
                    Of::Plain => "",
                    Of::WrongPostings => " (postings)",
                    Of::WordOverBound => " (word over 100,000)",
                };
                lines.push_str(&format!(" {number}{mark} × {times};"));
            }
            lines.push('\n');
        }
        for flags in BY_FLAGS {
            lines.push_str(&format!("withdrawn with flags {flags}:"));
            for (status, _, number) in listed_withdrawn().into_iter().filter(|met| met.1 == flags) {
                let times = self.times_withdrawn(status, flags, number);
                lines.push_str(&format!(" from {status} {number} × {times};"));
            }
            lines.push('\n');
        }
        lines.push_str("reduced words:");
        for met in REDUCED {
            lines.push_str(&format!(" {met:?} × {};", self.times_reduced(met)));
        }
        lines.push_str("\nopening:");
        for number in OPENING {
            lines.push_str(&format!(" {number} × {};", self.times_opened(number)));
        }
        for found in FOUND {
            lines.push_str(&format!(" {found:?} × {};", self.times_found(found)));
        }
        lines.push_str("\ndamaged:");
        for ((damage, number), times) in &self.damaged {
            lines.push_str(&format!(" {damage:?} {number} × {times};"));
        }
        lines.push_str("\ncontests:");
        for ending in Ending::ALL {
            lines.push_str(&format!(" {ending:?} × {};", self.times_contested(ending)));
        }
        lines.push_str("\nannulments stopped:");
        for obstacle in Obstacle::ALL {
            for &step in obstacle.steps() {
                let times = self.times_stopped(obstacle, step);
                lines.push_str(&format!(" {obstacle:?} {step:?} × {times};"));
            }
        }
        lines.push_str("\nannulments in order:");
        for met in IN_ORDER {
            lines.push_str(&format!(" {met:?} × {};", self.times_in_order(met)));
        }
        lines.push_str("\nstamps compared:");
        for met in listed_compared() {
            lines.push_str(&format!(" {met:?} × {};", self.times_compared(met)));
        }
        lines.push('\n');
        lines
    }

    /// How often a thing was met in reduced words, in rows of any type.
    pub fn times_reduced(&self, met: Reduced) -> u64 {
        self.reduced.iter().filter(|((what, _), _)| *what == met).map(|(_, times)| times).sum()
    }

    /// What was refused with 22, by what would have moved and the type.
    pub fn over_posting(&self) -> BTreeSet<(Moved, u32)> {
        self.over_posting.iter().map(|&(_, moved, reqtype)| (moved, reqtype)).collect()
    }

    /// The tables against what was reached: nothing missing, nothing beside.
    pub fn check(&self) -> Result<(), String> {
        let pairs = self.pairs.keys().copied().collect();
        same("pair (kind, number, what a 1 is for)", &listed_pairs(), &pairs)?;
        same("move (kind, before, after)", &listed_moves(), &self.moves)?;
        same("effect (kind, moved, type, given back)", &listed_effects(), &self.effects)?;
        same("22 (kind, moved, type)", &listed_over_posting(), &self.over_posting)?;
        let withdrawn = self.withdrawn.keys().copied().collect();
        same("withdrawal (before, flags, number)", &listed_withdrawn(), &withdrawn)?;
        same("offer (named, before, flags left)", &listed_offered(), &self.offered)?;
        let reduced = self.reduced.keys().copied().collect();
        same("reduced words (what was met, type)", &listed_reduced(), &reduced)?;
        same("20", &FOUND.into(), &self.found.keys().copied().collect())?;
        let damaged = self.damaged.keys().copied().collect();
        same("opening (damage, number)", &listed_damaged(), &damaged)?;
        let contested = self.contested.keys().copied().collect();
        same("contest (ending, type)", &listed_contested(), &contested)?;
        let stopped = self.stopped.keys().copied().collect();
        same("annulments (stopped by, step, type)", &listed_stopped(), &stopped)?;
        let in_order = self.in_order.keys().copied().collect();
        same("annulments in order", &IN_ORDER.into(), &in_order)?;
        same("stamps compared", &listed_compared(), &self.compared.keys().copied().collect())?;
        same("call (name, number)", &listed_calls(), &self.calls)
    }
}

fn same<T: Ord + std::fmt::Debug>(
    what: &str,
    listed: &BTreeSet<T>,
    reached: &BTreeSet<T>,
) -> Result<(), String> {
    let missing: Vec<_> = listed.difference(reached).collect();
    let beside: Vec<_> = reached.difference(listed).collect();
    if missing.is_empty() && beside.is_empty() {
        return Ok(());
    }
    Err(format!("{what}: never reached {missing:?}, not in the paper {beside:?}"))
}

pub fn listed_pairs() -> BTreeSet<(u32, u32, Of)> {
    let plain = PAIRS
        .iter()
        .flat_map(|&(kind, numbers)| numbers.iter().map(move |&number| (kind, number, Of::Plain)));
    let postings = PAIRS.iter().map(|&(kind, _)| (kind, BAD_LEDGER, Of::WrongPostings));
    let over = OVER_BOUND.iter().map(|&kind| (kind, BAD_LEDGER, Of::WordOverBound));
    plain.chain(postings).chain(over).collect()
}

/// On foreign ledgers every confirmation and every annulment can meet it.
pub fn listed_over_posting() -> BTreeSet<(u32, Moved, u32)> {
    let mut listed = BTreeSet::new();
    for reqtype in ORIGINAL_FIRM..=RELINQUISH {
        for kind in [SELLER_STATUS, CUSTOMER_STATUS, LAPSE] {
            listed.insert((kind, Moved::Confirmed, reqtype));
        }
        if reqtype != RELINQUISH {
            listed.insert((SELLER_STATUS, Moved::Annulled, reqtype));
        }
    }
    for reqtype in [PART_TRANSFER, FULL_TRANSFER] {
        listed.insert((APPROVE, Moved::Confirmed, reqtype));
    }
    listed
}

/// From any open status, but of preconfirmed rows that were never countered from 6, 7 and
/// 11 alone. On foreign ledgers any row has any flags.
pub fn listed_withdrawn() -> BTreeSet<(u32, u32, u32)> {
    let mut listed = BTreeSet::new();
    for flags in BY_FLAGS {
        let from: &[u32] = if flags == PRECONFIRMED { &[6, 7, 11] } else { &OPEN };
        for status in QUEUED..=RETRACTED {
            let number = if from.contains(&status) { 0 } else { BAD_MOVE };
            listed.insert((status, flags, number));
        }
    }
    listed
}

/// A counteroffer leaves flag 32 in every row, an acceptance only where it was.
pub fn listed_offered() -> BTreeSet<(u32, u32, u32)> {
    let mut listed = BTreeSet::new();
    for flags in BY_FLAGS {
        for &(_, offer, befores) in MOVES.iter().filter(|mv| mv.0 == SELLER_STATUS) {
            let is_listed = match offer {
                6 | 7 => flags & COUNTERED != 0,
                10 | 11 => true,
                _ => false,
            };
            if is_listed {
                listed.extend(befores.iter().map(|&before| (offer, before, flags)));
            }
        }
    }
    listed
}

/// On foreign ledgers rows of any type and status have reduced words. A type 8 row
/// can only be confirmed, and nothing is given back to types 5 and 8.
pub fn listed_reduced() -> BTreeSet<(Reduced, u32)> {
    let mut listed = BTreeSet::new();
    for met in REDUCED {
        let types: &[u32] = match met {
            Reduced::Confirmed => &[1, 2, 3, 4, 5, 6, 7, 8],
            Reduced::BackToAvailable | Reduced::BackToDisplaced => &[1, 2, 3, 4, 6, 7],
            _ => &[1, 2, 3, 4, 5, 6, 7],
        };
        listed.extend(types.iter().map(|&reqtype| (met, reqtype)));
    }
    listed
}

pub fn listed_moves() -> BTreeSet<(u32, u32, u32)> {
    let moves = MOVES
        .iter()
        .flat_map(|&(kind, after, befores)| befores.iter().map(move |&b| (kind, b, after)));
    let approvals = OPEN.iter().map(|&status| (APPROVE, status, status));
    moves.chain(approvals).collect()
}

pub fn listed_effects() -> BTreeSet<Effect> {
    let mut effects = BTreeSet::new();
    for kind in [SELLER_STATUS, CUSTOMER_STATUS, LAPSE] {
        for reqtype in ORIGINAL_FIRM..=FULL_TRANSFER {
            effects.insert((kind, Moved::Confirmed, reqtype, Back::Nowhere));
        }
        effects.insert((kind, Moved::Confirmed, RELINQUISH, Back::ToAvailable));
        effects.insert((kind, Moved::Confirmed, RELINQUISH, Back::ToDisplaced));
    }
    for reqtype in [PART_TRANSFER, FULL_TRANSFER] {
        effects.insert((APPROVE, Moved::Confirmed, reqtype, Back::Nowhere));
    }
    for reqtype in ORIGINAL_FIRM..=FULL_TRANSFER {
        effects.insert((SELLER_STATUS, Moved::Displaced, reqtype, Back::Nowhere));
        effects.insert((REDUCE, Moved::Reduced, reqtype, Back::Nowhere));
        if reqtype <= ORIGINAL_NON_FIRM {
            effects.insert((SELLER_STATUS, Moved::Annulled, reqtype, Back::Nowhere));
        } else {
            effects.insert((SELLER_STATUS, Moved::Annulled, reqtype, Back::ToAvailable));
            effects.insert((SELLER_STATUS, Moved::Annulled, reqtype, Back::ToDisplaced));
        }
    }
    effects
}

/// Each damage with the numbers that a ledger so damaged can give.
pub fn listed_damaged() -> BTreeSet<(Damage, u32)> {
    let numbers = |damage: Damage| damage.numbers().iter().map(move |&number| (damage, number));
    Damage::ALL.into_iter().flat_map(numbers).collect()
}

/// Each ending of a contest with the types of row that can meet it.
pub fn listed_contested() -> BTreeSet<(Ending, u32)> {
    let mut listed = BTreeSet::new();
    for ending in Ending::ALL {
        let types = if ending.types().is_empty() { &[0] } else { ending.types() };
        listed.extend(types.iter().map(|&reqtype| (ending, reqtype)));
    }
    listed
}

/// Each obstacle with the steps and the types of row that can meet it.
pub fn listed_stopped() -> BTreeSet<(Obstacle, Step, u32)> {
    let mut listed = BTreeSet::new();
    for obstacle in Obstacle::ALL {
        let types = if obstacle.types().is_empty() { &[0] } else { obstacle.types() };
        for &step in obstacle.steps() {
            listed.extend(types.iter().map(|&reqtype| (obstacle, step, reqtype)));
        }
    }
    listed
}

/// All zones but UT can pass the last second. Stamps of the same bytes have the same second.
pub fn listed_compared() -> BTreeSet<Compared> {
    let mut listed: BTreeSet<_> = [Compared::ByFirst, Compared::BySecond, Compared::ByBoth].into();
    listed.extend((0..9).map(Compared::OfZone));
    listed.extend((1..9).map(Compared::Past));
    for order in [EARLIER, SAME, LATER] {
        listed.extend([Compared::InOneZone(order), Compared::InTwoZones(order)]);
        let of_bytes = [EARLIER, LATER].into_iter().filter(|&of_bytes| of_bytes != order);
        listed.extend(of_bytes.map(|of_bytes| Compared::NotAsBytes(order, of_bytes)));
    }
    listed
}

fn listed_calls() -> BTreeSet<(&'static str, u32)> {
    let calls: [(&str, &[u32]); 9] = [
        ("annuls in order", &ANNULS_IN_ORDER),
        ("charge", &CHARGE),
        ("contest", &CONTEST),
        ("create", &CREATE),
        ("open", &OPENING),
        ("batch", &BATCH),
        ("read stamp", &READ_STAMP),
        ("compare stamps", &COMPARE_STAMPS),
        ("write stamp", &WRITE_STAMP),
    ];
    calls.iter().flat_map(|&(call, numbers)| numbers.iter().map(move |&n| (call, n))).collect()
}

#[cfg(test)]
mod tests {
    use super::*;
    use crate::edges::one_row;
    use crate::rules::{Model, Rules};

    #[test]
    fn the_tables_hold_what_the_paper_lists() {
        assert_eq!(listed_pairs().len(), 73 + 9 + 4);
        // Kinds 2 and 3 move as the paper's two lists say.
        let of = |kind| listed_moves().iter().filter(|mv| mv.0 == kind).count();
        assert_eq!(of(SELLER_STATUS), 1 + 2 + 3 + 4 + 4 + 8 + 6 + 6 + 4 + 4 + 4 + 1 + 1 + 8);
        assert_eq!(of(CUSTOMER_STATUS), 2 + 4 + 8);
        assert_eq!(of(APPROVE), 8 + 1);
        assert_eq!(listed_effects().len(), 3 * 9 + 2 + 7 + 7 + 2 + 5 * 2);
        assert_eq!(listed_over_posting().len(), 3 * 8 + 7 + 2);
        assert_eq!(listed_reduced().len(), 8 * 7 + 8 + 2 * 6);
        assert_eq!(listed_withdrawn().len(), 4 * 17);
        let accepted = listed_withdrawn().into_iter().filter(|&(_, _, number)| number == 0);
        assert_eq!(accepted.count(), 3 * 8 + 3);
        assert_eq!(listed_offered().len(), 2 * 6 * 2 + 2 * 4 * 4);
        // Of the endings 4 find no row, 2 meet all types, 1 a record; 5 types may not be firm.
        assert_eq!(listed_contested().len(), 4 + 2 * 8 + 1 + 5 + 13 * 5);
        // Of the obstacles 2 come before any step, 1 finds no row, 1 is never first; 2 meet
        // all types, 1 a record, 2 all but records, 1 those that come from another row.
        assert_eq!(listed_stopped().len(), 2 + 2 + 8 + 2 * (2 * 8 + 1 + 2 * 7 + 5));
        assert_eq!(listed_compared().len(), 3 + 9 + 8 + 3 * 2 + 4);
    }

    #[test]
    fn a_pair_never_reached_is_seen() {
        let mut reached = Reached::default();
        assert!(reached.check().is_err());
        let once = || listed_pairs().into_iter().map(|pair| (pair, 1)).collect();
        reached.pairs = once();
        reached.moves = listed_moves();
        reached.effects = listed_effects();
        reached.over_posting = listed_over_posting();
        let all_withdrawn = || listed_withdrawn().into_iter().map(|met| (met, 1)).collect();
        reached.withdrawn = all_withdrawn();
        reached.offered = listed_offered();
        let all_met = || listed_reduced().into_iter().map(|met| (met, 1)).collect();
        reached.reduced = all_met();
        reached.calls = listed_calls();
        let all_found = || FOUND.into_iter().map(|found| (found, 1)).collect();
        reached.found = all_found();
        reached.damaged = listed_damaged().into_iter().map(|damaged| (damaged, 1)).collect();
        let all_ended = || listed_contested().into_iter().map(|ended| (ended, 1)).collect();
        reached.contested = all_ended();
        let all_stopped = || listed_stopped().into_iter().map(|stopped| (stopped, 1)).collect();
        reached.stopped = all_stopped();
        let all_in_order = || IN_ORDER.into_iter().map(|met| (met, 1)).collect();
        reached.in_order = all_in_order();
        let all_compared = || listed_compared().into_iter().map(|met| (met, 1)).collect();
        reached.compared = all_compared();
        assert_eq!(reached.check(), Ok(()));
        for met in listed_compared() {
            reached.compared.remove(&met);
            assert!(reached.check().unwrap_err().contains(&format!("never reached [{met:?}]")));
            reached.compared = all_compared();
        }
        reached.compared.insert(Compared::Past(0), 1);
        assert!(reached.check().unwrap_err().contains("not in the paper [Past(0)]"));
        reached.compared = all_compared();
        reached.stopped.remove(&(Obstacle::OverBound, Step::Later, FULL_TRANSFER));
        assert!(reached.check().unwrap_err().contains("never reached [(OverBound, Later, 7)]"));
        reached.stopped = all_stopped();
        reached.stopped.insert((Obstacle::Twice, Step::First, RESALE), 1);
        assert!(reached.check().unwrap_err().contains("not in the paper [(Twice, First, 3)]"));
        reached.stopped = all_stopped();
        for met in IN_ORDER {
            reached.in_order.remove(&met);
            assert!(reached.check().unwrap_err().contains(&format!("never reached [{met:?}]")));
            reached.in_order = all_in_order();
        }
        reached.in_order.insert(InOrder::Freed(Obstacle::OverBound), 1);
        assert!(reached.check().unwrap_err().contains("not in the paper [Freed(OverBound)]"));
        reached.in_order = all_in_order();
        reached.contested.remove(&(Ending::NoAnswer, FULL_TRANSFER));
        assert!(reached.check().unwrap_err().contains("never reached [(NoAnswer, 7)]"));
        reached.contested = all_ended();
        reached.contested.insert((Ending::Lost, ORIGINAL_NON_FIRM), 1);
        assert!(reached.check().unwrap_err().contains("not in the paper [(Lost, 2)]"));
        reached.contested = all_ended();
        reached.calls.remove(&("open", UNBALANCED));
        assert!(reached.check().unwrap_err().contains("never reached [(\"open\", 20)]"));
        reached.calls = listed_calls();
        for found in FOUND {
            reached.found.remove(&found);
            assert!(reached.check().unwrap_err().contains(&format!("never reached [{found:?}]")));
            reached.found = all_found();
        }
        reached.pairs.remove(&(LAPSE, NOT_APPROVED, Of::Plain));
        assert!(reached.check().unwrap_err().contains("(6, 13, Plain)"));
        reached.pairs = once();
        reached.pairs.insert((SELLER_STATUS, NOT_APPROVED, Of::Plain), 1);
        assert!(reached.check().unwrap_err().contains("(2, 13, Plain)"));
        reached.pairs = once();
        reached.over_posting.remove(&(APPROVE, Moved::Confirmed, FULL_TRANSFER));
        assert!(reached.check().unwrap_err().contains("(4, Confirmed, 7)"));
        reached.over_posting = listed_over_posting();
        reached.withdrawn.remove(&(REBID, ASKED, 0));
        assert!(reached.check().unwrap_err().contains("never reached [(8, 33, 0)]"));
        reached.withdrawn = all_withdrawn();
        reached.withdrawn.insert((REBID, PRECONFIRMED, 0), 1);
        assert!(reached.check().unwrap_err().contains("not in the paper [(8, 1, 0)]"));
        reached.withdrawn = all_withdrawn();
        reached.offered.remove(&(COUNTEROFFER, CR_ACCEPTED, COUNTERED));
        assert!(reached.check().unwrap_err().contains("never reached [(6, 11, 32)]"));
        reached.offered = listed_offered();
        reached.offered.insert((CR_COUNTEROFFER, QUEUED, PRECONFIRMED));
        assert!(reached.check().unwrap_err().contains("not in the paper [(7, 1, 1)]"));
        reached.offered = listed_offered();
        reached.reduced.remove(&(Reduced::NoMoreAtBound, RESALE));
        assert!(reached.check().unwrap_err().contains("never reached [(NoMoreAtBound, 3)]"));
        reached.reduced = all_met();
        reached.reduced.insert((Reduced::Annulled, RELINQUISH), 1);
        assert!(reached.check().unwrap_err().contains("not in the paper [(Annulled, 8)]"));
        reached.reduced = all_met();
        reached.damaged.insert((Damage::Unsound, UNBALANCED), 1);
        assert!(reached.check().unwrap_err().contains("not in the paper [(Unsound, 20)]"));
    }

    /// What a reduction meets in the reduced words of a row.
    fn met_in(reduced: [u32; 2], available: [u32; 2], profile: [u32; 2]) -> Vec<Reduced> {
        let mut ledger = one_row(available, reduced);
        let action =
            Action { kind: REDUCE, actor: 1, reference: 1, length: 2, ..Action::default() };
        let mut postings = vec![0; posting_words(3)];
        let answer = act(&mut ledger, &mut postings, &profile, &action);
        let mut reached = Reached::default();
        reached.note(&ledger, &postings, &profile, &action, &answer);
        reached.reduced.into_keys().map(|(met, _)| met).collect()
    }

    #[test]
    fn reduced_words_are_told_apart() {
        use super::Reduced::*;
        const FULL: u32 = MAX_MW;
        assert_eq!(met_in([0, 0], [5, 5], [5, 0]), [First]);
        assert_eq!(met_in([0, 1], [5, 5], [5, 0]), [Again]);
        assert_eq!(met_in([0, FULL - 5], [5, 5], [0, 5]), [Again, ToBound]);
        assert_eq!(met_in([0, FULL], [5, 5], [5, 0]), [Again, NoMoreAtBound]);
        assert_eq!(met_in([0, 0], [FULL, 5], [FULL, 0]), [First, ToBound]);
        assert_eq!(met_in([0, FULL], [5, 5], [0, 1]), [Over]);
        assert_eq!(met_in([0, FULL], [5, 5], [6, 1]), [ShortAndOver]);
        assert_eq!(met_in([0, FULL], [5, 5], [6, 0]), []);
        assert_eq!(met_in([0, FULL], [5, 5], [0, 0]), []);
    }

    /// What comparing two stamps meets.
    fn met_by(first: &str, second: &str) -> Vec<Compared> {
        let mut reached = Reached::default();
        let (first, second) = (first.as_bytes(), second.as_bytes());
        reached.note_comparison(first, second, Model.compare_stamps(first, second));
        reached.compared.into_keys().collect()
    }

    #[test]
    fn comparisons_are_told_apart() {
        use super::Compared::*;
        let noon = "20070423120000ES";
        assert_eq!(met_by(noon, noon), [OfZone(1), InOneZone(SAME)]);
        assert_eq!(met_by(noon, "20070423120001ES"), [OfZone(1), InOneZone(EARLIER)]);
        assert_eq!(
            met_by(noon, "20070423130000ED"),
            [OfZone(1), OfZone(2), InTwoZones(SAME), NotAsBytes(SAME, EARLIER)]
        );
        assert_eq!(met_by("20070423130001ED", noon), [OfZone(1), OfZone(2), InTwoZones(LATER)]);
        assert_eq!(
            met_by(noon, "20070423165959UT"),
            [OfZone(0), OfZone(1), InTwoZones(LATER), NotAsBytes(LATER, EARLIER)]
        );
        // Past the last second, in a zone that is none, and too short.
        assert_eq!(met_by("20991231190000ES", noon), [OfZone(1), Past(1), ByFirst]);
        assert_eq!(met_by(noon, "20991231190000XX"), [OfZone(1), BySecond]);
        assert_eq!(met_by("20991231160000PS", "20070423"), [Past(7), ByBoth]);
        assert_eq!(met_by("21000101000000ES", "20070423240000PS"), [ByBoth]);
    }
}
