//! What annulments in order come to, worked out apart from the model. Nothing is carried
//! out: each step is judged by the ledger as it was handed over and by which rows went
//! before, for a row that stays CONFIRMED has gained the granted of those that came from it.

use luddrisa_model::*;

use crate::limits::both_paths;
use crate::plays::row_named;

/// What an order of annulments is stopped by.
#[derive(Clone, Copy, Debug, PartialEq, Eq, PartialOrd, Ord)]
pub enum Obstacle {
    UnsoundLedger,
    WrongPostings,
    NoReference,
    /// The row went before.
    Twice,
    /// The row is neither CONFIRMED nor open.
    Closed,
    /// The row is open, but not preconfirmed.
    NotPreconfirmed,
    /// The row is a relinquish record at 13.
    RelinquishRecord,
    /// Available differs from granted.
    InUse,
    OverPosting,
    /// A displaced word would pass 100,000. An available one never does: it is over any
    /// posting before.
    OverBound,
}

impl Obstacle {
    pub const ALL: [Obstacle; 10] = [
        Obstacle::UnsoundLedger,
        Obstacle::WrongPostings,
        Obstacle::NoReference,
        Obstacle::Twice,
        Obstacle::Closed,
        Obstacle::NotPreconfirmed,
        Obstacle::RelinquishRecord,
        Obstacle::InUse,
        Obstacle::OverPosting,
        Obstacle::OverBound,
    ];

    /// The number that the annulment gives at its step.
    pub fn number(self) -> u32 {
        match self {
            Obstacle::UnsoundLedger | Obstacle::WrongPostings | Obstacle::OverBound => BAD_LEDGER,
            Obstacle::NoReference => NO_REFERENCE,
            Obstacle::InUse => IN_USE,
            Obstacle::OverPosting => OVER_POSTING,
            _ => BAD_MOVE,
        }
    }

    /// The types of row that can meet it; none where no row is found.
    pub fn types(self) -> &'static [u32] {
        match self {
            Obstacle::UnsoundLedger | Obstacle::WrongPostings | Obstacle::NoReference => &[],
            Obstacle::RelinquishRecord => &[RELINQUISH],
            Obstacle::InUse | Obstacle::OverPosting => &[1, 2, 3, 4, 5, 6, 7],
            Obstacle::OverBound => &[3, 4, 5, 6, 7],
            _ => &[1, 2, 3, 4, 5, 6, 7, 8],
        }
    }

    /// The steps at which it can be met.
    pub fn steps(self) -> &'static [Step] {
        match self {
            Obstacle::UnsoundLedger | Obstacle::WrongPostings => &[Step::First],
            Obstacle::Twice => &[Step::Later],
            _ => &[Step::First, Step::Later],
        }
    }
}

/// Where in a list.
#[derive(Clone, Copy, Debug, PartialEq, Eq, PartialOrd, Ord)]
pub enum Step {
    First,
    Later,
}

impl Step {
    pub fn at(place: usize) -> Step {
        if place == 0 {
            Step::First
        } else {
            Step::Later
        }
    }
}

/// A ledger as it was handed over, and the references that went since, in their order.
pub struct Left<'a> {
    by: &'a Unwinding,
    pub ledger: &'a [u32],
    pub gone: &'a [u32],
    /// By reference: is it among those gone?
    is_gone: Vec<bool>,
}

/// What ledger, postings and references stand against.
type Grounds = fn(&[u32], &[u32], &[u32]) -> Option<Obstacle>;

/// The rules of unwinding, each part the paper's or with a fault.
#[derive(Clone, Copy)]
pub struct Unwinding {
    /// Before any step.
    pub grounds: Grounds,
    /// The references as they are tried, for a ledger and the list.
    pub tried: fn(&[u32], &[u32]) -> Vec<u32>,
    /// Was the reference named before, among these?
    pub named: fn(&[u32], u32) -> bool,
    /// Those that are gone at a step, of those named before.
    pub gone: fn(&[u32]) -> &[u32],
    /// What status and type of a row stand against.
    pub status: fn(&[u32], Row) -> Option<Obstacle>,
    /// Does the row give back when it goes?
    pub gives_back: fn(&[u32], Row) -> bool,
    /// The reference that it gives back to.
    pub receiver: fn(&[u32], Row) -> u32,
    /// The profile that it gives back.
    pub given: usize,
    /// Available of a row at its step.
    pub available: fn(&Left, u32) -> Vec<u32>,
    /// Is a row in use, by its available and granted?
    pub in_use: fn(&[u32], &[u32]) -> bool,
    /// The paths that are asked where a row goes.
    pub paths: fn(&[u32], Row) -> Vec<u32>,
    /// How many times a row is in the use of a path.
    pub times: fn(&Left, u32, u32) -> u32,
    /// Does the use pass the posting, where a row goes?
    pub over: fn(&[u32], Row, &[u32], &[u32]) -> bool,
    /// The profile in which a row that is not CONFIRMED takes what comes back.
    pub takes_in: usize,
    /// From which place among those gone on things come there.
    pub since: fn(&Left, u32) -> usize,
    /// Does such a word pass?
    pub passes: fn(u32) -> bool,
}

/// As the paper has it.
pub const UNWINDING: Unwinding = Unwinding {
    grounds: |ledger, postings, references| match references {
        [] => None,
        _ if !sound(ledger) => Some(Obstacle::UnsoundLedger),
        _ if !postings_fit(postings, ledger[HOURS]) => Some(Obstacle::WrongPostings),
        _ => None,
    },
    tried: |_, references| references.to_vec(),
    named: |before, reference| before.contains(&reference),
    gone: |before| before,
    status,
    gives_back: |ledger, row| {
        row.get(ledger, STATUS) == CONFIRMED && row.get(ledger, TYPE) >= RESALE
    },
    receiver: |ledger, row| row.get(ledger, RELATED),
    given: GRANTED,
    available: |left, reference| left.available(reference),
    in_use: |available, granted| available != granted,
    paths: both_paths,
    times: |left, reference, path| {
        u32::from(left.carries(reference, path) || left.keeps_free(reference, path))
    },
    over: |_, _, used, posted| used.iter().zip(posted).any(|(mw, posted)| mw > posted),
    takes_in: DISPLACED_MW,
    since: |left, reference| left.place_after(reference),
    passes: |mw| mw > MAX_MW,
};

/// What status and type of a row stand against.
pub fn status(ledger: &[u32], row: Row) -> Option<Obstacle> {
    let preconfirmed = row.get(ledger, FLAGS) & PRECONFIRMED != 0;
    match row.get(ledger, STATUS) {
        CONFIRMED if row.get(ledger, TYPE) == RELINQUISH => Some(Obstacle::RelinquishRecord),
        CONFIRMED => None,
        open if !is_open(open) => Some(Obstacle::Closed),
        _ => (!preconfirmed).then_some(Obstacle::NotPreconfirmed),
    }
}

fn add(sums: &mut [u32], times: u32, words: &[u32]) {
    for (sum, mw) in sums.iter_mut().zip(words) {
        *sum += times * mw;
    }
}

impl<'a> Left<'a> {
    pub fn new(by: &'a Unwinding, ledger: &'a [u32], gone: &'a [u32]) -> Left<'a> {
        let mut is_gone = vec![false; ledger[USED] as usize + 1];
        gone.iter().for_each(|&reference| is_gone[reference as usize] = true);
        Left { by, ledger, gone, is_gone }
    }

    pub fn field(&self, reference: u32, field: usize) -> u32 {
        Row::of(self.ledger, reference).get(self.ledger, field)
    }

    fn words(&self, reference: u32, profile: usize) -> &[u32] {
        &self.ledger[Row::of(self.ledger, reference).profile(profile)]
    }

    pub fn was_confirmed(&self, reference: u32) -> bool {
        self.field(reference, STATUS) == CONFIRMED
    }

    pub fn went(&self, reference: u32) -> bool {
        self.is_gone[reference as usize]
    }

    /// CONFIRMED still.
    pub fn is_confirmed(&self, reference: u32) -> bool {
        self.was_confirmed(reference) && !self.went(reference)
    }

    /// The path carries the row.
    pub fn carries(&self, reference: u32, path: u32) -> bool {
        self.is_confirmed(reference) && self.field(reference, PATH) == path
    }

    /// The path is kept free for the row's return.
    pub fn keeps_free(&self, reference: u32, path: u32) -> bool {
        let related = self.field(reference, RELATED);
        self.field(reference, TYPE) == REDIRECT_NON_FIRM
            && self.is_confirmed(reference)
            && self.carries(related, path)
    }

    /// The rows that went, from a place on, and gave back, each with its receiver.
    fn gave_back(&self, since: usize) -> impl Iterator<Item = (u32, u32)> + '_ {
        let row = |reference: u32| Row::of(self.ledger, reference);
        let gives = move |reference: &u32| (self.by.gives_back)(self.ledger, row(*reference));
        let gone = self.gone[since..].iter().copied().filter(gives);
        gone.map(move |reference| (reference, (self.by.receiver)(self.ledger, row(reference))))
    }

    /// A profile of a row with what came back to it from a place on.
    fn with_given(&self, reference: u32, profile: usize, since: usize) -> Vec<u32> {
        let mut words = self.words(reference, profile).to_vec();
        for (gone, _) in self.gave_back(since).filter(|&(_, receiver)| receiver == reference) {
            add(&mut words, 1, self.words(gone, self.by.given));
        }
        words
    }

    /// Available of a row that is CONFIRMED still.
    pub fn available(&self, reference: u32) -> Vec<u32> {
        self.with_given(reference, AVAILABLE, 0)
    }

    /// The place after which things come to a row's displaced: after it went itself, or all
    /// along where it was not CONFIRMED.
    pub fn place_after(&self, reference: u32) -> usize {
        let went = self.gone.iter().position(|&gone| gone == reference);
        went.filter(|_| self.was_confirmed(reference)).map_or(0, |place| place + 1)
    }

    /// Use of a path: what the rows that count had, and what came back to such rows.
    pub fn use_of(&self, path: u32) -> Vec<u32> {
        let mut used = vec![0; self.ledger[HOURS] as usize];
        for reference in 1..=self.ledger[USED] {
            let times = (self.by.times)(self, reference, path);
            add(&mut used, times, self.words(reference, AVAILABLE));
        }
        for (gone, receiver) in self.gave_back(0) {
            let times = (self.by.times)(self, receiver, path);
            add(&mut used, times, self.words(gone, self.by.given));
        }
        used
    }

    /// Is one of the paths that are asked used beyond its posting, once a row is gone?
    fn is_over(&self, postings: &[u32], row: Row) -> bool {
        let mut asked = (self.by.paths)(self.ledger, row);
        asked.dedup();
        asked.into_iter().any(|path| {
            let posted = postings.get(posted(path, row.hours));
            posted
                .is_some_and(|posted| (self.by.over)(self.ledger, row, &self.use_of(path), posted))
        })
    }

    /// What the next step is stopped by; `before` are the references named before it.
    fn obstacle(&self, postings: &[u32], before: &[u32], reference: u32) -> Option<Obstacle> {
        let &Left { by, ledger, gone, .. } = self;
        let Some(row) = row_named(ledger, reference) else { return Some(Obstacle::NoReference) };
        if (by.named)(before, reference) {
            return Some(Obstacle::Twice);
        }
        if let Some(obstacle) = (by.status)(ledger, row) {
            return Some(obstacle);
        }
        // Open rows move nothing.
        if !self.was_confirmed(reference) {
            return None;
        }
        if (by.in_use)(&(by.available)(self, reference), self.words(reference, GRANTED)) {
            return Some(Obstacle::InUse);
        }
        let with_it = [gone, &[reference]].concat();
        let after = Left::new(by, ledger, &with_it);
        if after.is_over(postings, row) {
            return Some(Obstacle::OverPosting);
        }
        let related = row.get(ledger, RELATED);
        if related == 0 || self.is_confirmed(related) {
            return None;
        }
        let displaced = after.with_given(related, by.takes_in, (by.since)(&after, related));
        displaced.into_iter().any(by.passes).then_some(Obstacle::OverBound)
    }
}

/// What a reference meets by itself, on a sound ledger and its postings.
pub fn alone(ledger: &[u32], postings: &[u32], reference: u32) -> Option<Obstacle> {
    Left::new(&UNWINDING, ledger, &[]).obstacle(postings, &[], reference)
}

/// The step that stops a list, and by what; none where all are accepted.
pub fn stopped(
    by: &Unwinding,
    ledger: &[u32],
    postings: &[u32],
    references: &[u32],
) -> Option<(usize, Obstacle)> {
    if let Some(obstacle) = (by.grounds)(ledger, postings, references) {
        return Some((0, obstacle));
    }
    let tried = (by.tried)(ledger, references);
    (0..tried.len()).find_map(|place| {
        let (before, reference) = (&tried[..place], tried[place]);
        let left = Left::new(by, ledger, (by.gone)(before));
        left.obstacle(postings, before, reference).map(|obstacle| (place, obstacle))
    })
}

#[cfg(test)]
mod tests {
    use super::*;

    /// A row: type, status, related reference, path, and granted, available and displaced
    /// of its one hour. All are preconfirmed but row 6.
    type Words = (u32, u32, u32, u32, [u32; 3]);

    const ROWS: [Words; 7] = [
        (ORIGINAL_FIRM, CONFIRMED, 0, 1, [100, 30, 0]),
        (RESALE, CONFIRMED, 1, 1, [50, 50, 0]),
        (REDIRECT_FIRM, CONFIRMED, 1, 2, [20, 20, 0]),
        (RESALE, DISPLACED, 2, 1, [10, 0, 99_995]),
        (RESALE, CONFIRMED, 4, 1, [6, 6, 0]),
        (RESALE, QUEUED, 1, 1, [7, 0, 0]),
        (RESALE, QUEUED, 1, 1, [7, 0, 0]),
    ];

    fn ledger() -> Vec<u32> {
        let used = ROWS.len() as u32;
        let mut ledger = vec![0; ledger_words(used, 1)];
        assert_eq!(create(&mut ledger, used, 1, 1, 3_600, 0), 0);
        ledger[USED] = used;
        for (reference, (reqtype, status, related, path, mw)) in (1..).zip(ROWS) {
            let row = Row::of(&ledger, reference);
            let flags = if reference == 6 { 0 } else { PRECONFIRMED };
            let fields = [reqtype, status, 10, 1, related, 0, 1, flags, 0, 0, 0, path];
            ledger[row.at..row.at + fields.len()].copy_from_slice(&fields);
            for (profile, mw) in [GRANTED, AVAILABLE, DISPLACED_MW].into_iter().zip(mw) {
                ledger[row.profile(profile).start] = mw;
            }
        }
        assert!(sound(&ledger));
        ledger
    }

    /// Where a list is stopped, with so much posted for path 1 and enough for the others.
    fn stops(posted: u32, references: &[u32]) -> Option<(usize, Obstacle)> {
        let mut postings = vec![MAX_MW; posting_words(1)];
        postings[0] = posted;
        stopped(&UNWINDING, &ledger(), &postings, references)
    }

    #[test]
    fn obstacles_are_told_apart() {
        use Obstacle::*;
        let carries = 1_000;
        assert_eq!(stops(carries, &[]), None);
        assert_eq!(stops(MAX_MW + 1, &[]), None);
        assert_eq!(stops(MAX_MW + 1, &[2]), Some((0, WrongPostings)));
        assert_eq!(stops(carries, &[0]), Some((0, NoReference)));
        assert_eq!(stops(carries, &[2, 8]), Some((1, NoReference)));
        assert_eq!(stops(carries, &[7, 2, 7]), Some((2, Twice)));
        assert_eq!(stops(carries, &[4]), Some((0, Closed)));
        assert_eq!(stops(carries, &[7, 6]), Some((1, NotPreconfirmed)));
        assert_eq!(stops(carries, &[2, 1]), Some((1, InUse)));
        assert_eq!(stops(carries, &[3, 2, 1]), None);
        // Row 4 is displaced and has room for 5.
        assert_eq!(stops(carries, &[2, 5]), Some((1, OverBound)));
        let mut unsound = ledger();
        unsound[HEAD_ZERO] = 1;
        let full = vec![MAX_MW; posting_words(1)];
        assert_eq!(stopped(&UNWINDING, &unsound, &full, &[2]), Some((0, UnsoundLedger)));
        assert_eq!(stopped(&UNWINDING, &unsound, &full, &[]), None);
        let mut record = ledger();
        Row::of(&record, 3).set(&mut record, TYPE, REDIRECT_NON_FIRM);
        Row::of(&record, 5).set(&mut record, TYPE, RELINQUISH);
        Row::of(&record, 5).set(&mut record, RELATED, 3);
        assert_eq!(stopped(&UNWINDING, &record, &full, &[2, 5]), Some((1, RelinquishRecord)));
    }

    #[test]
    fn use_follows_what_went() {
        // Path 1 carries 30, 50 and 6; 20 more come back from path 2.
        assert_eq!(stops(85, &[2]), Some((0, Obstacle::OverPosting)));
        assert_eq!(stops(86, &[2]), None);
        assert_eq!(stops(105, &[3]), Some((0, Obstacle::OverPosting)));
        assert_eq!(stops(106, &[3]), None);
        let ledger = ledger();
        let used =
            |gone: &[u32]| [1, 2].map(|path| Left::new(&UNWINDING, &ledger, gone).use_of(path)[0]);
        assert_eq!(used(&[]), [86, 20]);
        assert_eq!(used(&[2]), [86, 20]);
        assert_eq!(used(&[3, 7]), [106, 0]);
        assert_eq!(used(&[3, 2, 1]), [6, 0]);
        assert_eq!(Left::new(&UNWINDING, &ledger, &[3, 2]).available(1), [100]);
        // As a non-firm redirect row 3 keeps 20 of path 1 free, as long as row 1 stands.
        let mut kept = ledger.clone();
        Row::of(&kept, 3).set(&mut kept, TYPE, REDIRECT_NON_FIRM);
        let used = |gone: &[u32]| Left::new(&UNWINDING, &kept, gone).use_of(1)[0];
        assert_eq!([used(&[]), used(&[3]), used(&[1])], [106, 106, 56]);
    }

    #[test]
    fn every_obstacle_has_its_place() {
        assert!(Obstacle::ALL.is_sorted());
        assert_eq!(Obstacle::ALL.len(), 1 + Obstacle::OverBound as usize);
        let of = |number| Obstacle::ALL.iter().filter(|one| one.number() == number).count();
        assert_eq!([1, 4, 11, 15, 22].map(of), [3, 1, 4, 1, 1]);
    }
}
