//! The day at the desk, each refusal once, withdrawals, contests, annulments in order, and
//! stamps.

use super::*;

/// A ledger and its postings with a word slice that profiles are put into.
struct Desk {
    ledger: Vec<u32>,
    postings: Vec<u32>,
    words: Vec<u32>,
    tally: Tally,
}

impl Desk {
    /// Provider 1, window 3,600, base hour 0, every path posted in full.
    fn new(rows: u32, hours: u32) -> Desk {
        let postings = vec![MAX_MW; posting_words(hours)];
        Desk { postings, ..Desk::with_nothing_posted(rows, hours) }
    }

    fn with_nothing_posted(rows: u32, hours: u32) -> Desk {
        let mut ledger = vec![9; ledger_words(rows, hours)];
        assert_eq!(create(&mut ledger, rows, hours, 1, 3_600, 0), 0);
        let postings = vec![0; posting_words(hours)];
        Desk { ledger, postings, words: Vec::new(), tally: Tally::new(hours) }
    }

    /// One action with a profile; whatever it answers, the ledger stays sound,
    /// a refusal changes no word, and only kind 8 changes postings.
    fn act(&mut self, mut action: Action, profile: &[u32]) -> Answer {
        if !profile.is_empty() {
            action.offset = self.words.len() as u32;
            action.length = profile.len() as u32;
            self.words.extend_from_slice(profile);
        }
        let before = self.ledger.clone();
        let posted_before = self.postings.clone();
        let answer = act(&mut self.ledger, &mut self.postings, &self.words, &action);
        assert_eq!(sound(&self.ledger), sound(&before));
        if answer.number != 0 {
            assert_eq!(answer, Answer::refused(answer.number));
        }
        if answer.number != 0 || action.kind == POST {
            assert_eq!(self.ledger, before);
        }
        if answer.number != 0 || action.kind != POST {
            assert_eq!(self.postings, posted_before);
        }
        self.tally.feed(&self.words, &action, &answer);
        answer
    }

    fn number(&mut self, action: Action, profile: &[u32]) -> u32 {
        self.act(action, profile).number
    }

    fn ok(&mut self, action: Action, profile: &[u32]) -> Answer {
        let answer = self.act(action, profile);
        assert_eq!(answer.number, 0, "{action:?}");
        answer
    }

    /// A confirmed original of customer 10, all hours, all with the same megawatts.
    fn original(&mut self, reqtype: u32, mw: u32) -> u32 {
        let hours = self.ledger[HOURS];
        let profile = vec![mw; hours as usize];
        let reference =
            self.ok(submission(10, reqtype, 1, 0, 0, hours, 1, 500), &profile).reference;
        self.ok(seller(1, reference, ACCEPTED, 500), &[]);
        reference
    }

    /// A confirmed row of customer 10 on a path, related to another over all its hours.
    fn derived(&mut self, reqtype: u32, related: u32, path: u32, mw: &[u32]) -> u32 {
        let row = Row::of(&self.ledger, related);
        let (start, stop) = (row.get(&self.ledger, START), row.get(&self.ledger, STOP));
        let seller_of =
            if matches!(reqtype, RESALE | PART_TRANSFER | FULL_TRANSFER) { 10 } else { 1 };
        let submitted = submission(10, reqtype, seller_of, related, start, stop, 1, 0);
        let reference = self.ok(Action { path, ..submitted }, mw).reference;
        self.ok(seller(seller_of, reference, ACCEPTED, 0), &[]);
        reference
    }

    /// A confirmed original of customer 10 in some hours, 100 MW in each.
    fn part_day(&mut self, reqtype: u32, start: u32, stop: u32) -> u32 {
        let profile = vec![100; (stop - start) as usize];
        let submitted = submission(10, reqtype, 1, 0, start, stop, 1, 0);
        let reference = self.ok(submitted, &profile).reference;
        self.ok(seller(1, reference, ACCEPTED, 0), &[]);
        reference
    }

    /// A contest; only one that is lost changes a word.
    fn contest(&mut self, contest: Contest, moves: &[u32], replies: &[u32]) -> Answer {
        let before = self.ledger.clone();
        let answer = crate::contest(&mut self.ledger, &self.postings, &contest, moves, replies);
        assert_eq!(sound(&self.ledger), sound(&before));
        let lost = answer.number == 0 && answer.after == DISPLACED;
        assert_eq!(self.ledger != before, lost);
        match answer.number {
            0 if lost => assert_eq!((answer.reference, answer.before), (contest.reference, 13)),
            0 => assert_eq!(answer, stands(contest.reference)),
            number => assert_eq!(answer, Answer::refused(number)),
        }
        self.tally.feed_contest(&contest, &answer);
        answer
    }

    /// How a contest by the provider ends, on a copy.
    fn ending(&self, terms: (u32, u32), moves: &[u32], replies: &[u32]) -> Ended {
        let (challenger, holder) = terms;
        let contest = Contest { actor: 1, reference: 1, challenger, holder };
        let mut ledger = self.ledger.clone();
        let answer = crate::contest(&mut ledger, &self.postings, &contest, moves, replies);
        match answer {
            Answer { number: 0, before: 13, after: 15, .. } => Ended::Lost,
            Answer { number: 0, before: 13, after: 13, .. } => Ended::Stands,
            Answer { number, .. } => Ended::Refused(number),
        }
    }

    /// A move without megawatts from one status to another, and the flags that it leaves.
    fn moves(&mut self, action: Action, profile: &[u32], (before, after): (u32, u32), flags: u32) {
        let reference = action.reference;
        let expected = Answer { number: 0, reference, before, after, moved: 0 };
        assert_eq!(self.act(action, profile), expected, "{action:?}");
        assert_eq!((self.field(reference, STATUS), self.field(reference, FLAGS)), (after, flags));
    }

    fn annuls(&self, references: &[u32]) -> bool {
        annuls_in_order(&self.ledger, &self.postings, references)
    }

    fn field(&self, reference: u32, field: usize) -> u32 {
        Row::of(&self.ledger, reference).get(&self.ledger, field)
    }

    fn set(&mut self, reference: u32, field: usize, word: u32) {
        Row::of(&self.ledger, reference).set(&mut self.ledger, field, word);
    }

    /// Words of a profile that no list leaves behind.
    fn set_profile(&mut self, reference: u32, profile: usize, words: &[u32]) {
        let place = Row::of(&self.ledger, reference).profile(profile);
        self.ledger[place].copy_from_slice(words);
    }

    fn profile(&self, reference: u32, profile: usize) -> &[u32] {
        &self.ledger[Row::of(&self.ledger, reference).profile(profile)]
    }
}

/// What the answer to a contest tells.
#[derive(Clone, Copy, Debug, PartialEq, Eq)]
enum Ended {
    Lost,
    /// Kept, or left unfinished.
    Stands,
    Refused(u32),
}

/// The answer where the row stays with its holder.
fn stands(reference: u32) -> Answer {
    Answer { number: 0, reference, before: CONFIRMED, after: CONFIRMED, moved: 0 }
}

#[allow(clippy::too_many_arguments)]
fn submission(
    actor: u32,
    reqtype: u32,
    seller: u32,
    related: u32,
    start: u32,
    stop: u32,
    flags: u32,
    price: u32,
) -> Action {
    Action {
        kind: SUBMIT,
        actor,
        reqtype,
        seller,
        related,
        start,
        stop,
        flags,
        price,
        path: 1,
        ..Action::default()
    }
}

fn on_path(path: u32, action: Action) -> Action {
    Action { path, ..action }
}

fn seller(actor: u32, reference: u32, status: u32, price: u32) -> Action {
    Action { kind: SELLER_STATUS, actor, reference, status, price, ..Action::default() }
}

fn customer(actor: u32, reference: u32, status: u32, price: u32) -> Action {
    Action { kind: CUSTOMER_STATUS, actor, reference, status, price, ..Action::default() }
}

fn on(kind: u32, actor: u32, reference: u32) -> Action {
    Action { kind, actor, reference, ..Action::default() }
}

fn posting(path: u32, start: u32, stop: u32) -> Action {
    Action { kind: POST, actor: 1, path, start, stop, ..Action::default() }
}

fn clock(actor: u32, time: u32) -> Action {
    Action { kind: CLOCK, actor, time, ..Action::default() }
}

const DAY: [[u32; 6]; 14] = [
    [1, 0, 1, 0, 1, 0],
    [2, 0, 1, 1, 10, 0],
    [3, 0, 1, 10, 13, 400],
    [4, 0, 2, 0, 1, 0],
    [5, 0, 2, 1, 13, 100],
    [6, 0, 3, 0, 1, 0],
    [7, 0, 3, 1, 13, 90],
    [8, 0, 4, 0, 1, 0],
    [9, 14, 0, 0, 0, 0],
    [10, 0, 1, 13, 15, 210],
    [11, 0, 5, 0, 1, 0],
    [12, 0, 5, 1, 13, 20],
    [13, 0, 2, 13, 16, 100],
    [14, 15, 0, 0, 0, 0],
];

/// The day's actions with their profiles.
fn day() -> [(Action, &'static [u32]); 14] {
    [
        (submission(10, ORIGINAL_FIRM, 1, 0, 0, 4, 0, 500), &[100; 4]),
        (seller(1, 1, ACCEPTED, 500), &[]),
        (customer(10, 1, CONFIRMED, 500), &[]),
        (submission(20, RESALE, 10, 1, 1, 3, 1, 700), &[40, 60]),
        (seller(10, 2, ACCEPTED, 700), &[]),
        (on_path(2, submission(10, REDIRECT_NON_FIRM, 1, 1, 2, 4, 1, 0)), &[40, 50]),
        (seller(1, 3, ACCEPTED, 0), &[]),
        (submission(30, RESALE, 10, 1, 2, 3, 1, 0), &[1]),
        (seller(10, 4, ACCEPTED, 0), &[]),
        (seller(1, 1, DISPLACED, 0), &[]),
        (on_path(2, submission(10, RELINQUISH, 1, 3, 3, 4, 1, 0)), &[20]),
        (seller(1, 5, ACCEPTED, 0), &[]),
        (seller(10, 2, ANNULLED, 0), &[]),
        (seller(1, 3, ANNULLED, 0), &[]),
    ]
}

/// The day's ledger before its first action: paths 1 and 2 are posted at 100.
fn before_the_day() -> Desk {
    let mut desk = Desk::with_nothing_posted(8, 4);
    for path in [1, 2] {
        assert_eq!(desk.act(posting(path, 0, 4), &[100; 4]), Answer::default());
    }
    desk
}

#[test]
fn day_at_the_desk() {
    let mut desk = before_the_day();
    let mut lines = Vec::new();
    for (number, (action, profile)) in (1..).zip(day()) {
        let answer = desk.act(action, profile);
        lines.push([
            number,
            answer.number,
            answer.reference,
            answer.before,
            answer.after,
            answer.moved,
        ]);
    }
    assert_eq!(lines, DAY);
    assert_eq!(desk.profile(1, DISPLACED_MW), [100, 100, 60, 70]);
    assert_eq!(desk.profile(1, AVAILABLE), [0; 4]);
    assert_eq!(desk.profile(3, AVAILABLE), [0, 0, 40, 30]);
    assert_eq!((1..=5).map(|n| desk.field(n, PATH)).collect::<Vec<_>>(), [1, 1, 2, 1, 2]);
    assert_eq!(desk.postings[..8], [100; 8]);
    assert_eq!(balanced(&desk.ledger, &desk.tally), Ok(()));
    assert_eq!(open(&desk.ledger), 0);
}

#[test]
fn day_at_the_desk_in_one_batch() {
    let profiles = [100, 100, 100, 100, 40, 60, 40, 50, 1, 20];
    let with = |action: Action, offset, length| Action { offset, length, ..action };
    let list = [
        with(posting(1, 0, 4), 0, 4),
        with(posting(2, 0, 4), 0, 4),
        with(submission(10, ORIGINAL_FIRM, 1, 0, 0, 4, 0, 500), 0, 4),
        seller(1, 1, ACCEPTED, 500),
        customer(10, 1, CONFIRMED, 500),
        with(submission(20, RESALE, 10, 1, 1, 3, 1, 700), 4, 2),
        seller(10, 2, ACCEPTED, 700),
        with(on_path(2, submission(10, REDIRECT_NON_FIRM, 1, 1, 2, 4, 1, 0)), 6, 2),
        seller(1, 3, ACCEPTED, 0),
        with(submission(30, RESALE, 10, 1, 2, 3, 1, 0), 8, 1),
        seller(10, 4, ACCEPTED, 0),
        seller(1, 1, DISPLACED, 0),
        with(on_path(2, submission(10, RELINQUISH, 1, 3, 3, 4, 1, 0)), 9, 1),
        seller(1, 5, ACCEPTED, 0),
        seller(10, 2, ANNULLED, 0),
        seller(1, 3, ANNULLED, 0),
    ];
    let mark = Answer { number: 77, reference: 77, before: 77, after: 77, moved: 77 };
    let mut desk = Desk::with_nothing_posted(8, 4);
    let fresh = (desk.ledger.clone(), desk.postings.clone());

    let mut few = [mark; 15];
    let number = batch(&mut desk.ledger, &mut desk.postings, &profiles, &list, &mut few);
    assert_eq!(number, TOO_FEW_ANSWERS);
    assert_eq!((&(desk.ledger.clone(), desk.postings.clone()), few), (&fresh, [mark; 15]));

    let mut answers = [mark; 18];
    assert_eq!(batch(&mut desk.ledger, &mut desk.postings, &profiles, &list, &mut answers), 0);
    assert_eq!(answers[..2], [Answer::default(); 2]);
    for (line, answer) in DAY.iter().zip(&answers[2..]) {
        let words = [answer.number, answer.reference, answer.before, answer.after, answer.moved];
        assert_eq!(line[1..], words, "line {}", line[0]);
    }
    assert_eq!(answers[16..], [mark; 2]);
    assert_eq!(desk.profile(1, DISPLACED_MW), [100, 100, 60, 70]);
    assert_eq!(batch(&mut desk.ledger, &mut [], &[], &[], &mut []), 0);
    assert_eq!(batch(&mut desk.ledger, &mut [], &[], &list[..1], &mut []), TOO_FEW_ANSWERS);
}

#[test]
fn creation_is_refused() {
    let mut words = vec![7; ledger_words(2, 3)];
    for (rows, hours, provider, window, base) in [
        (0, 3, 1, 1, 0),
        (1_025, 3, 1, 1, 0),
        (2, 0, 1, 1, 0),
        (2, 745, 1, 1, 0),
        (2, 3, 0, 1, 0),
        (2, 3, 65_536, 1, 0),
        (2, 3, 1, 0, 0),
        (2, 3, 1, 2_592_001, 0),
        (2, 3, 1, 1, 876_598),
        (2, 3, 1, 1, u32::MAX),
        (1, 3, 1, 1, 0),
    ] {
        assert_eq!(create(&mut words, rows, hours, provider, window, base), BAD_LEDGER);
        assert!(words.iter().all(|&word| word == 7));
    }
    // Rows of four or of six profiles.
    for len in [8 + 2 * (16 + 4 * 3), 8 + 2 * (16 + 6 * 3)] {
        let mut words = vec![7; len];
        assert_eq!(create(&mut words, 2, 3, 1, 1, 0), BAD_LEDGER);
        assert!(words.iter().all(|&word| word == 7));
    }
    assert_eq!(words.len(), 8 + 2 * (16 + 5 * 3));
    assert_eq!(create(&mut words, 2, 3, 65_535, 2_592_000, 876_597), 0);
    assert_eq!(words[..8], [2, 3, 65_535, 2_592_000, 876_597, 0, 0, 0]);
    assert!(words[8..].iter().all(|&word| word == 0));
    assert!(sound(&words));
}

#[test]
fn every_kind_on_an_unsound_ledger() {
    for kind in [0, 1, 2, 3, 4, 5, 6, 7, 8, 9, u32::MAX] {
        let mut desk = Desk::new(1, 1);
        desk.ledger[HEAD_ZERO] = 1;
        assert_eq!(desk.number(on(kind, 1, 1), &[]), BAD_LEDGER);
        assert_eq!(act(&mut [], &mut [], &[], &on(kind, 1, 1)).number, BAD_LEDGER);
    }
}

#[test]
fn every_kind_with_wrong_postings() {
    for kind in [0, 1, 2, 3, 4, 5, 6, 7, 8, 9, u32::MAX] {
        for postings in [vec![], vec![0; 64], vec![0; 127], vec![0; 129], vec![0; 192]] {
            let mut desk = Desk { postings, ..Desk::new(1, 2) };
            assert_eq!(desk.number(on(kind, 0, 1), &[]), BAD_LEDGER);
        }
        for at in [0, 64, 127] {
            let mut desk = Desk::new(1, 2);
            desk.postings[at] = 100_001;
            assert_eq!(desk.number(on(kind, 0, 1), &[]), BAD_LEDGER);
        }
    }
}

#[test]
fn kind_and_actor_come_first() {
    let mut desk = Desk::new(1, 1);
    assert_eq!(desk.number(on(9, 0, 0), &[]), BAD_CODE);
    assert_eq!(desk.number(on(0, 1, 0), &[]), BAD_CODE);
    for kind in 1..=8 {
        assert_eq!(desk.number(on(kind, 0, 99), &[]), BAD_PARTY);
        assert_eq!(desk.number(on(kind, 65_536, 99), &[]), BAD_PARTY);
    }
}

#[test]
fn submission_is_refused() {
    let mut desk = Desk::new(3, 4);
    desk.original(ORIGINAL_FIRM, 100);
    desk.original(ORIGINAL_NON_FIRM, 100);
    let good = submission(10, REDIRECT_FIRM, 1, 1, 1, 3, 0, 0);
    let two = &[5, 6];
    let resale = submission(20, RESALE, 10, 1, 1, 3, 0, 0);
    let cases: [(Action, &[u32], u32); 28] = [
        (Action { reqtype: 9, ..good }, two, BAD_CODE),
        (Action { seller: 0, ..good }, two, BAD_PARTY),
        (Action { start: 3, ..good }, two, BAD_SPAN),
        (Action { stop: 5, ..good }, two, BAD_SPAN),
        (good, &[], BAD_PROFILE),
        (good, &[5], BAD_PROFILE),
        (good, &[5, 100_001], BAD_PROFILE),
        (good, &[0, 0], BAD_PROFILE),
        (Action { flags: 4, ..good }, two, BAD_FLAGS),
        (Action { reqtype: REDIRECT_NON_FIRM, ..good }, two, BAD_FLAGS),
        (Action { flags: 4, path: 0, ..good }, two, BAD_FLAGS),
        (Action { path: 0, ..good }, two, BAD_PATH),
        (Action { path: 65, ..good }, two, BAD_PATH),
        (Action { path: u32::MAX, ..good }, two, BAD_PATH),
        (Action { path: 2, price: 100_000_000, ..resale }, two, BAD_PATH),
        (Action { path: 2, reqtype: PART_TRANSFER, ..resale }, two, BAD_PATH),
        (Action { path: 2, reqtype: FULL_TRANSFER, ..resale }, two, BAD_PATH),
        (Action { path: 2, reqtype: RELINQUISH, ..resale }, two, BAD_PATH),
        (Action { path: 2, related: 0, ..resale }, two, BAD_RELATED),
        (Action { path: 2, related: 3, ..resale }, two, BAD_RELATED),
        (Action { path: 2, reqtype: ORIGINAL_FIRM, ..resale }, two, BAD_RELATED),
        (Action { price: 100_000_000, ..good }, two, BAD_TERMS),
        (Action { related: 0, ..good }, two, BAD_RELATED),
        (Action { related: 2, ..good }, two, BAD_RELATED),
        (Action { related: 3, ..good }, two, BAD_RELATED),
        (Action { reqtype: ORIGINAL_FIRM, ..good }, two, BAD_RELATED),
        (Action { seller: 2, ..good }, two, BAD_PARTY),
        (Action { actor: 11, ..good }, two, BAD_PARTY),
    ];
    for (action, profile, number) in cases {
        assert_eq!(desk.number(action, profile), number, "{action:?} {profile:?}");
    }
    // Outside its slice.
    let outside = Action { offset: u32::MAX, length: 2, ..good };
    assert_eq!(desk.number(outside, &[]), BAD_PROFILE);
    assert_eq!(desk.ok(on_path(64, good), two).reference, 3);
    assert_eq!(desk.field(3, PATH), 64);
    assert_eq!(desk.number(good, two), LEDGER_FULL);
    // A row named is fit or not at any status.
    assert_eq!(desk.number(Action { related: 3, ..resale }, two), BAD_PATH);
    assert_eq!(desk.number(Action { related: 3, path: 64, ..resale }, two), BAD_RELATED);
}

#[test]
fn seller_status_is_refused() {
    let mut desk = Desk::new(8, 2);
    let one = desk.original(ORIGINAL_FIRM, 100);
    let sale = desk.ok(submission(20, RESALE, 10, one, 0, 2, 0, 7), &[50, 60]).reference;
    assert_eq!(desk.number(seller(10, 99, 3, 0), &[]), NO_REFERENCE);
    assert_eq!(desk.number(seller(10, 0, 3, 0), &[]), NO_REFERENCE);
    assert_eq!(desk.number(seller(10, sale, 18, 0), &[]), BAD_CODE);
    assert_eq!(desk.number(seller(20, sale, 3, 0), &[]), BAD_PARTY);
    assert_eq!(desk.number(seller(1, sale, 3, 0), &[]), BAD_PARTY);
    assert_eq!(desk.number(seller(1, sale, ANNULLED, 0), &[]), BAD_MOVE);
    assert_eq!(desk.number(seller(10, sale, CR_ACCEPTED, 7), &[]), BAD_MOVE);
    assert_eq!(desk.number(seller(10, sale, COUNTEROFFER, 7), &[1]), BAD_PROFILE);
    assert_eq!(desk.number(seller(10, sale, COUNTEROFFER, 100_000_000), &[]), BAD_TERMS);
    assert_eq!(desk.number(seller(10, sale, COUNTEROFFER, 9), &[51, 1]), BAD_TERMS);
    assert_eq!(desk.number(seller(10, sale, ACCEPTED, 8), &[]), BAD_TERMS);
    assert_eq!(desk.number(seller(10, sale, ACCEPTED, 7), &[50, 59]), BAD_TERMS);

    // Confirming on acceptance: short, then the related row displaced.
    let big = desk.ok(submission(20, RESALE, 10, one, 0, 2, 1, 7), &[1, 101]).reference;
    assert_eq!(desk.number(seller(10, big, ACCEPTED, 7), &[]), SHORT);
    let small = desk.ok(submission(20, RESALE, 10, one, 0, 2, 1, 7), &[1, 1]).reference;
    desk.ok(Action { offset: 0, ..on(REDUCE, 1, one) }, &[1, 0]);
    assert_eq!(desk.number(seller(1, one, ANNULLED, 0), &[]), IN_USE);
    desk.ok(seller(1, one, DISPLACED, 0), &[]);
    assert_eq!(desk.number(seller(10, small, ACCEPTED, 7), &[]), BAD_RELATED);
    assert_eq!(desk.field(small, STATUS), QUEUED);
    assert_eq!(balanced(&desk.ledger, &desk.tally), Ok(()));
}

#[test]
fn words_over_the_bound_are_refused_last() {
    let mut desk = Desk::new(4, 1);
    let one = desk.original(ORIGINAL_FIRM, 100_000);
    let redirect = desk.derived(REDIRECT_NON_FIRM, one, 2, &[30]);
    let back = submission(10, RELINQUISH, 1, redirect, 0, 1, 1, 0);
    let back = desk.ok(on_path(2, back), &[20]).reference;
    // Words that no list of actions leaves behind.
    let row = Row::of(&desk.ledger, one);
    desk.ledger[row.profile(AVAILABLE).start] = 99_981;
    desk.ledger[row.profile(DISPLACED_MW).start] = 20;
    // Use of path 1 would pass as well, but is not asked.
    assert_eq!(desk.number(seller(1, back, ACCEPTED, 0), &[]), BAD_LEDGER);
    assert_eq!(desk.number(seller(1, redirect, ANNULLED, 0), &[]), OVER_POSTING);
    assert_eq!(desk.number(seller(1, one, DISPLACED, 0), &[]), BAD_LEDGER);
    desk.ledger[row.profile(AVAILABLE).start] = 99_980;
    desk.ok(seller(1, back, ACCEPTED, 0), &[]);
    assert_eq!(desk.profile(one, AVAILABLE), [100_000]);
    // Annulling a row in use is 15 although the word would pass as well.
    assert_eq!(desk.number(seller(1, redirect, ANNULLED, 0), &[]), IN_USE);
    // Given back to displaced it is no use of a path.
    row.set(&mut desk.ledger, STATUS, DISPLACED);
    desk.ledger[row.profile(DISPLACED_MW).start] = 99_991;
    let granted = Row::of(&desk.ledger, redirect).profile(GRANTED).start;
    desk.ledger[granted] = 10;
    assert_eq!(desk.number(seller(1, redirect, ANNULLED, 0), &[]), BAD_LEDGER);
    desk.postings[posted(1, 1)].fill(0);
    assert_eq!(desk.number(seller(1, redirect, ANNULLED, 0), &[]), BAD_LEDGER);
}

#[test]
fn customer_status_is_refused() {
    let mut desk = Desk::new(8, 2);
    let one = desk.original(ORIGINAL_FIRM, 100);
    let part = desk.ok(submission(20, PART_TRANSFER, 10, one, 0, 1, 0, 7), &[50]).reference;
    assert_eq!(desk.number(customer(20, 99, 14, 0), &[]), NO_REFERENCE);
    assert_eq!(desk.number(customer(20, part, 0, 0), &[]), BAD_CODE);
    assert_eq!(desk.number(customer(10, part, 14, 0), &[]), BAD_PARTY);
    assert_eq!(desk.number(customer(20, part, 13, 0), &[]), BAD_MOVE);
    desk.ok(seller(10, part, COUNTEROFFER, 9), &[40]);
    assert_eq!(desk.number(customer(20, part, REBID, 9), &[1, 2]), BAD_PROFILE);
    assert_eq!(desk.number(customer(20, part, REBID, 100_000_000), &[]), BAD_TERMS);
    assert_eq!(desk.number(customer(20, part, CONFIRMED, 8), &[40]), BAD_TERMS);
    assert_eq!(desk.number(customer(20, part, CONFIRMED, 9), &[]), BAD_TERMS);
    assert_eq!(desk.number(customer(20, part, CONFIRMED, 9), &[40]), NOT_APPROVED);
    desk.ok(on(APPROVE, 1, part), &[]);
    let reduce = on(REDUCE, 1, one);
    desk.ok(reduce, &[70, 0]);
    assert_eq!(desk.number(customer(20, part, CONFIRMED, 9), &[40]), SHORT);

    let full = desk.ok(submission(20, FULL_TRANSFER, 10, one, 0, 1, 0, 0), &[30]).reference;
    desk.ok(seller(10, full, ACCEPTED, 0), &[]);
    desk.ok(on(APPROVE, 1, full), &[]);
    assert_eq!(desk.number(customer(20, full, CONFIRMED, 0), &[]), SHORT);
    desk.ok(seller(1, one, DISPLACED, 0), &[]);
    assert_eq!(desk.number(customer(20, full, CONFIRMED, 0), &[]), BAD_RELATED);
    assert_eq!(balanced(&desk.ledger, &desk.tally), Ok(()));
}

#[test]
fn approval_is_refused() {
    let mut desk = Desk::new(8, 1);
    let one = desk.original(ORIGINAL_FIRM, 100);
    let full = desk.ok(submission(20, FULL_TRANSFER, 10, one, 0, 1, 1, 7), &[100]).reference;
    assert_eq!(desk.number(on(APPROVE, 1, 99), &[]), NO_REFERENCE);
    assert_eq!(desk.number(on(APPROVE, 10, full), &[]), BAD_PARTY);
    assert_eq!(desk.number(on(APPROVE, 1, one), &[]), BAD_MOVE);
    assert_eq!(desk.ok(seller(10, full, ACCEPTED, 7), &[]).after, ACCEPTED);
    desk.ok(on(REDUCE, 1, one), &[1]);
    assert_eq!(desk.number(on(APPROVE, 1, full), &[]), SHORT);
    assert_eq!(desk.field(full, FLAGS) & APPROVED, 0);
    desk.ok(seller(1, one, DISPLACED, 0), &[]);
    assert_eq!(desk.number(on(APPROVE, 1, full), &[]), BAD_RELATED);
    // Another one, approved twice.
    let two = desk.original(ORIGINAL_FIRM, 100);
    let part = desk.ok(submission(20, PART_TRANSFER, 10, two, 0, 1, 1, 7), &[9]).reference;
    let answer = desk.ok(on(APPROVE, 1, part), &[]);
    assert_eq!((answer.before, answer.after, answer.moved), (QUEUED, QUEUED, 0));
    assert_eq!(desk.number(on(APPROVE, 1, part), &[]), BAD_MOVE);
    assert_eq!(desk.ok(seller(10, part, ACCEPTED, 7), &[]).after, CONFIRMED);
    assert_eq!(balanced(&desk.ledger, &desk.tally), Ok(()));
}

#[test]
fn reduction_is_refused() {
    let mut desk = Desk::new(8, 2);
    let one = desk.original(ORIGINAL_FIRM, 100);
    let reduce = on(REDUCE, 1, one);
    assert_eq!(desk.number(on(REDUCE, 1, 2), &[1, 1]), NO_REFERENCE);
    assert_eq!(desk.number(on(REDUCE, 10, one), &[1, 1]), BAD_PARTY);
    assert_eq!(desk.number(reduce, &[]), BAD_PROFILE);
    assert_eq!(desk.number(reduce, &[1]), BAD_PROFILE);
    assert_eq!(desk.number(reduce, &[0, 101]), SHORT);
    assert_eq!(desk.ok(reduce, &[0, 100]).moved, 100);
    assert_eq!(desk.profile(one, AVAILABLE), [100, 0]);
    desk.ok(seller(1, one, DISPLACED, 0), &[]);
    assert_eq!(desk.number(reduce, &[1, 0]), BAD_MOVE);
    assert_eq!(balanced(&desk.ledger, &desk.tally), Ok(()));
}

#[test]
fn reductions_add_up_in_the_row() {
    let mut desk = Desk::new(4, 4);
    let one = desk.original(ORIGINAL_FIRM, 100);
    // A resale of hours 1 to 3, so that its profile starts inside the row's.
    let sale = desk.ok(submission(20, RESALE, 10, one, 1, 3, 1, 0), &[40, 60]).reference;
    desk.ok(seller(10, sale, ACCEPTED, 0), &[]);
    assert_eq!(desk.profile(sale, REDUCED_MW), [0; 4]);
    assert_eq!(desk.ok(on(REDUCE, 1, sale), &[7, 0]).moved, 7);
    assert_eq!(desk.profile(sale, REDUCED_MW), [0, 7, 0, 0]);
    let answer = desk.ok(on(REDUCE, 1, sale), &[3, 60]);
    assert_eq!((answer.before, answer.after, answer.moved), (CONFIRMED, CONFIRMED, 63));
    assert_eq!(desk.profile(sale, REDUCED_MW), [0, 10, 60, 0]);
    assert_eq!(desk.profile(sale, AVAILABLE), [0, 30, 0, 0]);
    assert_eq!(desk.tally.entries()[&sale].reduced, [0, 10, 60, 0]);
    // The row it came from has its own, and a refused reduction adds nothing.
    assert_eq!(desk.profile(one, REDUCED_MW), [0; 4]);
    assert_eq!(desk.number(on(REDUCE, 1, sale), &[1, 1]), SHORT);
    desk.ok(on(REDUCE, 1, one), &[100, 0, 0, 1]);
    assert_eq!(desk.profile(one, REDUCED_MW), [100, 0, 0, 1]);
    assert_eq!(desk.profile(sale, REDUCED_MW), [0, 10, 60, 0]);
    assert_eq!(charge(&desk.ledger, one), Ok(400 * 500 / 24));
    assert_eq!(balanced(&desk.ledger, &desk.tally), Ok(()));
}

#[test]
fn only_a_reduction_writes_reduced() {
    let mut desk = Desk::new(8, 2);
    let one = desk.original(ORIGINAL_FIRM, 100);
    let sale = desk.derived(RESALE, one, 1, &[30, 20]);
    let redirect = desk.derived(REDIRECT_NON_FIRM, one, 2, &[10, 10]);
    desk.ok(on(REDUCE, 1, one), &[5, 6]);
    desk.ok(on(REDUCE, 1, redirect), &[0, 1]);
    let kept = |desk: &Desk| {
        assert_eq!(desk.profile(one, REDUCED_MW), [5, 6]);
        assert_eq!(desk.profile(redirect, REDUCED_MW), [0, 1]);
        assert_eq!(balanced(&desk.ledger, &desk.tally), Ok(()));
    };
    // Confirmed from it, given back to its available, relinquished to it.
    let part = desk.derived(RESALE, one, 1, &[1, 1]);
    kept(&desk);
    desk.ok(seller(10, part, ANNULLED, 0), &[]);
    kept(&desk);
    desk.derived(RELINQUISH, redirect, 2, &[4, 0]);
    kept(&desk);
    // A reduced row is in use, as far as its available differs from granted.
    assert_eq!(desk.number(seller(1, redirect, ANNULLED, 0), &[]), IN_USE);
    // Displaced, and given back to displaced.
    assert_eq!(desk.ok(seller(1, one, DISPLACED, 0), &[]).moved, 59 + 64);
    assert_eq!(desk.profile(one, DISPLACED_MW), [59, 64]);
    kept(&desk);
    desk.ok(seller(10, sale, ANNULLED, 0), &[]);
    assert_eq!(desk.profile(one, DISPLACED_MW), [59 + 30, 64 + 20]);
    kept(&desk);
    // 15 compares available and granted alone, whatever words a foreign row has.
    let two = desk.original(ORIGINAL_FIRM, 100);
    let reduced = Row::of(&desk.ledger, two).profile(REDUCED_MW);
    desk.ledger[reduced].copy_from_slice(&[100_000, 7]);
    assert_eq!(desk.ok(seller(1, two, ANNULLED, 0), &[]).moved, 200);
    assert_eq!(desk.profile(two, REDUCED_MW), [100_000, 7]);
}

#[test]
fn reduced_words_over_the_bound_are_refused_last() {
    let mut desk = Desk::new(1, 3);
    let one = desk.original(ORIGINAL_FIRM, 100);
    let reduce = on(REDUCE, 1, one);
    // Words that no list of actions leaves behind.
    let reduced = Row::of(&desk.ledger, one).profile(REDUCED_MW);
    desk.ledger[reduced].copy_from_slice(&[100_000, 99_990, 0]);
    assert!(sound(&desk.ledger));
    let stands = desk.ledger.clone();
    assert_eq!(desk.number(reduce, &[1, 0, 0]), BAD_LEDGER);
    assert_eq!(desk.number(reduce, &[0, 11, 0]), BAD_LEDGER);
    assert_eq!(desk.number(reduce, &[0, 11, 100]), BAD_LEDGER);
    // Available short in the same hour or another comes first.
    assert_eq!(desk.number(reduce, &[101, 0, 0]), SHORT);
    assert_eq!(desk.number(reduce, &[1, 0, 101]), SHORT);
    assert_eq!(desk.ledger, stands);
    // 0 more where 100,000 stand is accepted, and so is what reaches them.
    assert_eq!(desk.ok(reduce, &[0, 10, 100]).moved, 110);
    assert_eq!(desk.profile(one, REDUCED_MW), [100_000, 100_000, 100]);
    assert_eq!(desk.profile(one, AVAILABLE), [100, 90, 0]);
    // Displacing leaves the words as they are.
    assert_eq!(desk.ok(seller(1, one, DISPLACED, 0), &[]).moved, 190);
    assert_eq!(desk.profile(one, REDUCED_MW), [100_000, 100_000, 100]);
}

#[test]
fn a_list_can_reduce_to_the_bound() {
    let mut desk = Desk::new(1, 2);
    let one = desk.original(ORIGINAL_FIRM, 100_000);
    desk.ok(on(REDUCE, 1, one), &[99_999, 1]);
    desk.ok(on(REDUCE, 1, one), &[1, 0]);
    assert_eq!(desk.number(on(REDUCE, 1, one), &[1, 0]), SHORT);
    desk.ok(on(REDUCE, 1, one), &[0, 99_999]);
    assert_eq!(desk.profile(one, REDUCED_MW), [100_000; 2]);
    assert_eq!(balanced(&desk.ledger, &desk.tally), Ok(()));
}

#[test]
fn every_profile_is_looked_at() {
    let mut desk = Desk::new(2, 4);
    let one = desk.ok(submission(10, ORIGINAL_FIRM, 1, 0, 1, 3, 1, 0), &[5, 5]).reference;
    let row = Row::of(&desk.ledger, one);
    for profile in 0..PROFILES {
        for (hour, word) in [(0, 1), (3, 1), (1, 100_001), (2, u32::MAX)] {
            let mut ledger = desk.ledger.clone();
            ledger[row.profile(profile).start + hour] = word;
            assert!(!sound(&ledger), "profile {profile}, hour {hour}");
        }
        let mut ledger = desk.ledger.clone();
        ledger[row.span(&desk.ledger, profile)].fill(100_000);
        assert!(sound(&ledger), "profile {profile}");
    }
    // The row has as many words as it has fields and profiles, and the next one is unused.
    assert_eq!(row.profile(PROFILES - 1).end, ledger_words(1, 4));
    desk.ledger[ledger_words(1, 4)] = 1;
    assert!(!sound(&desk.ledger));
}

#[test]
fn lapse_is_refused() {
    let mut desk = Desk::new(8, 1);
    let one = desk.original(ORIGINAL_FIRM, 100);
    let part = desk.ok(submission(20, PART_TRANSFER, 10, one, 0, 1, 3, 7), &[60]).reference;
    let sale = desk.ok(submission(20, RESALE, 10, one, 0, 1, 3, 7), &[70]).reference;
    assert_eq!(desk.number(on(LAPSE, 1, 99), &[]), NO_REFERENCE);
    assert_eq!(desk.number(on(LAPSE, 10, sale), &[]), BAD_PARTY);
    assert_eq!(desk.number(on(LAPSE, 1, sale), &[]), BAD_MOVE);
    desk.ok(seller(10, part, CR_ACCEPTED, 7), &[]);
    desk.ok(seller(10, sale, CR_ACCEPTED, 7), &[]);
    desk.ok(clock(1, 3_599), &[]);
    assert_eq!(desk.number(on(LAPSE, 1, sale), &[]), BEFORE_LIMIT);
    desk.ok(clock(1, 3_600), &[]);
    assert_eq!(desk.number(on(LAPSE, 1, part), &[]), NOT_APPROVED);
    assert_eq!(desk.ok(on(LAPSE, 1, sale), &[]).after, CONFIRMED);
    desk.ok(on(APPROVE, 1, part), &[]);
    assert_eq!(desk.number(on(LAPSE, 1, part), &[]), SHORT);
    desk.ok(seller(1, one, DISPLACED, 0), &[]);
    assert_eq!(desk.number(on(LAPSE, 1, part), &[]), BAD_RELATED);
    // What is not preconfirmed is retracted.
    let two = desk.ok(submission(10, ORIGINAL_FIRM, 1, 0, 0, 1, 0, 5), &[1]).reference;
    desk.ok(seller(1, two, ACCEPTED, 5), &[]);
    desk.ok(clock(1, 7_200), &[]);
    assert_eq!(desk.ok(on(LAPSE, 1, two), &[]).after, RETRACTED);
    assert_eq!(balanced(&desk.ledger, &desk.tally), Ok(()));
}

#[test]
fn clock_is_refused() {
    let mut desk = Desk::new(1, 1);
    assert_eq!(desk.number(clock(2, 5), &[]), BAD_PARTY);
    assert_eq!(desk.ok(clock(1, 5), &[]), Answer::default());
    assert_eq!(desk.number(clock(1, 4), &[]), BAD_TIME);
    assert_eq!(desk.number(clock(1, 3_155_760_000), &[]), BAD_TIME);
    desk.ok(clock(1, 3_155_759_999), &[]);
    assert_eq!(desk.ledger[NOW], 3_155_759_999);
}

#[test]
fn a_relinquished_megawatt_returns_to_the_row_above() {
    let mut desk = Desk::new(8, 1);
    let one = desk.original(ORIGINAL_FIRM, 100);
    let redirect = desk.ok(submission(10, REDIRECT_NON_FIRM, 1, one, 0, 1, 1, 0), &[30]).reference;
    desk.ok(seller(1, redirect, ACCEPTED, 0), &[]);
    let back = desk.ok(submission(10, RELINQUISH, 1, redirect, 0, 1, 0, 0), &[20]).reference;
    desk.ok(seller(1, back, ACCEPTED, 0), &[]);
    assert_eq!(desk.ok(customer(10, back, CONFIRMED, 0), &[]).moved, 20);
    assert_eq!(desk.profile(one, AVAILABLE), [90]);
    assert_eq!(desk.profile(redirect, AVAILABLE), [10]);
    assert_eq!(desk.profile(back, AVAILABLE), [0]);
    // A type 8 row never goes from 13.
    assert_eq!(desk.number(seller(1, back, ANNULLED, 0), &[]), BAD_MOVE);
    assert_eq!(desk.number(seller(1, back, DISPLACED, 0), &[]), BAD_MOVE);
    assert_eq!(desk.number(on(REDUCE, 1, back), &[1]), BAD_MOVE);
    assert_eq!(balanced(&desk.ledger, &desk.tally), Ok(()));
    let entries = desk.tally.entries();
    assert_eq!(entries[&redirect].relinquished, [20]);
    assert_eq!(entries[&one].redirected, [10]);
}

#[test]
fn a_broken_balance_is_seen() {
    let mut desk = Desk::new(4, 1);
    let one = desk.original(ORIGINAL_FIRM, 100);
    assert_eq!(balanced(&desk.ledger, &desk.tally), Ok(()));
    let row = Row::of(&desk.ledger, one);
    let spoil = |at: usize| {
        let mut ledger = desk.ledger.clone();
        ledger[at] ^= 1;
        balanced(&ledger, &desk.tally)
    };
    for at in [row.at + STATUS, row.at + TYPE, row.at + RELATED] {
        assert!(spoil(at).is_err());
    }
    for profile in 0..PROFILES {
        let seen = spoil(row.profile(profile).start).is_err();
        assert_eq!(seen, profile != REQUESTED, "profile {profile}");
    }
    assert!(spoil(USED).is_err());
}

#[test]
fn stored_and_tallied_reductions_are_held_together() {
    let mut desk = Desk::new(8, 1);
    let one = desk.original(ORIGINAL_FIRM, 100);
    let sale = desk.derived(RESALE, one, 1, &[10]);
    let gone = desk.derived(RESALE, one, 1, &[10]);
    desk.ok(seller(10, gone, ANNULLED, 0), &[]);
    let other = desk.original(ORIGINAL_FIRM, 50);
    desk.ok(seller(1, other, ANNULLED, 0), &[]);
    desk.ok(on(REDUCE, 1, sale), &[4]);
    assert_eq!(balanced(&desk.ledger, &desk.tally), Ok(()));
    let told = |reference: u32, mw: u32| {
        let mut ledger = desk.ledger.clone();
        let at = Row::of(&ledger, reference).profile(REDUCED_MW).start;
        ledger[at] = mw;
        balanced(&ledger, &desk.tally).unwrap_err()
    };
    // In a row that holds megawatts, in one that descends from it, in one by itself.
    let by_row = told(sale, 3);
    assert!(by_row.starts_with("reference 2, hour 0: granted 10") && by_row.ends_with("Stored"));
    assert!(told(gone, 1).starts_with("original 1, hour 0: granted 100, its tree holds 101"));
    assert!(told(other, 1).starts_with("reference 4, hour 0: reduced 0 in the tally, 1"));
    // A reduction that the ledger was never told of.
    let mut tally = desk.tally.clone();
    let answer = Answer { number: 0, reference: sale, before: 13, after: 13, moved: 1 };
    tally.feed(&[1], &Action { length: 1, ..on(REDUCE, 1, sale) }, &answer);
    let told = balanced(&desk.ledger, &tally).unwrap_err();
    assert!(told.starts_with("reference 2, hour 0: granted 10") && told.ends_with("Tallied"));
}

#[test]
fn a_negative_sum_of_any_entry_is_seen() {
    let mut desk = Desk::new(8, 1);
    let one = desk.original(ORIGINAL_FIRM, 100);
    let sale = desk.derived(RESALE, one, 1, &[10]);
    desk.ok(seller(10, sale, ANNULLED, 0), &[]);
    desk.ok(seller(1, one, ANNULLED, 0), &[]);
    assert_eq!(balanced(&desk.ledger, &desk.tally), Ok(()));
    // The annulment fed once more leaves the annulled original with less than nothing resold.
    let again = Answer { number: 0, reference: sale, before: 13, after: 16, moved: 10 };
    desk.tally.feed(&[], &seller(10, sale, ANNULLED, 0), &again);
    let told = balanced(&desk.ledger, &desk.tally).unwrap_err();
    assert_eq!(told, "reference 1, hour 0: resold -10");
}

#[test]
fn charge_and_profile_in_force() {
    let mut desk = Desk::new(4, 2);
    let small = desk.ok(submission(10, ORIGINAL_FIRM, 1, 0, 0, 1, 1, 1), &[12]).reference;
    assert_eq!(charge(&desk.ledger, small), Err(BAD_MOVE));
    assert_eq!(profile_in_force(&desk.ledger, small), [12]);
    desk.ok(seller(1, small, COUNTEROFFER, 1), &[11]);
    assert_eq!(profile_in_force(&desk.ledger, small), [11]);
    desk.ok(customer(10, small, REBID, 1), &[11]);
    desk.ok(seller(1, small, ACCEPTED, 1), &[]);
    assert_eq!(charge(&desk.ledger, small), Ok(0));
    let next = desk.ok(submission(10, ORIGINAL_FIRM, 1, 0, 1, 2, 1, 1), &[12]).reference;
    desk.ok(seller(1, next, ACCEPTED, 1), &[]);
    assert_eq!(charge(&desk.ledger, next), Ok(1));
    assert_eq!(charge(&desk.ledger, 3), Err(NO_REFERENCE));
    assert_eq!(charge(&desk.ledger, 0), Err(NO_REFERENCE));
    assert!(profile_in_force(&desk.ledger, 3).is_empty());
    desk.ledger[USED] = 5;
    assert_eq!(charge(&desk.ledger, next), Err(BAD_LEDGER));
    assert!(profile_in_force(&desk.ledger, next).is_empty());
}

#[test]
fn charge_at_the_bounds_of_64_bits() {
    let mut desk = Desk::new(1, 744);
    let all = desk
        .ok(submission(10, ORIGINAL_FIRM, 1, 0, 0, 744, 1, 99_999_999), &[100_000; 744])
        .reference;
    desk.ok(seller(1, all, ACCEPTED, 99_999_999), &[]);
    assert_eq!(charge(&desk.ledger, all), Ok(74_400_000 * 99_999_999 / 24));
}

/// Each is refused.
const NO_STAMPS: [&str; 19] = [
    "20070423220070ES",
    "20991231160000PS",
    "20991231190000ES",
    "20991231235959PD",
    "20010229000000UT",
    "20070431000000UT",
    "20071301000000UT",
    "20070001000000UT",
    "20070100000000UT",
    "20070101240000UT",
    "20070101006000UT",
    "19991231235959ES",
    "21000101000000UT",
    "20070101000000ut",
    "20070101000000XX",
    "2007010100000 UT",
    "20070101000000U",
    "20070101000000UT0",
    "",
];

#[test]
fn stamps_are_read() {
    assert_eq!(read_stamp(b"20070423060000ES"), Ok(230_641_200));
    assert_eq!(read_stamp(b"20000229000000UT"), Ok(5_097_600));
    assert_eq!(read_stamp(b"20991231235959UT"), Ok(3_155_759_999));
    for stamp in NO_STAMPS {
        assert_eq!(read_stamp(stamp.as_bytes()), Err(NOT_A_STAMP), "{stamp}");
    }
}

#[test]
fn stamps_are_compared_by_their_seconds() {
    for (first, second, order) in [
        ("20070423060000ES", "20070423070000ED", SAME),
        ("20070423060000ES", "20070423060000ES", SAME),
        ("20070423060000ES", "20070423110000UT", SAME),
        ("20070423060000ES", "20070423060000ED", LATER),
        ("20070423060000ES", "20070423060001ES", EARLIER),
        ("20070423060000ES", "20070423070001ED", EARLIER),
        // Zones as far behind UT.
        ("20070423060000ES", "20070423060000CD", SAME),
        ("20070423060000CS", "20070423060000MD", SAME),
        ("20070423060000MS", "20070423060000PD", SAME),
        ("20070423060000MS", "20070423060001PD", EARLIER),
        // The hour that ED and ES share when the clocks are put back at two.
        ("20071104013000ED", "20071104013000ES", EARLIER),
        ("20071104015959ED", "20071104010000ES", EARLIER),
        ("20071104020000ED", "20071104010000ES", SAME),
        ("20071104020001ED", "20071104010000ES", LATER),
        // Another day, month or year in the other zone.
        ("20080228210000MS", "20080229040000UT", SAME),
        ("20070630235959PD", "20070701065958UT", LATER),
        ("20061231190000ES", "20070101000000UT", SAME),
        ("20061231190000ES", "20061231235959UT", LATER),
        // The ends of the century.
        ("20000101000000PD", "20000101000000UT", LATER),
        ("20000101000000PD", "20000101070000UT", SAME),
        ("20000101000000UT", "20000101000001UT", EARLIER),
        ("20991231155959PS", "20991231235959UT", SAME),
        ("20991231155959PS", "20991231165959PD", SAME),
        ("20991231155958PS", "20991231235959UT", EARLIER),
        ("20000101000000UT", "20991231155959PS", EARLIER),
    ] {
        let compared = |first: &str, second: &str| {
            let order = compare_stamps(first.as_bytes(), second.as_bytes());
            order.unwrap_or_else(|number| panic!("{first} and {second}: {number}"))
        };
        assert_eq!(compared(first, second), order, "{first} and {second}");
        assert_eq!(compared(second, first), 2 - order, "{second} and {first}");
        assert_eq!([first, second].map(|stamp| compared(stamp, stamp)), [SAME; 2]);
    }
}

#[test]
fn a_comparison_is_refused_by_either_stamp() {
    for no_stamp in NO_STAMPS {
        let refused = no_stamp.as_bytes();
        for stamp in ["20000101000000UT", "20070423060000ES", "20991231155959PS"] {
            let accepted = stamp.as_bytes();
            assert_eq!(compare_stamps(refused, accepted), Err(NOT_A_STAMP), "{no_stamp}");
            assert_eq!(compare_stamps(accepted, refused), Err(NOT_A_STAMP), "{no_stamp}");
        }
        for other in NO_STAMPS {
            assert_eq!(compare_stamps(refused, other.as_bytes()), Err(NOT_A_STAMP), "{no_stamp}");
        }
    }
}

#[test]
fn stamps_are_written() {
    let mut bytes = [b'-'; 16];
    for (second, zone) in
        [(3_155_760_000, 0), (u32::MAX, 0), (17_999, 1), (28_799, 7), (5, 9), (5, u32::MAX)]
    {
        assert_eq!(write_stamp(&mut bytes, second, zone), STAMP_RANGE);
        assert_eq!(bytes, [b'-'; 16]);
    }
    assert_eq!(write_stamp(&mut [0; 15], 5, 0), STAMP_RANGE);
    assert_eq!(write_stamp(&mut [0; 17], 5, 0), STAMP_RANGE);
    assert_eq!(write_stamp(&mut bytes, 230_641_200, 1), 0);
    assert_eq!(&bytes, b"20070423060000ES");
    assert_eq!(write_stamp(&mut bytes, 18_000, 1), 0);
    assert_eq!(&bytes, b"20000101000000ES");
}

#[test]
fn the_table_of_months() {
    assert_eq!(DAYS_BEFORE_MONTH[..3], [0, 31, 60]);
    assert_eq!(DAYS_BEFORE_MONTH[1199], 36_494);
    // Every day of the century, there and back, in each zone.
    let mut bytes = [0; 16];
    for day in 1..36_525 {
        for zone in 0..9 {
            let second = day * 86_400 + day % 86_400;
            assert_eq!(write_stamp(&mut bytes, second, zone), 0);
            assert_eq!(read_stamp(&bytes), Ok(second));
        }
    }
}

#[test]
fn posting_is_refused() {
    let mut desk = Desk::with_nothing_posted(2, 4);
    let good = posting(64, 1, 3);
    let two = &[5, 6];
    let cases: [(Action, &[u32], u32); 13] = [
        (Action { actor: 0, ..good }, two, BAD_PARTY),
        (Action { actor: 2, path: 0, ..good }, two, BAD_PARTY),
        (Action { path: 0, stop: 0, ..good }, two, BAD_PATH),
        (Action { path: 65, ..good }, two, BAD_PATH),
        (Action { path: u32::MAX, ..good }, two, BAD_PATH),
        (Action { start: 3, ..good }, &[], BAD_SPAN),
        (Action { stop: 5, ..good }, two, BAD_SPAN),
        (Action { start: u32::MAX, stop: 0, ..good }, two, BAD_SPAN),
        (good, &[], BAD_PROFILE),
        (good, &[5], BAD_PROFILE),
        (good, &[5, 6, 7], BAD_PROFILE),
        (good, &[5, 100_001], BAD_PROFILE),
        (Action { offset: u32::MAX, length: 2, ..good }, &[], BAD_PROFILE),
    ];
    for (action, profile, number) in cases {
        assert_eq!(desk.number(action, profile), number, "{action:?} {profile:?}");
    }
    let last = desk.postings.len() - 4;
    // Fields that it does not read.
    let wild = Action {
        reference: u32::MAX,
        reqtype: u32::MAX,
        status: u32::MAX,
        seller: u32::MAX,
        related: u32::MAX,
        flags: u32::MAX,
        price: u32::MAX,
        time: u32::MAX,
        ..good
    };
    assert_eq!(desk.act(wild, &[100_000, 6]), Answer::default());
    assert_eq!(desk.postings[last..], [0, 100_000, 6, 0]);
    assert_eq!(desk.act(good, &[0, 0]), Answer::default());
    assert_eq!(desk.postings, [0; 256]);
    assert!(desk.tally.entries().is_empty());
}

#[test]
fn no_path_is_sold_beyond_its_posting() {
    let mut desk = Desk::with_nothing_posted(8, 2);
    let one = submission(10, ORIGINAL_FIRM, 1, 0, 0, 2, 1, 0);
    let one = desk.ok(one, &[100, 100]).reference;
    let accept = seller(1, one, ACCEPTED, 0);
    assert_eq!(desk.number(accept, &[]), OVER_POSTING);
    desk.ok(posting(1, 0, 1), &[100]);
    desk.ok(posting(1, 1, 2), &[99]);
    assert_eq!(desk.number(accept, &[]), OVER_POSTING);
    desk.ok(posting(1, 1, 2), &[100]);
    desk.ok(accept, &[]);
    assert_eq!(path_use(&desk.ledger, 1), [100, 100]);
    // A posting is not lowered below the use, also in an hour that it does not touch.
    assert_eq!(desk.number(posting(1, 0, 2), &[100, 99]), OVER_POSTING);
    desk.postings[0] = 99;
    assert_eq!(desk.number(posting(1, 1, 2), &[200]), OVER_POSTING);
    desk.postings[0] = 100;
    // A resale within the path.
    desk.derived(RESALE, one, 1, &[30, 0]);
    assert_eq!(path_use(&desk.ledger, 1), [100, 100]);
    assert_eq!(balanced(&desk.ledger, &desk.tally), Ok(()));
}

#[test]
fn a_firm_redirect_frees_its_old_path_and_may_not_come_back() {
    let mut desk = Desk::with_nothing_posted(8, 1);
    desk.ok(posting(1, 0, 1), &[100]);
    let one = desk.original(ORIGINAL_FIRM, 100);
    let redirect = submission(10, REDIRECT_FIRM, 1, one, 0, 1, 1, 0);
    let redirect = desk.ok(on_path(2, redirect), &[40]).reference;
    assert_eq!(desk.number(seller(1, redirect, ACCEPTED, 0), &[]), OVER_POSTING);
    desk.ok(posting(2, 0, 1), &[40]);
    desk.ok(seller(1, redirect, ACCEPTED, 0), &[]);
    assert_eq!((path_use(&desk.ledger, 1), path_use(&desk.ledger, 2)), (vec![60], vec![40]));
    let next = desk.original(ORIGINAL_FIRM, 40);
    assert_eq!(desk.number(seller(1, redirect, ANNULLED, 0), &[]), OVER_POSTING);
    desk.ok(seller(1, next, ANNULLED, 0), &[]);
    desk.ok(seller(1, redirect, ANNULLED, 0), &[]);
    assert_eq!((path_use(&desk.ledger, 1), path_use(&desk.ledger, 2)), (vec![100], vec![0]));
    assert_eq!(balanced(&desk.ledger, &desk.tally), Ok(()));
}

#[test]
fn a_non_firm_redirect_keeps_its_old_path_for_the_return() {
    let mut desk = Desk::with_nothing_posted(8, 1);
    desk.ok(posting(1, 0, 1), &[100]);
    desk.ok(posting(2, 0, 1), &[40]);
    let one = desk.original(ORIGINAL_FIRM, 100);
    let redirect = desk.derived(REDIRECT_NON_FIRM, one, 2, &[40]);
    assert_eq!((path_use(&desk.ledger, 1), path_use(&desk.ledger, 2)), (vec![100], vec![40]));
    // On its related row's path it counts once.
    desk.derived(REDIRECT_NON_FIRM, one, 1, &[10]);
    assert_eq!(path_use(&desk.ledger, 1), [100]);
    let more = desk.ok(submission(10, ORIGINAL_FIRM, 1, 0, 0, 1, 1, 0), &[1]).reference;
    assert_eq!(desk.number(seller(1, more, ACCEPTED, 0), &[]), OVER_POSTING);
    assert_eq!(desk.number(posting(1, 0, 1), &[99]), OVER_POSTING);
    // A relinquished megawatt returns, and so does an annulled redirect.
    desk.derived(RELINQUISH, redirect, 2, &[15]);
    assert_eq!((path_use(&desk.ledger, 1), path_use(&desk.ledger, 2)), (vec![100], vec![25]));
    // Nothing returns to the available of a displaced row.
    desk.ok(seller(1, one, DISPLACED, 0), &[]);
    assert_eq!((path_use(&desk.ledger, 1), path_use(&desk.ledger, 2)), (vec![10], vec![25]));
    desk.ok(seller(1, more, ACCEPTED, 0), &[]);
    assert_eq!(balanced(&desk.ledger, &desk.tally), Ok(()));
}

#[test]
fn every_confirmation_is_held_to_the_posting() {
    // By acceptance, by the customer, by approval and by lapse.
    for kind in [SELLER_STATUS, CUSTOMER_STATUS, APPROVE, LAPSE] {
        let mut desk = Desk::new(4, 2);
        let one = desk.original(ORIGINAL_FIRM, 100);
        let transfer = |flags| submission(20, PART_TRANSFER, 10, one, 0, 1, flags, 0);
        let (flags, status) = match kind {
            SELLER_STATUS | APPROVE => (PRECONFIRMED, ACCEPTED),
            CUSTOMER_STATUS => (0, ACCEPTED),
            _ => (PRECONFIRMED + COORDINATED, CR_ACCEPTED),
        };
        let part = desk.ok(transfer(flags), &[50]).reference;
        let accept = seller(10, part, status, 0);
        if kind == SELLER_STATUS {
            desk.ok(on(APPROVE, 1, part), &[]);
        } else {
            desk.ok(accept, &[]);
        }
        if matches!(kind, CUSTOMER_STATUS | LAPSE) {
            desk.ok(on(APPROVE, 1, part), &[]);
            desk.ok(clock(1, 3_600), &[]);
        }
        let confirm = match kind {
            SELLER_STATUS => accept,
            CUSTOMER_STATUS => customer(20, part, CONFIRMED, 0),
            _ => on(kind, 1, part),
        };
        // Use passed the posting before, in an hour outside the span.
        desk.postings[1] = 99;
        assert_eq!(desk.number(confirm, &[]), OVER_POSTING);
        // Short comes first.
        let available = Row::of(&desk.ledger, one).profile(AVAILABLE).start;
        desk.ledger[available] = 49;
        assert_eq!(desk.number(confirm, &[]), SHORT);
        desk.ledger[available] = 100;
        desk.postings[1] = 100;
        assert_eq!(desk.ok(confirm, &[]).after, CONFIRMED);
        assert_eq!(balanced(&desk.ledger, &desk.tally), Ok(()));
    }
}

#[test]
fn paths_of_foreign_rows() {
    let mut desk = Desk::new(4, 1);
    let one = desk.original(ORIGINAL_FIRM, 100);
    let sale = desk.derived(RESALE, one, 1, &[60]);
    // A resale on another path than its related row is sound, and both paths are asked.
    Row::of(&desk.ledger, sale).set(&mut desk.ledger, PATH, 3);
    assert!(sound(&desk.ledger));
    let annul = seller(10, sale, ANNULLED, 0);
    desk.postings[0] = 99;
    assert_eq!(desk.number(annul, &[]), OVER_POSTING);
    desk.postings[0] = 100;
    // A displaced row's path is asked too, though nothing goes to its available.
    Row::of(&desk.ledger, one).set(&mut desk.ledger, STATUS, DISPLACED);
    let other = desk.original(ORIGINAL_FIRM, 100);
    desk.postings[0] = 99;
    assert_eq!(desk.number(annul, &[]), OVER_POSTING);
    // Displacing and reducing ask nothing.
    desk.ok(on(REDUCE, 1, other), &[1]);
    desk.ok(seller(1, other, DISPLACED, 0), &[]);
    desk.ok(annul, &[]);
    for path in [0, 65, u32::MAX] {
        let mut desk = Desk::new(4, 1);
        let one = desk.original(ORIGINAL_FIRM, 100);
        Row::of(&desk.ledger, one).set(&mut desk.ledger, PATH, path);
        assert!(!sound(&desk.ledger));
    }
}

// Withdrawal after a rebid.

/// Customer 20's request for 50 and 60 MW at 7 cents, queued as reference 1.
fn requested(flags: u32) -> Desk {
    let mut desk = Desk::new(4, 2);
    desk.ok(submission(20, ORIGINAL_FIRM, 1, 0, 0, 2, flags, 7), &[50, 60]);
    desk
}

/// The same at another status and with flags that no submission brings.
fn foreign(status: u32, flags: u32) -> Desk {
    let mut desk = requested(0);
    desk.set(1, STATUS, status);
    desk.set(1, FLAGS, flags);
    desk
}

fn withdrawal(reference: u32) -> Action {
    customer(20, reference, WITHDRAWN, 0)
}

#[test]
fn a_countered_row_is_withdrawn_after_a_rebid() {
    for (flags, counteroffer) in [(1, COUNTEROFFER), (3, CR_COUNTEROFFER)] {
        let mut desk = requested(flags);
        assert_eq!(desk.number(withdrawal(1), &[]), BAD_MOVE);
        let left = flags + 8 + 16 + 32;
        desk.moves(seller(1, 1, counteroffer, 9), &[40, 60], (1, counteroffer), left);
        desk.moves(customer(20, 1, REBID, 8), &[], (counteroffer, 8), left);
        desk.moves(withdrawal(1), &[], (8, 14), left);
        assert_eq!(desk.number(withdrawal(1), &[]), BAD_MOVE);
        assert_eq!(balanced(&desk.ledger, &desk.tally), Ok(()));
    }
    // Of a counteroffer without a profile nothing is granted.
    let mut desk = requested(1);
    desk.moves(seller(1, 1, COUNTEROFFER, 9), &[], (1, 6), 1 + 16 + 32);
    desk.moves(customer(20, 1, REBID, 9), &[50, 50], (6, 8), 1 + 16 + 32);
    desk.moves(withdrawal(1), &[], (8, 14), 1 + 16 + 32);
}

#[test]
fn a_preconfirmed_row_never_countered_is_not_withdrawn() {
    let mut desk = requested(1);
    assert_eq!(desk.number(withdrawal(1), &[]), BAD_MOVE);
    desk.moves(seller(1, 1, RECEIVED, 0), &[], (1, 3), 1);
    assert_eq!(desk.number(withdrawal(1), &[]), BAD_MOVE);
    desk.moves(seller(1, 1, STUDY, 0), &[], (3, 4), 1);
    assert_eq!(desk.number(withdrawal(1), &[]), BAD_MOVE);
    // Words that no list leaves behind.
    for status in [REBID, ACCEPTED] {
        desk.set(1, STATUS, status);
        assert_eq!(desk.number(withdrawal(1), &[]), BAD_MOVE, "{status}");
    }
}

#[test]
fn a_countered_row_is_confirmed_as_any_other() {
    let confirmed = Answer { number: 0, reference: 1, before: 8, after: 13, moved: 100 };
    let mut desk = requested(1);
    desk.moves(seller(1, 1, COUNTEROFFER, 9), &[40, 60], (1, 6), 1 + 8 + 16 + 32);
    desk.moves(customer(20, 1, REBID, 9), &[40, 60], (6, 8), 1 + 8 + 16 + 32);
    assert_eq!(desk.act(seller(1, 1, ACCEPTED, 9), &[]), confirmed);
    assert_eq!(desk.field(1, FLAGS), 1 + 8 + 16 + 32);
    // 100 MW-hours at 9 cents are 37 and a half.
    assert_eq!(charge(&desk.ledger, 1), Ok(38));
    assert_eq!(desk.number(withdrawal(1), &[]), BAD_MOVE);
    desk.ok(seller(1, 1, DISPLACED, 0), &[]);
    assert_eq!(desk.field(1, FLAGS), 1 + 8 + 16 + 32);
    assert_eq!(balanced(&desk.ledger, &desk.tally), Ok(()));
    // By the customer, who takes the counteroffer as it is.
    let mut desk = requested(0);
    desk.moves(seller(1, 1, COUNTEROFFER, 9), &[40, 60], (1, 6), 8 + 16 + 32);
    let answer = desk.act(customer(20, 1, CONFIRMED, 9), &[40, 60]);
    assert_eq!(answer, Answer { before: 6, ..confirmed });
    assert_eq!(desk.field(1, FLAGS), 8 + 16 + 32);
}

#[test]
fn flags_go_up_to_63_at_every_status() {
    for status in 1..=17 {
        for flags in 0..=63 {
            assert!(sound(&foreign(status, flags).ledger), "{status} with flags {flags}");
        }
        for flags in [64, 65, 96, 127, 1 << 31, u32::MAX] {
            let mut desk = foreign(status, flags);
            assert!(!sound(&desk.ledger), "{status} with flags {flags}");
            assert_eq!(desk.number(withdrawal(1), &[]), BAD_LEDGER);
            assert_eq!(open(&desk.ledger), BAD_LEDGER);
        }
    }
}

#[test]
fn withdrawals_from_every_status() {
    const OPEN: &[u32] = &[1, 3, 4, 6, 7, 8, 10, 11];
    for (flags, from) in [(0, OPEN), (1, &[6, 7, 11]), (32, OPEN), (33, OPEN)] {
        // The other flags are not asked for.
        for others in [0, 2, 4, 8, 16, 2 + 4 + 8 + 16] {
            for status in 1..=17 {
                let mut desk = foreign(status, flags + others);
                if from.contains(&status) {
                    desk.moves(withdrawal(1), &[], (status, 14), flags + others);
                } else {
                    assert_eq!(desk.number(withdrawal(1), &[]), BAD_MOVE, "{status} {flags}");
                }
            }
        }
    }
}

#[test]
fn a_countered_row_that_no_counteroffer_made() {
    // Without flag 1 it is no preconfirmed row.
    let mut desk = foreign(QUEUED, 32);
    assert_eq!(desk.number(seller(1, 1, ANNULLED, 0), &[]), BAD_MOVE);
    desk.moves(seller(1, 1, ACCEPTED, 7), &[], (1, 10), 8 + 16 + 32);
    desk.moves(withdrawal(1), &[], (10, 14), 8 + 16 + 32);
    // With it, it is one still.
    let mut desk = foreign(QUEUED, 33);
    desk.moves(seller(1, 1, RECEIVED, 0), &[], (1, 3), 33);
    assert_eq!(desk.ok(seller(1, 1, ACCEPTED, 7), &[]).after, CONFIRMED);
    assert_eq!(desk.field(1, FLAGS), 1 + 8 + 16 + 32);
}

#[test]
fn a_row_of_an_old_ledger_is_countered_anew() {
    for (counteroffer, flags) in [(COUNTEROFFER, 1 + 16), (CR_COUNTEROFFER, 1 + 2 + 16)] {
        foreign(counteroffer, flags).moves(withdrawal(1), &[], (counteroffer, 14), flags);
        let mut desk = foreign(counteroffer, flags);
        desk.moves(customer(20, 1, REBID, 8), &[], (counteroffer, 8), flags);
        assert_eq!(desk.number(withdrawal(1), &[]), BAD_MOVE);
        desk.moves(seller(1, 1, counteroffer, 9), &[], (8, counteroffer), flags + 32);
        desk.moves(customer(20, 1, REBID, 8), &[], (counteroffer, 8), flags + 32);
        desk.moves(withdrawal(1), &[], (8, 14), flags + 32);
    }
}

#[test]
fn a_countered_transfer_that_waits_is_withdrawn() {
    for reqtype in [PART_TRANSFER, FULL_TRANSFER] {
        let mut desk = Desk::new(4, 1);
        let one = desk.original(ORIGINAL_FIRM, 100);
        let submitted = submission(20, reqtype, 10, one, 0, 1, 1, 7);
        let part = desk.ok(submitted, &[100]).reference;
        desk.moves(seller(10, part, ACCEPTED, 7), &[], (1, 10), 1 + 8 + 16);
        assert_eq!(desk.number(withdrawal(part), &[]), BAD_MOVE);
        let left = 1 + 8 + 16 + 32;
        desk.moves(seller(10, part, COUNTEROFFER, 9), &[], (10, 6), left);
        desk.moves(customer(20, part, REBID, 9), &[], (6, 8), left);
        desk.moves(seller(10, part, ACCEPTED, 9), &[], (8, 10), left);
        let waiting = desk.ledger.clone();
        desk.moves(withdrawal(part), &[], (10, 14), left);
        assert_eq!(desk.number(on(APPROVE, 1, part), &[]), BAD_MOVE);
        // Approved instead, it is confirmed.
        desk.ledger = waiting;
        assert_eq!(desk.ok(on(APPROVE, 1, part), &[]).after, CONFIRMED);
        assert_eq!(desk.field(part, FLAGS), 1 + 4 + 8 + 16 + 32);
    }
}

#[test]
fn no_countered_row_is_submitted() {
    let mut desk = Desk::new(4, 2);
    for flags in [32, 33, 34, 35, 36, 63, 64, 96, u32::MAX] {
        let submitted = submission(20, ORIGINAL_FIRM, 1, 0, 0, 2, flags, 7);
        assert_eq!(desk.number(submitted, &[50, 60]), BAD_FLAGS, "{flags}");
    }
}

#[test]
fn a_refused_counteroffer_is_not_noted() {
    let counteroffer = seller(1, 1, COUNTEROFFER, 9);
    let cases: [(Action, &[u32], u32); 6] = [
        (Action { actor: 20, ..counteroffer }, &[], BAD_PARTY),
        (Action { status: CR_COUNTEROFFER, ..counteroffer }, &[], BAD_MOVE),
        (counteroffer, &[50], BAD_PROFILE),
        (counteroffer, &[0, 0], BAD_PROFILE),
        (Action { price: 100_000_000, ..counteroffer }, &[], BAD_TERMS),
        (counteroffer, &[50, 61], BAD_TERMS),
    ];
    for (action, profile, number) in cases {
        let mut desk = requested(1);
        assert_eq!(desk.number(action, profile), number, "{action:?} {profile:?}");
        assert_eq!(desk.field(1, FLAGS), 1);
        assert_eq!(desk.number(withdrawal(1), &[]), BAD_MOVE);
    }
}

#[test]
fn every_counteroffer_is_noted_and_no_acceptance() {
    for flags in 0..=3 {
        let (counteroffer, acceptance) = if flags < 2 { (6, 10) } else { (7, 11) };
        for from in [1, 3, 4, 8, 10, 11] {
            let mut desk = foreign(from, flags);
            let left = flags + 16 + 32;
            desk.moves(seller(1, 1, counteroffer, 9), &[], (from, counteroffer), left);
        }
        for from in [1, 3, 4, 8] {
            let mut desk = foreign(from, flags);
            let after = if flags == 1 { 13 } else { acceptance };
            assert_eq!(desk.ok(seller(1, 1, acceptance, 7), &[]).after, after);
            assert_eq!(desk.field(1, FLAGS), flags + 8 + 16);
        }
    }
}

#[test]
fn a_countered_row_stays_so_to_its_end() {
    let ends = [
        (COUNTEROFFER, on(LAPSE, 1, 1), RETRACTED),
        (COUNTEROFFER, withdrawal(1), WITHDRAWN),
        (REBID, seller(1, 1, REFUSED, 0), REFUSED),
        (REBID, seller(1, 1, DECLINED, 0), DECLINED),
        (REBID, seller(1, 1, SUPERSEDED, 0), SUPERSEDED),
        (REBID, seller(1, 1, ANNULLED, 0), ANNULLED),
    ];
    for (before, end, after) in ends {
        let mut desk = requested(1);
        desk.moves(seller(1, 1, COUNTEROFFER, 9), &[], (1, 6), 1 + 16 + 32);
        if before == REBID {
            desk.moves(customer(20, 1, REBID, 8), &[], (6, 8), 1 + 16 + 32);
        }
        desk.ok(clock(1, 3_600), &[]);
        desk.moves(end, &[], (before, after), 1 + 16 + 32);
    }
}

// First refusal. The row contested is in hours 1 and 2 of six, so its own term is 2.

/// A contest by the provider for reference 1, with terms to spare on both sides.
const GOOD: Contest = Contest { actor: 1, reference: 1, challenger: 6, holder: 5 };

#[test]
fn a_lost_contest_is_a_displacement() {
    let mut desk = Desk::new(4, 6);
    let one = desk.part_day(ORIGINAL_FIRM, 1, 3);
    desk.derived(RESALE, one, 1, &[30, 0]);
    desk.ok(on(REDUCE, 1, one), &[0, 5]);
    let postings = desk.postings.clone();
    let mut displaced = desk.ledger.clone();
    let act = act(&mut displaced, &mut desk.postings, &[], &seller(1, one, DISPLACED, 0));
    let lost = desk.contest(GOOD, &[3], &[0]);
    assert_eq!(lost, Answer { number: 0, reference: one, before: 13, after: 15, moved: 165 });
    assert_eq!((lost, &desk.ledger, &desk.postings), (act, &displaced, &postings));
    assert_eq!(desk.field(one, STATUS), DISPLACED);
    assert_eq!(desk.profile(one, AVAILABLE), [0; 6]);
    assert_eq!(desk.profile(one, DISPLACED_MW), [0, 70, 95, 0, 0, 0]);
    assert_eq!(desk.profile(one, REDUCED_MW), [0, 0, 5, 0, 0, 0]);
    assert_eq!(GOOD.displacement(), seller(1, one, DISPLACED, 0));
    // Once only.
    assert_eq!(desk.contest(GOOD, &[3], &[0]).number, BAD_MOVE);
    assert_eq!(balanced(&desk.ledger, &desk.tally), Ok(()));
    assert_eq!(open(&desk.ledger), 0);
}

/// The greatest terms of challenger and holder, moves, replies, and how it ends.
type Played<'a> = ((u32, u32), &'a [u32], &'a [u32], Ended);

#[test]
fn the_moves_of_a_contest() {
    use Ended::*;
    let mut desk = Desk::new(1, 6);
    desk.part_day(ORIGINAL_FIRM, 1, 3);
    const OUT: Ended = Refused(TERM_RANGE);
    let cases: [Played; 46] = [
        // Nobody moves, or one of them only.
        ((6, 5), &[], &[], Stands),
        ((6, 5), &[], &[0], Stands),
        ((6, 5), &[3], &[], Stands),
        ((6, 5), &[3, 4], &[1], Stands),
        ((6, 5), &[3, 4], &[1, 1], Stands),
        ((6, 5), &[3, 4, 5], &[1, 1], Stands),
        // The challenger stops, at once or later.
        ((6, 5), &[0], &[], Stands),
        ((6, 5), &[0], &[0], Stands),
        ((6, 5), &[3, 0], &[1], Stands),
        ((6, 5), &[3, 0], &[1, 0], Stands),
        ((6, 5), &[3, 4, 0], &[1, 1], Stands),
        // The holder yields, at once or later.
        ((6, 5), &[3], &[0], Lost),
        ((6, 5), &[6], &[0], Lost),
        ((6, 5), &[3, 4], &[1, 0], Lost),
        ((6, 5), &[3, 6], &[1, 0], Lost),
        ((6, 5), &[3, 4, 5, 6], &[1, 1, 1, 0], Lost),
        // The first term is longer than the row's own hours.
        ((6, 5), &[1], &[0], OUT),
        ((6, 5), &[2], &[0], OUT),
        ((6, 5), &[2], &[1], OUT),
        // Every further one is longer than the last.
        ((6, 5), &[3, 3], &[1, 0], OUT),
        ((6, 5), &[4, 3], &[1, 0], OUT),
        ((6, 5), &[5, 3], &[1, 0], OUT),
        ((6, 5), &[3, 4, 4], &[1, 1, 0], OUT),
        // None is above the challenger's greatest, which may be all hours.
        ((4, 5), &[4], &[0], Lost),
        ((4, 5), &[5], &[0], OUT),
        ((4, 5), &[3, 5], &[1, 0], OUT),
        ((6, 6), &[6], &[0], Lost),
        ((6, 6), &[7], &[0], OUT),
        ((6, 6), &[u32::MAX], &[0], OUT),
        // No match is above the holder's.
        ((6, 5), &[5], &[1], Stands),
        ((6, 5), &[6], &[1], OUT),
        ((6, 5), &[3, 6], &[1, 1], OUT),
        ((6, 2), &[3], &[1], OUT),
        ((6, 2), &[3], &[0], Lost),
        ((6, 6), &[6, 0], &[1], Stands),
        // A term is judged though nobody answers it, a match is not there to be judged.
        ((6, 5), &[2], &[], OUT),
        ((6, 5), &[3, 3], &[1], OUT),
        ((4, 5), &[5], &[], OUT),
        ((6, 5), &[6], &[], Stands),
        // A match is any word but 0, and stands for the term it answers.
        ((6, 5), &[3, 4], &[2, u32::MAX], Stands),
        ((6, 5), &[3, 4], &[6, 0], Lost),
        ((6, 5), &[5, 4], &[3, 0], OUT),
        // Nothing behind the end is read.
        ((6, 5), &[0, 7, 1], &[0, 1], Stands),
        ((6, 5), &[3, 1, 7], &[0, 1, 0], Lost),
        ((6, 5), &[3, 1, 7], &[], Stands),
        ((6, 5), &[3], &[1, 0, 0], Stands),
    ];
    for (terms, moves, replies, expected) in cases {
        let ended = desk.ending(terms, moves, replies);
        assert_eq!(ended, expected, "{terms:?} {moves:?} {replies:?}");
    }
}

#[test]
fn greatest_terms_of_a_contest() {
    let mut desk = Desk::new(1, 6);
    desk.part_day(ORIGINAL_FIRM, 1, 3);
    let terms = [0, 1, 2, 3, 5, 6, 7, 744, u32::MAX];
    for challenger in terms {
        for holder in terms {
            // Nothing is named, so that these alone are judged.
            let fit = (1..=6).contains(&challenger) && (2..=6).contains(&holder);
            let expected = if fit { Ended::Stands } else { Ended::Refused(TERM_RANGE) };
            for replies in [&[][..], &[0]] {
                let ended = desk.ending((challenger, holder), &[], replies);
                assert_eq!(ended, expected, "{challenger} {holder}");
                let ended = desk.ending((challenger, holder), &[0], replies);
                assert_eq!(ended, expected, "{challenger} {holder}");
            }
        }
    }
    // A challenger whose greatest is no longer than the row may run it and stop.
    assert_eq!(desk.ending((1, 2), &[0], &[]), Ended::Stands);
    assert_eq!(desk.ending((2, 2), &[2], &[0]), Ended::Refused(TERM_RANGE));
}

#[test]
fn a_row_over_all_hours_is_never_lost() {
    let mut desk = Desk::new(1, 3);
    desk.original(ORIGINAL_FIRM, 100);
    for term in [1, 2, 3, 4, u32::MAX] {
        assert_eq!(desk.ending((3, 3), &[term], &[0]), Ended::Refused(TERM_RANGE));
        assert_eq!(desk.ending((4, 3), &[term], &[0]), Ended::Refused(TERM_RANGE));
    }
    assert_eq!(desk.ending((3, 3), &[0], &[]), Ended::Stands);
    assert_eq!(desk.ending((3, 2), &[0], &[]), Ended::Refused(TERM_RANGE));
}

#[test]
fn a_contest_is_refused_in_the_order_of_a_displacement() {
    let mut desk = Desk::new(4, 6);
    let one = desk.part_day(ORIGINAL_FIRM, 1, 3);
    let queued = desk.ok(submission(10, ORIGINAL_FIRM, 1, 0, 1, 3, 0, 0), &[1, 1]).reference;
    let two = desk.part_day(ORIGINAL_NON_FIRM, 1, 3);
    // Whatever the terms and the moves are.
    let wrong = Contest { challenger: 0, holder: u32::MAX, ..GOOD };
    for terms in [GOOD, wrong] {
        for (contest, number) in [
            (Contest { actor: 0, ..terms }, BAD_PARTY),
            (Contest { actor: 65_536, reference: 99, ..terms }, BAD_PARTY),
            (Contest { reference: 0, ..terms }, NO_REFERENCE),
            (Contest { actor: 10, reference: 4, ..terms }, NO_REFERENCE),
            (Contest { reference: u32::MAX, ..terms }, NO_REFERENCE),
            (Contest { actor: 10, ..terms }, BAD_PARTY),
            (Contest { actor: 11, reference: queued, ..terms }, BAD_PARTY),
            (Contest { reference: queued, ..terms }, BAD_MOVE),
            (Contest { actor: 10, reference: two, ..terms }, BAD_PARTY),
            (Contest { reference: two, ..terms }, BAD_MOVE),
        ] {
            for moves in [&[3][..], &[7], &[0], &[]] {
                assert_eq!(desk.contest(contest, moves, &[0]).number, number, "{contest:?}");
            }
        }
    }
    assert_eq!(desk.contest(wrong, &[3], &[0]).number, TERM_RANGE);
    // Before all these a ledger or postings that are none.
    let good = desk.postings.clone();
    for actor in [0, 1] {
        for postings in [vec![], vec![0; 64 * 5], vec![0; 64 * 6 - 1], vec![0; 64 * 7]] {
            desk.postings = postings;
            assert_eq!(desk.contest(Contest { actor, ..GOOD }, &[3], &[0]).number, BAD_LEDGER);
        }
        desk.postings = good.clone();
        desk.postings[64 * 6 - 1] = 100_001;
        assert_eq!(desk.contest(Contest { actor, ..GOOD }, &[], &[]).number, BAD_LEDGER);
        desk.postings = good.clone();
        desk.ledger[HEAD_ZERO] = 1;
        assert_eq!(desk.contest(Contest { actor, ..GOOD }, &[3], &[0]).number, BAD_LEDGER);
        desk.ledger[HEAD_ZERO] = 0;
    }
    assert_eq!(contest(&mut [], &[], &GOOD, &[3], &[0]), Answer::refused(BAD_LEDGER));
    // What is posted is not compared.
    desk.postings.fill(0);
    assert_eq!(desk.contest(GOOD, &[3], &[0]).after, DISPLACED);
    assert_eq!(desk.field(one, STATUS), DISPLACED);
}

#[test]
fn rows_that_are_contested() {
    // By type, the row above, who sells it and what a contest that would be lost answers.
    for (reqtype, above, sold_by, number) in [
        (RESALE, ORIGINAL_FIRM, 10, 0),
        (RESALE, ORIGINAL_NON_FIRM, 10, BAD_MOVE),
        (REDIRECT_FIRM, ORIGINAL_FIRM, 1, 0),
        (REDIRECT_NON_FIRM, ORIGINAL_FIRM, 1, BAD_MOVE),
    ] {
        let mut desk = Desk::new(8, 6);
        let one = desk.part_day(above, 1, 3);
        let two = desk.derived(reqtype, one, 1, &[40, 60]);
        let three = match reqtype {
            RESALE | REDIRECT_FIRM => Some(desk.derived(RESALE, two, 1, &[7, 0])),
            _ => None,
        };
        for actor in [1, 10, 20] {
            let contest = Contest { actor, reference: two, ..GOOD };
            let is_seller = actor == sold_by;
            let expected = if is_seller { number } else { BAD_PARTY };
            let answer = desk.contest(contest, &[3], &[0]);
            assert_eq!(answer.number, expected, "{reqtype} of {above} by {actor}");
            if answer.number == 0 {
                assert_eq!((answer.after, answer.moved), (DISPLACED, 93));
            }
        }
        // A resale of it is what it is, also once it is displaced.
        if let Some(three) = three {
            let contest = Contest { actor: 10, reference: three, ..GOOD };
            let answer = desk.contest(contest, &[3], &[0]);
            assert_eq!((answer.number, answer.moved), (number, if number == 0 { 7 } else { 0 }));
        }
        assert_eq!(balanced(&desk.ledger, &desk.tally), Ok(()));
    }
}

#[test]
fn transfers_and_relinquish_records_are_contested_as_their_class_is() {
    let mut desk = Desk::new(8, 6);
    let one = desk.part_day(ORIGINAL_FIRM, 1, 3);
    let part = desk.ok(submission(20, PART_TRANSFER, 10, one, 1, 2, 1, 0), &[40]).reference;
    desk.ok(on(APPROVE, 1, part), &[]);
    desk.ok(seller(10, part, ACCEPTED, 0), &[]);
    let full = desk.ok(submission(30, FULL_TRANSFER, 20, part, 1, 2, 1, 0), &[40]).reference;
    desk.ok(on(APPROVE, 1, full), &[]);
    desk.ok(seller(20, full, ACCEPTED, 0), &[]);
    let redirect = desk.derived(REDIRECT_NON_FIRM, one, 2, &[10, 10]);
    let record = desk.derived(RELINQUISH, redirect, 2, &[4, 0]);
    // A type 8 row never goes from 13, and is not firm; a type 5 goes, and is not.
    for reference in [redirect, record] {
        let contest = Contest { reference, ..GOOD };
        for moves in [&[3][..], &[0], &[]] {
            assert_eq!(desk.contest(contest, moves, &[0]).number, BAD_MOVE);
        }
    }
    // The full transfer has one hour, and nothing is left of the part.
    let by_20 = Contest { actor: 20, reference: full, challenger: 2, holder: 1 };
    assert_eq!(desk.contest(by_20, &[2], &[0]).moved, 40);
    let by_10 = Contest { actor: 10, reference: part, challenger: 2, holder: 1 };
    let answer = desk.contest(by_10, &[2], &[0]);
    assert_eq!((answer.after, answer.moved), (DISPLACED, 0));
    assert_eq!(balanced(&desk.ledger, &desk.tally), Ok(()));
}

#[test]
fn the_last_one_is_for_a_row_lost() {
    let mut desk = Desk::new(1, 6);
    let one = desk.part_day(ORIGINAL_FIRM, 1, 3);
    // Words that no list leaves behind: in one hour there is room for 99 more.
    let displaced = Row::of(&desk.ledger, one).profile(DISPLACED_MW).start;
    desk.ledger[displaced + 2] = 99_901;
    assert!(sound(&desk.ledger));
    for (moves, replies, number) in [
        (&[3][..], &[0][..], BAD_LEDGER),
        (&[3, 4], &[1, 0], BAD_LEDGER),
        (&[3, 4], &[1, 1], 0),
        (&[3], &[], 0),
        (&[3, 0], &[1], 0),
        (&[], &[], 0),
        (&[3, 3], &[1, 0], TERM_RANGE),
        (&[2], &[0], TERM_RANGE),
        (&[6], &[1], TERM_RANGE),
    ] {
        assert_eq!(desk.contest(GOOD, moves, replies).number, number, "{moves:?} {replies:?}");
    }
    let wrong = Contest { holder: 1, ..GOOD };
    assert_eq!(desk.contest(wrong, &[3], &[0]).number, TERM_RANGE);
    // With just enough room it goes up to 100,000.
    desk.ledger[displaced + 2] = 99_900;
    assert_eq!(desk.contest(GOOD, &[3], &[0]).moved, 200);
    assert_eq!(desk.profile(one, DISPLACED_MW), [0, 100, 100_000, 0, 0, 0]);
}

#[test]
fn contests_between_the_actions_of_a_list() {
    let mut desk = Desk::new(8, 6);
    let one = desk.part_day(ORIGINAL_FIRM, 1, 3);
    let sale = desk.derived(RESALE, one, 1, &[40, 60]);
    let entries = desk.tally.entries().clone();
    // Kept, unfinished and refused ones leave nothing in the tally.
    for (moves, replies) in [(&[3, 0][..], &[1][..]), (&[3], &[]), (&[9], &[0])] {
        desk.contest(GOOD, moves, replies);
        assert_eq!(desk.tally.entries(), &entries);
    }
    assert_eq!(desk.contest(GOOD, &[3], &[0]).moved, 100);
    assert_eq!(desk.tally.entries()[&one].status, DISPLACED);
    assert_eq!(desk.tally.entries()[&sale], entries[&sale]);
    // A lost row gives nothing up, and what comes back to it is displaced.
    assert_eq!(desk.number(submission(20, RESALE, 10, one, 1, 3, 1, 0), &[1, 1]), BAD_RELATED);
    desk.ok(seller(10, sale, ANNULLED, 0), &[]);
    assert_eq!(desk.profile(one, AVAILABLE), [0; 6]);
    assert_eq!(desk.profile(one, DISPLACED_MW), [0, 100, 100, 0, 0, 0]);
    assert_eq!(balanced(&desk.ledger, &desk.tally), Ok(()));
    assert_eq!(open(&desk.ledger), 0);
    // Left out of the list, the lost one is missed.
    let mut without = desk.tally.clone();
    let back = Answer { number: 0, reference: one, before: 13, after: 13, moved: 0 };
    without.feed(&[], &GOOD.displacement(), &back);
    let told = balanced(&desk.ledger, &without).unwrap_err();
    assert_eq!(told, "reference 1: status 13 in the tally, 15 in the ledger");
}

#[test]
fn a_lost_contest_frees_its_path() {
    let mut desk = Desk::with_nothing_posted(8, 6);
    desk.ok(posting(1, 0, 6), &[100; 6]);
    desk.part_day(ORIGINAL_FIRM, 1, 3);
    let longer = desk.ok(submission(20, ORIGINAL_FIRM, 1, 0, 1, 6, 1, 0), &[100; 5]).reference;
    let accept = seller(1, longer, ACCEPTED, 0);
    assert_eq!(desk.number(accept, &[]), OVER_POSTING);
    assert_eq!(desk.contest(GOOD, &[5, 0], &[1]), stands(1));
    assert_eq!(desk.number(accept, &[]), OVER_POSTING);
    assert_eq!(desk.contest(GOOD, &[5], &[0]).after, DISPLACED);
    desk.ok(accept, &[]);
    assert_eq!(path_use(&desk.ledger, 1), [0, 100, 100, 100, 100, 100]);
    assert_eq!(balanced(&desk.ledger, &desk.tally), Ok(()));
}

// Annulments in order.

/// The day's ledger after so many of its actions.
fn day_after(actions: usize) -> Desk {
    let mut desk = before_the_day();
    for (action, profile) in &day()[..actions] {
        desk.act(*action, profile);
    }
    desk
}

/// All lists of some references, each named at most once, the empty one first.
fn orders(references: &[u32]) -> Vec<Vec<u32>> {
    let mut orders = vec![Vec::new()];
    let mut next = 0;
    while next < orders.len() {
        for &reference in references {
            if !orders[next].contains(&reference) {
                orders.push([&orders[next][..], &[reference]].concat());
            }
        }
        next += 1;
    }
    orders
}

#[test]
fn the_chain_of_the_day_is_unwound_from_its_ends() {
    // Before row 1 is displaced: 2 and 3 came from it, and 4 is open and preconfirmed.
    let desk = day_after(9);
    for right in [&[][..], &[2], &[3], &[4], &[2, 3, 1], &[3, 2, 1], &[3, 4, 2, 1], &[2, 3, 1, 4]] {
        assert!(desk.annuls(right), "{right:?}");
    }
    for wrong in [&[1][..], &[1, 2, 3], &[2, 1], &[2, 1, 3], &[3, 1, 2], &[4, 1], &[3, 4, 1, 2]] {
        assert!(!desk.annuls(wrong), "{wrong:?}");
    }
    // Row 1 can go once both are gone, and no other row waits for any.
    let all = orders(&[1, 2, 3, 4]);
    assert_eq!(all.len(), 1 + 4 + 12 + 24 + 24);
    let mut unwound = 0;
    for order in &all {
        let place = |reference| order.iter().position(|&named| named == reference);
        let before_1 = |reference| place(reference).is_some_and(|at| Some(at) < place(1));
        let expected = place(1).is_none() || before_1(2) && before_1(3);
        assert_eq!(desk.annuls(order), expected, "{order:?}");
        unwound += u32::from(expected);
    }
    // Without 1 these are 1 + 3 + 6 + 6, with it 2 of three references and 8 of four.
    assert_eq!(unwound, 16 + 2 + 8);
}

#[test]
fn a_reference_is_named_once_and_there() {
    let desk = day_after(9);
    for wrong in [
        &[2, 2][..],
        &[4, 4],
        &[2, 3, 2],
        &[2, 3, 1, 1],
        &[0],
        &[5],
        &[u32::MAX],
        &[2, 3, 1, 0],
        &[2, 5, 3],
        &[0, 2],
        // Longer than the rows used, whatever is named.
        &[2, 3, 1, 4, 4],
        &[4, 3, 2, 1, 5],
        &[2, 3, 1, 4, 2, 3, 1, 4, 0],
    ] {
        assert!(!desk.annuls(wrong), "{wrong:?}");
    }
    // The eight rows of the ledger are not all used.
    assert!((5..=9).all(|reference| !desk.annuls(&[reference])));
}

#[test]
fn the_rest_of_the_day_is_unwound() {
    // Row 1 is displaced, and what comes back goes to its displaced.
    let desk = day_after(10);
    for (order, expected) in
        [(&[2, 3][..], true), (&[3, 2, 4], true), (&[1], false), (&[2, 3, 1], false)]
    {
        assert_eq!(desk.annuls(order), expected, "{order:?}");
    }
    // Of row 3 some was given back by record 5, which never goes from 13.
    let mut desk = day_after(12);
    for (order, expected) in [
        (&[2][..], true),
        (&[4, 2], true),
        (&[3], false),
        (&[5], false),
        (&[5, 3], false),
        (&[2, 5], false),
    ] {
        assert_eq!(desk.annuls(order), expected, "{order:?}");
    }
    // A record that is still open may go, and then the redirect is whole.
    desk.set(5, STATUS, QUEUED);
    desk.set_profile(3, AVAILABLE, &[0, 0, 40, 50]);
    assert!(desk.annuls(&[5, 3]) && desk.annuls(&[3, 5]));
}

#[test]
fn any_words_are_unwound() {
    let mut desk = day_after(9);
    let good = desk.postings.clone();
    let wrong = [vec![], vec![0; 64 * 3], vec![0; 64 * 4 - 1], vec![0; 64 * 5]];
    let mut high = good.clone();
    high[64 * 4 - 1] = 100_001;
    for postings in wrong.into_iter().chain([high]) {
        desk.postings = postings;
        assert!(desk.annuls(&[]));
        assert!(!desk.annuls(&[2]) && !desk.annuls(&[4]) && !desk.annuls(&[0]));
    }
    desk.postings = good;
    desk.ledger[HEAD_ZERO] = 1;
    assert!(desk.annuls(&[]));
    assert!(!desk.annuls(&[2]) && !desk.annuls(&[4]) && !desk.annuls(&[0]));
    for words in [vec![], vec![5; 3], vec![u32::MAX; 8], vec![1; 400]] {
        assert!(annuls_in_order(&words, &desk.postings, &[]));
        assert!(!annuls_in_order(&words, &desk.postings, &[1]));
        assert!(annuls_in_order(&words, &words, &[]));
        assert!(!annuls_in_order(&words, &words, &[0]));
    }
}

#[test]
fn each_status_is_unwound_or_not() {
    let mut desk = Desk::new(2, 1);
    desk.original(ORIGINAL_FIRM, 100);
    desk.original(ORIGINAL_NON_FIRM, 100);
    for flags in [PRECONFIRMED, 0] {
        for status in QUEUED..=RETRACTED {
            desk.set(1, FLAGS, flags);
            desk.set(1, STATUS, status);
            let expected = status == CONFIRMED || is_open(status) && flags == PRECONFIRMED;
            assert_eq!(desk.annuls(&[1]), expected, "{status} with flags {flags}");
            assert_eq!(desk.annuls(&[2, 1]), expected, "{status} with flags {flags}");
        }
    }
}

#[test]
fn a_firm_redirect_waits_for_its_old_path() {
    let mut desk = Desk::with_nothing_posted(8, 1);
    desk.ok(posting(1, 0, 1), &[100]);
    desk.ok(posting(2, 0, 1), &[40]);
    let one = desk.original(ORIGINAL_FIRM, 100);
    let redirect = desk.derived(REDIRECT_FIRM, one, 2, &[40]);
    let resold = desk.derived(RESALE, redirect, 2, &[15]);
    // Path 1 is sold again, and so is full.
    let next = desk.original(ORIGINAL_FIRM, 40);
    for (order, expected) in [
        (&[resold][..], true),
        (&[redirect], false),
        (&[resold, redirect], false),
        (&[next, resold, redirect], true),
        (&[resold, next, redirect], true),
        (&[resold, redirect, next], false),
        (&[next, redirect, resold], false),
        (&[next, resold, redirect, one], true),
        (&[resold, next, redirect, one], true),
        (&[next, resold, one, redirect], false),
        (&[resold, redirect, next, one], false),
        (&[one, next, resold, redirect], false),
    ] {
        assert_eq!(desk.annuls(order), expected, "{order:?}");
    }
    // With a megawatt more it need not wait, with one less path 2 is over as well.
    desk.postings[0] = 140;
    assert!(desk.annuls(&[resold, redirect, next, one]));
    desk.postings[0] = 139;
    assert!(!desk.annuls(&[resold, redirect, next, one]));
    desk.postings[0] = 140;
    desk.postings[1] = 39;
    assert!(!desk.annuls(&[resold]));
    assert!(desk.annuls(&[next]));
}

#[test]
fn rows_partly_used_are_not_unwound() {
    let mut desk = Desk::new(8, 2);
    let one = desk.original(ORIGINAL_FIRM, 100);
    let two = desk.derived(RESALE, one, 1, &[60, 60]);
    let three = desk.derived(RESALE, two, 1, &[0, 20]);
    assert!(!desk.annuls(&[two]) && !desk.annuls(&[two, three]));
    assert!(desk.annuls(&[three, two, one]));
    // What was reduced does not come back.
    desk.ok(on(REDUCE, 1, two), &[1, 0]);
    assert!(desk.annuls(&[three]));
    assert!(!desk.annuls(&[three, two]) && !desk.annuls(&[three, two, one]));
    // As many in all, but not in each hour.
    desk.set_profile(two, AVAILABLE, &[61, 39]);
    assert!(!desk.annuls(&[three, two]));
    desk.set_profile(two, AVAILABLE, &[60, 40]);
    assert!(desk.annuls(&[three, two]));
}

#[test]
fn a_row_that_goes_first_takes_what_comes_later_as_displaced() {
    let mut desk = Desk::new(4, 1);
    let one = desk.original(ORIGINAL_FIRM, 100);
    let two = desk.derived(RESALE, one, 1, &[50]);
    let three = desk.derived(RESALE, one, 1, &[50]);
    // Words that no list leaves behind: row 1 has all that it was granted, and more was
    // resold, and little room is left in its displaced.
    desk.set_profile(one, AVAILABLE, &[100]);
    for profile in [GRANTED, AVAILABLE] {
        desk.set_profile(three, profile, &[60]);
    }
    desk.set_profile(one, DISPLACED_MW, &[99_891]);
    assert!(sound(&desk.ledger));
    for (order, expected) in [
        (&[one][..], true),
        (&[one, two], true),
        (&[one, three], true),
        // 99,891 and 110 pass 100,000.
        (&[one, two, three], false),
        (&[one, three, two], false),
        // What comes before goes to its available, and then it has more than granted.
        (&[two, three], true),
        (&[two, one], false),
        (&[two, one, three], false),
    ] {
        assert_eq!(desk.annuls(order), expected, "{order:?}");
    }
    desk.set_profile(one, DISPLACED_MW, &[99_890]);
    assert!(desk.annuls(&[one, two, three]) && desk.annuls(&[one, three, two]));
    // The same where it is displaced already.
    desk.set(one, STATUS, DISPLACED);
    assert!(desk.annuls(&[two, three]) && !desk.annuls(&[one, two]));
    desk.set_profile(one, DISPLACED_MW, &[99_891]);
    assert!(!desk.annuls(&[two, three]) && !desk.annuls(&[three, two]));
    assert!(desk.annuls(&[two]) && desk.annuls(&[three]));
    // An available word that would pass is over any posting before; once the row is gone
    // nothing goes there.
    desk.set(one, STATUS, CONFIRMED);
    for profile in [GRANTED, AVAILABLE] {
        desk.set_profile(one, profile, &[99_951]);
    }
    assert!(!desk.annuls(&[two]) && desk.annuls(&[one, two]));
}

#[test]
fn a_non_firm_redirect_keeps_a_path_free_while_its_row_stands() {
    let mut desk = Desk::new(4, 1);
    let one = desk.original(ORIGINAL_FIRM, 100);
    let redirect = desk.derived(REDIRECT_NON_FIRM, one, 2, &[40]);
    let other = desk.original(ORIGINAL_FIRM, 100);
    // Words that no list leaves behind: nothing was taken from row 1.
    desk.set_profile(one, AVAILABLE, &[100]);
    // Path 1 is used by rows 1 and 3 and kept free for row 2, 240 in all.
    for (posted, order, expected) in [
        (240, &[other][..], true),
        (139, &[other], false),
        (140, &[other], true),
        // Once row 1 is gone nothing returns to path 1.
        (100, &[one], true),
        (99, &[one], false),
        (0, &[one, other], false),
        (100, &[one, other, redirect], true),
        (100, &[one, redirect, other], true),
        (139, &[other, one], false),
        (140, &[other, one, redirect], true),
        // Before that it does, and is then too much for row 1.
        (239, &[redirect], false),
        (240, &[redirect], true),
        (140, &[other, redirect], true),
        (139, &[other, redirect], false),
        (240, &[redirect, one], false),
    ] {
        desk.postings[0] = posted;
        assert_eq!(desk.annuls(order), expected, "{order:?} with {posted}");
    }
    // On path 2 it is carried, as long as it is not gone.
    desk.postings[0] = MAX_MW;
    desk.postings[1] = 0;
    assert!(desk.annuls(&[redirect]) && desk.annuls(&[one, redirect]));
}

#[test]
fn a_row_need_not_wait_for_what_was_relinquished() {
    let mut desk = Desk::new(4, 2);
    let one = desk.original(ORIGINAL_FIRM, 100);
    let redirect = desk.derived(REDIRECT_NON_FIRM, one, 2, &[40, 30]);
    let record = desk.derived(RELINQUISH, redirect, 2, &[40, 29]);
    assert!(!desk.annuls(&[one]) && !desk.annuls(&[redirect]) && !desk.annuls(&[record]));
    let rest = desk.derived(RELINQUISH, redirect, 2, &[0, 1]);
    // All of the redirect is back, so row 1 can go, but the redirect never can.
    assert!(desk.annuls(&[one]));
    for order in [[redirect, one], [one, redirect], [one, record], [rest, one]] {
        assert!(!desk.annuls(&order), "{order:?}");
    }
}

#[test]
fn annulments_are_the_sellers_alone() {
    let mut desk = Desk::new(4, 1);
    let one = desk.original(ORIGINAL_FIRM, 100);
    let two = desk.derived(RESALE, one, 1, &[50]);
    assert_eq!(annulment(&desk.ledger, two), Some(seller(10, two, ANNULLED, 0)));
    assert_eq!(annulment(&desk.ledger, one), Some(seller(1, one, ANNULLED, 0)));
    assert_eq!((annulment(&desk.ledger, 0), annulment(&desk.ledger, 3)), (None, None));
    // Whoever it is, and whoever the provider is.
    for sold_by in [1, 10, 77, 65_535] {
        desk.set(one, SELLER, sold_by);
        desk.set(two, SELLER, 65_535 - sold_by + 1);
        for provider in [1, 2, 65_535] {
            desk.ledger[PROVIDER] = provider;
            assert!(desk.annuls(&[two, one]) && !desk.annuls(&[one]));
        }
    }
}

#[test]
fn chains_and_wide_deals_of_many_rows() {
    let mut chain = Desk::new(64, 2);
    chain.original(ORIGINAL_FIRM, 100);
    // Resold and redirected to the other path in turn.
    for related in 1..64_u32 {
        let reqtype = [RESALE, REDIRECT_FIRM][related as usize % 2];
        let path = related.div_ceil(2) % 2 + 1;
        chain.derived(reqtype, related, path, &[100, 100 - related]);
    }
    let from_the_end: Vec<u32> = (1..=64).rev().collect();
    assert!((0..=64).all(|count| chain.annuls(&from_the_end[..count])));
    for place in 0..63 {
        let mut swapped = from_the_end.clone();
        swapped.swap(place, place + 1);
        assert!(!chain.annuls(&swapped), "{place}");
    }
    let mut wide = Desk::new(64, 1);
    wide.original(ORIGINAL_FIRM, 63);
    for _ in 1..64 {
        wide.derived(RESALE, 1, 1, &[1]);
    }
    let mut from_the_front: Vec<u32> = (2..=64).chain([1]).collect();
    assert!(wide.annuls(&from_the_end) && wide.annuls(&from_the_front));
    from_the_front.swap(62, 63);
    assert!(!wide.annuls(&from_the_front));
}
