//! Models with a planted fault. Each keeps to documents 01 and 02 but for one
//! thing, and the tests must find every one of them.

use std::cmp::Reverse;

use luddrisa_model::*;

use crate::edges::{laid_out, length_with};
use crate::limits::both_paths;
use crate::plays::Check::{self, *};
use crate::plays::{
    carried_out, greatest, is_firm, own_hours, row_named, would_pass, Contesting, Ending, Places,
    Play, CONTESTING,
};
use crate::rules::{Model, Rules};
use crate::stamps::{order_number, zone_named, zone_past_the_last};
use crate::unwound::{status, stopped, Left, Obstacle, Unwinding, UNWINDING};

/// One action as it was handed over.
pub struct Case<'a> {
    before: &'a [u32],
    postings: &'a [u32],
    words: &'a [u32],
    action: &'a Action,
}

/// One contest as it was handed over.
pub struct Dispute<'a> {
    before: &'a [u32],
    postings: &'a [u32],
    play: &'a Play,
}

type BatchCall = fn(&mut [u32], &mut [u32], &[u32], &[Action], &mut [Answer]) -> u32;

/// What the fault replaces, or for actions, what it does after the model.
enum Fault {
    Act(fn(&Case, &mut [u32], &mut Answer)),
    /// The same with the postings in the ledger's place.
    Post(fn(&Case, &mut [u32], &mut Answer)),
    Batch(BatchCall),
    Create(fn(&mut [u32], [u32; 5]) -> u32),
    Open(fn(&[u32]) -> u32),
    /// The rules of a contest, with one part replaced.
    Contest(Contesting),
    /// What it does with ledger, postings and answer after the model's contest.
    Contested(fn(&Dispute, &mut [u32], &mut [u32], &mut Answer)),
    /// The rules of annulments in order, with one part replaced.
    Unwind(Unwinding),
    /// The call, for a list that is not empty on sound words.
    AnnulsInOrder(fn(&mut [u32], &mut [u32], &[u32]) -> u32),
    Charge(fn(&[u32], u32) -> (u32, u64)),
    Profile(fn(&[u32], u32, &mut [u32]) -> usize),
    ReadStamp(fn(&[u8]) -> (u32, u32)),
    CompareStamps(fn(&[u8], &[u8]) -> (u32, u32)),
    WriteStamp(fn(&mut [u8], u32, u32) -> u32),
}

/// The model with one fault.
pub struct Faulty {
    pub name: &'static str,
    fault: Fault,
    /// True where the tally alone must find it, without the model.
    pub unbalanced: bool,
    /// True where use against postings alone must find it.
    pub overused: bool,
    /// True where the two orders of actions on trees apart alone must find it.
    pub crossed: bool,
}

impl Faulty {
    /// True where the fault is one of opening.
    pub fn is_of_opening(&self) -> bool {
        matches!(self.fault, Fault::Open(_))
    }

    /// True where the fault is one of annulments in order.
    pub fn is_of_annulments(&self) -> bool {
        matches!(self.fault, Fault::Unwind(_) | Fault::AnnulsInOrder(_))
    }

    /// True where the fault is one of contests.
    pub fn is_of_contests(&self) -> bool {
        matches!(self.fault, Fault::Contest(_) | Fault::Contested(_))
    }

    /// True where the fault is one of stamps.
    pub fn is_of_stamps(&self) -> bool {
        matches!(self.fault, Fault::ReadStamp(_) | Fault::WriteStamp(_)) || self.is_of_comparing()
    }

    /// True where the fault is one of comparing stamps.
    pub fn is_of_comparing(&self) -> bool {
        matches!(self.fault, Fault::CompareStamps(_))
    }
}

impl Rules for Faulty {
    fn create(&self, ledger: &mut [u32], numbers: [u32; 5]) -> u32 {
        match self.fault {
            Fault::Create(create) => create(ledger, numbers),
            _ => Model.create(ledger, numbers),
        }
    }

    fn open(&self, ledger: &[u32]) -> u32 {
        match self.fault {
            Fault::Open(open) => open(ledger),
            _ => Model.open(ledger),
        }
    }

    fn batch(
        &self,
        ledger: &mut [u32],
        postings: &mut [u32],
        words: &[u32],
        actions: &[Action],
        answers: &mut [Answer],
    ) -> u32 {
        match self.fault {
            Fault::Batch(batch) => batch(ledger, postings, words, actions, answers),
            Fault::Act(_) | Fault::Post(_) if answers.len() >= actions.len() => {
                for (action, answer) in actions.iter().zip(answers) {
                    let (before, posted_before) = (ledger.to_vec(), postings.to_vec());
                    *answer = act(ledger, postings, words, action);
                    let case = Case { before: &before, postings: &posted_before, words, action };
                    match self.fault {
                        Fault::Act(spoil) => spoil(&case, ledger, answer),
                        Fault::Post(spoil) => spoil(&case, postings, answer),
                        _ => (),
                    }
                }
                0
            }
            _ => Model.batch(ledger, postings, words, actions, answers),
        }
    }

    fn contest(
        &self,
        ledger: &mut [u32],
        postings: &mut [u32],
        contest: &Contest,
        moves: &[u32],
        replies: &[u32],
    ) -> Answer {
        let play = || Play { contest: *contest, moves: moves.to_vec(), replies: replies.to_vec() };
        match self.fault {
            Fault::Contest(by) => carried_out(&by, ledger, postings, &play()),
            Fault::Contested(spoil) => {
                let (before, posted_before) = (ledger.to_vec(), postings.to_vec());
                let mut answer = Model.contest(ledger, postings, contest, moves, replies);
                let dispute = Dispute { before: &before, postings: &posted_before, play: &play() };
                spoil(&dispute, ledger, postings, &mut answer);
                answer
            }
            _ => Model.contest(ledger, postings, contest, moves, replies),
        }
    }

    fn annuls_in_order(&self, ledger: &mut [u32], postings: &mut [u32], references: &[u32]) -> u32 {
        match self.fault {
            Fault::Unwind(by) => unwinds(&by, ledger, postings, references),
            Fault::AnnulsInOrder(annuls) if is_tried(ledger, postings, references) => {
                annuls(ledger, postings, references)
            }
            _ => Model.annuls_in_order(ledger, postings, references),
        }
    }

    fn charge(&self, ledger: &[u32], reference: u32) -> (u32, u64) {
        match self.fault {
            Fault::Charge(charge) => charge(ledger, reference),
            _ => Model.charge(ledger, reference),
        }
    }

    fn profile_in_force(&self, ledger: &[u32], reference: u32, out: &mut [u32]) -> usize {
        match self.fault {
            Fault::Profile(profile) => profile(ledger, reference, out),
            _ => Model.profile_in_force(ledger, reference, out),
        }
    }

    fn read_stamp(&self, bytes: &[u8]) -> (u32, u32) {
        match self.fault {
            Fault::ReadStamp(read) => read(bytes),
            _ => Model.read_stamp(bytes),
        }
    }

    fn compare_stamps(&self, first: &[u8], second: &[u8]) -> (u32, u32) {
        match self.fault {
            Fault::CompareStamps(compare) => compare(first, second),
            _ => Model.compare_stamps(first, second),
        }
    }

    fn write_stamp(&self, bytes: &mut [u8], second: u32, zone: u32) -> u32 {
        match self.fault {
            Fault::WriteStamp(write) => write(bytes, second, zone),
            _ => Model.write_stamp(bytes, second, zone),
        }
    }
}

// What the faults share.

/// A refusal in place of the model's answer.
fn refuse(case: &Case, ledger: &mut [u32], answer: &mut Answer, number: u32) {
    ledger.copy_from_slice(case.before);
    *answer = Answer::refused(number);
}

/// The same for an action that posts.
fn refuse_post(case: &Case, postings: &mut [u32], answer: &mut Answer, number: u32) {
    postings.copy_from_slice(case.postings);
    *answer = Answer::refused(number);
}

/// True where neither the ledger nor the postings are a 1.
fn was_sound(case: &Case) -> bool {
    sound(case.before) && postings_fit(case.postings, case.before[HOURS])
}

fn row_of(ledger: &[u32], answer: &Answer) -> Option<Row> {
    (answer.number == 0 && answer.reference != 0).then(|| Row::of(ledger, answer.reference))
}

fn confirms(answer: &Answer) -> bool {
    answer.number == 0 && answer.before != CONFIRMED && answer.after == CONFIRMED
}

/// The action again on a ledger altered beforehand; where that is accepted, it
/// stands in place of the model's answer, with the alteration taken back.
fn again(case: &Case, ledger: &mut [u32], answer: &mut Answer, alter: impl Fn(&mut [u32], Row)) {
    let row = Row::of(case.before, case.action.reference);
    let mut altered = case.before.to_vec();
    alter(&mut altered, row);
    let mut after = altered.clone();
    let second = act(&mut after, &mut case.postings.to_vec(), case.words, case.action);
    if second.number != 0 {
        return;
    }
    for (at, word) in ledger.iter_mut().enumerate() {
        *word = if after[at] == altered[at] { case.before[at] } else { after[at] };
    }
    *answer = second;
}

fn related_available(ledger: &[u32], row: Row) -> std::ops::Range<usize> {
    let related = Row::of(ledger, row.get(ledger, RELATED));
    let start = row.get(ledger, START) as usize;
    related.part(AVAILABLE, start, row.get(ledger, STOP) as usize)
}

/// What the row would be granted.
fn wanted(ledger: &[u32], row: Row) -> std::ops::Range<usize> {
    let given = row.get(ledger, FLAGS) & GRANTED_GIVEN != 0;
    row.span(ledger, if given { GRANTED } else { REQUESTED })
}

/// Raises the related row's available to what is wanted.
fn make_room(ledger: &mut [u32], row: Row) {
    let wanted = wanted(ledger, row);
    for (at, wants) in related_available(ledger, row).zip(wanted) {
        ledger[at] = ledger[at].max(ledger[wants]);
    }
}

/// An unsound ledger taken for sound, because one thing is not looked at.
fn overlook(case: &Case, ledger: &mut [u32], answer: &mut Answer, mend: fn(&mut [u32])) {
    if answer.number != BAD_LEDGER || sound(case.before) || case.before.len() < HEAD_WORDS {
        return;
    }
    let mut mended = case.before.to_vec();
    mend(&mut mended);
    if !sound(&mended) {
        return;
    }
    let mut after = mended.clone();
    *answer = act(&mut after, &mut case.postings.to_vec(), case.words, case.action);
    for (at, word) in ledger.iter_mut().enumerate() {
        *word = if after[at] == mended[at] { case.before[at] } else { after[at] };
    }
}

/// The used rows of words that are a ledger by their length at least.
fn used_rows(ledger: &[u32]) -> Vec<Row> {
    let (rows, hours, used) = (ledger[ROWS], ledger[HOURS], ledger[USED]);
    if rows > MAX_ROWS || hours > MAX_HOURS || ledger.len() != ledger_words(rows, hours) {
        return Vec::new();
    }
    (1..=used.min(rows)).map(|reference| Row::of(ledger, reference)).collect()
}

/// Words of a profile outside the spans of the rows, put to 0.
fn clear_outside(ledger: &mut [u32], profile: usize) {
    for row in used_rows(ledger) {
        let (start, stop) = (row.get(ledger, START) as usize, row.get(ledger, STOP) as usize);
        for (hour, mw) in ledger[row.profile(profile)].iter_mut().enumerate() {
            if !(start..stop).contains(&hour) {
                *mw = 0;
            }
        }
    }
}

/// Words of a profile brought down to 100,000.
fn bring_down(ledger: &mut [u32], profile: usize) {
    for row in used_rows(ledger) {
        ledger[row.profile(profile)].iter_mut().for_each(|mw| *mw = (*mw).min(MAX_MW));
    }
}

fn at_most(ledger: &mut [u32], field: usize, most: u32) {
    for row in used_rows(ledger) {
        let word = row.get(ledger, field).min(most);
        row.set(ledger, field, word);
    }
}

// Withdrawals.

/// Withdrawals judged in another way, by status and flags of the row.
fn withdrawn_by(case: &Case, ledger: &mut [u32], answer: &mut Answer, may: fn(u32, u32) -> bool) {
    let Action { kind, status, reference, .. } = *case.action;
    let withdraws = kind == CUSTOMER_STATUS && status == WITHDRAWN;
    if !withdraws || !matches!(answer.number, 0 | BAD_MOVE) {
        return;
    }
    let row = Row::of(case.before, reference);
    let before = row.get(case.before, STATUS);
    if may(before, row.get(case.before, FLAGS)) {
        row.set(ledger, STATUS, WITHDRAWN);
        *answer = Answer { number: 0, reference, before, after: WITHDRAWN, moved: 0 };
    } else {
        refuse(case, ledger, answer, BAD_MOVE);
    }
}

/// As the papers have it.
fn may_withdraw(status: u32, flags: u32) -> bool {
    is_open(status) && (!is_held(flags) || matches!(status, 6 | 7 | 11))
}

/// Preconfirmed and never countered.
fn is_held(flags: u32) -> bool {
    flags & PRECONFIRMED != 0 && flags & COUNTERED == 0
}

/// Preconfirmed and countered.
fn is_released(flags: u32) -> bool {
    flags & PRECONFIRMED != 0 && flags & COUNTERED != 0
}

fn is_countered(ledger: &[u32], row: Row) -> bool {
    row.get(ledger, FLAGS) & COUNTERED != 0
}

fn set_countered(ledger: &mut [u32], row: Row, countered: bool) {
    let flags = row.get(ledger, FLAGS) & !COUNTERED;
    row.set(ledger, FLAGS, if countered { flags | COUNTERED } else { flags });
}

fn counters(case: &Case) -> bool {
    let Action { kind, status, .. } = *case.action;
    kind == SELLER_STATUS && matches!(status, COUNTEROFFER | CR_COUNTEROFFER)
}

/// An acceptance, also one that goes on to 13.
fn accepts(case: &Case, answer: &Answer) -> bool {
    offers(case, answer) && !counters(case)
}

/// An accepted counteroffer leaves flag 32 as it was, where a test of the row says so.
fn unnoted(case: &Case, ledger: &mut [u32], answer: &Answer, test: fn(&[u32], Row) -> bool) {
    let Some(row) = row_of(ledger, answer).filter(|_| counters(case)) else { return };
    if test(ledger, row) {
        set_countered(ledger, row, is_countered(case.before, row));
    }
}

/// A counteroffer that is refused with one of the numbers sets flag 32.
fn noted_nevertheless(case: &Case, ledger: &mut [u32], answer: &Answer, numbers: &[u32]) {
    if counters(case) && numbers.contains(&answer.number) {
        set_countered(ledger, Row::of(case.before, case.action.reference), true);
    }
}

/// Clears flag 32 of an accepted action's row.
fn forget_counteroffer(ledger: &mut [u32], answer: &Answer) {
    if let Some(row) = row_of(ledger, answer) {
        set_countered(ledger, row, false);
    }
}

/// The action again, on a countered row that counts as not preconfirmed.
fn counts_as_not_preconfirmed(case: &Case, ledger: &mut [u32], answer: &mut Answer) {
    let row = Row::of(case.before, case.action.reference);
    if is_countered(case.before, row) {
        again(case, ledger, answer, |ledger, row| {
            let flags = row.get(ledger, FLAGS);
            row.set(ledger, FLAGS, flags & !PRECONFIRMED);
        });
        row.set(ledger, FLAGS, row.get(ledger, FLAGS) | PRECONFIRMED);
    }
}

/// True where a used row was countered, and so has flags beyond 31.
fn any_countered(ledger: &[u32]) -> bool {
    used_rows(ledger).into_iter().any(|row| is_countered(ledger, row))
}

/// Flags of 64 put to 0.
fn clear_64(ledger: &mut [u32]) {
    for row in used_rows(ledger) {
        if row.get(ledger, FLAGS) == MAX_FLAGS + 1 {
            row.set(ledger, FLAGS, 0);
        }
    }
}

// Path limits.

/// How many times a row's available is in the use of a path.
type Times = fn(&[u32], Row, u32) -> u32;

fn is_confirmed(ledger: &[u32], row: Row) -> bool {
    row.get(ledger, STATUS) == CONFIRMED
}

fn related(ledger: &[u32], row: Row) -> Option<Row> {
    let related = row.get(ledger, RELATED);
    (related != 0).then(|| Row::of(ledger, related))
}

/// Rows that the path carries.
fn carried(ledger: &[u32], row: Row, path: u32) -> u32 {
    u32::from(is_confirmed(ledger, row) && row.get(ledger, PATH) == path)
}

/// Rows for which the path is kept free, by a test of type and related row.
fn kept(ledger: &[u32], row: Row, path: u32, test: fn(&[u32], u32, Row) -> bool) -> u32 {
    let elsewhere = is_confirmed(ledger, row) && row.get(ledger, PATH) != path;
    let free = related(ledger, row).is_some_and(|related| {
        related.get(ledger, PATH) == path && test(ledger, row.get(ledger, TYPE), related)
    });
    u32::from(elsewhere && free)
}

/// As the paper counts.
fn counted(ledger: &[u32], row: Row, path: u32) -> u32 {
    carried(ledger, row, path)
        + kept(ledger, row, path, |ledger, reqtype, related| {
            reqtype == REDIRECT_NON_FIRM && is_confirmed(ledger, related)
        })
}

fn use_by(ledger: &[u32], path: u32, times: Times) -> Vec<u32> {
    let mut sums = vec![0; ledger[HOURS] as usize];
    for row in used_rows(ledger) {
        let times = times(ledger, row, path);
        for (sum, mw) in sums.iter_mut().zip(&ledger[row.profile(AVAILABLE)]) {
            *sum += times * mw;
        }
    }
    sums
}

/// True where use of a path passes its posting in some hour.
fn over(ledger: &[u32], postings: &[u32], path: u32, times: Times) -> bool {
    let posted = &postings[posted(path, ledger[HOURS] as usize)];
    use_by(ledger, path, times).iter().zip(posted).any(|(mw, posted)| mw > posted)
}

fn either_over(ledger: &[u32], postings: &[u32], row: Row, times: Times) -> bool {
    both_paths(ledger, row).into_iter().any(|path| over(ledger, postings, path, times))
}

/// The answer where no path had a limit, with the ledger left; a word over
/// 100,000 is a 1. The rows concerned are put on paths of their own and all
/// others out of use, which is taken back afterwards.
fn unlimited(case: &Case) -> (Answer, Vec<u32>) {
    let row = Row::of(case.before, case.action.reference);
    let mut altered = case.before.to_vec();
    for other in used_rows(case.before) {
        other.set(&mut altered, STATUS, QUEUED);
    }
    let mut concerned = Some(row);
    for path in 1..=3 {
        if let Some(row) = concerned {
            row.set(&mut altered, STATUS, row.get(case.before, STATUS));
            row.set(&mut altered, PATH, path);
        }
        concerned = concerned.and_then(|row| related(case.before, row));
    }
    let mut after = altered.clone();
    let mut postings = vec![MAX_MW; case.postings.len()];
    let mut answer = act(&mut after, &mut postings, case.words, case.action);
    if answer.number == OVER_POSTING {
        answer = Answer::refused(BAD_LEDGER);
    }
    for (at, word) in after.iter_mut().enumerate() {
        if *word == altered[at] {
            *word = case.before[at];
        }
    }
    (answer, after)
}

/// A confirmation or an annulment of a confirmed row, which 22 is asked of.
fn asked(case: &Case, answer: &Answer) -> bool {
    let annuls = (answer.number, answer.before, answer.after) == (0, CONFIRMED, ANNULLED);
    let refused = answer.number == OVER_POSTING && case.action.kind != POST;
    refused || annuls || confirms(answer)
}

/// The limits judged in another way, by the ledger that would be left and the row.
fn judged(
    case: &Case,
    ledger: &mut [u32],
    answer: &mut Answer,
    is_over: impl Fn(&[u32], Row) -> bool,
) {
    if !asked(case, answer) {
        return;
    }
    let (second, after) = unlimited(case);
    if second.number != 0 {
        return;
    }
    if is_over(&after, Row::of(&after, case.action.reference)) {
        refuse(case, ledger, answer, OVER_POSTING);
    } else {
        ledger.copy_from_slice(&after);
        *answer = second;
    }
}

/// Available and statuses as a confirmation, or an annulment of a confirmed row,
/// would leave them, whatever refuses it.
fn left_nevertheless(case: &Case) -> Vec<u32> {
    let mut left = case.before.to_vec();
    let row = Row::of(&left, case.action.reference);
    let (start, stop) = (row.get(&left, START) as usize, row.get(&left, STOP) as usize);
    let by_seller = case.action.kind == SELLER_STATUS;
    let annuls = by_seller && case.action.status == ANNULLED;
    let relinquishes = row.get(&left, TYPE) == RELINQUISH;
    let granted = match (annuls, by_seller) {
        (true, _) => row.span(&left, GRANTED),
        // Here what is granted equals what was requested.
        (_, true) => row.span(&left, REQUESTED),
        _ => wanted(&left, row),
    };
    let granted = case.before[granted].to_vec();
    row.set(&mut left, STATUS, if annuls { ANNULLED } else { CONFIRMED });
    let related_row = related(&left, row).filter(|&related| is_confirmed(&left, related));
    let above = related(&left, row).and_then(|redirect| related(&left, redirect));
    let above = above.filter(|&above| relinquishes && is_confirmed(&left, above));
    for (hour, mw) in (start..stop).zip(granted) {
        let at = |row: Row| row.profile(AVAILABLE).start + hour;
        left[at(row)] = if annuls || relinquishes { 0 } else { mw };
        if let Some(related) = related_row {
            let has = left[at(related)];
            left[at(related)] = if annuls { has + mw } else { has.saturating_sub(mw) };
        }
        if let Some(above) = above {
            left[at(above)] += mw;
        }
    }
    left
}

/// Is that over the posting of the row's path or of its related row's?
fn over_nevertheless(case: &Case) -> bool {
    let left = left_nevertheless(case);
    either_over(&left, case.postings, Row::of(&left, case.action.reference), counted)
}

/// A posting's hours.
fn posted_hours(case: &Case) -> std::ops::Range<usize> {
    let first = posted(case.action.path, case.before[HOURS] as usize).start;
    first + case.action.start as usize..first + case.action.stop as usize
}

/// An action's profile, where it fits.
fn profile_of<'a>(case: &Case<'a>) -> &'a [u32] {
    let first = case.action.offset as usize;
    &case.words[first..first + case.action.length as usize]
}

fn posts(case: &Case, answer: &Answer) -> bool {
    case.action.kind == POST && answer.number == 0
}

// Reductions.

fn reduces(case: &Case, answer: &Answer) -> bool {
    case.action.kind == REDUCE && answer.number == 0
}

/// The 1 for a reduced word over 100,000.
fn over_reduced(case: &Case, answer: &Answer) -> bool {
    case.action.kind == REDUCE && answer.number == BAD_LEDGER && was_sound(case)
}

/// The reduced words of a reduction's row before it, each with what comes to it.
fn to_be_reduced(case: &Case) -> Vec<(u32, u32)> {
    let row = Row::of(case.before, case.action.reference);
    let reduced = &case.before[row.span(case.before, REDUCED_MW)];
    reduced.iter().copied().zip(profile_of(case).iter().copied()).collect()
}

/// Carries a reduction out, with a way of its own to work out what reduced is left at.
fn reduce_by(case: &Case, ledger: &mut [u32], left: fn(u32, u32) -> u32) {
    let row = Row::of(case.before, case.action.reference);
    let words = row.span(case.before, AVAILABLE).zip(row.span(case.before, REDUCED_MW));
    for ((available, reduced), (has, mw)) in words.zip(to_be_reduced(case)) {
        ledger[available] = case.before[available] - mw;
        ledger[reduced] = left(has, mw);
    }
}

/// The answer to a reduction that is carried out.
fn reduced_by(case: &Case) -> Answer {
    let moved = profile_of(case).iter().sum();
    let reference = case.action.reference;
    Answer { number: 0, reference, before: CONFIRMED, after: CONFIRMED, moved }
}

/// True for a length that fits rows of four profiles.
fn fits_four(len: usize, rows: u32, hours: u32) -> bool {
    rows <= MAX_ROWS && hours <= MAX_HOURS && len == length_with(PROFILES - 1, rows, hours)
}

fn unfit_rows(ledger: &[u32]) -> bool {
    used_rows(ledger).into_iter().any(|row| {
        let stays =
            matches!(row.get(ledger, TYPE), RESALE | PART_TRANSFER | FULL_TRANSFER | RELINQUISH);
        stays && both_paths(ledger, row).windows(2).any(|two| two[0] != two[1])
    })
}

// Opening.

/// The test on opening, worked out apart from the model: first what each row should
/// still hold, then what it does. Each part is the paper's or has a fault.
#[derive(Clone, Copy)]
struct Opening {
    /// Rows that have an equation.
    tested: fn(&[u32], Row) -> bool,
    /// Rows whose granted was taken from their related row.
    takes: fn(&[u32], Row) -> bool,
    /// Rows whose granted came back from a redirect to the row above it.
    gives_back: fn(&[u32], Row, Row) -> bool,
    /// What a row holds, by its equation and in its tree.
    held: &'static [usize],
    held_in_tree: &'static [usize],
    /// Rows whose trees are added up, and the rows in them.
    added_up: fn(&[u32], Row) -> bool,
    in_tree: fn(&[u32], u32, u32) -> bool,
    /// Do what should be held and what is held agree, by the equation and in the tree?
    agree: fn(&[u32], u32, &[i64], &[i64]) -> bool,
    trees_agree: fn(&[u32], u32, &[i64], &[i64]) -> bool,
}

/// As the paper has it.
const OPENING: Opening = Opening {
    tested: |ledger, row| stands(ledger, row) && row.get(ledger, TYPE) != RELINQUISH,
    takes: stands,
    gives_back: |ledger, redirect, row| {
        is_redirect(ledger, redirect)
            && stands(ledger, redirect)
            && stands(ledger, row)
            && row.get(ledger, TYPE) == RELINQUISH
    },
    held: &[AVAILABLE, DISPLACED_MW, REDUCED_MW],
    held_in_tree: &[AVAILABLE, DISPLACED_MW, REDUCED_MW],
    added_up: |ledger, row| stands(ledger, row) && is_original(ledger, row),
    in_tree: |ledger, top, reference| chain(ledger, reference).contains(&top),
    agree: |_, _, should, held| should == held,
    trees_agree: |_, _, should, held| should == held,
};

fn stands(ledger: &[u32], row: Row) -> bool {
    matches!(row.get(ledger, STATUS), CONFIRMED | DISPLACED)
}

fn is_original(ledger: &[u32], row: Row) -> bool {
    row.get(ledger, TYPE) <= ORIGINAL_NON_FIRM
}

fn is_redirect(ledger: &[u32], row: Row) -> bool {
    matches!(row.get(ledger, TYPE), REDIRECT_FIRM | REDIRECT_NON_FIRM)
}

/// A reference and all that it descends from.
fn chain(ledger: &[u32], reference: u32) -> Vec<u32> {
    let mut chain = vec![reference];
    while let Some(above) = related(ledger, Row::of(ledger, chain[chain.len() - 1])) {
        chain.push(reference_of(above));
    }
    chain
}

fn reference_of(row: Row) -> u32 {
    ((row.at - HEAD_WORDS) / (FIELD_WORDS + PROFILES * row.hours)) as u32 + 1
}

fn add_to(sums: &mut [i64], words: &[u32], sign: i64) {
    for (sum, &mw) in sums.iter_mut().zip(words) {
        *sum += sign * i64::from(mw);
    }
}

fn holds(ledger: &[u32], row: Row, profiles: &[usize]) -> Vec<i64> {
    let mut sums = vec![0; row.hours];
    for &profile in profiles {
        add_to(&mut sums, &ledger[row.profile(profile)], 1);
    }
    sums
}

fn opened(ledger: &[u32], opening: &Opening) -> u32 {
    if !sound(ledger) {
        return BAD_LEDGER;
    }
    let rows = used_rows(ledger);
    let granted: Vec<Vec<i64>> = rows.iter().map(|&row| holds(ledger, row, &[GRANTED])).collect();
    let mut should = granted.clone();
    for &row in &rows {
        let words = &ledger[row.profile(GRANTED)];
        let Some(above) = related(ledger, row) else { continue };
        if (opening.takes)(ledger, row) {
            add_to(&mut should[reference_of(above) as usize - 1], words, -1);
        }
        let Some(top) = related(ledger, above) else { continue };
        if (opening.gives_back)(ledger, above, row) {
            add_to(&mut should[reference_of(top) as usize - 1], words, 1);
        }
    }
    let balances = (1..).zip(&rows).all(|(reference, &row)| {
        let held = holds(ledger, row, opening.held);
        let should = &should[reference as usize - 1];
        !(opening.tested)(ledger, row) || (opening.agree)(ledger, reference, should, &held)
    });
    let trees_balance = (1..).zip(&rows).all(|(top, &row)| {
        if !(opening.added_up)(ledger, row) {
            return true;
        }
        let mut held = vec![0; row.hours];
        for (reference, &row) in (1..).zip(&rows) {
            if (opening.in_tree)(ledger, top, reference) {
                for &profile in opening.held_in_tree {
                    add_to(&mut held, &ledger[row.profile(profile)], 1);
                }
            }
        }
        (opening.trees_agree)(ledger, top, &granted[top as usize - 1], &held)
    });
    if balances && trees_balance {
        0
    } else {
        UNBALANCED
    }
}

/// The hours of the first row that is related to a row, all where there is none.
fn first_hours(ledger: &[u32], reference: u32) -> std::ops::Range<usize> {
    let first = used_rows(ledger).into_iter().find(|row| row.get(ledger, RELATED) == reference);
    match first {
        Some(row) => row.get(ledger, START) as usize..row.get(ledger, STOP) as usize,
        None => 0..ledger[HOURS] as usize,
    }
}

// Contests.

/// The row of a contest that was lost.
fn lost_row(ledger: &[u32], answer: &Answer) -> Option<Row> {
    row_of(ledger, answer).filter(|_| answer.after == DISPLACED)
}

/// The row of one that was kept or left unfinished.
fn row_that_stands(ledger: &[u32], answer: &Answer) -> Option<Row> {
    row_of(ledger, answer).filter(|_| answer.after == CONFIRMED)
}

/// Words of a profile put back to what they were.
fn put_back(dispute: &Dispute, ledger: &mut [u32], words: std::ops::Range<usize>) {
    ledger[words.clone()].copy_from_slice(&dispute.before[words]);
}

/// The contest once more as it was, but for its first rounds alone.
fn first_rounds(dispute: &Dispute, ledger: &mut [u32], rounds: usize) -> Answer {
    let mut play = dispute.play.clone();
    play.moves.truncate(rounds);
    play.replies.truncate(rounds);
    ledger.copy_from_slice(dispute.before);
    carried_out(&CONTESTING, ledger, dispute.postings, &play)
}

/// Hours in which a profile has something.
fn hours_with_some(ledger: &[u32], row: Row, profile: usize) -> u32 {
    ledger[row.profile(profile)].iter().map(|&mw| u32::from(mw > 0)).sum()
}

/// One of the words for a match.
const MATCHES: u32 = 1;

fn has_own_class(ledger: &[u32], row: Row) -> bool {
    !matches!(row.get(ledger, TYPE), RESALE | PART_TRANSFER | FULL_TRANSFER)
}

// Annulments in order.

fn unwinds(by: &Unwinding, ledger: &[u32], postings: &[u32], references: &[u32]) -> u32 {
    u32::from(stopped(by, ledger, postings, references).is_none())
}

/// The references in the order of the rows.
fn sorted(references: &[u32]) -> Vec<u32> {
    let mut sorted = references.to_vec();
    sorted.sort_unstable();
    sorted
}

fn swapped(references: &[u32], one: usize, other: usize) -> Vec<u32> {
    let mut swapped = references.to_vec();
    if one.max(other) < references.len() {
        swapped.swap(one, other);
    }
    swapped
}

fn filtered(references: &[u32], stays: impl Fn(usize, u32) -> bool) -> Vec<u32> {
    let places = references.iter().copied().enumerate();
    places.filter(|&(place, reference)| stays(place, reference)).map(|(_, one)| one).collect()
}

/// By the paper, but for rows of some types alone.
fn gives_back_of(ledger: &[u32], row: Row, types: &[u32]) -> bool {
    types.contains(&row.get(ledger, TYPE)) && (UNWINDING.gives_back)(ledger, row)
}

/// How often a row is in use of a path, by another test of whether rows stand CONFIRMED.
fn in_use_of(left: &Left, reference: u32, path: u32, stands: impl Fn(u32) -> bool) -> u32 {
    let related = left.field(reference, RELATED);
    let on_path = |reference: u32| left.field(reference, PATH) == path;
    let returns = left.field(reference, TYPE) == REDIRECT_NON_FIRM;
    let kept = returns && stands(related) && on_path(related);
    u32::from(stands(reference) && (on_path(reference) || kept))
}

/// The annulments one after the other on a copy, each by some actor: the ledger left and
/// the answers.
fn annulled_by(
    ledger: &[u32],
    postings: &[u32],
    references: &[u32],
    actor: impl Fn(&[u32], Row) -> u32,
) -> (Vec<u32>, Vec<Answer>) {
    let (mut ledger, mut postings) = (ledger.to_vec(), postings.to_vec());
    let mut answers = Vec::new();
    for &reference in references {
        let by_seller = annulment(&ledger, reference);
        answers.push(by_seller.map_or(Answer::refused(NO_REFERENCE), |action| {
            let actor = actor(&ledger, Row::of(&ledger, reference));
            act(&mut ledger, &mut postings, &[], &Action { actor, ..action })
        }));
    }
    (ledger, answers)
}

/// The same by their sellers.
fn annulled(ledger: &[u32], postings: &[u32], references: &[u32]) -> (Vec<u32>, Vec<Answer>) {
    annulled_by(ledger, postings, references, |ledger, row| row.get(ledger, SELLER))
}

fn all_accepted(answers: &[Answer]) -> u32 {
    u32::from(answers.iter().all(|answer| answer.number == 0))
}

/// True where there is something to try.
fn is_tried(ledger: &[u32], postings: &[u32], references: &[u32]) -> bool {
    !references.is_empty() && (UNWINDING.grounds)(ledger, postings, references).is_none()
}

// Trees that another desk works on.

/// The row of an answer that confirms what comes from a related row.
fn confirmed_from_related(ledger: &[u32], answer: &Answer) -> Option<Row> {
    let row = row_of(ledger, answer).filter(|_| confirms(answer))?;
    related(ledger, row).map(|_| row)
}

fn is_offer(status: u32) -> bool {
    matches!(status, COUNTEROFFER | CR_COUNTEROFFER | ACCEPTED | CR_ACCEPTED)
}

/// True where an offer is out and not answered.
fn is_offered(ledger: &[u32], row: Row) -> bool {
    is_offer(row.get(ledger, STATUS))
}

fn offers(case: &Case, answer: &Answer) -> bool {
    let Action { kind, status, .. } = *case.action;
    answer.number == 0 && kind == SELLER_STATUS && is_offer(status)
}

/// The used rows but the action's own.
fn other_rows(case: &Case) -> impl Iterator<Item = Row> {
    let own = Row::of(case.before, case.action.reference).at;
    used_rows(case.before).into_iter().filter(move |row| row.at != own)
}

// Stamps.

/// The second of a stamp, 0 where it is refused.
fn second_of(bytes: &[u8]) -> u32 {
    Model.read_stamp(bytes).1
}

/// The second of a stamp, also where it passes the last.
fn second_or_past(bytes: &[u8]) -> Option<u32> {
    let past = |zone: u32| {
        let local = second_of(&[&bytes[..14], b"UT"].concat());
        local + HOURS_BEHIND[zone as usize] * 3_600
    };
    read_stamp(bytes).ok().or_else(|| zone_past_the_last(bytes).map(past))
}

/// Two accepted stamps put in order by something else.
fn ordered<K: Ord>(first: &[u8], second: &[u8], by: impl Fn(&[u8]) -> K) -> (u32, u32) {
    match Model.compare_stamps(first, second) {
        (0, _) => (0, order_number(by(first).cmp(&by(second)))),
        refused => refused,
    }
}

/// Two stamps put in order, a refused one as second 0, unless this refuses them.
fn refused_where(first: &[u8], second: &[u8], refuses: fn([bool; 2]) -> bool) -> (u32, u32) {
    if refuses([first, second].map(|bytes| Model.read_stamp(bytes).0 != 0)) {
        return (NOT_A_STAMP, 0);
    }
    (0, order_number(second_of(first).cmp(&second_of(second))))
}

/// A comparison that is refused, with another number than 0.
fn refused_order(first: &[u8], second: &[u8], order: fn(&[u8], &[u8]) -> u32) -> (u32, u32) {
    match Model.compare_stamps(first, second) {
        (NOT_A_STAMP, _) => (NOT_A_STAMP, order(first, second)),
        accepted => accepted,
    }
}

const PLAIN: Faulty = Faulty {
    name: "",
    fault: Fault::Act(|_, _, _| ()),
    unbalanced: false,
    overused: false,
    crossed: false,
};

const fn acting(name: &'static str, spoil: fn(&Case, &mut [u32], &mut Answer)) -> Faulty {
    Faulty { name, fault: Fault::Act(spoil), ..PLAIN }
}

const fn unbalancing(name: &'static str, spoil: fn(&Case, &mut [u32], &mut Answer)) -> Faulty {
    Faulty { unbalanced: true, ..acting(name, spoil) }
}

const fn overusing(name: &'static str, spoil: fn(&Case, &mut [u32], &mut Answer)) -> Faulty {
    Faulty { overused: true, ..acting(name, spoil) }
}

/// An action is felt in a tree apart from its own.
const fn crossing(name: &'static str, spoil: fn(&Case, &mut [u32], &mut Answer)) -> Faulty {
    Faulty { crossed: true, ..acting(name, spoil) }
}

const fn posting(name: &'static str, spoil: fn(&Case, &mut [u32], &mut Answer)) -> Faulty {
    Faulty { name, fault: Fault::Post(spoil), ..PLAIN }
}

const fn overposting(name: &'static str, spoil: fn(&Case, &mut [u32], &mut Answer)) -> Faulty {
    Faulty { overused: true, ..posting(name, spoil) }
}

const fn crossposting(name: &'static str, spoil: fn(&Case, &mut [u32], &mut Answer)) -> Faulty {
    Faulty { crossed: true, ..posting(name, spoil) }
}

const fn calling(name: &'static str, fault: Fault) -> Faulty {
    Faulty { name, fault, ..PLAIN }
}

const fn comparing(name: &'static str, compare: fn(&[u8], &[u8]) -> (u32, u32)) -> Faulty {
    calling(name, Fault::CompareStamps(compare))
}

const fn opening(name: &'static str, open: fn(&[u32]) -> u32) -> Faulty {
    Faulty { name, fault: Fault::Open(open), ..PLAIN }
}

const fn contesting(name: &'static str, by: Contesting) -> Faulty {
    Faulty { name, fault: Fault::Contest(by), ..PLAIN }
}

/// What is looked at before the moves, in another order.
const fn in_order(name: &'static str, checks: &'static [Check]) -> Faulty {
    contesting(name, Contesting { checks, ..CONTESTING })
}

type Spoil = fn(&Dispute, &mut [u32], &mut [u32], &mut Answer);

const fn contested(name: &'static str, spoil: Spoil) -> Faulty {
    Faulty { name, fault: Fault::Contested(spoil), ..PLAIN }
}

/// The tally alone must find it, over lists with contests.
const fn losing(name: &'static str, spoil: Spoil) -> Faulty {
    Faulty { unbalanced: true, ..contested(name, spoil) }
}

const fn unwinding(name: &'static str, by: Unwinding) -> Faulty {
    Faulty { name, fault: Fault::Unwind(by), ..PLAIN }
}

/// The references are tried otherwise.
const fn trying(name: &'static str, tried: fn(&[u32], &[u32]) -> Vec<u32>) -> Faulty {
    unwinding(name, Unwinding { tried, ..UNWINDING })
}

/// Rows are otherwise in use of a path.
const fn using(name: &'static str, times: fn(&Left, u32, u32) -> u32) -> Faulty {
    unwinding(name, Unwinding { times, ..UNWINDING })
}

/// By status and type rows are otherwise annulled.
const fn standing(name: &'static str, status: fn(&[u32], Row) -> Option<Obstacle>) -> Faulty {
    unwinding(name, Unwinding { status, ..UNWINDING })
}

/// Annulments carried out and answered otherwise, where there is something to try.
const fn annulling(
    name: &'static str,
    annuls: fn(&mut [u32], &mut [u32], &[u32]) -> u32,
) -> Faulty {
    Faulty { name, fault: Fault::AnnulsInOrder(annuls), ..PLAIN }
}

/// No fault: the limits judged once more, on the ledger as it would be left and by
/// the use worked out here, before a word over 100,000. It must agree with the
/// model everywhere.
pub const JUDGED_APART: Faulty = acting("judges the limits apart", |case, ledger, answer| {
    let displaces = case.action.kind == SELLER_STATUS && case.action.status == DISPLACED;
    let unasked = displaces || case.action.kind == REDUCE;
    let last_one = answer.number == BAD_LEDGER && was_sound(case) && !unasked;
    if !asked(case, answer) && !last_one {
        return;
    }
    let (second, after) = unlimited(case);
    if over_nevertheless(case) {
        refuse(case, ledger, answer, OVER_POSTING);
    } else if second.number != 0 {
        refuse(case, ledger, answer, second.number);
    } else {
        ledger.copy_from_slice(&after);
        *answer = second;
    }
});

/// No fault: withdrawals judged apart, which must agree with the model everywhere.
pub const WITHDRAWN_APART: Faulty = acting("withdraws apart", |case, ledger, answer| {
    withdrawn_by(case, ledger, answer, may_withdraw);
});

/// No fault: opening worked out apart, which must agree with the model everywhere.
pub const OPENED_APART: Faulty =
    opening("opens apart", |ledger| opened(ledger, &Opening { ..OPENING }));

/// No fault: contests carried out apart, which must agree with the model everywhere.
pub const CONTESTED_APART: Faulty = contesting("contests apart", CONTESTING);

/// No fault: annulments in order worked out apart, which must agree with the model
/// everywhere.
pub const UNWOUND_APART: Faulty = unwinding("unwinds apart", UNWINDING);

/// All planted faults; the first six are those the paper names.
pub const FAULTS: &[Faulty] = &[
    unbalancing("accepts and writes nothing", |case, ledger, _| {
        ledger.copy_from_slice(case.before);
    }),
    acting("answers 14 before comparing", |case, ledger, answer| {
        let takes = row_of(ledger, answer).is_some_and(|row| row.get(ledger, TYPE) >= RESALE);
        if confirms(answer) && takes {
            refuse(case, ledger, answer, SHORT);
        }
    }),
    acting("turns down all trade", |case, ledger, answer| {
        if case.action.kind == SUBMIT && case.action.reqtype >= RESALE && answer.number == 0 {
            refuse(case, ledger, answer, BAD_RELATED);
        }
    }),
    acting("always says QUEUED", |_, _, answer| {
        if answer.number == 0 && answer.reference != 0 {
            answer.after = QUEUED;
        }
    }),
    calling(
        "books a whole list on its first action",
        Fault::Batch(|ledger, postings, words, actions, answers| {
            let number = Model.batch(ledger, postings, words, actions, answers);
            if number == 0 && actions.len() > 1 {
                let done = &mut answers[..actions.len()];
                let all = done.iter().map(|answer| answer.moved).sum();
                done.iter_mut().for_each(|answer| answer.moved = 0);
                done[0].moved = all;
            }
            number
        }),
    ),
    acting("invents MW-hours", |_, _, answer| {
        if answer.moved > 0 {
            answer.moved += 1;
        }
    }),
    // Megawatts.
    acting(
        "returns a relinquished megawatt to a displaced row's available",
        |_, ledger, answer| {
            let Some(row) = row_of(ledger, answer) else { return };
            if !confirms(answer) || row.get(ledger, TYPE) != RELINQUISH {
                return;
            }
            let related = Row::of(ledger, row.get(ledger, RELATED));
            let above = Row::of(ledger, related.get(ledger, RELATED));
            if above.get(ledger, STATUS) == CONFIRMED {
                return;
            }
            let start = row.get(ledger, START) as usize;
            let stop = row.get(ledger, STOP) as usize;
            for hour in start..stop {
                let mw = ledger[row.profile(GRANTED).start + hour];
                ledger[above.profile(DISPLACED_MW).start + hour] -= mw;
                ledger[above.profile(AVAILABLE).start + hour] += mw;
            }
        },
    ),
    unbalancing("loses a relinquished megawatt", |case, ledger, answer| {
        let Some(row) = row_of(ledger, answer) else { return };
        if confirms(answer) && row.get(ledger, TYPE) == RELINQUISH {
            let related = Row::of(ledger, row.get(ledger, RELATED));
            let above = Row::of(ledger, related.get(ledger, RELATED));
            for profile in [AVAILABLE, DISPLACED_MW] {
                let words = above.profile(profile);
                ledger[words.clone()].copy_from_slice(&case.before[words]);
            }
        }
    }),
    acting("does not compare capacity", |case, ledger, answer| {
        if answer.number == SHORT && case.action.kind != REDUCE {
            again(case, ledger, answer, make_room);
        }
    }),
    acting("compares MW-hours instead of each hour", |case, ledger, answer| {
        if answer.number != SHORT || case.action.kind == REDUCE {
            return;
        }
        let row = Row::of(case.before, case.action.reference);
        let sum = |words: std::ops::Range<usize>| case.before[words].iter().sum::<u32>();
        if sum(related_available(case.before, row)) >= sum(wanted(case.before, row)) {
            again(case, ledger, answer, make_room);
        }
    }),
    unbalancing("takes nothing from the related row", |case, ledger, answer| {
        let Some(row) = row_of(ledger, answer) else { return };
        if confirms(answer) && (RESALE..=FULL_TRANSFER).contains(&row.get(ledger, TYPE)) {
            let words = related_available(ledger, row);
            ledger[words.clone()].copy_from_slice(&case.before[words]);
        }
    }),
    unbalancing("displaces over what was displaced before", |case, ledger, answer| {
        let Some(row) = row_of(ledger, answer) else { return };
        if answer.after == DISPLACED {
            for hour in 0..row.hours {
                ledger[row.profile(DISPLACED_MW).start + hour] =
                    case.before[row.profile(AVAILABLE).start + hour] / 2;
            }
        }
    }),
    unbalancing("puts a reduction into displaced", |case, ledger, answer| {
        let Some(row) = row_of(ledger, answer) else { return };
        if case.action.kind == REDUCE {
            for (less, has) in row.profile(DISPLACED_MW).zip(row.profile(AVAILABLE)) {
                ledger[less] = (ledger[less] + case.before[has] - ledger[has]).min(MAX_MW);
            }
        }
    }),
    unbalancing("gives back to the wrong hour", |case, ledger, answer| {
        let Some(row) = row_of(ledger, answer) else { return };
        let start = row.get(ledger, START) as usize;
        if answer.before == CONFIRMED
            && answer.after == ANNULLED
            && row.get(ledger, TYPE) >= RESALE
            && row.hours > 1
        {
            let above = Row::of(ledger, row.get(ledger, RELATED));
            let at = above.profile(AVAILABLE).start + start;
            let moved = ledger[at].saturating_sub(case.before[at]).min(1);
            ledger[at] -= moved;
        }
    }),
    acting("leaves a type 8 row its megawatts", |_, ledger, answer| {
        let Some(row) = row_of(ledger, answer) else { return };
        if confirms(answer) && row.get(ledger, TYPE) == RELINQUISH {
            ledger.copy_within(row.profile(GRANTED), row.profile(AVAILABLE).start);
        }
    }),
    acting("takes a part for a full transfer", |case, ledger, answer| {
        if answer.number != SHORT || case.action.kind == REDUCE {
            return;
        }
        if Row::of(case.before, case.action.reference).get(case.before, TYPE) == FULL_TRANSFER {
            again(case, ledger, answer, |ledger, row| row.set(ledger, TYPE, PART_TRANSFER));
        }
    }),
    acting("answers a word over 100,000 with 14", |case, _, answer| {
        if answer.number == BAD_LEDGER && was_sound(case) {
            answer.number = SHORT;
        }
    }),
    acting("clears available when an open row is annulled", |_, ledger, answer| {
        let Some(row) = row_of(ledger, answer) else { return };
        if answer.after == ANNULLED && answer.before != CONFIRMED {
            ledger[row.profile(AVAILABLE)].fill(0);
        }
    }),
    acting("clears displaced when a row is annulled", |_, ledger, answer| {
        let Some(row) = row_of(ledger, answer) else { return };
        if answer.after == ANNULLED && answer.before == CONFIRMED {
            ledger[row.profile(DISPLACED_MW)].fill(0);
        }
    }),
    acting("counts an open row's annulment as moved", |_, ledger, answer| {
        let Some(row) = row_of(ledger, answer) else { return };
        if answer.after == ANNULLED && answer.before != CONFIRMED {
            answer.moved = ledger[row.profile(GRANTED)].iter().sum();
        }
    }),
    // Reductions kept in the row.
    unbalancing("replaces what was reduced before", |case, ledger, answer| {
        if reduces(case, answer) {
            reduce_by(case, ledger, |_, mw| mw);
        }
    }),
    unbalancing("does not keep a reduction", |case, ledger, answer| {
        if reduces(case, answer) {
            reduce_by(case, ledger, |has, _| has);
        }
    }),
    unbalancing("keeps a reduction in the related row", |case, ledger, answer| {
        let Some(row) = row_of(ledger, answer) else { return };
        let Some(above) = related(ledger, row) else { return };
        if reduces(case, answer) {
            for (own, others) in row.profile(REDUCED_MW).zip(above.profile(REDUCED_MW)) {
                let mw = ledger[own] - case.before[own];
                ledger[own] = case.before[own];
                ledger[others] = (ledger[others] + mw).min(MAX_MW);
            }
        }
    }),
    acting("keeps a reduction from the first hour on", |case, ledger, answer| {
        let Some(row) = row_of(ledger, answer) else { return };
        if reduces(case, answer) {
            let reduced = row.profile(REDUCED_MW);
            ledger[reduced.clone()].copy_from_slice(&case.before[reduced.clone()]);
            for (at, mw) in reduced.zip(profile_of(case)) {
                ledger[at] += mw;
            }
        }
    }),
    acting("answers with all that was reduced", |case, ledger, answer| {
        let Some(row) = row_of(ledger, answer) else { return };
        if reduces(case, answer) {
            answer.moved = ledger[row.profile(REDUCED_MW)].iter().sum();
        }
    }),
    unbalancing("adds what is displaced to reduced too", |case, ledger, answer| {
        let Some(row) = row_of(ledger, answer) else { return };
        if answer.after == DISPLACED {
            for (reduced, available) in row.profile(REDUCED_MW).zip(row.profile(AVAILABLE)) {
                ledger[reduced] = (ledger[reduced] + case.before[available]).min(MAX_MW);
            }
        }
    }),
    unbalancing("clears reduced when a row is displaced", |_, ledger, answer| {
        let Some(row) = row_of(ledger, answer) else { return };
        if answer.after == DISPLACED {
            ledger[row.profile(REDUCED_MW)].fill(0);
        }
    }),
    acting("clears reduced when a row is annulled", |_, ledger, answer| {
        let Some(row) = row_of(ledger, answer) else { return };
        if answer.after == ANNULLED && answer.before == CONFIRMED {
            ledger[row.profile(REDUCED_MW)].fill(0);
        }
    }),
    acting("clears reduced when a row is confirmed", |_, ledger, answer| {
        let Some(row) = row_of(ledger, answer) else { return };
        if confirms(answer) {
            ledger[row.profile(REDUCED_MW)].fill(0);
        }
    }),
    unbalancing("takes what is given back off reduced", |_, ledger, answer| {
        let Some(row) = row_of(ledger, answer) else { return };
        let Some(above) = related(ledger, row) else { return };
        if (answer.before, answer.after) == (CONFIRMED, ANNULLED) {
            for (reduced, granted) in above.profile(REDUCED_MW).zip(row.profile(GRANTED)) {
                ledger[reduced] = ledger[reduced].saturating_sub(ledger[granted]);
            }
        }
    }),
    acting("forgets reduced in the last 1", |case, ledger, answer| {
        if over_reduced(case, answer) {
            reduce_by(case, ledger, |has, mw| has + mw);
            *answer = reduced_by(case);
        }
    }),
    acting("stops reduced at 100,000", |case, ledger, answer| {
        if over_reduced(case, answer) {
            reduce_by(case, ledger, |has, mw| (has + mw).min(MAX_MW));
            *answer = reduced_by(case);
        }
    }),
    acting("lowers available where a reduced word would pass", |case, ledger, answer| {
        if over_reduced(case, answer) {
            reduce_by(case, ledger, |has, _| has);
        }
    }),
    acting("judges a reduced word over 100,000 before available", |case, _, answer| {
        let short = case.action.kind == REDUCE && answer.number == SHORT;
        if short && to_be_reduced(case).iter().any(|(has, mw)| has + mw > MAX_MW) {
            answer.number = BAD_LEDGER;
        }
    }),
    acting("refuses 0 more where 100,000 are reduced", |case, ledger, answer| {
        if reduces(case, answer) && to_be_reduced(case).contains(&(MAX_MW, 0)) {
            refuse(case, ledger, answer, BAD_LEDGER);
        }
    }),
    acting("does not let reduced reach 100,000", |case, ledger, answer| {
        let reaches = |(has, mw): (u32, u32)| mw > 0 && has + mw == MAX_MW;
        if reduces(case, answer) && to_be_reduced(case).into_iter().any(reaches) {
            refuse(case, ledger, answer, BAD_LEDGER);
        }
    }),
    acting("holds the sum of reduced over the hours to 100,000", |case, ledger, answer| {
        let sum = |hours: Vec<(u32, u32)>| hours.iter().map(|(has, mw)| has + mw).sum::<u32>();
        if reduces(case, answer) && sum(to_be_reduced(case)) > MAX_MW {
            refuse(case, ledger, answer, BAD_LEDGER);
        }
    }),
    acting("takes a row with reduced words for one in use", |case, ledger, answer| {
        let Some(row) = row_of(ledger, answer) else { return };
        let annuls = (answer.before, answer.after) == (CONFIRMED, ANNULLED);
        if annuls && ledger[row.profile(REDUCED_MW)].iter().any(|&mw| mw > 0) {
            refuse(case, ledger, answer, IN_USE);
        }
    }),
    unbalancing("counts reduced as available when annulling", |case, ledger, answer| {
        if answer.number == IN_USE {
            again(case, ledger, answer, |ledger, row| {
                for (available, reduced) in row.profile(AVAILABLE).zip(row.profile(REDUCED_MW)) {
                    ledger[available] = (ledger[available] + ledger[reduced]).min(MAX_MW);
                }
            });
        }
    }),
    // Fields.
    acting("does not restart the limit", |case, ledger, answer| {
        let Some(row) = row_of(ledger, answer) else { return };
        if case.action.kind == SELLER_STATUS && row.get(case.before, LIMIT) != 0 {
            row.set(ledger, LIMIT, row.get(case.before, LIMIT));
        }
    }),
    acting("does not note that granted was given by the copy", |case, ledger, answer| {
        let Some(row) = row_of(ledger, answer) else { return };
        let flags = row.get(ledger, FLAGS);
        if case.action.length == 0 && row.get(case.before, FLAGS) & GRANTED_GIVEN == 0 {
            row.set(ledger, FLAGS, flags & !GRANTED_GIVEN);
        }
    }),
    acting("forgets granted on a rebid", |_, ledger, answer| {
        let Some(row) = row_of(ledger, answer) else { return };
        if answer.after == REBID {
            let flags = row.get(ledger, FLAGS);
            row.set(ledger, FLAGS, flags & !GRANTED_GIVEN);
        }
    }),
    acting("leaves a refused approval standing", |case, ledger, answer| {
        if case.action.kind == APPROVE && matches!(answer.number, BAD_RELATED | SHORT) {
            let row = Row::of(ledger, case.action.reference);
            let flags = row.get(ledger, FLAGS);
            row.set(ledger, FLAGS, flags | APPROVED);
        }
    }),
    acting("leaves the bid on confirmation", |case, ledger, answer| {
        let Some(row) = row_of(ledger, answer) else { return };
        if confirms(answer) {
            row.set(ledger, BID, row.get(case.before, BID));
        }
    }),
    acting("leaves a refused acceptance at 10", |case, ledger, answer| {
        if case.action.kind == SELLER_STATUS && matches!(answer.number, BAD_RELATED | SHORT) {
            Row::of(ledger, case.action.reference).set(ledger, STATUS, ACCEPTED);
        }
    }),
    acting("answers the clock with a reference", |case, _, answer| {
        if case.action.kind == CLOCK && answer.number == 0 {
            answer.reference = case.action.actor;
        }
    }),
    acting("gives a status before with a submission", |case, _, answer| {
        if case.action.kind == SUBMIT && answer.number == 0 {
            answer.before = QUEUED;
        }
    }),
    // Order and reach of the checks.
    acting("looks at the actor before the kind", |case, _, answer| {
        if answer.number == BAD_CODE && !is_entity(case.action.actor) {
            answer.number = BAD_PARTY;
        }
    }),
    acting("looks at free rows before the related row", |case, _, answer| {
        let full = sound(case.before) && case.before[USED] == case.before[ROWS];
        if case.action.kind == SUBMIT && answer.number == BAD_RELATED && full {
            answer.number = LEDGER_FULL;
        }
    }),
    acting("looks at the status before the reference", |case, _, answer| {
        let named = matches!(case.action.kind, SELLER_STATUS | CUSTOMER_STATUS);
        if named && answer.number == NO_REFERENCE && !(1..=17).contains(&case.action.status) {
            answer.number = BAD_CODE;
        }
    }),
    acting("looks at the limit before the move", |case, _, answer| {
        if case.action.kind == LAPSE && answer.number == BAD_MOVE {
            let row = Row::of(case.before, case.action.reference);
            if case.before[NOW] < row.get(case.before, LIMIT) {
                answer.number = BEFORE_LIMIT;
            }
        }
    }),
    acting("looks at the related row before approval", |case, _, answer| {
        if answer.number == NOT_APPROVED {
            let row = Row::of(case.before, case.action.reference);
            let related = Row::of(case.before, row.get(case.before, RELATED));
            if related.get(case.before, STATUS) != CONFIRMED {
                answer.number = BAD_RELATED;
            }
        }
    }),
    acting("lapses only after the limit", |case, ledger, answer| {
        let Some(row) = row_of(ledger, answer) else { return };
        if case.action.kind == LAPSE && case.before[NOW] == row.get(case.before, LIMIT) {
            refuse(case, ledger, answer, BEFORE_LIMIT);
        }
    }),
    acting("does not let the clock stand", |case, ledger, answer| {
        if case.action.kind == CLOCK && answer.number == 0 && case.action.time == case.before[NOW] {
            refuse(case, ledger, answer, BAD_TIME);
        }
    }),
    acting("does not let the provider annul a resale", |case, ledger, answer| {
        let Some(row) = row_of(ledger, answer) else { return };
        if case.action.kind == SELLER_STATUS && case.action.actor != row.get(ledger, SELLER) {
            refuse(case, ledger, answer, BAD_PARTY);
        }
    }),
    acting("does not look up the chain for firmness", |case, ledger, answer| {
        let redirects = matches!(case.action.reqtype, REDIRECT_FIRM | REDIRECT_NON_FIRM);
        if case.action.kind == SUBMIT && answer.number == 0 && redirects {
            let of = Row::of(ledger, case.action.related).get(ledger, TYPE);
            if matches!(of, RESALE | PART_TRANSFER | FULL_TRANSFER) {
                refuse(case, ledger, answer, BAD_RELATED);
            }
        }
    }),
    acting("reads the profile of a withdrawal", |case, ledger, answer| {
        if answer.after == WITHDRAWN && case.action.length as usize > case.words.len() {
            refuse(case, ledger, answer, BAD_PROFILE);
        }
    }),
    acting("reads the offset where no profile comes", |case, ledger, answer| {
        let priced = matches!(case.action.status, 6 | 7 | 10 | 11);
        let outside = case.action.offset as usize > case.words.len();
        if case.action.kind == SELLER_STATUS
            && answer.number == 0
            && priced
            && case.action.length == 0
            && outside
        {
            refuse(case, ledger, answer, BAD_PROFILE);
        }
    }),
    acting("lets a preconfirmed row be withdrawn", |case, ledger, answer| {
        let withdraws = case.action.kind == CUSTOMER_STATUS && case.action.status == WITHDRAWN;
        if withdraws && answer.number == BAD_MOVE {
            again(case, ledger, answer, |ledger, row| {
                let flags = row.get(ledger, FLAGS);
                row.set(ledger, FLAGS, flags & !PRECONFIRMED);
            });
        }
    }),
    acting("moves a type 8 row from 13", |case, ledger, answer| {
        if case.action.kind == SELLER_STATUS && answer.number == BAD_MOVE {
            again(case, ledger, answer, |ledger, row| {
                if row.get(ledger, TYPE) == RELINQUISH {
                    row.set(ledger, TYPE, RESALE);
                    let related = Row::of(ledger, row.get(ledger, RELATED));
                    related.set(ledger, TYPE, REDIRECT_FIRM);
                }
            });
        }
    }),
    // Withdrawal after a rebid.
    acting("does not let a countered row be withdrawn at 8", |case, ledger, answer| {
        withdrawn_by(case, ledger, answer, |status, flags| {
            may_withdraw(status, flags) && !(is_released(flags) && status == REBID)
        });
    }),
    acting("does not let a countered row be withdrawn at 10", |case, ledger, answer| {
        withdrawn_by(case, ledger, answer, |status, flags| {
            may_withdraw(status, flags) && !(is_released(flags) && status == ACCEPTED)
        });
    }),
    acting("does not let a countered row be withdrawn at 1, 3 and 4", |case, ledger, answer| {
        withdrawn_by(case, ledger, answer, |status, flags| {
            may_withdraw(status, flags) && !(is_released(flags) && status <= STUDY)
        });
    }),
    acting("asks a counteroffer of a preconfirmed row at 11", |case, ledger, answer| {
        withdrawn_by(case, ledger, answer, |status, flags| {
            may_withdraw(status, flags) && !(is_held(flags) && status == CR_ACCEPTED)
        });
    }),
    acting("asks flag 32 of a preconfirmed row at 6 and 7", |case, ledger, answer| {
        withdrawn_by(case, ledger, answer, |status, flags| {
            may_withdraw(status, flags) && !(is_held(flags) && status <= CR_COUNTEROFFER)
        });
    }),
    acting("asks a counteroffer of rows that are not preconfirmed", |case, ledger, answer| {
        withdrawn_by(case, ledger, answer, |status, flags| {
            may_withdraw(status, flags) && flags & (PRECONFIRMED | COUNTERED) != 0
        });
    }),
    acting("takes any offer for a counteroffer on withdrawal", |case, ledger, answer| {
        withdrawn_by(case, ledger, answer, |status, flags| {
            may_withdraw(status, flags) || is_open(status) && flags & OFFER_GIVEN != 0
        });
    }),
    acting("takes every row at 8 for countered", |case, ledger, answer| {
        withdrawn_by(case, ledger, answer, |status, flags| {
            may_withdraw(status, flags) || status == REBID
        });
    }),
    acting("withdraws a countered row from a closed status", |case, ledger, answer| {
        withdrawn_by(case, ledger, answer, |status, flags| {
            may_withdraw(status, flags) || flags & COUNTERED != 0
        });
    }),
    acting("notes an acceptance as a counteroffer", |case, ledger, answer| {
        let Some(row) = row_of(ledger, answer) else { return };
        if accepts(case, answer) {
            set_countered(ledger, row, true);
        }
    }),
    acting("does not note a COUNTEROFFER", |case, ledger, answer| {
        unnoted(case, ledger, answer, |ledger, row| row.get(ledger, STATUS) == COUNTEROFFER);
    }),
    acting("does not note a CR_COUNTEROFFER", |case, ledger, answer| {
        unnoted(case, ledger, answer, |ledger, row| row.get(ledger, STATUS) == CR_COUNTEROFFER);
    }),
    acting("notes the counteroffers of preconfirmed rows alone", |case, ledger, answer| {
        unnoted(case, ledger, answer, |ledger, row| row.get(ledger, FLAGS) & PRECONFIRMED == 0);
    }),
    acting("notes a counteroffer before its terms are looked at", |case, ledger, answer| {
        noted_nevertheless(case, ledger, answer, &[BAD_PROFILE, BAD_TERMS]);
    }),
    acting("notes a counteroffer that is no move", |case, ledger, answer| {
        noted_nevertheless(case, ledger, answer, &[BAD_MOVE]);
    }),
    acting("forgets a counteroffer on a rebid", |case, ledger, answer| {
        if case.action.kind == CUSTOMER_STATUS && answer.after == REBID {
            forget_counteroffer(ledger, answer);
        }
    }),
    acting("forgets a counteroffer on acceptance", |case, ledger, answer| {
        if accepts(case, answer) {
            forget_counteroffer(ledger, answer);
        }
    }),
    acting("forgets a counteroffer on approval", |case, ledger, answer| {
        if case.action.kind == APPROVE {
            forget_counteroffer(ledger, answer);
        }
    }),
    acting("forgets a counteroffer on confirmation", |_, ledger, answer| {
        if confirms(answer) {
            forget_counteroffer(ledger, answer);
        }
    }),
    acting("forgets a counteroffer on withdrawal", |_, ledger, answer| {
        if answer.after == WITHDRAWN {
            forget_counteroffer(ledger, answer);
        }
    }),
    acting("does not confirm a countered row on acceptance", |case, ledger, answer| {
        if case.action.kind == SELLER_STATUS && confirms(answer) {
            counts_as_not_preconfirmed(case, ledger, answer);
        }
    }),
    acting("retracts a countered row at its limit", |case, ledger, answer| {
        if case.action.kind == LAPSE && confirms(answer) {
            counts_as_not_preconfirmed(case, ledger, answer);
        }
    }),
    acting("lets a submission bring flag 32", |case, ledger, answer| {
        let Action { kind, flags, .. } = *case.action;
        let brings = (COUNTERED..=COUNTERED + PRECONFIRMED + COORDINATED).contains(&flags);
        if kind == SUBMIT && answer.number == BAD_FLAGS && brings {
            let without = Action { flags: flags - COUNTERED, ..*case.action };
            *answer = act(ledger, &mut case.postings.to_vec(), case.words, &without);
            if let Some(row) = row_of(ledger, answer) {
                set_countered(ledger, row, true);
            }
        }
    }),
    // Soundness.
    acting("does not look at head word 7", |case, ledger, answer| {
        overlook(case, ledger, answer, |ledger| ledger[HEAD_ZERO] = 0);
    }),
    acting("does not look at the very last word", |case, ledger, answer| {
        overlook(case, ledger, answer, |ledger| {
            let last = ledger.len() - 1;
            ledger[last] = 0;
        });
    }),
    acting("does not look at unused rows", |case, ledger, answer| {
        overlook(case, ledger, answer, |ledger| {
            if let Some(row) = used_rows(ledger).last() {
                ledger[row.profile(PROFILES - 1).end..].fill(0);
            }
        });
    }),
    acting("does not look at the fourth zero", |case, ledger, answer| {
        overlook(case, ledger, answer, |ledger| at_most(ledger, FIELD_WORDS - 1, 0));
    }),
    acting("does not look at the flags' bound", |case, ledger, answer| {
        overlook(case, ledger, answer, |ledger| at_most(ledger, FLAGS, MAX_FLAGS));
    }),
    acting("takes a countered row for unsound", |case, ledger, answer| {
        if was_sound(case) && any_countered(case.before) {
            refuse(case, ledger, answer, BAD_LEDGER);
        }
    }),
    acting("takes flags of 64 for sound", |case, ledger, answer| {
        overlook(case, ledger, answer, clear_64);
    }),
    acting("does not look at the limit's bound", |case, ledger, answer| {
        overlook(case, ledger, answer, |ledger| at_most(ledger, LIMIT, END_LIMIT - 1));
    }),
    acting("does not look at the offer's bound", |case, ledger, answer| {
        overlook(case, ledger, answer, |ledger| at_most(ledger, OFFER, MAX_PRICE));
    }),
    acting("does not look at entities' bound", |case, ledger, answer| {
        overlook(case, ledger, answer, |ledger| at_most(ledger, CUSTOMER, MAX_ENTITY));
    }),
    acting("does not look at displaced words", |case, ledger, answer| {
        overlook(case, ledger, answer, |ledger| bring_down(ledger, DISPLACED_MW));
    }),
    acting("does not look at the bound of reduced words", |case, ledger, answer| {
        overlook(case, ledger, answer, |ledger| bring_down(ledger, REDUCED_MW));
    }),
    acting("does not look outside the span", |case, ledger, answer| {
        overlook(case, ledger, answer, |ledger| clear_outside(ledger, REQUESTED));
    }),
    acting("does not look at reduced words outside the span", |case, ledger, answer| {
        overlook(case, ledger, answer, |ledger| clear_outside(ledger, REDUCED_MW));
    }),
    acting("does not look at the reduced profile", |case, ledger, answer| {
        overlook(case, ledger, answer, |ledger| {
            bring_down(ledger, REDUCED_MW);
            clear_outside(ledger, REDUCED_MW);
        });
    }),
    acting("takes rows of four profiles", |case, ledger, answer| {
        let [rows, hours, ..] = *case.before else { return };
        if answer.number == BAD_LEDGER && fits_four(case.before.len(), rows, hours) {
            let mut five = laid_out(case.before, PROFILES - 1, PROFILES);
            *answer = act(&mut five, &mut case.postings.to_vec(), case.words, case.action);
            ledger.copy_from_slice(&laid_out(&five, PROFILES, PROFILES - 1));
        }
    }),
    acting("does not look at an original's related reference", |case, ledger, answer| {
        overlook(case, ledger, answer, |ledger| {
            for row in used_rows(ledger) {
                if row.get(ledger, TYPE) <= ORIGINAL_NON_FIRM {
                    row.set(ledger, RELATED, 0);
                }
            }
        });
    }),
    acting("does not look at the span of the related row", |case, ledger, answer| {
        overlook(case, ledger, answer, |ledger| {
            for row in used_rows(ledger) {
                let related = row.get(ledger, RELATED);
                if (1..=ledger[USED]).contains(&related) {
                    let above = Row::of(ledger, related);
                    let start = row.get(ledger, START).max(above.get(ledger, START));
                    let stop = row.get(ledger, STOP).min(above.get(ledger, STOP));
                    row.set(ledger, START, start);
                    row.set(ledger, STOP, stop);
                }
            }
        });
    }),
    acting("does not look at base and hours together", |case, ledger, answer| {
        overlook(case, ledger, answer, |ledger| {
            ledger[BASE] = ledger[BASE].min(END_HOUR.saturating_sub(ledger[HOURS]));
        });
    }),
    acting("does not look at the clock's bound", |case, ledger, answer| {
        overlook(case, ledger, answer, |ledger| ledger[NOW] = ledger[NOW].min(END_SECOND - 1));
    }),
    acting("does not look at a row's path", |case, ledger, answer| {
        overlook(case, ledger, answer, |ledger| {
            for row in used_rows(ledger) {
                let path = row.get(ledger, PATH).clamp(1, MAX_PATH);
                row.set(ledger, PATH, path);
            }
        });
    }),
    acting("takes rows on unfit paths for unsound", |case, ledger, answer| {
        if was_sound(case) && unfit_rows(case.before) {
            refuse(case, ledger, answer, BAD_LEDGER);
        }
    }),
    posting("does not look at the postings' bound", |case, postings, answer| {
        if answer.number == BAD_LEDGER && sound(case.before) && !was_sound(case) {
            let mut mended = case.postings.to_vec();
            mended.iter_mut().for_each(|mw| *mw = (*mw).min(MAX_MW));
            *answer = act(&mut case.before.to_vec(), &mut mended, case.words, case.action);
            if posts(case, answer) {
                postings.copy_from_slice(&mended);
            }
        }
    }),
    acting("does not look at postings beyond the last path", |case, ledger, answer| {
        if answer.number == BAD_LEDGER && sound(case.before) {
            let len = posting_words(case.before[HOURS]).min(case.postings.len());
            let mut front = case.postings[..len].to_vec();
            *answer = act(ledger, &mut front, case.words, case.action);
        }
    }),
    acting("looks at the kind before the postings", |case, _, answer| {
        let known = (SUBMIT..=POST).contains(&case.action.kind);
        if answer.number == BAD_LEDGER && sound(case.before) && !was_sound(case) && !known {
            answer.number = BAD_CODE;
        }
    }),
    acting("looks at the actor before the postings", |case, _, answer| {
        let known = (SUBMIT..=POST).contains(&case.action.kind);
        let entity = is_entity(case.action.actor);
        if answer.number == BAD_LEDGER && sound(case.before) && !was_sound(case) && known && !entity
        {
            answer.number = BAD_PARTY;
        }
    }),
    // Path limits.
    overusing("looks at the row's path alone", |case, ledger, answer| {
        judged(case, ledger, answer, |left, row| {
            over(left, case.postings, row.get(left, PATH), counted)
        });
    }),
    acting("looks at the related row's path alone", |case, ledger, answer| {
        judged(case, ledger, answer, |left, row| {
            let path = *both_paths(left, row).last().expect("its own at least");
            over(left, case.postings, path, counted)
        });
    }),
    overusing("keeps no path free for the return", |case, ledger, answer| {
        judged(case, ledger, answer, |left, row| either_over(left, case.postings, row, carried));
    }),
    acting("keeps the path of a displaced row free", |case, ledger, answer| {
        let times: Times = |left, row, path| {
            carried(left, row, path)
                + kept(left, row, path, |left, reqtype, related| {
                    let displaced = related.get(left, STATUS) == DISPLACED;
                    reqtype == REDIRECT_NON_FIRM && (displaced || is_confirmed(left, related))
                })
        };
        judged(case, ledger, answer, |left, row| either_over(left, case.postings, row, times));
    }),
    acting("keeps the old path of a firm redirect free", |case, ledger, answer| {
        let times: Times = |left, row, path| {
            carried(left, row, path)
                + kept(left, row, path, |left, reqtype, related| {
                    matches!(reqtype, REDIRECT_FIRM | REDIRECT_NON_FIRM)
                        && is_confirmed(left, related)
                })
        };
        judged(case, ledger, answer, |left, row| either_over(left, case.postings, row, times));
    }),
    acting("counts a redirect on its related row's path twice", |case, ledger, answer| {
        let times: Times = |left, row, path| {
            let there = carried(left, row, path) == 1 && row.get(left, TYPE) == REDIRECT_NON_FIRM;
            let twice = there
                && related(left, row).is_some_and(|related| {
                    is_confirmed(left, related) && related.get(left, PATH) == path
                });
            counted(left, row, path) + u32::from(twice)
        };
        judged(case, ledger, answer, |left, row| either_over(left, case.postings, row, times));
    }),
    acting("counts displaced rows in the use", |case, ledger, answer| {
        let times: Times = |left, row, path| {
            let displaced = row.get(left, STATUS) == DISPLACED && row.get(left, PATH) == path;
            counted(left, row, path) + u32::from(displaced)
        };
        judged(case, ledger, answer, |left, row| either_over(left, case.postings, row, times));
    }),
    acting("counts displaced megawatts in the use", |case, ledger, answer| {
        judged(case, ledger, answer, |left, row| {
            let mut all = left.to_vec();
            for row in used_rows(left) {
                for (available, displaced) in row.profile(AVAILABLE).zip(row.profile(DISPLACED_MW))
                {
                    all[available] += left[displaced];
                }
            }
            either_over(&all, case.postings, row, counted)
        });
    }),
    acting("counts reduced megawatts in the use", |case, ledger, answer| {
        judged(case, ledger, answer, |left, row| {
            let mut all = left.to_vec();
            for row in used_rows(left) {
                for (available, reduced) in row.profile(AVAILABLE).zip(row.profile(REDUCED_MW)) {
                    all[available] += left[reduced];
                }
            }
            either_over(&all, case.postings, row, counted)
        });
    }),
    acting("counts granted in the use", |case, ledger, answer| {
        judged(case, ledger, answer, |left, row| {
            let mut all = left.to_vec();
            for row in used_rows(left) {
                all.copy_within(row.profile(GRANTED), row.profile(AVAILABLE).start);
            }
            either_over(&all, case.postings, row, counted)
        });
    }),
    overusing("judges the use before the action", |case, ledger, answer| {
        judged(case, ledger, answer, |_, row| {
            either_over(case.before, case.postings, row, counted)
        });
    }),
    acting("judges the span's hours alone", |case, ledger, answer| {
        judged(case, ledger, answer, |left, row| {
            let (start, stop) = (row.get(left, START) as usize, row.get(left, STOP) as usize);
            let mut postings = case.postings.to_vec();
            for (at, word) in postings.iter_mut().enumerate() {
                if !(start..stop).contains(&(at % row.hours)) {
                    *word = u32::MAX;
                }
            }
            either_over(left, &postings, row, counted)
        });
    }),
    acting("judges only hours in which use grows", |case, ledger, answer| {
        judged(case, ledger, answer, |left, row| {
            both_paths(left, row).into_iter().any(|path| {
                let was = use_by(case.before, path, counted);
                let is = use_by(left, path, counted);
                let posted = &case.postings[posted(path, row.hours)];
                (0..row.hours).any(|hour| is[hour] > posted[hour] && is[hour] > was[hour])
            })
        });
    }),
    acting("does not let a path be used in full", |case, ledger, answer| {
        judged(case, ledger, answer, |left, row| {
            let less: Vec<u32> = case.postings.iter().map(|mw| mw.saturating_sub(1)).collect();
            either_over(left, &less, row, counted)
        });
    }),
    acting("looks at the related row's path only while CONFIRMED", |case, ledger, answer| {
        judged(case, ledger, answer, |left, row| {
            let there = related(left, row).is_some_and(|related| is_confirmed(left, related));
            let count = if there { 2 } else { 1 };
            let paths = both_paths(left, row).into_iter().take(count);
            paths.into_iter().any(|path| over(left, case.postings, path, counted))
        });
    }),
    acting("asks the row above a redirect instead of the redirect", |case, ledger, answer| {
        judged(case, ledger, answer, |left, row| {
            let mut paths = both_paths(left, row);
            if row.get(left, TYPE) == RELINQUISH {
                let above = related(left, row).and_then(|redirect| related(left, redirect));
                paths[1] = above.expect("above a redirect").get(left, PATH);
            }
            paths.into_iter().any(|path| over(left, case.postings, path, counted))
        });
    }),
    acting("asks the row above a redirect too", |case, ledger, answer| {
        judged(case, ledger, answer, |left, row| {
            let mut paths = both_paths(left, row);
            if row.get(left, TYPE) == RELINQUISH {
                let above = related(left, row).and_then(|redirect| related(left, redirect));
                paths.push(above.expect("above a redirect").get(left, PATH));
            }
            paths.into_iter().any(|path| over(left, case.postings, path, counted))
        });
    }),
    acting("judges the limits before available", |case, _, answer| {
        let confirms = answer.number == SHORT && case.action.kind != REDUCE;
        if confirms && over_nevertheless(case) {
            answer.number = OVER_POSTING;
        }
    }),
    acting("judges the limits before a row in use", |case, _, answer| {
        if answer.number == IN_USE && over_nevertheless(case) {
            answer.number = OVER_POSTING;
        }
    }),
    acting("judges a word over 100,000 before the limits", |case, _, answer| {
        if answer.number == OVER_POSTING && case.action.kind != POST {
            answer.number = match unlimited(case).0.number {
                BAD_LEDGER => BAD_LEDGER,
                _ => OVER_POSTING,
            };
        }
    }),
    acting("holds reductions to the posting", |case, ledger, answer| {
        let Some(row) = row_of(ledger, answer) else { return };
        if case.action.kind == REDUCE && either_over(ledger, case.postings, row, counted) {
            refuse(case, ledger, answer, OVER_POSTING);
        }
    }),
    acting("holds displacing to the posting", |case, ledger, answer| {
        let Some(row) = row_of(ledger, answer) else { return };
        if answer.after == DISPLACED && either_over(ledger, case.postings, row, counted) {
            refuse(case, ledger, answer, OVER_POSTING);
        }
    }),
    acting("holds the annulment of an open row to the posting", |case, ledger, answer| {
        let Some(row) = row_of(ledger, answer) else { return };
        let open = answer.after == ANNULLED && answer.before != CONFIRMED;
        if open && either_over(ledger, case.postings, row, counted) {
            refuse(case, ledger, answer, OVER_POSTING);
        }
    }),
    acting("holds submissions to the posting", |case, ledger, answer| {
        let Some(row) = row_of(ledger, answer) else { return };
        if case.action.kind == SUBMIT {
            let posted = &case.postings[posted(case.action.path, row.hours)];
            let requested = &ledger[row.profile(REQUESTED)];
            if requested.iter().zip(posted).any(|(mw, posted)| mw > posted) {
                refuse(case, ledger, answer, OVER_POSTING);
            }
        }
    }),
    // Paths of submissions.
    acting("asks a redirect to stay on its path", |case, ledger, answer| {
        let Some(row) = row_of(ledger, answer) else { return };
        let redirects = matches!(row.get(ledger, TYPE), REDIRECT_FIRM | REDIRECT_NON_FIRM);
        let leaves = both_paths(ledger, row).windows(2).any(|two| two[0] != two[1]);
        if case.action.kind == SUBMIT && redirects && leaves {
            refuse(case, ledger, answer, BAD_PATH);
        }
    }),
    acting("looks at the price before the path", |case, _, answer| {
        let submits = case.action.kind == SUBMIT;
        if submits && answer.number == BAD_PATH && case.action.price > MAX_PRICE {
            answer.number = BAD_TERMS;
        }
    }),
    acting("looks at the path before the flags", |case, _, answer| {
        let submits = case.action.kind == SUBMIT;
        if submits && answer.number == BAD_FLAGS && !is_path(case.action.path) {
            answer.number = BAD_PATH;
        }
    }),
    acting("lets a path be unfit while the row named is not CONFIRMED", |case, _, answer| {
        let submits = case.action.kind == SUBMIT && is_path(case.action.path);
        if submits && answer.number == BAD_PATH {
            let named = Row::of(case.before, case.action.related);
            if !is_confirmed(case.before, named) {
                let path = named.get(case.before, PATH);
                let fit = Action { path, ..*case.action };
                let postings = &mut case.postings.to_vec();
                *answer = act(&mut case.before.to_vec(), postings, case.words, &fit);
            }
        }
    }),
    acting("finds the path of an original that names a row unfit", |case, _, answer| {
        let original = case.action.kind == SUBMIT && case.action.reqtype <= ORIGINAL_NON_FIRM;
        if original && answer.number == BAD_RELATED {
            let named = used_rows(case.before).get(case.action.related as usize - 1).copied();
            if named.is_some_and(|row| row.get(case.before, PATH) != case.action.path) {
                answer.number = BAD_PATH;
            }
        }
    }),
    acting("finds a path unfit where no row is named", |case, _, answer| {
        let resells = case.action.kind == SUBMIT && case.action.reqtype == RESALE;
        let named =
            (1..=case.before.get(USED).copied().unwrap_or(0)).contains(&case.action.related);
        if resells && answer.number == BAD_RELATED && !named {
            answer.number = BAD_PATH;
        }
    }),
    acting("knows no path 64", |case, ledger, answer| {
        if case.action.kind == SUBMIT && answer.number == 0 && case.action.path == MAX_PATH {
            refuse(case, ledger, answer, BAD_PATH);
        }
    }),
    acting("puts a resale on path 1", |case, ledger, answer| {
        let Some(row) = row_of(ledger, answer) else { return };
        if case.action.kind == SUBMIT && case.action.reqtype == RESALE {
            row.set(ledger, PATH, 1);
        }
    }),
    acting("reads the path of a reduction", |case, ledger, answer| {
        if case.action.kind == REDUCE && answer.number == 0 && !is_path(case.action.path) {
            refuse(case, ledger, answer, BAD_PATH);
        }
    }),
    // Postings.
    overposting("lowers a posting without looking at the use", |case, postings, answer| {
        if case.action.kind == POST && answer.number == OVER_POSTING {
            postings[posted_hours(case)].copy_from_slice(profile_of(case));
            *answer = Answer::default();
        }
    }),
    posting("looks at the posted hours alone", |case, postings, answer| {
        if case.action.kind == POST && answer.number == OVER_POSTING {
            let path_use = use_by(case.before, case.action.path, counted);
            let (start, stop) = (case.action.start as usize, case.action.stop as usize);
            if path_use[start..stop].iter().zip(profile_of(case)).all(|(mw, posted)| mw <= posted) {
                postings[posted_hours(case)].copy_from_slice(profile_of(case));
                *answer = Answer::default();
            }
        }
    }),
    posting("posts what no non-firm redirect could return to", |case, postings, answer| {
        if case.action.kind == POST && answer.number == OVER_POSTING {
            let mut lowered = case.postings.to_vec();
            lowered[posted_hours(case)].copy_from_slice(profile_of(case));
            if !over(case.before, &lowered, case.action.path, carried) {
                postings.copy_from_slice(&lowered);
                *answer = Answer::default();
            }
        }
    }),
    overposting("writes a refused posting", |case, postings, answer| {
        if case.action.kind == POST && answer.number == OVER_POSTING {
            postings[posted_hours(case)].copy_from_slice(profile_of(case));
        }
    }),
    posting("posts over all hours of the path", |case, postings, answer| {
        if posts(case, answer) {
            let hours = case.before[HOURS] as usize;
            let last = *profile_of(case).last().expect("an hour");
            postings[posted(case.action.path, hours)][case.action.stop as usize..].fill(last);
        }
    }),
    posting("posts to the next path", |case, postings, answer| {
        if posts(case, answer) && case.action.path < MAX_PATH {
            let hours = case.before[HOURS] as usize;
            let at = posted_hours(case);
            postings.copy_from_slice(case.postings);
            postings[at.start + hours..at.end + hours].copy_from_slice(profile_of(case));
        }
    }),
    posting("adds to the posting before", |case, postings, answer| {
        if posts(case, answer) {
            for at in posted_hours(case) {
                postings[at] = (postings[at] + case.postings[at]).min(MAX_MW);
            }
        }
    }),
    posting("refuses to post nothing", |case, postings, answer| {
        if posts(case, answer) && profile_of(case).iter().all(|&mw| mw == 0) {
            refuse_post(case, postings, answer, BAD_PROFILE);
        }
    }),
    posting("reads the price of a posting", |case, postings, answer| {
        if posts(case, answer) && case.action.price > MAX_PRICE {
            refuse_post(case, postings, answer, BAD_TERMS);
        }
    }),
    posting("reads the reference of a posting", |case, postings, answer| {
        if posts(case, answer) && case.action.reference > case.before[USED] {
            refuse_post(case, postings, answer, NO_REFERENCE);
        }
    }),
    posting("lets anyone post", |case, postings, answer| {
        let entity = is_entity(case.action.actor);
        if case.action.kind == POST && answer.number == BAD_PARTY && entity {
            let by_provider = Action { actor: case.before[PROVIDER], ..*case.action };
            *answer = act(&mut case.before.to_vec(), postings, case.words, &by_provider);
        }
    }),
    acting("looks at the hours of a posting before its path", |case, _, answer| {
        let Action { kind, start, stop, .. } = *case.action;
        if kind == POST && answer.number == BAD_PATH && (start >= stop || stop > case.before[HOURS])
        {
            answer.number = BAD_SPAN;
        }
    }),
    acting("answers a posting with its MW-hours", |case, _, answer| {
        if posts(case, answer) {
            answer.moved = profile_of(case).iter().sum();
        }
    }),
    // Trees that another desk works on.
    crossing("gives an annulled row back to the first original", |case, ledger, answer| {
        let Some(row) = row_of(ledger, answer) else { return };
        let Some(above) = related(ledger, row) else { return };
        if (answer.before, answer.after) != (CONFIRMED, ANNULLED) {
            return;
        }
        for profile in [AVAILABLE, DISPLACED_MW] {
            let words = above.profile(profile);
            ledger[words.clone()].copy_from_slice(&case.before[words]);
        }
        let first = Row::of(ledger, 1);
        for hour in first.get(ledger, START) as usize..first.get(ledger, STOP) as usize {
            let mw = ledger[row.profile(GRANTED).start + hour];
            let at = first.profile(AVAILABLE).start + hour;
            ledger[at] = (ledger[at] + mw).min(MAX_MW);
        }
    }),
    crossing("approves all transfers at once", |case, ledger, answer| {
        if case.action.kind == APPROVE && answer.number == 0 {
            for row in other_rows(case) {
                if matches!(row.get(ledger, TYPE), PART_TRANSFER | FULL_TRANSFER) {
                    row.set(ledger, FLAGS, row.get(ledger, FLAGS) | APPROVED);
                }
            }
        }
    }),
    crossing("restarts the limit of every offer", |case, ledger, answer| {
        if offers(case, answer) {
            for row in other_rows(case).filter(|&row| is_offered(case.before, row)) {
                row.set(ledger, LIMIT, ledger[NOW] + ledger[WINDOW]);
            }
        }
    }),
    crossing("supersedes all open rows of a customer", |case, ledger, answer| {
        let Some(row) = row_of(ledger, answer).filter(|_| answer.after == SUPERSEDED) else {
            return;
        };
        for other in other_rows(case) {
            let same = other.get(ledger, CUSTOMER) == row.get(ledger, CUSTOMER);
            if same && is_open(other.get(ledger, STATUS)) {
                other.set(ledger, STATUS, SUPERSEDED);
            }
        }
    }),
    crossing("retracts every offer past its limit", |case, ledger, answer| {
        if case.action.kind == LAPSE && answer.number == 0 {
            for row in other_rows(case).filter(|&row| is_offered(case.before, row)) {
                if row.get(ledger, LIMIT) <= ledger[NOW] {
                    row.set(ledger, STATUS, RETRACTED);
                }
            }
        }
    }),
    crossing("moves the clock on with every offer", |case, ledger, answer| {
        if offers(case, answer) {
            ledger[NOW] = (ledger[NOW] + 1).min(END_SECOND - 1);
        }
    }),
    crossposting("takes a reduction off the postings of all paths", |case, postings, answer| {
        if reduces(case, answer) {
            let row = Row::of(case.before, case.action.reference);
            let start = row.get(case.before, START) as usize;
            for path in 1..=MAX_PATH {
                for (at, mw) in posted(path, row.hours).skip(start).zip(profile_of(case)) {
                    postings[at] = postings[at].saturating_sub(*mw);
                }
            }
        }
    }),
    crossing("compares with what the first original has", |case, ledger, answer| {
        let Some(row) = confirmed_from_related(ledger, answer) else { return };
        let first = Row::of(case.before, 1).profile(AVAILABLE);
        let mut hours = first.zip(row.profile(GRANTED));
        if hours.any(|(has, wants)| case.before[has] < ledger[wants]) {
            refuse(case, ledger, answer, SHORT);
        }
    }),
    crossing("asks all originals to be CONFIRMED", |case, ledger, answer| {
        let idle = |row: Row| is_original(case.before, row) && !is_confirmed(case.before, row);
        let asks = confirmed_from_related(ledger, answer).is_some();
        if asks && used_rows(case.before).into_iter().any(idle) {
            refuse(case, ledger, answer, BAD_RELATED);
        }
    }),
    crossing("lapses by the limit of the row before", |case, ledger, answer| {
        let looks = case.action.kind == LAPSE && matches!(answer.number, 0 | BEFORE_LIMIT);
        if !looks || case.action.reference == 1 {
            return;
        }
        let limit = Row::of(case.before, case.action.reference - 1).get(case.before, LIMIT);
        if case.before[NOW] < limit {
            refuse(case, ledger, answer, BEFORE_LIMIT);
        } else {
            again(case, ledger, answer, |ledger, row| row.set(ledger, LIMIT, 0));
        }
    }),
    crossing("counts rows on any path in the use", |case, ledger, answer| {
        judged(case, ledger, answer, |after, row| {
            let any_path: Times = |ledger, row, _| u32::from(is_confirmed(ledger, row));
            either_over(after, case.postings, row, any_path)
        });
    }),
    crossing("holds a row to the posting of the next path too", |case, ledger, answer| {
        judged(case, ledger, answer, |after, row| {
            let next = row.get(after, PATH) % MAX_PATH + 1;
            either_over(after, case.postings, row, counted)
                || over(after, case.postings, next, counted)
        });
    }),
    crossing("answers with all that the customer holds", |_, ledger, answer| {
        let Some(row) = row_of(ledger, answer).filter(|_| confirms(answer)) else { return };
        let held = used_rows(ledger)
            .into_iter()
            .filter(|other| other.get(ledger, CUSTOMER) == row.get(ledger, CUSTOMER))
            .map(|other| ledger[other.profile(AVAILABLE)].iter().sum::<u32>());
        answer.moved = held.sum();
    }),
    crossing("answers with the last row's status before", |case, _, answer| {
        if answer.number == 0 && (SELLER_STATUS..=LAPSE).contains(&case.action.kind) {
            answer.before = Row::of(case.before, case.before[USED]).get(case.before, STATUS);
        }
    }),
    // Opening.
    opening("counts rows at 13 alone", |ledger| {
        opened(ledger, &Opening { takes: is_confirmed, ..OPENING })
    }),
    opening("has an equation for rows at 13 alone", |ledger| {
        let tested = |ledger: &[u32], row: Row| {
            is_confirmed(ledger, row) && row.get(ledger, TYPE) != RELINQUISH
        };
        opened(ledger, &Opening { tested, ..OPENING })
    }),
    opening("takes off records at 13 alone", |ledger| {
        let gives_back = |ledger: &[u32], redirect: Row, row: Row| {
            (OPENING.gives_back)(ledger, redirect, row) && is_confirmed(ledger, row)
        };
        opened(ledger, &Opening { gives_back, ..OPENING })
    }),
    opening("takes no record off its redirect", |ledger| {
        opened(ledger, &Opening { gives_back: |_, _, _| false, ..OPENING })
    }),
    opening("takes all rows off a redirect", |ledger| {
        let gives_back = |ledger: &[u32], redirect: Row, row: Row| {
            is_redirect(ledger, redirect) && stands(ledger, redirect) && stands(ledger, row)
        };
        opened(ledger, &Opening { gives_back, ..OPENING })
    }),
    opening("takes records off a redirect that does not stand", |ledger| {
        let gives_back = |ledger: &[u32], _: Row, row: Row| {
            stands(ledger, row) && row.get(ledger, TYPE) == RELINQUISH
        };
        opened(ledger, &Opening { gives_back, ..OPENING })
    }),
    opening("takes off records that do not stand", |ledger| {
        let gives_back = |ledger: &[u32], redirect: Row, row: Row| {
            stands(ledger, redirect) && row.get(ledger, TYPE) == RELINQUISH
        };
        opened(ledger, &Opening { gives_back, ..OPENING })
    }),
    opening("leaves records out of their redirect's equation", |ledger| {
        let takes =
            |ledger: &[u32], row: Row| stands(ledger, row) && row.get(ledger, TYPE) != RELINQUISH;
        opened(ledger, &Opening { takes, ..OPENING })
    }),
    opening("counts annulled rows", |ledger| {
        let takes =
            |ledger: &[u32], row: Row| stands(ledger, row) || row.get(ledger, STATUS) == ANNULLED;
        opened(ledger, &Opening { takes, ..OPENING })
    }),
    opening("gives relinquish records an equation", |ledger| {
        opened(ledger, &Opening { tested: stands, ..OPENING })
    }),
    opening("has an equation for rows at any status", |ledger| {
        let tested = |ledger: &[u32], row: Row| row.get(ledger, TYPE) != RELINQUISH;
        opened(ledger, &Opening { tested, ..OPENING })
    }),
    opening("has an equation for originals alone", |ledger| {
        opened(ledger, &Opening { tested: OPENING.added_up, ..OPENING })
    }),
    opening("adds up the trees of redirects too", |ledger| {
        let added_up = |ledger: &[u32], row: Row| {
            stands(ledger, row) && (is_original(ledger, row) || is_redirect(ledger, row))
        };
        opened(ledger, &Opening { added_up, ..OPENING })
    }),
    opening("adds up the tree of an annulled original", |ledger| {
        let added_up = |ledger: &[u32], row: Row| {
            let annulled = row.get(ledger, STATUS) == ANNULLED;
            is_original(ledger, row) && (stands(ledger, row) || annulled)
        };
        opened(ledger, &Opening { added_up, ..OPENING })
    }),
    opening("adds up the trees of originals at 13 alone", |ledger| {
        let added_up =
            |ledger: &[u32], row: Row| is_original(ledger, row) && is_confirmed(ledger, row);
        opened(ledger, &Opening { added_up, ..OPENING })
    }),
    opening("adds up the rows related to an original alone", |ledger| {
        let in_tree = |ledger: &[u32], top: u32, reference: u32| {
            chain(ledger, reference).into_iter().take(2).any(|above| above == top)
        };
        opened(ledger, &Opening { in_tree, ..OPENING })
    }),
    opening("adds up live rows alone", |ledger| {
        let in_tree = |ledger: &[u32], top: u32, reference: u32| {
            chain(ledger, reference).contains(&top) && stands(ledger, Row::of(ledger, reference))
        };
        opened(ledger, &Opening { in_tree, ..OPENING })
    }),
    opening("ends a tree at a row that does not stand", |ledger| {
        let in_tree = |ledger: &[u32], top: u32, reference: u32| {
            let chain = chain(ledger, reference);
            chain.contains(&top)
                && chain[1..].iter().all(|&above| stands(ledger, Row::of(ledger, above)))
        };
        opened(ledger, &Opening { in_tree, ..OPENING })
    }),
    opening("adds up no relinquish record", |ledger| {
        let in_tree = |ledger: &[u32], top: u32, reference: u32| {
            let relinquishes = Row::of(ledger, reference).get(ledger, TYPE) == RELINQUISH;
            chain(ledger, reference).contains(&top) && !relinquishes
        };
        opened(ledger, &Opening { in_tree, ..OPENING })
    }),
    opening("leaves reduced out of the equation", |ledger| {
        opened(ledger, &Opening { held: &[AVAILABLE, DISPLACED_MW], ..OPENING })
    }),
    opening("leaves displaced out of the equation", |ledger| {
        opened(ledger, &Opening { held: &[AVAILABLE, REDUCED_MW], ..OPENING })
    }),
    opening("leaves displaced out of the tree", |ledger| {
        opened(ledger, &Opening { held_in_tree: &[AVAILABLE, REDUCED_MW], ..OPENING })
    }),
    opening("leaves reduced out of the tree", |ledger| {
        opened(ledger, &Opening { held_in_tree: &[AVAILABLE, DISPLACED_MW], ..OPENING })
    }),
    opening("does not test the last hour", |ledger| {
        let agree = |_: &[u32], _: u32, should: &[i64], held: &[i64]| {
            let last = should.len() - 1;
            should[..last] == held[..last]
        };
        opened(ledger, &Opening { agree, trees_agree: agree, ..OPENING })
    }),
    opening("tests the equation in the hours of the first related row alone", |ledger| {
        let agree = |ledger: &[u32], reference: u32, should: &[i64], held: &[i64]| {
            let hours = first_hours(ledger, reference);
            should[hours.clone()] == held[hours]
        };
        opened(ledger, &Opening { agree, ..OPENING })
    }),
    opening("balances MW-hours instead of each hour", |ledger| {
        let agree = |_: &[u32], _: u32, should: &[i64], held: &[i64]| {
            should.iter().sum::<i64>() == held.iter().sum()
        };
        opened(ledger, &Opening { agree, trees_agree: agree, ..OPENING })
    }),
    opening("balances where no megawatt is beyond granted", |ledger| {
        let agree = |_: &[u32], _: u32, should: &[i64], held: &[i64]| {
            should.iter().zip(held).all(|(should, held)| should >= held)
        };
        opened(ledger, &Opening { agree, trees_agree: agree, ..OPENING })
    }),
    opening("adds up no tree", |ledger| {
        opened(ledger, &Opening { added_up: |_, _| false, ..OPENING })
    }),
    opening("has no equations", |ledger| {
        opened(ledger, &Opening { tested: |_, _| false, ..OPENING })
    }),
    opening("does not open where a row was countered", |ledger| match Model.open(ledger) {
        0 | UNBALANCED if any_countered(ledger) => BAD_LEDGER,
        number => number,
    }),
    opening("opens with flags of 64", |ledger| {
        let mut mended = ledger.to_vec();
        if ledger.len() >= HEAD_WORDS {
            clear_64(&mut mended);
        }
        Model.open(&mended)
    }),
    opening("tells 20 before 1", |ledger| {
        let mut mended = ledger.to_vec();
        if ledger.len() >= HEAD_WORDS {
            mended[HEAD_ZERO] = 0;
            at_most(&mut mended, FLAGS, MAX_FLAGS);
            at_most(&mut mended, PATH, MAX_PATH);
            at_most(&mut mended, BID, MAX_PRICE);
        }
        match Model.open(&mended) {
            UNBALANCED => UNBALANCED,
            _ => Model.open(ledger),
        }
    }),
    opening("tells 1 for 20", |ledger| Model.open(ledger).min(BAD_LEDGER)),
    // Contests: the moves.
    contesting(
        "lets a term equal the last",
        Contesting { not_longer: |last, term| term < last, ..CONTESTING },
    ),
    contesting(
        "does not hold the first term to the row's hours",
        Contesting {
            last: |play, _, round| if round == 0 { 0 } else { play.moves[round - 1] },
            ..CONTESTING
        },
    ),
    contesting(
        "does not take a match for the last term",
        Contesting { last: |_, present, _| present, ..CONTESTING },
    ),
    contesting(
        "takes the word of a match for the last term",
        Contesting {
            last: |play, present, round| match round {
                0 => present,
                _ => play.replies.get(round - 1).copied().unwrap_or(present),
            },
            ..CONTESTING
        },
    ),
    contesting(
        "lets a term be above the challenger's greatest",
        Contesting { above: |_, _| false, ..CONTESTING },
    ),
    contesting(
        "does not let a term be the challenger's greatest",
        Contesting { above: |contest, term| term >= contest.challenger, ..CONTESTING },
    ),
    contesting(
        "holds a term to the holder's greatest",
        Contesting { above: |contest, term| term > contest.holder, ..CONTESTING },
    ),
    contesting(
        "lets a match be above the holder's greatest",
        Contesting { match_above: |_, _| false, ..CONTESTING },
    ),
    contesting(
        "does not let a match be the holder's greatest",
        Contesting { match_above: |contest, term| term >= contest.holder, ..CONTESTING },
    ),
    contesting(
        "holds a match to the challenger's greatest",
        Contesting { match_above: |contest, term| term > contest.challenger, ..CONTESTING },
    ),
    contesting(
        "takes a match above the greatest for a yield",
        Contesting {
            ends: |_, ending| match ending {
                Ending::MatchAbove => Ending::Lost,
                ending => ending,
            },
            ..CONTESTING
        },
    ),
    contesting(
        "takes a term that does not fit for a stop",
        Contesting {
            ends: |_, ending| match ending {
                Ending::TermAbove | Ending::TermNotLonger => Ending::Kept,
                ending => ending,
            },
            ..CONTESTING
        },
    ),
    contesting(
        "loses a row where the challenger stops",
        Contesting {
            ends: |_, ending| if ending == Ending::Kept { Ending::Lost } else { ending },
            ..CONTESTING
        },
    ),
    contesting(
        "loses a row where no term is named any more",
        Contesting {
            ends: |_, ending| if ending == Ending::NoTerm { Ending::Lost } else { ending },
            ..CONTESTING
        },
    ),
    contesting(
        "loses a row where a term is not answered",
        Contesting {
            ends: |_, ending| if ending == Ending::NoAnswer { Ending::Lost } else { ending },
            ..CONTESTING
        },
    ),
    contesting(
        "keeps a row that was lost",
        Contesting {
            ends: |_, ending| if ending == Ending::Lost { Ending::Kept } else { ending },
            ..CONTESTING
        },
    ),
    contesting(
        "goes by the greatest terms instead of the moves",
        Contesting {
            ends: |play, ending| match (ending.number(), &play.contest) {
                (0, contest) if contest.challenger > contest.holder => Ending::Lost,
                (0, _) => Ending::Kept,
                _ => ending,
            },
            ..CONTESTING
        },
    ),
    contesting(
        "takes the challenger's 0 for a term",
        Contesting { stops: |_| false, ..CONTESTING },
    ),
    contesting(
        "takes a match by another word than 1 for a yield",
        Contesting { yields: |word| word != MATCHES, ..CONTESTING },
    ),
    contesting(
        "refuses replies other than 0 and 1",
        Contesting {
            ends: |play, ending| match ending.number() {
                0 if play.replies.iter().any(|&word| word > MATCHES) => Ending::MatchAbove,
                _ => ending,
            },
            ..CONTESTING
        },
    ),
    contesting(
        "looks for the answer before the term is judged",
        Contesting { places: Places { no_answer: 1, ..CONTESTING.places }, ..CONTESTING },
    ),
    contesting(
        "loses a row to a term that does not fit",
        Contesting { places: Places { yields: 1, ..CONTESTING.places }, ..CONTESTING },
    ),
    contesting(
        "refuses to yield to a term above the holder's greatest",
        Contesting {
            ends: |play, ending| {
                let round = play.replies.iter().position(|&word| word == 0);
                let term = round.and_then(|round| play.moves.get(round));
                match term {
                    Some(&term) if ending == Ending::Lost && term > play.contest.holder => {
                        Ending::MatchAbove
                    }
                    _ => ending,
                }
            },
            ..CONTESTING
        },
    ),
    contesting(
        "looks at moves left over",
        Contesting {
            ends: |play, ending| match ending.number() {
                0 if play.moves.iter().any(|&term| term > play.contest.challenger) => {
                    Ending::TermAbove
                }
                _ => ending,
            },
            ..CONTESTING
        },
    ),
    contesting(
        "takes an answer left over for a yield",
        Contesting {
            ends: |play, ending| {
                let left = play.replies.get(play.moves.len()) == Some(&0);
                if ending == Ending::NoTerm && left {
                    Ending::Lost
                } else {
                    ending
                }
            },
            ..CONTESTING
        },
    ),
    contesting(
        "refuses lists that are not of one length",
        Contesting {
            ends: |play, ending| match ending.number() {
                0 if play.moves.len() != play.replies.len() => Ending::TermAbove,
                _ => ending,
            },
            ..CONTESTING
        },
    ),
    contested("ends a contest at the first match", |dispute, ledger, _, answer| {
        let matched = dispute.play.replies.first().is_some_and(|&word| word != 0);
        if matched && (answer.number == TERM_RANGE || answer.after == DISPLACED) {
            *answer = first_rounds(dispute, ledger, 1);
        }
    }),
    contested("looks at two rounds alone", |dispute, ledger, _, answer| {
        let judged = answer.number == TERM_RANGE || answer.after == DISPLACED;
        if judged && dispute.play.moves.len() > 2 {
            *answer = first_rounds(dispute, ledger, 2);
        }
    }),
    // The row's own hours, and the greatest terms.
    contesting(
        "takes the hours with something available for the row's own",
        Contesting { present: |ledger, row| hours_with_some(ledger, row, AVAILABLE), ..CONTESTING },
    ),
    contesting(
        "takes the hours with something granted for the row's own",
        Contesting { present: |ledger, row| hours_with_some(ledger, row, GRANTED), ..CONTESTING },
    ),
    contesting(
        "takes the row's stop for its hours",
        Contesting { present: |ledger, row| row.get(ledger, STOP), ..CONTESTING },
    ),
    contesting(
        "counts the stop among the row's hours",
        Contesting { present: |ledger, row| own_hours(ledger, row) + 1, ..CONTESTING },
    ),
    contesting(
        "takes all hours for the row's own",
        Contesting { present: |ledger, _| ledger[HOURS], ..CONTESTING },
    ),
    contesting(
        "does not hold the holder's greatest term to the row's hours",
        Contesting { greatest: |contest, _, hours| greatest(contest, 0, hours), ..CONTESTING },
    ),
    contesting(
        "does not let the holder's greatest term be the row's hours",
        Contesting {
            greatest: |contest, present, hours| greatest(contest, present + 1, hours),
            ..CONTESTING
        },
    ),
    contesting(
        "lets the challenger's greatest term be 0",
        Contesting {
            greatest: |contest, present, hours| {
                let challenger = contest.challenger.max(1);
                greatest(&Contest { challenger, ..*contest }, present, hours)
            },
            ..CONTESTING
        },
    ),
    contesting(
        "lets the challenger's greatest term be one above the hours",
        Contesting {
            greatest: |contest, present, hours| {
                let one_above = contest.challenger == hours + 1;
                let challenger = if one_above { hours } else { contest.challenger };
                greatest(&Contest { challenger, ..*contest }, present, hours)
            },
            ..CONTESTING
        },
    ),
    contesting(
        "lets the holder's greatest term be one above the hours",
        Contesting {
            greatest: |contest, present, hours| {
                let one_above = contest.holder == hours + 1;
                let holder = if one_above { hours } else { contest.holder };
                greatest(&Contest { holder, ..*contest }, present, hours)
            },
            ..CONTESTING
        },
    ),
    contesting(
        "lets the challenger's greatest term be anything above",
        Contesting {
            greatest: |contest, present, hours| {
                let challenger = contest.challenger.min(hours);
                greatest(&Contest { challenger, ..*contest }, present, hours)
            },
            ..CONTESTING
        },
    ),
    contesting(
        "does not let the challenger's greatest term be all hours",
        Contesting {
            greatest: |contest, present, hours| match contest.challenger {
                all if all == hours => Some(Ending::ChallengerBeyond),
                _ => greatest(contest, present, hours),
            },
            ..CONTESTING
        },
    ),
    contesting(
        "does not let the holder's greatest term be all hours",
        Contesting {
            greatest: |contest, present, hours| match contest.holder {
                all if all == hours => Some(Ending::HolderBeyond),
                _ => greatest(contest, present, hours),
            },
            ..CONTESTING
        },
    ),
    contesting(
        "holds the challenger's greatest term to the row's hours too",
        Contesting {
            greatest: |contest, present, hours| match contest.challenger < present {
                true => Some(Ending::ChallengerNone),
                false => greatest(contest, present, hours),
            },
            ..CONTESTING
        },
    ),
    contesting(
        "asks the challenger to be able to outlast the row",
        Contesting {
            greatest: |contest, present, hours| match contest.challenger <= present {
                true => Some(Ending::ChallengerNone),
                false => greatest(contest, present, hours),
            },
            ..CONTESTING
        },
    ),
    contesting(
        "asks the challenger to be able to outlast the holder",
        Contesting {
            greatest: |contest, present, hours| match contest.challenger <= contest.holder {
                true => Some(Ending::ChallengerNone),
                false => greatest(contest, present, hours),
            },
            ..CONTESTING
        },
    ),
    // Rows and parties of contests.
    contesting(
        "contests rows that are not firm",
        Contesting { is_firm: |_, _| true, ..CONTESTING },
    ),
    contesting(
        "takes no resale or transfer for firm",
        Contesting {
            is_firm: |ledger, reference| {
                is_firm(ledger, reference) && has_own_class(ledger, Row::of(ledger, reference))
            },
            ..CONTESTING
        },
    ),
    contesting(
        "takes every resale and transfer for firm",
        Contesting {
            is_firm: |ledger, reference| {
                is_firm(ledger, reference) || !has_own_class(ledger, Row::of(ledger, reference))
            },
            ..CONTESTING
        },
    ),
    contesting(
        "looks one row up the chain for firmness",
        Contesting {
            is_firm: |ledger, reference| {
                let near = chain(ledger, reference).into_iter().take(2);
                is_firm(ledger, reference)
                    && near.into_iter().any(|near| has_own_class(ledger, Row::of(ledger, near)))
            },
            ..CONTESTING
        },
    ),
    contesting(
        "takes a non-firm redirect for what its related row is",
        Contesting {
            is_firm: |ledger, reference| {
                let row = Row::of(ledger, reference);
                let redirected = row.get(ledger, TYPE) == REDIRECT_NON_FIRM;
                is_firm(ledger, if redirected { row.get(ledger, RELATED) } else { reference })
            },
            ..CONTESTING
        },
    ),
    contesting(
        "takes a firm redirect for what its related row is",
        Contesting {
            is_firm: |ledger, reference| {
                let top = chain(ledger, reference).into_iter().last();
                is_firm(ledger, reference) && top.is_some_and(|original| is_firm(ledger, original))
            },
            ..CONTESTING
        },
    ),
    contesting(
        "takes what came from a row no longer CONFIRMED for non-firm",
        Contesting {
            is_firm: |ledger, reference| {
                let above = chain(ledger, reference);
                is_firm(ledger, reference)
                    && above.iter().all(|&above| is_confirmed(ledger, Row::of(ledger, above)))
            },
            ..CONTESTING
        },
    ),
    contesting("contests rows at any status", Contesting { is_held: |_, _| true, ..CONTESTING }),
    contesting("contests displaced rows", Contesting { is_held: stands, ..CONTESTING }),
    contesting(
        "lets the provider contest a resale",
        Contesting {
            is_party: |ledger, row, actor| {
                let resold = row.get(ledger, TYPE) == RESALE && actor == ledger[PROVIDER];
                row.get(ledger, SELLER) == actor || resold
            },
            ..CONTESTING
        },
    ),
    contesting(
        "lets the provider alone contest",
        Contesting { is_party: |ledger, _, actor| actor == ledger[PROVIDER], ..CONTESTING },
    ),
    contesting(
        "lets the holder contest its own row",
        Contesting {
            is_party: |ledger, row, actor| {
                [row.get(ledger, SELLER), row.get(ledger, CUSTOMER)].contains(&actor)
            },
            ..CONTESTING
        },
    ),
    contesting("lets anyone contest", Contesting { is_party: |_, _, _| true, ..CONTESTING }),
    // The order of a contest's checks.
    in_order(
        "judges the greatest terms before the row's class",
        &[Ledger, Postings, Entity, Reference, Seller, Move, Greatest, Firm],
    ),
    in_order(
        "judges the greatest terms before the move",
        &[Ledger, Postings, Entity, Reference, Seller, Greatest, Move, Firm],
    ),
    in_order(
        "judges the greatest terms before the seller",
        &[Ledger, Postings, Entity, Reference, Greatest, Seller, Move, Firm],
    ),
    in_order(
        "judges the greatest terms before the reference",
        &[Ledger, Postings, Entity, Greatest, Reference, Seller, Move, Firm],
    ),
    in_order(
        "judges the greatest terms before the actor",
        &[Ledger, Postings, Greatest, Entity, Reference, Seller, Move, Firm],
    ),
    in_order(
        "looks at the seller of a contest last",
        &[Ledger, Postings, Entity, Reference, Move, Firm, Greatest, Seller],
    ),
    in_order(
        "looks at the row's class before the seller",
        &[Ledger, Postings, Entity, Reference, Firm, Seller, Move, Greatest],
    ),
    in_order(
        "looks at the reference before the actor of a contest",
        &[Ledger, Postings, Reference, Entity, Seller, Move, Firm, Greatest],
    ),
    in_order(
        "looks at the actor of a contest before the postings",
        &[Ledger, Entity, Postings, Reference, Seller, Move, Firm, Greatest],
    ),
    in_order(
        "does not look at the postings of a contest",
        &[Ledger, Entity, Reference, Seller, Move, Firm, Greatest],
    ),
    contested("judges the first term before the row", |dispute, _, _, answer| {
        let Play { contest, moves, .. } = dispute.play;
        let above = moves.first().is_some_and(|&term| term > contest.challenger);
        if answer.number == BAD_MOVE && above {
            answer.number = TERM_RANGE;
        }
    }),
    contesting(
        "judges a word over 100,000 for a row kept",
        Contesting {
            over: |ledger, row, ending| {
                matches!(ending, Ending::Lost | Ending::Kept) && would_pass(ledger, row)
            },
            ..CONTESTING
        },
    ),
    contesting(
        "judges a word over 100,000 for a contest left unfinished",
        Contesting {
            over: |ledger, row, ending| {
                let unfinished = matches!(ending, Ending::NoTerm | Ending::NoAnswer);
                (unfinished || ending == Ending::Lost) && would_pass(ledger, row)
            },
            ..CONTESTING
        },
    ),
    contesting(
        "judges a word over 100,000 before the moves",
        Contesting {
            over: |ledger, row, ending| {
                (ending.number() == TERM_RANGE || ending == Ending::Lost) && would_pass(ledger, row)
            },
            ..CONTESTING
        },
    ),
    contesting(
        "does not judge a word over 100,000 in a contest",
        Contesting { over: |_, _, _| false, ..CONTESTING },
    ),
    contested("holds a lost row to the posting", |dispute, ledger, postings, answer| {
        let Some(row) = lost_row(ledger, answer) else { return };
        if either_over(ledger, postings, row, counted) {
            ledger.copy_from_slice(dispute.before);
            *answer = Answer::refused(OVER_POSTING);
        }
    }),
    // What a contest writes and answers.
    losing("answers a lost contest and writes nothing", |dispute, ledger, _, _| {
        ledger.copy_from_slice(dispute.before);
    }),
    losing("displaces a lost row and answers that it was kept", |_, _, _, answer| {
        if answer.after == DISPLACED {
            (answer.after, answer.moved) = (CONFIRMED, 0);
        }
    }),
    losing("loses the megawatts of a lost row", |dispute, ledger, _, answer| {
        let Some(row) = lost_row(ledger, answer) else { return };
        put_back(dispute, ledger, row.profile(DISPLACED_MW));
    }),
    losing("leaves a lost row its megawatts", |dispute, ledger, _, answer| {
        let Some(row) = lost_row(ledger, answer) else { return };
        put_back(dispute, ledger, row.profile(AVAILABLE));
    }),
    losing("leaves a lost row CONFIRMED", |_, ledger, _, answer| {
        let Some(row) = lost_row(ledger, answer) else { return };
        row.set(ledger, STATUS, CONFIRMED);
    }),
    losing("annuls a lost row", |_, ledger, _, answer| {
        let Some(row) = lost_row(ledger, answer) else { return };
        row.set(ledger, STATUS, ANNULLED);
        answer.after = ANNULLED;
    }),
    losing("gives a lost row back to the row it came from", |dispute, ledger, _, answer| {
        let Some(row) = lost_row(ledger, answer) else { return };
        let Some(above) = related(ledger, row) else { return };
        put_back(dispute, ledger, row.profile(DISPLACED_MW));
        for (to, from) in above.profile(AVAILABLE).zip(row.profile(AVAILABLE)) {
            ledger[to] = (ledger[to] + dispute.before[from]).min(MAX_MW);
        }
    }),
    losing("clears what was reduced of a lost row", |_, ledger, _, answer| {
        let Some(row) = lost_row(ledger, answer) else { return };
        ledger[row.profile(REDUCED_MW)].fill(0);
    }),
    contested("displaces a row whose contest is refused", |dispute, ledger, _, answer| {
        if answer.number == TERM_RANGE {
            let displacement = dispute.play.contest.displacement();
            act(ledger, &mut dispute.postings.to_vec(), &[], &displacement);
        }
    }),
    contested("lengthens a row by the terms matched", |dispute, ledger, _, answer| {
        let Some(row) = row_that_stands(ledger, answer) else { return };
        let matched = dispute.play.replies.first().is_some_and(|&word| word != 0);
        if let Some(&term) = dispute.play.moves.first().filter(|&&term| matched && term != 0) {
            let stop = (row.get(ledger, START) + term).min(ledger[HOURS]);
            row.set(ledger, STOP, stop);
        }
    }),
    contested("restarts the limit of a row kept", |_, ledger, _, answer| {
        let Some(row) = row_that_stands(ledger, answer) else { return };
        row.set(ledger, LIMIT, ledger[NOW] + ledger[WINDOW]);
    }),
    contested("writes a posting where a row is lost", |_, ledger, postings, answer| {
        let Some(row) = lost_row(ledger, answer) else { return };
        let hour = posted(row.get(ledger, PATH), row.hours).start;
        postings[hour] = if postings[hour] == MAX_MW { 0 } else { MAX_MW };
    }),
    contested("writes a posting where a contest is refused", |_, _, postings, answer| {
        if answer.number == TERM_RANGE {
            postings[0] = if postings[0] == MAX_MW { 0 } else { MAX_MW };
        }
    }),
    contested("answers a lost row with what it was granted", |_, ledger, _, answer| {
        let Some(row) = lost_row(ledger, answer) else { return };
        answer.moved = ledger[row.profile(GRANTED)].iter().sum();
    }),
    contested("answers a lost row with all that is displaced", |_, ledger, _, answer| {
        let Some(row) = lost_row(ledger, answer) else { return };
        answer.moved = ledger[row.profile(DISPLACED_MW)].iter().sum();
    }),
    contested("answers a row kept with what is available", |_, ledger, _, answer| {
        let Some(row) = row_that_stands(ledger, answer) else { return };
        answer.moved = ledger[row.profile(AVAILABLE)].iter().sum();
    }),
    contested("answers a row kept with five zeros", |_, ledger, _, answer| {
        if row_that_stands(ledger, answer).is_some() {
            *answer = Answer::default();
        }
    }),
    contested("answers a row kept as displaced", |_, ledger, _, answer| {
        if row_that_stands(ledger, answer).is_some() {
            answer.after = DISPLACED;
        }
    }),
    contested("answers the term named last", |dispute, ledger, _, answer| {
        if row_that_stands(ledger, answer).is_some() {
            answer.moved = dispute.play.moves.last().copied().unwrap_or(0);
        }
    }),
    contested("tells the reference with a 25", |dispute, _, _, answer| {
        if answer.number == TERM_RANGE {
            answer.reference = dispute.play.contest.reference;
        }
    }),
    contested("tells 12 for 25", |_, _, _, answer| {
        if answer.number == TERM_RANGE {
            answer.number = BAD_TERMS;
        }
    }),
    // Annulments in order: what is tried.
    trying("does not try the last reference", |_, references| {
        filtered(references, |place, _| place + 1 < references.len())
    }),
    trying("does not try the first reference", |_, references| {
        filtered(references, |place, _| place > 0)
    }),
    trying("tries the first reference alone", |_, references| {
        filtered(references, |place, _| place == 0)
    }),
    trying("tries the last reference alone", |_, references| {
        filtered(references, |place, _| place + 1 == references.len())
    }),
    trying("tries no more than four references", |_, references| {
        filtered(references, |place, _| place < 4)
    }),
    trying("tries no more references than rows are used", |ledger, references| {
        filtered(references, |place, _| place < ledger[USED] as usize)
    }),
    trying("tries the first two the other way round", |_, references| swapped(references, 0, 1)),
    trying("tries the last two the other way round", |_, references| {
        let last = references.len().wrapping_sub(1);
        swapped(references, last, last.wrapping_sub(1))
    }),
    trying("tries the references from the last on", |_, references| {
        references.iter().rev().copied().collect()
    }),
    trying("tries the rows as they stand in the ledger", |_, references| sorted(references)),
    trying("tries later rows first", |_, references| {
        sorted(references).into_iter().rev().collect()
    }),
    trying("annuls what came from a row along with it", |ledger, references| {
        let mut tried = Vec::new();
        for &reference in references {
            let comes = |other: &u32| {
                is_confirmed(ledger, Row::of(ledger, *other))
                    && chain(ledger, *other)[1..].contains(&reference)
                    && !references.contains(other)
                    && !tried.contains(other)
            };
            let with_it: Vec<u32> = (1..=ledger[USED]).rev().filter(comes).collect();
            tried.extend(with_it);
            tried.push(reference);
        }
        tried
    }),
    trying("skips references that are not there", |ledger, references| {
        filtered(references, |_, reference| row_named(ledger, reference).is_some())
    }),
    trying("skips reference 0", |_, references| filtered(references, |_, reference| reference > 0)),
    trying("skips references past the rows used", |ledger, references| {
        filtered(references, |_, reference| reference <= ledger[USED])
    }),
    trying("takes the last row for references past it", |ledger, references| {
        references.iter().map(|&reference| reference.min(ledger[USED])).collect()
    }),
    trying("counts references from 0", |_, references| {
        references.iter().map(|&reference| reference.wrapping_add(1)).collect()
    }),
    trying("reads 16 bits of a reference", |_, references| {
        references.iter().map(|&reference| reference & 0xffff).collect()
    }),
    trying("takes a reference named again as done", |_, references| {
        filtered(references, |place, reference| !references[..place].contains(&reference))
    }),
    trying("takes a reference named twice running as named once", |_, references| {
        filtered(references, |place, one| place == 0 || references[place - 1] != one)
    }),
    unwinding("annuls a row again", Unwinding { named: |_, _| false, ..UNWINDING }),
    unwinding(
        "annuls a row again, but not twice running",
        Unwinding { named: |before, reference| before.last() == Some(&reference), ..UNWINDING },
    ),
    // What the annulments before have left.
    unwinding("tries each on the first ledger", Unwinding { gone: |_| &[], ..UNWINDING }),
    unwinding(
        "does not see the annulment just before",
        Unwinding { gone: |before| &before[..before.len().saturating_sub(1)], ..UNWINDING },
    ),
    unwinding(
        "sees the annulment just before alone",
        Unwinding { gone: |before| &before[before.len().saturating_sub(1)..], ..UNWINDING },
    ),
    unwinding(
        "sees the first three annulments alone",
        Unwinding { gone: |before| &before[..before.len().min(3)], ..UNWINDING },
    ),
    unwinding(
        "forgets what annulments give back",
        Unwinding { gives_back: |_, _| false, ..UNWINDING },
    ),
    unwinding(
        "gives back for open rows",
        Unwinding {
            gives_back: |ledger, row| (RESALE..=FULL_TRANSFER).contains(&row.get(ledger, TYPE)),
            ..UNWINDING
        },
    ),
    unwinding(
        "gives no annulled redirect back",
        Unwinding { gives_back: |ledger, row| gives_back_of(ledger, row, &[3, 6, 7]), ..UNWINDING },
    ),
    unwinding(
        "gives annulled firm redirects alone back",
        Unwinding { gives_back: |ledger, row| gives_back_of(ledger, row, &[4]), ..UNWINDING },
    ),
    unwinding(
        "gives no annulled transfer back",
        Unwinding { gives_back: |ledger, row| gives_back_of(ledger, row, &[3, 4, 5]), ..UNWINDING },
    ),
    unwinding("gives back what was requested", Unwinding { given: REQUESTED, ..UNWINDING }),
    unwinding(
        "gives back what was available at first",
        Unwinding { given: AVAILABLE, ..UNWINDING },
    ),
    unwinding(
        "gives back to the original",
        Unwinding {
            receiver: |ledger, row| {
                *chain(ledger, reference_of(row)).last().expect("itself at least")
            },
            ..UNWINDING
        },
    ),
    unwinding(
        "gives back to the row above the related one",
        Unwinding {
            receiver: |ledger, row| {
                let chain = chain(ledger, reference_of(row));
                chain[chain.len().min(3) - 1]
            },
            ..UNWINDING
        },
    ),
    // Which rows may go.
    standing("unwinds relinquish records", |ledger, row| {
        status(ledger, row).filter(|&obstacle| obstacle != Obstacle::RelinquishRecord)
    }),
    standing("unwinds open rows that are not preconfirmed", |ledger, row| {
        status(ledger, row).filter(|&obstacle| obstacle != Obstacle::NotPreconfirmed)
    }),
    standing("unwinds rows at any status", |ledger, row| {
        status(ledger, row).filter(|&obstacle| obstacle != Obstacle::Closed)
    }),
    standing("unwinds displaced rows", |ledger, row| match row.get(ledger, STATUS) {
        DISPLACED => None,
        _ => status(ledger, row),
    }),
    standing("unwinds no open rows", |ledger, row| match row.get(ledger, STATUS) {
        CONFIRMED => status(ledger, row),
        _ => Some(Obstacle::Closed),
    }),
    standing("unwinds open rows while they are QUEUED", |ledger, row| {
        match row.get(ledger, STATUS) {
            QUEUED | CONFIRMED => status(ledger, row),
            _ => Some(Obstacle::Closed),
        }
    }),
    standing("unwinds no relinquish record that is open", |ledger, row| {
        match row.get(ledger, TYPE) {
            RELINQUISH => Some(Obstacle::RelinquishRecord),
            _ => status(ledger, row),
        }
    }),
    standing("wants CONFIRMED rows to be preconfirmed", |ledger, row| {
        match row.get(ledger, FLAGS) & PRECONFIRMED {
            0 => Some(Obstacle::NotPreconfirmed),
            _ => status(ledger, row),
        }
    }),
    // Rows in use.
    unwinding("unwinds rows in use", Unwinding { in_use: |_, _| false, ..UNWINDING }),
    unwinding(
        "compares what is in use in all hours together",
        Unwinding {
            in_use: |available, granted| {
                available.iter().sum::<u32>() != granted.iter().sum::<u32>()
            },
            ..UNWINDING
        },
    ),
    unwinding(
        "unwinds rows that have more than granted",
        Unwinding {
            in_use: |available, granted| available.iter().zip(granted).any(|(a, g)| a < g),
            ..UNWINDING
        },
    ),
    unwinding(
        "unwinds rows that have less than granted",
        Unwinding {
            in_use: |available, granted| available.iter().zip(granted).any(|(a, g)| a > g),
            ..UNWINDING
        },
    ),
    unwinding(
        "does not compare what is in use in the last hour",
        Unwinding {
            in_use: |available, granted| {
                let but_last = available.len() - 1;
                available[..but_last] != granted[..but_last]
            },
            ..UNWINDING
        },
    ),
    unwinding(
        "asks for rows in use at first",
        Unwinding {
            available: |left, reference| {
                left.ledger[Row::of(left.ledger, reference).profile(AVAILABLE)].to_vec()
            },
            ..UNWINDING
        },
    ),
    // Use of paths.
    unwinding("asks no path in order", Unwinding { paths: |_, _| Vec::new(), ..UNWINDING }),
    unwinding(
        "does not ask the related row's path in order",
        Unwinding { paths: |ledger, row| vec![row.get(ledger, PATH)], ..UNWINDING },
    ),
    unwinding(
        "does not ask the row's own path in order",
        Unwinding { paths: |ledger, row| both_paths(ledger, row).split_off(1), ..UNWINDING },
    ),
    unwinding(
        "asks the path of a related row while it is CONFIRMED",
        Unwinding {
            paths: |ledger, row| {
                let mut paths = both_paths(ledger, row);
                if !related(ledger, row).is_some_and(|related| is_confirmed(ledger, related)) {
                    paths.truncate(1);
                }
                paths
            },
            ..UNWINDING
        },
    ),
    unwinding(
        "asks every path in order",
        Unwinding { paths: |_, _| (1..=MAX_PATH).collect(), ..UNWINDING },
    ),
    unwinding(
        "asks paths in the row's hours alone",
        Unwinding {
            over: |ledger, row, used, posted| {
                let hours = row.get(ledger, START) as usize..row.get(ledger, STOP) as usize;
                (UNWINDING.over)(ledger, row, &used[hours.clone()], &posted[hours])
            },
            ..UNWINDING
        },
    ),
    unwinding(
        "does not ask paths in the last hour",
        Unwinding {
            over: |ledger, row, used, posted| {
                (UNWINDING.over)(ledger, row, &used[..used.len() - 1], posted)
            },
            ..UNWINDING
        },
    ),
    unwinding(
        "asks paths for all hours together",
        Unwinding {
            over: |_, _, used, posted| used.iter().sum::<u32>() > posted.iter().sum(),
            ..UNWINDING
        },
    ),
    unwinding(
        "wants a megawatt more posted than is used",
        Unwinding {
            over: |_, _, used, posted| used.iter().zip(posted).any(|(mw, posted)| mw >= posted),
            ..UNWINDING
        },
    ),
    using("counts rows that went in use", |left, reference, path| {
        in_use_of(left, reference, path, |one| left.was_confirmed(one))
    }),
    using("counts the row that goes in use", |left, reference, path| {
        in_use_of(left, reference, path, |one| {
            let goes = left.gone.last() == Some(&one);
            left.was_confirmed(one) && (goes || !left.went(one))
        })
    }),
    using("counts displaced rows in use", |left, reference, path| {
        in_use_of(left, reference, path, |one| {
            stands(left.ledger, Row::of(left.ledger, one)) && !left.went(one)
        })
    }),
    using("counts rows whose related row went as gone", |left, reference, path| {
        let orphaned = left.went(left.field(reference, RELATED));
        if orphaned {
            0
        } else {
            (UNWINDING.times)(left, reference, path)
        }
    }),
    using("keeps no path free for a return", |left, reference, path| {
        u32::from(left.carries(reference, path))
    }),
    using("keeps a path free though the row to return to went", |left, reference, path| {
        let related = left.field(reference, RELATED);
        let kept = left.field(reference, TYPE) == REDIRECT_NON_FIRM
            && left.is_confirmed(reference)
            && left.was_confirmed(related)
            && left.field(related, PATH) == path;
        u32::from(kept || left.carries(reference, path))
    }),
    using("keeps a path free for a return to any row", |left, reference, path| {
        let related = left.field(reference, RELATED);
        let kept = left.field(reference, TYPE) == REDIRECT_NON_FIRM
            && left.is_confirmed(reference)
            && left.field(related, PATH) == path;
        u32::from(kept || left.carries(reference, path))
    }),
    using("keeps a path free for firm redirects", |left, reference, path| {
        let related = left.field(reference, RELATED);
        let kept = left.field(reference, TYPE) == REDIRECT_FIRM
            && left.is_confirmed(reference)
            && left.carries(related, path);
        u32::from(kept).max((UNWINDING.times)(left, reference, path))
    }),
    using("keeps a path free for a return twice over", |left, reference, path| {
        let carried = left.carries(reference, path);
        match left.keeps_free(reference, path) {
            true if !carried => 2,
            kept => u32::from(kept || carried),
        }
    }),
    using("counts a redirect within its path twice", |left, reference, path| {
        u32::from(left.carries(reference, path)) + u32::from(left.keeps_free(reference, path))
    }),
    annulling("asks paths once, at the end", |ledger, postings, references| {
        let unlimited = Unwinding { paths: |_, _| Vec::new(), ..UNWINDING };
        if unwinds(&unlimited, ledger, postings, references) == 0 {
            return 0;
        }
        let left = Left::new(&UNWINDING, ledger, references);
        let hours = ledger[HOURS] as usize;
        let is_over = |reference: &u32| {
            let row = Row::of(ledger, *reference);
            let asked = is_confirmed(ledger, row).then(|| both_paths(ledger, row));
            asked.into_iter().flatten().any(|path| {
                (UNWINDING.over)(ledger, row, &left.use_of(path), &postings[posted(path, hours)])
            })
        };
        u32::from(!references.iter().any(is_over))
    }),
    annulling("holds open rows to the posting", |ledger, postings, references| {
        let over = |reference: &u32| {
            let row = row_named(ledger, *reference);
            row.is_some_and(|row| {
                is_open(row.get(ledger, STATUS)) && either_over(ledger, postings, row, counted)
            })
        };
        let any_over = references.iter().any(over);
        u32::from(!any_over && annuls_in_order(ledger, postings, references))
    }),
    annulling("asks whether open rows are in use", |ledger, postings, references| {
        let in_use = |reference: &u32| {
            let row = row_named(ledger, *reference);
            row.is_some_and(|row| {
                is_open(row.get(ledger, STATUS))
                    && ledger[row.profile(AVAILABLE)] != ledger[row.profile(GRANTED)]
            })
        };
        let any_in_use = references.iter().any(in_use);
        u32::from(!any_in_use && annuls_in_order(ledger, postings, references))
    }),
    // Words over 100,000.
    unwinding(
        "does not judge a word over 100,000 in order",
        Unwinding { passes: |_| false, ..UNWINDING },
    ),
    unwinding(
        "gives back to the available of rows that do not stand",
        Unwinding { takes_in: AVAILABLE, ..UNWINDING },
    ),
    unwinding(
        "judges a displaced word of 100,000 in order",
        Unwinding { passes: |mw| mw >= MAX_MW, ..UNWINDING },
    ),
    unwinding(
        "judges what each annulment alone adds to displaced",
        Unwinding { since: |left, _| left.gone.len() - 1, ..UNWINDING },
    ),
    unwinding(
        "takes what came back before a row went as displaced",
        Unwinding { since: |_, _| 0, ..UNWINDING },
    ),
    unwinding(
        "loses what comes back once a row went",
        Unwinding {
            since: |left, reference| match left.went(reference) {
                true => left.gone.len(),
                false => 0,
            },
            ..UNWINDING
        },
    ),
    // The words handed over.
    unwinding(
        "says no where nothing is named",
        Unwinding {
            grounds: |ledger, postings, references| match references {
                [] => Some(Obstacle::NoReference),
                _ => (UNWINDING.grounds)(ledger, postings, references),
            },
            ..UNWINDING
        },
    ),
    unwinding(
        "looks at the ledger where nothing is named",
        Unwinding {
            grounds: |ledger, postings, references| match references {
                [] => (!sound(ledger)).then_some(Obstacle::UnsoundLedger),
                _ => (UNWINDING.grounds)(ledger, postings, references),
            },
            ..UNWINDING
        },
    ),
    unwinding(
        "looks at the postings where nothing is named",
        Unwinding {
            grounds: |ledger, postings, references| match references {
                [] => (sound(ledger) && !postings_fit(postings, ledger[HOURS]))
                    .then_some(Obstacle::WrongPostings),
                _ => (UNWINDING.grounds)(ledger, postings, references),
            },
            ..UNWINDING
        },
    ),
    unwinding(
        "does not look at the postings of annulments",
        Unwinding {
            grounds: |ledger, postings, references| {
                (UNWINDING.grounds)(ledger, postings, references)
                    .filter(|&obstacle| obstacle != Obstacle::WrongPostings)
            },
            ..UNWINDING
        },
    ),
    unwinding(
        "looks at the length of the postings alone",
        Unwinding {
            grounds: |ledger, postings, references| {
                (UNWINDING.grounds)(ledger, postings, references).filter(|&obstacle| {
                    obstacle != Obstacle::WrongPostings
                        || postings.len() != posting_words(ledger[HOURS])
                })
            },
            ..UNWINDING
        },
    ),
    unwinding(
        "looks at the words of the postings alone",
        Unwinding {
            grounds: |ledger, postings, references| {
                (UNWINDING.grounds)(ledger, postings, references).filter(|&obstacle| {
                    obstacle != Obstacle::WrongPostings || postings.iter().any(|&mw| mw > MAX_MW)
                })
            },
            ..UNWINDING
        },
    ),
    unwinding(
        "does not look at the head's last word",
        Unwinding {
            grounds: |ledger, postings, references| {
                let mut mended = ledger.to_vec();
                if let Some(word) = mended.get_mut(HEAD_ZERO) {
                    *word = 0;
                }
                (UNWINDING.grounds)(&mended, postings, references)
            },
            ..UNWINDING
        },
    ),
    unwinding(
        "does not look at requested words of annulments",
        Unwinding {
            grounds: |ledger, postings, references| {
                let mut mended = ledger.to_vec();
                if ledger.len() >= HEAD_WORDS {
                    bring_down(&mut mended, REQUESTED);
                }
                (UNWINDING.grounds)(&mended, postings, references)
            },
            ..UNWINDING
        },
    ),
    // Who annuls, what is written and what is answered.
    annulling("annuls by the provider", |ledger, postings, references| {
        let by = |ledger: &[u32], _| ledger[PROVIDER];
        all_accepted(&annulled_by(ledger, postings, references, by).1)
    }),
    annulling("annuls by the customer", |ledger, postings, references| {
        let by = |ledger: &[u32], row: Row| row.get(ledger, CUSTOMER);
        all_accepted(&annulled_by(ledger, postings, references, by).1)
    }),
    annulling("annuls by the seller of the first row", |ledger, postings, references| {
        let first = row_named(ledger, references[0]).map_or(0, |row| row.get(ledger, SELLER));
        all_accepted(&annulled_by(ledger, postings, references, |_, _| first).1)
    }),
    annulling("unwinds rows of one seller alone", |ledger, postings, references| {
        let mut sellers: Vec<_> = references
            .iter()
            .map(|&reference| row_named(ledger, reference).map(|row| row.get(ledger, SELLER)))
            .collect();
        sellers.dedup();
        u32::from(sellers.len() == 1 && annuls_in_order(ledger, postings, references))
    }),
    annulling("passes over what is refused", |ledger, postings, references| {
        let (_, answers) = annulled(ledger, postings, references);
        all_accepted(&answers[answers.len() - 1..])
    }),
    annulling("says yes where one is accepted", |ledger, postings, references| {
        let (_, answers) = annulled(ledger, postings, references);
        u32::from(answers.iter().any(|answer| answer.number == 0))
    }),
    annulling("passes over a 22", |ledger, postings, references| {
        let (_, answers) = annulled(ledger, postings, references);
        u32::from(answers.iter().all(|answer| matches!(answer.number, 0 | OVER_POSTING)))
    }),
    annulling("says yes to every order", |_, _, _| 1),
    annulling("says no to every order", |_, _, _| 0),
    annulling(
        "says no where a row goes after the one it came from",
        |ledger, postings, references| {
            let late = |place: usize| {
                let row = row_named(ledger, references[place]);
                row.is_some_and(|row| references[..place].contains(&row.get(ledger, RELATED)))
            };
            let any_late = (0..references.len()).any(late);
            u32::from(!any_late && annuls_in_order(ledger, postings, references))
        },
    ),
    annulling("asks only that rows go after what came from them", |ledger, _, references| {
        let taken: Vec<_> =
            used_rows(ledger).into_iter().map(|row| (reference_of(row), row)).collect();
        let waits = |place: usize| {
            taken.iter().any(|&(other, row)| {
                row.get(ledger, RELATED) == references[place]
                    && is_confirmed(ledger, row)
                    && !references[..place].contains(&other)
            })
        };
        let fits = |place: usize| {
            let named = row_named(ledger, references[place]);
            named.is_some_and(|row| status(ledger, row).is_none())
                && !references[..place].contains(&references[place])
                && !waits(place)
        };
        u32::from((0..references.len()).all(fits))
    }),
    annulling("displaces rows instead of annulling them", |ledger, postings, references| {
        let (mut ledger, mut postings) = (ledger.to_vec(), postings.to_vec());
        let goes = |reference: &u32| {
            let Some(action) = annulment(&ledger, *reference) else { return false };
            let confirmed = is_confirmed(&ledger, Row::of(&ledger, *reference));
            let status = if confirmed { DISPLACED } else { ANNULLED };
            let action = Action { status, ..action };
            act(&mut ledger, &mut postings, &[], &action).number == 0
        };
        u32::from(references.iter().all(goes))
    }),
    annulling("carries the annulments out", |ledger, postings, references| {
        let answer = Model.annuls_in_order(ledger, postings, references);
        if answer == 1 {
            let (left, _) = annulled(ledger, postings, references);
            ledger.copy_from_slice(&left);
        }
        answer
    }),
    annulling("leaves the rows annulled before a refusal", |ledger, postings, references| {
        let (_, answers) = annulled(ledger, postings, references);
        let accepted = answers.iter().take_while(|answer| answer.number == 0).count();
        if accepted < answers.len() {
            let (left, _) = annulled(ledger, postings, &references[..accepted]);
            ledger.copy_from_slice(&left);
        }
        all_accepted(&answers)
    }),
    annulling("puts back all but what is displaced", |ledger, postings, references| {
        let (left, answers) = annulled(ledger, postings, references);
        for row in used_rows(&left) {
            let displaced = row.profile(DISPLACED_MW);
            ledger[displaced.clone()].copy_from_slice(&left[displaced]);
        }
        all_accepted(&answers)
    }),
    annulling("writes a posting where the order is accepted", |ledger, postings, references| {
        let answer = Model.annuls_in_order(ledger, postings, references);
        if answer == 1 {
            postings[0] = if postings[0] == MAX_MW { 0 } else { MAX_MW };
        }
        answer
    }),
    annulling("answers how many are accepted", |ledger, postings, references| {
        let (_, answers) = annulled(ledger, postings, references);
        answers.iter().filter(|answer| answer.number == 0).count() as u32
    }),
    annulling("answers the number of the refusal", |ledger, postings, references| {
        let (_, answers) = annulled(ledger, postings, references);
        let refused = answers.iter().find(|answer| answer.number != 0);
        refused.map_or(0, |answer| answer.number)
    }),
    annulling("answers a refusal's number for no", |ledger, postings, references| {
        let (_, answers) = annulled(ledger, postings, references);
        let refused = answers.iter().find(|answer| answer.number != 0);
        refused.map_or(1, |answer| answer.number)
    }),
    // The batch and the other calls.
    calling(
        "posts only after the list",
        Fault::Batch(|ledger, postings, words, actions, answers| {
            if answers.len() < actions.len() {
                return 17;
            }
            let before = postings.to_vec();
            for (action, answer) in actions.iter().zip(answers) {
                let mut anew = before.clone();
                *answer = act(ledger, &mut anew, words, action);
                for (at, word) in anew.into_iter().enumerate() {
                    if word != before[at] {
                        postings[at] = word;
                    }
                }
            }
            0
        }),
    ),
    calling(
        "looks at the postings of an empty list",
        Fault::Batch(|ledger, postings, words, actions, answers| {
            let fit = ledger.len() < 8 || postings_fit(postings, ledger[HOURS].min(MAX_HOURS));
            if actions.is_empty() && !fit {
                return BAD_LEDGER;
            }
            Model.batch(ledger, postings, words, actions, answers)
        }),
    ),
    calling(
        "looks at the postings before the places",
        Fault::Batch(|ledger, postings, words, actions, answers| {
            let fit = ledger.len() < 8 || postings_fit(postings, ledger[HOURS].min(MAX_HOURS));
            if answers.len() < actions.len() && !fit {
                return BAD_LEDGER;
            }
            Model.batch(ledger, postings, words, actions, answers)
        }),
    ),
    calling(
        "writes a spare answer place",
        Fault::Batch(|ledger, postings, words, actions, answers| {
            let number = Model.batch(ledger, postings, words, actions, answers);
            if let Some(spare) = answers.get_mut(actions.len()) {
                *spare = Answer::default();
            }
            number
        }),
    ),
    calling(
        "does what fits when places are too few",
        Fault::Batch(|ledger, postings, words, actions, answers| {
            let fits = actions.len().min(answers.len());
            Model.batch(ledger, postings, words, &actions[..fits], answers);
            if fits < actions.len() {
                17
            } else {
                0
            }
        }),
    ),
    calling(
        "gives 17 for an empty list",
        Fault::Batch(|ledger, postings, words, actions, answers| {
            if actions.is_empty() {
                return 17;
            }
            Model.batch(ledger, postings, words, actions, answers)
        }),
    ),
    calling(
        "ends the list at the first refusal",
        Fault::Batch(|ledger, postings, words, actions, answers| {
            if answers.len() < actions.len() {
                return 17;
            }
            let mut stopped = None;
            for (action, answer) in actions.iter().zip(answers) {
                *answer = stopped.unwrap_or_else(|| act(ledger, postings, words, action));
                if answer.number != 0 {
                    stopped = Some(*answer);
                }
            }
            0
        }),
    ),
    calling(
        "creates over old rows",
        Fault::Create(|ledger, numbers| {
            let old = ledger.last().copied();
            let number = Model.create(ledger, numbers);
            if let (0, Some(old)) = (number, old) {
                *ledger.last_mut().expect("not empty") = old;
            }
            number
        }),
    ),
    calling(
        "creates rows of four profiles",
        Fault::Create(|ledger, numbers| {
            let [rows, hours, ..] = numbers;
            if !fits_four(ledger.len(), rows, hours) {
                return Model.create(ledger, numbers);
            }
            let mut five = vec![0; ledger_words(rows, hours)];
            let number = Model.create(&mut five, numbers);
            if number == 0 {
                ledger.copy_from_slice(&laid_out(&five, PROFILES, PROFILES - 1));
            }
            number
        }),
    ),
    calling(
        "creates past the last hour",
        Fault::Create(|ledger, [rows, hours, provider, window, base]| {
            let number = Model.create(ledger, [rows, hours, provider, window, base]);
            if number != 0 && base == (END_HOUR + 1).saturating_sub(hours) {
                let number = Model.create(ledger, [rows, hours, provider, window, base - 1]);
                if number == 0 {
                    ledger[BASE] = base;
                }
                return number;
            }
            number
        }),
    ),
    calling(
        "charges a half down",
        Fault::Charge(|ledger, reference| match Model.charge(ledger, reference) {
            (0, _) => {
                let row = Row::of(ledger, reference);
                let mwh: u64 = ledger[row.profile(GRANTED)].iter().map(|&mw| u64::from(mw)).sum();
                (0, (mwh * u64::from(row.get(ledger, BID)) + 11) / 24)
            }
            refused => refused,
        }),
    ),
    calling(
        "charges in 32 bits",
        Fault::Charge(|ledger, reference| {
            let (number, cents) = Model.charge(ledger, reference);
            (number, u64::from(cents as u32))
        }),
    ),
    calling(
        "charges what is available",
        Fault::Charge(|ledger, reference| match Model.charge(ledger, reference) {
            (0, _) => {
                let row = Row::of(ledger, reference);
                let mwh: u64 = ledger[row.profile(AVAILABLE)].iter().map(|&mw| u64::from(mw)).sum();
                (0, (mwh * u64::from(row.get(ledger, BID)) + 12) / 24)
            }
            refused => refused,
        }),
    ),
    calling(
        "charges less for what was reduced",
        Fault::Charge(|ledger, reference| match Model.charge(ledger, reference) {
            (0, _) => {
                let row = Row::of(ledger, reference);
                let hours = row.profile(GRANTED).zip(row.profile(REDUCED_MW));
                let mwh: u64 = hours
                    .map(|(granted, reduced)| ledger[granted].saturating_sub(ledger[reduced]))
                    .map(u64::from)
                    .sum();
                (0, (mwh * u64::from(row.get(ledger, BID)) + 12) / 24)
            }
            refused => refused,
        }),
    ),
    calling(
        "shows requested always",
        Fault::Profile(|ledger, reference, out| {
            let hours = Model.profile_in_force(ledger, reference, out);
            if hours > 0 && hours <= out.len() {
                let row = Row::of(ledger, reference);
                out[..hours].copy_from_slice(&ledger[row.span(ledger, REQUESTED)]);
            }
            hours
        }),
    ),
    calling(
        "shows what fits of a profile",
        Fault::Profile(|ledger, reference, out| {
            let profile = luddrisa_model::profile_in_force(ledger, reference);
            let fits = profile.len().min(out.len());
            out[..fits].copy_from_slice(&profile[..fits]);
            profile.len()
        }),
    ),
    calling(
        "reads second 60",
        Fault::ReadStamp(|bytes| match Model.read_stamp(bytes) {
            (18, _) if bytes.len() == 16 && bytes[12..14] == *b"60" => {
                let mut other = bytes.to_vec();
                other[12..14].copy_from_slice(b"59");
                let (number, second) = Model.read_stamp(&other);
                (number, if number == 0 { second + 1 } else { 0 })
            }
            read => read,
        }),
    ),
    calling(
        "reads small zone letters",
        Fault::ReadStamp(|bytes| Model.read_stamp(&bytes.to_ascii_uppercase())),
    ),
    calling(
        "reads past the last second",
        Fault::ReadStamp(|bytes| match Model.read_stamp(bytes) {
            (18, _) if bytes.len() == 16 && bytes[..8] == *b"20991231" => {
                let mut other = bytes.to_vec();
                other[7] = b'0';
                let (number, second) = Model.read_stamp(&other);
                (number, if number == 0 { second + 86_400 } else { 0 })
            }
            read => read,
        }),
    ),
    comparing("compares stamps as bytes", |first, second| ordered(first, second, <[u8]>::to_vec)),
    comparing("compares stamps in local time", |first, second| {
        ordered(first, second, |bytes| bytes[..14].to_vec())
    }),
    comparing("compares zones before seconds", |first, second| {
        ordered(first, second, |bytes| (zone_named(bytes), second_of(bytes)))
    }),
    comparing("takes stamps for the same in one zone only", |first, second| {
        ordered(first, second, |bytes| (second_of(bytes), zone_named(bytes)))
    }),
    comparing("compares daylight time as standard time", |first, second| {
        ordered(first, second, |bytes| {
            let daylight = matches!(zone_named(bytes), Some(2 | 4 | 6 | 8));
            second_of(bytes) + if daylight { 3_600 } else { 0 }
        })
    }),
    comparing("compares stamps to the minute", |first, second| {
        ordered(first, second, |bytes| second_of(bytes) / 60)
    }),
    comparing("compares seconds as signed numbers", |first, second| {
        ordered(first, second, |bytes| second_of(bytes) as i32)
    }),
    comparing("exchanges earlier and later", |first, second| {
        ordered(first, second, |bytes| Reverse(second_of(bytes)))
    }),
    comparing("gives 0 for the same and 1 for earlier", |first, second| {
        match Model.compare_stamps(first, second) {
            (0, EARLIER) => (0, SAME),
            (0, SAME) => (0, EARLIER),
            compared => compared,
        }
    }),
    comparing("refuses to compare only where both stamps are refused", |first, second| {
        refused_where(first, second, |refused| refused == [true, true])
    }),
    comparing("refuses to compare by the first stamp alone", |first, second| {
        refused_where(first, second, |refused| refused[0])
    }),
    comparing("refuses to compare by the second stamp alone", |first, second| {
        refused_where(first, second, |refused| refused[1])
    }),
    comparing("keeps the order of stamps that it refuses to compare", |first, second| {
        refused_order(first, second, |first, second| {
            order_number(second_of(first).cmp(&second_of(second)))
        })
    }),
    comparing("leaves the order unwritten where it refuses to compare", |first, second| {
        refused_order(first, second, |_, _| u32::MAX)
    }),
    comparing("does not read stamps of the same bytes", |first, second| {
        if first == second {
            return (0, SAME);
        }
        Model.compare_stamps(first, second)
    }),
    comparing("compares stamps past the last second", |first, second| {
        match (second_or_past(first), second_or_past(second)) {
            (Some(first), Some(second)) => (0, order_number(first.cmp(&second))),
            _ => (NOT_A_STAMP, 0),
        }
    }),
    comparing("compares the first 16 bytes of a longer slice", |first, second| {
        let [first, second] = [first, second].map(|bytes| &bytes[..bytes.len().min(16)]);
        Model.compare_stamps(first, second)
    }),
    calling(
        "writes before 2000 as 2000",
        Fault::WriteStamp(|bytes, second, zone| {
            let behind = HOURS_BEHIND.get(zone as usize).map_or(0, |hours| hours * 3_600);
            Model.write_stamp(bytes, second.max(behind), zone)
        }),
    ),
    calling(
        "writes into a longer slice",
        Fault::WriteStamp(|bytes, second, zone| {
            let len = bytes.len().min(16);
            Model.write_stamp(&mut bytes[..len], second, zone)
        }),
    ),
];
