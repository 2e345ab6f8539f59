//! The library's times, side by side with the model's and with a plain loop.
//!
//! Every ratio is taken in one run: both sides in turn, round by round, over
//! warmed buffers. Times are medians of the rounds, and the ratio is the median
//! of the rounds' own ratios, so that a slow spell strikes both sides alike.
//! Prints Markdown tables.

mod annulments;
mod mixed;
mod opening;

use std::cell::RefCell;
use std::hint::black_box;
use std::time::Instant;

use luddrisa::{calls, Action, Answer, Contest, Flags, ProfileAt, Profiles, RequestType, Status};
use luddrisa_model as model;
use luddrisa_tests::converted::action_to_model;

const PROVIDER: u32 = 1;
const HOLDER: u32 = 10;

fn median(mut times: Vec<f64>) -> f64 {
    times.sort_by(f64::total_cmp);
    times[times.len() / 2]
}

fn seconds(work: impl FnOnce()) -> f64 {
    let start = Instant::now();
    work();
    start.elapsed().as_secs_f64()
}

/// The times of two sides, round by round.
#[derive(Default)]
struct Rounds {
    library: Vec<f64>,
    other: Vec<f64>,
}

impl Rounds {
    /// Another round of both; neither always goes first.
    fn add(&mut self, mut library: impl FnMut() -> f64, mut other: impl FnMut() -> f64) {
        if self.library.len().is_multiple_of(2) {
            self.library.push(library());
            self.other.push(other());
        } else {
            self.other.push(other());
            self.library.push(library());
        }
    }

    fn library(&self) -> f64 {
        median(self.library.clone())
    }

    fn other(&self) -> f64 {
        median(self.other.clone())
    }

    fn ratio(&self) -> f64 {
        median(
            self.library.iter().zip(&self.other).map(|(library, other)| library / other).collect(),
        )
    }
}

/// Two pieces of work on the same data, done in turn after one of each to warm up.
fn side_by_side<S>(
    count: usize,
    data: &mut S,
    left: impl Fn(&mut S),
    right: impl Fn(&mut S),
) -> Rounds {
    left(data);
    right(data);
    let data = RefCell::new(data);
    let mut rounds = Rounds::default();
    for _ in 0..count {
        rounds.add(
            || seconds(|| left(&mut data.borrow_mut())),
            || seconds(|| right(&mut data.borrow_mut())),
        );
    }
    rounds
}

/// A ledger and its postings.
#[derive(Clone)]
struct Desk {
    ledger: Vec<u32>,
    postings: Vec<u32>,
}

impl Desk {
    /// With no rows used and nothing posted.
    fn fresh(rows: u32, hours: u32) -> Desk {
        let mut ledger = vec![0; model::ledger_words(rows, hours)];
        assert_eq!(calls::create(&mut ledger, rows, hours, PROVIDER, 3_600, 0), 0);
        Desk { ledger, postings: vec![0; model::posting_words(hours)] }
    }

    fn copy_from(&mut self, other: &Desk) {
        self.ledger.copy_from_slice(&other.ledger);
        self.postings.copy_from_slice(&other.postings);
    }

    /// One action by the library, asserted to give a number.
    fn one(&mut self, words: &[u32], action: &Action, number: u32) {
        let mut answer = [Answer::default()];
        let one = std::slice::from_ref(action);
        calls::batch(&mut self.ledger, &mut self.postings, words, one, &mut answer);
        assert_eq!(answer[0].number, number);
    }

    /// A batch by the library, asserted to be accepted throughout.
    fn all(&mut self, words: &[u32], actions: &[Action], answers: &mut [Answer]) {
        let Desk { ledger, postings } = self;
        assert_eq!(calls::batch(ledger, postings, words, actions, answers), 0);
        assert!(answers.iter().all(Answer::is_accepted));
    }

    /// The same with answers that nobody reads.
    fn set_up(&mut self, words: &[u32], actions: &[Action]) {
        self.all(words, actions, &mut vec![Answer::default(); actions.len()]);
    }
}

/// A row of the holder over all hours that is confirmed when it is accepted.
fn preconfirmed(reqtype: RequestType, path: u32, profile: ProfileAt) -> Action {
    Action::submit(HOLDER, reqtype, PROVIDER)
        .path(path)
        .span(0, profile.length)
        .flags(Flags::PRECONFIRMED)
        .profile(profile)
}

fn accepted(reference: u32) -> Action {
    Action::seller_status(PROVIDER, reference, Status::ACCEPTED)
}

/// The same megawatts in all hours, one such profile after the other.
fn level_profiles<const N: usize>(levels: [u32; N], hours: u32) -> (Vec<u32>, [ProfileAt; N]) {
    let mut profiles = Profiles::new();
    let at = levels.map(|mw| profiles.add(&vec![mw; hours as usize]));
    (profiles.words().to_vec(), at)
}

/// A ledger whose rows are all confirmed originals over all hours, 16 to a path.
fn full_ledger(rows: u32, hours: u32) -> Desk {
    ledger_with_first(hours, rows, hours)
}

/// The same, but so many hours for the first row.
fn ledger_with_first(first: u32, rows: u32, hours: u32) -> Desk {
    let (words, [carries, original]) = level_profiles([100_000, 6_000], hours);
    let mut actions: Vec<_> =
        (1..=64).map(|path| Action::post(PROVIDER, path).span(0, hours).profile(carries)).collect();
    for reference in 1..=rows {
        let path = (reference - 1) % 64 + 1;
        let length = if reference == 1 { first } else { hours };
        let profile = ProfileAt { length, ..original };
        actions.push(preconfirmed(RequestType::ORIGINAL_FIRM, path, profile));
        actions.push(accepted(reference));
    }
    let mut desk = Desk::fresh(rows, hours);
    desk.set_up(&words, &actions);
    desk
}

/// Reductions by 1 MW in one hour, row after row.
fn reductions(count: u32, rows: u32, hours: u32) -> (Vec<u32>, Vec<Action>) {
    let mut profile = vec![0; hours as usize];
    profile[hours as usize / 2] = 1;
    let at = ProfileAt { offset: 0, length: hours };
    let list = (0..count).map(|n| Action::reduce(PROVIDER, n % rows + 1, at)).collect();
    (profile, list)
}

/// An action of no kind: answered by 2 once soundness is looked at.
fn unknown() -> Action {
    Action { kind: 9, actor: PROVIDER, ..Action::default() }
}

fn time(seconds: f64) -> String {
    match seconds {
        s if s >= 1.0 => format!("{s:.2} s"),
        s if s >= 1e-3 => format!("{:.2} ms", s * 1e3),
        s if s >= 1e-6 => format!("{:.2} µs", s * 1e6),
        s => format!("{:.1} ns", s * 1e9),
    }
}

/// A line of the table; each round's library side did so many at once.
fn line(name: &str, rounds: &Rounds, per: f64, against: &str, goal: f64) {
    let ratio = rounds.ratio() / per;
    let met = if ratio <= goal { "yes" } else { "NO" };
    println!(
        "| {name} | {} | {against} | {} | {ratio:.4} | {goal} | {met} |",
        time(rounds.library() / per),
        time(rounds.other())
    );
}

/// Lines of a table of growth: what each is about, both sides' times, each also against
/// that of the line before, and the ratio of the two.
fn growth_lines<const N: usize>(lines: [(String, Rounds); N]) {
    let mut last: Option<[f64; 2]> = None;
    for (name, rounds) in lines {
        let times = [rounds.library(), rounds.other()];
        let growth = |side: usize| {
            last.map_or(String::new(), |last| format!("× {:.2}", times[side] / last[side]))
        };
        println!(
            "| {name} | {} | {} | {} | {} | {:.2} |",
            time(times[0]),
            growth(0),
            time(times[1]),
            growth(1),
            rounds.ratio()
        );
        last = Some(times);
    }
}

/// (a) Soundness of ledger and postings against a loop that takes the maximum of
/// the same words.
fn soundness() {
    let rounds = side_by_side(
        61,
        &mut full_ledger(1_024, 744),
        |desk| desk.one(&[], &unknown(), 2),
        |desk| {
            for (words, expected) in [(&desk.ledger, 6_000), (&desk.postings, 100_000)] {
                let mut most = 0;
                for &word in black_box(&words[..]) {
                    most = most.max(word);
                }
                assert_eq!(black_box(most), expected);
            }
        },
    );
    line("(a) soundness, R 1,024, H 744", &rounds, 1.0, "maximum of the same words", 1.5);
}

/// (b) One reduction on that ledger against the model.
fn reduction() {
    let (profile, list) = reductions(1, 1, 744);
    let action = action_to_model(&list[0]);
    let rounds = side_by_side(
        61,
        &mut full_ledger(1_024, 744),
        |desk| desk.one(&profile, &list[0], 0),
        |Desk { ledger, postings }| {
            assert_eq!(model::act(ledger, postings, &profile, &action).number, 0);
        },
    );
    line("(b) one reduction, R 1,024, H 744", &rounds, 1.0, "the model", 1.2);
}

/// (c) A batch of 1,000 reductions, per action, against one by itself.
fn batch_of_reductions() {
    let (profile, list) = reductions(1_000, 1_024, 744);
    let rounds = side_by_side(
        41,
        &mut (full_ledger(1_024, 744), vec![Answer::default(); list.len()]),
        |(desk, answers)| desk.all(&profile, &list, answers),
        |(desk, _)| desk.one(&profile, &list[0], 0),
    );
    let name = "(c) per action of a batch of 1,000 reductions";
    line(name, &rounds, 1_000.0, "one reduction by itself", 0.01);
}

/// (d) 1,000,000 mixed actions by batches of 100 against the model: days of 400
/// actions, each side's day timed by itself.
fn mixed_actions() {
    let mixed = mixed::mixed();
    let for_model: Vec<_> = mixed.actions.iter().map(action_to_model).collect();
    let days = 1_000_000 / mixed.actions.len();
    let fresh = Desk::fresh(mixed::ROWS, mixed::HOURS);
    let mut desk = fresh.clone();
    let mut copy = fresh.clone();
    let mut answers = vec![Answer::default(); 100];
    let mut model_answers = vec![model::Answer::default(); 100];

    // The fresh ledger each morning is not timed.
    let mut rounds = Rounds::default();
    for _ in 0..days {
        desk.copy_from(&fresh);
        copy.copy_from(&fresh);
        let words = &mixed.profiles;
        rounds.add(
            || {
                let Desk { ledger, postings } = &mut desk;
                seconds(|| {
                    for batch in mixed.actions.chunks(100) {
                        calls::batch(ledger, postings, words, batch, &mut answers);
                    }
                })
            },
            || {
                let Desk { ledger, postings } = &mut copy;
                seconds(|| {
                    for batch in for_model.chunks(100) {
                        model::batch(ledger, postings, words, batch, &mut model_answers);
                    }
                })
            },
        );
        assert!(desk.ledger == copy.ledger && desk.postings == copy.postings, "the days agree");
    }
    line("(d) 400 of 1,000,000 mixed actions, R 64, H 24, by 100", &rounds, 1.0, "the model", 1.2);
}

/// A full ledger of 1,024 rows over all 744 hours on two paths: so many originals
/// on path 1, and non-firm redirects of them onto path 2, which are in the use of
/// both paths. All are confirmed but the last 100, whose acceptances are the list.
fn on_two_paths(originals: u32) -> (Desk, Vec<Action>) {
    let levels = [100_000, 100_000 / originals, 50_000 / originals / 1_024];
    let (words, [carries, original, redirect]) = level_profiles(levels.map(|mw| mw.max(1)), 744);
    let mut actions: Vec<_> =
        [1, 2].map(|path| Action::post(PROVIDER, path).span(0, 744).profile(carries)).to_vec();
    for reference in 1..=1_024 {
        actions.push(if reference <= originals {
            preconfirmed(RequestType::ORIGINAL_FIRM, 1, original)
        } else {
            let related = (reference - 1) % originals + 1;
            preconfirmed(RequestType::REDIRECT_NON_FIRM, 2, redirect).related(related)
        });
        if reference <= 924 {
            actions.push(accepted(reference));
        }
    }
    let mut desk = Desk::fresh(1_024, 744);
    desk.set_up(&words, &actions);
    (desk, (925..=1_024).map(accepted).collect())
}

/// (g) Confirmations in a list of 100, per action, against one soundness test of
/// the same ledger: each walks the rows of two paths. The list's own soundness test
/// is in it, a hundredth for each. In the second ledger a single original leaves
/// all other rows in the use of both paths, the most that there is to walk.
fn confirmations() {
    for (originals, which) in [(512, "half of the rows"), (1, "all rows but one")] {
        let (start, list) = on_two_paths(originals);
        let desk = RefCell::new(start.clone());
        let mut answers = vec![Answer::default(); list.len()];
        let mut rounds = Rounds::default();
        for _ in 0..31 {
            // The ledger before the list is put back outside the time.
            desk.borrow_mut().copy_from(&start);
            rounds.add(
                || seconds(|| desk.borrow_mut().all(&[], &list, &mut answers)),
                || seconds(|| desk.borrow_mut().one(&[], &unknown(), 2)),
            );
        }
        let name = format!("(g) confirming, {which} on both paths");
        line(&name, &rounds, 100.0, "one soundness test", 0.5);
    }
}

/// (i) A contest for a row of one hour against the model: every longer term is named, and
/// all but the last are matched, which loses the row.
fn lost_contest() {
    let start = ledger_with_first(1, 1_024, 744);
    let (actor, reference, challenger, holder) = (PROVIDER, 1, 744, 743);
    let contest = Contest { actor, reference, challenger, holder };
    let for_model = model::Contest { actor, reference, challenger, holder };
    let moves: Vec<u32> = (2..=744).collect();
    let replies: Vec<u32> = moves.iter().map(|&term| u32::from(term < 744)).collect();
    let lost = Answer { number: 0, reference, before: 13, after: 15, moved: 6_000 };
    let mut desk = start.clone();
    let mut copy = start.clone();
    let mut rounds = Rounds::default();
    for _ in 0..31 {
        // The row is put back outside the time.
        desk.copy_from(&start);
        copy.copy_from(&start);
        rounds.add(
            || {
                let Desk { ledger, postings } = &mut desk;
                seconds(|| {
                    assert_eq!(calls::contest(ledger, postings, &contest, &moves, &replies), lost);
                })
            },
            || {
                let Desk { ledger, postings } = &mut copy;
                seconds(|| {
                    let answer = model::contest(ledger, postings, &for_model, &moves, &replies);
                    assert_eq!(answer.after, lost.after);
                })
            },
        );
    }
    line("(i) a contest lost at its 743rd term, R 1,024, H 744", &rounds, 1.0, "the model", 1.2);
}

/// (e) Time per action as H doubles and as rows double.
fn growth() {
    println!("\n| (e) rows | hours | one by itself | growth | per action of 1,000 | growth |");
    println!("|---|---|---|---|---|---|");
    let by_hours = [(256, 93), (256, 186), (256, 372), (256, 744)];
    let by_rows = [(128, 186), (256, 186), (512, 186), (1_024, 186)];
    for sizes in [by_hours, by_rows] {
        let mut last = None;
        for (rows, hours) in sizes {
            let (profile, list) = reductions(1_000, rows, hours);
            let rounds = side_by_side(
                41,
                &mut (full_ledger(rows, hours), vec![Answer::default(); list.len()]),
                |(desk, _)| desk.one(&profile, &list[0], 0),
                |(desk, answers)| desk.all(&profile, &list, answers),
            );
            let (alone, each) = (rounds.library(), rounds.other() / 1_000.0);
            let growth = last.map_or((String::new(), String::new()), |(a, e): (f64, f64)| {
                (format!("× {:.2}", alone / a), format!("× {:.2}", each / e))
            });
            println!(
                "| {rows} | {hours} | {} | {} | {} | {} |",
                time(alone),
                growth.0,
                time(each),
                growth.1
            );
            last = Some((alone, each));
        }
    }
}

/// A stamp of the hundred years, by its place among 1,000.
fn stamp_at(place: u32) -> (u32, u32) {
    (40_000 + place * 3_155_000, place % 9)
}

fn stamp_of((second, zone): (u32, u32)) -> [u8; 16] {
    let mut bytes = [0; 16];
    assert_eq!(calls::write_stamp(&mut bytes, second, zone), 0);
    bytes
}

/// (f) Stamps written, read and compared in different zones, 1,000 in a round, against the
/// model. No goal is set.
fn stamps() {
    let stamps: Vec<_> = (0..1_000).map(stamp_at).map(stamp_of).collect();
    let written = side_by_side(
        61,
        &mut [0; 16],
        |bytes| {
            for (second, zone) in (0..1_000).map(stamp_at) {
                assert_eq!(calls::write_stamp(bytes, black_box(second), zone), 0);
            }
        },
        |bytes| {
            for (second, zone) in (0..1_000).map(stamp_at) {
                assert_eq!(model::write_stamp(bytes, black_box(second), zone), 0);
            }
        },
    );
    let read = side_by_side(
        61,
        &mut { stamps },
        |stamps| assert!(stamps.iter().all(|bytes| calls::read_stamp(black_box(bytes)).0 == 0)),
        |stamps| assert!(stamps.iter().all(|bytes| model::read_stamp(black_box(bytes)).is_ok())),
    );
    // A second earlier, the same and a second later in turn.
    let pair_at = |place: u32| {
        let (second, zone) = stamp_at(place);
        let order = place % 3;
        let other = (second + model::SAME - order, (zone + 4) % 9);
        (stamp_of((second, zone)), stamp_of(other), order)
    };
    let compared = side_by_side(
        61,
        &mut (0..1_000).map(pair_at).collect::<Vec<_>>(),
        |pairs| {
            for (first, second, order) in pairs {
                let compared = calls::compare_stamps(black_box(first), black_box(second));
                assert_eq!(compared, (0, *order));
            }
        },
        |pairs| {
            for (first, second, order) in pairs {
                let compared = model::compare_stamps(black_box(first), black_box(second));
                assert_eq!(compared, Ok(*order));
            }
        },
    );
    println!("\n| (f) a stamp | library | the model | ratio |");
    println!("|---|---|---|---|");
    for (name, rounds) in [("written", written), ("read", read), ("compared", compared)] {
        let (library, other) = (rounds.library() / 1_000.0, rounds.other() / 1_000.0);
        println!("| {name} | {} | {} | {:.1} |", time(library), time(other), rounds.ratio());
    }
}

fn main() {
    println!("| what | library | against | time | ratio | at most | met |");
    println!("|---|---|---|---|---|---|---|");
    soundness();
    reduction();
    batch_of_reductions();
    mixed_actions();
    confirmations();
    opening::openings();
    lost_contest();
    annulments::unwinding();
    growth();
    opening::growth();
    annulments::growth();
    stamps();
}
