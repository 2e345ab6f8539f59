//! The library against the model, or without the archive the model against
//! itself; and in both cases the model against models with a planted fault.

use std::io::Write;
use std::time::Instant;

use luddrisa_model::{BAD_LEDGER, COUNTERED, PRECONFIRMED, UNBALANCED};
use luddrisa_tests::faults::{
    Faulty, CONTESTED_APART, FAULTS, JUDGED_APART, OPENED_APART, UNWOUND_APART, WITHDRAWN_APART,
};
use luddrisa_tests::plays::Ending;
use luddrisa_tests::reached::{listed_compared, FOUND, IN_ORDER};
use luddrisa_tests::rules::{Model, Rules};
use luddrisa_tests::run::{Difference, Run, UNWRITTEN};
use luddrisa_tests::unwound::Obstacle;
use luddrisa_tests::{annulments, batches, contests, dense, desks, edges, lists, openings, stamps};

#[cfg(feature = "archive")]
const SUBJECT: &dyn Rules = &luddrisa_tests::rules::Library;
#[cfg(not(feature = "archive"))]
const SUBJECT: &dyn Rules = &Model;

const SEED: u64 = 20_070_423;

/// Tells a difference, with its seed, before the test fails: straight to the
/// standard error, where it is seen even if a panic ends the whole program.
fn expect_agreement(outcome: Result<(), Difference>) {
    if let Err(difference) = &outcome {
        writeln!(std::io::stderr(), "{difference}").expect("standard error");
    }
    assert_eq!(outcome, Ok(()));
}

/// Every generator, so many times over.
fn everything(run: &mut Run, seed: u64, scale: u32) -> Result<(), Difference> {
    edges::creations(run)?;
    edges::sizes(run)?;
    lists::lists(run, seed, 15 * scale)?;
    dense::dense(run, seed, 100 * scale)?;
    edges::edges(run, seed, 2 * scale)?;
    edges::reductions(run)?;
    edges::withdrawals(run)?;
    batches::batches(run, seed, 4 * scale)?;
    stamps::stamps(run, seed, 200 * scale)?;
    openings::openings(run, seed, 10 * scale)?;
    openings::day_word_by_word(run)?;
    openings::every_length(run)?;
    openings::of_many_rows(run)?;
    all_contests(run, seed, scale)?;
    all_annulments(run, seed, scale)
}

/// The generators of annulments in order, so many times over.
fn all_annulments(run: &mut Run, seed: u64, scale: u32) -> Result<(), Difference> {
    annulments::annulments(run, seed, 15 * scale)
}

/// The generators of contests, so many times over.
fn all_contests(run: &mut Run, seed: u64, scale: u32) -> Result<(), Difference> {
    contests::contests(run, seed, 25 * scale)?;
    contests::every_term(run)
}

#[test]
fn all_agree_and_every_pair_is_reached() {
    let mut run = Run::new(SUBJECT);
    let start = Instant::now();
    let agree = everything(&mut run, SEED, 200).and_then(|()| dense::greatest(&mut run, SEED));
    let seconds = start.elapsed().as_secs_f64();
    println!(
        "{} actions, {} contests and {} orders of annulments in {seconds:.1} s\n{}",
        run.actions,
        run.contests,
        run.orders,
        run.reached.told()
    );
    expect_agreement(agree);
    expect_agreement(run.reached.check());
    assert!(run.actions >= 500_000, "only {} actions", run.actions);
    assert!(run.contests >= 100_000, "only {} contests", run.contests);
    assert!(run.orders >= 100_000, "only {} orders", run.orders);
}

/// The model's 22 is that of the ledger as the action would leave it.
#[test]
fn limits_judged_apart_agree_with_the_model() {
    expect_agreement(everything(&mut Run::new(&JUDGED_APART), SEED, 40));
}

/// Withdrawals judged a second time, by status and flags alone.
#[test]
fn withdrawals_judged_apart_agree_with_the_model() {
    expect_agreement(everything(&mut Run::new(&WITHDRAWN_APART), SEED, 16));
}

/// Opening worked out a second time, from what each row should still hold.
#[test]
fn openings_worked_out_apart_agree_with_the_model() {
    expect_agreement(everything(&mut Run::new(&OPENED_APART), SEED, 40));
}

/// Contests worked out a second time, by the earliest thing that ends them.
#[test]
fn contests_worked_out_apart_agree_with_the_model() {
    expect_agreement(all_contests(&mut Run::new(&CONTESTED_APART), SEED, 40));
}

/// Annulments worked out a second time, from the ledger as it was handed over.
#[test]
fn annulments_worked_out_apart_agree_with_the_model() {
    let mut run = Run::new(&UNWOUND_APART);
    expect_agreement(all_annulments(&mut run, SEED, 40));
    expect_agreement(annulments::every_list_of_the_day(&mut run));
}

/// Yes and no, for each reason at the first step and at a later one, in lists of many.
#[test]
fn annulments_come_to_each_step() {
    let mut run = Run::new(SUBJECT);
    let start = Instant::now();
    let agree = annulments::annulments(&mut run, SEED, 12_000)
        .and_then(|()| annulments::every_list_of_the_day(&mut run))
        .and_then(|()| annulments::of_many_rows(&mut run))
        .and_then(|()| annulments::greatest(&mut run));
    let seconds = start.elapsed().as_secs_f64();
    println!("{} orders in {seconds:.1} s\n{}", run.orders, run.reached.told());
    expect_agreement(agree);
    for obstacle in Obstacle::ALL {
        for &step in obstacle.steps() {
            let times = run.reached.times_stopped(obstacle, step);
            assert!(times >= 500, "{obstacle:?} {step:?} only {times} times");
        }
    }
    for met in IN_ORDER {
        let times = run.reached.times_in_order(met);
        assert!(times >= 150, "{met:?} only {times} times");
    }
}

/// What lists leave is unwound from the ends: nothing comes back to a row that went, no
/// displaced word passes 100,000, and only a firm redirect meets the posting. A row may go
/// before a redirect that came from it, but only where all of that was relinquished.
#[test]
fn what_lists_leave_is_unwound_from_its_ends() {
    use luddrisa_tests::reached::{InOrder::*, Receiver, MANY};
    let mut run = Run::new(SUBJECT);
    expect_agreement(annulments::along_lists(&mut run, SEED, 2_000));
    let stopped = |obstacle: Obstacle| -> u64 {
        obstacle.steps().iter().map(|&step| run.reached.times_stopped(obstacle, step)).sum()
    };
    let never = [Obstacle::UnsoundLedger, Obstacle::WrongPostings, Obstacle::OverBound];
    for obstacle in Obstacle::ALL {
        println!("{obstacle:?} × {}", stopped(obstacle));
        assert_eq!(stopped(obstacle) == 0, never.contains(&obstacle), "{obstacle:?}");
    }
    let redirects = [luddrisa_model::REDIRECT_FIRM].into();
    assert_eq!(run.reached.types_stopped(Obstacle::OverPosting), redirects);
    for met in [
        NothingOfNoLedger,
        BackTo(Receiver::Gone),
        BackTo(Receiver::Neither),
        Blocked(Obstacle::InUse),
        Blocked(Obstacle::OverBound),
    ] {
        assert_eq!(run.reached.times_in_order(met), 0, "{met:?}");
    }
    for (met, least) in [
        (Accepted(4), 500),
        (Accepted(MANY), 500),
        (Open, 5_000),
        (ReturnGivenUp, 5),
        (BackTo(Receiver::Confirmed), 1_000),
        (BackTo(Receiver::Displaced), 200),
        (Freed(Obstacle::InUse), 500),
        (InAnotherOrder(Obstacle::InUse), 50),
    ] {
        let times = run.reached.times_in_order(met);
        println!("{met:?} × {times}");
        assert!(times >= least, "{met:?} only {times} times");
    }
}

/// Each number and each ending, for rows of every type that can meet it.
#[test]
fn contests_come_to_each_ending() {
    let mut run = Run::new(SUBJECT);
    let start = Instant::now();
    let agree =
        contests::contests(&mut run, SEED, 6_000).and_then(|()| contests::greatest(&mut run));
    println!("in {:.1} s\n{}", start.elapsed().as_secs_f64(), run.reached.told());
    expect_agreement(agree);
    for ending in Ending::ALL {
        let times = run.reached.times_contested(ending);
        assert!(times >= 500, "{ending:?} only {times} times");
    }
}

/// By matching all that is named a holder keeps its row from a challenger that can go no
/// further than itself. One that can takes the row, whatever answers it gets within the
/// rules.
#[test]
fn who_can_go_further_has_the_row() {
    match contests::forced(&mut Run::new(SUBJECT), SEED, 4_000) {
        Err(difference) => expect_agreement(Err(difference)),
        Ok(forced) => {
            println!("{forced:?}");
            assert!(forced.kept >= 1_000 && forced.taken >= 1_000, "only {forced:?}");
        }
    }
}

/// On lists from fresh ledgers contests are lost, kept, left unfinished and refused, but no
/// displaced word passes 100,000.
#[test]
fn lists_hold_contests() {
    let mut run = Run::new(SUBJECT);
    expect_agreement(contests::lists(&mut run, SEED, 1_500));
    use Ending::*;
    let never = [UnsoundLedger, WrongPostings, LostOver];
    for ending in Ending::ALL {
        let times = run.reached.times_contested(ending);
        println!("{ending:?} × {times}");
        assert_eq!(times == 0, never.contains(&ending), "{ending:?} {times} times");
    }
    for (ending, least) in [(Lost, 1_000), (Kept, 500), (NoTerm, 500), (NoAnswer, 500)] {
        let times = run.reached.times_contested(ending);
        assert!(times >= least, "{ending:?} only {times} times");
    }
}

/// All three answers, and a 20 by the equation alone and by the tree alone.
#[test]
fn ledgers_open_with_each_number() {
    let mut run = Run::new(SUBJECT);
    let start = Instant::now();
    let agree =
        openings::openings(&mut run, SEED, 2_000).and_then(|()| openings::greatest(&mut run));
    println!("in {:.1} s\n{}", start.elapsed().as_secs_f64(), run.reached.told());
    expect_agreement(agree);
    for (number, least) in [(0, 20_000), (BAD_LEDGER, 20_000), (UNBALANCED, 20_000)] {
        let times = run.reached.times_opened(number);
        assert!(times >= least, "{number} only {times} times");
    }
    for found in FOUND {
        let times = run.reached.times_found(found);
        assert!(times >= 1_000, "{found:?} only {times} times");
    }
}

/// A day at the desk, a chain and a wide ledger of 1,024 rows, word by word.
#[test]
fn a_changed_word_is_seen_on_opening() {
    let mut run = Run::new(SUBJECT);
    expect_agreement(openings::day_word_by_word(&mut run));
    expect_agreement(openings::every_length(&mut run));
    expect_agreement(openings::of_many_rows(&mut run));
}

#[test]
fn planted_faults_are_caught() {
    // Without a fault the same seeds find nothing.
    assert_eq!(everything(&mut Run::new(&Model), SEED, 16), Ok(()));
    let mut missed = Vec::new();
    // Those of contests, of annulments in order and of comparing stamps are for their own
    // generators.
    let is_of_others = |faulty: &&Faulty| {
        faulty.is_of_contests() || faulty.is_of_annulments() || faulty.is_of_comparing()
    };
    for faulty in FAULTS.iter().filter(|faulty| !is_of_others(faulty)) {
        let mut run = Run::new(faulty);
        match everything(&mut run, SEED, 16) {
            Ok(()) => missed.push(faulty.name),
            Err(difference) => {
                let told: String = difference.chars().take(100).collect();
                println!("{}: {} actions, {told}", faulty.name, run.actions);
            }
        }
    }
    assert!(missed.is_empty(), "not caught: {missed:?}");
    assert!(FAULTS.len() > 432, "only {}", FAULTS.len());
}

/// No other generator is needed to find a fault in contests.
#[test]
fn contests_alone_catch_their_faults() {
    assert_eq!(all_contests(&mut Run::new(&Model), SEED, 16), Ok(()));
    let of_contests: Vec<_> = FAULTS.iter().filter(|faulty| faulty.is_of_contests()).collect();
    assert!(of_contests.len() > 80, "only {}", of_contests.len());
    let mut missed = Vec::new();
    for faulty in of_contests {
        let mut run = Run::new(faulty);
        match contests::contests(&mut run, SEED, 240) {
            Ok(()) => missed.push(faulty.name),
            Err(difference) => {
                let told: String = difference.chars().take(100).collect();
                println!("{}: {} contests, {told}", faulty.name, run.contests);
            }
        }
    }
    assert!(missed.is_empty(), "not caught: {missed:?}");
}

/// No other generator is needed to find a fault in annulments in order.
#[test]
fn annulments_alone_catch_their_faults() {
    let of_annulments: Vec<_> = FAULTS.iter().filter(|faulty| faulty.is_of_annulments()).collect();
    assert!(of_annulments.len() > 100, "only {}", of_annulments.len());
    let mut missed = Vec::new();
    for faulty in of_annulments {
        let mut run = Run::new(faulty);
        match annulments::annulments(&mut run, SEED, 400) {
            Ok(()) => missed.push(faulty.name),
            Err(difference) => {
                let told: String = difference.chars().take(100).collect();
                println!("{}: {} orders, {told}", faulty.name, run.orders);
            }
        }
    }
    assert!(missed.is_empty(), "not caught: {missed:?}");
}

/// No other generator is needed to find a fault in stamps.
#[test]
fn stamps_alone_catch_their_faults() {
    let stamps = |subject: &dyn Rules| stamps::stamps(&mut Run::new(subject), SEED, 400);
    assert_eq!(stamps(&Model), Ok(()));
    let of_stamps: Vec<_> = FAULTS.iter().filter(|faulty| faulty.is_of_stamps()).collect();
    assert!(of_stamps.len() > 20, "only {}", of_stamps.len());
    for faulty in of_stamps {
        let told = stamps(faulty);
        assert!(told.is_err(), "not caught: {}", faulty.name);
        println!("{}: {}", faulty.name, told.unwrap_err());
    }
}

/// The other way round earlier and later change places, and an accepted stamp is the same as
/// itself. These laws need no model; many another order keeps them too.
#[test]
fn comparing_keeps_its_laws() {
    let laws = |subject: &dyn Rules| stamps::laws_of(subject, SEED, 4_000);
    expect_agreement(laws(SUBJECT));
    let of_comparing = FAULTS.iter().filter(|faulty| faulty.is_of_comparing());
    let caught: Vec<_> =
        of_comparing.filter(|faulty| laws(*faulty).is_err()).map(|faulty| faulty.name).collect();
    assert_eq!(
        caught,
        [
            "gives 0 for the same and 1 for earlier",
            "refuses to compare by the first stamp alone",
            "refuses to compare by the second stamp alone",
            "keeps the order of stamps that it refuses to compare",
        ]
    );
}

/// Stamps of each zone, and, but for UT, past the last second; each order in one zone and in
/// two, also where the bytes have another; refused by either stamp and by both.
#[test]
fn comparisons_come_to_each_order() {
    let mut run = Run::new(SUBJECT);
    expect_agreement(stamps::stamps(&mut run, SEED, 8_000));
    for met in listed_compared() {
        let times = run.reached.times_compared(met);
        println!("{met:?} × {times}");
        assert!(times >= 500, "{met:?} only {times} times");
    }
}

/// The generator of openings needs no other to find a fault in them.
#[test]
fn openings_alone_catch_their_faults() {
    let openings = |subject: &dyn Rules| openings::openings(&mut Run::new(subject), SEED, 200);
    assert_eq!(openings(&Model), Ok(()));
    let of_opening: Vec<_> = FAULTS.iter().filter(|faulty| faulty.is_of_opening()).collect();
    assert!(of_opening.len() > 30, "only {}", of_opening.len());
    for faulty in of_opening {
        assert!(openings(faulty).is_err(), "not caught: {}", faulty.name);
    }
}

#[test]
fn the_balance_alone_catches_lost_megawatts() {
    let lists = |subject: &dyn Rules| {
        (SEED..SEED + 400).find_map(|seed| lists::balance_of(subject, seed).err())
    };
    expect_agreement(lists(SUBJECT).map_or(Ok(()), Err));
    let unbalanced: Vec<_> = unbalanced().filter(|faulty| !faulty.is_of_contests()).collect();
    assert!(unbalanced.len() >= 13);
    for faulty in unbalanced {
        assert!(lists(faulty).is_some(), "not caught: {}", faulty.name);
    }
}

fn unbalanced() -> impl Iterator<Item = &'static Faulty> {
    FAULTS.iter().filter(|faulty| faulty.unbalanced)
}

/// Over lists with contests: what a lost one does wrong, and what the tally is told wrong.
#[test]
fn the_balance_alone_catches_lost_contests() {
    let lists = |subject: &dyn Rules, feed: contests::Feed| {
        (SEED..SEED + 400).find_map(|seed| contests::balance_of(subject, seed, feed).err())
    };
    expect_agreement(lists(SUBJECT, contests::FEED).map_or(Ok(()), Err));
    let unbalanced: Vec<_> = unbalanced().filter(|faulty| faulty.is_of_contests()).collect();
    assert!(unbalanced.len() >= 8);
    for faulty in unbalanced {
        assert!(lists(faulty, contests::FEED).is_some(), "not caught: {}", faulty.name);
    }
    for (name, feed) in contests::WRONG_FEEDS {
        assert!(lists(&Model, feed).is_some(), "not caught: the tally {name}");
    }
}

/// Over lists with contests the ledger opens and no path is used beyond its posting.
#[test]
fn limits_and_opening_hold_over_contests() {
    let lists = |subject: &dyn Rules| {
        (SEED..SEED + 400).find_map(|seed| contests::limits_and_opening_of(subject, seed).err())
    };
    expect_agreement(lists(SUBJECT).map_or(Ok(()), Err));
    let of_contests = unbalanced().filter(|faulty| faulty.is_of_contests());
    let missed: Vec<_> =
        of_contests.filter(|faulty| lists(*faulty).is_none()).map(|faulty| faulty.name).collect();
    // They go by the words alone, and those of these rows are in order.
    assert_eq!(
        missed,
        [
            "answers a lost contest and writes nothing",
            "displaces a lost row and answers that it was kept",
            "leaves a lost row CONFIRMED",
        ]
    );
}

/// The balance goes by the list, opening by the words alone, so it is not told of an
/// action that wrote nothing.
#[test]
fn opening_alone_catches_lost_megawatts() {
    let lists = |subject: &dyn Rules| {
        (SEED..SEED + 400).find_map(|seed| lists::opening_of(subject, seed).err())
    };
    expect_agreement(lists(SUBJECT).map_or(Ok(()), Err));
    let unbalanced = unbalanced().filter(|faulty| !faulty.is_of_contests());
    let missed: Vec<_> =
        unbalanced.filter(|faulty| lists(*faulty).is_none()).map(|faulty| faulty.name).collect();
    assert_eq!(missed, ["accepts and writes nothing"]);
}

#[test]
fn the_limits_alone_catch_overuse() {
    let lists = |subject: &dyn Rules| {
        (SEED..SEED + 2_400).find_map(|seed| lists::limits_of(subject, seed).err())
    };
    expect_agreement(lists(SUBJECT).map_or(Ok(()), Err));
    let overused: Vec<_> = FAULTS.iter().filter(|faulty| faulty.overused).collect();
    assert!(overused.len() >= 5);
    for faulty in overused {
        assert!(lists(faulty).is_some(), "not caught: {}", faulty.name);
    }
}

/// Desks that work on trees apart need not know who was first: same answers, refusals
/// included, and same words left, whatever the postings.
#[test]
fn on_trees_apart_either_order_comes_to_the_same() {
    match desks::either_order(SUBJECT, SEED, 4_000) {
        Err(difference) => expect_agreement(Err(difference)),
        Ok(met) => {
            println!("{}", met.told());
            expect_agreement(met.check());
        }
    }
}

/// That is asked for a reason: over a common path the order matters, though only where
/// one of the two meets the posting, and within a tree it matters without.
#[test]
fn on_a_common_path_or_in_one_tree_the_order_matters() {
    use desks::Between::{CommonPath, OneTree};
    use desks::Point::{Differs, DiffersByLimit, Tried};
    match desks::either_order(SUBJECT, SEED, 2_000) {
        Err(difference) => expect_agreement(Err(difference)),
        Ok(met) => {
            for (point, least) in [
                (Tried(CommonPath), 20_000),
                (DiffersByLimit(CommonPath), 100),
                (Tried(OneTree), 20_000),
                (Differs(OneTree), 5_000),
            ] {
                println!("{point:?} × {}", met.times(point));
                assert!(met.times(point) >= least, "{point:?} only {} times", met.times(point));
            }
            assert_eq!(met.times(Differs(CommonPath)), 0, "without a 22");
        }
    }
}

/// Two originals of 100 MW for which the seller says yes, where 100 are posted: on two
/// paths both are confirmed, on one path whichever is first.
#[test]
fn on_one_path_the_first_of_two_originals_is_confirmed() {
    use desks::Between::{Apart, CommonPath};
    use luddrisa_model::*;
    let post =
        |path| Action { kind: POST, actor: 1, path, stop: 1, length: 1, ..Action::default() };
    let submit = |actor, path| Action {
        kind: SUBMIT,
        actor,
        reqtype: ORIGINAL_FIRM,
        seller: 1,
        flags: PRECONFIRMED,
        ..post(path)
    };
    let accept = |reference| {
        let action =
            Action { kind: SELLER_STATUS, actor: 1, status: ACCEPTED, ..Action::default() };
        desks::Lent { action: Action { reference, ..action }, words: Vec::new() }
    };
    let confirmed = |reference| Answer { number: 0, reference, before: 1, after: 13, moved: 100 };
    let refused = Answer { number: 22, reference: 0, before: 0, after: 0, moved: 0 };
    for (path, between) in [(2, Apart), (1, CommonPath)] {
        let mut ledger = vec![0; ledger_words(2, 1)];
        let mut postings = vec![0; posting_words(1)];
        assert_eq!(SUBJECT.create(&mut ledger, [2, 1, 1, 3_600, 0]), 0);
        let list = [post(1), post(2), submit(10, 1), submit(20, path)];
        let mut answers = [UNWRITTEN; 4];
        assert_eq!(SUBJECT.batch(&mut ledger, &mut postings, &[100], &list, &mut answers), 0);
        assert_eq!(answers.map(|answer| answer.number), [0; 4]);
        assert_eq!(desks::between(&ledger, 1, 2), between);
        let (one, other) = (accept(1), accept(2));
        let either = desks::Either::order(SUBJECT, &ledger, &postings, &one, &other)
            .expect("lists of one are answered");
        let [second_of_one, second_of_other] = match between {
            Apart => [confirmed(1), confirmed(2)],
            _ => [refused; 2],
        };
        assert_eq!(either.one, [confirmed(1), second_of_one]);
        assert_eq!(either.other, [confirmed(2), second_of_other]);
        assert_eq!(either.ledgers[0] == either.ledgers[1], between == Apart);
        assert_eq!(either.postings, [postings.clone(), postings]);
        assert_eq!(either.difference().is_none(), between == Apart);
    }
}

/// The orders need no model to find what is felt in a tree apart.
#[test]
fn either_order_alone_catches_what_crosses_trees() {
    let orders = |subject: &dyn Rules| desks::either_order(subject, SEED, 1_000).err();
    assert_eq!(orders(&Model), None);
    let crossed: Vec<_> = FAULTS.iter().filter(|faulty| faulty.crossed).collect();
    assert!(crossed.len() >= 14);
    for faulty in crossed {
        let told = orders(faulty);
        assert!(told.is_some(), "not caught: {}", faulty.name);
        println!("{}: {}", faulty.name, told.unwrap_or_default());
    }
}

/// On lists use grows by originals and redirects alone, and by the annulment of a
/// firm redirect on its old path: all these are refused somewhere, no other is.
#[test]
fn lists_meet_the_limits_where_use_can_grow() {
    use luddrisa_model::*;
    use luddrisa_tests::reached::Moved::{Annulled, Confirmed};
    let mut run = Run::new(SUBJECT);
    expect_agreement(lists::lists(&mut run, SEED, 1_500));
    let grows = [ORIGINAL_FIRM, ORIGINAL_NON_FIRM, REDIRECT_FIRM, REDIRECT_NON_FIRM]
        .map(|reqtype| (Confirmed, reqtype));
    let expected = grows.into_iter().chain([(Annulled, REDIRECT_FIRM)]).collect();
    assert_eq!(run.reached.over_posting(), expected);
}

/// Lists reduce rows again and again, to 100,000 and before displacing and giving
/// back. On none of them does a reduced word pass, and a row that is confirmed or
/// annulled has none.
#[test]
fn lists_keep_what_was_reduced() {
    use luddrisa_tests::reached::Reduced::*;
    let mut run = Run::new(SUBJECT);
    expect_agreement(lists::lists(&mut run, SEED, 1_500));
    let times = |met| run.reached.times_reduced(met);
    for (met, least) in [
        (First, 2_000),
        (Again, 2_000),
        (ToBound, 20),
        (NoMoreAtBound, 20),
        (Displaced, 200),
        (BackToAvailable, 200),
        (BackToDisplaced, 20),
    ] {
        println!("{met:?} × {}", times(met));
        assert!(times(met) >= least, "{met:?} only {} times", times(met));
    }
    for never in [Over, Confirmed, Annulled] {
        assert_eq!(times(never), 0, "{never:?}");
    }
}

/// Lists withdraw rows that were countered, also preconfirmed ones after a rebid and
/// transfers that wait at 10. On none of them is a row countered before its first offer,
/// or never countered at 6, 7 or 8.
#[test]
fn lists_withdraw_countered_rows() {
    const BOTH: u32 = PRECONFIRMED | COUNTERED;
    let mut run = Run::new(SUBJECT);
    expect_agreement(lists::lists(&mut run, SEED, 1_500));
    let times = |status, flags, number| run.reached.times_withdrawn(status, flags, number);
    for (status, flags, number, least) in [
        (6, BOTH, 0, 100),
        (7, BOTH, 0, 50),
        (8, BOTH, 0, 100),
        (10, BOTH, 0, 10),
        (11, BOTH, 0, 10),
        (1, PRECONFIRMED, 11, 500),
        (3, PRECONFIRMED, 11, 10),
        (4, PRECONFIRMED, 11, 10),
        (10, PRECONFIRMED, 11, 10),
        (11, PRECONFIRMED, 0, 50),
        (8, COUNTERED, 0, 50),
    ] {
        let times = times(status, flags, number);
        println!("from {status} with flags {flags}, {number} × {times}");
        assert!(times >= least, "{status} with flags {flags} only {times} times");
    }
    for preconfirmed in [0, PRECONFIRMED] {
        for number in [0, 11] {
            for status in [1, 3, 4] {
                assert_eq!(times(status, preconfirmed | COUNTERED, number), 0, "{status}");
            }
            for status in [6, 7, 8] {
                assert_eq!(times(status, preconfirmed, number), 0, "{status}");
            }
        }
    }
}

/// The lists do go deep: resale of redirect of resale, and all the rest.
#[test]
fn lists_reach_deep_chains() {
    use luddrisa_model::*;
    let mut run = Run::new(SUBJECT);
    let mut deepest = 0;
    let mut resale_of_redirect_of_resale = 0;
    let mut accepted = 0;
    let mut all = 0;
    for seed in SEED..SEED + 300 {
        let rng = &mut luddrisa_tests::rng::Rng::new(seed);
        let answered = match lists::list(&mut run, rng, 120) {
            Ok(answered) => answered,
            Err(difference) => return expect_agreement(Err(format!("seed {seed}: {difference}"))),
        };
        all += answered.answers.len();
        accepted += answered.answers.iter().filter(|answer| answer.number == 0).count();
        let ledger = answered.desk.ledger();
        for reference in 1..=ledger[USED] {
            let mut chain = Vec::new();
            let mut at = reference;
            while at != 0 {
                let row = Row::of(ledger, at);
                chain.push((row.get(ledger, TYPE), row.get(ledger, STATUS)));
                at = row.get(ledger, RELATED);
            }
            if chain.iter().all(|&(_, status)| matches!(status, CONFIRMED | DISPLACED)) {
                deepest = deepest.max(chain.len());
                let types: Vec<_> = chain.iter().map(|&(reqtype, _)| reqtype).collect();
                if types.windows(3).any(|three| three == [RESALE, REDIRECT_FIRM, RESALE]) {
                    resale_of_redirect_of_resale += 1;
                }
            }
        }
    }
    println!(
        "{accepted} of {all} accepted, chains to {deepest} rows, \
         {resale_of_redirect_of_resale} of the kind named"
    );
    assert!(deepest >= 6, "only {deepest}");
    assert!(resale_of_redirect_of_resale >= 10, "only {resale_of_redirect_of_resale}");
    assert!(accepted * 2 > all, "only {accepted} of {all} accepted");
}
