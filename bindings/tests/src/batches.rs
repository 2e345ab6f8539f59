//! Lists handed over together, with too few, just enough and spare places.

use luddrisa_model::{Action, MAX_MW};

use crate::dense::{any_action, postings_of, sound_ledger};
use crate::lists::{list, Words};
use crate::rng::Rng;
use crate::run::{Desk, Difference, Run, UNWRITTEN};

/// So many lists, each with several numbers of places.
pub fn batches(run: &mut Run, seed: u64, count: u32) -> Result<(), Difference> {
    for number in 0..count {
        let seed = seed + u64::from(number);
        let rng = &mut Rng::new(seed);
        one_batch(run, rng).map_err(|difference| format!("batches, seed {seed}: {difference}"))?;
    }
    Ok(())
}

fn one_batch(run: &mut Run, rng: &mut Rng) -> Result<(), Difference> {
    // A list from a fresh ledger, and unrelated actions on a dense one.
    let length = rng.from_to(1, 40);
    let answered = list(run, rng, length)?;
    let fresh = run.fresh(answered.numbers)?;
    with_places(run, &fresh, &answered.words, &answered.actions)?;
    let mut again = fresh.clone();
    run.batch(&mut again, &answered.words, &answered.actions, answered.actions.len())?;
    run.opens(&again.ledger)?;
    with_places(run, &answered.desk, &answered.words, &[])?;

    let dense = sound_ledger(rng, 5, 4);
    let postings = postings_of(rng, &dense);
    let mut words = Words::new();
    let count = rng.from_to(1, 10);
    let actions: Vec<Action> = (0..count).map(|_| any_action(rng, &dense, &mut words)).collect();
    let good = Desk::new(&dense, &postings);
    with_places(run, &good, &words, &actions)?;

    // An unsound ledger stays so through the list, and so do wrong postings.
    let mut unsound = good.clone();
    unsound.ledger.set(rng.below(8) as usize, u32::MAX);
    with_places(run, &unsound, &words, &actions)?;
    with_places(run, &Desk::new(&[], &postings), &words, &actions)?;
    let mut over = good.clone();
    over.postings.set(rng.below(postings.len() as u32) as usize, MAX_MW + 1);
    with_places(run, &over, &words, &actions)?;
    for postings in [&[], &postings[1..]] {
        let short = Desk::new(&dense, postings);
        with_places(run, &short, &words, &actions)?;
        with_places(run, &short, &words, &[])?;
    }
    Ok(())
}

fn with_places(
    run: &mut Run,
    start: &Desk,
    words: &[u32],
    actions: &[Action],
) -> Result<(), Difference> {
    let count = actions.len();
    for places in [count, 0, count.saturating_sub(1), count / 2, count + 1, count + 7] {
        let mut desk = start.clone();
        let (number, answers) = run.batch(&mut desk, words, actions, places)?;
        run.open(&desk.ledger)?;
        if places < count {
            assert_eq!(number, 17);
            assert!(answers.iter().all(|answer| *answer == UNWRITTEN));
            assert_eq!(desk.ledger(), start.ledger());
            assert_eq!(desk.postings(), start.postings());
        } else {
            assert_eq!(number, 0);
            assert!(answers[count..].iter().all(|answer| *answer == UNWRITTEN));
        }
    }
    Ok(())
}
