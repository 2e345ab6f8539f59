//! Opening: does every hour of a stored ledger balance?

use crate::layout::*;
use crate::sound::sound;

/// Takes a stored ledger up again, and only reads it: 1 where it is unsound, then 20
/// where some hour does not balance, otherwise 0.
pub fn open(ledger: &[u32]) -> u32 {
    if !sound(ledger) {
        return BAD_LEDGER;
    }
    let balances = |reference| row_balances(ledger, reference) && tree_balances(ledger, reference);
    if (1..=ledger[USED]).all(balances) {
        0
    } else {
        UNBALANCED
    }
}

/// True where granted of a row at 13 or 15 is in every hour what it holds and what
/// the rows related to it took. Relinquish records and rows at other statuses have no
/// such equation.
pub fn row_balances(ledger: &[u32], reference: u32) -> bool {
    let row = Row::of(ledger, reference);
    if !stands(ledger, row) || row.get(ledger, TYPE) == RELINQUISH {
        return true;
    }
    let mut sums = vec![0; row.hours];
    add_held(ledger, row, &mut sums);
    for taker in standing_rows_of(ledger, reference) {
        let row = Row::of(ledger, taker);
        add(&ledger[row.profile(GRANTED)], 1, &mut sums);
        // What a redirect gave back is no longer taken.
        if matches!(row.get(ledger, TYPE), REDIRECT_FIRM | REDIRECT_NON_FIRM) {
            for record in standing_rows_of(ledger, taker) {
                let row = Row::of(ledger, record);
                if row.get(ledger, TYPE) == RELINQUISH {
                    add(&ledger[row.profile(GRANTED)], -1, &mut sums);
                }
            }
        }
    }
    is_granted(ledger, row, &sums)
}

/// True where granted of an original at 13 or 15 is in every hour what it and all rows
/// descended from it hold, whatever their type and status. Other rows have no such sum.
pub fn tree_balances(ledger: &[u32], reference: u32) -> bool {
    let row = Row::of(ledger, reference);
    if !stands(ledger, row) || row.get(ledger, TYPE) > ORIGINAL_NON_FIRM {
        return true;
    }
    let mut sums = vec![0; row.hours];
    for other in 1..=ledger[USED] {
        if original_of(ledger, other) == reference {
            add_held(ledger, Row::of(ledger, other), &mut sums);
        }
    }
    is_granted(ledger, row, &sums)
}

/// CONFIRMED or DISPLACED.
fn stands(ledger: &[u32], row: Row) -> bool {
    matches!(row.get(ledger, STATUS), CONFIRMED | DISPLACED)
}

/// The references at 13 or 15 that are related to one.
fn standing_rows_of(ledger: &[u32], reference: u32) -> Vec<u32> {
    (1..=ledger[USED])
        .filter(|&other| {
            let row = Row::of(ledger, other);
            row.get(ledger, RELATED) == reference && stands(ledger, row)
        })
        .collect()
}

/// The original that a row is or descends from.
fn original_of(ledger: &[u32], reference: u32) -> u32 {
    match Row::of(ledger, reference).get(ledger, RELATED) {
        0 => reference,
        related => original_of(ledger, related),
    }
}

fn add(words: &[u32], sign: i64, sums: &mut [i64]) {
    for (sum, &mw) in sums.iter_mut().zip(words) {
        *sum += sign * i64::from(mw);
    }
}

/// Adds what a row holds: available, displaced and reduced.
fn add_held(ledger: &[u32], row: Row, sums: &mut [i64]) {
    for profile in [AVAILABLE, DISPLACED_MW, REDUCED_MW] {
        add(&ledger[row.profile(profile)], 1, sums);
    }
}

fn is_granted(ledger: &[u32], row: Row, sums: &[i64]) -> bool {
    ledger[row.profile(GRANTED)].iter().map(|&mw| i64::from(mw)).eq(sums.iter().copied())
}

#[cfg(test)]
mod tests {
    use super::*;
    use crate::actions::create;

    /// A row over all hours: type, status, related reference, and then granted,
    /// available, displaced and reduced, hour by hour.
    type Made<const H: usize> = (u32, u32, u32, [[u32; H]; 4]);

    const KEPT: [usize; 4] = [GRANTED, AVAILABLE, DISPLACED_MW, REDUCED_MW];

    /// A ledger of such rows, with one row to spare.
    fn made<const H: usize>(rows: &[Made<H>]) -> Vec<u32> {
        let (used, hours) = (rows.len() as u32, H as u32);
        let mut ledger = vec![0; ledger_words(used + 1, hours)];
        assert_eq!(create(&mut ledger, used + 1, hours, 1, 3_600, 0), 0);
        ledger[USED] = used;
        for (reference, &(reqtype, status, related, kept)) in (1..).zip(rows) {
            let row = Row::of(&ledger, reference);
            let fields = [reqtype, status, 10, 1, related, 0, hours, 0, 0, 0, 0, 1];
            ledger[row.at..row.at + fields.len()].copy_from_slice(&fields);
            for (profile, words) in KEPT.into_iter().zip(kept) {
                ledger[row.profile(profile)].copy_from_slice(&words);
            }
        }
        assert!(sound(&ledger));
        ledger
    }

    /// Why a sound ledger does not open: the rows that do not balance, and the trees.
    fn unbalanced(ledger: &[u32]) -> (Vec<u32>, Vec<u32>) {
        let all = || 1..=ledger[USED];
        let rows: Vec<_> = all().filter(|&n| !row_balances(ledger, n)).collect();
        let trees: Vec<_> = all().filter(|&n| !tree_balances(ledger, n)).collect();
        assert_eq!(open(ledger), if rows.is_empty() && trees.is_empty() { 0 } else { 20 });
        (rows, trees)
    }

    fn opens<const H: usize>(rows: &[Made<H>]) {
        assert_eq!(unbalanced(&made(rows)), (vec![], vec![]), "{rows:?}");
    }

    fn fails<const H: usize>(rows: &[Made<H>], equations: &[u32], trees: &[u32]) {
        assert_eq!(unbalanced(&made(rows)), (equations.to_vec(), trees.to_vec()), "{rows:?}");
    }

    #[test]
    fn an_original_alone() {
        opens::<1>(&[]);
        for status in [CONFIRMED, DISPLACED] {
            opens(&[(ORIGINAL_NON_FIRM, status, 0, [[100, 7], [60, 0], [30, 5], [10, 2]])]);
            for (profile, hour) in (0..4).flat_map(|profile| [(profile, 0), (profile, 1)]) {
                let mut kept = [[100, 7], [60, 1], [30, 5], [10, 1]];
                kept[profile][hour] += 1;
                fails(&[(ORIGINAL_FIRM, status, 0, kept)], &[1], &[1]);
                kept[profile][hour] -= 2;
                fails(&[(ORIGINAL_FIRM, status, 0, kept)], &[1], &[1]);
            }
        }
        // The greatest words.
        opens(&[(ORIGINAL_FIRM, CONFIRMED, 0, [[100_000], [0], [100_000], [0]])]);
        let most = (ORIGINAL_FIRM, CONFIRMED, 0, [[100_000]; 4]);
        fails(&[most], &[1], &[1]);
    }

    #[test]
    fn rows_that_took_from_it() {
        // 100 = 15 + 5 + 60 + 20, and the resale's 60 = 25 + 10 + 25.
        let rows = [
            (ORIGINAL_FIRM, DISPLACED, 0, [[100], [15], [5], [0]]),
            (RESALE, CONFIRMED, 1, [[60], [25], [0], [10]]),
            (PART_TRANSFER, DISPLACED, 1, [[20], [0], [20], [0]]),
            (REDIRECT_FIRM, CONFIRMED, 2, [[25], [0], [0], [0]]),
            // What a firm redirect sold on is not taken off: 25 = 18 + 7.
            (RESALE, CONFIRMED, 4, [[18], [18], [0], [0]]),
            (FULL_TRANSFER, CONFIRMED, 4, [[7], [7], [0], [0]]),
        ];
        opens(&rows);
        for row in 0..rows.len() {
            let mut less = rows;
            less[row].3[0][0] -= 1;
            let equations: &[u32] = [&[1][..], &[1, 2], &[1, 3], &[2, 4], &[4, 5], &[4, 6]][row];
            fails(&less, equations, if row == 0 { &[1] } else { &[] });
        }
        // 40 = 41 − 1 for the tree, but neither for the original nor for the resale.
        fails(
            &[
                (ORIGINAL_FIRM, CONFIRMED, 0, [[100], [41], [0], [0]]),
                (RESALE, CONFIRMED, 1, [[60], [59], [0], [0]]),
            ],
            &[1, 2],
            &[],
        );
    }

    #[test]
    fn each_hour_by_itself() {
        opens(&[(ORIGINAL_FIRM, CONFIRMED, 0, [[100, 100], [100, 100], [0, 0], [0, 0]])]);
        fails(
            &[(ORIGINAL_FIRM, CONFIRMED, 0, [[100, 100], [99, 101], [0, 0], [0, 0]])],
            &[1],
            &[1],
        );
        // In the resale alone, and between the two.
        let original =
            |available| (ORIGINAL_FIRM, CONFIRMED, 0, [[100, 100], available, [0, 0], [0, 0]]);
        let resale = |available| (RESALE, CONFIRMED, 1, [[30, 40], available, [0, 0], [0, 0]]);
        opens(&[original([70, 60]), resale([30, 40])]);
        fails(&[original([70, 60]), resale([31, 39])], &[2], &[1]);
        fails(&[original([69, 61]), resale([31, 39])], &[1, 2], &[]);
    }

    #[test]
    fn relinquish_records_of_a_redirect() {
        // 50 redirected, 20 of them given back: 100 = 70 + (50 − 20), 50 = 30 + 20.
        let rows = |original: u32, redirect: u32, of_redirect: u32, of_record: u32| {
            [
                (ORIGINAL_FIRM, CONFIRMED, 0, [[100], [original], [0], [0]]),
                (REDIRECT_NON_FIRM, of_redirect, 1, [[50], [redirect], [0], [0]]),
                (RELINQUISH, of_record, 2, [[20], [0], [0], [0]]),
            ]
        };
        for redirect in [CONFIRMED, DISPLACED] {
            for record in [CONFIRMED, DISPLACED] {
                opens(&rows(70, 30, redirect, record));
                fails(&rows(50, 50, redirect, record), &[1, 2], &[]);
                fails(&rows(50, 30, redirect, record), &[1], &[1]);
            }
            // A record that does not stand gave nothing back.
            for record in [QUEUED, ACCEPTED, ANNULLED] {
                opens(&rows(50, 50, redirect, record));
                fails(&rows(70, 30, redirect, record), &[1, 2], &[]);
            }
        }
        // Of a redirect that does not stand, records count nowhere.
        for record in [CONFIRMED, DISPLACED, ANNULLED] {
            opens(&rows(100, 0, ANNULLED, record));
            fails(&rows(80, 0, ANNULLED, record), &[1], &[1]);
            fails(&rows(120, 0, ANNULLED, record), &[1], &[1]);
            fails(&rows(80, 20, ANNULLED, record), &[1], &[]);
        }
    }

    #[test]
    fn a_record_beyond_its_redirect() {
        // The redirect's share is 50 − 70: below 0 for the original, 100 = 120 − 20.
        let rows = |original: u32, redirect: u32| {
            [
                (ORIGINAL_FIRM, CONFIRMED, 0, [[100], [original], [0], [0]]),
                (REDIRECT_NON_FIRM, CONFIRMED, 1, [[50], [redirect], [0], [0]]),
                (RELINQUISH, CONFIRMED, 2, [[70], [0], [0], [0]]),
            ]
        };
        fails(&rows(120, 0), &[2], &[1]);
        fails(&rows(100, 0), &[1, 2], &[]);
        fails(&rows(80, 20), &[1, 2], &[]);
        // Two records of 25 each take all: 100 = 100 + (50 − 50).
        opens(&[
            (ORIGINAL_FIRM, CONFIRMED, 0, [[100], [0], [100], [0]]),
            (REDIRECT_NON_FIRM, CONFIRMED, 1, [[50], [0], [0], [0]]),
            (RELINQUISH, CONFIRMED, 2, [[25], [0], [0], [0]]),
            (RELINQUISH, DISPLACED, 2, [[25], [0], [0], [0]]),
        ]);
    }

    #[test]
    fn rows_at_other_statuses_are_in_the_tree_alone() {
        let statuses = (QUEUED..=RETRACTED).filter(|n| ![CONFIRMED, DISPLACED].contains(n));
        for status in statuses {
            let rows = |held: [u32; 3]| {
                [
                    (ORIGINAL_FIRM, CONFIRMED, 0, [[100], [100], [0], [0]]),
                    (RESALE, status, 1, [[40], [held[0]], [held[1]], [held[2]]]),
                ]
            };
            // What it was granted is not looked at.
            opens(&rows([0, 0, 0]));
            for held in [[1, 0, 0], [0, 1, 0], [0, 0, 1]] {
                fails(&rows(held), &[], &[1]);
            }
            // An original at such a status has neither, rows below it their equation.
            opens(&[
                (ORIGINAL_FIRM, status, 0, [[9], [1], [2], [3]]),
                (RESALE, CONFIRMED, 1, [[40], [30], [0], [10]]),
            ]);
            fails(
                &[
                    (ORIGINAL_FIRM, status, 0, [[9], [1], [2], [3]]),
                    (RESALE, CONFIRMED, 1, [[40], [30], [0], [11]]),
                ],
                &[2],
                &[],
            );
        }
        // A relinquish record that holds something.
        fails(
            &[
                (ORIGINAL_FIRM, CONFIRMED, 0, [[100], [70], [0], [0]]),
                (REDIRECT_NON_FIRM, CONFIRMED, 1, [[50], [30], [0], [0]]),
                (RELINQUISH, CONFIRMED, 2, [[20], [0], [0], [1]]),
            ],
            &[],
            &[1],
        );
        // A confirmed resale of an annulled one: its own hours balance, the tree has 40 more.
        let below = |granted: u32| {
            [
                (ORIGINAL_FIRM, CONFIRMED, 0, [[100], [100], [0], [0]]),
                (RESALE, ANNULLED, 1, [[60], [0], [0], [0]]),
                (RESALE, CONFIRMED, 2, [[granted], [granted], [0], [0]]),
            ]
        };
        fails(&below(40), &[], &[1]);
        opens(&below(0));
    }

    #[test]
    fn trees_apart() {
        let rows = [
            (ORIGINAL_FIRM, CONFIRMED, 0, [[100], [60], [0], [0]]),
            (ORIGINAL_NON_FIRM, CONFIRMED, 0, [[100], [60], [0], [0]]),
            (RESALE, CONFIRMED, 1, [[40], [40], [0], [0]]),
            (RESALE, CONFIRMED, 2, [[40], [40], [0], [0]]),
        ];
        opens(&rows);
        // A megawatt moved from one to the other.
        let mut moved = rows;
        moved[2].3[1] = [41];
        moved[3].3[1] = [39];
        fails(&moved, &[3, 4], &[1, 2]);
        // A resale hung on the other original.
        let mut hung = rows;
        hung[3].2 = 1;
        fails(&hung, &[1, 2], &[1, 2]);
    }

    #[test]
    fn unsound_comes_first() {
        for len in 0..=HEAD_WORDS {
            assert_eq!(open(&vec![0; len]), BAD_LEDGER);
        }
        let good = made(&[(ORIGINAL_FIRM, CONFIRMED, 0, [[100], [100], [0], [0]])]);
        let row = Row::of(&good, 1);
        let available = row.profile(AVAILABLE).start;
        for word in [99, 101, 100_000] {
            let mut ledger = good.clone();
            ledger[available] = word;
            assert_eq!(open(&ledger), UNBALANCED);
            row.set(&mut ledger, PATH, 0);
            assert_eq!(open(&ledger), BAD_LEDGER);
        }
        let mut over = good.clone();
        over[available] = 100_001;
        assert_eq!(open(&over), BAD_LEDGER);
        assert_eq!((open(&good), open(&good[1..])), (0, BAD_LEDGER));
    }
}
