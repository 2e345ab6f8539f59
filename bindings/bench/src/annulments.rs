//! (j) Annulments in order against the same carried out on a copy: the words are copied and
//! the annulments handed over together. All rows of a chain are CONFIRMED, over all hours,
//! each has taken all of the one before, and they go from the end of the chain.

use luddrisa::{calls, Action, Answer};
use luddrisa_model::annulment;
use luddrisa_tests::converted::action_to_library;

use crate::opening::Shape;
use crate::{growth_lines, line, side_by_side, Desk, Rounds};

/// References from the last row on, so many, and their annulments.
fn from_the_end(desk: &Desk, rows: u32, count: u32) -> (Vec<u32>, Vec<Action>) {
    let references: Vec<u32> = (1..=rows).rev().take(count as usize).collect();
    let annul = |&reference: &u32| {
        action_to_library(&annulment(&desk.ledger, reference).expect("the row is there"))
    };
    let annulments = references.iter().map(annul).collect();
    (references, annulments)
}

/// The call, and the annulments on a copy, for so many references of a chain.
fn rounds(shape: Shape, rows: u32, hours: u32, count: u32) -> Rounds {
    let desk = shape.ledger(rows, hours);
    let (references, annulments) = from_the_end(&desk, rows, count);
    let mut data = (desk, vec![Answer::default(); annulments.len()]);
    side_by_side(
        11,
        &mut data,
        |(desk, _)| {
            let Desk { ledger, postings } = desk;
            assert_eq!(calls::annuls_in_order(ledger, postings, &references), 1);
        },
        |(desk, answers)| desk.clone().all(&[], &annulments, answers),
    )
}

/// Lines of the first table: 1,000 rows, resold on one path or redirected between two.
pub fn unwinding() {
    for (which, shape) in
        [("resales on one path", Shape::Resold), ("firm redirects between two", Shape::Redirected)]
    {
        let name = format!("(j) annulling 1,000 rows in order, H 744, {which}");
        line(&name, &rounds(shape, 1_000, 744, 1_000), 1.0, "carried out on a copy", 0.2);
    }
}

/// As references double and as H doubles, of a chain of 1,000 resales on one path.
pub fn growth() {
    println!("\n| (j) references | hours | in order | growth | on a copy | growth | ratio |");
    println!("|---|---|---|---|---|---|---|");
    let by_references = [(250, 186), (500, 186), (1_000, 186)];
    let by_hours = [(250, 186), (250, 372), (250, 744)];
    for sizes in [by_references, by_hours] {
        growth_lines(sizes.map(|(count, hours)| {
            (format!("{count} | {hours}"), rounds(Shape::Resold, 1_000, hours, count))
        }));
    }
}

#[cfg(test)]
mod tests {
    use super::*;

    #[test]
    fn the_chains_are_unwound_from_their_ends() {
        for shape in [Shape::Resold, Shape::Redirected] {
            let mut desk = shape.ledger(24, 2);
            let (mut references, annulments) = from_the_end(&desk, 24, 24);
            let Desk { ledger, postings } = &desk;
            assert_eq!(calls::annuls_in_order(ledger, postings, &references), 1);
            references.swap(11, 12);
            assert_eq!(calls::annuls_in_order(ledger, postings, &references), 0);
            desk.set_up(&[], &annulments);
        }
    }
}
