//! (h) Opening against one soundness test of the same ledger, by the shape of the
//! ledger and as it grows. All rows are used, over all hours, and all at 13.

use luddrisa::{calls, Action, Flags, Profiles, RequestType, Status};

use crate::{
    full_ledger, growth_lines, line, side_by_side, unknown, Desk, Rounds, HOLDER, PROVIDER,
};

/// Rows of one chain of the mixed ledger.
const CHAIN: u32 = 8;

/// How the rows are related.
#[derive(Clone, Copy)]
pub enum Shape {
    /// Each row is a resale of the one before.
    Chain,
    /// Every row is a resale of the first.
    Wide,
    /// Chains of an original, five resales, a non-firm redirect and its relinquish record.
    Mixed,
    /// Each row is a resale of all of the one before.
    Resold,
    /// Each row is a firm redirect of all of the one before, to the other of two paths.
    Redirected,
}

/// What a row asks for: type, related reference, megawatts in every hour, path.
type Asked = (RequestType, u32, u32, u32);

impl Shape {
    fn asked(self, rows: u32, reference: u32) -> Asked {
        match self {
            Shape::Chain if reference == 1 => (RequestType::ORIGINAL_FIRM, 0, rows, 1),
            Shape::Chain => (RequestType::RESALE, reference - 1, rows + 1 - reference, 1),
            Shape::Wide if reference == 1 => (RequestType::ORIGINAL_FIRM, 0, rows, 1),
            Shape::Wide => (RequestType::RESALE, 1, 1, 1),
            Shape::Mixed => {
                let (chain, place) = ((reference - 1) / CHAIN, (reference - 1) % CHAIN);
                let reqtype = match place {
                    0 => RequestType::ORIGINAL_FIRM,
                    1..=5 => RequestType::RESALE,
                    6 => RequestType::REDIRECT_NON_FIRM,
                    _ => RequestType::RELINQUISH,
                };
                let related = if place == 0 { 0 } else { reference - 1 };
                (reqtype, related, CHAIN - place, chain % 64 + 1)
            }
            Shape::Resold | Shape::Redirected if reference == 1 => {
                (RequestType::ORIGINAL_FIRM, 0, 100, 1)
            }
            Shape::Resold => (RequestType::RESALE, reference - 1, 100, 1),
            Shape::Redirected => {
                (RequestType::REDIRECT_FIRM, reference - 1, 100, (reference - 1) % 2 + 1)
            }
        }
    }

    /// The ledger, made by actions.
    pub fn ledger(self, rows: u32, hours: u32) -> Desk {
        let mut profiles = Profiles::new();
        let mut level = |mw: u32| profiles.add(&vec![mw; hours as usize]);
        let carries = level(100_000);
        let post = |path| Action::post(PROVIDER, path).span(0, hours).profile(carries);
        let mut actions: Vec<_> = (1..=64).map(post).collect();
        for reference in 1..=rows {
            let (reqtype, related, mw, path) = self.asked(rows, reference);
            let seller = if reqtype == RequestType::RESALE { HOLDER } else { PROVIDER };
            actions.push(
                Action::submit(HOLDER, reqtype, seller)
                    .path(path)
                    .related(related)
                    .span(0, hours)
                    .flags(Flags::PRECONFIRMED)
                    .profile(level(mw)),
            );
            actions.push(Action::seller_status(seller, reference, Status::ACCEPTED));
        }
        let mut desk = Desk::fresh(rows, hours);
        desk.set_up(profiles.words(), &actions);
        desk
    }
}

/// Opening and one soundness test, of a ledger that opens.
fn rounds(desk: &mut Desk) -> Rounds {
    side_by_side(
        31,
        desk,
        |desk| assert_eq!(calls::open(&desk.ledger), 0),
        |desk| desk.one(&[], &unknown(), 2),
    )
}

/// Lines of the first table: the greatest ledger in four shapes.
pub fn openings() {
    for (which, mut desk) in [
        ("one chain", Shape::Chain.ledger(1_024, 744)),
        ("all related to row 1", Shape::Wide.ledger(1_024, 744)),
        ("originals alone", full_ledger(1_024, 744)),
        ("chains of 8", Shape::Mixed.ledger(1_024, 744)),
    ] {
        let name = format!("(h) opening, R 1,024, H 744, {which}");
        line(&name, &rounds(&mut desk), 1.0, "one soundness test", 6.0);
    }
}

/// Opening as rows double and as H doubles, in chains of 8.
pub fn growth() {
    println!("\n| (h) rows | hours | opening | growth | one soundness test | growth | ratio |");
    println!("|---|---|---|---|---|---|---|");
    let by_rows = [(128, 186), (256, 186), (512, 186), (1_024, 186)];
    let by_hours = [(256, 93), (256, 186), (256, 372), (256, 744)];
    for sizes in [by_rows, by_hours] {
        growth_lines(sizes.map(|(rows, hours)| {
            let rounds = rounds(&mut Shape::Mixed.ledger(rows, hours));
            (format!("{rows} | {hours}"), rounds)
        }));
    }
}

#[cfg(test)]
mod tests {
    use super::*;
    use luddrisa::Ledger;

    #[test]
    fn the_ledgers_are_as_they_say() {
        use Shape::{Chain, Mixed, Redirected, Resold, Wide};
        for shape in [Chain, Wide, Mixed, Resold, Redirected] {
            let ledger = Ledger::open(&shape.ledger(24, 2).ledger).expect("it opens");
            assert_eq!(ledger.head().unwrap().used, 24);
            let mut types = [0; 9];
            for reference in 1..=24 {
                let row = ledger.row(reference).unwrap();
                assert_eq!((row.status, row.granted[1] > 0), (Status::CONFIRMED, true));
                types[row.reqtype.0 as usize] += 1;
                let related = match shape {
                    Wide => u32::from(reference > 1),
                    Mixed if reference % 8 == 1 => 0,
                    _ => reference - 1,
                };
                assert_eq!(row.related, related);
            }
            let expected = match shape {
                Mixed => [0, 3, 0, 15, 0, 3, 0, 0, 3],
                Redirected => [0, 1, 0, 0, 23, 0, 0, 0, 0],
                _ => [0, 1, 0, 23, 0, 0, 0, 0, 0],
            };
            assert_eq!(types, expected);
        }
    }
}
