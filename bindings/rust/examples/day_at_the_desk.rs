//! Document 01's day at the desk on two posted paths: prints its 14 lines and
//! exits with status 1 where a line or a word left behind differs, or the ledger
//! left behind does not open.

use std::process::ExitCode;

use luddrisa::{Action, Answer, Flags, Ledger, Postings, Profiles, Refusal, RequestType, Status};

const LINES: [&str; 14] = [
    "1 0 1 0 1 0",
    "2 0 1 1 10 0",
    "3 0 1 10 13 400",
    "4 0 2 0 1 0",
    "5 0 2 1 13 100",
    "6 0 3 0 1 0",
    "7 0 3 1 13 90",
    "8 0 4 0 1 0",
    "9 14 0 0 0 0",
    "10 0 1 13 15 210",
    "11 0 5 0 1 0",
    "12 0 5 1 13 20",
    "13 0 2 13 16 100",
    "14 15 0 0 0 0",
];

/// Paths 1 and 2 posted at 100 MW in all four hours.
fn beforehand(profiles: &mut Profiles) -> [Action; 2] {
    let all_day = profiles.add(&[100; 4]);
    [1, 2].map(|path| Action::post(1, path).span(0, 4).profile(all_day))
}

fn list(profiles: &mut Profiles) -> [Action; 14] {
    let preconfirmed = Flags::PRECONFIRMED;
    [
        Action::submit(10, RequestType::ORIGINAL_FIRM, 1)
            .path(1)
            .span(0, 4)
            .price(500)
            .profile(profiles.add(&[100; 4])),
        Action::seller_status(1, 1, Status::ACCEPTED).price(500),
        Action::customer_status(10, 1, Status::CONFIRMED).price(500),
        Action::submit(20, RequestType::RESALE, 10)
            .path(1)
            .related(1)
            .span(1, 3)
            .flags(preconfirmed)
            .price(700)
            .profile(profiles.add(&[40, 60])),
        Action::seller_status(10, 2, Status::ACCEPTED).price(700),
        Action::submit(10, RequestType::REDIRECT_NON_FIRM, 1)
            .path(2)
            .related(1)
            .span(2, 4)
            .flags(preconfirmed)
            .profile(profiles.add(&[40, 50])),
        Action::seller_status(1, 3, Status::ACCEPTED),
        Action::submit(30, RequestType::RESALE, 10)
            .path(1)
            .related(1)
            .span(2, 3)
            .flags(preconfirmed)
            .profile(profiles.add(&[1])),
        Action::seller_status(10, 4, Status::ACCEPTED),
        Action::seller_status(1, 1, Status::DISPLACED),
        Action::submit(10, RequestType::RELINQUISH, 1)
            .path(2)
            .related(3)
            .span(3, 4)
            .flags(preconfirmed)
            .profile(profiles.add(&[20])),
        Action::seller_status(1, 5, Status::ACCEPTED),
        Action::seller_status(10, 2, Status::ANNULLED),
        Action::seller_status(1, 3, Status::ANNULLED),
    ]
}

fn main() -> Result<ExitCode, Refusal> {
    let mut ledger = Ledger::create(8, 4, 1, 3_600, 0)?;
    let mut postings = Postings::none(&ledger);
    let mut profiles = Profiles::new();
    let beforehand = beforehand(&mut profiles);
    let list = list(&mut profiles);
    let posted = ledger.answers(&mut postings, profiles.words(), &beforehand);
    let mut agrees = posted == [Answer::default(); 2];
    for (number, (action, expected)) in (1..).zip(list.iter().zip(LINES)) {
        let answer = ledger.act(&mut postings, profiles.words(), action);
        let line = format!("{number} {answer}");
        println!("{line}");
        agrees &= line == expected;
    }
    let one = ledger.row(1).ok_or(Refusal::NO_SUCH_REFERENCE)?;
    let three = ledger.row(3).ok_or(Refusal::NO_SUCH_REFERENCE)?;
    agrees &= one.displaced == [100, 100, 60, 70] && three.available[2..] == [40, 30];
    agrees &= (1..=5).all(|row| ledger.row(row).is_some_and(|row| row.reduced == [0; 4]));
    agrees &= (1..=2).all(|path| postings.path(path) == Some(&[100; 4]));

    // The same handed over together.
    let mut together = Ledger::create(8, 4, 1, 3_600, 0)?;
    let mut together_posted = Postings::none(&together);
    let all = [&beforehand[..], &list].concat();
    let answers = together.answers(&mut together_posted, profiles.words(), &all);
    agrees &= answers[2..]
        .iter()
        .zip(1..)
        .zip(LINES)
        .all(|((answer, number), line)| format!("{number} {answer}") == line);
    agrees &= together == ledger && together_posted == postings;

    // As it would be opened tomorrow.
    let opened = Ledger::open(together.words())?;
    agrees &= opened == ledger;
    Ok(if agrees { ExitCode::SUCCESS } else { ExitCode::FAILURE })
}
