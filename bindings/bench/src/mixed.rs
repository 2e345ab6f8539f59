//! A day of 400 mixed actions that fills a ledger of 64 rows and 24 hours on four
//! paths, from nothing posted: of every 50, 39 are accepted and 11 refused.

use luddrisa::{Action, Flags, Profiles, RequestType, Status};

use crate::{HOLDER, PROVIDER};

pub const ROWS: u32 = 64;
pub const HOURS: u32 = 24;

/// Rows of one group.
const GROUP: u32 = 8;

pub struct Mixed {
    pub profiles: Vec<u32>,
    pub actions: Vec<Action>,
}

pub fn mixed() -> Mixed {
    let mut profiles = Profiles::new();
    let whole = profiles.add(&[1_000; HOURS as usize]);
    let day_less = profiles.add(&[1; HOURS as usize]);
    let part = profiles.add(&[10; 8]);
    let part_less = profiles.add(&[1; 8]);
    let part_more = profiles.add(&[11; 8]);
    let carries = profiles.add(&[20_000; HOURS as usize]);
    let carries_more = profiles.add(&[21_000; 8]);
    let carries_little = profiles.add(&[500; HOURS as usize]);
    let preconfirmed = Flags::PRECONFIRMED;
    let mut actions = Vec::new();
    for group in 0..ROWS / GROUP {
        let original = group * GROUP + 1;
        let path = group % 2 * 2 + 1;
        let detour = path + 1;
        let [resale, redirect, relinquish, transfer, firm, resold, full] =
            [1, 2, 3, 4, 5, 6, 7].map(|n| original + n);
        // Hours 8 to 16 of a related row.
        let submit = |actor, reqtype, seller, related| {
            let action = Action::submit(actor, reqtype, seller).path(path);
            action.related(related).span(8, 16).profile(part)
        };
        let seller = Action::seller_status;
        let customer = Action::customer_status;
        actions.extend([
            Action::post(PROVIDER, path).span(0, HOURS).profile(carries),
            Action::post(PROVIDER, detour).span(0, HOURS).profile(carries),
            // An original, haggled over.
            Action::submit(HOLDER, RequestType::ORIGINAL_FIRM, PROVIDER)
                .path(path)
                .span(0, HOURS)
                .price(500)
                .profile(whole),
            seller(PROVIDER, original, Status::RECEIVED),
            seller(PROVIDER, original, Status::STUDY),
            seller(PROVIDER, original, Status::COUNTEROFFER).price(600).profile(whole),
            customer(HOLDER, original, Status::REBID).price(550),
            seller(PROVIDER, original, Status::COUNTEROFFER).price(580),
            customer(HOLDER, original, Status::CONFIRMED).price(580),
            // A resale, a redirect to another path and its return, a transfer.
            submit(20, RequestType::RESALE, HOLDER, original).flags(preconfirmed),
            seller(HOLDER, resale, Status::ACCEPTED),
            submit(HOLDER, RequestType::REDIRECT_NON_FIRM, PROVIDER, original)
                .path(detour)
                .flags(preconfirmed),
            seller(PROVIDER, redirect, Status::ACCEPTED),
            submit(HOLDER, RequestType::RELINQUISH, PROVIDER, redirect)
                .path(detour)
                .flags(preconfirmed),
            seller(PROVIDER, relinquish, Status::ACCEPTED),
            submit(30, RequestType::PART_TRANSFER, HOLDER, original).flags(preconfirmed),
            seller(HOLDER, transfer, Status::ACCEPTED),
            Action::approve(PROVIDER, transfer),
            // A full transfer of a resale of a firm redirect.
            submit(HOLDER, RequestType::REDIRECT_FIRM, PROVIDER, original).path(detour),
            seller(PROVIDER, firm, Status::ACCEPTED),
            Action::lapse(PROVIDER, firm), // 16
            customer(HOLDER, firm, Status::CONFIRMED),
            submit(40, RequestType::RESALE, HOLDER, firm).path(detour).flags(preconfirmed),
            seller(HOLDER, resold, Status::ACCEPTED),
            submit(50, RequestType::FULL_TRANSFER, 40, resold).path(detour).flags(preconfirmed),
            seller(40, full, Status::ACCEPTED),
            Action::approve(PROVIDER, full),
        ]);
        actions.extend([Action::reduce(PROVIDER, original, day_less); 5]);
        actions.extend([
            Action::post(PROVIDER, detour).span(8, 16).profile(carries_more),
            Action::post(PROVIDER, path).span(0, HOURS).profile(carries_little), // 22
            submit(20, RequestType::RESALE, HOLDER, original).path(detour),      // 21
            Action::clock(PROVIDER, group),
            seller(PROVIDER, original, Status::ANNULLED), // 15
            Action::reduce(PROVIDER, resale, part_more),  // 14
            Action::lapse(PROVIDER, 999),                 // 4
            submit(20, RequestType::RESALE, HOLDER, original).span(8, 99), // 6
            submit(20, RequestType::RESALE, HOLDER, 999), // 9
            seller(20, resale, Status::DISPLACED),        // 3
            customer(20, resale, Status::WITHDRAWN),      // 11
            Action::reduce(PROVIDER, resale, part_less),
            // Taken back from the far end.
            seller(40, full, Status::ANNULLED),
            seller(HOLDER, resold, Status::ANNULLED),
            seller(PROVIDER, firm, Status::ANNULLED),
            seller(HOLDER, resale, Status::DISPLACED),
            Action::reduce(PROVIDER, transfer, part),
            Action { kind: 9, actor: PROVIDER, ..Action::default() }, // 2
        ]);
    }
    Mixed { profiles: profiles.words().to_vec(), actions }
}

#[cfg(test)]
mod tests {
    use super::*;
    use luddrisa::{Ledger, Postings};

    #[test]
    fn the_day_is_as_mixed_as_it_says() {
        let mixed = mixed();
        assert_eq!(mixed.actions.len(), 400);
        let mut ledger = Ledger::create(ROWS, HOURS, PROVIDER, 3_600, 0).unwrap();
        let mut postings = Postings::none(&ledger);
        let answers = ledger.answers(&mut postings, &mixed.profiles, &mixed.actions);
        for fifty in answers.chunks(50) {
            let refused: Vec<_> =
                fifty.iter().map(|answer| answer.number).filter(|&number| number != 0).collect();
            assert_eq!(refused, [16, 22, 21, 15, 14, 4, 6, 9, 3, 11, 2]);
        }
        assert_eq!(ledger.head().unwrap().used, ROWS);
    }
}
