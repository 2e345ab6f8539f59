//! The ledger that owns its words, and its postings.

use luddrisa::{
    read_stamp, write_stamp, Action, Answer, Contest, Flags, Ledger, Move, Postings, ProfileAt,
    Profiles, Refusal, Reply, RequestType, Status, Zone,
};

/// Customer 10's original of 100 MW over 4 hours, preconfirmed and accepted, on
/// path 3, which is posted at as much.
fn with_an_original() -> (Ledger, Postings) {
    let mut ledger = Ledger::create(2, 4, 1, 3_600, 7).unwrap();
    let mut postings = Postings::none(&ledger);
    let mut profiles = Profiles::new();
    let all_day = profiles.add(&[100; 4]);
    let list = [
        Action::post(1, 3).span(0, 4).profile(all_day),
        Action::submit(10, RequestType::ORIGINAL_FIRM, 1)
            .path(3)
            .span(0, 4)
            .flags(Flags::PRECONFIRMED)
            .price(500)
            .profile(all_day),
        Action::seller_status(1, 1, Status::ACCEPTED).price(500),
    ];
    let answers = ledger.answers(&mut postings, profiles.words(), &list);
    assert_eq!(answers[0], Answer::default());
    assert_eq!(answers[2].to_string(), "0 1 1 13 400");
    (ledger, postings)
}

#[test]
fn rows_are_shown_by_name() {
    let (ledger, _) = with_an_original();
    let head = ledger.head().unwrap();
    assert_eq!((head.rows, head.hours, head.provider, head.window), (2, 4, 1, 3_600));
    assert_eq!((head.base, head.now, head.used), (7, 0, 1));
    let row = ledger.row(1).unwrap();
    assert_eq!((row.reqtype, row.status), (RequestType::ORIGINAL_FIRM, Status::CONFIRMED));
    assert_eq!((row.customer, row.seller, row.related), (10, 1, 0));
    assert_eq!((row.start, row.stop, row.bid, row.offer, row.limit), (0, 4, 500, 500, 3_600));
    assert_eq!(row.path, 3);
    assert_eq!(row.flags.to_string(), "preconfirmed, granted given, offer given");
    assert_eq!((row.requested, row.granted), (&[100; 4][..], &[100; 4][..]));
    assert_eq!((row.available, row.displaced), (&[100; 4][..], &[0; 4][..]));
    assert_eq!(row.reduced, [0; 4]);
    assert_eq!((ledger.row(0), ledger.row(2)), (None, None));
    assert_eq!(ledger.profile_in_force(1), [100; 4]);
    assert!(ledger.profile_in_force(2).is_empty());
    assert_eq!(ledger.charge(1), Ok(8_333));
    assert_eq!(ledger.charge(2), Err(Refusal::NO_SUCH_REFERENCE));
}

#[test]
fn words_are_kept_and_come_back() {
    let (ledger, postings) = with_an_original();
    let again = Ledger::open(ledger.words()).unwrap();
    assert_eq!(again, ledger);
    assert!(again.is_sound());
    assert_eq!(again.into_words(), ledger.words());
    let again = Postings::from_words(postings.words().to_vec());
    assert_eq!(again, postings);
    assert_eq!(again.into_words(), postings.words());
}

/// A day with a resale, a redirect of which some is given back, a reduction and a
/// displacement.
fn after_a_day() -> Ledger {
    let mut ledger = Ledger::create(8, 4, 1, 3_600, 0).unwrap();
    let mut postings = Postings::none(&ledger);
    let mut profiles = Profiles::new();
    let all_day = profiles.add(&[100; 4]);
    let part = profiles.add(&[40, 60]);
    let less = profiles.add(&[10, 20]);
    let derived = |actor, reqtype, seller, related, at| {
        Action::submit(actor, reqtype, seller)
            .path(1)
            .related(related)
            .span(1, 3)
            .flags(Flags::PRECONFIRMED)
            .profile(at)
    };
    let list = [
        Action::post(1, 1).span(0, 4).profile(all_day),
        Action::submit(10, RequestType::ORIGINAL_FIRM, 1)
            .path(1)
            .span(0, 4)
            .flags(Flags::PRECONFIRMED)
            .profile(all_day),
        Action::seller_status(1, 1, Status::ACCEPTED),
        derived(20, RequestType::RESALE, 10, 1, less),
        Action::seller_status(10, 2, Status::ACCEPTED),
        derived(10, RequestType::REDIRECT_NON_FIRM, 1, 1, part),
        Action::seller_status(1, 3, Status::ACCEPTED),
        derived(10, RequestType::RELINQUISH, 1, 3, less),
        Action::seller_status(1, 4, Status::ACCEPTED),
        Action::reduce(1, 3, less),
        Action::seller_status(10, 2, Status::DISPLACED),
        derived(30, RequestType::RESALE, 10, 1, part),
    ];
    let answers = ledger.answers(&mut postings, profiles.words(), &list);
    assert!(answers.iter().all(Answer::is_accepted), "{answers:?}");
    ledger
}

/// Where a profile of a row begins, over four hours.
fn profile_at(reference: usize, profile: usize) -> usize {
    8 + (reference - 1) * (16 + 5 * 4) + 16 + profile * 4
}

#[test]
fn a_stored_day_opens() {
    let day = after_a_day();
    let redirect = day.row(3).unwrap();
    assert_eq!(redirect.available, [0, 20, 20, 0]);
    assert_eq!(redirect.reduced, [0, 10, 20, 0]);
    let stored = day.words().to_vec();
    let again = Ledger::open(&stored).unwrap();
    assert_eq!(again, day);
    assert_eq!(again.into_words(), stored);
    // With no row used, and after one action.
    for ledger in [Ledger::create(1_024, 1, 1, 1, 0).unwrap(), with_an_original().0] {
        assert_eq!(Ledger::open(ledger.words()).as_ref(), Ok(&ledger));
    }
}

#[test]
fn an_hour_that_does_not_balance_is_not_opened() {
    let stored = after_a_day().into_words();
    let not_opened = |words: Vec<u32>| {
        assert_eq!(Ledger::open(&words), Err(Refusal::UNBALANCED));
        assert!(Ledger::from_words_unopened(words).is_sound());
    };
    // An available word of the original, of the resale that is DISPLACED, of the redirect,
    // of its relinquish record, and of the resale that is still QUEUED.
    for reference in 1..=5 {
        let mut words = stored.clone();
        words[profile_at(reference, 2) + 2] += 1;
        not_opened(words);
    }
    // The relinquish record says 9 MW instead of 10 in hour 1.
    let mut words = stored.clone();
    words[profile_at(4, 1) + 1] -= 1;
    not_opened(words);
    // The relinquish record lost its status.
    let mut words = stored.clone();
    words[profile_at(4, 0) - 15] = Status::ANNULLED.0;
    not_opened(words);
    // A megawatt of the redirect moved from hour 1 to hour 2.
    let mut words = stored.clone();
    words[profile_at(3, 2) + 1] -= 1;
    words[profile_at(3, 2) + 2] += 1;
    not_opened(words);
    // From available to reduced every hour still balances.
    let mut words = stored;
    words[profile_at(3, 2) + 1] -= 1;
    words[profile_at(3, 4) + 1] += 1;
    assert!(Ledger::open(&words).is_ok());
}

#[test]
fn an_unsound_ledger_is_not_opened() {
    let stored = after_a_day().into_words();
    let mut words = stored.clone();
    // Unbalanced as well, but unsound comes first.
    words[profile_at(1, 2)] = 100_001;
    assert_eq!(Ledger::open(&words), Err(Refusal::UNSOUND));
    words[profile_at(1, 2)] = 100_000;
    assert_eq!(Ledger::open(&words), Err(Refusal::UNBALANCED));
    for len in [0, 1, 7, 8, stored.len() - 1] {
        assert_eq!(Ledger::open(&stored[..len]), Err(Refusal::UNSOUND));
    }
    let mut longer = stored;
    longer.push(0);
    assert_eq!(Ledger::open(&longer), Err(Refusal::UNSOUND));
}

#[test]
fn a_ledger_that_does_not_open_can_be_shown() {
    let mut words = after_a_day().into_words();
    words[profile_at(1, 2)] -= 1;
    let refusal = Ledger::open(&words).unwrap_err();
    let shown = Ledger::from_words_unopened(words.clone());
    assert_eq!(refusal.to_string(), "some hour of the ledger does not balance");
    assert_eq!(shown.row(1).unwrap().available, [99, 60, 40, 100]);
    assert_eq!(shown.into_words(), words);
}

#[test]
fn postings_are_shown_by_path_and_hour() {
    let (_, postings) = with_an_original();
    assert_eq!((postings.hours(), postings.words().len()), (4, 256));
    assert_eq!(postings.path(3), Some(&[100; 4][..]));
    assert_eq!((postings.path(2), postings.path(64)), (Some(&[0; 4][..]), Some(&[0; 4][..])));
    assert_eq!((postings.path(0), postings.path(65), postings.path(u32::MAX)), (None, None, None));
    assert_eq!((postings.posted(3, 3), postings.posted(4, 0)), (Some(100), Some(0)));
    assert_eq!((postings.posted(3, 4), postings.posted(0, 0)), (None, None));
    assert_eq!(postings.words()[8..12], [100; 4]);
    // Nothing posted, for the hours of any words.
    assert!(Postings::none(&Ledger::from_words_unopened(vec![1; 7])).words().is_empty());
    for (hours, words) in [(0, 0), (1, 64), (744, 64 * 744), (745, 0), (u32::MAX, 0)] {
        let ledger = Ledger::from_words_unopened(vec![1, hours, 1, 1, 1, 1, 1, 1]);
        let none = Postings::none(&ledger);
        assert_eq!(none.words(), vec![0; words]);
        assert_eq!(none.posted(1, 0), (words > 0).then_some(0));
    }
}

#[test]
fn a_path_is_used_up_to_its_posting() {
    let (mut ledger, mut postings) = with_an_original();
    let words = [100, 100, 99, 100, 1];
    let lower = Action::post(1, 3).span(0, 4).profile(ProfileAt { offset: 0, length: 4 });
    let more = Action::submit(10, RequestType::ORIGINAL_NON_FIRM, 1)
        .path(3)
        .span(1, 2)
        .flags(Flags::PRECONFIRMED)
        .profile(ProfileAt { offset: 4, length: 1 });
    let list = [
        lower,
        more.path(65),
        more,
        Action::seller_status(1, 2, Status::ACCEPTED),
        Action::post(10, 3).span(0, 4).profile(ProfileAt { offset: 0, length: 4 }),
    ];
    let before = postings.clone();
    let answers = ledger.answers(&mut postings, &words, &list);
    let refusals: Vec<_> = answers.iter().map(Answer::refusal).collect();
    assert_eq!(
        refusals,
        [
            Some(Refusal::OVER_POSTED),
            Some(Refusal::WRONG_PATH),
            None,
            Some(Refusal::OVER_POSTED),
            Some(Refusal::WRONG_PARTY)
        ]
    );
    assert_eq!(postings, before);
    let raise = Action::post(1, 3).span(1, 2).profile(ProfileAt { offset: 5, length: 1 });
    assert!(ledger.act(&mut postings, &[0, 0, 0, 0, 0, 101], &raise).is_accepted());
    assert_eq!(postings.path(3), Some(&[100, 101, 100, 100][..]));
    let accept = Action::seller_status(1, 2, Status::ACCEPTED);
    assert_eq!(ledger.act(&mut postings, &[], &accept).moved, 1);
}

#[test]
fn a_countered_row_is_withdrawn_after_a_rebid() {
    let (mut ledger, mut postings) = with_an_original();
    let mut profiles = Profiles::new();
    let request = Action::submit(20, RequestType::ORIGINAL_NON_FIRM, 1)
        .path(3)
        .span(1, 3)
        .flags(Flags::PRECONFIRMED)
        .price(500)
        .profile(profiles.add(&[40, 60]));
    let counteroffer = Action::seller_status(1, 2, Status::COUNTEROFFER)
        .price(600)
        .profile(profiles.add(&[40, 30]));
    let rebid = Action::customer_status(20, 2, Status::REBID).price(550);
    let withdraw = Action::customer_status(20, 2, Status::WITHDRAWN);
    const COUNTERED: &str = "preconfirmed, granted given, offer given, countered";
    for (action, line, flags) in [
        (request, "0 2 0 1 0", "preconfirmed"),
        (withdraw, "11 0 0 0 0", "preconfirmed"),
        (counteroffer, "0 2 1 6 0", COUNTERED),
        (rebid, "0 2 6 8 0", COUNTERED),
        (withdraw, "0 2 8 14 0", COUNTERED),
    ] {
        assert_eq!(ledger.act(&mut postings, profiles.words(), &action).to_string(), line);
        assert_eq!(ledger.row(2).unwrap().flags.to_string(), flags);
    }
    assert!(ledger.row(2).unwrap().flags.has(Flags::COUNTERED));
    // It is the ledger's to set, and goes up to 63 with the others.
    let brought = request.flags(Flags::PRECONFIRMED | Flags::COUNTERED);
    let answer = ledger.act(&mut postings, profiles.words(), &brought);
    assert_eq!(answer.refusal(), Some(Refusal::WRONG_FLAGS));
    let flags_at = 8 + (16 + 5 * 4) + 7;
    for (flags, is_sound) in [(63, true), (64, false)] {
        let mut words = ledger.words().to_vec();
        words[flags_at] = flags;
        assert_eq!(Ledger::from_words_unopened(words).is_sound(), is_sound);
    }
}

#[test]
fn what_was_cut_is_kept_in_the_row() {
    let (mut ledger, mut postings) = with_an_original();
    let mut profiles = Profiles::new();
    let outage = Action::reduce(1, 1, profiles.add(&[0, 30, 40, 0]));
    let later = Action::reduce(1, 1, profiles.add(&[5, 0, 60, 0]));
    let answers = ledger.answers(&mut postings, profiles.words(), &[outage, later, outage]);
    let lines: Vec<_> = answers.iter().map(Answer::to_string).collect();
    assert_eq!(lines, ["0 1 13 13 70", "0 1 13 13 65", "14 0 0 0 0"]);
    let row = ledger.row(1).unwrap();
    assert_eq!((row.available, row.reduced), (&[95, 70, 0, 100][..], &[5, 30, 100, 0][..]));
    assert_eq!(row.displaced, [0; 4]);
    // The charge goes by what was granted.
    assert_eq!(ledger.charge(1), Ok(8_333));
    let displace = Action::seller_status(1, 1, Status::DISPLACED);
    assert_eq!(ledger.act(&mut postings, &[], &displace).to_string(), "0 1 13 15 265");
    let row = ledger.row(1).unwrap();
    assert_eq!((row.displaced, row.reduced), (&[95, 70, 0, 100][..], &[5, 30, 100, 0][..]));
}

#[test]
fn no_more_than_100_000_are_kept() {
    let (ledger, mut postings) = with_an_original();
    // The reduced words are the last of the row: here one of them stands at the bound.
    let mut words = ledger.into_words();
    let row_end = 8 + 16 + 5 * 4;
    words[row_end - 2] = 100_000;
    let mut ledger = Ledger::from_words_unopened(words.clone());
    assert!(ledger.is_sound());
    assert_eq!(ledger.row(1).unwrap().reduced, [0, 0, 100_000, 0]);
    let cut = Action::reduce(1, 1, ProfileAt { offset: 0, length: 4 });
    let answer = ledger.act(&mut postings, &[1, 0, 1, 0], &cut);
    assert_eq!(answer.refusal(), Some(Refusal::UNSOUND));
    assert_eq!(ledger.words(), words);
    assert!(ledger.act(&mut postings, &[1, 0, 0, 0], &cut).is_accepted());
    assert_eq!(ledger.row(1).unwrap().reduced, [1, 0, 100_000, 0]);
    // Over the bound it is no ledger.
    words[row_end - 2] = 100_001;
    assert!(!Ledger::from_words_unopened(words).is_sound());
}

#[test]
fn rows_of_four_profiles_are_no_ledger() {
    let (ledger, mut postings) = with_an_original();
    let words = ledger.words();
    // Two rows of 16 fields, and of 4 profiles over 4 hours instead of 5.
    let old: Vec<u32> = words[..8]
        .iter()
        .chain(words[8..].chunks(36).flat_map(|row| &row[..32]))
        .copied()
        .collect();
    assert_eq!((words.len(), old.len()), (8 + 2 * 36, 8 + 2 * 32));
    let mut old = Ledger::from_words_unopened(old);
    assert!(!old.is_sound());
    let answer = old.act(&mut postings, &[], &Action::clock(1, 1));
    assert_eq!(answer.refusal(), Some(Refusal::UNSOUND));
}

#[test]
fn any_postings_are_answered() {
    let (ledger, good) = with_an_original();
    let mut high = good.words().to_vec();
    high[255] = 100_001;
    for words in [vec![], vec![0; 64], vec![0; 255], vec![0; 257], high] {
        let mut ledger = ledger.clone();
        let mut postings = Postings::from_words(words.clone());
        let answer = ledger.act(&mut postings, &[], &Action::clock(1, 1));
        assert_eq!(answer.refusal(), Some(Refusal::UNSOUND));
        assert_eq!(ledger, with_an_original().0);
        assert!(postings.path(64).is_some());
        assert_eq!(postings.into_words(), words);
    }
}

#[test]
fn any_words_are_answered() {
    for words in [vec![], vec![5; 3], vec![u32::MAX; 8], vec![1; 400]] {
        let mut ledger = Ledger::from_words_unopened(words.clone());
        let mut postings = Postings::none(&ledger);
        assert!(!ledger.is_sound());
        let answer = ledger.act(&mut postings, &[], &Action::clock(1, 1));
        assert_eq!(answer.refusal(), Some(Refusal::UNSOUND));
        assert_eq!(ledger.charge(1), Err(Refusal::UNSOUND));
        assert!(ledger.profile_in_force(1).is_empty());
        assert_eq!(ledger.head().is_some(), words.len() >= 8);
        assert_eq!(ledger.into_words(), words);
    }
}

#[test]
fn creation_out_of_range_is_refused() {
    for (rows, hours) in [(0, 1), (1, 0), (1_025, 1), (1, 745), (u32::MAX, u32::MAX)] {
        assert_eq!(Ledger::create(rows, hours, 1, 1, 0), Err(Refusal::UNSOUND));
    }
    assert_eq!(Ledger::create(1, 1, 1, 1, 876_600), Err(Refusal::UNSOUND));
    assert!(Ledger::create(1_024, 744, 65_535, 2_592_000, 875_856).is_ok());
}

#[test]
fn too_few_places_do_nothing() {
    let (mut ledger, mut postings) = with_an_original();
    let before = ledger.clone();
    let list = [Action::clock(1, 5), Action::clock(1, 6)];
    let mark = Answer { number: 7, reference: 7, before: 7, after: 7, moved: 7 };
    let mut one = [mark];
    let given = ledger.batch(&mut postings, &[], &list, &mut one);
    assert_eq!(given, Err(Refusal::TOO_FEW_ANSWERS));
    assert_eq!((one, &ledger), ([mark], &before));
    let mut three = [mark; 3];
    assert_eq!(ledger.batch(&mut postings, &[], &list, &mut three), Ok(()));
    assert_eq!(three, [Answer::default(), Answer::default(), mark]);
    assert_eq!(ledger.head().unwrap().now, 6);
}

/// Customer 10 holds 50 MW in hours 2 and 3 of eight and has resold 20 of them to 20.
fn with_a_resale() -> (Ledger, Postings) {
    let mut ledger = Ledger::create(4, 8, 1, 3_600, 0).unwrap();
    let mut postings = Postings::none(&ledger);
    let mut profiles = Profiles::new();
    let two_hours = |action: Action| action.path(3).span(2, 4).flags(Flags::PRECONFIRMED);
    let list = [
        Action::post(1, 3).span(0, 8).profile(profiles.add(&[50; 8])),
        two_hours(Action::submit(10, RequestType::ORIGINAL_FIRM, 1))
            .profile(profiles.add(&[50, 50])),
        Action::seller_status(1, 1, Status::ACCEPTED),
        two_hours(Action::submit(20, RequestType::RESALE, 10))
            .related(1)
            .profile(profiles.add(&[20, 20])),
        Action::seller_status(10, 2, Status::ACCEPTED),
    ];
    let answers = ledger.answers(&mut postings, profiles.words(), &list);
    assert!(answers.iter().all(Answer::is_accepted), "{answers:?}");
    (ledger, postings)
}

/// The challenger can go to 6 hours, the holder to 4.
const FOR_THE_ORIGINAL: Contest = Contest { actor: 1, reference: 1, challenger: 6, holder: 4 };

fn terms(hours: &[u32]) -> Vec<Move> {
    hours.iter().map(|&hours| Move::term(hours).unwrap()).collect()
}

#[test]
fn a_contest_is_kept_unfinished_or_lost() {
    use Reply::{Match, Yield};
    let (start, postings) = with_a_resale();
    let stop = |hours: &[u32]| [&terms(hours)[..], &[Move::Stop]].concat();
    let stands = "0 1 13 13 0";
    let lost = "0 1 13 15 60";
    let refused = "25 0 0 0 0";
    let cases: [(Vec<Move>, &[Reply], &str); 14] = [
        (stop(&[]), &[], stands),
        (stop(&[3]), &[Match], stands),
        (stop(&[3, 4]), &[Match, Match], stands),
        (vec![], &[], stands),
        (vec![], &[Yield], stands),
        (terms(&[3]), &[], stands),
        (terms(&[3, 4]), &[Match, Match], stands),
        (terms(&[3]), &[Yield], lost),
        (terms(&[3, 4, 6]), &[Match, Match, Yield], lost),
        (terms(&[6, 1]), &[Yield, Match, Match], lost),
        (terms(&[2]), &[Yield], refused),
        (terms(&[3, 3]), &[Match, Yield], refused),
        (terms(&[7]), &[], refused),
        (terms(&[3, 5]), &[Match, Match], refused),
    ];
    for (moves, replies, expected) in cases {
        let mut ledger = start.clone();
        let answer = ledger.contest(&postings, &FOR_THE_ORIGINAL, &moves, replies);
        assert_eq!(answer.to_string(), expected, "{moves:?} {replies:?}");
        assert_eq!(answer.displaces(), expected == lost);
        assert_eq!(ledger != start, expected == lost);
        if expected == refused {
            assert_eq!(answer.refusal(), Some(Refusal::TERM_OUT_OF_RANGE));
        }
    }
}

#[test]
fn a_lost_contest_is_that_displacement() {
    let (mut ledger, mut postings) = with_a_resale();
    let mut displaced = ledger.clone();
    let posted = postings.clone();
    let by_action = displaced.act(&mut postings, &[], &FOR_THE_ORIGINAL.displacement());
    let lost = ledger.contest(&postings, &FOR_THE_ORIGINAL, &terms(&[5]), &[Reply::Yield]);
    assert_eq!((lost, &ledger), (by_action, &displaced));
    assert_eq!(postings, posted);
    let row = ledger.row(1).unwrap();
    assert_eq!((row.status, row.start, row.stop), (Status::DISPLACED, 2, 4));
    assert_eq!((row.available, row.displaced), (&[0; 8][..], &[0, 0, 30, 30, 0, 0, 0, 0][..]));
    assert_eq!(ledger.row(2).unwrap().status, Status::CONFIRMED);
    assert!(Ledger::open(ledger.words()).is_ok());
    // It can't be lost again.
    let again = ledger.contest(&postings, &FOR_THE_ORIGINAL, &[], &[]);
    assert_eq!(again.refusal(), Some(Refusal::WRONG_MOVE));
}

#[test]
fn a_contest_is_the_sellers() {
    let (mut ledger, postings) = with_a_resale();
    let for_the_resale = |actor| Contest { actor, reference: 2, ..FOR_THE_ORIGINAL };
    for (contest, refusal) in [
        (Contest { actor: 10, ..FOR_THE_ORIGINAL }, Refusal::WRONG_PARTY),
        (Contest { actor: 0, ..FOR_THE_ORIGINAL }, Refusal::WRONG_PARTY),
        (Contest { reference: 3, ..FOR_THE_ORIGINAL }, Refusal::NO_SUCH_REFERENCE),
        (for_the_resale(1), Refusal::WRONG_PARTY),
        (for_the_resale(20), Refusal::WRONG_PARTY),
        (Contest { challenger: 0, ..FOR_THE_ORIGINAL }, Refusal::TERM_OUT_OF_RANGE),
        (Contest { challenger: 9, ..FOR_THE_ORIGINAL }, Refusal::TERM_OUT_OF_RANGE),
        (Contest { holder: 9, ..FOR_THE_ORIGINAL }, Refusal::TERM_OUT_OF_RANGE),
        (Contest { holder: 1, ..FOR_THE_ORIGINAL }, Refusal::TERM_OUT_OF_RANGE),
    ] {
        let answer = ledger.contest(&postings, &contest, &terms(&[3]), &[Reply::Yield]);
        assert_eq!(answer, Answer { number: refusal.0, ..Answer::default() }, "{contest:?}");
    }
    // All hours can be a greatest term, and the row's own those of the holder.
    let widest = Contest { challenger: 8, holder: 2, ..for_the_resale(10) };
    let lost = ledger.contest(&postings, &widest, &terms(&[8]), &[Reply::Yield]);
    assert_eq!(lost.to_string(), "0 2 13 15 40");
    // Nothing comes back to the row it was bought from.
    assert_eq!(ledger.row(1).unwrap().available[2..4], [30, 30]);
}

#[test]
fn rows_that_are_not_firm_are_not_contested() {
    let (mut ledger, mut postings) = with_a_resale();
    let words = [5];
    let one_hour = ProfileAt { offset: 0, length: 1 };
    let redirect = Action::submit(10, RequestType::REDIRECT_NON_FIRM, 1)
        .path(3)
        .related(1)
        .span(2, 3)
        .flags(Flags::PRECONFIRMED)
        .profile(one_hour);
    let accept = Action::seller_status(1, 3, Status::ACCEPTED);
    assert_eq!(ledger.answers(&mut postings, &words, &[redirect, accept])[1].moved, 5);
    let contest = Contest { reference: 3, ..FOR_THE_ORIGINAL };
    let before = ledger.clone();
    let answer = ledger.contest(&postings, &contest, &terms(&[3]), &[Reply::Yield]);
    assert_eq!(answer.refusal(), Some(Refusal::WRONG_MOVE));
    assert_eq!(ledger, before);
    // Its seller can displace it all the same.
    assert!(ledger.act(&mut postings, &[], &contest.displacement()).displaces());
}

#[test]
fn any_words_are_contested() {
    let (start, good) = with_a_resale();
    for postings in [vec![], vec![0; 64 * 8 - 1], vec![100_001; 64 * 8]] {
        let mut ledger = start.clone();
        let postings = Postings::from_words(postings);
        let answer = ledger.contest(&postings, &FOR_THE_ORIGINAL, &terms(&[3]), &[Reply::Yield]);
        assert_eq!((answer.refusal(), &ledger), (Some(Refusal::UNSOUND), &start));
    }
    for words in [vec![], vec![5; 3], vec![u32::MAX; 8], vec![1; 400]] {
        let mut ledger = Ledger::from_words_unopened(words.clone());
        let answer = ledger.contest(&good, &FOR_THE_ORIGINAL, &terms(&[3]), &[Reply::Yield]);
        assert_eq!(answer.refusal(), Some(Refusal::UNSOUND));
        assert_eq!(ledger.into_words(), words);
    }
    // A displaced word would pass 100,000: told where the row is lost, and only there.
    let mut words = start.into_words();
    let displaced = 8 + 16 + 3 * 8 + 3;
    words[displaced] = 99_971;
    let mut ledger = Ledger::from_words_unopened(words);
    let mut run =
        |replies: &[Reply]| ledger.contest(&good, &FOR_THE_ORIGINAL, &terms(&[3]), replies);
    assert_eq!(run(&[Reply::Yield]).refusal(), Some(Refusal::UNSOUND));
    assert_eq!(run(&[Reply::Match]).to_string(), "0 1 13 13 0");
}

/// A confirmed row of customer 10 over both hours of the ledger, in as many actions as it
/// takes.
fn deal_row(
    profiles: &mut Profiles,
    reqtype: RequestType,
    (reference, related, path): (u32, u32, u32),
    mw: u32,
) -> [Action; 2] {
    let seller = if reqtype == RequestType::RESALE { 10 } else { 1 };
    let submitted = Action::submit(10, reqtype, seller)
        .path(path)
        .related(related)
        .span(0, 2)
        .flags(Flags::PRECONFIRMED)
        .profile(profiles.add(&[mw; 2]));
    [submitted, Action::seller_status(seller, reference, Status::ACCEPTED)]
}

/// Of 100 MW on path 1, 60 are resold, 50 of these redirected to path 2 and 20 of these
/// resold; path 1 is then sold out by a second original, and a last resale is still open.
fn with_a_deal_chain() -> (Ledger, Postings) {
    let mut ledger = Ledger::create(8, 2, 1, 3_600, 0).unwrap();
    let mut postings = Postings::none(&ledger);
    let mut profiles = Profiles::new();
    let full = profiles.add(&[100; 2]);
    let mut list = [1, 2].map(|path| Action::post(1, path).span(0, 2).profile(full)).to_vec();
    list.extend(deal_row(&mut profiles, RequestType::ORIGINAL_FIRM, (1, 0, 1), 100));
    list.extend(deal_row(&mut profiles, RequestType::RESALE, (2, 1, 1), 60));
    list.extend(deal_row(&mut profiles, RequestType::REDIRECT_FIRM, (3, 2, 2), 50));
    list.extend(deal_row(&mut profiles, RequestType::RESALE, (4, 3, 2), 20));
    list.extend(deal_row(&mut profiles, RequestType::ORIGINAL_FIRM, (5, 0, 1), 50));
    list.push(deal_row(&mut profiles, RequestType::RESALE, (6, 1, 1), 1)[0]);
    let answers = ledger.answers(&mut postings, profiles.words(), &list);
    assert!(answers.iter().all(Answer::is_accepted), "{answers:?}");
    (ledger, postings)
}

#[test]
fn a_deal_chain_is_unwound_from_its_end() {
    let (ledger, postings) = with_a_deal_chain();
    let before = (ledger.clone(), postings.clone());
    for (order, expected) in [
        (&[][..], true),
        (&[4], true),
        (&[5, 4, 3, 2, 1], true),
        (&[4, 5, 3, 2, 1], true),
        (&[4, 6, 5, 3, 2, 1], true),
        (&[5, 4, 3, 2, 1, 6], true),
        // Path 1 has no room for the redirect's return as long as 5 is there.
        (&[4, 3], false),
        (&[4, 3, 5, 2, 1], false),
        // What came from a row is still there.
        (&[3], false),
        (&[5, 3, 4], false),
        (&[5, 4, 2, 3], false),
        (&[1], false),
        // Named twice, or not there.
        (&[4, 4], false),
        (&[6, 5, 6], false),
        (&[0], false),
        (&[7], false),
        (&[5, 4, 3, 2, 1, 6, 7], false),
        (&[5, 4, u32::MAX], false),
    ] {
        assert_eq!(ledger.annuls_in_order(&postings, order), expected, "{order:?}");
    }
    assert_eq!((ledger, postings), before);
}

#[test]
fn what_can_be_unwound_is() {
    let (ledger, postings) = with_a_deal_chain();
    let order = [5, 4, 3, 2, 1];
    let annul = |&reference: &u32| {
        let seller = ledger.row(reference).unwrap().seller;
        Action::seller_status(seller, reference, Status::ANNULLED)
    };
    let list: Vec<_> = order.iter().map(annul).collect();
    let (mut after, mut posted) = (ledger.clone(), postings.clone());
    let answers = after.answers(&mut posted, &[], &list);
    assert!(answers.iter().all(Answer::is_accepted), "{answers:?}");
    assert!(ledger.annuls_in_order(&postings, &order));
    // They can't go again, but the open row still can.
    assert!(order.iter().all(|&reference| !after.annuls_in_order(&posted, &[reference])));
    assert!(after.annuls_in_order(&posted, &[6]));
}

#[test]
fn any_words_are_unwound() {
    let (ledger, good) = with_a_deal_chain();
    let mut high = good.words().to_vec();
    high[127] = 100_001;
    for words in [vec![], vec![0; 127], vec![0; 129], high] {
        let postings = Postings::from_words(words);
        assert!(ledger.annuls_in_order(&postings, &[]));
        assert!(
            !ledger.annuls_in_order(&postings, &[4]) && !ledger.annuls_in_order(&postings, &[6])
        );
    }
    for words in [vec![], vec![5; 3], vec![u32::MAX; 8], vec![1; 400]] {
        let ledger = Ledger::from_words_unopened(words);
        assert!(ledger.annuls_in_order(&good, &[]));
        assert!(!ledger.annuls_in_order(&good, &[1]) && !ledger.annuls_in_order(&good, &[0]));
    }
    // A word that would pass 100,000: 50 come back to a row that is no longer confirmed.
    let mut words = ledger.into_words();
    let resale = 8 + (16 + 5 * 2);
    words[resale + 1] = Status::DISPLACED.0;
    for (displaced, expected) in [(99_950, true), (99_951, false)] {
        words[resale + 16 + 3 * 2] = displaced;
        let ledger = Ledger::from_words_unopened(words.clone());
        assert_eq!(ledger.annuls_in_order(&good, &[4, 3]), expected, "{displaced}");
    }
}

#[test]
fn stamps_go_both_ways() {
    assert_eq!(read_stamp(b"20070423060000ES"), Ok(230_641_200));
    assert_eq!(&write_stamp(230_641_200, Zone::ES).unwrap(), b"20070423060000ES");
    assert_eq!(read_stamp(b"20070423220070ES"), Err(Refusal::NOT_A_STAMP));
    assert_eq!(write_stamp(17_999, Zone::ES), Err(Refusal::STAMP_OUT_OF_RANGE));
    assert_eq!(write_stamp(0, Zone(9)), Err(Refusal::STAMP_OUT_OF_RANGE));
}
