//! Contests: between the actions of lists from fresh ledgers, for any row of any sound
//! ledger, by strategies, and with words, fields and moves at their edges.

use luddrisa_model::*;

use crate::dense::{postings_of, sound_ledger};
use crate::limits::within;
use crate::lists::{next_action, small_numbers, turns, Mood, Words};
use crate::plays::{is_firm, own_hours, row_named, would_pass, Play};
use crate::rng::Rng;
use crate::rules::Rules;
use crate::run::{Desk, Difference, Run};

/// Keeps these numbers apart from those of the other generators.
const OWN_NUMBERS: u64 = 0x636f_6e74_6573_7473;

/// The words of the challenger's stop and of the holder's yield, and one of the many for
/// a match.
const STOPS: u32 = 0;
const YIELDS: u32 = 0;
const MATCHES: u32 = 1;

/// So many times all of these.
pub fn contests(run: &mut Run, seed: u64, count: u32) -> Result<(), Difference> {
    for number in 0..count {
        let seed = seed + u64::from(number);
        let rng = &mut Rng::new(seed ^ OWN_NUMBERS);
        one_seed(run, rng, number).map_err(|told| format!("contests, seed {seed}: {told}"))?;
    }
    Ok(())
}

fn one_seed(run: &mut Run, rng: &mut Rng, number: u32) -> Result<(), Difference> {
    any_ledger(run, rng)?;
    if number.is_multiple_of(2) {
        one_list(run, rng)?;
    }
    if number.is_multiple_of(20) {
        spoilt(run, rng)?;
    }
    Ok(())
}

// Contests for a row of any ledger.

/// A contest that may well be played, for a row of a sound ledger.
pub fn any_play(rng: &mut Rng, ledger: &[u32]) -> Play {
    let hours = ledger[HOURS];
    let reference = any_reference(rng, ledger);
    let row = row_named(ledger, reference);
    let present = row.map_or(1, |row| own_hours(ledger, row));
    let seller = row.map_or(ledger[PROVIDER], |row| row.get(ledger, SELLER));
    let actor = match rng.below(100) {
        0..92 => seller,
        92..95 => ledger[PROVIDER],
        95..97 => row.map_or(10, |row| row.get(ledger, CUSTOMER)),
        _ => rng.pick(&[10, 11, 0, MAX_ENTITY, MAX_ENTITY + 1, u32::MAX]),
    };
    let challenger = match rng.below(100) {
        0..60 => rng.from_to(present, hours),
        60..88 => hours,
        _ => rng.pick(&[0, 1, present - 1, present, present + 1, hours, hours + 1, u32::MAX]),
    };
    let holder = match rng.below(100) {
        0..60 => rng.from_to(present, hours),
        60..75 => present,
        75..88 => hours,
        _ => rng.pick(&[0, 1, present - 1, present, hours, hours + 1, u32::MAX]),
    };
    let contest = Contest { actor, reference, challenger, holder };
    any_moves(rng, contest, present, hours)
}

/// Mostly a firm CONFIRMED row with room for a longer term.
fn any_reference(rng: &mut Rng, ledger: &[u32]) -> u32 {
    let used = ledger[USED];
    if used == 0 || rng.chance(3) {
        return rng.pick(&[0, used + 1, u32::MAX]);
    }
    let longer = with_room(ledger);
    match rng.below(100) {
        0..65 if !longer.is_empty() => longer[rng.late(longer.len())],
        0..80 => {
            let held: Vec<u32> = (1..=used).filter(|&n| is_contestable(ledger, n)).collect();
            if held.is_empty() {
                rng.from_to(1, used)
            } else {
                rng.pick(&held)
            }
        }
        _ => rng.from_to(1, used),
    }
}

fn is_contestable(ledger: &[u32], reference: u32) -> bool {
    Row::of(ledger, reference).get(ledger, STATUS) == CONFIRMED && is_firm(ledger, reference)
}

/// The firm CONFIRMED rows for which a longer term can be named.
fn with_room(ledger: &[u32]) -> Vec<u32> {
    let longer = |reference: &u32| {
        is_contestable(ledger, *reference)
            && own_hours(ledger, Row::of(ledger, *reference)) < ledger[HOURS]
    };
    (1..=ledger[USED]).filter(longer).collect()
}

/// Moves that rise and replies that match most of the time, near the last term, the
/// greatest ones and the hours; cut short or going on after the end now and then.
fn any_moves(rng: &mut Rng, contest: Contest, present: u32, hours: u32) -> Play {
    let Contest { challenger, holder, .. } = contest;
    let mut last = present;
    let (mut moves, mut replies) = (Vec::new(), Vec::new());
    for _ in 0..rng.from_to(1, 5) {
        let next = last.saturating_add(1);
        let term = match rng.below(100) {
            0..8 => STOPS,
            8..50 => next,
            50..65 => challenger,
            65..88 if next <= challenger.min(hours) => rng.from_to(next, challenger.min(hours)),
            _ => rng.pick(&[
                1,
                present,
                last,
                last.wrapping_sub(1),
                challenger.wrapping_add(1),
                holder,
                holder.wrapping_add(1),
                hours,
                hours + 1,
                u32::MAX,
            ]),
        };
        let reply = match rng.below(100) {
            0..70 if term > holder => YIELDS,
            0..15 => YIELDS,
            15..65 => MATCHES,
            65..80 => term,
            _ => rng.pick(&[2, last, holder, hours, u32::MAX]),
        };
        moves.push(term);
        replies.push(reply);
        last = term;
    }
    match rng.below(100) {
        0..8 => moves.truncate(rng.below(moves.len() as u32) as usize),
        8..26 => replies.truncate(rng.below(replies.len() as u32) as usize),
        26..34 => replies.extend([YIELDS, MATCHES]),
        34..42 => moves.extend([STOPS, u32::MAX, 1]),
        42..44 => moves.clear(),
        44..46 => replies.clear(),
        _ => (),
    }
    Play { contest, moves, replies }
}

/// A sound ledger, mostly with a row that can be lost.
fn ledger_with_room(rng: &mut Rng, most_rows: u32, most_hours: u32) -> Vec<u32> {
    for _ in 0..5 {
        let ledger = sound_ledger(rng, most_rows, most_hours);
        if !with_room(&ledger).is_empty() {
            return ledger;
        }
    }
    sound_ledger(rng, most_rows, most_hours)
}

fn any_ledger(run: &mut Run, rng: &mut Rng) -> Result<(), Difference> {
    let ledger = ledger_with_room(rng, 6, 8);
    let start = Desk::new(&ledger, &postings_of(rng, &ledger));
    let mut desk = start.clone();
    for number in 0..16 {
        // Mostly for rows as built, now and then on from there.
        if number % 3 == 0 {
            desk = start.clone();
        }
        let play = any_play(rng, desk.ledger());
        let is_open = run.open(&desk.ledger)? == 0;
        run.contest(&mut desk, &play)?;
        if is_open {
            run.opens(&desk.ledger)?;
        }
    }
    strategies(run, rng, &start)?;
    on_wrong_grounds(run, rng, &start)
}

/// The same start with words that are no ledger or no postings.
pub(crate) fn wrong_grounds(rng: &mut Rng, start: &Desk) -> [Desk; 8] {
    let (ledger, postings) = (start.ledger(), start.postings());
    let mut over = start.clone();
    over.postings.set(rng.below(postings.len() as u32) as usize, MAX_MW + 1);
    let mut unsound = start.clone();
    unsound.ledger.set(rng.below(8) as usize, u32::MAX);
    let both = Desk::new(unsound.ledger(), &postings[1..]);
    [
        over,
        unsound,
        both,
        Desk::new(ledger, &[]),
        Desk::new(ledger, &postings[1..]),
        Desk::new(&ledger[1..], postings),
        Desk::new(&ledger[..ledger.len() - 1], postings),
        Desk::new(&[], postings),
    ]
}

/// A contest with such words, and the same by no entity.
fn on_wrong_grounds(run: &mut Run, rng: &mut Rng, start: &Desk) -> Result<(), Difference> {
    let play = any_play(rng, start.ledger());
    let by_none = Play { contest: Contest { actor: 0, ..play.contest }, ..play.clone() };
    for mut desk in wrong_grounds(rng, start) {
        for play in [&play, &by_none] {
            let answer = run.contest(&mut desk, play)?;
            assert_eq!(answer, Answer::refused(BAD_LEDGER));
        }
    }
    Ok(())
}

// Strategies.

/// A party's next move, from its greatest term, the row's own hours and the other's
/// moves so far.
type Strategy = fn(u32, u32, &[u32]) -> u32;

/// A challenger that can go further takes the row by either of these.
const TAKES: [Strategy; 2] =
    [|greatest, _, _| greatest, |_, present, replies| present + 1 + replies.len() as u32];

/// A holder that can go as far keeps the row by matching whatever is named.
const KEEPS: Strategy = |_, _, _| MATCHES;

/// Holders that never fall silent and match nothing that they can't.
const ANSWERS: [Strategy; 4] = [
    |_, _, _| YIELDS,
    match_while_it_can,
    |greatest, present, terms| {
        if terms.len() > 1 {
            YIELDS
        } else {
            match_while_it_can(greatest, present, terms)
        }
    },
    |greatest, present, terms| {
        let odd = terms.last().is_some_and(|term| term % 2 == 1);
        if odd {
            match_while_it_can(greatest, present, terms)
        } else {
            YIELDS
        }
    },
];

fn match_while_it_can(greatest: u32, _: u32, terms: &[u32]) -> u32 {
    match terms.last() {
        Some(&term) if term <= greatest => term,
        _ => YIELDS,
    }
}

/// The lists that two strategies give, to the first stop or yield. No contest has more
/// rounds than the greatest term has hours.
fn play_out(contest: Contest, present: u32, challenger: Strategy, holder: Strategy) -> Play {
    let mut play = Play { contest, moves: Vec::new(), replies: Vec::new() };
    while play.moves.len() <= contest.challenger as usize {
        let term = challenger(contest.challenger, present, &play.replies);
        play.moves.push(term);
        if term == STOPS {
            break;
        }
        let reply = holder(contest.holder, present, &play.moves);
        play.replies.push(reply);
        if reply == YIELDS {
            break;
        }
    }
    play
}

/// True where all terms before a stop outlast each other and are within the greatest.
fn rises(moves: &[u32], challenger: u32, present: u32) -> bool {
    let terms: Vec<u32> = moves.iter().copied().take_while(|&word| word != STOPS).collect();
    terms.iter().all(|&term| term > present && term <= challenger)
        && terms.windows(2).all(|two| two[0] < two[1])
}

/// How often a holder kept its row, and a challenger took it, by a strategy.
#[derive(Clone, Copy, Debug, Default)]
pub struct Forced {
    pub kept: u64,
    pub taken: u64,
}

/// Who can force what, on so many ledgers.
pub fn forced(run: &mut Run, seed: u64, count: u32) -> Result<Forced, Difference> {
    let mut forced = Forced::default();
    for number in 0..count {
        let seed = seed + u64::from(number);
        let rng = &mut Rng::new(seed ^ OWN_NUMBERS);
        let ledger = ledger_with_room(rng, 8, 12);
        let start = Desk::new(&ledger, &postings_of(rng, &ledger));
        let more = strategies(run, rng, &start)
            .map_err(|told| format!("strategies, seed {seed}: {told}"))?;
        forced.kept += more.kept;
        forced.taken += more.taken;
    }
    Ok(forced)
}

/// For each row of a ledger whose displacement would be accepted.
fn strategies(run: &mut Run, rng: &mut Rng, start: &Desk) -> Result<Forced, Difference> {
    let ledger = start.ledger();
    let hours = ledger[HOURS];
    let mut forced = Forced::default();
    for reference in 1..=ledger[USED] {
        let row = Row::of(ledger, reference);
        if !is_contestable(ledger, reference) || would_pass(ledger, row) {
            continue;
        }
        let present = own_hours(ledger, row);
        let actor = row.get(ledger, SELLER);
        let holder = rng.from_to(present, hours);
        let contest = Contest { actor, reference, challenger: rng.from_to(1, holder), holder };
        holder_keeps(run, rng, start, contest, present)?;
        forced.kept += 1;
        if present < hours {
            let holder = rng.from_to(present, hours - 1);
            let challenger = rng.from_to(holder + 1, hours);
            let contest = Contest { actor, reference, challenger, holder };
            challenger_takes(run, start, contest, present)?;
            forced.taken += 1;
        }
    }
    Ok(forced)
}

/// Whatever the challenger names: the row stays, and no match is refused.
fn holder_keeps(
    run: &mut Run,
    rng: &mut Rng,
    start: &Desk,
    contest: Contest,
    present: u32,
) -> Result<(), Difference> {
    let hours = start.ledger()[HOURS];
    let mut lists: Vec<Vec<u32>> =
        (0..4).map(|_| any_moves(rng, contest, present, hours).moves).collect();
    lists.extend(TAKES.map(|challenger| play_out(contest, present, challenger, KEEPS).moves));
    // All terms there are, one after the other.
    lists.push((present + 1..=contest.challenger).collect());
    for moves in lists {
        let replies =
            (1..=moves.len()).map(|seen| KEEPS(contest.holder, present, &moves[..seen])).collect();
        let refused = !rises(&moves, contest.challenger, present);
        let mut desk = start.clone();
        let play = Play { contest, moves, replies };
        let answer = run.contest(&mut desk, &play)?;
        let expected = match refused {
            true => Answer::refused(TERM_RANGE),
            false => Answer {
                number: 0,
                reference: contest.reference,
                before: CONFIRMED,
                after: CONFIRMED,
                moved: 0,
            },
        };
        if answer != expected || desk.ledger() != start.ledger() {
            return Err(format!("{play:?}: the holder does not keep its row, but {answer:?}"));
        }
    }
    Ok(())
}

/// Whatever holder there is, as long as it answers within the rules: the row is taken, as
/// by a displacement.
fn challenger_takes(
    run: &mut Run,
    start: &Desk,
    contest: Contest,
    present: u32,
) -> Result<(), Difference> {
    let mut displaced = start.ledger().to_vec();
    let mut postings = start.postings().to_vec();
    let expected = act(&mut displaced, &mut postings, &[], &contest.displacement());
    for challenger in TAKES {
        for holder in ANSWERS {
            let mut desk = start.clone();
            let play = play_out(contest, present, challenger, holder);
            let answer = run.contest(&mut desk, &play)?;
            if answer != expected || desk.ledger() != displaced || desk.postings() != postings {
                return Err(format!(
                    "{play:?}: the challenger does not take the row, but {answer:?}"
                ));
            }
        }
    }
    Ok(())
}

// Lists with contests.

/// What a list holds.
enum Done {
    Action(Action),
    Contest(Play),
}

/// Feeds the tally a contest with its answer.
pub type Feed = fn(&mut Tally, &Contest, &Answer);

/// As the paper has it.
pub const FEED: Feed = |tally, contest, answer| tally.feed_contest(contest, answer);

/// Wrong ways to feed the tally contests, which the balance must find.
pub const WRONG_FEEDS: [(&str, Feed); 4] = [
    ("leaves out lost contests", |_, _, _| ()),
    ("counts a row that was kept as lost", |tally, contest, answer| {
        if answer.number == 0 {
            let lost = Answer { after: DISPLACED, ..*answer };
            tally.feed(&[], &contest.displacement(), &lost);
        }
    }),
    ("counts refused contests as lost", |tally, contest, answer| {
        let Contest { reference, .. } = *contest;
        if answer.number != 0 || answer.after == DISPLACED {
            let lost = Answer { number: 0, reference, before: 13, after: DISPLACED, moved: 0 };
            tally.feed(&[], &contest.displacement(), &lost);
        }
    }),
    ("counts lost contests as annulments", |tally, contest, answer| {
        if answer.after == DISPLACED {
            let annulled = Answer { after: ANNULLED, ..*answer };
            tally.feed(&[], &contest.displacement(), &annulled);
        }
    }),
];

/// Numbers of a small ledger with room for longer terms.
fn numbers(rng: &mut Rng) -> [u32; 5] {
    let [rows, hours, provider, window, _] = small_numbers(rng);
    [rows, hours + 2, provider, window, 0]
}

/// Now and then, and more often where a row can be lost.
fn is_time_for_a_contest(rng: &mut Rng, ledger: &[u32]) -> bool {
    let percent = if with_room(ledger).is_empty() { 4 } else { 25 };
    rng.chance(percent)
}

/// So many lists.
pub fn lists(run: &mut Run, seed: u64, count: u32) -> Result<(), Difference> {
    for number in 0..count {
        let seed = seed + u64::from(number);
        let rng = &mut Rng::new(seed ^ OWN_NUMBERS);
        one_list(run, rng).map_err(|told| format!("lists with contests, seed {seed}: {told}"))?;
    }
    Ok(())
}

/// One list with contests between its actions. After each no path is used beyond its
/// posting and the ledger opens; afterwards the tally balances. The list without its
/// contests, but for the displacements that the lost ones came to, leaves the same.
fn one_list(run: &mut Run, rng: &mut Rng) -> Result<(), Difference> {
    let numbers = numbers(rng);
    let length = rng.from_to(20, 120);
    let mut words = Words::new();
    let mut desk = run.fresh(numbers)?;
    let mut tally = Tally::new(numbers[1]);
    let mut list = Vec::new();
    let calm = if rng.chance(70) { length / 2 } else { 0 };
    let tight = rng.chance(20);
    for number in 0..length {
        if is_time_for_a_contest(rng, desk.ledger()) {
            let play = any_play(rng, desk.ledger());
            let answer = run.contest(&mut desk, &play)?;
            FEED(&mut tally, &play.contest, &answer);
            list.push(Done::Contest(play));
        } else {
            let mood = Mood { calm: number < calm, tight };
            let action = next_action(rng, desk.ledger(), desk.postings(), &mut words, mood);
            let answer = run.act(&mut desk, &words, &action)?;
            tally.feed(&words, &action, &answer);
            list.push(Done::Action(action));
        }
        within(desk.ledger(), desk.postings())?;
        run.opens(&desk.ledger)?;
    }
    balanced(desk.ledger(), &tally)?;
    again_and_settled(run, numbers, &words, &list)
}

/// The list once more with all its words there from the start, and then as settlement
/// has it: a lost contest as that displacement, the others not at all.
fn again_and_settled(
    run: &mut Run,
    numbers: [u32; 5],
    words: &[u32],
    list: &[Done],
) -> Result<(), Difference> {
    let mut desk = run.fresh(numbers)?;
    let mut settled = Vec::new();
    let mut answers = Vec::new();
    for done in list {
        match done {
            Done::Action(action) => {
                answers.push(run.act(&mut desk, words, action)?);
                settled.push(*action);
            }
            Done::Contest(play) => {
                let answer = run.contest(&mut desk, play)?;
                if answer.after == DISPLACED {
                    answers.push(answer);
                    settled.push(play.contest.displacement());
                }
            }
        }
    }
    let mut without = run.fresh(numbers)?;
    let (_, given) = run.batch(&mut without, words, &settled, settled.len())?;
    let same = given == answers
        && without.ledger() == desk.ledger()
        && without.postings() == desk.postings();
    if same {
        Ok(())
    } else {
        Err("settled, the list leaves something else than with its contests".into())
    }
}

/// A list with contests answered by the subject alone: does its ledger balance, where the
/// tally is fed contests so?
pub fn balance_of(subject: &dyn Rules, seed: u64, feed: Feed) -> Result<(), String> {
    alone(subject, seed, feed, |ledger, _, tally| balanced(ledger, tally))
        .map_err(|told| format!("balance with contests, seed {seed}: {told}"))
}

/// The same: is each path used within its posting, and does its ledger open, by the model?
pub fn limits_and_opening_of(subject: &dyn Rules, seed: u64) -> Result<(), String> {
    alone(subject, seed, FEED, |ledger, postings, _| match open(ledger) {
        0 => within(ledger, postings),
        number => Err(format!("opens with {number}")),
    })
    .map_err(|told| format!("limits and opening with contests, seed {seed}: {told}"))
}

/// A list with contests answered by the subject, what it left looked at after each.
pub(crate) fn alone(
    subject: &dyn Rules,
    seed: u64,
    feed: Feed,
    look: impl FnMut(&[u32], &[u32], &Tally) -> Result<(), String>,
) -> Result<(), String> {
    let rng = &mut Rng::new(seed ^ OWN_NUMBERS);
    let numbers = numbers(rng);
    let contested = |rng: &mut Rng, ledger: &mut [u32], postings: &mut [u32], tally: &mut Tally| {
        let is_time = is_time_for_a_contest(rng, ledger);
        if is_time {
            let Play { contest, moves, replies } = any_play(rng, ledger);
            let answer = subject.contest(ledger, postings, &contest, &moves, &replies);
            feed(tally, &contest, &answer);
        }
        is_time
    };
    turns(subject, rng, numbers, seed.is_multiple_of(2), contested, look)
}

// Edges.

/// A ledger with a CONFIRMED original in hours 1 and 2 of five.
fn two_hours_of_five() -> Vec<u32> {
    let mut ledger = vec![0; ledger_words(1, 5)];
    assert_eq!(create(&mut ledger, 1, 5, 1, 3_600, 0), 0);
    ledger[USED] = 1;
    let row = Row::of(&ledger, 1);
    let fields = [ORIGINAL_FIRM, CONFIRMED, 10, 1, 0, 1, 3, 0, 0, 0, 0, 1];
    ledger[row.at..row.at + fields.len()].copy_from_slice(&fields);
    let available = row.span(&ledger, AVAILABLE);
    ledger[available].copy_from_slice(&[70, 80]);
    ledger
}

/// All lists of up to so many of the words, the shorter ones first.
pub(crate) fn lists_of(words: &[u32], most: usize) -> Vec<Vec<u32>> {
    let mut lists = vec![Vec::new()];
    let mut first = 0;
    for _ in 0..most {
        let end = lists.len();
        for list in first..end {
            for &word in words {
                lists.push([&lists[list][..], &[word]].concat());
            }
        }
        first = end;
    }
    lists
}

/// A row of two hours in five, with every greatest term and all lists of up to two moves
/// and replies, at and around the row's own hours and the ledger's.
pub fn every_term(run: &mut Run) -> Result<(), Difference> {
    const TERMS: [u32; 8] = [0, 1, 2, 3, 4, 5, 6, u32::MAX];
    let desk = Desk::new(&two_hours_of_five(), &vec![0; posting_words(5)]);
    let all_moves = lists_of(&TERMS, 2);
    let all_replies = lists_of(&[YIELDS, MATCHES, u32::MAX], 2);
    for challenger in TERMS {
        for holder in TERMS {
            let fit = (1..=5).contains(&challenger) && (2..=5).contains(&holder);
            let contest = Contest { actor: 1, reference: 1, challenger, holder };
            // Where these do not fit, no list makes a difference.
            let few = if fit { all_moves.len() } else { TERMS.len() + 1 };
            for moves in &all_moves[..few] {
                for replies in &all_replies[..if fit { all_replies.len() } else { 2 }] {
                    let play = Play { contest, moves: moves.clone(), replies: replies.clone() };
                    let answer = run.contest(&mut desk.clone(), &play)?;
                    assert!(fit || answer.number == TERM_RANGE, "{play:?}: {answer:?}");
                }
            }
        }
    }
    Ok(())
}

/// What a word is set to in turn.
fn values(old: u32, bound: u32) -> [u32; 9] {
    let next = bound.wrapping_add(1);
    [
        0,
        1,
        old.wrapping_sub(1),
        old.wrapping_add(1),
        bound.wrapping_sub(1),
        bound,
        next,
        1 << 16,
        u32::MAX,
    ]
}

/// A contest that is lost or kept, with each word of its ledger and of its fields, moves
/// and replies put to other values, postings of other lengths, and lists cut or grown.
fn spoilt(run: &mut Run, rng: &mut Rng) -> Result<(), Difference> {
    let ledger = ledger_with_room(rng, 3, 4);
    let postings = postings_of(rng, &ledger);
    let start = Desk::new(&ledger, &postings);
    let play = accepted_play(rng, &ledger, &postings);
    spoil_words(&start, |desk| run.contest(desk, &play).map(|_| ()))?;
    spoil_fields(run, &start, &play)?;
    spoil_lists(run, &start, &play)
}

/// One that is accepted, if several tries find one.
fn accepted_play(rng: &mut Rng, ledger: &[u32], postings: &[u32]) -> Play {
    for _ in 0..30 {
        let play = any_play(rng, ledger);
        let Play { contest: of, moves, replies } = &play;
        if contest(&mut ledger.to_vec(), postings, of, moves, replies).number == 0 {
            return play;
        }
    }
    any_play(rng, ledger)
}

/// The same start with each word of the ledger put to other values, some of the postings'
/// words too, and postings of other lengths.
pub(crate) fn spoil_words(
    start: &Desk,
    mut with: impl FnMut(&mut Desk) -> Result<(), Difference>,
) -> Result<(), Difference> {
    let (ledger, postings) = (start.ledger(), start.postings());
    for (at, &word) in ledger.iter().enumerate() {
        for value in values(word, MAX_MW) {
            let mut desk = start.clone();
            desk.ledger.set(at, value);
            with(&mut desk)?;
        }
    }
    for at in [0, postings.len() / 2, postings.len() - 1] {
        for value in [MAX_MW, MAX_MW + 1, u32::MAX] {
            let mut desk = start.clone();
            desk.postings.set(at, value);
            with(&mut desk)?;
        }
    }
    let mut grown = postings.to_vec();
    grown.extend([0; 65]);
    let len = postings.len();
    for length in [0, 1, len - 64, len - 1, len + 1, len + 64, len + 65] {
        with(&mut Desk::new(ledger, &grown[..length]))?;
    }
    Ok(())
}

fn fields_mut(contest: &mut Contest) -> [&mut u32; 4] {
    let Contest { actor, reference, challenger, holder } = contest;
    [actor, reference, challenger, holder]
}

fn spoil_fields(run: &mut Run, start: &Desk, play: &Play) -> Result<(), Difference> {
    let ledger = start.ledger();
    let bounds = [MAX_ENTITY, ledger[USED], ledger[HOURS], ledger[HOURS]];
    let mut with = |contest: Contest| {
        run.contest(&mut start.clone(), &Play { contest, ..play.clone() }).map(|_| ())
    };
    for one in 0..4 {
        for value in values(*fields_mut(&mut play.contest.clone())[one], bounds[one]) {
            let mut contest = play.contest;
            *fields_mut(&mut contest)[one] = value;
            with(contest)?;
            // Another one over its bound, or 0: which is told first?
            for other in (0..4).filter(|&other| other != one) {
                for word in [0, bounds[other] + 1] {
                    let mut both = contest;
                    *fields_mut(&mut both)[other] = word;
                    with(both)?;
                }
            }
        }
    }
    with(Contest { actor: u32::MAX, reference: u32::MAX, challenger: u32::MAX, holder: u32::MAX })
}

fn spoil_lists(run: &mut Run, start: &Desk, play: &Play) -> Result<(), Difference> {
    let hours = start.ledger()[HOURS];
    let mut with = |moves: &[u32], replies: &[u32]| {
        let play = Play { contest: play.contest, moves: moves.to_vec(), replies: replies.to_vec() };
        run.contest(&mut start.clone(), &play).map(|_| ())
    };
    let Play { moves, replies, .. } = play;
    for at in 0..moves.len() {
        for bound in [hours, play.contest.challenger, play.contest.holder] {
            for value in values(moves[at], bound) {
                let mut other = moves.clone();
                other[at] = value;
                with(&other, replies)?;
            }
        }
    }
    for at in 0..replies.len() {
        for value in values(replies[at], moves.get(at).copied().unwrap_or(hours)) {
            let mut other = replies.clone();
            other[at] = value;
            with(moves, &other)?;
        }
    }
    // Every front of both, and words after their ends.
    for few in 0..=moves.len() {
        for fewer in 0..=replies.len() {
            with(&moves[..few], &replies[..fewer])?;
        }
    }
    for more in [STOPS, 1, hours, hours + 1, u32::MAX] {
        let longer = [&moves[..], &[more]].concat();
        let answered = [&replies[..], &[more]].concat();
        with(&longer, replies)?;
        with(moves, &answered)?;
        with(&longer, &answered)?;
    }
    Ok(())
}

/// The greatest ledger, a chain of 1,024 rows whose last is one hour: firm or not by the
/// first of them. All longer terms are named one by one, and the last of them is lost.
pub fn greatest(run: &mut Run) -> Result<(), Difference> {
    for (first, number) in [(ORIGINAL_FIRM, 0), (ORIGINAL_NON_FIRM, BAD_MOVE)] {
        let mut ledger = vec![0; ledger_words(MAX_ROWS, MAX_HOURS)];
        assert_eq!(create(&mut ledger, MAX_ROWS, MAX_HOURS, 1, 3_600, 0), 0);
        ledger[USED] = MAX_ROWS;
        for reference in 1..=MAX_ROWS {
            let row = Row::of(&ledger, reference);
            let reqtype = match reference {
                1 => first,
                _ => [RESALE, PART_TRANSFER, FULL_TRANSFER][reference as usize % 3],
            };
            let start = if reference == MAX_ROWS { MAX_HOURS - 1 } else { 0 };
            let fields =
                [reqtype, CONFIRMED, 10, 1, reference - 1, start, MAX_HOURS, 0, 0, 0, 0, 1];
            ledger[row.at..row.at + fields.len()].copy_from_slice(&fields);
        }
        *ledger.last_mut().expect("not empty") = MAX_MW;
        let last = Row::of(&ledger, MAX_ROWS);
        ledger[last.profile(AVAILABLE).end - 1] = MAX_MW;
        let mut desk = Desk::new(&ledger, &vec![MAX_MW; posting_words(MAX_HOURS)]);
        let contest =
            Contest { actor: 1, reference: MAX_ROWS, challenger: MAX_HOURS, holder: MAX_HOURS };
        let terms: Vec<u32> = (2..=MAX_HOURS).collect();
        let mut matched = vec![MATCHES; terms.len()];
        for (term, reply, expected) in [(MAX_HOURS, MATCHES, TERM_RANGE), (STOPS, MATCHES, 0)] {
            let moves = [&terms[..], &[term]].concat();
            let replies = [&matched[..], &[reply]].concat();
            let answer = run.contest(&mut desk, &Play { contest, moves, replies })?;
            assert_eq!(answer.number, if number == 0 { expected } else { number });
        }
        *matched.last_mut().expect("a term") = YIELDS;
        let play = Play { contest, moves: terms, replies: matched };
        let answer = run.contest(&mut desk, &play)?;
        let moved = if number == 0 { MAX_MW } else { 0 };
        assert_eq!((answer.number, answer.moved), (number, moved));
    }
    Ok(())
}
