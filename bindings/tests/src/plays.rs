//! What a contest comes to, worked out apart from the model: each thing that can end it
//! is looked for in the whole lists by itself, and the earliest has ended it.

use luddrisa_model::*;

/// A contest with its lists: the challenger's moves and the holder's replies.
#[derive(Clone, Debug, PartialEq, Eq)]
pub struct Play {
    pub contest: Contest,
    pub moves: Vec<u32>,
    pub replies: Vec<u32>,
}

/// What a contest comes to.
#[derive(Clone, Copy, Debug, PartialEq, Eq, PartialOrd, Ord)]
pub enum Ending {
    UnsoundLedger,
    WrongPostings,
    NoEntity,
    NoReference,
    NotTheSeller,
    NotConfirmed,
    RelinquishRecord,
    NotFirm,
    /// A greatest term is 0, or above the ledger's hours.
    ChallengerNone,
    ChallengerBeyond,
    HolderNone,
    HolderBeyond,
    /// The holder's greatest term is below the row's own hours.
    HolderBelow,
    /// A term is above the challenger's greatest.
    TermAbove,
    /// A term is no longer than the last.
    TermNotLonger,
    /// A match is above the holder's greatest.
    MatchAbove,
    /// Lost, but a displaced word would pass 100,000.
    LostOver,
    Lost,
    Kept,
    /// Unfinished: the challenger names no term.
    NoTerm,
    /// Unfinished: the holder does not answer one.
    NoAnswer,
}

impl Ending {
    pub const ALL: [Ending; 21] = [
        Ending::UnsoundLedger,
        Ending::WrongPostings,
        Ending::NoEntity,
        Ending::NoReference,
        Ending::NotTheSeller,
        Ending::NotConfirmed,
        Ending::RelinquishRecord,
        Ending::NotFirm,
        Ending::ChallengerNone,
        Ending::ChallengerBeyond,
        Ending::HolderNone,
        Ending::HolderBeyond,
        Ending::HolderBelow,
        Ending::TermAbove,
        Ending::TermNotLonger,
        Ending::MatchAbove,
        Ending::LostOver,
        Ending::Lost,
        Ending::Kept,
        Ending::NoTerm,
        Ending::NoAnswer,
    ];

    pub fn number(self) -> u32 {
        match self {
            Ending::UnsoundLedger | Ending::WrongPostings | Ending::LostOver => 1,
            Ending::NoEntity | Ending::NotTheSeller => 3,
            Ending::NoReference => 4,
            Ending::NotConfirmed | Ending::RelinquishRecord | Ending::NotFirm => 11,
            Ending::Lost | Ending::Kept | Ending::NoTerm | Ending::NoAnswer => 0,
            _ => 25,
        }
    }

    /// The types of row that can meet it; none where no row is found.
    pub fn types(self) -> &'static [u32] {
        match self {
            Ending::UnsoundLedger
            | Ending::WrongPostings
            | Ending::NoEntity
            | Ending::NoReference => &[],
            Ending::NotTheSeller | Ending::NotConfirmed => &[1, 2, 3, 4, 5, 6, 7, 8],
            Ending::RelinquishRecord => &[RELINQUISH],
            Ending::NotFirm => &[2, 3, 5, 6, 7],
            _ => &[1, 3, 4, 6, 7],
        }
    }
}

/// What is looked at before any move.
#[derive(Clone, Copy, Debug, PartialEq, Eq)]
pub enum Check {
    Ledger,
    Postings,
    Entity,
    Reference,
    Seller,
    Move,
    Firm,
    Greatest,
}

/// Where in a round things are looked at; a stop is seen at 0.
#[derive(Clone, Copy)]
pub struct Places {
    pub term: usize,
    pub no_answer: usize,
    pub yields: usize,
    pub matches: usize,
}

/// More than all places of a round.
const ROUND: usize = 10;

/// The rules of a contest, each part the paper's or with a fault.
#[derive(Clone, Copy)]
pub struct Contesting {
    /// In turn; the first to find something ends it.
    pub checks: &'static [Check],
    /// May the actor contest the row?
    pub is_party: fn(&[u32], Row, u32) -> bool,
    /// Can the row be displaced, by its status?
    pub is_held: fn(&[u32], Row) -> bool,
    pub is_firm: fn(&[u32], u32) -> bool,
    /// The holder's present term.
    pub present: fn(&[u32], Row) -> u32,
    /// What the greatest terms do not fit, given the present one and the hours.
    pub greatest: fn(&Contest, u32, u32) -> Option<Ending>,
    /// The last term before a round, given the present one.
    pub last: fn(&Play, u32, usize) -> u32,
    pub stops: fn(u32) -> bool,
    pub yields: fn(u32) -> bool,
    /// Is a term above the challenger's greatest?
    pub above: fn(&Contest, u32) -> bool,
    /// Is a term no longer than the last, which comes first?
    pub not_longer: fn(u32, u32) -> bool,
    /// Is a match above the holder's greatest?
    pub match_above: fn(&Contest, u32) -> bool,
    pub places: Places,
    /// What the earliest comes to.
    pub ends: fn(&Play, Ending) -> Ending,
    /// Is a word over 100,000 judged, and would one pass?
    pub over: fn(&[u32], Row, Ending) -> bool,
}

/// As the paper has it.
pub const CONTESTING: Contesting = Contesting {
    checks: &[
        Check::Ledger,
        Check::Postings,
        Check::Entity,
        Check::Reference,
        Check::Seller,
        Check::Move,
        Check::Firm,
        Check::Greatest,
    ],
    is_party: |ledger, row, actor| row.get(ledger, SELLER) == actor,
    is_held: |ledger, row| row.get(ledger, STATUS) == CONFIRMED,
    is_firm,
    present: own_hours,
    greatest,
    last: |play, present, round| if round == 0 { present } else { play.moves[round - 1] },
    stops: |word| word == 0,
    yields: |word| word == 0,
    above: |contest, term| term > contest.challenger,
    not_longer: |last, term| term <= last,
    match_above: |contest, term| term > contest.holder,
    places: Places { term: 2, no_answer: 4, yields: 4, matches: 6 },
    ends: |_, ending| ending,
    over: |ledger, row, ending| ending == Ending::Lost && would_pass(ledger, row),
};

/// The class of a row: that of the first up its chain that has one of its own.
pub fn is_firm(ledger: &[u32], reference: u32) -> bool {
    let mut row = Row::of(ledger, reference);
    while matches!(row.get(ledger, TYPE), RESALE | PART_TRANSFER | FULL_TRANSFER) {
        row = Row::of(ledger, row.get(ledger, RELATED));
    }
    matches!(row.get(ledger, TYPE), ORIGINAL_FIRM | REDIRECT_FIRM)
}

pub fn own_hours(ledger: &[u32], row: Row) -> u32 {
    row.get(ledger, STOP) - row.get(ledger, START)
}

/// What the greatest terms do not fit.
pub fn greatest(contest: &Contest, present: u32, hours: u32) -> Option<Ending> {
    [
        (contest.challenger == 0, Ending::ChallengerNone),
        (contest.challenger > hours, Ending::ChallengerBeyond),
        (contest.holder == 0, Ending::HolderNone),
        (contest.holder > hours, Ending::HolderBeyond),
        (contest.holder < present, Ending::HolderBelow),
    ]
    .into_iter()
    .find_map(|(applies, ending)| applies.then_some(ending))
}

/// Would a displaced word pass 100,000 if the row were displaced?
pub fn would_pass(ledger: &[u32], row: Row) -> bool {
    let words = row.profile(AVAILABLE).zip(row.profile(DISPLACED_MW));
    words.into_iter().any(|(available, displaced)| ledger[available] + ledger[displaced] > MAX_MW)
}

/// The row of a reference that is in use.
pub fn row_named(ledger: &[u32], reference: u32) -> Option<Row> {
    (1..=ledger[USED]).contains(&reference).then(|| Row::of(ledger, reference))
}

impl Check {
    /// What it finds; where no row is named, those that need one find nothing.
    fn finds(
        self,
        by: &Contesting,
        ledger: &[u32],
        postings: &[u32],
        contest: &Contest,
    ) -> Option<Ending> {
        if self == Check::Ledger {
            return (!sound(ledger)).then_some(Ending::UnsoundLedger);
        }
        let row = row_named(ledger, contest.reference);
        let of_row =
            |test: &dyn Fn(Row) -> bool, ending| row.filter(|&row| test(row)).map(|_| ending);
        match self {
            Check::Ledger => None,
            Check::Postings => {
                (!postings_fit(postings, ledger[HOURS])).then_some(Ending::WrongPostings)
            }
            Check::Entity => (!is_entity(contest.actor)).then_some(Ending::NoEntity),
            Check::Reference => row.is_none().then_some(Ending::NoReference),
            Check::Seller => {
                of_row(&|row| !(by.is_party)(ledger, row, contest.actor), Ending::NotTheSeller)
            }
            Check::Move => of_row(&|row| !(by.is_held)(ledger, row), Ending::NotConfirmed)
                .or(of_row(&|row| row.get(ledger, TYPE) == RELINQUISH, Ending::RelinquishRecord)),
            Check::Firm => of_row(&|_| !(by.is_firm)(ledger, contest.reference), Ending::NotFirm),
            Check::Greatest => {
                let present = row.map_or(1, |row| (by.present)(ledger, row));
                (by.greatest)(contest, present, ledger[HOURS])
            }
        }
    }
}

/// What the moves come to, by the earliest thing that ends them.
fn played(by: &Contesting, present: u32, play: &Play) -> Ending {
    let Play { contest, moves, replies } = play;
    let Places { term, no_answer, yields, matches } = by.places;
    let first_round = |test: &dyn Fn(usize, u32) -> bool| {
        let is_term = |round: usize| !(by.stops)(moves[round]);
        (0..moves.len()).find(|&round| is_term(round) && test(round, moves[round]))
    };
    let answered = |round: usize| round < replies.len();
    let not_longer = |round, term| (by.not_longer)((by.last)(play, present, round), term);
    let match_above = |round: usize, term| {
        answered(round) && !(by.yields)(replies[round]) && (by.match_above)(contest, term)
    };
    let things = [
        (Ending::Kept, moves.iter().position(|&word| (by.stops)(word)), 0),
        (Ending::NoTerm, Some(moves.len()), 0),
        (Ending::TermAbove, first_round(&|_, term| (by.above)(contest, term)), term),
        (Ending::TermNotLonger, first_round(&not_longer), term),
        (Ending::NoAnswer, Some(replies.len()), no_answer),
        (Ending::Lost, replies.iter().position(|&word| (by.yields)(word)), yields),
        (Ending::MatchAbove, first_round(&match_above), matches),
    ];
    let places =
        things.into_iter().filter_map(|(ending, round, at)| Some((round? * ROUND + at, ending)));
    places.min().expect("no term is named in the end").1
}

/// What a contest comes to.
pub fn judged(by: &Contesting, ledger: &[u32], postings: &[u32], play: &Play) -> Ending {
    let contest = &play.contest;
    if let Some(ending) =
        by.checks.iter().find_map(|check| check.finds(by, ledger, postings, contest))
    {
        return ending;
    }
    let row = Row::of(ledger, contest.reference);
    let ending = (by.ends)(play, played(by, (by.present)(ledger, row), play));
    if (by.over)(ledger, row, ending) {
        Ending::LostOver
    } else {
        ending
    }
}

/// Runs a contest, and displaces the row where it is lost.
pub fn carried_out(by: &Contesting, ledger: &mut [u32], postings: &[u32], play: &Play) -> Answer {
    let ending = judged(by, ledger, postings, play);
    let reference = play.contest.reference;
    match (ending, ending.number()) {
        (Ending::Lost, _) => displaced(ledger, reference),
        (_, 0) => Answer { number: 0, reference, before: CONFIRMED, after: CONFIRMED, moved: 0 },
        (_, number) => Answer::refused(number),
    }
}

/// A row with all its available in displaced, and the answer to that.
fn displaced(ledger: &mut [u32], reference: u32) -> Answer {
    let row = Row::of(ledger, reference);
    let moved = ledger[row.profile(AVAILABLE)].iter().sum();
    for (available, displaced) in row.profile(AVAILABLE).zip(row.profile(DISPLACED_MW)) {
        ledger[displaced] += std::mem::take(&mut ledger[available]);
    }
    row.set(ledger, STATUS, DISPLACED);
    Answer { number: 0, reference, before: CONFIRMED, after: DISPLACED, moved }
}

#[cfg(test)]
mod tests {
    use super::*;
    use crate::edges::one_row;

    /// What a contest for the two hours of three comes to.
    fn ending(challenger: u32, holder: u32, moves: &[u32], replies: &[u32]) -> Ending {
        let contest = Contest { actor: 1, reference: 1, challenger, holder };
        let play = Play { contest, moves: moves.to_vec(), replies: replies.to_vec() };
        judged(&CONTESTING, &one_row([5, 6], [0, 0]), &vec![0; posting_words(3)], &play)
    }

    #[test]
    fn endings_are_told_apart() {
        use Ending::*;
        assert_eq!(ending(0, 2, &[], &[]), ChallengerNone);
        assert_eq!(ending(4, 0, &[], &[]), ChallengerBeyond);
        assert_eq!(ending(3, 0, &[], &[]), HolderNone);
        assert_eq!(ending(3, 4, &[], &[]), HolderBeyond);
        assert_eq!(ending(3, 1, &[], &[]), HolderBelow);
        assert_eq!(ending(3, 2, &[], &[0]), NoTerm);
        assert_eq!(ending(3, 2, &[3], &[]), NoAnswer);
        assert_eq!(ending(3, 2, &[3, 9], &[0, 1]), Lost);
        assert_eq!(ending(3, 2, &[0, 9], &[0]), Kept);
        assert_eq!(ending(3, 3, &[3, 0], &[1]), Kept);
        assert_eq!(ending(3, 3, &[3], &[1, 0]), NoTerm);
        assert_eq!(ending(3, 3, &[2], &[0]), TermNotLonger);
        assert_eq!(ending(3, 3, &[2], &[]), TermNotLonger);
        assert_eq!(ending(3, 3, &[3, 3], &[1, 0]), TermNotLonger);
        assert_eq!(ending(3, 3, &[4], &[0]), TermAbove);
        assert_eq!(ending(2, 3, &[3], &[]), TermAbove);
        assert_eq!(ending(3, 2, &[3], &[1]), MatchAbove);
    }

    #[test]
    fn every_ending_has_its_place() {
        assert!(Ending::ALL.is_sorted());
        assert_eq!(Ending::ALL.len(), 1 + Ending::NoAnswer as usize);
        let of =
            |number: u32| Ending::ALL.iter().filter(|ending| ending.number() == number).count();
        assert_eq!([0, 1, 3, 4, 11, 25].map(of), [4, 3, 2, 1, 3, 8]);
    }
}
