//! A ledger that owns its words, its postings, and stamps.

use std::cmp::Ordering;

use crate::calls;
use crate::names::{Flags, Refusal, RequestType, Status, Zone};
use crate::{Action, Answer, Contest, Move, Reply};

const HEAD_WORDS: usize = 8;
const FIELD_WORDS: usize = 16;
const PROFILES: usize = 5;
const PATHS: usize = 64;

/// A ledger and its words.
///
/// ```
/// use luddrisa::{Ledger, Refusal};
///
/// let ledger = Ledger::create(8, 4, 1, 3_600, 0).unwrap();
/// assert_eq!(ledger.words().len(), 8 + 8 * (16 + 5 * 4));
/// assert!(ledger.is_sound());
/// assert_eq!(ledger.charge(1), Err(Refusal::NO_SUCH_REFERENCE));
/// assert_eq!(Ledger::create(0, 4, 1, 3_600, 0), Err(Refusal::UNSOUND));
/// ```
#[derive(Clone, Debug, PartialEq, Eq)]
pub struct Ledger {
    words: Vec<u32>,
}

/// What the provider has posted: the megawatts that each of the 64 paths can carry
/// in each hour. They stand beside the ledger's words and are kept with them.
///
/// At first nothing is posted, and then nothing can be confirmed: the provider
/// posts with [`Action::post`].
///
/// ```
/// use luddrisa::{Action, Ledger, Postings, Profiles};
///
/// let mut ledger = Ledger::create(8, 4, 1, 3_600, 0).unwrap();
/// let mut postings = Postings::none(&ledger);
/// let mut profiles = Profiles::new();
/// let post = Action::post(1, 64).span(1, 3).profile(profiles.add(&[70, 80]));
/// assert!(ledger.act(&mut postings, profiles.words(), &post).is_accepted());
/// assert_eq!(postings.path(64), Some(&[0, 70, 80, 0][..]));
/// assert_eq!(postings.posted(64, 2), Some(80));
/// assert_eq!(postings.posted(65, 2), None);
/// ```
#[derive(Clone, Debug, PartialEq, Eq)]
pub struct Postings {
    words: Vec<u32>,
}

impl Postings {
    /// Nothing posted yet for a ledger: 0 for each path in each of its hours. There
    /// are no words where the ledger's hours are out of range.
    pub fn none(ledger: &Ledger) -> Postings {
        let hours = ledger.head().map_or(0, |head| head.hours);
        let hours = if hours <= 744 { hours as usize } else { 0 };
        Postings { words: vec![0; PATHS * hours] }
    }

    /// Postings from words kept elsewhere. They are not looked at here: with
    /// words over 100,000, or not 64 for each hour of the ledger, every action
    /// answers [`Refusal::UNSOUND`].
    pub fn from_words(words: Vec<u32>) -> Postings {
        Postings { words }
    }

    /// The words, to be kept: all hours of path 1 first.
    pub fn words(&self) -> &[u32] {
        &self.words
    }

    /// The words, given away.
    pub fn into_words(self) -> Vec<u32> {
        self.words
    }

    /// The number of hours.
    pub fn hours(&self) -> u32 {
        u32::try_from(self.words.len() / PATHS).unwrap_or(u32::MAX)
    }

    /// What is posted for a path, hour by hour; none for an unknown path.
    pub fn path(&self, path: u32) -> Option<&[u32]> {
        let hours = self.words.len() / PATHS;
        let before = (path as usize).checked_sub(1).filter(|&before| before < PATHS)?;
        Some(&self.words[before * hours..(before + 1) * hours])
    }

    /// What is posted for a path in an hour; none for an unknown path or hour.
    pub fn posted(&self, path: u32, hour: u32) -> Option<u32> {
        self.path(path)?.get(hour as usize).copied()
    }
}

/// The head of a ledger.
#[derive(Clone, Copy, Debug, PartialEq, Eq)]
pub struct Head {
    /// The greatest number of rows.
    pub rows: u32,
    /// The number of hours.
    pub hours: u32,
    /// The provider.
    pub provider: u32,
    /// The confirmation window in seconds.
    pub window: u32,
    /// The base hour, counted from 2000-01-01 00:00 UT.
    pub base: u32,
    /// The clock, in seconds from 2000-01-01 00:00 UT.
    pub now: u32,
    /// Rows used.
    pub used: u32,
}

/// One used row of a ledger. Profiles have a word for every hour of the ledger.
#[derive(Clone, Copy, Debug, PartialEq, Eq)]
pub struct Row<'a> {
    /// What it asks for.
    pub reqtype: RequestType,
    /// How far it has come.
    pub status: Status,
    /// Its customer.
    pub customer: u32,
    /// Its seller.
    pub seller: u32,
    /// Its related reference, 0 for originals.
    pub related: u32,
    /// Its first hour.
    pub start: u32,
    /// The hour after its last.
    pub stop: u32,
    /// Its flags.
    pub flags: Flags,
    /// BID_PRICE.
    pub bid: u32,
    /// OFFER_PRICE.
    pub offer: u32,
    /// The second from which its offer may lapse.
    pub limit: u32,
    /// The path it is on, 1 to 64.
    pub path: u32,
    /// CAPACITY_REQUESTED.
    pub requested: &'a [u32],
    /// CAPACITY_GRANTED.
    pub granted: &'a [u32],
    /// Megawatts that can still be resold, redirected, transferred or reduced.
    pub available: &'a [u32],
    /// Megawatts taken by displacement or returned to a row no longer confirmed.
    pub displaced: &'a [u32],
    /// Megawatts cut by the provider's reductions, all of them added up.
    pub reduced: &'a [u32],
}

impl Ledger {
    /// A ledger with no rows used and its clock at 0.
    ///
    /// `rows` is 1 to 1,024, `hours` 1 to 744, `provider` an entity, `window`
    /// 1 to 2,592,000 seconds, `base` + `hours` at most 876,600.
    pub fn create(
        rows: u32,
        hours: u32,
        provider: u32,
        window: u32,
        base: u32,
    ) -> Result<Ledger, Refusal> {
        // Numbers out of range are refused whatever the length, so none is made for them.
        let fits = (1..=1_024).contains(&rows) && (1..=744).contains(&hours);
        let len = if fits {
            HEAD_WORDS + rows as usize * (FIELD_WORDS + PROFILES * hours as usize)
        } else {
            0
        };
        let mut words = vec![0; len];
        Refusal::check(calls::create(&mut words, rows, hours, provider, window, base))?;
        Ok(Ledger { words })
    }

    /// Takes a stored ledger up again, once its words are tested: they must be sound,
    /// or else it is [`Refusal::UNSOUND`], and every hour must balance, or else it is
    /// [`Refusal::UNBALANCED`]. What actions and contests left of a ledger from
    /// [`Ledger::create`] always opens.
    ///
    /// An hour of a confirmed or displaced row balances where its granted is its own
    /// available, displaced and reduced and what the confirmed and displaced rows
    /// related to it took; an original's granted is also held against all that is left
    /// in the rows descended from it.
    ///
    /// ```
    /// use luddrisa::{Ledger, Refusal};
    ///
    /// let stored = Ledger::create(8, 4, 1, 3_600, 0).unwrap().into_words();
    /// let ledger = Ledger::open(&stored).unwrap();
    /// assert_eq!(ledger.words(), stored);
    ///
    /// // A word lost in storage.
    /// let refusal = Ledger::open(&stored[1..]).unwrap_err();
    /// assert_eq!(refusal, Refusal::UNSOUND);
    /// println!("not opened: {refusal}");
    /// ```
    pub fn open(words: &[u32]) -> Result<Ledger, Refusal> {
        Refusal::check(calls::open(words))?;
        Ok(Ledger { words: words.to_vec() })
    }

    /// Words taken for a ledger that was not opened: neither soundness nor the balance
    /// is tested. For tools that show a ledger which does not open, and for tests; a
    /// stored ledger is taken up again by [`Ledger::open`].
    ///
    /// On an unsound one every action answers [`Refusal::UNSOUND`]. On a sound one that
    /// does not balance actions are carried out, and go by its words as they stand.
    pub fn from_words_unopened(words: Vec<u32>) -> Ledger {
        Ledger { words }
    }

    /// The words, to be kept, and opened again by [`Ledger::open`].
    pub fn words(&self) -> &[u32] {
        &self.words
    }

    /// The words, given away.
    pub fn into_words(self) -> Vec<u32> {
        self.words
    }

    /// True where the ledger is sound. The balance is not looked at.
    pub fn is_sound(&self) -> bool {
        // A charge tells an unsound ledger before it misses the reference.
        calls::charge(&self.words, 0).0 != Refusal::UNSOUND.0
    }

    /// Answers one action, whose profile stands in `words`. Confirmations and
    /// annulments are held to the postings; only kind 8 changes those.
    pub fn act(&mut self, postings: &mut Postings, words: &[u32], action: &Action) -> Answer {
        let mut answer = [Answer::default()];
        let one = std::slice::from_ref(action);
        calls::batch(&mut self.words, &mut postings.words, words, one, &mut answer);
        answer[0]
    }

    /// Answers each action of a list in turn, into the front of `answers`. With
    /// fewer answers than actions nothing is done; spare ones are not written.
    pub fn batch(
        &mut self,
        postings: &mut Postings,
        words: &[u32],
        actions: &[Action],
        answers: &mut [Answer],
    ) -> Result<(), Refusal> {
        let postings = &mut postings.words;
        Refusal::check(calls::batch(&mut self.words, postings, words, actions, answers))
    }

    /// The same into a new list of answers.
    pub fn answers(
        &mut self,
        postings: &mut Postings,
        words: &[u32],
        actions: &[Action],
    ) -> Vec<Answer> {
        let mut answers = vec![Answer::default(); actions.len()];
        calls::batch(&mut self.words, &mut postings.words, words, actions, &mut answers);
        answers
    }

    /// Runs a contest for a firm row, from the challenger's moves and the holder's replies
    /// in turn. Where it is lost the row is displaced, with the answer that its
    /// displacement would have; [`Answer::displaces`] tells. Where the challenger stops
    /// the row is kept, where a list runs out the contest is left unfinished: both are
    /// accepted, with the row CONFIRMED before and after, and alter nothing. Moves and
    /// replies behind the end are not read.
    ///
    /// Refused as a displacement by the same actor would be; then with
    /// [`Refusal::WRONG_MOVE`] where the row is not firm, and with
    /// [`Refusal::TERM_OUT_OF_RANGE`] where a greatest term does not fit, or the first
    /// term or match that does not, whatever was matched before.
    ///
    /// ```
    /// use luddrisa::{
    ///     Action, Contest, Flags, Ledger, Move, Postings, Profiles, Refusal, Reply, RequestType,
    ///     Status,
    /// };
    ///
    /// // Customer 10 holds 100 MW for 24 of 72 hours.
    /// let mut ledger = Ledger::create(8, 72, 1, 3_600, 0)?;
    /// let mut postings = Postings::none(&ledger);
    /// let mut profiles = Profiles::new();
    /// let list = [
    ///     Action::post(1, 7).span(0, 72).profile(profiles.add(&[100; 72])),
    ///     Action::submit(10, RequestType::ORIGINAL_FIRM, 1)
    ///         .path(7)
    ///         .span(0, 24)
    ///         .flags(Flags::PRECONFIRMED)
    ///         .profile(profiles.add(&[100; 24])),
    ///     Action::seller_status(1, 1, Status::ACCEPTED),
    /// ];
    /// ledger.answers(&mut postings, profiles.words(), &list);
    ///
    /// let contest = Contest { actor: 1, reference: 1, challenger: 72, holder: 48 };
    /// // 48 hours are matched, and the challenger goes no further.
    /// let moves = [Move::term(48)?, Move::Stop];
    /// let kept = ledger.contest(&postings, &contest, &moves, &[Reply::Match]);
    /// assert!(kept.is_accepted() && !kept.displaces());
    /// // It can't name them again once they are matched, and the holder can't match 72.
    /// let moves = [Move::term(48)?, Move::term(48)?];
    /// let replies = [Reply::Match, Reply::Match];
    /// let refused = ledger.contest(&postings, &contest, &moves, &replies);
    /// assert_eq!(refused.refusal(), Some(Refusal::TERM_OUT_OF_RANGE));
    /// let moves = [Move::term(48)?, Move::term(72)?];
    /// let lost = ledger.contest(&postings, &contest, &moves, &[Reply::Match, Reply::Yield]);
    /// assert!(lost.displaces());
    /// assert_eq!(lost.moved, 2_400);
    /// assert_eq!(ledger.row(1).unwrap().status, Status::DISPLACED);
    /// # Ok::<(), Refusal>(())
    /// ```
    pub fn contest(
        &mut self,
        postings: &Postings,
        contest: &Contest,
        moves: &[Move],
        replies: &[Reply],
    ) -> Answer {
        let moves: Vec<u32> = moves.iter().map(|&of| of.into()).collect();
        let replies: Vec<u32> = replies.iter().map(|&of| of.into()).collect();
        calls::contest(&mut self.words, &postings.words, contest, &moves, &replies)
    }

    /// True where a deal chain can be unwound so: where annulling the references in that
    /// order, each by its row's seller and each on what the one before left, is accepted
    /// at every step. Nothing is annulled.
    ///
    /// True for no references at all, whatever the words are. False where a reference is
    /// named twice or is not there, and so for more references than rows are used. A row
    /// goes only when all that was taken from it has come back, so what came from it is
    /// named before, unless it was relinquished; a firm redirect goes only when there is
    /// room on the path it left, which rows named before may make. An open preconfirmed
    /// row may be named anywhere, for it moves nothing.
    ///
    /// ```
    /// use luddrisa::{Action, Flags, Ledger, Postings, Profiles, Refusal, RequestType, Status};
    ///
    /// // Customer 10 holds 100 MW and resells 40 of them to 20.
    /// let mut ledger = Ledger::create(8, 4, 1, 3_600, 0)?;
    /// let mut postings = Postings::none(&ledger);
    /// let mut profiles = Profiles::new();
    /// let all_day = profiles.add(&[100; 4]);
    /// let original = Action::submit(10, RequestType::ORIGINAL_FIRM, 1).profile(all_day);
    /// let resale = Action::submit(20, RequestType::RESALE, 10).related(1);
    /// let list = [
    ///     Action::post(1, 7).span(0, 4).profile(all_day),
    ///     original.path(7).span(0, 4).flags(Flags::PRECONFIRMED),
    ///     Action::seller_status(1, 1, Status::ACCEPTED),
    ///     resale.path(7).span(1, 2).flags(Flags::PRECONFIRMED).profile(profiles.add(&[40])),
    ///     Action::seller_status(10, 2, Status::ACCEPTED),
    /// ];
    /// ledger.answers(&mut postings, profiles.words(), &list);
    ///
    /// assert!(ledger.annuls_in_order(&postings, &[2, 1]));
    /// assert!(!ledger.annuls_in_order(&postings, &[1, 2]));
    /// # Ok::<(), Refusal>(())
    /// ```
    pub fn annuls_in_order(&self, postings: &Postings, references: &[u32]) -> bool {
        calls::annuls_in_order(&self.words, &postings.words, references) == 1
    }

    /// The charge of a CONFIRMED row in cents: MW-hours granted × bid ÷ 24, a
    /// half up.
    pub fn charge(&self, reference: u32) -> Result<u64, Refusal> {
        let (number, cents) = calls::charge(&self.words, reference);
        Refusal::check(number)?;
        Ok(cents)
    }

    /// The profile in force, hour by hour of the row's span: granted once given,
    /// requested before. Empty where the ledger is unsound or has no such
    /// reference.
    pub fn profile_in_force(&self, reference: u32) -> Vec<u32> {
        let mut profile = vec![0; 744];
        let hours = calls::profile_in_force(&self.words, reference, &mut profile);
        profile.truncate(hours);
        profile
    }

    /// The head, none where there are not even 8 words.
    pub fn head(&self) -> Option<Head> {
        let &[rows, hours, provider, window, base, now, used, _] = self.words.get(..HEAD_WORDS)?
        else {
            return None;
        };
        Some(Head { rows, hours, provider, window, base, now, used })
    }

    /// The row of a reference that is in use, as its words stand.
    pub fn row(&self, reference: u32) -> Option<Row<'_>> {
        let head = self.head()?;
        if reference == 0 || reference > head.used {
            return None;
        }
        let hours = head.hours as usize;
        let size = hours.checked_mul(PROFILES)?.checked_add(FIELD_WORDS)?;
        let at = size.checked_mul(reference as usize - 1)?.checked_add(HEAD_WORDS)?;
        let row = self.words.get(at..at.checked_add(size)?)?;
        let (fields, profiles) = row.split_at(FIELD_WORDS);
        let [requested, granted, available, displaced, reduced]: [&[u32]; PROFILES] =
            std::array::from_fn(|place| &profiles[place * hours..][..hours]);
        Some(Row {
            reqtype: RequestType(fields[0]),
            status: Status(fields[1]),
            customer: fields[2],
            seller: fields[3],
            related: fields[4],
            start: fields[5],
            stop: fields[6],
            flags: Flags(fields[7]),
            bid: fields[8],
            offer: fields[9],
            limit: fields[10],
            path: fields[11],
            requested,
            granted,
            available,
            displaced,
            reduced,
        })
    }
}

/// The second of an OASIS stamp, counted from 2000-01-01 00:00 UT.
///
/// ```
/// use luddrisa::{read_stamp, Refusal};
///
/// assert_eq!(read_stamp(b"20070423060000ES"), Ok(230_641_200));
/// assert_eq!(read_stamp(b"20070423220070ES"), Err(Refusal::NOT_A_STAMP));
/// ```
pub fn read_stamp(bytes: &[u8]) -> Result<u32, Refusal> {
    let (number, second) = calls::read_stamp(bytes);
    Refusal::check(number)?;
    Ok(second)
}

/// Whether the first stamp is earlier than, the same as or later than the second, whatever
/// their zones, for bytes as they come. Where either is refused, it is
/// [`Refusal::NOT_A_STAMP`].
///
/// ```
/// use std::cmp::Ordering;
///
/// use luddrisa::{compare_stamps, Refusal};
///
/// let compared = compare_stamps(b"20000101000000PD", b"20000101000000UT");
/// assert_eq!(compared, Ok(Ordering::Greater));
/// let compared = compare_stamps(b"20000101000000PD", b"20000101000000");
/// assert_eq!(compared, Err(Refusal::NOT_A_STAMP));
/// ```
pub fn compare_stamps(first: &[u8], second: &[u8]) -> Result<Ordering, Refusal> {
    let (number, order) = calls::compare_stamps(first, second);
    Refusal::check(number)?;
    // Earlier is 0, the same 1 and later 2.
    Ok(order.cmp(&1))
}

/// The OASIS stamp of a second in a zone.
///
/// ```
/// use luddrisa::{write_stamp, Zone};
///
/// assert_eq!(&write_stamp(5_097_600, Zone::UT).unwrap(), b"20000229000000UT");
/// ```
pub fn write_stamp(second: u32, zone: Zone) -> Result<[u8; 16], Refusal> {
    let mut bytes = [0; 16];
    Refusal::check(calls::write_stamp(&mut bytes, second, zone.0))?;
    Ok(bytes)
}
