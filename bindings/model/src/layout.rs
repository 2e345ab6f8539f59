//! Where the words stand, their bounds, and the numbers of the paper.

use std::ops::Range;

// Sizes.
pub const HEAD_WORDS: usize = 8;
pub const FIELD_WORDS: usize = 16;
pub const PROFILES: usize = 5;

// Head words.
pub const ROWS: usize = 0;
pub const HOURS: usize = 1;
pub const PROVIDER: usize = 2;
pub const WINDOW: usize = 3;
pub const BASE: usize = 4;
pub const NOW: usize = 5;
pub const USED: usize = 6;
pub const HEAD_ZERO: usize = 7;

// Row fields.
pub const TYPE: usize = 0;
pub const STATUS: usize = 1;
pub const CUSTOMER: usize = 2;
pub const SELLER: usize = 3;
pub const RELATED: usize = 4;
pub const START: usize = 5;
pub const STOP: usize = 6;
pub const FLAGS: usize = 7;
pub const BID: usize = 8;
pub const OFFER: usize = 9;
pub const LIMIT: usize = 10;
pub const PATH: usize = 11;
pub const FIRST_ZERO: usize = 12;

// Profiles of a row, in their order.
pub const REQUESTED: usize = 0;
pub const GRANTED: usize = 1;
pub const AVAILABLE: usize = 2;
pub const DISPLACED_MW: usize = 3;
pub const REDUCED_MW: usize = 4;

// Bounds.
pub const MAX_ROWS: u32 = 1_024;
pub const MAX_HOURS: u32 = 744;
pub const MAX_ENTITY: u32 = 65_535;
pub const MAX_WINDOW: u32 = 2_592_000;
/// Hours from 2000-01-01 00:00 UT to the end of 2099.
pub const END_HOUR: u32 = 876_600;
/// Seconds from 2000-01-01 00:00 UT to the end of 2099.
pub const END_SECOND: u32 = 3_155_760_000;
/// A limit is below this: the last second plus the widest window.
pub const END_LIMIT: u32 = 3_158_352_000;
pub const MAX_PRICE: u32 = 99_999_999;
pub const MAX_MW: u32 = 100_000;
pub const MAX_FLAGS: u32 = 63;
/// Paths are 1 to this.
pub const MAX_PATH: u32 = 64;

// Types.
pub const ORIGINAL_FIRM: u32 = 1;
pub const ORIGINAL_NON_FIRM: u32 = 2;
pub const RESALE: u32 = 3;
pub const REDIRECT_FIRM: u32 = 4;
pub const REDIRECT_NON_FIRM: u32 = 5;
pub const PART_TRANSFER: u32 = 6;
pub const FULL_TRANSFER: u32 = 7;
pub const RELINQUISH: u32 = 8;

// Statuses.
pub const QUEUED: u32 = 1;
pub const INVALID: u32 = 2;
pub const RECEIVED: u32 = 3;
pub const STUDY: u32 = 4;
pub const REFUSED: u32 = 5;
pub const COUNTEROFFER: u32 = 6;
pub const CR_COUNTEROFFER: u32 = 7;
pub const REBID: u32 = 8;
pub const SUPERSEDED: u32 = 9;
pub const ACCEPTED: u32 = 10;
pub const CR_ACCEPTED: u32 = 11;
pub const DECLINED: u32 = 12;
pub const CONFIRMED: u32 = 13;
pub const WITHDRAWN: u32 = 14;
pub const DISPLACED: u32 = 15;
pub const ANNULLED: u32 = 16;
pub const RETRACTED: u32 = 17;

// Flags.
pub const PRECONFIRMED: u32 = 1;
pub const COORDINATED: u32 = 2;
pub const APPROVED: u32 = 4;
pub const GRANTED_GIVEN: u32 = 8;
pub const OFFER_GIVEN: u32 = 16;
/// Was moved to 6 or 7 once.
pub const COUNTERED: u32 = 32;

// Kinds of action.
pub const SUBMIT: u32 = 1;
pub const SELLER_STATUS: u32 = 2;
pub const CUSTOMER_STATUS: u32 = 3;
pub const APPROVE: u32 = 4;
pub const REDUCE: u32 = 5;
pub const LAPSE: u32 = 6;
pub const CLOCK: u32 = 7;
pub const POST: u32 = 8;

// Numbers of the refusals.
pub const BAD_LEDGER: u32 = 1;
pub const BAD_CODE: u32 = 2;
pub const BAD_PARTY: u32 = 3;
pub const NO_REFERENCE: u32 = 4;
pub const BAD_TIME: u32 = 5;
pub const BAD_SPAN: u32 = 6;
pub const BAD_PROFILE: u32 = 7;
pub const LEDGER_FULL: u32 = 8;
pub const BAD_RELATED: u32 = 9;
pub const BAD_FLAGS: u32 = 10;
pub const BAD_MOVE: u32 = 11;
pub const BAD_TERMS: u32 = 12;
pub const NOT_APPROVED: u32 = 13;
pub const SHORT: u32 = 14;
pub const IN_USE: u32 = 15;
pub const BEFORE_LIMIT: u32 = 16;
pub const TOO_FEW_ANSWERS: u32 = 17;
pub const NOT_A_STAMP: u32 = 18;
pub const STAMP_RANGE: u32 = 19;
pub const UNBALANCED: u32 = 20;
pub const BAD_PATH: u32 = 21;
pub const OVER_POSTING: u32 = 22;
pub const TERM_RANGE: u32 = 25;

// How a stamp compares with another.
pub const EARLIER: u32 = 0;
pub const SAME: u32 = 1;
pub const LATER: u32 = 2;

pub fn is_entity(number: u32) -> bool {
    (1..=MAX_ENTITY).contains(&number)
}

pub fn is_path(number: u32) -> bool {
    (1..=MAX_PATH).contains(&number)
}

pub fn is_open(status: u32) -> bool {
    matches!(
        status,
        QUEUED | RECEIVED | STUDY | COUNTEROFFER | CR_COUNTEROFFER | REBID | ACCEPTED | CR_ACCEPTED
    )
}

/// The number of words of a ledger of `rows` rows and `hours` hours.
pub fn ledger_words(rows: u32, hours: u32) -> usize {
    HEAD_WORDS + rows as usize * row_words(hours as usize)
}

pub(crate) fn row_words(hours: usize) -> usize {
    FIELD_WORDS + PROFILES * hours
}

/// The number of words of the postings for `hours` hours.
pub fn posting_words(hours: u32) -> usize {
    MAX_PATH as usize * hours as usize
}

/// The words of one path's postings, all hours; those of path 1 come first.
pub fn posted(path: u32, hours: usize) -> Range<usize> {
    let first = (path as usize - 1) * hours;
    first..first + hours
}

/// Where one row of a ledger stands. Reference n is row n − 1.
#[derive(Clone, Copy, Debug)]
pub struct Row {
    pub at: usize,
    pub hours: usize,
}

impl Row {
    /// The row of a reference that is in use, in a sound ledger.
    pub fn of(ledger: &[u32], reference: u32) -> Row {
        let hours = ledger[HOURS] as usize;
        Row { at: HEAD_WORDS + (reference as usize - 1) * row_words(hours), hours }
    }

    pub fn get(self, ledger: &[u32], field: usize) -> u32 {
        ledger[self.at + field]
    }

    pub fn set(self, ledger: &mut [u32], field: usize, word: u32) {
        ledger[self.at + field] = word;
    }

    /// The words of one profile, all hours.
    pub fn profile(self, profile: usize) -> Range<usize> {
        let first = self.at + FIELD_WORDS + profile * self.hours;
        first..first + self.hours
    }

    /// The words of one profile from hour `start` up to `stop`.
    pub fn part(self, profile: usize, start: usize, stop: usize) -> Range<usize> {
        let first = self.at + FIELD_WORDS + profile * self.hours;
        first + start..first + stop
    }

    /// The words of one profile in the row's own span.
    pub fn span(self, ledger: &[u32], profile: usize) -> Range<usize> {
        self.part(profile, self.get(ledger, START) as usize, self.get(ledger, STOP) as usize)
    }
}
