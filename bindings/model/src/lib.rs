//! The hourly reservation ledger of document 01 with the withdrawal after a rebid, the
//! order of stamps, the path limits, the kept reductions, the balance on opening, the
//! first refusal and the annulments in order of document 02, written from the papers
//! alone.
//!
//! A ledger is a slice of 32-bit words: a head of 8 words, then R rows of
//! 16 + 5 × H words each. What the provider posts for each path and hour stands
//! in a second slice of 64 × H words. Everything here works in place on those
//! words. The names follow the papers; `reqtype` is their type.
//!
//! The crate is the yardstick for the tests and for the benchmark: plain loops,
//! one pass for soundness, no state beside the words.

mod actions;
mod annulments;
mod contest;
mod layout;
mod open;
mod paths;
mod readout;
mod sound;
mod stamp;
mod tally;

pub use actions::{act, batch, create};
pub use annulments::{annulment, annuls_in_order};
pub use contest::{contest, Contest};
pub use layout::*;
pub use open::{open, row_balances, tree_balances};
pub use paths::{path_use, postings_fit};
pub use readout::{charge, profile_in_force};
pub use sound::sound;
pub use stamp::{compare_stamps, read_stamp, write_stamp, DAYS_BEFORE_MONTH, HOURS_BEHIND, ZONES};
pub use tally::{balanced, Entry, Tally};

/// One action: the fields its kind does not read are ignored.
#[repr(C)]
#[derive(Clone, Copy, Debug, Default, PartialEq, Eq)]
pub struct Action {
    pub kind: u32,
    pub actor: u32,
    pub reference: u32,
    pub reqtype: u32,
    pub status: u32,
    pub seller: u32,
    pub related: u32,
    pub start: u32,
    pub stop: u32,
    pub flags: u32,
    pub price: u32,
    pub time: u32,
    /// First word of the profile in the lent word slice.
    pub offset: u32,
    /// Number of profile words; 0 where no profile comes.
    pub length: u32,
    pub path: u32,
}

/// The answer to one action, or to a contest.
#[repr(C)]
#[derive(Clone, Copy, Debug, Default, PartialEq, Eq)]
pub struct Answer {
    /// 0 accepted, otherwise the number of the refusal.
    pub number: u32,
    pub reference: u32,
    pub before: u32,
    pub after: u32,
    /// MW-hours moved.
    pub moved: u32,
}

impl Answer {
    /// A refusal: its number and four zeros.
    pub fn refused(number: u32) -> Answer {
        Answer { number, ..Answer::default() }
    }
}

#[cfg(test)]
mod tests;
