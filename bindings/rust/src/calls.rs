//! The calls of the static library over slices, as `luddrisa.h` declares them.
//!
//! These give the numbers as they are; [`Ledger`](crate::Ledger) is handier.

use crate::{Action, Answer, Contest};

mod extern_c {
    use super::{Action, Answer};

    extern "C" {
        pub fn luddrisa_create(
            ledger: *mut u32,
            len: usize,
            rows: u32,
            hours: u32,
            provider: u32,
            window: u32,
            base: u32,
        ) -> u32;
        pub fn luddrisa_open(ledger: *const u32, ledger_len: usize) -> u32;
        pub fn luddrisa_batch(
            ledger: *mut u32,
            ledger_len: usize,
            postings: *mut u32,
            postings_len: usize,
            words: *const u32,
            words_len: usize,
            actions: *const Action,
            actions_len: usize,
            answers: *mut Answer,
            answers_len: usize,
        ) -> u32;
        pub fn luddrisa_contest(
            ledger: *mut u32,
            ledger_len: usize,
            postings: *const u32,
            postings_len: usize,
            actor: u32,
            reference: u32,
            challenger: u32,
            holder: u32,
            moves: *const u32,
            moves_len: usize,
            replies: *const u32,
            replies_len: usize,
        ) -> Answer;
        pub fn luddrisa_annuls_in_order(
            ledger: *const u32,
            ledger_len: usize,
            postings: *const u32,
            postings_len: usize,
            references: *const u32,
            references_len: usize,
        ) -> u32;
        pub fn luddrisa_charge(
            ledger: *const u32,
            len: usize,
            reference: u32,
            cents: *mut u64,
        ) -> u32;
        pub fn luddrisa_profile_in_force(
            ledger: *const u32,
            len: usize,
            reference: u32,
            out: *mut u32,
            out_len: usize,
        ) -> usize;
        pub fn luddrisa_read_stamp(bytes: *const u8, len: usize, second: *mut u32) -> u32;
        pub fn luddrisa_compare_stamps(
            first: *const u8,
            first_len: usize,
            second: *const u8,
            second_len: usize,
            order: *mut u32,
        ) -> u32;
        pub fn luddrisa_write_stamp(bytes: *mut u8, len: usize, second: u32, zone: u32) -> u32;
    }
}

/// Makes the slice a ledger with no rows used: 0, or 1 and nothing written.
pub fn create(
    ledger: &mut [u32],
    rows: u32,
    hours: u32,
    provider: u32,
    window: u32,
    base: u32,
) -> u32 {
    // SAFETY: the pointer and the length are those of a slice lent for the call.
    unsafe {
        extern_c::luddrisa_create(
            ledger.as_mut_ptr(),
            ledger.len(),
            rows,
            hours,
            provider,
            window,
            base,
        )
    }
}

/// Opens a stored ledger, which is only read: 0, 1 where it is unsound, or 20 where
/// some hour does not balance.
pub fn open(ledger: &[u32]) -> u32 {
    // SAFETY: the pointer and the length are those of a slice lent for the call.
    unsafe { extern_c::luddrisa_open(ledger.as_ptr(), ledger.len()) }
}

/// Answers each action in turn: 0, or 17 and nothing done where there are fewer
/// answer places than actions. Spare places are not written. `postings` are 64
/// words for each hour of the ledger; of any other length every action answers 1.
pub fn batch(
    ledger: &mut [u32],
    postings: &mut [u32],
    words: &[u32],
    actions: &[Action],
    answers: &mut [Answer],
) -> u32 {
    // SAFETY: the pointers and the lengths are those of slices lent for the call;
    // the three that are written are borrowed mutably and so overlap nothing.
    unsafe {
        extern_c::luddrisa_batch(
            ledger.as_mut_ptr(),
            ledger.len(),
            postings.as_mut_ptr(),
            postings.len(),
            words.as_ptr(),
            words.len(),
            actions.as_ptr(),
            actions.len(),
            answers.as_mut_ptr(),
            answers.len(),
        )
    }
}

/// Runs a contest from words: a move is a term in hours or 0, which stops, and a reply
/// is 0, which yields, or any other word, which matches. A lost one displaces the row.
pub fn contest(
    ledger: &mut [u32],
    postings: &[u32],
    contest: &Contest,
    moves: &[u32],
    replies: &[u32],
) -> Answer {
    // SAFETY: the pointers and the lengths are those of slices lent for the call; the
    // ledger, which alone is written, is borrowed mutably and so overlaps nothing.
    unsafe {
        extern_c::luddrisa_contest(
            ledger.as_mut_ptr(),
            ledger.len(),
            postings.as_ptr(),
            postings.len(),
            contest.actor,
            contest.reference,
            contest.challenger,
            contest.holder,
            moves.as_ptr(),
            moves.len(),
            replies.as_ptr(),
            replies.len(),
        )
    }
}

/// Tells whether annulling the references in that order, each by its row's seller, is
/// accepted at every step: 1 yes, 0 no. All slices are only read.
pub fn annuls_in_order(ledger: &[u32], postings: &[u32], references: &[u32]) -> u32 {
    // SAFETY: the pointers and the lengths are those of slices lent for the call.
    unsafe {
        extern_c::luddrisa_annuls_in_order(
            ledger.as_ptr(),
            ledger.len(),
            postings.as_ptr(),
            postings.len(),
            references.as_ptr(),
            references.len(),
        )
    }
}

/// The charge of a row: 0 and its cents, or the number of the refusal and 0.
pub fn charge(ledger: &[u32], reference: u32) -> (u32, u64) {
    let mut cents = u64::MAX;
    // SAFETY: the pointer and the length are those of a slice lent for the call.
    let number =
        unsafe { extern_c::luddrisa_charge(ledger.as_ptr(), ledger.len(), reference, &mut cents) };
    (number, cents)
}

/// The number of hours of a row's profile in force, 0 where it is empty. Its
/// words are written to the front of `out` if they fit, otherwise none is.
pub fn profile_in_force(ledger: &[u32], reference: u32, out: &mut [u32]) -> usize {
    // SAFETY: the pointers and the lengths are those of slices lent for the call;
    // `out` is borrowed mutably and so does not overlap the ledger.
    unsafe {
        extern_c::luddrisa_profile_in_force(
            ledger.as_ptr(),
            ledger.len(),
            reference,
            out.as_mut_ptr(),
            out.len(),
        )
    }
}

/// The second of a stamp: 0 and the second, or 18 and 0.
pub fn read_stamp(bytes: &[u8]) -> (u32, u32) {
    let mut second = u32::MAX;
    // SAFETY: the pointer and the length are those of a slice lent for the call.
    let number = unsafe { extern_c::luddrisa_read_stamp(bytes.as_ptr(), bytes.len(), &mut second) };
    (number, second)
}

/// Compares two stamps: 0, and 0, 1 or 2 as the first's second is earlier than, the same as
/// or later than the second's, whatever the zones; or 18 and 0 where either is refused.
pub fn compare_stamps(first: &[u8], second: &[u8]) -> (u32, u32) {
    let mut order = u32::MAX;
    // SAFETY: the pointers and the lengths are those of slices lent for the call.
    let number = unsafe {
        extern_c::luddrisa_compare_stamps(
            first.as_ptr(),
            first.len(),
            second.as_ptr(),
            second.len(),
            &mut order,
        )
    };
    (number, order)
}

/// Writes the stamp of a second in a zone: 0, or 19 and nothing written.
pub fn write_stamp(bytes: &mut [u8], second: u32, zone: u32) -> u32 {
    // SAFETY: the pointer and the length are those of a slice lent for the call.
    unsafe { extern_c::luddrisa_write_stamp(bytes.as_mut_ptr(), bytes.len(), second, zone) }
}
