//! What is tested: the ten calls, by whomever they are carried out.

#[cfg(feature = "archive")]
use crate::converted::{action_to_library, answer_to_library, answer_to_model, contest_to_library};
use luddrisa_model as model;
pub use luddrisa_model::{Action, Answer, Contest};

/// The calls over slices, with their numbers.
pub trait Rules {
    /// Numbers are rows, hours, provider, window, base.
    fn create(&self, ledger: &mut [u32], numbers: [u32; 5]) -> u32;
    fn open(&self, ledger: &[u32]) -> u32;
    fn batch(
        &self,
        ledger: &mut [u32],
        postings: &mut [u32],
        words: &[u32],
        actions: &[Action],
        answers: &mut [Answer],
    ) -> u32;
    /// The postings are lent to be written, though no contest may: one that does is seen.
    fn contest(
        &self,
        ledger: &mut [u32],
        postings: &mut [u32],
        contest: &Contest,
        moves: &[u32],
        replies: &[u32],
    ) -> Answer;
    /// Ledger and postings are lent to be written, though neither may be: one that does is
    /// seen.
    fn annuls_in_order(&self, ledger: &mut [u32], postings: &mut [u32], references: &[u32]) -> u32;
    fn charge(&self, ledger: &[u32], reference: u32) -> (u32, u64);
    fn profile_in_force(&self, ledger: &[u32], reference: u32, out: &mut [u32]) -> usize;
    fn read_stamp(&self, bytes: &[u8]) -> (u32, u32);
    /// Number, order.
    fn compare_stamps(&self, first: &[u8], second: &[u8]) -> (u32, u32);
    fn write_stamp(&self, bytes: &mut [u8], second: u32, zone: u32) -> u32;
}

/// The model.
pub struct Model;

impl Rules for Model {
    fn create(&self, ledger: &mut [u32], [rows, hours, provider, window, base]: [u32; 5]) -> u32 {
        model::create(ledger, rows, hours, provider, window, base)
    }

    fn open(&self, ledger: &[u32]) -> u32 {
        model::open(ledger)
    }

    fn batch(
        &self,
        ledger: &mut [u32],
        postings: &mut [u32],
        words: &[u32],
        actions: &[Action],
        answers: &mut [Answer],
    ) -> u32 {
        model::batch(ledger, postings, words, actions, answers)
    }

    fn contest(
        &self,
        ledger: &mut [u32],
        postings: &mut [u32],
        contest: &Contest,
        moves: &[u32],
        replies: &[u32],
    ) -> Answer {
        model::contest(ledger, postings, contest, moves, replies)
    }

    fn annuls_in_order(&self, ledger: &mut [u32], postings: &mut [u32], references: &[u32]) -> u32 {
        u32::from(model::annuls_in_order(ledger, postings, references))
    }

    fn charge(&self, ledger: &[u32], reference: u32) -> (u32, u64) {
        match model::charge(ledger, reference) {
            Ok(cents) => (0, cents),
            Err(number) => (number, 0),
        }
    }

    fn profile_in_force(&self, ledger: &[u32], reference: u32, out: &mut [u32]) -> usize {
        let profile = model::profile_in_force(ledger, reference);
        if let Some(front) = out.get_mut(..profile.len()) {
            front.copy_from_slice(profile);
        }
        profile.len()
    }

    fn read_stamp(&self, bytes: &[u8]) -> (u32, u32) {
        match model::read_stamp(bytes) {
            Ok(second) => (0, second),
            Err(number) => (number, 0),
        }
    }

    fn compare_stamps(&self, first: &[u8], second: &[u8]) -> (u32, u32) {
        match model::compare_stamps(first, second) {
            Ok(order) => (0, order),
            Err(number) => (number, 0),
        }
    }

    fn write_stamp(&self, bytes: &mut [u8], second: u32, zone: u32) -> u32 {
        model::write_stamp(bytes, second, zone)
    }
}

/// The static library.
#[cfg(feature = "archive")]
pub struct Library;

#[cfg(feature = "archive")]
impl Rules for Library {
    fn create(&self, ledger: &mut [u32], [rows, hours, provider, window, base]: [u32; 5]) -> u32 {
        luddrisa::calls::create(ledger, rows, hours, provider, window, base)
    }

    fn open(&self, ledger: &[u32]) -> u32 {
        luddrisa::calls::open(ledger)
    }

    fn batch(
        &self,
        ledger: &mut [u32],
        postings: &mut [u32],
        words: &[u32],
        actions: &[Action],
        answers: &mut [Answer],
    ) -> u32 {
        let actions: Vec<_> = actions.iter().map(action_to_library).collect();
        let mut places: Vec<_> = answers.iter().map(answer_to_library).collect();
        let number = luddrisa::calls::batch(ledger, postings, words, &actions, &mut places);
        for (answer, place) in answers.iter_mut().zip(&places) {
            *answer = answer_to_model(place);
        }
        number
    }

    fn contest(
        &self,
        ledger: &mut [u32],
        postings: &mut [u32],
        contest: &Contest,
        moves: &[u32],
        replies: &[u32],
    ) -> Answer {
        let contest = contest_to_library(contest);
        answer_to_model(&luddrisa::calls::contest(ledger, postings, &contest, moves, replies))
    }

    fn annuls_in_order(&self, ledger: &mut [u32], postings: &mut [u32], references: &[u32]) -> u32 {
        luddrisa::calls::annuls_in_order(ledger, postings, references)
    }

    fn charge(&self, ledger: &[u32], reference: u32) -> (u32, u64) {
        luddrisa::calls::charge(ledger, reference)
    }

    fn profile_in_force(&self, ledger: &[u32], reference: u32, out: &mut [u32]) -> usize {
        luddrisa::calls::profile_in_force(ledger, reference, out)
    }

    fn read_stamp(&self, bytes: &[u8]) -> (u32, u32) {
        luddrisa::calls::read_stamp(bytes)
    }

    fn compare_stamps(&self, first: &[u8], second: &[u8]) -> (u32, u32) {
        luddrisa::calls::compare_stamps(first, second)
    }

    fn write_stamp(&self, bytes: &mut [u8], second: u32, zone: u32) -> u32 {
        luddrisa::calls::write_stamp(bytes, second, zone)
    }
}
