//! Path limits: the postings, the use of a path, and the use that a confirmation
//! or an annulment would leave.

use std::ops::Range;

use crate::layout::*;
use crate::sound::greatest;

/// True where the words are postings for a ledger of so many hours.
pub fn postings_fit(postings: &[u32], hours: u32) -> bool {
    postings.len() == posting_words(hours) && greatest(postings) <= MAX_MW
}

/// The use of a path in a sound ledger, hour by hour.
pub fn path_use(ledger: &[u32], path: u32) -> Vec<u32> {
    Left { ledger, reference: 0, status: 0, available: Vec::new() }.path_use(path)
}

/// True where the use passes the posting in an hour.
pub(crate) fn exceeds(path_use: &[u32], posted: &[u32]) -> bool {
    path_use.iter().zip(posted).any(|(mw, posted)| mw > posted)
}

/// A ledger as an action on one row would leave it, in what use looks at.
pub(crate) struct Left<'a> {
    ledger: &'a [u32],
    /// The row acted on, and its status afterwards.
    reference: u32,
    status: u32,
    /// Available afterwards, all hours, of the rows where it changes.
    available: Vec<(u32, Vec<u32>)>,
}

impl<'a> Left<'a> {
    pub fn new(ledger: &'a [u32], reference: u32, status: u32) -> Left<'a> {
        Left { ledger, reference, status, available: Vec::new() }
    }

    /// Works out available of a row anew in some hours, from what it has and what moves.
    pub fn change(
        &mut self,
        reference: u32,
        hours: Range<usize>,
        moves: &[u32],
        anew: impl Fn(u32, u32) -> u32,
    ) {
        let mut available = self.available(reference).to_vec();
        for (mw, &moves) in available[hours].iter_mut().zip(moves) {
            *mw = anew(*mw, moves);
        }
        self.available.push((reference, available));
    }

    fn field(&self, reference: u32, field: usize) -> u32 {
        Row::of(self.ledger, reference).get(self.ledger, field)
    }

    fn is_confirmed(&self, reference: u32) -> bool {
        let status =
            if reference == self.reference { self.status } else { self.field(reference, STATUS) };
        status == CONFIRMED
    }

    fn available(&self, reference: u32) -> &[u32] {
        match self.available.iter().find(|(changed, _)| *changed == reference) {
            Some((_, available)) => available,
            None => &self.ledger[Row::of(self.ledger, reference).profile(AVAILABLE)],
        }
    }

    /// A row is in the use of its own path, and a type 5 also in that of its
    /// related row's: for the return, while that row is CONFIRMED.
    fn counts(&self, reference: u32, path: u32) -> bool {
        if !self.is_confirmed(reference) {
            return false;
        }
        if self.field(reference, PATH) == path {
            return true;
        }
        let related = self.field(reference, RELATED);
        self.field(reference, TYPE) == REDIRECT_NON_FIRM
            && self.field(related, PATH) == path
            && self.is_confirmed(related)
    }

    fn path_use(&self, path: u32) -> Vec<u32> {
        let mut sums = vec![0; self.ledger[HOURS] as usize];
        for reference in 1..=self.ledger[USED] {
            if self.counts(reference, path) {
                for (sum, mw) in sums.iter_mut().zip(self.available(reference)) {
                    *sum += mw;
                }
            }
        }
        sums
    }

    /// True where use of the row's path, or of its related row's, passes the
    /// posting in any hour of the ledger.
    pub fn exceeds(&self, postings: &[u32]) -> bool {
        let over = |path: u32| {
            let posted = posted(path, self.ledger[HOURS] as usize);
            exceeds(&self.path_use(path), &postings[posted])
        };
        let path = self.field(self.reference, PATH);
        let related = self.field(self.reference, RELATED);
        over(path)
            || related != 0 && self.field(related, PATH) != path && over(self.field(related, PATH))
    }
}
