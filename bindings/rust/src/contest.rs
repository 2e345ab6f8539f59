//! A contest for a firm row: who runs it, and what the two parties may do.

use std::num::NonZeroU32;

use crate::names::{Refusal, Status};
use crate::Action;

/// A contest for a firm row, of which its holder has the first refusal: to each term
/// that a challenger names the holder commits itself to as much or gives way, and so
/// it goes on with longer terms until one of them has had enough.
///
/// It is run by [`Ledger::contest`](crate::Ledger::contest) from the moves of both.
/// The greatest terms say how far each of them can go; whoever can go further has
/// the row if it wants to, and between equals that is the holder.
///
/// ```
/// use luddrisa::{Action, Contest, Status};
///
/// let contest = Contest { actor: 1, reference: 7, challenger: 48, holder: 36 };
/// assert_eq!(contest.displacement(), Action::seller_status(1, 7, Status::DISPLACED));
/// ```
#[derive(Clone, Copy, Debug, PartialEq, Eq)]
pub struct Contest {
    /// The entity that runs it, which must be the row's seller. For a resale that is
    /// its reseller and not the provider.
    pub actor: u32,
    /// ASSIGNMENT_REF of the row.
    pub reference: u32,
    /// The challenger's greatest term in hours: 1 up to the hours of the ledger.
    pub challenger: u32,
    /// The holder's greatest term in hours: the row's own hours up to those of the
    /// ledger.
    pub holder: u32,
}

impl Contest {
    /// The action that a lost contest comes to. In a list kept of what was done to a
    /// ledger it stands for the contest, with the contest's answer; a contest that was
    /// not lost leaves nothing there.
    pub fn displacement(&self) -> Action {
        Action::seller_status(self.actor, self.reference, Status::DISPLACED)
    }
}

/// What the challenger does.
///
/// ```
/// use luddrisa::{Move, Refusal};
///
/// let moves = [Move::term(36)?, Move::term(48)?, Move::Stop];
/// assert_eq!(moves.map(u32::from), [36, 48, 0]);
/// // No hours are not a term, and are not taken for a stop.
/// assert_eq!(Move::term(0), Err(Refusal::TERM_OUT_OF_RANGE));
/// # Ok::<(), Refusal>(())
/// ```
#[derive(Clone, Copy, Debug, PartialEq, Eq)]
pub enum Move {
    /// Names a term of so many hours. It must be longer than the last, which at first
    /// is the row's own.
    Term(NonZeroU32),
    /// Names no more. The holder keeps the row.
    Stop,
}

impl Move {
    /// Names a term of so many hours; 0 is out of range.
    pub fn term(hours: u32) -> Result<Move, Refusal> {
        NonZeroU32::new(hours).map(Move::Term).ok_or(Refusal::TERM_OUT_OF_RANGE)
    }
}

/// The word of a move: its term, or 0 for a stop.
impl From<Move> for u32 {
    fn from(of: Move) -> u32 {
        match of {
            Move::Term(hours) => hours.get(),
            Move::Stop => 0,
        }
    }
}

/// What the holder answers to a term.
///
/// ```
/// use luddrisa::Reply;
///
/// assert_eq!([Reply::Match, Reply::Yield].map(u32::from), [1, 0]);
/// ```
#[derive(Clone, Copy, Debug, PartialEq, Eq)]
pub enum Reply {
    /// Would take the term that was named, which is then the last. The row and its
    /// hours stay as they are.
    Match,
    /// Gives way. The row is lost, and displaced.
    Yield,
}

/// The word of an answer: 1 for a match, 0 for a yield.
impl From<Reply> for u32 {
    fn from(of: Reply) -> u32 {
        match of {
            Reply::Match => 1,
            Reply::Yield => 0,
        }
    }
}
