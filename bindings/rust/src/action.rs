//! Actions, their profiles, and answers.

use std::fmt;

use crate::names::{Flags, Kind, Refusal, RequestType, Status};

/// Where a profile stands in the word slice that is handed over with an action.
#[derive(Clone, Copy, Debug, Default, PartialEq, Eq)]
pub struct ProfileAt {
    /// Its first word.
    pub offset: u32,
    /// Its number of words, one for each hour of the span.
    pub length: u32,
}

/// The word slice of a list of actions: profiles one after the other.
///
/// ```
/// let mut profiles = luddrisa::Profiles::new();
/// profiles.add(&[100; 4]);
/// let at = profiles.add(&[40, 60]);
/// assert_eq!((at.offset, at.length), (4, 2));
/// assert_eq!(profiles.words(), [100, 100, 100, 100, 40, 60]);
/// ```
#[derive(Clone, Debug, Default, PartialEq, Eq)]
pub struct Profiles {
    words: Vec<u32>,
}

impl Profiles {
    /// No profiles yet.
    pub fn new() -> Profiles {
        Profiles::default()
    }

    /// Adds a profile in whole MW, hour by hour.
    ///
    /// # Panics
    ///
    /// Where the words pass 2^32.
    pub fn add(&mut self, profile: &[u32]) -> ProfileAt {
        let offset = u32::try_from(self.words.len()).expect("profiles within 2^32 words");
        let length = u32::try_from(profile.len()).expect("profiles within 2^32 words");
        self.words.extend_from_slice(profile);
        ProfileAt { offset, length }
    }

    /// The words to hand over.
    pub fn words(&self) -> &[u32] {
        &self.words
    }
}

/// One action. Fields that its kind does not read are ignored; the constructors
/// leave them 0.
///
/// ```
/// use luddrisa::{Action, Flags, ProfileAt, RequestType};
///
/// let at = ProfileAt { offset: 4, length: 2 };
/// let resale = Action::submit(20, RequestType::RESALE, 10)
///     .path(5)
///     .related(1)
///     .span(1, 3)
///     .flags(Flags::PRECONFIRMED)
///     .price(700)
///     .profile(at);
/// assert_eq!((resale.kind, resale.reqtype, resale.length, resale.path), (1, 3, 2, 5));
/// ```
#[repr(C)]
#[derive(Clone, Copy, Debug, Default, PartialEq, Eq)]
pub struct Action {
    /// The kind, 1 to 8: see [`Kind`].
    pub kind: u32,
    /// The entity that acts.
    pub actor: u32,
    /// ASSIGNMENT_REF of the row it acts on.
    pub reference: u32,
    /// REQUEST_TYPE of a submission: see [`RequestType`].
    pub reqtype: u32,
    /// The status it names: see [`Status`].
    pub status: u32,
    /// The seller of a submission.
    pub seller: u32,
    /// RELATED_REF of a submission, 0 for originals.
    pub related: u32,
    /// First hour of a submission or a posting.
    pub start: u32,
    /// The hour after its last.
    pub stop: u32,
    /// Flags of a submission: see [`Flags`].
    pub flags: u32,
    /// Cents per MW-day: the bid of a customer, the offer of a seller.
    pub price: u32,
    /// The clock's second since 2000-01-01 00:00 UT.
    pub time: u32,
    /// First word of the profile in the word slice.
    pub offset: u32,
    /// Number of its words, 0 where no profile comes.
    pub length: u32,
    /// The path of a submission or a posting, 1 to 64.
    pub path: u32,
}

impl Action {
    fn of(kind: Kind, actor: u32) -> Action {
        Action { kind: kind.0, actor, ..Action::default() }
    }

    /// Kind 1: the actor, who becomes the customer, submits a request to a
    /// seller. Goes on with [`path`](Action::path), [`related`](Action::related),
    /// [`span`](Action::span), [`flags`](Action::flags), [`price`](Action::price)
    /// and [`profile`](Action::profile). Resales, transfers and relinquishments
    /// are on their related row's path; a redirect may be on any.
    pub fn submit(actor: u32, reqtype: RequestType, seller: u32) -> Action {
        Action { reqtype: reqtype.0, seller, ..Action::of(Kind::SUBMIT, actor) }
    }

    /// Kind 2: the seller moves a row. Statuses 6, 7, 10 and 11 need the price
    /// offered and may bring a profile to be granted.
    pub fn seller_status(actor: u32, reference: u32, status: Status) -> Action {
        Action { reference, status: status.0, ..Action::of(Kind::SELLER_STATUS, actor) }
    }

    /// Kind 3: the customer moves a row. Statuses 8 and 13 need the price bid
    /// and may bring a profile to be requested.
    pub fn customer_status(actor: u32, reference: u32, status: Status) -> Action {
        Action { reference, status: status.0, ..Action::of(Kind::CUSTOMER_STATUS, actor) }
    }

    /// Kind 4: the provider approves a transfer.
    pub fn approve(provider: u32, reference: u32) -> Action {
        Action { reference, ..Action::of(Kind::APPROVE, provider) }
    }

    /// Kind 5: the provider reduces a confirmed row by a profile for its span, which
    /// goes from its available to its reduced.
    pub fn reduce(provider: u32, reference: u32, profile: ProfileAt) -> Action {
        Action { reference, ..Action::of(Kind::REDUCE, provider) }.profile(profile)
    }

    /// Kind 6: the provider lets an offer lapse, at its limit or after.
    pub fn lapse(provider: u32, reference: u32) -> Action {
        Action { reference, ..Action::of(Kind::LAPSE, provider) }
    }

    /// Kind 7: the provider sets the clock, in seconds since 2000-01-01 00:00 UT.
    pub fn clock(provider: u32, time: u32) -> Action {
        Action { time, ..Action::of(Kind::CLOCK, provider) }
    }

    /// Kind 8: the provider posts what a path can carry. Goes on with
    /// [`span`](Action::span) and [`profile`](Action::profile), which replaces the
    /// path's postings in those hours and may be all 0.
    pub fn post(provider: u32, path: u32) -> Action {
        Action { path, ..Action::of(Kind::POST, provider) }
    }

    /// On a path.
    pub fn path(self, path: u32) -> Action {
        Action { path, ..self }
    }

    /// With a related reference.
    pub fn related(self, related: u32) -> Action {
        Action { related, ..self }
    }

    /// With hours from `start` up to, not including, `stop`.
    pub fn span(self, start: u32, stop: u32) -> Action {
        Action { start, stop, ..self }
    }

    /// With flags.
    pub fn flags(self, flags: Flags) -> Action {
        Action { flags: flags.0, ..self }
    }

    /// With a price in cents per MW-day.
    pub fn price(self, price: u32) -> Action {
        Action { price, ..self }
    }

    /// With a profile.
    pub fn profile(self, at: ProfileAt) -> Action {
        Action { offset: at.offset, length: at.length, ..self }
    }
}

/// The answer to an action or a contest. A refusal carries its number and four
/// zeros, the clock and a posting five zeros.
#[repr(C)]
#[derive(Clone, Copy, Debug, Default, PartialEq, Eq)]
pub struct Answer {
    /// 0 accepted, otherwise the number of the [`Refusal`].
    pub number: u32,
    /// The row's reference.
    pub reference: u32,
    /// Its status before, 0 for a submission.
    pub before: u32,
    /// Its status after.
    pub after: u32,
    /// MW-hours moved: confirmed, annulled, displaced or reduced.
    pub moved: u32,
}

impl Answer {
    /// True where the action or the contest was accepted.
    pub fn is_accepted(&self) -> bool {
        self.number == 0
    }

    /// Why it was refused, none where it was accepted.
    pub fn refusal(&self) -> Option<Refusal> {
        Refusal::of(self.number)
    }

    /// The status before, none for a submission, the clock, a posting or a refusal.
    pub fn status_before(&self) -> Option<Status> {
        (self.before != 0).then_some(Status(self.before))
    }

    /// The status after, none for the clock, a posting or a refusal.
    pub fn status_after(&self) -> Option<Status> {
        (self.after != 0).then_some(Status(self.after))
    }

    /// True where the row was displaced: by its seller's action, or by a contest that its
    /// holder lost. Where a contest was kept or left unfinished, the row is CONFIRMED
    /// after it as before.
    pub fn displaces(&self) -> bool {
        self.status_after() == Some(Status::DISPLACED)
    }
}

/// Number, reference, before, after, moved, as document 01 prints them.
impl fmt::Display for Answer {
    fn fmt(&self, f: &mut fmt::Formatter<'_>) -> fmt::Result {
        let Answer { number, reference, before, after, moved } = self;
        write!(f, "{number} {reference} {before} {after} {moved}")
    }
}

#[cfg(test)]
mod tests {
    use super::*;
    use std::mem::{align_of, size_of};

    #[test]
    fn layout_is_that_of_the_header() {
        assert_eq!((size_of::<Action>(), align_of::<Action>()), (15 * 4, 4));
        assert_eq!((size_of::<Answer>(), align_of::<Answer>()), (5 * 4, 4));
        assert_eq!(std::mem::offset_of!(Action, reqtype), 3 * 4);
        assert_eq!(std::mem::offset_of!(Action, length), 13 * 4);
        assert_eq!(std::mem::offset_of!(Action, path), 14 * 4);
        assert_eq!(std::mem::offset_of!(Answer, moved), 4 * 4);
    }

    #[test]
    fn constructors_name_their_kind() {
        let at = ProfileAt { offset: 7, length: 2 };
        assert_eq!(Action::submit(1, RequestType::RESALE, 2).kind, 1);
        assert_eq!(Action::seller_status(1, 2, Status::ACCEPTED).kind, 2);
        assert_eq!(Action::customer_status(1, 2, Status::CONFIRMED).kind, 3);
        assert_eq!(Action::approve(1, 2).kind, 4);
        assert_eq!(Action::lapse(1, 2).kind, 6);
        assert_eq!(Action::clock(1, 2), Action { kind: 7, actor: 1, time: 2, ..Action::default() });
        let reduce = Action::reduce(1, 3, at);
        assert_eq!((reduce.kind, reduce.reference, reduce.offset, reduce.length), (5, 3, 7, 2));
        let post = Action::post(1, 64).span(3, 5).profile(at);
        assert_eq!((post.kind, post.path, post.start, post.stop), (8, 64, 3, 5));
        assert_eq!((post.actor, post.offset, post.length), (1, 7, 2));
        assert_eq!(Action::submit(1, RequestType::RESALE, 2).path(3).path, 3);
    }

    #[test]
    fn answers_are_read_and_shown() {
        let answer = Answer { number: 0, reference: 1, before: 0, after: 1, moved: 0 };
        assert_eq!(answer.to_string(), "0 1 0 1 0");
        assert_eq!((answer.status_before(), answer.status_after()), (None, Some(Status::QUEUED)));
        assert!(answer.is_accepted() && answer.refusal().is_none());
        let refused = Answer { number: 14, ..Answer::default() };
        assert_eq!(refused.refusal(), Some(Refusal::SHORT));
        let lost = Answer { number: 0, reference: 1, before: 13, after: 15, moved: 7 };
        let kept = Answer { after: 13, moved: 0, ..lost };
        assert_eq!([lost, kept, refused].map(|answer| answer.displaces()), [true, false, false]);
    }
}
