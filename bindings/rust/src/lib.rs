//! Luddrisa: an hourly ledger of point-to-point transmission reservations.
//!
//! A [`Ledger`] holds requests from submission to final status, the megawatts
//! they move between rows hour by hour, and their prices. It changes only
//! through an [`Action`], or a [`Contest`] for a row that its holder loses; each gets
//! one [`Answer`], which either accepts it or carries the number of a [`Refusal`],
//! and what is refused changes nothing. Beside it stand the [`Postings`], what the
//! provider says that each path can carry: no path is ever used beyond them.
//! Documents 01 and 02 state the rules; this crate calls the static library that
//! carries them out, and adds names and types.
//!
//! # Features
//!
//! `archive` turns on the calls: [`Ledger`], [`Postings`], [`read_stamp`],
//! [`write_stamp`], [`compare_stamps`] and the module [`calls`]. Binaries and tests
//! are then linked with `libluddrisa.a`, looked for in the directory that the
//! environment variable `LUDDRISA_ARCHIVE_DIR` names, or else in
//! `../../target/staticlib`. Without the feature there are only actions, contests,
//! answers and names.
//!
//! # A first day
//!
#![cfg_attr(feature = "archive", doc = "```")]
#![cfg_attr(not(feature = "archive"), doc = "```ignore")]
//! # fn main() -> Result<(), luddrisa::Refusal> {
//! use luddrisa::{Action, Ledger, Postings, Profiles, RequestType, Status};
//!
//! // 8 rows, 4 hours, provider 1, an hour to confirm, from base hour 0 on.
//! let mut ledger = Ledger::create(8, 4, 1, 3_600, 0)?;
//! let mut postings = Postings::none(&ledger);
//! let mut profiles = Profiles::new();
//! let all_day = profiles.add(&[100; 4]);
//! let list = [
//!     Action::post(1, 7).span(0, 4).profile(all_day),
//!     Action::submit(10, RequestType::ORIGINAL_FIRM, 1)
//!         .path(7)
//!         .span(0, 4)
//!         .price(500)
//!         .profile(all_day),
//!     Action::seller_status(1, 1, Status::ACCEPTED).price(500),
//!     Action::customer_status(10, 1, Status::CONFIRMED).price(500),
//! ];
//! let answers = ledger.answers(&mut postings, profiles.words(), &list);
//! assert!(answers.iter().all(|answer| answer.is_accepted()));
//! assert_eq!(answers[3].moved, 400);
//! assert_eq!(ledger.charge(1)?, 8_333);
//! # Ok(())
//! # }
//! ```
//!
//! # What to expect
//!
//! Acceptance reserves nothing: capacity is compared when a row is confirmed, with
//! the related row's and with what is posted for the paths concerned. Where nothing
//! is posted, nothing is confirmed, and a posting can't be lowered below the use.
//! A firm redirect frees the path it leaves, so annulling it can fail once that
//! path is sold again; a non-firm one keeps it free for the return.
//! What was cut from a row by reductions is kept in it, added up hour by hour.
//! A stored ledger is taken up again by [`Ledger::open`], which tests that every
//! hour balances; actions do not test it.
//! A list of actions is not all-or-nothing: each has its own answer. A charge
//! goes by what was granted and ignores reductions, resales and transfers.
//! Two actions on rows of different originals' trees, with no path in rows of both,
//! come to the same in either order, unless one submits, posts or sets the clock.
//! When a deal chain is unwound, resales are annulled before what they came from:
//! [`Ledger::annuls_in_order`] tells whether an order would do, and annuls nothing.
//! A contest is a call of its own and no action. Only a firm row is contested, and
//! only by its seller; a match keeps the row as it is and does not lengthen it. A row
//! over all hours of its ledger can't be lost, for no longer term can be named.

#![warn(missing_docs)]
#![cfg_attr(not(feature = "archive"), allow(rustdoc::broken_intra_doc_links))]

mod action;
mod contest;
mod names;

#[cfg(feature = "archive")]
pub mod calls;
#[cfg(feature = "archive")]
mod ledger;

pub use action::{Action, Answer, ProfileAt, Profiles};
pub use contest::{Contest, Move, Reply};
pub use names::{Flags, Kind, Refusal, RequestType, Status, Zone};

#[cfg(feature = "archive")]
pub use ledger::{compare_stamps, read_stamp, write_stamp, Head, Ledger, Postings, Row};
