//! Differential tests: anything that claims to carry out the rules of documents 01
//! and 02 is held against the model, action by action and word by word.
//!
//! The generators are `lists` (from fresh ledgers, biased to accepted actions
//! and deep chains), `dense` (any kind on any sound ledger), `edges` (words and
//! fields at their bounds and over), `openings` (ledgers that open, and damaged
//! ones), `contests` (between the actions of lists, on any ledger, at their edges,
//! and by strategies), `annulments` (orders of references, of any ledger and of deals
//! made to be unwound), `batches` and `stamps` (there and back, and compared in pairs).
//! `desks` gives a subject two actions in either order. `limits` works out the use of
//! paths apart from the model, `plays` what a contest comes to, `unwound` what annulments
//! in order do. `faults` holds models with a planted fault; the tests prove that each is
//! caught.

pub mod annulments;
pub mod batches;
pub mod contests;
pub mod converted;
pub mod dense;
pub mod desks;
pub mod edges;
pub mod faults;
pub mod limits;
pub mod lists;
pub mod openings;
pub mod plays;
pub mod reached;
pub mod rng;
pub mod rules;
pub mod run;
pub mod stamps;
pub mod unwound;
