//! The numbers of documents 01 and 02 with their names.

use std::fmt;
use std::ops::BitOr;

macro_rules! named_numbers {
    ($(#[$about:meta])* $name:ident { $($constant:ident = $number:literal, $text:literal;)* }) => {
        $(#[$about])*
        #[derive(Clone, Copy, Debug, PartialEq, Eq, PartialOrd, Ord, Hash)]
        pub struct $name(
            /// The number itself.
            pub u32,
        );

        impl $name {
            $(
                #[doc = concat!("Number ", stringify!($number), ": ", $text, ".")]
                pub const $constant: $name = $name($number);
            )*

            /// All that have a name, in the order of their numbers.
            pub const ALL: &'static [$name] = &[$($name::$constant),*];

            /// The text of a number that has one.
            pub const fn text(self) -> Option<&'static str> {
                match self.0 {
                    $($number => Some($text),)*
                    _ => None,
                }
            }
        }

        impl fmt::Display for $name {
            fn fmt(&self, f: &mut fmt::Formatter<'_>) -> fmt::Result {
                match self.text() {
                    Some(text) => f.write_str(text),
                    None => write!(f, concat!("unknown ", stringify!($name), " {}"), self.0),
                }
            }
        }

        impl From<$name> for u32 {
            fn from(named: $name) -> u32 {
                named.0
            }
        }
    };
}

named_numbers! {
    /// The kind of an action.
    Kind {
        SUBMIT = 1, "submit";
        SELLER_STATUS = 2, "seller status";
        CUSTOMER_STATUS = 3, "customer status";
        APPROVE = 4, "approve";
        REDUCE = 5, "reduce";
        LAPSE = 6, "lapse";
        CLOCK = 7, "clock";
        POST = 8, "post";
    }
}

named_numbers! {
    /// REQUEST_TYPE: what a row asks for.
    RequestType {
        ORIGINAL_FIRM = 1, "ORIGINAL firm";
        ORIGINAL_NON_FIRM = 2, "ORIGINAL non-firm";
        RESALE = 3, "RESALE";
        REDIRECT_FIRM = 4, "REDIRECT firm";
        REDIRECT_NON_FIRM = 5, "REDIRECT non-firm";
        PART_TRANSFER = 6, "PART_TRANSFER";
        FULL_TRANSFER = 7, "FULL_TRANSFER";
        RELINQUISH = 8, "RELINQUISH";
    }
}

named_numbers! {
    /// STATUS: how far a row has come. The status DISPLACED and a row's
    /// displaced megawatts are two things.
    Status {
        QUEUED = 1, "QUEUED";
        INVALID = 2, "INVALID";
        RECEIVED = 3, "RECEIVED";
        STUDY = 4, "STUDY";
        REFUSED = 5, "REFUSED";
        COUNTEROFFER = 6, "COUNTEROFFER";
        CR_COUNTEROFFER = 7, "CR_COUNTEROFFER";
        REBID = 8, "REBID";
        SUPERSEDED = 9, "SUPERSEDED";
        ACCEPTED = 10, "ACCEPTED";
        CR_ACCEPTED = 11, "CR_ACCEPTED";
        DECLINED = 12, "DECLINED";
        CONFIRMED = 13, "CONFIRMED";
        WITHDRAWN = 14, "WITHDRAWN";
        DISPLACED = 15, "DISPLACED";
        ANNULLED = 16, "ANNULLED";
        RETRACTED = 17, "RETRACTED";
    }
}

impl Status {
    /// True for the open statuses: 1, 3, 4, 6, 7, 8, 10, 11.
    pub const fn is_open(self) -> bool {
        matches!(self.0, 1 | 3 | 4 | 6 | 7 | 8 | 10 | 11)
    }
}

named_numbers! {
    /// Why something was refused.
    Refusal {
        UNSOUND = 1, "the ledger or the postings are unsound or can't be created so, or an hour would pass 100,000 MW";
        UNKNOWN_CODE = 2, "the kind, type or status is unknown";
        WRONG_PARTY = 3, "the actor or the seller is no entity or not the right party";
        NO_SUCH_REFERENCE = 4, "there is no such reference";
        WRONG_TIME = 5, "the time is below now or past 2099";
        WRONG_SPAN = 6, "the hours are not a span of the ledger";
        WRONG_PROFILE = 7, "the profile is outside its slice, of the wrong length, over 100,000 MW or all 0";
        LEDGER_FULL = 8, "all rows are used";
        WRONG_RELATED = 9, "the related row is not confirmed or does not fit";
        WRONG_FLAGS = 10, "the flags are not those of a submission";
        WRONG_MOVE = 11, "the row's status, type, class or flags do not allow it";
        WRONG_TERMS = 12, "the price is too high, or price or capacity do not agree";
        NOT_APPROVED = 13, "the transfer is not approved";
        SHORT = 14, "the available megawatts do not suffice in some hour";
        IN_USE = 15, "the row's available megawatts differ from those granted";
        BEFORE_LIMIT = 16, "the confirmation limit is not reached";
        TOO_FEW_ANSWERS = 17, "there are fewer answer places than actions";
        NOT_A_STAMP = 18, "this is no stamp, or past the last second";
        STAMP_OUT_OF_RANGE = 19, "the second, the zone or the place for the stamp is out of range";
        UNBALANCED = 20, "some hour of the ledger does not balance";
        WRONG_PATH = 21, "the path is unknown, or not that of the related row";
        OVER_POSTED = 22, "use of a path would exceed what is posted for it in some hour";
        TERM_OUT_OF_RANGE = 25, "a term named in a contest, or a party's greatest term, is out of range";
    }
}

impl std::error::Error for Refusal {}

impl Refusal {
    /// The refusal of a number, none for 0.
    pub const fn of(number: u32) -> Option<Refusal> {
        match number {
            0 => None,
            number => Some(Refusal(number)),
        }
    }

    /// Nothing for 0, otherwise the refusal.
    pub fn check(number: u32) -> Result<(), Refusal> {
        Refusal::of(number).map_or(Ok(()), Err)
    }
}

named_numbers! {
    /// The time zone of a stamp.
    Zone {
        UT = 0, "UT";
        ES = 1, "ES";
        ED = 2, "ED";
        CS = 3, "CS";
        CD = 4, "CD";
        MS = 5, "MS";
        MD = 6, "MD";
        PS = 7, "PS";
        PD = 8, "PD";
    }
}

/// The flags of a row. A submission takes [`Flags::PRECONFIRMED`] and
/// [`Flags::COORDINATED`]; the others are set as the row goes on.
#[derive(Clone, Copy, Debug, Default, PartialEq, Eq, Hash)]
pub struct Flags(
    /// The flags as a number.
    pub u32,
);

impl Flags {
    /// No flag.
    pub const NONE: Flags = Flags(0);
    /// PRECONFIRMED: acceptance goes on to confirmation.
    pub const PRECONFIRMED: Flags = Flags(1);
    /// CG_FLAG: one of a coordinated group.
    pub const COORDINATED: Flags = Flags(2);
    /// PRIMARY_PROVIDER_APPROVAL: a transfer that the provider approved.
    pub const APPROVED: Flags = Flags(4);
    /// Granted was given.
    pub const GRANTED_GIVEN: Flags = Flags(8);
    /// An offer was given.
    pub const OFFER_GIVEN: Flags = Flags(16);
    /// The row was moved to COUNTEROFFER or CR_COUNTEROFFER once: it can be withdrawn from
    /// any open status, also where it is preconfirmed.
    pub const COUNTERED: Flags = Flags(32);

    const TEXTS: [(Flags, &'static str); 6] = [
        (Flags::PRECONFIRMED, "preconfirmed"),
        (Flags::COORDINATED, "coordinated"),
        (Flags::APPROVED, "approved"),
        (Flags::GRANTED_GIVEN, "granted given"),
        (Flags::OFFER_GIVEN, "offer given"),
        (Flags::COUNTERED, "countered"),
    ];

    /// True where all of the other flags are among these.
    pub const fn has(self, other: Flags) -> bool {
        self.0 & other.0 == other.0
    }
}

impl BitOr for Flags {
    type Output = Flags;

    fn bitor(self, other: Flags) -> Flags {
        Flags(self.0 | other.0)
    }
}

impl fmt::Display for Flags {
    fn fmt(&self, f: &mut fmt::Formatter<'_>) -> fmt::Result {
        if self.0 > 63 {
            return write!(f, "unknown Flags {}", self.0);
        }
        let texts: Vec<_> = Flags::TEXTS
            .iter()
            .filter(|(flag, _)| self.has(*flag))
            .map(|(_, text)| *text)
            .collect();
        if texts.is_empty() {
            f.write_str("none")
        } else {
            f.write_str(&texts.join(", "))
        }
    }
}

#[cfg(test)]
mod tests {
    use super::*;
    use std::collections::HashSet;

    fn numbers<T: Copy + Into<u32>>(all: &[T]) -> Vec<u32> {
        all.iter().map(|&named| named.into()).collect()
    }

    #[test]
    fn numbers_are_those_of_the_paper() {
        assert_eq!(numbers(Kind::ALL), (1..=8).collect::<Vec<_>>());
        assert_eq!(numbers(RequestType::ALL), (1..=8).collect::<Vec<_>>());
        assert_eq!(numbers(Status::ALL), (1..=17).collect::<Vec<_>>());
        assert_eq!(numbers(Refusal::ALL), (1..=22).chain([25]).collect::<Vec<_>>());
        assert_eq!(numbers(Zone::ALL), (0..=8).collect::<Vec<_>>());
    }

    #[test]
    fn every_number_has_its_own_text() {
        let texts: HashSet<_> = Refusal::ALL.iter().map(|refusal| refusal.to_string()).collect();
        assert_eq!(texts.len(), 23);
        let texts: HashSet<_> = Status::ALL.iter().map(|status| status.to_string()).collect();
        assert_eq!(texts.len(), 17);
        assert_eq!(Refusal::UNBALANCED.to_string(), "some hour of the ledger does not balance");
        assert_eq!(Refusal(23).to_string(), "unknown Refusal 23");
        assert_eq!(Status(0).text(), None);
    }

    #[test]
    fn open_statuses() {
        let open: Vec<_> =
            Status::ALL.iter().filter(|status| status.is_open()).map(|s| s.0).collect();
        assert_eq!(open, [1, 3, 4, 6, 7, 8, 10, 11]);
    }

    #[test]
    fn flags_are_shown_by_name() {
        assert_eq!(Flags::NONE.to_string(), "none");
        let both = Flags::PRECONFIRMED | Flags::OFFER_GIVEN;
        assert_eq!(both.to_string(), "preconfirmed, offer given");
        assert!(both.has(Flags::OFFER_GIVEN) && !both.has(Flags::APPROVED));
        assert_eq!(Flags::COUNTERED.to_string(), "countered");
        assert_eq!(
            Flags(63).to_string(),
            "preconfirmed, coordinated, approved, granted given, offer given, countered"
        );
        assert_eq!(Flags(64).to_string(), "unknown Flags 64");
    }

    #[test]
    fn refusals_of_numbers() {
        assert_eq!(Refusal::of(0), None);
        assert_eq!(Refusal::of(14), Some(Refusal::SHORT));
        assert_eq!(Refusal::of(20), Some(Refusal::UNBALANCED));
        assert_eq!(Refusal::of(25), Some(Refusal::TERM_OUT_OF_RANGE));
        assert_eq!(Refusal::check(17), Err(Refusal::TOO_FEW_ANSWERS));
        assert_eq!(Refusal::check(0), Ok(()));
    }
}
