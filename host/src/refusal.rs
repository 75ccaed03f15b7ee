//! Refusals.

use std::error::Error;
use std::fmt;
use std::num::NonZeroU32;

/// The number with which a function refuses. It is never 0, which stands for
/// 'accepted' in a [`Reply`](crate::Reply).
///
/// A refused call, save, load or snapshot changes no number of the record and no
/// byte that it was lent. A refused [`open`](crate::Record::open) changes no byte either,
/// but it writes the record: see there.
#[derive(Clone, Copy, Debug, PartialEq, Eq, Hash, PartialOrd, Ord)]
pub struct Refusal(NonZeroU32);

/// One row for each number: its constant, with a comment, and what it means.
/// The compiler rejects a number that stands in two rows.
macro_rules! refusals {
    ($($(#[$comment:meta])* $name:ident = $number:literal: $meaning:literal;)*) => {
        impl Refusal {
            $($(#[$comment])* pub const $name: Refusal = Refusal::constant($number);)*

            /// What the number means; none if the library never refuses with it.
            #[deny(unreachable_patterns)]
            pub const fn meaning(self) -> Option<&'static str> {
                match self.number() {
                    $($number => Some($meaning),)*
                    _ => None,
                }
            }
        }
    };
}

refusals! {
    /// There is no such DC.
    NO_DC = 1: "no such DC";
    /// The DC has no surface: no bitmap was selected, or it was deleted.
    NO_SURFACE = 2: "the DC has no surface";
    /// There is no such source DC.
    NO_SOURCE_DC = 3: "no such source DC";
    /// The source DC has no surface.
    NO_SOURCE_SURFACE = 4: "the source DC has no surface";
    /// 256 created objects are live.
    TOO_MANY_OBJECTS = 5: "256 created objects are live";
    /// A side is outside its limits.
    SIDE = 6: "a side is outside its limits";
    /// The panel memory or the store is too short: for the panel at open, at a
    /// resize and at a load, for the stock bitmap at open, for a new bitmap and for
    /// the bitmaps of a load.
    TOO_SHORT = 7: "the panel memory or the store is too short";
    /// A memory has a wrong length: above the limit at open, not the record's at a
    /// call, not the picture's at a snapshot.
    LENGTH = 8: "a memory has a wrong length";
    /// The record is unsound, or the numbers are no record.
    UNSOUND_RECORD = 9: "the record is unsound";
    /// A text has over 65,535 units before unit 0 or its end.
    TEXT_TOO_LONG = 10: "a text has over 65,535 units";
    /// A position is outside [`MIN_POSITION`](crate::MIN_POSITION) to
    /// [`MAX_POSITION`](crate::MAX_POSITION).
    POSITION = 11: "a position is outside -32,768 to 32,767";
    /// The bytes to load are not exactly one saved table.
    TABLE = 12: "the bytes are not exactly one saved table";
    /// The output of a save is shorter than the table.
    OUTPUT_TOO_SHORT = 13: "the output is shorter than the table";
    // 14 to 19 are kept for calls that are added later.
    /// The numbers are no call.
    NO_CALL = 255: "no such call";
}

impl Refusal {
    /// The refusal with this number; none for 0.
    pub const fn new(number: u32) -> Option<Refusal> {
        match NonZeroU32::new(number) {
            Some(number) => Some(Refusal(number)),
            None => None,
        }
    }

    /// The number, never 0.
    pub const fn number(self) -> u32 {
        self.0.get()
    }

    /// `Err` with the refusal of this number, `Ok` for 0.
    pub(crate) fn check(number: u32) -> Result<(), Refusal> {
        Refusal::new(number).map_or(Ok(()), Err)
    }

    /// A constant's refusal. A constant with number 0 does not compile where it is
    /// used.
    const fn constant(number: u32) -> Refusal {
        match Refusal::new(number) {
            Some(refusal) => refusal,
            None => panic!("0 is no refusal"),
        }
    }
}

impl fmt::Display for Refusal {
    fn fmt(&self, f: &mut fmt::Formatter<'_>) -> fmt::Result {
        let meaning = self.meaning().unwrap_or("no refusal of this library");
        write!(f, "refused with {}: {meaning}", self.number())
    }
}

impl Error for Refusal {}
