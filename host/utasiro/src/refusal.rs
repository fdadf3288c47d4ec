//! The refusals, by name and number.

use core::fmt;

/// Why a call was refused. A refused call changes nothing.
///
/// ```
/// use utasiro::Refusal;
///
/// assert_eq!(Refusal::Applied.number(), 4);
/// assert_eq!(Refusal::of_number(4), Some(Refusal::Applied));
/// assert_eq!(Refusal::of_number(0), None);
/// assert_eq!(Refusal::Applied.to_string(), "4 Applied: the number is not above the last accepted one");
/// ```
#[non_exhaustive]
#[derive(Clone, Copy, Debug, PartialEq, Eq, Hash)]
pub enum Refusal {
    /// A size is outside its bounds ([`Sizes`](crate::Sizes)), or a buffer of the state has another
    /// length than the sizes ask for. Every call.
    Shape = 1,
    /// The head and the words are no sound state: no history of calls leaves them so. Every call
    /// but fresh.
    Damaged = 2,
    /// No pages, pages at or above L, or a write of more than N pages. Write, trim, read.
    Range = 3,
    /// The number is not above the last accepted one: this request, or a later one, was applied.
    /// Write, trim.
    Applied = 4,
    /// Fewer pages are free than the write has. Reclaiming frees some as long as any is stale.
    NoPages = 5,
    /// The map afterwards would have more extents than slots. Write, trim.
    NoNodes = 6,
    /// The answer buffer is shorter than the answer. Write, read, reclaim.
    OutShort = 7,
    /// No page is stale, so there is nothing to reclaim.
    NothingStale = 8,
}

impl Refusal {
    /// All of them, in order of their numbers.
    pub const ALL: &'static [Refusal] = &[
        Refusal::Shape,
        Refusal::Damaged,
        Refusal::Range,
        Refusal::Applied,
        Refusal::NoPages,
        Refusal::NoNodes,
        Refusal::OutShort,
        Refusal::NothingStale,
    ];

    /// The number that the library gives.
    pub fn number(self) -> u32 {
        self as u32
    }

    /// The name, as in the C header but for its case.
    pub fn name(self) -> &'static str {
        match self {
            Refusal::Shape => "Shape",
            Refusal::Damaged => "Damaged",
            Refusal::Range => "Range",
            Refusal::Applied => "Applied",
            Refusal::NoPages => "NoPages",
            Refusal::NoNodes => "NoNodes",
            Refusal::OutShort => "OutShort",
            Refusal::NothingStale => "NothingStale",
        }
    }

    /// The refusal of a number; none for 0, which is accepted, and for a number that none has.
    pub fn of_number(number: u32) -> Option<Refusal> {
        Refusal::ALL.iter().copied().find(|refusal| refusal.number() == number)
    }

    fn reason(self) -> &'static str {
        match self {
            Refusal::Shape => {
                "a size is outside its bounds, or a buffer has another length than the sizes ask for"
            }
            Refusal::Damaged => "the head and the words are no sound state",
            Refusal::Range => "no pages, pages outside the device, or a write longer than a block",
            Refusal::Applied => "the number is not above the last accepted one",
            Refusal::NoPages => "fewer pages are free than the write has",
            Refusal::NoNodes => "the map would have more extents than slots",
            Refusal::OutShort => "the answer buffer is shorter than the answer",
            Refusal::NothingStale => "no page is stale",
        }
    }
}

impl fmt::Display for Refusal {
    fn fmt(&self, f: &mut fmt::Formatter<'_>) -> fmt::Result {
        write!(f, "{} {}: {}", self.number(), self.name(), self.reason())
    }
}

#[cfg(feature = "std")]
impl std::error::Error for Refusal {}
