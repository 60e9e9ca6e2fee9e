//! Refusals: their numbers, names and words.
use core::fmt;

/// The numbers, the names and the words, once for all: the enum, its numbers and its words are made from this list. `hosts/c/segment.h`
/// and `hosts/python/segment.py` have the same names and words, and `hosts/test` compares.
macro_rules! kinds {
    ($($name:ident = $number:literal, $reason:literal;)+) => {
        /// What a refusal is about, one name for each number. Later versions may have more.
        #[derive(Clone, Copy, Debug, PartialEq, Eq, Hash)]
        #[non_exhaustive]
        pub enum Kind {
            $(
                #[doc = concat!(stringify!($number), ": ", $reason, ".")]
                $name,
            )+
            /// A number that this version of the crate does not know.
            Unknown,
        }

        impl Kind {
            /// All kinds that have a number, in the order of their numbers.
            pub const ALL: &'static [Kind] = &[$(Kind::$name),+];

            /// The kind with this number.
            #[must_use]
            pub const fn of(number: u32) -> Kind {
                match number {
                    $($number => Kind::$name,)+
                    _ => Kind::Unknown,
                }
            }

            /// The number; 0 for [`Kind::Unknown`].
            #[must_use]
            pub const fn number(self) -> u32 {
                match self {
                    $(Kind::$name => $number,)+
                    Kind::Unknown => 0,
                }
            }

            /// The reason in words.
            #[must_use]
            pub const fn reason(self) -> &'static str {
                match self {
                    $(Kind::$name => $reason,)+
                    Kind::Unknown => "the number is not known to this version",
                }
            }
        }
    };
}

kinds! {
    TableTooLong = 1, "the table is too long";
    FieldCutShort = 2, "a field is cut short";
    TagOutOfOrder = 3, "a tag is out of order, or the table is over too early";
    OutsideLimits = 4, "a length, count or constant is outside its limits";
    UnknownName = 5, "a symbol, attribute, occurrence, function or kind is unknown";
    WrongStart = 6, "the start symbol has inherited attributes or lacks the result attribute";
    WrongSide = 7, "a rule sets an input, or something reads an output";
    NotOneRule = 8, "an output has a second rule, or none";
    ReadsTooFar = 9, "a rule for an inherited attribute reads its own position or above";
    WrongCondition = 10, "low is above high";
    Useless = 11, "a nonterminal is unreachable or derives no token string";
    LeftRecursion = 12, "a nonterminal can reach itself leftmost without reading";
    Clash = 13, "a production clashes with an earlier one";
    NoProduction = 14, "there is no such production";
    UnknownToken = 20, "the token is not below the number of terminals";
    UnexpectedToken = 21, "the token is not the expected one, is in no alternative's set, or follows a start symbol already left";
    ConditionFalse = 22, "a condition is false, or no alternative has its entry conditions met";
    ValueOutside = 23, "a value is outside -1,000,000,000,000 to 1,000,000,000,000";
    SegmentOver = 24, "the segment is over where a token is expected or no alternative's set holds the end";
    ProgramShort = 30, "the program area is short";
    NeedsRegisters = 31, "the run needs more registers than were lent; at most 4,096 count";
    NeedsPlaces = 32, "the run needs more places than were lent; at most 1,024 count";
    RunClosed = 33, "the run is closed";
    StacksUnfit = 34, "the stacks do not fit";
    TooMuch = 35, "a token after 65,535, or a move after 4,294,967,295 or after the budget";
    OutputShort = 36, "the output buffer is too short";
    CandidatesUnfit = 37, "there are more than 512 candidates, their lengths do not add up, or the list is too short";
    ListsUnequal = 38, "the lists of kinds and values are of unequal length";
    ScratchShort = 39, "the scratch is shorter than the part of the stacks that a run may use";
    RunWaiting = 40, "the run waits for its inner run, or a third run would be opened";
    SheetShort = 41, "the sheet buffer is too short";
    WindowUnfit = 42, "the window's size, buffer or value does not fit";
    SheetWrong = 43, "the sheet does not describe the segment's tree";
}

/// Why a call was turned back: a number, and what it comes with.
#[derive(Clone, Copy, PartialEq, Eq, Hash)]
pub struct Refusal {
    number: u32,
    count: u64,
}

impl Refusal {
    pub(crate) const fn new(number: u32, count: u64) -> Refusal {
        Refusal { number, count }
    }

    /// The number: 1 to 14 for a table, 20 to 24 for a segment, 30 to 35 and 40 for the state of a run, 36 for a buffer to
    /// write into, 37 for candidates and their list, 38 for lists of tokens, 39 for the scratch of a
    /// preview, 42 for a window, 41 and 43 for a sheet.
    #[must_use]
    pub const fn number(&self) -> u32 {
        self.number
    }

    /// The number by its name.
    #[must_use]
    pub const fn kind(&self) -> Kind {
        Kind::of(self.number)
    }

    /// What the number comes with, as the library hands it out: an offset, the tokens read, or 0. [`Refusal::offset`] and
    /// [`Refusal::tokens`] say which.
    #[must_use]
    pub const fn count(&self) -> u64 {
        self.count
    }

    /// The byte offset of the field that a table is refused for.
    #[must_use]
    pub fn offset(&self) -> Option<u64> {
        (self.number <= 14).then_some(self.count)
    }

    /// The tokens read before the segment or the run was refused. The refusals 30, 33, 34 and 38 to 40 tell none, since no token was
    /// looked at, nor do 36, 37 and 41 to 43.
    #[must_use]
    pub fn tokens(&self) -> Option<u64> {
        let told = matches!(self.number, 20..=24 | 31 | 32 | 35);
        told.then_some(self.count)
    }

    /// The reason in words.
    #[must_use]
    pub const fn reason(&self) -> &'static str {
        self.kind().reason()
    }
}

impl fmt::Display for Refusal {
    fn fmt(&self, f: &mut fmt::Formatter) -> fmt::Result {
        write!(f, "refused {}", self.number)?;
        match (self.offset(), self.tokens()) {
            (Some(offset), _) => write!(f, " at byte {offset}")?,
            (_, Some(1)) => write!(f, " after 1 token")?,
            (_, Some(tokens)) => write!(f, " after {tokens} tokens")?,
            (None, None) => {}
        }
        write!(f, ": {}", self.reason())
    }
}

impl fmt::Debug for Refusal {
    fn fmt(&self, f: &mut fmt::Formatter) -> fmt::Result {
        write!(f, "Refusal({}: {:?}, {})", self.number, self.kind(), self.count)
    }
}

impl core::error::Error for Refusal {}
