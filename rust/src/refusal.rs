//! Why something was refused.
use core::fmt;

/// Why something was refused. A refusal changes nothing.
#[derive(Clone, Copy, Debug, PartialEq, Eq, Hash)]
#[repr(u32)]
pub enum Refusal {
    /// The bytes end before a count, an entry or a call that is due.
    Short = 1,
    /// There are bytes after the last call of a log.
    Tail = 2,
    /// The count of processors is not 1 to 32.
    Processors = 3,
    /// The count of resources is not 1 to 64.
    Resources = 4,
    /// The count of entries is not 1 to 64.
    Entries = 5,
    /// A kind is neither 0 nor 1.
    Kind = 6,
    /// A set has no resource, or a resource that the plan does not have.
    Set = 7,
    /// A length is 0.
    Length = 8,
    /// A verb is above 3, or a completion or a withdrawal has an entry.
    Verb = 9,
    /// The tick is below the last accepted one, or above the largest.
    Tick = 10,
    /// The processor is not one of the plan's.
    Processor = 11,
    /// The entry is not one of the plan's.
    Entry = 12,
    /// An issue while the processor's request is active.
    Busy = 13,
    /// A completion, a withdrawal or a handover with no active request.
    Idle = 14,
    /// A completion or a handover while the request does not hold.
    Unheld = 15,
    /// A buffer or a scratch is too short.
    Room = 16,
    /// A withdrawal of a request that holds.
    Held = 17,
    /// An offset is not listed or may not be written, or a command is above 4.
    Register = 18,
}

/// Each refusal with its word, in the order of the numbers.
const WORDS: [(Refusal, &str); 18] = [
    (Refusal::Short, "short"),
    (Refusal::Tail, "tail"),
    (Refusal::Processors, "processors"),
    (Refusal::Resources, "resources"),
    (Refusal::Entries, "entries"),
    (Refusal::Kind, "kind"),
    (Refusal::Set, "set"),
    (Refusal::Length, "length"),
    (Refusal::Verb, "verb"),
    (Refusal::Tick, "tick"),
    (Refusal::Processor, "processor"),
    (Refusal::Entry, "entry"),
    (Refusal::Busy, "busy"),
    (Refusal::Idle, "idle"),
    (Refusal::Unheld, "unheld"),
    (Refusal::Room, "room"),
    (Refusal::Held, "held"),
    (Refusal::Register, "register"),
];

impl Refusal {
    /// The refusal's number, 1 to 18.
    ///
    /// ```
    /// assert_eq!(bittmelon::Refusal::Busy.number(), 13);
    /// ```
    pub const fn number(self) -> u32 {
        self as u32
    }

    /// The refusal that has this number, if there is one.
    ///
    /// ```
    /// use bittmelon::Refusal;
    /// assert_eq!(Refusal::from_number(13), Some(Refusal::Busy));
    /// assert_eq!(Refusal::from_number(0), None);
    /// ```
    pub const fn from_number(number: u32) -> Option<Refusal> {
        if number >= 1 && number <= 18 {
            Some(WORDS[number as usize - 1].0)
        } else {
            None
        }
    }

    /// The refusal's word, from the table in the specification.
    ///
    /// ```
    /// assert_eq!(bittmelon::Refusal::Busy.word(), "busy");
    /// ```
    pub const fn word(self) -> &'static str {
        WORDS[self as usize - 1].1
    }
}

/// Prints `refused`, the number and the word.
impl fmt::Display for Refusal {
    fn fmt(&self, f: &mut fmt::Formatter<'_>) -> fmt::Result {
        write!(f, "refused {}: {}", self.number(), self.word())
    }
}

impl core::error::Error for Refusal {}

/// The value if the archive's number is 0, or else the refusal.
pub(crate) fn unless_refused<T>(number: u32, value: T) -> Result<T, Refusal> {
    match Refusal::from_number(number) {
        Some(refusal) => Err(refusal),
        None => {
            assert!(number == 0, "the archive is not of this version");
            Ok(value)
        }
    }
}
