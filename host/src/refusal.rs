//! Why the engine refuses: the numbers that it answers, in the words of docs/RULES.md (6).

use crate::raw::NO_ENGINE;
use std::error::Error;
use std::fmt;

/// Writes down the reasons that docs/RULES.md has, each with its number and what it means, in the order of the numbers: the
/// enum, the list of them, and what is said of each.
macro_rules! reasons {
    ($(#[$about:meta])* $($name:ident = $number:literal, $meaning:literal;)*) => {
        $(#[$about])*
        #[derive(Clone, Copy, Debug, PartialEq, Eq, Hash)]
        #[non_exhaustive]
        pub enum Reason {
            $(#[doc = concat!($number, ": ", $meaning, ".")] $name,)*
            /// No number of the engine: its process can't be started, or doesn't answer ([`NO_ENGINE`]).
            NoEngine,
            /// A number that this crate doesn't know. The engine that it was made for answers none; that is proved.
            Unknown(u8),
        }

        const ALL: &[Reason] = &[$(Reason::$name),*];

        impl Reason {
            /// The number and what it means.
            fn entry(self) -> (u8, &'static str) {
                match self {
                    $(Reason::$name => ($number, $meaning),)*
                    Reason::NoEngine => (NO_ENGINE, "the engine's process can't be started, or doesn't answer"),
                    Reason::Unknown(number) => (number, "a number that this host doesn't know"),
                }
            }
        }
    };
}

reasons! {
    /// Why something is refused: `reason.number()` is the engine's number. A later engine may have more of them, so a `match` needs an
    /// arm for those:
    ///
    /// ```compile_fail
    /// # use relay_host::Reason::{self, *};
    /// # fn row(reason: Reason) -> bool {
    /// match reason {
    ///     TableRow => true,
    ///     StateLength | TableLength | EventsLength | UnknownCode | BadField | PeerAbsent | AlreadyPresent => false,
    ///     NotOrigin | NotPublished | NotNew | NotPending | StillPending | OwnNeighbour | NeighbourAbsent => false,
    ///     InputLength | ImageLength | PresenceByte | AbsentNotEmpty | ListsItself | NeighbourNotPresent => false,
    ///     NotListedBack | KnownSubscribersWrong | PendingAlsoSeen => false,
    ///     NoEngine | Unknown(_) => false,
    /// }
    /// # }
    /// ```
    StateLength = 1, "state isn't 5,120 bytes";
    TableLength = 2, "message table isn't 256 bytes";
    EventsLength = 3, "event bytes aren't a multiple of 16";
    TableRow = 4, "a message row has topic or origin above 31, or bytes 2-3 not zero";
    UnknownCode = 6, "unknown code";
    BadField = 7, "peer above 31, message above 63, or an unused byte not zero";
    PeerAbsent = 8, "peer absent";
    AlreadyPresent = 9, "joining peer already present";
    NotOrigin = 10, "producing peer isn't the message's origin";
    NotPublished = 11, "topic not in the peer's pubs";
    NotNew = 12, "message not new";
    NotPending = 13, "message not pending at this peer";
    StillPending = 14, "leaver has something pending";
    OwnNeighbour = 15, "joining peer names itself as neighbour";
    NeighbourAbsent = 16, "a named neighbour is absent";
    InputLength = 17, "input above 65,536 bytes";
    ImageLength = 18, "image buffer isn't 5,120 bytes";
    PresenceByte = 20, "presence byte or zero bytes";
    AbsentNotEmpty = 21, "absent record not empty";
    ListsItself = 22, "own neighbour";
    NeighbourNotPresent = 23, "neighbour absent";
    NotListedBack = 24, "neighbour doesn't list back";
    KnownSubscribersWrong = 25, "known subscribers wrong";
    PendingAlsoSeen = 26, "pending also seen";
}

use Reason::*;

/// The numbers of refusals, for a message: 5 is no longer one, and 19 never was.
pub const NUMBERS: &str = "1 to 4, 6 to 18 and 20 to 26";

impl Reason {
    /// The reason with this number; none for 0 ("done") and for numbers that aren't answered.
    pub fn of_number(number: u8) -> Option<Reason> {
        ALL.iter().copied().find(|reason| reason.number() == number)
    }

    /// The number that the engine answers.
    pub fn number(self) -> u8 {
        self.entry().0
    }

    /// What the number means, in the words of docs/RULES.md.
    pub fn meaning(self) -> &'static str {
        self.entry().1
    }

    /// Does it say that the state is unsound? So do 20 to 26, one for each rule of a record.
    pub fn is_unsound(self) -> bool {
        (PresenceByte.number()..=PendingAlsoSeen.number()).contains(&self.number())
    }

    /// What the place of such a refusal counts; nothing where the place is always 0.
    pub fn place_of(self) -> Option<&'static str> {
        match self {
            StateLength | TableLength | EventsLength | InputLength | ImageLength | NoEngine => None,
            TableRow => Some("row"),
            Unknown(_) => Some("place"),
            _ if self.is_unsound() => Some("record"),
            _ => Some("event"),
        }
    }

    /// What the detail of such a refusal counts; nothing where the detail is always 0.
    pub fn detail_of(self) -> Option<&'static str> {
        match self {
            NeighbourNotPresent | NotListedBack => Some("neighbour"),
            KnownSubscribersWrong => Some("topic"),
            _ => None,
        }
    }
}

impl fmt::Display for Reason {
    fn fmt(&self, out: &mut fmt::Formatter) -> fmt::Result {
        out.pad(self.meaning())
    }
}

/// A refusal: the number, the place, and the neighbour or topic at fault (0 where the reason has none).
#[derive(Clone, Copy, Debug, PartialEq, Eq)]
pub struct Refusal {
    /// Why.
    pub reason: Reason,
    /// Where: `reason.place_of()` says what it counts.
    pub place: usize,
    /// The neighbour or topic at fault: `reason.detail_of()` says which.
    pub detail: u8,
}

impl Refusal {
    /// A refusal whose reason has no detail.
    pub fn at(reason: Reason, place: usize) -> Refusal {
        Refusal { reason, place, detail: 0 }
    }

    /// The answer of the engine as a result: 0 is "done". Any other number is a refusal, also one that isn't known.
    pub fn of_answer(number: u8, place: usize, detail: u8) -> Result<(), Refusal> {
        let reason = match number {
            0 => return Ok(()),
            NO_ENGINE => NoEngine,
            _ => Reason::of_number(number).unwrap_or(Unknown(number)),
        };
        Err(Refusal { reason, place, detail })
    }
}

/// For example `leaver has something pending (14, event 4)` or `neighbour doesn't list back (24, record 1, neighbour 4)`.
impl fmt::Display for Refusal {
    fn fmt(&self, out: &mut fmt::Formatter) -> fmt::Result {
        write!(out, "{} ({}", self.reason, self.reason.number())?;
        if let Some(counted) = self.reason.place_of() {
            write!(out, ", {counted} {}", self.place)?;
        }
        if let Some(counted) = self.reason.detail_of() {
            write!(out, ", {counted} {}", self.detail)?;
        }
        write!(out, ")")
    }
}

impl Error for Refusal {}

#[cfg(test)]
mod tests {
    use super::*;

    #[test]
    fn the_table_is_in_order_and_has_the_numbers_that_are_said() {
        let mut said: Vec<u8> = Vec::new();
        for range in NUMBERS.replace(" and ", ", ").split(", ") {
            let (first, last) = range.split_once(" to ").unwrap();
            said.extend(first.parse::<u8>().unwrap()..=last.parse().unwrap());
        }
        let numbers: Vec<u8> = ALL.iter().map(|reason| reason.number()).collect();
        assert_eq!(said, numbers);
        for number in 0..=u8::MAX {
            let found = Reason::of_number(number).map(Reason::number);
            assert_eq!(found, said.contains(&number).then_some(number));
        }
        assert_eq!(Reason::of_number(5), None);
        assert_eq!(KnownSubscribersWrong.meaning(), "known subscribers wrong");
        let unsound: Vec<u8> =
            said.into_iter().filter(|&number| Reason::of_number(number).unwrap().is_unsound()).collect();
        assert_eq!(unsound, [20, 21, 22, 23, 24, 25, 26]);
    }

    #[test]
    fn the_header_lists_the_same_numbers_and_meanings() {
        let header = include_str!("../relay.h");
        for number in 1..=u8::MAX {
            let start = format!(" *   {number:2} ");
            let line = header.lines().find_map(|line| line.strip_prefix(&start));
            let listed = line.map(|line| line.split("  ").next().unwrap_or_default());
            // 17 is the run program's own.
            let meaning = Reason::of_number(number).filter(|&reason| reason != InputLength).map(Reason::meaning);
            assert_eq!(listed, meaning, "{number}");
        }
    }

    #[test]
    fn a_refusal_says_what_and_where() {
        let said = |number, place, detail| Refusal::of_answer(number, place, detail).unwrap_err().to_string();
        assert_eq!(Refusal::of_answer(0, 0, 0), Ok(()));
        assert_eq!(said(14, 4, 0), "leaver has something pending (14, event 4)");
        assert_eq!(said(1, 0, 0), "state isn't 5,120 bytes (1)");
        assert_eq!(said(20, 31, 0), "presence byte or zero bytes (20, record 31)");
        assert_eq!(said(21, 0, 0), "absent record not empty (21, record 0)");
        assert_eq!(said(22, 7, 0), "own neighbour (22, record 7)");
        assert_eq!(said(23, 1, 4), "neighbour absent (23, record 1, neighbour 4)");
        assert_eq!(said(24, 1, 4), "neighbour doesn't list back (24, record 1, neighbour 4)");
        assert_eq!(said(25, 1, 0), "known subscribers wrong (25, record 1, topic 0)");
        assert_eq!(said(26, 3, 0), "pending also seen (26, record 3)");
    }

    #[test]
    fn no_number_is_a_panic() {
        let refused = |number| Refusal::of_answer(number, 7, 0).unwrap_err();
        for number in 1..=u8::MAX {
            let refusal = refused(number);
            assert_eq!(refusal.reason.number(), number);
            let known = Reason::of_number(number).is_some() || number == NO_ENGINE;
            assert_eq!(refusal.reason == Unknown(number), !known, "{number}");
        }
        assert_eq!(refused(5).to_string(), "a number that this host doesn't know (5, place 7)");
        assert_eq!(refused(NO_ENGINE).to_string(), "the engine's process can't be started, or doesn't answer (255)");
    }
}
