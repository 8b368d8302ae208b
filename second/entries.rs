//! The one table of what is compared: each part with its cases, the numbers that it can answer and what must
//! occur besides. A later request adds its numbers, parts and occurrences here (and makes its inputs in
//! cases.rs); nothing else has a list of its own.

#[derive(Clone, Copy, Debug, PartialEq, Eq)]
pub enum Part {
    Check,
    Copy,
    Run,
    /// Runs of more than 65,536 events.
    Long,
    Forward,
    Drain,
    Image,
    /// Demand 3 through the engine alone, with no model.
    Orders,
    Program,
}

pub struct Entry {
    pub part: Part,
    pub name: &'static str,
    /// The cases of the fixed seed.
    pub cases: usize,
    /// How often each number must be answered in these, and how often each of 20 to 26.
    pub least: u64,
    pub least_unsound: u64,
    pub numbers: &'static [u8],
    /// What must occur besides, in the words of occurrences.rs.
    pub must_occur: &'static [&'static [&'static str]],
}

/// One more than the largest number.
pub const NUMBERS: usize = 27;

pub const ENTRIES: [Entry; 9] = [
    Entry {
        part: Part::Check,
        name: "check",
        cases: 6000,
        least: 100,
        least_unsound: 100,
        numbers: &[0, 1, 20, 21, 22, 23, 24, 25, 26],
        must_occur: &[UNSOUND],
    },
    Entry {
        part: Part::Copy,
        name: "copy",
        cases: 4000,
        least: 100,
        least_unsound: 60,
        numbers: &[0, 1, 20, 21, 22, 23, 24, 25, 26],
        must_occur: &[UNSOUND, COPIES],
    },
    Entry {
        part: Part::Run,
        name: "run",
        cases: 12000,
        least: 100,
        least_unsound: 25,
        numbers: &[0, 1, 2, 3, 4, 6, 7, 8, 9, 10, 11, 12, 13, 14, 15, 16, 20, 21, 22, 23, 24, 25, 26],
        must_occur: &[UNSOUND, ROWS, EVENTS, RECEIVERS, &["13 keeps it from somebody"]],
    },
    Entry {
        part: Part::Long,
        name: "long",
        cases: 80,
        least: 4,
        least_unsound: 0,
        numbers: &[0, 6, 7, 8, 9, 10, 11, 12, 13, 14, 15, 16],
        must_occur: &[LONG],
    },
    Entry {
        part: Part::Forward,
        name: "forward",
        cases: 8000,
        least: 100,
        least_unsound: 15,
        numbers: &[0, 1, 2, 4, 7, 8, 13, 20, 21, 22, 23, 24, 25, 26],
        must_occur: &[UNSOUND, ROWS, FORWARDS, RECEIVERS],
    },
    Entry {
        part: Part::Drain,
        name: "drain",
        cases: 6000,
        least: 100,
        least_unsound: 10,
        numbers: &[0, 1, 2, 4, 20, 21, 22, 23, 24, 25, 26],
        must_occur: &[UNSOUND, ROWS, DRAINS],
    },
    Entry {
        part: Part::Image,
        name: "image",
        cases: 5000,
        least: 100,
        least_unsound: 10,
        numbers: &[0, 1, 18, 20, 21, 22, 23, 24, 25, 26],
        must_occur: &[UNSOUND, IMAGES],
    },
    Entry {
        part: Part::Orders,
        name: "orders",
        cases: 160,
        least: 160,
        least_unsound: 0,
        numbers: &[0],
        must_occur: &[ORDERS, RECEIVERS],
    },
    Entry {
        part: Part::Program,
        name: "program",
        cases: 3000,
        least: 30,
        least_unsound: 5,
        numbers: &[0, 1, 2, 3, 4, 6, 7, 8, 9, 10, 11, 12, 13, 14, 15, 16, 17, 20, 21, 22, 23, 24, 25, 26],
        must_occur: &[PROGRAM],
    },
];

/// For 20 to 26: where the lowest unsound record stands, which peer or topic is at fault in it, what else it
/// breaks, and what a record further on does.
const UNSOUND: &[&str] = &[
    "record 0",
    "record 31",
    "another record",
    "20 for byte 0",
    "20 for bytes 1-3",
    "23 of 0",
    "23 of 31",
    "23 of another",
    "23 of several",
    "24 of 0",
    "24 of 31",
    "24 of another",
    "24 of several",
    "25 of 0",
    "25 of 31",
    "25 of another",
    "25 of several",
    "23 of one with byte 0 above 1",
    "23 above one that does not list back",
    "20 and a higher rule",
    "21 and a higher rule",
    "22 and a higher rule",
    "23 and a higher rule",
    "24 and a higher rule",
    "25 and a higher rule",
    "21 before a lower rule",
    "22 before a lower rule",
    "23 before a lower rule",
    "24 before a lower rule",
    "25 before a lower rule",
    "26 before a lower rule",
    "every byte 255",
];

const COPIES: &[&str] =
    &["1 for the one read", "1 for the one written", "unsound before a wrong length to write"];

const IMAGES: &[&str] = &["hides a message", "hides none", "unsound before a wrong length to write"];

/// For 4: where the lowest bad row stands, and its first wrong byte.
const ROWS: &[&str] = &[
    "row 0",
    "row 63",
    "another row",
    "row byte 0",
    "row byte 1",
    "row byte 2",
    "row byte 3",
    "a row before an unsound record",
];

const FORWARDS: &[&str] = &[
    "no delivery",
    "1 delivery",
    "2 to 30",
    "31 deliveries",
    "peer above 31",
    "message above 63",
    "unsound before a number out of range",
    "4 keeps it from somebody",
    "7 keeps it from somebody",
    "13 keeps it from somebody",
    "unsound keeps it from somebody",
];

/// Of accepted forwards: who received among those that the sender knows to subscribe.
const RECEIVERS: &[&str] = &[
    "nobody is known to subscribe",
    "all that are known have it",
    "some that are known receive",
    "all that are known receive",
    "several receive",
    "0 receives",
    "31 receives",
];

/// Every kind accepted, every condition of every kind, and codes and places.
const EVENTS: &[&str] = &[
    "skip accepted",
    "produce accepted",
    "forward accepted",
    "subscribe accepted",
    "unsubscribe accepted",
    "leave accepted",
    "join accepted",
    "skip by 7",
    "produce by 7",
    "forward by 7",
    "subscribe by 7",
    "unsubscribe by 7",
    "leave by 7",
    "join by 7",
    "produce by 8",
    "forward by 8",
    "subscribe by 8",
    "unsubscribe by 8",
    "leave by 8",
    "join by 9",
    "produce by 10",
    "produce by 11",
    "produce by 12",
    "forward by 13",
    "leave by 14",
    "join by 15",
    "join by 16",
    "code 7",
    "code 8 to 254",
    "code 255",
    "no events",
    "refused at place 0",
    "refused further on",
];

const LONG: &[&str] = &[
    "skips only",
    "exactly 65,535 accepted",
    "exactly 65,536 accepted",
    "accepted above 65,535",
    "place above 65,535",
    "produced above 65,535",
    "forwards above 65,535",
    "deliveries above 65,535",
];

const DRAINS: &[&str] = &[
    "quiet",
    "not quiet",
    "nothing was pending",
    "budget 0",
    "budget spent, quiet",
    "budget spent within a round",
    "budget spent at the end of a round",
    "2,048 forwards",
    "32 rounds",
];

const ORDERS: &[&str] =
    &["no forward", "1 to 64 forwards", "65 to 1,000 forwards", "more than 1,000 forwards"];

const PROGRAM: &[&str] = &[
    "0 bytes",
    "dripped",
    "65,536 bytes",
    "65,537 bytes",
    "more than 131,072 bytes",
    "a list that fills the input",
    "no peer shown",
    "32 peers shown",
];
