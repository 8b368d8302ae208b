//! Where the two forms of best.rs differ, and all of it: how the record of an absent peer is tested, whether the table is taken apart,
//! and how a drain goes through the last messages that its budget has.
use super::{held, long, word, Record, KNOWN, NEAR, PUBS, SUBS};

pub type Rows = [[u8; 4]; 64];

/// The table as a call looks it up.
pub trait Table {
    fn topic(&self, m: usize) -> usize;
    fn origin(&self, m: usize) -> usize;
}

pub trait Form {
    type Table<'a>: Table;

    /// The table for a call, of rows that are good.
    fn table(rows: &Rows) -> Self::Table<'_>;

    /// Is the record of a peer that isn't present sound?
    fn absent(r: &Record) -> bool;

    /// Does a peer whose messages the budget cuts give the rest by words too, or message by message?
    const CUT_BY_WORDS: bool;
}

/// As the rules state it: the table is decoded, and an absent peer's fields are tested as fields.
pub struct Best;

/// What the caller's bytes allow beyond that: the table's rows stay where they lie, and an absent peer's record is tested whole.
pub struct Shortcuts;

impl Form for Best {
    type Table<'a> = Decoded;

    fn table(rows: &Rows) -> Decoded {
        let mut table = Decoded { topics: [0; 64], origins: [0; 64] };
        for (m, r) in rows.iter().enumerate() {
            let w = u32::from_le_bytes(*r);
            table.topics[m] = w as u8;
            table.origins[m] = (w >> 8) as u8;
        }
        table
    }

    #[inline(always)]
    fn absent(r: &Record) -> bool {
        word(r, PUBS) == 0 && word(r, SUBS) == 0 && word(r, NEAR) == 0 && held(r) == 0 && row_empty(r)
    }

    const CUT_BY_WORDS: bool = false;
}

impl Form for Shortcuts {
    type Table<'a> = &'a Rows;

    fn table(rows: &Rows) -> &Rows {
        rows
    }

    #[inline(always)]
    fn absent(r: &Record) -> bool {
        (0..20).fold(0, |all, k| all | long(r, 8 * k)) == 0
    }

    const CUT_BY_WORDS: bool = true;
}

/// Without an early exit.
#[inline(always)]
fn row_empty(r: &Record) -> bool {
    let (row, _) = r[KNOWN..].as_chunks::<4>();
    row.iter().fold(0, |all, w| all | u32::from_le_bytes(*w)) == 0
}

pub struct Decoded {
    topics: [u8; 64],
    origins: [u8; 64],
}

impl Table for Decoded {
    fn topic(&self, m: usize) -> usize {
        (self.topics[m & 63] & 31) as usize
    }

    fn origin(&self, m: usize) -> usize {
        self.origins[m & 63] as usize
    }
}

impl Table for &Rows {
    fn topic(&self, m: usize) -> usize {
        (self[m & 63][0] & 31) as usize
    }

    fn origin(&self, m: usize) -> usize {
        self[m & 63][1] as usize
    }
}
