//! A buffer as it is lent: its content among guard bytes, in whole pages of its own. The pages before and
//! behind these cannot be accessed, and those of a locked buffer cannot be written during the call.

use crate::inputs::rng::Rng;
use crate::subject::{Call, Right};

pub const PAGE: usize = 4096;

/// A content that lies between has at least so many guard bytes on either side.
const GUARD: usize = 64;

/// Where the content lies in its pages.
#[derive(Clone, Copy, Debug, PartialEq, Eq)]
pub enum Place {
    /// Its last byte is the last before a page without access. Its length sets the alignment.
    AtTheEnd,
    /// Its first byte is the first after a page without access.
    AtTheStart,
    /// At any alignment, with guard bytes on both sides.
    Between,
}

pub struct Lent {
    /// Guard bytes, content, guard bytes: whole pages.
    pub whole: Vec<u8>,
    pub start: usize,
    pub length: usize,
    pub place: Place,
    pub locked: bool,
    /// The whole as it was lent.
    before: Vec<u8>,
}

impl Lent {
    /// The guard bytes are any bytes, so that no engine writes just these by chance.
    pub fn new(rng: &mut Rng, content: &[u8], alignment: usize, locked: bool) -> Lent {
        let length = content.len();
        let size = (length + 2 * GUARD).div_ceil(PAGE) * PAGE;
        let spare = size - length;
        let (place, start) = match rng.below(4) {
            0 => (Place::AtTheStart, 0),
            1 => (Place::AtTheEnd, spare),
            _ => {
                let shift = rng.below((spare - 2 * GUARD) as u32 + 1) as usize;
                (Place::Between, GUARD + shift / alignment * alignment)
            }
        };
        let mut whole = Vec::with_capacity(size);
        while whole.len() < size {
            whole.extend(rng.next().to_le_bytes());
        }
        whole[start..start + length].copy_from_slice(content);
        Lent { before: whole.clone(), whole, start, length, place, locked }
    }

    pub fn content(&self) -> &[u8] {
        &self.whole[self.start..self.start + self.length]
    }

    pub fn content_mut(&mut self) -> &mut [u8] {
        &mut self.whole[self.start..self.start + self.length]
    }

    pub fn guards_hold(&self) -> bool {
        let end = self.start + self.length;
        self.whole[..self.start] == self.before[..self.start] && self.whole[end..] == self.before[end..]
    }
}

/// Lends the buffers of a call. Those lent to be read are locked, and with `all` every one: a call that is
/// to be refused must leave them untouched.
pub fn lend(rng: &mut Rng, call: Call, buffers: &[Vec<u8>], all: bool) -> Vec<Lent> {
    let lends = buffers.iter().zip(call.buffers());
    lends
        .map(|(buffer, (name, right))| {
            // The tally is a record of three numbers of 64 bits; the others are bytes.
            let alignment = if *name == "tally" { 8 } else { 1 };
            Lent::new(rng, buffer, alignment, all || *right == Right::Read)
        })
        .collect()
}
