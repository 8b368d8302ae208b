//! A host for the proved relay engine: safe types over its static library.
//!
//! ```
//! use relay_host::{Event, Network, Table};
//!
//! let table = Table::zero(); // every message has topic 0 and origin 0
//! let mut network = Network::blank();
//! for line in ["join 0 pubs 0", "join 1 subs 0 neighbours 0", "produce 0 5"] {
//!     let event: Event = line.parse().unwrap();
//!     network.apply(&table, &event).unwrap();
//! }
//! let drained = network.drain(&table, relay_host::ENOUGH).unwrap();
//! assert!(drained.quiet && drained.forwards == 2 && drained.rounds == 2);
//! ```
//!
//! What is proved is the engine; this crate is plain Rust that hands it bytes. A [`Network`] is made blank or by a read
//! that the engine accepted, and only the engine changes it, so it is sound at any time. No function of this crate panics: what
//! the engine refuses, and an engine that can't be reached, are [`Refusal`]s. Where to look:
//!
//! | module | holds |
//! |---|---|
//! | [`raw`] | the six functions of the engine on lent bytes of any length |
//! | [`numbers`] | peers, topics, messages and sets of them, as separate types |
//! | [`refusal`] | the numbers that the engine answers, and what they mean |
//! | [`fault`] | what is found in a refused state, and what its rule expects, in words |
//! | [`event`] | the seven events and their 16-byte records |
//! | [`text`] | the same events as lines of text |
//! | [`network`] | networks, message tables and images |

#![deny(missing_debug_implementations, unsafe_code)]

#[cfg(bridged)]
mod bridge;
pub mod event;
pub mod fault;
#[cfg(not(bridged))]
#[allow(unsafe_code)]
mod ffi;
#[cfg_attr(bridged, allow(dead_code))]
mod interface;
pub mod network;
pub mod numbers;
pub mod raw;
pub mod refusal;
pub mod text;
mod text_error;

pub use event::{Event, Joining};
pub use network::{Desk, Drained, Image, Network, Row, Run, Table, ENOUGH};
pub use numbers::{Message, Number, Peer, Set, Topic};
pub use raw::Tally;
pub use refusal::{Reason, Refusal};
pub use text::TextError;
