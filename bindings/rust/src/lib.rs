//! Redis streams by the C library `redis_c`: replies read in place, and commands.
//!
//! - [`Tables`] find the entries of a reply in bytes of yours, and lend them: nothing is copied.
//! - [`Decoder`] takes bytes in pieces, [`Connection`] anything that reads and writes.
//! - [`commands`] has the commands with their options.
//! - [`records`] reads what a server tells of groups and of what is pending.
//! - [`cluster`] has the slots of keys, and the partitions of a stream.
//!
//! The module `raw` alone has `unsafe`. What the library returns is checked once more where it is used: a place outside
//! the bytes would be a panic, and never a read of other memory.
#![deny(unsafe_code)]

pub mod cluster;
pub mod commands;
mod connection;
mod error;
#[allow(unsafe_code)]
mod raw;
pub mod records;
mod replies;

pub use connection::{Connection, ConnectionError, Decoder};
pub use error::{Error, Fault};
pub use replies::{Claimed, ClaimedIds, Entries, Entry, Stream, Streams, Tables, Value};
