//! What a client of Redis Cluster computes by itself: the slot of a key, and the partitions of a stream.
//!
//! ```
//! use redis_streams::cluster::{key_slot, partition_name, partition_of};
//!
//! let partition = partition_of("user1000", 12)?;
//! let key = partition_name("orders", partition)?;
//! assert_eq!((partition, key.as_slice(), key_slot(&key)), (3, &b"orders:{3}"[..], 1584));
//! # Ok::<(), redis_streams::Error>(())
//! ```
use crate::commands::packed;
use crate::error::{Error, OK};
use crate::raw;

/// The slot of a key, from 0 to 16,383.
pub fn key_slot(key: impl AsRef<[u8]>) -> u16 {
    raw::key_slot(key.as_ref()) as u16
}

/// The partition of a record, if there are so many of them. With 0 of them it is [`Error::NoPartition`].
///
/// A record stays where it is only as long as their number does.
pub fn partition_of(record_key: impl AsRef<[u8]>, number: u16) -> Result<u16, Error> {
    let mut partition = 0;
    match raw::partition_of(record_key.as_ref(), number.into(), &mut partition) {
        OK => Ok(partition as u16),
        number => Err(Error::of(number, 0, b"")),
    }
}

/// The key of a partition of a stream, such as `orders:{3}`.
pub fn partition_name(name: impl AsRef<[u8]>, partition: u16) -> Result<Vec<u8>, Error> {
    let name = name.as_ref();
    packed(|out, len| raw::partition_name(name, partition.into(), out, len))
}
