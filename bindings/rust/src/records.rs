//! What a server tells of groups and of what is pending, as records of their own.
//!
//! Each call returns what it read and how many bytes the reply has, or `None` if the bytes end before it does.
//!
//! ```
//! use redis_streams::records::read_groups;
//!
//! let reply = b"*1\r\n*4\r\n$4\r\nname\r\n$2\r\ng1\r\n$3\r\nlag\r\n:7\r\n";
//! let (groups, len) = read_groups(reply)?.expect("a whole reply");
//! assert_eq!((groups[0].name.as_slice(), groups[0].lag, len), (&b"g1"[..], Some(7), reply.len()));
//! # Ok::<(), redis_streams::Error>(())
//! ```
use crate::error::{Error, INCOMPLETE, OK, ROOM};
use crate::raw;

/// A group of a stream, as XINFO GROUPS tells of it. `None` is what the server does not tell.
#[derive(Clone, Debug, PartialEq, Eq)]
pub struct Group {
    pub name: Vec<u8>,
    pub consumers: usize,
    pub pending: usize,
    pub last_delivered_id: Vec<u8>,
    pub entries_read: Option<usize>,
    pub lag: Option<usize>,
}

/// A pending entry, as XPENDING with a range tells of it.
#[derive(Clone, Debug, PartialEq, Eq)]
pub struct PendingEntry {
    pub id: Vec<u8>,
    pub consumer: Vec<u8>,
    pub last_delivered_ms: usize,
    pub times_delivered: usize,
}

/// What is pending for a group, as XPENDING without a range tells of it. If nothing is, the ids are empty.
#[derive(Clone, Debug, PartialEq, Eq)]
pub struct PendingSummary {
    pub count: usize,
    pub start_id: Vec<u8>,
    pub end_id: Vec<u8>,
    /// Each consumer, and how many entries are pending for it.
    pub consumers: Vec<(Vec<u8>, usize)>,
}

/// Rows, their texts, and how many bytes the reply has. The tables grow if they have to.
fn read<T: Clone + Default>(
    bytes: &[u8],
    mut call: impl FnMut(&mut [T], &mut [u8], &mut raw::RecordsFound) -> u32,
) -> Result<Option<(Vec<T>, Vec<u8>, usize)>, Error> {
    let mut found = raw::RecordsFound { records: 16, text: 1024, ..Default::default() };
    loop {
        let (mut rows, mut texts) = (vec![T::default(); found.records], vec![0; found.text]);
        match call(&mut rows, &mut texts, &mut found) {
            OK => {
                rows.truncate(found.records);
                return Ok(Some((rows, texts, found.len)));
            }
            INCOMPLETE => return Ok(None),
            ROOM => {}
            number => {
                let raw::Span { start, len } = found.error;
                return Err(Error::of(number, found.len, &bytes[start..][..len]));
            }
        }
    }
}

fn at(texts: &[u8], span: &raw::Span) -> Vec<u8> {
    texts[span.start..][..span.len].to_vec()
}

/// The groups of the reply of XINFO GROUPS at the head of the bytes.
pub fn read_groups(bytes: &[u8]) -> Result<Option<(Vec<Group>, usize)>, Error> {
    let read = read(bytes, |rows, texts, found| raw::read_groups(bytes, rows, texts, found))?;
    Ok(read.map(|(rows, texts, len)| (rows.iter().map(|row| group_of(row, &texts)).collect(), len)))
}

fn group_of(row: &raw::Group, texts: &[u8]) -> Group {
    Group {
        name: at(texts, &row.name),
        consumers: row.consumers,
        pending: row.pending,
        last_delivered_id: at(texts, &row.last_delivered_id),
        entries_read: (row.has_entries_read != 0).then_some(row.entries_read),
        lag: (row.has_lag != 0).then_some(row.lag),
    }
}

/// The pending entries of the reply of XPENDING with a range at the head of the bytes.
pub fn read_pending(bytes: &[u8]) -> Result<Option<(Vec<PendingEntry>, usize)>, Error> {
    let read = read(bytes, |rows, texts, found| raw::read_pending(bytes, rows, texts, found))?;
    Ok(read.map(|(rows, texts, len)| (rows.iter().map(|row| entry_of(row, &texts)).collect(), len)))
}

fn entry_of(row: &raw::PendingEntry, texts: &[u8]) -> PendingEntry {
    PendingEntry {
        id: at(texts, &row.id),
        consumer: at(texts, &row.consumer),
        last_delivered_ms: row.last_delivered_ms,
        times_delivered: row.times_delivered,
    }
}

/// What the reply of XPENDING without a range at the head of the bytes tells.
pub fn read_summary(bytes: &[u8]) -> Result<Option<(PendingSummary, usize)>, Error> {
    let mut summary = raw::PendingSummary::default();
    let read = read(bytes, |rows, texts, found| raw::read_summary(bytes, &mut summary, rows, texts, found))?;
    Ok(read.map(|(rows, texts, len): (Vec<raw::PendingConsumer>, _, _)| {
        let consumers = rows.iter().map(|row| (at(&texts, &row.name), row.pending)).collect();
        let (start_id, end_id) = (at(&texts, &summary.start_id), at(&texts, &summary.end_id));
        (PendingSummary { count: summary.count, start_id, end_id, consumers }, len)
    }))
}
