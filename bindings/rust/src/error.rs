//! Errors, by name.
use std::fmt;

/// An error of a reading or of a command.
#[derive(Clone, Debug, PartialEq, Eq)]
#[non_exhaustive]
pub enum Error {
    /// The server's own error, such as `NOGROUP ..`. The reply has `len` bytes.
    Server { text: Vec<u8>, len: usize },
    /// A reply of another shape than was asked for, of `len` bytes.
    OtherReply { len: usize },
    /// The bytes are no reply, however they go on: nothing more can be read from their connection.
    Protocol(Fault),
    /// Out of memory; it says nothing of the bytes.
    OutOfMemory,
    /// An argument of 2^32 bytes or more.
    ArgumentTooLarge,
    /// No id, field or stream was given, and the server wants one.
    NothingGiven,
    /// Settings that name nothing, such as an id that is no UTF-8.
    BadSettings,
    /// There are 0 partitions.
    NoPartition,
    /// Another number than the library's header has.
    Unknown(u32),
}

/// A fault of bytes that are no reply: the first one from the left.
#[derive(Clone, Copy, Debug, PartialEq, Eq, Hash)]
#[non_exhaustive]
pub enum Fault {
    UnknownType,
    StreamedValue,
    BadEnd,
    BadLength,
    TooLong,
    LongLine,
    TooDeep,
    BadNumber,
    BadNull,
    BadBoolean,
    NotUtf8,
    BadVerbatim,
    BadPush,
    Overfull,
    TooMany,
}

pub(crate) const OK: u32 = 0;
pub(crate) const ROOM: u32 = 1;
pub(crate) const INCOMPLETE: u32 = 2;
const FIRST_FAULT: u32 = 16;

/// The faults in the order of their numbers, each with its text.
const FAULTS: [(Fault, &str); 15] = [
    (Fault::UnknownType, "the first byte of a value names no type of the protocol"),
    (Fault::StreamedValue, "a value with no length in front of it"),
    (Fault::BadEnd, "a line or a bulk string does not end in CR LF"),
    (Fault::BadLength, "not a length"),
    (Fault::TooLong, "a length over 512 MiB"),
    (Fault::LongLine, "a line over 64 KiB"),
    (Fault::TooDeep, "more than 128 levels of values"),
    (Fault::BadNumber, "not a number of 64 bits"),
    (Fault::BadNull, "a null with bytes of its own"),
    (Fault::BadBoolean, "neither `t` nor `f`"),
    (Fault::NotUtf8, "a text that has to be UTF-8 and is not"),
    (Fault::BadVerbatim, "not a verbatim string"),
    (Fault::BadPush, "not a push"),
    (Fault::Overfull, "more values than a reply may have"),
    (Fault::TooMany, "more than 16,777,216 values in a reply of another shape"),
];

impl Error {
    /// How many bytes to skip to get to the next reply. None if the connection is of no more use, or it is no error of
    /// a reply.
    pub fn reply_len(&self) -> Option<usize> {
        match self {
            Error::Server { len, .. } | Error::OtherReply { len } => Some(*len),
            _ => None,
        }
    }

    /// The error by the number that the library returned, for a reply of so many bytes.
    pub(crate) fn of(number: u32, len: usize, text: &[u8]) -> Error {
        match number {
            3 => Error::Server { text: text.to_vec(), len },
            4 => Error::OtherReply { len },
            5 => Error::OutOfMemory,
            6 => Error::ArgumentTooLarge,
            8 => Error::NothingGiven,
            9 => Error::BadSettings,
            11 => Error::NoPartition,
            _ => {
                let index = number.wrapping_sub(FIRST_FAULT) as usize;
                FAULTS.get(index).map_or(Error::Unknown(number), |(fault, _)| Error::Protocol(*fault))
            }
        }
    }
}

impl fmt::Display for Error {
    fn fmt(&self, f: &mut fmt::Formatter<'_>) -> fmt::Result {
        match self {
            Error::Server { text, .. } => write!(f, "the server: {}", String::from_utf8_lossy(text)),
            Error::OtherReply { len } => write!(f, "a reply of another shape, of {len} bytes"),
            Error::Protocol(fault) => write!(f, "the bytes are no reply: {fault}"),
            Error::OutOfMemory => f.write_str("out of memory"),
            Error::ArgumentTooLarge => f.write_str("an argument of 2^32 bytes or more"),
            Error::NothingGiven => f.write_str("no id, field or stream was given"),
            Error::BadSettings => f.write_str("settings that name nothing"),
            Error::NoPartition => f.write_str("there are 0 partitions"),
            Error::Unknown(number) => write!(f, "the library returned {number}"),
        }
    }
}

impl fmt::Display for Fault {
    fn fmt(&self, f: &mut fmt::Formatter<'_>) -> fmt::Result {
        let text = FAULTS.iter().find(|(fault, _)| fault == self).map_or("a fault", |(_, text)| text);
        f.write_str(text)
    }
}

impl std::error::Error for Error {}
impl std::error::Error for Fault {}
