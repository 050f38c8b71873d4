//! Reads the entries of stored replies in place, by the static library, from Rust: and says how the stream
//! is trimmed after them.
//!
//! usage: streams <REPLIES
//!
//! Prints a line for each entry: the stream, the id, then each field as name=value; and at the end an XTRIM.
use std::io::{Read, Write};

#[repr(C)]
#[derive(Clone, Copy, Default)]
struct Span {
    start: usize,
    len: usize,
}

#[repr(C)]
#[derive(Clone, Copy, Default)]
struct Field {
    name: Span,
    value: Span,
}

#[repr(C)]
#[derive(Clone, Copy, Default)]
struct Entry {
    id: Span,
    from: usize,
    to: usize,
    deleted: bool,
    delivered: bool,
    elapsed: u64,
    count: u64,
}

#[repr(C)]
#[derive(Clone, Copy, Default)]
struct Stream {
    name: Span,
    from: usize,
    to: usize,
}

#[repr(C)]
#[derive(Default)]
struct Found {
    len: usize,
    streams: usize,
    entries: usize,
    fields: usize,
    error: Span,
}

#[repr(C)]
#[derive(Default)]
struct TrimSettings {
    bound: u32,
    policy: u32,
    approximate: bool,
    has_limit: bool,
    maxlen: usize,
    minid: Span,
    limit: usize,
}

const OK: u32 = 0;
const ROOM: u32 = 1;
const MINID: u32 = 2;

unsafe extern "C" {
    fn redis_find_streams(
        bytes: *const u8, len: usize, streams: *mut Stream, stream_room: usize, entries: *mut Entry, entry_room: usize,
        fields: *mut Field, field_room: usize, found: *mut Found,
    ) -> u32;

    fn redis_xtrim_options(
        key: *const u8, key_len: usize, settings: *const TrimSettings, bytes: *const u8, bytes_len: usize, out: *mut u8,
        room: usize, len: *mut usize,
    ) -> u32;
}

/// The tables of the reply at the head of the bytes, and how many bytes it has: they grow once to what is wanted.
fn read(bytes: &[u8]) -> Result<(Vec<Stream>, Vec<Entry>, Vec<Field>, usize), u32> {
    let (mut streams, mut entries, mut fields) = (Vec::new(), Vec::new(), Vec::new());
    let mut found = Found::default();
    loop {
        streams.resize(found.streams, Stream::default());
        entries.resize(found.entries, Entry::default());
        fields.resize(found.fields, Field::default());
        let told = unsafe {
            redis_find_streams(
                bytes.as_ptr(), bytes.len(), streams.as_mut_ptr(), streams.len(), entries.as_mut_ptr(), entries.len(),
                fields.as_mut_ptr(), fields.len(), &mut found,
            )
        };
        match told {
            OK => return Ok((streams, entries, fields, found.len)),
            ROOM => (),
            _ => return Err(told),
        }
    }
}

/// XTRIM of what stands before the id at this place.
fn trim(key: &[u8], bytes: &[u8], minid: Span) -> Result<Vec<u8>, u32> {
    let settings = TrimSettings { bound: MINID, approximate: true, minid, ..Default::default() };
    let mut out = Vec::new();
    loop {
        let mut len = 0;
        let told = unsafe {
            redis_xtrim_options(
                key.as_ptr(), key.len(), &settings, bytes.as_ptr(), bytes.len(), out.as_mut_ptr(), out.len(), &mut len,
            )
        };
        match told {
            OK => return Ok(out),
            ROOM => out.resize(len, 0),
            _ => return Err(told),
        }
    }
}

fn main() -> Result<(), Box<dyn std::error::Error>> {
    let mut bytes = Vec::new();
    std::io::stdin().read_to_end(&mut bytes)?;
    let mut shown = std::io::stdout().lock();
    let mut last = None;
    let mut rest = &bytes[..];
    while !rest.is_empty() {
        let text = |span: Span| String::from_utf8_lossy(&rest[span.start..span.start + span.len]);
        let (streams, entries, fields, len) = read(rest).map_err(|told| format!("told {told}"))?;
        for stream in &streams {
            for entry in &entries[stream.from..stream.to] {
                write!(shown, "{} {}", text(stream.name), text(entry.id))?;
                for field in &fields[entry.from..entry.to] {
                    write!(shown, " {}={}", text(field.name), text(field.value))?;
                }
                writeln!(shown, "{}", if entry.deleted { " deleted" } else { "" })?;
                let before = bytes.len() - rest.len();
                last = Some(Span { start: before + entry.id.start, len: entry.id.len });
            }
        }
        rest = &rest[len..];
    }
    if let Some(id) = last {
        shown.write_all(&trim(b"orders", &bytes, id).map_err(|told| format!("told {told}"))?)?;
    }
    Ok(())
}
