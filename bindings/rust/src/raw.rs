//! The calls of the C library, as safe functions: the one module with `unsafe`.
//!
//! The header asks three things of a caller. Each block below rests on the same reasons, so they are given here once
//! and named there:
//!
//! - *Slices*: each pointer is that of a slice, or of a reference, and the number after it is the slice's length. A
//!   pointer of a slice is never null, also if the slice is empty.
//! - *Apart*: what a call writes is borrowed by `&mut`, so it overlaps nothing else that the call has, and nobody else
//!   writes during the call.
//! - *Valid*: each record is `repr(C)` with the header's fields. In tables that the library writes a `bool` is a `u8`
//!   here, so any bytes are a valid record.

#[repr(C)]
#[derive(Clone, Copy, Debug, Default)]
pub struct Span {
    pub start: usize,
    pub len: usize,
}

#[repr(C)]
#[derive(Clone, Copy, Debug, Default)]
pub struct Field {
    pub name: Span,
    pub value: Span,
}

#[repr(C)]
#[derive(Clone, Copy, Debug, Default)]
pub struct Entry {
    pub id: Span,
    pub from: usize,
    pub to: usize,
    pub deleted: u8,
    pub delivered: u8,
    pub elapsed: u64,
    pub count: u64,
}

#[repr(C)]
#[derive(Clone, Copy, Debug, Default)]
pub struct Stream {
    pub name: Span,
    pub from: usize,
    pub to: usize,
}

#[repr(C)]
#[derive(Clone, Copy, Debug, Default)]
pub struct Found {
    pub len: usize,
    pub streams: usize,
    pub entries: usize,
    pub fields: usize,
    pub error: Span,
}

#[repr(C)]
#[derive(Clone, Copy, Debug, Default)]
pub struct Claim {
    pub next: Span,
    pub claimed: usize,
    pub len: usize,
}

#[repr(C)]
#[derive(Clone, Copy, Debug, Default)]
pub struct Node {
    pub kind: u8,
    pub text: Span,
    pub members: u64,
    pub end: usize,
}

#[repr(C)]
#[derive(Clone, Debug, Default)]
pub struct ReadSettings {
    pub has_count: bool,
    pub has_block: bool,
    pub noack: bool,
    pub has_claim: bool,
    pub count: usize,
    pub block: usize,
    pub claim: usize,
}

#[repr(C)]
#[derive(Clone, Debug, Default)]
pub struct TrimSettings {
    pub bound: u32,
    pub policy: u32,
    pub approximate: bool,
    pub has_limit: bool,
    pub maxlen: usize,
    pub minid: Span,
    pub limit: usize,
}

#[repr(C)]
#[derive(Clone, Debug, Default)]
pub struct AddSettings {
    pub nomkstream: bool,
    pub idempotency: u32,
    pub producer: Span,
    pub idempotent_id: Span,
    pub trim: TrimSettings,
}

#[repr(C)]
#[derive(Clone, Debug, Default)]
pub struct ClaimSettings {
    pub has_idle: bool,
    pub has_time: bool,
    pub has_retry: bool,
    pub force: bool,
    pub justid: bool,
    pub has_lastid: bool,
    pub idle: usize,
    pub time: usize,
    pub retry: usize,
    pub lastid: Span,
}

#[repr(C)]
#[derive(Clone, Debug, Default)]
pub struct AutoclaimSettings {
    pub has_count: bool,
    pub justid: bool,
    pub count: usize,
}

#[repr(C)]
#[derive(Clone, Debug, Default)]
pub struct PendingSettings {
    pub has_idle: bool,
    pub has_consumer: bool,
    pub idle: usize,
}

#[repr(C)]
#[derive(Clone, Debug, Default)]
pub struct RecordsFound {
    pub len: usize,
    pub records: usize,
    pub text: usize,
    pub error: Span,
}

#[repr(C)]
#[derive(Clone, Debug, Default)]
pub struct Group {
    pub name: Span,
    pub last_delivered_id: Span,
    pub consumers: usize,
    pub pending: usize,
    pub has_entries_read: u8,
    pub has_lag: u8,
    pub entries_read: usize,
    pub lag: usize,
}

#[repr(C)]
#[derive(Clone, Debug, Default)]
pub struct PendingEntry {
    pub id: Span,
    pub consumer: Span,
    pub last_delivered_ms: usize,
    pub times_delivered: usize,
}

#[repr(C)]
#[derive(Clone, Debug, Default)]
pub struct PendingConsumer {
    pub name: Span,
    pub pending: usize,
}

#[repr(C)]
#[derive(Clone, Debug, Default)]
pub struct PendingSummary {
    pub count: usize,
    pub start_id: Span,
    pub end_id: Span,
}

/// Calls that write a command, or a name, of texts, and of one number or flag after them.
macro_rules! commands_of_texts {
    ($($name:ident = $call:ident($($text:ident),+ $(; $more:ident: $kind:ty)?);)+) => {
        extern "C" {
            $(fn $call(
                $($text: *const u8, _: usize,)+ $($more: $kind,)? out: *mut u8, room: usize, len: *mut usize,
            ) -> u32;)+
        }
        $(pub fn $name($($text: &[u8],)+ $($more: $kind,)? out: &mut [u8], len: &mut usize) -> u32 {
            // SAFETY: slices, apart, valid.
            unsafe { $call($($text.as_ptr(), $text.len(),)+ $($more,)? out.as_mut_ptr(), out.len(), len) }
        })+
    };
}

commands_of_texts! {
    xlen = redis_xlen(key);
    xrange = redis_xrange(key, start, end);
    xrange_count = redis_xrange_count(key, start, end; count: usize);
    xrevrange = redis_xrevrange(key, end, start);
    xrevrange_count = redis_xrevrange_count(key, end, start; count: usize);
    xgroup_create = redis_xgroup_create(key, group, id; mkstream: bool);
    xgroup_setid = redis_xgroup_setid(key, group, id);
    xgroup_destroy = redis_xgroup_destroy(key, group);
    xinfo_stream = redis_xinfo_stream(key);
    xinfo_groups = redis_xinfo_groups(key);
    xinfo_consumers = redis_xinfo_consumers(key, group);
    xpending_summary = redis_xpending_summary(key, group);
    partition_name = redis_partition_name(name; partition: usize);
}

extern "C" {
    fn redis_key_slot(key: *const u8, key_len: usize) -> u32;
    fn redis_partition_of(key: *const u8, key_len: usize, number: usize, partition: *mut usize) -> u32;
}

pub fn key_slot(key: &[u8]) -> u32 {
    // SAFETY: slices.
    unsafe { redis_key_slot(key.as_ptr(), key.len()) }
}

pub fn partition_of(record_key: &[u8], number: usize, partition: &mut usize) -> u32 {
    // SAFETY: slices, apart.
    unsafe { redis_partition_of(record_key.as_ptr(), record_key.len(), number, partition) }
}

#[rustfmt::skip]
extern "C" {
    fn redis_xdel_entries(
        key: *const u8, key_len: usize, bytes: *const u8, bytes_len: usize, entries: *const Entry, entry_count: usize,
        out: *mut u8, room: usize, len: *mut usize,
    ) -> u32;
    fn redis_xinfo_groups_reply(
        bytes: *const u8, len: usize, groups: *mut Group, room: usize, texts: *mut u8, text_room: usize,
        found: *mut RecordsFound,
    ) -> u32;
    fn redis_xpending_reply(
        bytes: *const u8, len: usize, entries: *mut PendingEntry, room: usize, texts: *mut u8, text_room: usize,
        found: *mut RecordsFound,
    ) -> u32;
    fn redis_xpending_summary_reply(
        bytes: *const u8, len: usize, summary: *mut PendingSummary, consumers: *mut PendingConsumer, room: usize,
        texts: *mut u8, text_room: usize, found: *mut RecordsFound,
    ) -> u32;
}

pub fn xdel(key: &[u8], bytes: &[u8], entries: &[Entry], out: &mut [u8], len: &mut usize) -> u32 {
    let (count, entries, room, out) = (entries.len(), entries.as_ptr(), out.len(), out.as_mut_ptr());
    // SAFETY: slices, apart, valid.
    unsafe { redis_xdel_entries(key.as_ptr(), key.len(), bytes.as_ptr(), bytes.len(), entries, count, out, room, len) }
}

pub fn read_groups(bytes: &[u8], groups: &mut [Group], texts: &mut [u8], found: &mut RecordsFound) -> u32 {
    let (room, groups, text_room, texts) = (groups.len(), groups.as_mut_ptr(), texts.len(), texts.as_mut_ptr());
    // SAFETY: slices, apart, valid.
    unsafe { redis_xinfo_groups_reply(bytes.as_ptr(), bytes.len(), groups, room, texts, text_room, found) }
}

pub fn read_pending(bytes: &[u8], entries: &mut [PendingEntry], texts: &mut [u8], found: &mut RecordsFound) -> u32 {
    let (room, entries, text_room, texts) = (entries.len(), entries.as_mut_ptr(), texts.len(), texts.as_mut_ptr());
    // SAFETY: slices, apart, valid.
    unsafe { redis_xpending_reply(bytes.as_ptr(), bytes.len(), entries, room, texts, text_room, found) }
}

pub fn read_summary(
    bytes: &[u8],
    summary: &mut PendingSummary,
    consumers: &mut [PendingConsumer],
    texts: &mut [u8],
    found: &mut RecordsFound,
) -> u32 {
    let (room, consumers, text_room, texts) =
        (consumers.len(), consumers.as_mut_ptr(), texts.len(), texts.as_mut_ptr());
    // SAFETY: slices, apart, valid.
    unsafe {
        redis_xpending_summary_reply(bytes.as_ptr(), bytes.len(), summary, consumers, room, texts, text_room, found)
    }
}

#[rustfmt::skip]
extern "C" {
    fn redis_find_streams(
        bytes: *const u8, len: usize, streams: *mut Stream, stream_room: usize, entries: *mut Entry, entry_room: usize,
        fields: *mut Field, field_room: usize, found: *mut Found,
    ) -> u32;
    fn redis_find_range(
        bytes: *const u8, len: usize, entries: *mut Entry, entry_room: usize, fields: *mut Field, field_room: usize,
        found: *mut Found,
    ) -> u32;
    fn redis_find_autoclaim(
        bytes: *const u8, len: usize, entries: *mut Entry, entry_room: usize, fields: *mut Field, field_room: usize,
        claim: *mut Claim, found: *mut Found,
    ) -> u32;
    fn redis_find_justid(
        bytes: *const u8, len: usize, entries: *mut Entry, entry_room: usize, claim: *mut Claim, found: *mut Found,
    ) -> u32;
    fn redis_find_nodes(
        bytes: *const u8, len: usize, nodes: *mut Node, node_room: usize, reply_len: *mut usize, count: *mut usize,
    ) -> u32;
    fn redis_xadd_options(
        key: *const u8, key_len: usize, id: *const u8, id_len: usize, settings: *const AddSettings, bytes: *const u8,
        bytes_len: usize, fields: *const Field, field_count: usize, out: *mut u8, room: usize, len: *mut usize,
    ) -> u32;
    fn redis_xtrim_options(
        key: *const u8, key_len: usize, settings: *const TrimSettings, bytes: *const u8, bytes_len: usize, out: *mut u8,
        room: usize, len: *mut usize,
    ) -> u32;
    fn redis_xack_entries(
        key: *const u8, key_len: usize, group: *const u8, group_len: usize, bytes: *const u8, bytes_len: usize,
        entries: *const Entry, entry_count: usize, out: *mut u8, room: usize, len: *mut usize,
    ) -> u32;
    fn redis_xclaim_options(
        key: *const u8, key_len: usize, group: *const u8, group_len: usize, consumer: *const u8, consumer_len: usize,
        min_idle: usize, settings: *const ClaimSettings, bytes: *const u8, bytes_len: usize, entries: *const Entry,
        entry_count: usize, out: *mut u8, room: usize, len: *mut usize,
    ) -> u32;
    fn redis_xautoclaim_options(
        key: *const u8, key_len: usize, group: *const u8, group_len: usize, consumer: *const u8, consumer_len: usize,
        min_idle: usize, start: *const u8, start_len: usize, settings: *const AutoclaimSettings, out: *mut u8,
        room: usize, len: *mut usize,
    ) -> u32;
    fn redis_xread_streams(
        settings: *const ReadSettings, bytes: *const u8, bytes_len: usize, streams: *const Field, stream_count: usize,
        out: *mut u8, room: usize, len: *mut usize,
    ) -> u32;
    fn redis_xreadgroup_streams(
        settings: *const ReadSettings, group: *const u8, group_len: usize, consumer: *const u8, consumer_len: usize,
        bytes: *const u8, bytes_len: usize, streams: *const Field, stream_count: usize, out: *mut u8, room: usize,
        len: *mut usize,
    ) -> u32;
    fn redis_xpending_options(
        key: *const u8, key_len: usize, group: *const u8, group_len: usize, settings: *const PendingSettings,
        start: *const u8, start_len: usize, end: *const u8, end_len: usize, count: usize, consumer: *const u8,
        consumer_len: usize, out: *mut u8, room: usize, len: *mut usize,
    ) -> u32;
}

pub fn find_streams(
    bytes: &[u8],
    streams: &mut [Stream],
    entries: &mut [Entry],
    fields: &mut [Field],
    found: &mut Found,
) -> u32 {
    let (s, e, f) = (streams.len(), entries.len(), fields.len());
    let (streams, entries, fields) = (streams.as_mut_ptr(), entries.as_mut_ptr(), fields.as_mut_ptr());
    // SAFETY: slices, apart, valid.
    unsafe { redis_find_streams(bytes.as_ptr(), bytes.len(), streams, s, entries, e, fields, f, found) }
}

pub fn find_range(bytes: &[u8], entries: &mut [Entry], fields: &mut [Field], found: &mut Found) -> u32 {
    let (e, f) = (entries.len(), fields.len());
    let (entries, fields) = (entries.as_mut_ptr(), fields.as_mut_ptr());
    // SAFETY: slices, apart, valid.
    unsafe { redis_find_range(bytes.as_ptr(), bytes.len(), entries, e, fields, f, found) }
}

pub fn find_autoclaim(
    bytes: &[u8],
    entries: &mut [Entry],
    fields: &mut [Field],
    claim: &mut Claim,
    found: &mut Found,
) -> u32 {
    let (e, f) = (entries.len(), fields.len());
    let (entries, fields) = (entries.as_mut_ptr(), fields.as_mut_ptr());
    // SAFETY: slices, apart, valid.
    unsafe { redis_find_autoclaim(bytes.as_ptr(), bytes.len(), entries, e, fields, f, claim, found) }
}

pub fn find_justid(bytes: &[u8], entries: &mut [Entry], claim: &mut Claim, found: &mut Found) -> u32 {
    // SAFETY: slices, apart, valid.
    unsafe { redis_find_justid(bytes.as_ptr(), bytes.len(), entries.as_mut_ptr(), entries.len(), claim, found) }
}

pub fn find_nodes(bytes: &[u8], nodes: &mut [Node], len: &mut usize, count: &mut usize) -> u32 {
    // SAFETY: slices, apart, valid.
    unsafe { redis_find_nodes(bytes.as_ptr(), bytes.len(), nodes.as_mut_ptr(), nodes.len(), len, count) }
}

#[rustfmt::skip]
pub fn xadd(
    key: &[u8], id: &[u8], settings: &AddSettings, bytes: &[u8], fields: &[Field], out: &mut [u8], len: &mut usize,
) -> u32 {
    // SAFETY: slices, apart, valid.
    unsafe {
        redis_xadd_options(
            key.as_ptr(), key.len(), id.as_ptr(), id.len(), settings, bytes.as_ptr(), bytes.len(), fields.as_ptr(),
            fields.len(), out.as_mut_ptr(), out.len(), len,
        )
    }
}

pub fn xtrim(key: &[u8], settings: &TrimSettings, bytes: &[u8], out: &mut [u8], len: &mut usize) -> u32 {
    let (room, out) = (out.len(), out.as_mut_ptr());
    // SAFETY: slices, apart, valid.
    unsafe { redis_xtrim_options(key.as_ptr(), key.len(), settings, bytes.as_ptr(), bytes.len(), out, room, len) }
}

#[rustfmt::skip]
pub fn xack(key: &[u8], group: &[u8], bytes: &[u8], entries: &[Entry], out: &mut [u8], len: &mut usize) -> u32 {
    // SAFETY: slices, apart, valid.
    unsafe {
        redis_xack_entries(
            key.as_ptr(), key.len(), group.as_ptr(), group.len(), bytes.as_ptr(), bytes.len(), entries.as_ptr(),
            entries.len(), out.as_mut_ptr(), out.len(), len,
        )
    }
}

/// Whose entries are claimed, and by whom.
pub struct Claimer<'a> {
    pub key: &'a [u8],
    pub group: &'a [u8],
    pub consumer: &'a [u8],
    pub min_idle: usize,
}

#[rustfmt::skip]
pub fn xclaim(
    by: &Claimer<'_>, settings: &ClaimSettings, bytes: &[u8], entries: &[Entry], out: &mut [u8], len: &mut usize,
) -> u32 {
    // SAFETY: slices, apart, valid.
    unsafe {
        redis_xclaim_options(
            by.key.as_ptr(), by.key.len(), by.group.as_ptr(), by.group.len(), by.consumer.as_ptr(), by.consumer.len(),
            by.min_idle, settings, bytes.as_ptr(), bytes.len(), entries.as_ptr(), entries.len(), out.as_mut_ptr(),
            out.len(), len,
        )
    }
}

#[rustfmt::skip]
pub fn xautoclaim(
    by: &Claimer<'_>, start: &[u8], settings: &AutoclaimSettings, out: &mut [u8], len: &mut usize,
) -> u32 {
    // SAFETY: slices, apart, valid.
    unsafe {
        redis_xautoclaim_options(
            by.key.as_ptr(), by.key.len(), by.group.as_ptr(), by.group.len(), by.consumer.as_ptr(), by.consumer.len(),
            by.min_idle, start.as_ptr(), start.len(), settings, out.as_mut_ptr(), out.len(), len,
        )
    }
}

pub fn xread(settings: &ReadSettings, bytes: &[u8], streams: &[Field], out: &mut [u8], len: &mut usize) -> u32 {
    let (count, streams, room, out) = (streams.len(), streams.as_ptr(), out.len(), out.as_mut_ptr());
    // SAFETY: slices, apart, valid.
    unsafe { redis_xread_streams(settings, bytes.as_ptr(), bytes.len(), streams, count, out, room, len) }
}

#[rustfmt::skip]
pub fn xreadgroup(
    settings: &ReadSettings, group: &[u8], consumer: &[u8], bytes: &[u8], streams: &[Field], out: &mut [u8],
    len: &mut usize,
) -> u32 {
    // SAFETY: slices, apart, valid.
    unsafe {
        redis_xreadgroup_streams(
            settings, group.as_ptr(), group.len(), consumer.as_ptr(), consumer.len(), bytes.as_ptr(), bytes.len(),
            streams.as_ptr(), streams.len(), out.as_mut_ptr(), out.len(), len,
        )
    }
}

/// Which entries are pending, for whom.
pub struct Pending<'a> {
    pub key: &'a [u8],
    pub group: &'a [u8],
    pub start: &'a [u8],
    pub end: &'a [u8],
    pub count: usize,
    pub consumer: &'a [u8],
}

#[rustfmt::skip]
pub fn xpending(of: &Pending<'_>, settings: &PendingSettings, out: &mut [u8], len: &mut usize) -> u32 {
    // SAFETY: slices, apart, valid.
    unsafe {
        redis_xpending_options(
            of.key.as_ptr(), of.key.len(), of.group.as_ptr(), of.group.len(), settings, of.start.as_ptr(),
            of.start.len(), of.end.as_ptr(), of.end.len(), of.count, of.consumer.as_ptr(), of.consumer.len(),
            out.as_mut_ptr(), out.len(), len,
        )
    }
}
