/* Redis streams for C: replies read in place, in the bytes of a connection, commands written into a
   buffer of the caller, and the partitions of a stream.

   The library is proved: what a comment here says of a call is a contract of the function that it calls.
   Three things are the caller's, and nothing checks them:

   - A pointer that is followed by a number points to that many bytes or items, which nothing else
     writes during the call. Two things that a call writes to do not overlap each other or what it
     reads. No pointer is null, also if the number is 0.
   - Tables, and records that a call writes, are zeroed before the first call (`= {0}` or calloc): a `bool`
     holds 0 or 1 at all times.
   - `malloc`, `realloc` and `free` are those of the C library.

   No call ends the process, unwinds or keeps anything: there is no state, so any thread may call at any
   time. Texts are not ended by a zero. A place is a number of bytes from the start of the bytes that were
   handed in, so it stays true if these are moved. */
#ifndef REDIS_STREAMS_H
#define REDIS_STREAMS_H

#include <stdbool.h>
#include <stddef.h>
#include <stdint.h>

#ifdef __cplusplus
extern "C" {
#endif

/* What a call says. A number from REDIS_FAULT on is a fault of the bytes. */
enum {
    REDIS_OK = 0,            /* it is done */
    REDIS_ROOM = 1,          /* there is too little room, and so much is wanted */
    REDIS_INCOMPLETE = 2,    /* the bytes end before the reply does: call again with more of them */
    REDIS_SERVER_ERROR = 3,  /* the server sent an error */
    REDIS_OTHER = 4,         /* a reply of another shape than the call reads */
    REDIS_MEMORY = 5,        /* out of memory; it says nothing of the bytes */
    REDIS_TOO_LARGE = 6,     /* an argument of 2^32 bytes or more */
    REDIS_OUTSIDE = 7,       /* a place that was handed in is not within the bytes */
    REDIS_NOTHING = 8,       /* no entry, field or stream was handed in, and the server wants one */
    REDIS_SETTINGS = 9,      /* settings that name nothing: a number is none of its choices, or a text that they
                                place is not within the bytes or is not UTF-8 */
    REDIS_NO_OPTIONS = 10,   /* the arguments do not begin with options, of which none is an option too */
    REDIS_NO_PARTITION = 11, /* there are 0 partitions or more than 65,535, or the number of one is above 65,535 */

    /* The bytes are no reply, however they go on: the first fault that reading from the left meets. */
    REDIS_FAULT = 16,
    REDIS_FAULT_UNKNOWN_TYPE = 16, /* the first byte of a value names no type of the protocol */
    REDIS_FAULT_STREAMED = 17,     /* a value with no length in front of it */
    REDIS_FAULT_BAD_END = 18,      /* a line or a bulk string does not end in CR LF */
    REDIS_FAULT_BAD_LENGTH = 19,   /* not a length */
    REDIS_FAULT_TOO_LONG = 20,     /* a length over 512 MiB */
    REDIS_FAULT_LONG_LINE = 21,    /* a line over 64 KiB */
    REDIS_FAULT_TOO_DEEP = 22,     /* more than 128 levels of values */
    REDIS_FAULT_BAD_NUMBER = 23,   /* not a number of 64 bits */
    REDIS_FAULT_BAD_NULL = 24,     /* a null with bytes of its own */
    REDIS_FAULT_BAD_BOOLEAN = 25,  /* neither `t` nor `f` */
    REDIS_FAULT_NOT_UTF8 = 26,     /* a text that has to be UTF-8 and is not */
    REDIS_FAULT_BAD_VERBATIM = 27, /* not a verbatim string */
    REDIS_FAULT_BAD_PUSH = 28,     /* not a push */
    REDIS_FAULT_OVERFULL = 29,     /* no call here returns it */
    REDIS_FAULT_TOO_MANY = 30      /* more than 16,777,216 values, in a reply of another shape */
};

/* The place of a text in bytes. */
typedef struct {
    size_t start; /* so many bytes are before it */
    size_t len;   /* how many bytes it has */
} redis_span;

/* The place of a field. The name and the value are any bytes. An entry may have a name twice. */
typedef struct {
    redis_span name;
    redis_span value;
} redis_field;

/* The place of an entry. Its fields are those from `from` on, up to but without `to`. */
typedef struct {
    redis_span id; /* UTF-8, such as 1526919030474-55 */
    size_t from;
    size_t to;
    bool deleted;     /* nil is in place of the fields: the entry was deleted */
    bool delivered;   /* the reply says when and how often the entry was delivered */
    uint64_t elapsed; /* so many milliseconds ago, and 0 if the reply does not say */
    uint64_t count;   /* so often, and 0 if the reply does not say */
} redis_entry;

/* The place of a stream. Its entries are those from `from` on, up to but without `to`. */
typedef struct {
    redis_span name; /* UTF-8 */
    size_t from;
    size_t to;
} redis_stream;

/* What a reading found. */
typedef struct {
    size_t len;       /* how many bytes the reply has: the next one is after them; 0 if there is none */
    size_t streams;   /* how many streams, entries of all of them, and fields of all of these: with */
    size_t entries;   /*     REDIS_OK the tables begin with so many, with REDIS_ROOM so many are wanted, */
    size_t fields;    /*     and else these are 0 */
    redis_span error; /* the place of the text of the server's error, with REDIS_SERVER_ERROR */
} redis_found;

/* Finds the streams and entries of the reply of XREAD or XREADGROUP at the head of `bytes`, in RESP2 and
   RESP3, if it has the shape in which servers send it.

   REDIS_OK: the first `found->len` bytes are the reply, and these are its streams, entries and fields, in
   the order of the reply and none left out; nil, which says that nothing came in time, has no streams.
   REDIS_ROOM: such a reply too, of `found->streams`, `found->entries` and `found->fields`. One of the tables at
   least has room for fewer.
   REDIS_INCOMPLETE: no beginning of `bytes` is a reply.
   REDIS_SERVER_ERROR: the first `found->len` bytes are an error, whose text is at `found->error`.
   REDIS_OTHER: the first `found->len` bytes are another reply.
   REDIS_FAULT and above: no beginning of `bytes` is a reply, whatever comes after them.

   The other direction holds too. REDIS_MEMORY may be returned whenever REDIS_OK is not promised.
   - If the bytes begin with such a reply as servers write it, and all tables have room for it, the call returns
     REDIS_OK. If one of the tables has room for fewer places than it has, the call returns REDIS_ROOM. In both cases
     `found->len`, `found->streams`, `found->entries` and `found->fields` are those of the reply.
   - For each proper beginning of a reply it returns REDIS_INCOMPLETE, and for each error of the server
     REDIS_SERVER_ERROR.
   - For bytes with a fault it returns the first one. REDIS_FAULT_TOO_MANY counts only the values of a reply of
     another shape.

   With another number than REDIS_OK the tables say nothing, although places may have been written into them.
   REDIS_OK takes no memory. With the other numbers the call takes memory to count the places or to read the reply, and
   gives it back before it ends. */
uint32_t redis_find_streams(const uint8_t *bytes, size_t len, redis_stream *streams, size_t stream_room,
                            redis_entry *entries, size_t entry_room, redis_field *fields, size_t field_room,
                            redis_found *found);

/* Finds the entries of the reply of XRANGE, XREVRANGE or XCLAIM at the head of `bytes`. It returns what
   `redis_find_streams` does, but for the streams, of which there is no table. With REDIS_OK `found->streams` is 0. */
uint32_t redis_find_range(const uint8_t *bytes, size_t len, redis_entry *entries, size_t entry_room,
                          redis_field *fields, size_t field_room, redis_found *found);

/* What a reply of XAUTOCLAIM says beside its entries. */
typedef struct {
    redis_span next; /* the id from which the next XAUTOCLAIM goes on: 0-0 if all pending entries were seen */
    size_t claimed;  /* so many entries were claimed */
    size_t len;      /* how many bytes the reply has */
} redis_claim;

/* Finds the entries of the reply of XAUTOCLAIM at the head of `bytes`. It returns what `redis_find_range` does, and
   counts the ids of deleted entries as entries.

   REDIS_OK: the first `claim->claimed` of the `found->entries` entries are those that were claimed. The others are
   the ids that were pending and are no longer in the stream, which the server has taken off the list of what is
   pending: of them only `id` says something.
   REDIS_OK and REDIS_ROOM write `claim`; with another number it says nothing. */
uint32_t redis_find_autoclaim(const uint8_t *bytes, size_t len, redis_entry *entries, size_t entry_room,
                              redis_field *fields, size_t field_room, redis_claim *claim, redis_found *found);

/* The same of the reply of XAUTOCLAIM with JUSTID, which has ids alone: of each entry only `id` says something, and
   `found->fields` is 0. */
uint32_t redis_find_justid(const uint8_t *bytes, size_t len, redis_entry *entries, size_t entry_room,
                           redis_claim *claim, redis_found *found);

/* What a read of a group asks for. */
typedef struct {
    bool has_count; /* COUNT: at most `count` entries are read */
    bool has_block; /* BLOCK: the read waits up to `block` milliseconds for entries, and 0 without end */
    bool noack;     /* what is read needs no acknowledgement */
    bool has_claim; /* CLAIM: entries that are idle for `claim` milliseconds are claimed and read first */
    size_t count;
    size_t block;
    size_t claim;
} redis_read_settings;

/* Each of the calls below packs one command, as a server reads it.

   REDIS_OK: `out` begins with the command, of `*len` bytes.
   REDIS_ROOM: the command has `*len` bytes, for which `room` is too little.
   REDIS_MEMORY, REDIS_TOO_LARGE: there is no command, and `*len` is 0.

   Texts are any bytes. Memory is taken for the command, and given back before the call ends. */

/* XREADGROUP GROUP group consumer [BLOCK n] [COUNT n] [NOACK] [CLAIM n] STREAMS key id
   With ">" as id it asks for entries that no consumer was given yet. */
uint32_t redis_xreadgroup(const redis_read_settings *settings, const uint8_t *group, size_t group_len,
                          const uint8_t *consumer, size_t consumer_len, const uint8_t *key, size_t key_len,
                          const uint8_t *id, size_t id_len, uint8_t *out, size_t room, size_t *len);

/* XACK key group id */
uint32_t redis_xack(const uint8_t *key, size_t key_len, const uint8_t *group, size_t group_len, const uint8_t *id,
                    size_t id_len, uint8_t *out, size_t room, size_t *len);

/* The next three take texts from their places in `bytes`, such as the entries or fields that
   `redis_find_streams` found there: REDIS_OUTSIDE says that one of the places is not within `bytes`, and
   REDIS_NOTHING that there is none. */

/* XACK key group id .., the ids of these entries */
uint32_t redis_xack_entries(const uint8_t *key, size_t key_len, const uint8_t *group, size_t group_len,
                            const uint8_t *bytes, size_t bytes_len, const redis_entry *entries, size_t entry_count,
                            uint8_t *out, size_t room, size_t *len);

/* XCLAIM key group consumer min-idle id .., the ids of these entries; `min_idle` in milliseconds */
uint32_t redis_xclaim_entries(const uint8_t *key, size_t key_len, const uint8_t *group, size_t group_len,
                              const uint8_t *consumer, size_t consumer_len, size_t min_idle, const uint8_t *bytes,
                              size_t bytes_len, const redis_entry *entries, size_t entry_count, uint8_t *out,
                              size_t room, size_t *len);

/* XADD key id name value .., these fields; with "*" as id the server makes one */
uint32_t redis_xadd_fields(const uint8_t *key, size_t key_len, const uint8_t *id, size_t id_len, const uint8_t *bytes,
                           size_t bytes_len, const redis_field *fields, size_t field_count, uint8_t *out, size_t room,
                           size_t *len);

/* XAUTOCLAIM key group consumer min-idle start COUNT count; `min_idle` in milliseconds */
uint32_t redis_xautoclaim(const uint8_t *key, size_t key_len, const uint8_t *group, size_t group_len,
                          const uint8_t *consumer, size_t consumer_len, size_t min_idle, const uint8_t *start,
                          size_t start_len, size_t count, uint8_t *out, size_t room, size_t *len);

/* XPENDING key group start end count */
uint32_t redis_xpending(const uint8_t *key, size_t key_len, const uint8_t *group, size_t group_len,
                        const uint8_t *start, size_t start_len, const uint8_t *end, size_t end_len, size_t count,
                        uint8_t *out, size_t room, size_t *len);

/* XTRIM key MAXLEN = n, and with ~ in place of = if `approximate` is true: some entries more may stay */
uint32_t redis_xtrim(const uint8_t *key, size_t key_len, bool approximate, size_t maxlen, uint8_t *out, size_t room,
                     size_t *len);

/* Entries between two ids. "-" is the least id and "+" the greatest; redis_find_range reads the replies. */

/* XRANGE key start end: all entries from `start` to `end`, both included, the least id first */
uint32_t redis_xrange(const uint8_t *key, size_t key_len, const uint8_t *start, size_t start_len, const uint8_t *end,
                      size_t end_len, uint8_t *out, size_t room, size_t *len);

/* XRANGE key start end COUNT count: at most `count` of them */
uint32_t redis_xrange_count(const uint8_t *key, size_t key_len, const uint8_t *start, size_t start_len,
                            const uint8_t *end, size_t end_len, size_t count, uint8_t *out, size_t room, size_t *len);

/* XREVRANGE key end start: all entries from `end` back to `start`, both included, the greatest id first */
uint32_t redis_xrevrange(const uint8_t *key, size_t key_len, const uint8_t *end, size_t end_len, const uint8_t *start,
                         size_t start_len, uint8_t *out, size_t room, size_t *len);

/* XREVRANGE key end start COUNT count: at most `count` of them */
uint32_t redis_xrevrange_count(const uint8_t *key, size_t key_len, const uint8_t *end, size_t end_len,
                               const uint8_t *start, size_t start_len, size_t count, uint8_t *out, size_t room,
                               size_t *len);

/* XLEN key: the reply is how many entries there are */
uint32_t redis_xlen(const uint8_t *key, size_t key_len, uint8_t *out, size_t room, size_t *len);

/* XDEL key id: the reply is how many entries were deleted */
uint32_t redis_xdel(const uint8_t *key, size_t key_len, const uint8_t *id, size_t id_len, uint8_t *out, size_t room,
                    size_t *len);

/* XDEL key id .., the ids of these entries, from where they are in `bytes`: REDIS_OUTSIDE and REDIS_NOTHING as above */
uint32_t redis_xdel_entries(const uint8_t *key, size_t key_len, const uint8_t *bytes, size_t bytes_len,
                            const redis_entry *entries, size_t entry_count, uint8_t *out, size_t room, size_t *len);

/* XGROUP CREATE key group id, and MKSTREAM after it if `mkstream` is true: a stream that does not exist is made too.
   The group is given the entries after `id`; with "$" as id those that are added from now on. */
uint32_t redis_xgroup_create(const uint8_t *key, size_t key_len, const uint8_t *group, size_t group_len,
                             const uint8_t *id, size_t id_len, bool mkstream, uint8_t *out, size_t room, size_t *len);

/* XGROUP SETID key group id: from now on the group is given the entries after `id` */
uint32_t redis_xgroup_setid(const uint8_t *key, size_t key_len, const uint8_t *group, size_t group_len,
                            const uint8_t *id, size_t id_len, uint8_t *out, size_t room, size_t *len);

/* XGROUP DESTROY key group: removes the group, and what is pending for it */
uint32_t redis_xgroup_destroy(const uint8_t *key, size_t key_len, const uint8_t *group, size_t group_len, uint8_t *out,
                              size_t room, size_t *len);

/* XINFO STREAM key: what the server tells of the stream */
uint32_t redis_xinfo_stream(const uint8_t *key, size_t key_len, uint8_t *out, size_t room, size_t *len);

/* XINFO GROUPS key: what it tells of the groups of the stream */
uint32_t redis_xinfo_groups(const uint8_t *key, size_t key_len, uint8_t *out, size_t room, size_t *len);

/* XINFO CONSUMERS key group: what it tells of the consumers of the group */
uint32_t redis_xinfo_consumers(const uint8_t *key, size_t key_len, const uint8_t *group, size_t group_len, uint8_t *out,
                               size_t room, size_t *len);

/* XPENDING key group: how many entries are pending for the group, from which id to which, and for whom */
uint32_t redis_xpending_summary(const uint8_t *key, size_t key_len, const uint8_t *group, size_t group_len,
                                uint8_t *out, size_t room, size_t *len);

/* ---- Commands with their options

   Settings are plain numbers, flags and places: a text of them is in the `bytes` that are handed in with
   them, is UTF-8, and is looked at only if a number or a flag asks for it. With REDIS_SETTINGS there is no
   command, and `*len` is 0. All zero, settings ask for nothing. */

/* What bounds a stream that is trimmed. */
enum { REDIS_UNTRIMMED = 0, REDIS_MAXLEN = 1, REDIS_MINID = 2 };

/* What happens to a deleted entry that is in the list of pending entries of a group: it stays there (REDIS_KEEPREF) or
   is taken off it (REDIS_DELREF); or only entries are deleted that all groups have acknowledged (REDIS_ACKED). With
   REDIS_UNSAID the command does not say. */
enum { REDIS_UNSAID = 0, REDIS_KEEPREF = 1, REDIS_DELREF = 2, REDIS_ACKED = 3 };

/* How the server finds out that an entry was added before: not at all (REDIS_DUPLICATES), by the id that the producer
   gives it (REDIS_IDMP), or by an id that the server makes of its fields (REDIS_IDMPAUTO). */
enum { REDIS_DUPLICATES = 0, REDIS_IDMP = 1, REDIS_IDMPAUTO = 2 };

/* MAXLEN|MINID =|~ bound [LIMIT n] and [KEEPREF|DELREF|ACKED] */
typedef struct {
    uint32_t bound;   /* REDIS_UNTRIMMED, REDIS_MAXLEN or REDIS_MINID */
    uint32_t policy;  /* REDIS_UNSAID, REDIS_KEEPREF, REDIS_DELREF or REDIS_ACKED */
    bool approximate; /* ~ in place of =: some entries more may stay */
    bool has_limit;   /* LIMIT: one call removes at most `limit` entries */
    size_t maxlen;    /* of REDIS_MAXLEN: so many entries stay */
    redis_span minid; /* of REDIS_MINID: entries from this id on stay */
    size_t limit;
} redis_trim_settings;

/* [NOMKSTREAM] [KEEPREF|DELREF|ACKED] [IDMP producer idempotent-id | IDMPAUTO producer] [MAXLEN|MINID ..] */
typedef struct {
    bool nomkstream;          /* a stream that does not exist is not made */
    uint32_t idempotency;     /* REDIS_DUPLICATES, REDIS_IDMP or REDIS_IDMPAUTO */
    redis_span producer;      /* of REDIS_IDMP and REDIS_IDMPAUTO */
    redis_span idempotent_id; /* of REDIS_IDMP: the id that the producer gives the entry */
    redis_trim_settings trim;
} redis_add_settings;

/* [IDLE n] [TIME n] [RETRYCOUNT n] [FORCE] [JUSTID] [LASTID id] */
typedef struct {
    bool has_idle;   /* IDLE: the entries count as idle for `idle` milliseconds */
    bool has_time;   /* TIME: they count as last delivered `time` milliseconds after the start of 1970 */
    bool has_retry;  /* RETRYCOUNT: they count as delivered `retry` times */
    bool force;      /* an entry that is pending for nobody is claimed too */
    bool justid;     /* the reply has the ids alone */
    bool has_lastid; /* LASTID: `lastid` is noted as the id that the group was delivered last */
    size_t idle;
    size_t time;
    size_t retry;
    redis_span lastid;
} redis_claim_settings;

/* [COUNT n] [JUSTID] */
typedef struct {
    bool has_count; /* COUNT: at most `count` entries are claimed */
    bool justid;    /* the reply has the ids alone: redis_find_justid reads it */
    size_t count;
} redis_autoclaim_settings;

/* [IDLE n] and [consumer] */
typedef struct {
    bool has_idle;     /* IDLE: those alone that are pending for `idle` milliseconds */
    bool has_consumer; /* those alone that are pending for the consumer */
    size_t idle;
} redis_pending_settings;

/* XADD key [NOMKSTREAM] [KEEPREF|DELREF|ACKED] [IDMP producer idempotent-id | IDMPAUTO producer]
        [MAXLEN|MINID =|~ bound [LIMIT n]] id name value ..
   The fields, and the texts of the settings, are in `bytes`. */
uint32_t redis_xadd_options(const uint8_t *key, size_t key_len, const uint8_t *id, size_t id_len,
                            const redis_add_settings *settings, const uint8_t *bytes, size_t bytes_len,
                            const redis_field *fields, size_t field_count, uint8_t *out, size_t room, size_t *len);

/* XTRIM key MAXLEN|MINID =|~ bound [LIMIT n] [KEEPREF|DELREF|ACKED]
   REDIS_UNTRIMMED is no bound here: for it the call returns REDIS_SETTINGS. */
uint32_t redis_xtrim_options(const uint8_t *key, size_t key_len, const redis_trim_settings *settings,
                             const uint8_t *bytes, size_t bytes_len, uint8_t *out, size_t room, size_t *len);

/* XCLAIM key group consumer min-idle id .. [IDLE n] [TIME n] [RETRYCOUNT n] [FORCE] [JUSTID] [LASTID id]
   The ids of these entries, and the text of the settings, are in `bytes`. */
uint32_t redis_xclaim_options(const uint8_t *key, size_t key_len, const uint8_t *group, size_t group_len,
                              const uint8_t *consumer, size_t consumer_len, size_t min_idle,
                              const redis_claim_settings *settings, const uint8_t *bytes, size_t bytes_len,
                              const redis_entry *entries, size_t entry_count, uint8_t *out, size_t room,
                              size_t *len);

/* XAUTOCLAIM key group consumer min-idle start [COUNT n] [JUSTID] */
uint32_t redis_xautoclaim_options(const uint8_t *key, size_t key_len, const uint8_t *group, size_t group_len,
                                  const uint8_t *consumer, size_t consumer_len, size_t min_idle,
                                  const uint8_t *start, size_t start_len,
                                  const redis_autoclaim_settings *settings, uint8_t *out, size_t room, size_t *len);

/* XREAD [BLOCK n] [COUNT n] STREAMS key .. id ..
   Of each stream the key is handed in as a name, and its id as a value. `noack` and `has_claim` are for groups. */
uint32_t redis_xread_streams(const redis_read_settings *settings, const uint8_t *bytes, size_t bytes_len,
                             const redis_field *streams, size_t stream_count, uint8_t *out, size_t room,
                             size_t *len);

/* XREADGROUP GROUP group consumer [BLOCK n] [COUNT n] [NOACK] [CLAIM n] STREAMS key .. id ..
   Of each stream the key is handed in as a name, and its id as a value. */
uint32_t redis_xreadgroup_streams(const redis_read_settings *settings, const uint8_t *group, size_t group_len,
                                  const uint8_t *consumer, size_t consumer_len, const uint8_t *bytes,
                                  size_t bytes_len, const redis_field *streams, size_t stream_count, uint8_t *out,
                                  size_t room, size_t *len);

/* XPENDING key group [IDLE n] start end count [consumer] */
uint32_t redis_xpending_options(const uint8_t *key, size_t key_len, const uint8_t *group, size_t group_len,
                                const redis_pending_settings *settings, const uint8_t *start, size_t start_len,
                                const uint8_t *end, size_t end_len, size_t count, const uint8_t *consumer,
                                size_t consumer_len, uint8_t *out, size_t room, size_t *len);

/* ---- What a server tells of groups, and of what is pending

   Each of the calls below reads the reply at the head of `bytes` into plain records. Names and ids are copied to the
   front of `texts`, one after the other, and a record has their places there.

   REDIS_OK: the first `found->len` bytes are the reply. The table begins with its `found->records` records, all of
   them in its order, and `texts` with their `found->text` bytes.
   REDIS_ROOM: such a reply too. It wants a table of `found->records` records and `found->text` bytes of texts, of
   which `room` or `text_room` is too little.
   REDIS_INCOMPLETE: no beginning of `bytes` is a reply.
   REDIS_SERVER_ERROR: the first `found->len` bytes are an error, whose text is at `found->error` in `bytes`.
   REDIS_OTHER: the first `found->len` bytes are another reply.
   REDIS_FAULT and above: no beginning of `bytes` is a reply, whatever comes after them. It is the first fault.

   The other direction holds too, but for REDIS_MEMORY, which may be returned at any time. If the bytes begin with such
   a reply, the call returns REDIS_OK or REDIS_ROOM. It returns REDIS_INCOMPLETE for each proper beginning of a reply,
   REDIS_SERVER_ERROR for each error of the server, and REDIS_OTHER for each value that is no such reply. */

/* What a reading of records found. */
typedef struct {
    size_t len;       /* how many bytes the reply has: the next one is after them; 0 if there is none */
    size_t records;   /* how many records there are, with REDIS_OK and REDIS_ROOM, and else 0 */
    size_t text;      /* how many bytes their texts have, likewise */
    redis_span error; /* the place of the text of the server's error, with REDIS_SERVER_ERROR */
} redis_records_found;

/* A group of a stream. */
typedef struct {
    redis_span name;              /* in `texts`, as is the next one */
    redis_span last_delivered_id;
    size_t consumers;      /* how many consumers it has */
    size_t pending;        /* how many entries were delivered and not yet acknowledged */
    bool has_entries_read; /* the server tells `entries_read`, which Redis does from 7.0 on */
    bool has_lag;          /* the server tells `lag` */
    size_t entries_read;   /* how many entries the group has read */
    size_t lag;            /* how many entries it has still to read */
} redis_group_info;

/* Reads the reply of XINFO GROUPS: a record for each group. What the reply does not tell is 0, or an empty text. */
uint32_t redis_xinfo_groups_reply(const uint8_t *bytes, size_t len, redis_group_info *groups, size_t room,
                                  uint8_t *texts, size_t text_room, redis_records_found *found);

/* A pending entry. */
typedef struct {
    redis_span id;            /* in `texts`, as is the next one */
    redis_span consumer;      /* the consumer that it was delivered to */
    size_t last_delivered_ms; /* how many milliseconds have passed since its last delivery */
    size_t times_delivered;   /* how often it was delivered */
} redis_pending_entry;

/* Reads the reply of XPENDING with a range, as redis_xpending and redis_xpending_options ask for it: a record for each
   pending entry. */
uint32_t redis_xpending_reply(const uint8_t *bytes, size_t len, redis_pending_entry *entries, size_t room,
                              uint8_t *texts, size_t text_room, redis_records_found *found);

/* A consumer that has pending entries. */
typedef struct {
    redis_span name; /* in `texts` */
    size_t pending;  /* how many entries are pending for it */
} redis_pending_consumer;

/* What is pending for a group. */
typedef struct {
    size_t count;        /* how many entries are pending; with 0 the ids say nothing */
    redis_span start_id; /* the least id among them, in `texts`, as is the next one */
    redis_span end_id;   /* the greatest id among them */
} redis_pending_summary;

/* Reads the reply of XPENDING without a range, as redis_xpending_summary asks for it: how much is pending, and a record
   for each consumer. After another number than REDIS_OK `summary` says nothing. */
uint32_t redis_xpending_summary_reply(const uint8_t *bytes, size_t len, redis_pending_summary *summary,
                                      redis_pending_consumer *consumers, size_t room, uint8_t *texts,
                                      size_t text_room, redis_records_found *found);

/* ---- Any reply

   A reply as a flat list of its values, each in front of its members, for what is no reply of streams. */

/* A value. */
typedef struct {
    uint8_t kind;     /* the first byte of its type, such as '$', ':' or '*'; '_' is a null of any form, and '-' or
                         '!' an error of the server, which may be among the members of another value */
    redis_span text;  /* what its line or its bulk bytes say; a group and a null have no bytes */
    uint64_t members; /* how many values its members are: a pair of a map ('%') is two, and attributes ('|') have
                         one more, the value that they are of; the first member of a push ('>') is its kind */
    size_t end;       /* the index of the node after its last member: a reader that skips it goes on there */
} redis_node;

/* Finds the values of the reply at the head of `bytes`.

   REDIS_OK: the first `*reply_len` bytes are the reply, and the table begins with its `*count` values, all of them, in
   the order of their first bytes.
   REDIS_ROOM: the first `*reply_len` bytes are a reply. The table has room for fewer than `*count` nodes; so many are
   enough, since no value has fewer than three bytes.
   REDIS_INCOMPLETE: no beginning of `bytes` is a reply.
   REDIS_FAULT and above: no beginning of `bytes` is a reply, whatever comes after them. It is the first fault.
   With REDIS_MEMORY and the last two, `*reply_len` and `*count` are 0.

   The other direction holds too, but for REDIS_MEMORY, which may be returned at any time. If the bytes begin with a
   reply, the call returns REDIS_OK or REDIS_ROOM, and `*reply_len` is its length. It returns REDIS_INCOMPLETE for each
   proper beginning of a reply, and for bytes with a fault the first one. An error of the server is a reply of one
   value. Memory is taken for the groups that are open while the end of the reply is looked for, and given back. */
uint32_t redis_find_nodes(const uint8_t *bytes, size_t len, redis_node *nodes, size_t node_room, size_t *reply_len,
                          size_t *count);

/* ---- The server's side

   Each of the calls below reads the options that arguments begin with. The arguments are texts at places of
   `bytes`, such as those of a command that was received. Of all option lists in front of the arguments it is the
   only one after which there is no further word of these options.

   REDIS_OK: the first `*count` arguments are the options, `settings` is what they ask for, and the calls above
   write them again from it. Places in it are those of the arguments. What an option does not ask for is 0.
   REDIS_NO_OPTIONS: there is no such list. No arguments, or another word in front, are options that ask for
   nothing, with 0 as `*count`, but for XTRIM, which wants a bound.
   REDIS_OUTSIDE: one of the places is not within `bytes`.
   REDIS_MEMORY: memory is taken for the arguments, and given back before the call ends.
   But for REDIS_OK, `*count` is 0, and `settings` says nothing. Words are read in capitals, and numbers with no
   sign and no leading zero, as clients of this library write them. */

/* The places of the names of a group and its consumer. */
typedef struct {
    bool has_group; /* there are names: it is an XREADGROUP */
    redis_span group;
    redis_span consumer;
} redis_group_place;

/* The options of XADD, from the arguments after the key on: the id is after them. */
uint32_t redis_read_add(const uint8_t *bytes, size_t len, const redis_span *arguments, size_t argument_count,
                        redis_add_settings *settings, size_t *count);

/* The options of XTRIM, from the arguments after the key on. */
uint32_t redis_read_trim(const uint8_t *bytes, size_t len, const redis_span *arguments, size_t argument_count,
                         redis_trim_settings *settings, size_t *count);

/* The options of XCLAIM, from the arguments after the ids on. */
uint32_t redis_read_claim(const uint8_t *bytes, size_t len, const redis_span *arguments, size_t argument_count,
                          redis_claim_settings *settings, size_t *count);

/* The options of XAUTOCLAIM, from the arguments after the start on. */
uint32_t redis_read_autoclaim(const uint8_t *bytes, size_t len, const redis_span *arguments, size_t argument_count,
                              redis_autoclaim_settings *settings, size_t *count);

/* The options of XREAD and XREADGROUP, from the arguments after the name of the command on: STREAMS is after
   them. */
uint32_t redis_read_read(const uint8_t *bytes, size_t len, const redis_span *arguments, size_t argument_count,
                         redis_read_settings *settings, redis_group_place *group, size_t *count);

/* ---- Redis Cluster

   A stream is one key, so one node serves it. Records that are written to several keys, the partitions of a stream,
   are spread over the nodes. Keys and names are any bytes. */

/* Returns the slot of a key, from 0 to 16,383: CRC-16/XMODEM of its hash tag, or of the whole key if it has none,
   modulo 16,384. The hash tag is between the first `{` and the first `}` after it, if there is a byte between them.
   It is the one call that returns none of the numbers above: it cannot fail. It takes no memory. */
uint32_t redis_key_slot(const uint8_t *key, size_t key_len);

/* Tells the partition of a record, if there are `number` of them: CRC-16/XMODEM of the whole key of the record, braces
   and all, modulo `number`. Records of one key stay in one partition as long as `number` stays.

   REDIS_OK: `number` is from 1 to 65,535, and `*partition` is from 0 to `number` - 1.
   REDIS_NO_PARTITION: `number` is another one, and `*partition` is 0.
   It takes no memory, and returns no other number. */
uint32_t redis_partition_of(const uint8_t *record_key, size_t record_key_len, size_t number, size_t *partition);

/* Writes the name of a partition of a stream, which is its key: the name, `:{`, the number in decimal, `}`, as in
   orders:{3}. The number is the hash tag, if the name has no `{`.

   REDIS_OK: `out` begins with the name of the partition, of `*len` bytes.
   REDIS_ROOM: it has `*len` bytes, for which `room` is too little.
   REDIS_NO_PARTITION: `partition` is above 65,535, and `*len` is 0. It is returned for each such number.
   The call asks for no memory. */
uint32_t redis_partition_name(const uint8_t *name, size_t name_len, size_t partition, uint8_t *out, size_t room,
                              size_t *len);

#ifdef __cplusplus
}
#endif

#endif
