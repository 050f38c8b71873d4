/* Writes commands with their options to standard output, and reads options back from arguments, as a server does.
   Texts stand in one array of bytes, and settings say where.

   usage: options */
#include "redis_streams.h"

#include <stdio.h>
#include <stdlib.h>
#include <string.h>

enum { ROOM = 4096, WORDS = 32 };

static uint8_t bytes[ROOM], out[ROOM];
static size_t held, len;

static const uint8_t *text(const char *word) { return (const uint8_t *)word; }

/* Puts a word behind the bytes, and says where it stands. */
static redis_span place(const char *word) {
    redis_span span = {held, strlen(word)};
    memcpy(bytes + held, word, span.len);
    held += span.len;
    return span;
}

static void expect(uint32_t told, uint32_t wanted) {
    if (told == wanted) return;
    fprintf(stderr, "options: told %u in place of %u\n", told, wanted);
    exit(1);
}

/* Puts out the command that a call wrote. */
static void put(uint32_t told) {
    expect(told, REDIS_OK);
    fwrite(out, 1, len, stdout);
}

static void write_commands(void) {
    redis_field field = {place("item"), place("tea")};
    redis_add_settings add = {
        .nomkstream = true,
        .idempotency = REDIS_IDMP,
        .producer = place("shop"),
        .idempotent_id = place("o-17"),
        .trim = {.bound = REDIS_MAXLEN, .policy = REDIS_ACKED, .approximate = true, .has_limit = true, .maxlen = 1000,
                 .limit = 50},
    };
    put(redis_xadd_options(text("orders"), 6, text("*"), 1, &add, bytes, held, &field, 1, out, ROOM, &len));

    redis_trim_settings trim = {.bound = REDIS_MINID, .policy = REDIS_DELREF, .minid = place("5-0")};
    put(redis_xtrim_options(text("orders"), 6, &trim, bytes, held, out, ROOM, &len));

    redis_autoclaim_settings idle = {.has_count = true, .justid = true, .count = 10};
    put(redis_xautoclaim_options(text("orders"), 6, text("g1"), 2, text("ann"), 3, 60000, text("0-0"), 3, &idle, out,
                                 ROOM, &len));

    redis_entry entry = {.id = place("1-0")};
    redis_claim_settings claim = {.has_idle = true, .has_retry = true, .force = true, .has_lastid = true, .idle = 7, .retry = 3,
                                  .lastid = place("9-0")};
    put(redis_xclaim_options(text("orders"), 6, text("g1"), 2, text("ann"), 3, 0, &claim, bytes, held, &entry, 1, out,
                             ROOM, &len));

    redis_field streams[] = {{place("orders"), place("1-1")}, {place("returns"), place("0-0")}};
    redis_read_settings read = {.has_count = true, .has_block = true, .noack = true, .count = 2, .block = 0};
    put(redis_xread_streams(&read, bytes, held, streams, 2, out, ROOM, &len));
    put(redis_xreadgroup_streams(&read, text("g1"), 2, text("ann"), 3, bytes, held, streams, 2, out, ROOM, &len));

    redis_pending_settings pending = {.has_idle = true, .has_consumer = true, .idle = 500};
    put(redis_xpending_options(text("orders"), 6, text("g1"), 2, &pending, text("-"), 1, text("+"), 1, 10, text("ann"),
                               3, out, ROOM, &len));

    /* What settings cannot mean is told by name: no such bound, a text past the end, a text that is not UTF-8. */
    trim.bound = 3;
    expect(redis_xtrim_options(text("orders"), 6, &trim, bytes, held, out, ROOM, &len), REDIS_SETTINGS);
    trim.bound = REDIS_MINID;
    expect(redis_xtrim_options(text("orders"), 6, &trim, bytes, 1, out, ROOM, &len), REDIS_SETTINGS);
    trim.minid = place("\xff");
    expect(redis_xtrim_options(text("orders"), 6, &trim, bytes, held, out, ROOM, &len), REDIS_SETTINGS);
}

/* Where the words stand. */
static size_t split(const char *line, redis_span *spans) {
    static char words[ROOM];
    size_t count = 0;
    strcpy(words, line);
    for (char *word = strtok(words, " "); word; word = strtok(NULL, " ")) spans[count++] = place(word);
    return count;
}

/* Reads the options back, writes them again, and puts them beside what stands behind them. */
static void read_options(void) {
    redis_span spans[WORDS];
    size_t count, words;
    redis_add_settings add = {0};
    redis_field field = {place("item"), place("tea")};
    words = split("NOMKSTREAM KEEPREF IDMPAUTO MAXLEN MINID ~ 5-0 LIMIT 9 * item tea", spans);
    expect(redis_read_add(bytes, held, spans, words, &add, &count), REDIS_OK);
    printf("add %zu of %zu: ", count, words);
    put(redis_xadd_options(text("k"), 1, bytes + spans[count].start, spans[count].len, &add, bytes, held, &field, 1,
                           out, ROOM, &len));

    redis_trim_settings trim = {0};
    words = split("MAXLEN = 12 ACKED", spans);
    expect(redis_read_trim(bytes, held, spans, words, &trim, &count), REDIS_OK);
    printf("trim %zu of %zu: ", count, words);
    put(redis_xtrim_options(text("k"), 1, &trim, bytes, held, out, ROOM, &len));

    redis_claim_settings claim = {0};
    redis_entry entry = {.id = place("1-0")};
    words = split("IDLE 5 TIME 6 RETRYCOUNT 7 FORCE JUSTID LASTID 3-1", spans);
    expect(redis_read_claim(bytes, held, spans, words, &claim, &count), REDIS_OK);
    printf("claim %zu of %zu: ", count, words);
    put(redis_xclaim_options(text("k"), 1, text("g"), 1, text("c"), 1, 0, &claim, bytes, held, &entry, 1, out, ROOM,
                             &len));

    redis_autoclaim_settings idle = {0};
    words = split("COUNT 18446744073709551615 JUSTID", spans);
    expect(redis_read_autoclaim(bytes, held, spans, words, &idle, &count), REDIS_OK);
    printf("autoclaim %zu of %zu: %d %zu %d\n", count, words, idle.has_count, idle.count, idle.justid);

    redis_read_settings read = {0};
    redis_group_place group = {0};
    words = split("GROUP g1 GROUP BLOCK 0 COUNT 3 NOACK CLAIM 4 STREAMS k 0-0", spans);
    expect(redis_read_read(bytes, held, spans, words, &read, &group, &count), REDIS_OK);
    printf("read %zu of %zu: ", count, words);
    redis_field stream = {spans[count + 1], spans[count + 2]};
    put(redis_xreadgroup_streams(&read, bytes + group.group.start, group.group.len, bytes + group.consumer.start,
                                 group.consumer.len, bytes, held, &stream, 1, out, ROOM, &len));

    /* A word of the options where none may stand, a number that is none, and a place past the end. */
    words = split("COUNT 1 JUSTID COUNT 2", spans);
    expect(redis_read_autoclaim(bytes, held, spans, words, &idle, &count), REDIS_NO_OPTIONS);
    words = split("MAXLEN ~ 007", spans);
    expect(redis_read_trim(bytes, held, spans, words, &trim, &count), REDIS_NO_OPTIONS);
    expect(redis_read_trim(bytes, held - 1, spans, words, &trim, &count), REDIS_OUTSIDE);
    words = split("STREAMS k 0-0", spans);
    expect(redis_read_read(bytes, held, spans, words, &read, &group, &count), REDIS_OK);
    printf("read %zu of %zu: %d\n", count, words, group.has_group);
}

int main(void) {
    write_commands();
    read_options();
    return 0;
}
