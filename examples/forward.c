/* Passes entries on: from the reply of one XREADGROUP on standard input to the commands, on standard output, that
   claim its entries again, so that nobody takes them over meanwhile, add each to another stream and acknowledge all.
   Ids and fields are taken from where they stand in the reply.

   usage: forward KEY GROUP NAME OTHER <REPLY */
#include "redis_streams.h"

#include <stdio.h>
#include <stdlib.h>
#include <string.h>

enum { ROOM = 65536, PLACES = 1000 };

static const uint8_t *text(const char *word) { return (const uint8_t *)word; }

static void expect(uint32_t told, uint32_t wanted) {
    if (told == wanted) return;
    fprintf(stderr, "forward: told %u\n", told);
    exit(1);
}

static void put(uint32_t told, const uint8_t *out, size_t len) {
    expect(told, REDIS_OK);
    fwrite(out, 1, len, stdout);
}

int main(int count, char **words) {
    static uint8_t bytes[ROOM], out[ROOM];
    static redis_stream streams[PLACES];
    static redis_entry entries[PLACES];
    static redis_field fields[PLACES];
    if (count != 5) return 2;
    const uint8_t *key = text(words[1]), *group = text(words[2]), *name = text(words[3]), *other = text(words[4]);
    size_t key_len = strlen(words[1]), group_len = strlen(words[2]), name_len = strlen(words[3]), len;
    size_t held = fread(bytes, 1, ROOM, stdin);
    redis_found found;
    expect(redis_find_streams(bytes, held, streams, PLACES, entries, PLACES, fields, PLACES, &found), REDIS_OK);

    uint32_t told = redis_xclaim_entries(key, key_len, group, group_len, name, name_len, 0, bytes, held, entries,
                                         found.entries, out, ROOM, &len);
    put(told, out, len);
    for (size_t i = 0; i < found.entries; i++) {
        const redis_entry *entry = &entries[i];
        told = redis_xadd_fields(other, strlen(words[4]), text("*"), 1, bytes, held, fields + entry->from,
                                 entry->to - entry->from, out, ROOM, &len);
        if (told != REDIS_NOTHING) put(told, out, len); /* an entry without fields cannot be added */
    }
    told = redis_xack_entries(key, key_len, group, group_len, bytes, held, entries, found.entries, out, ROOM, &len);
    put(told, out, len);

    /* What cannot be done is told by name: no entry, too little room, places past the end of the bytes. */
    expect(redis_xack_entries(key, key_len, group, group_len, bytes, held, entries, 0, out, ROOM, &len), REDIS_NOTHING);
    expect(redis_xack_entries(key, key_len, group, group_len, bytes, held, entries, found.entries, out, 1, &len),
           REDIS_ROOM);
    expect(redis_xack_entries(key, key_len, group, group_len, bytes, 1, entries, found.entries, out, ROOM, &len),
           REDIS_OUTSIDE);
    return 0;
}
