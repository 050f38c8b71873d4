/* Changes bytes of the replies of a file at random, COUNT times, and reads what comes of it by each call. It ends
   with 1 if a place is not within the bytes; for valgrind and sanitizers.

   usage: mutations FILE COUNT */
#include "redis_streams.h"

#include <stdio.h>
#include <stdlib.h>
#include <string.h>

enum { MOST = 65536, ROOM = 256 };

static uint64_t state = 1;

static uint64_t drawn(uint64_t below) {
    state ^= state << 13;
    state ^= state >> 7;
    state ^= state << 17;
    return state % below;
}

static void within(redis_span span, size_t len) {
    if (span.start > len || span.len > len - span.start) {
        fprintf(stderr, "mutations: a place is not within the bytes\n");
        exit(1);
    }
}

int main(int count, char **words) {
    static uint8_t stored[MOST];
    static redis_stream streams[ROOM];
    static redis_entry entries[ROOM];
    static redis_field fields[ROOM];
    static redis_node nodes[ROOM];
    FILE *file = count == 3 ? fopen(words[1], "rb") : NULL;
    size_t size = file == NULL ? 0 : fread(stored, 1, MOST, file);
    if (size == 0) return 2;
    long told[32] = {0};
    for (long round = 0; round < atol(words[2]); round++) {
        size_t len = drawn(4) == 0 ? drawn(size) + 1 : size; /* cut, one time in four */
        uint8_t *bytes = malloc(len); /* a block of its own, so that a byte behind it is seen */
        memcpy(bytes, stored, len);
        for (uint64_t changes = drawn(3); changes > 0; changes--)
            bytes[drawn(len)] = drawn(2) == 0 ? (uint8_t)drawn(256) : (uint8_t) "*$:-+%_\r\n0123456789"[drawn(19)];
        redis_found found;
        redis_claim claim;
        for (int call = 0; call < 4; call++) {
            uint32_t n = call == 0 ? redis_find_streams(bytes, len, streams, ROOM, entries, ROOM, fields, ROOM, &found)
                       : call == 1 ? redis_find_range(bytes, len, entries, ROOM, fields, ROOM, &found)
                       : call == 2 ? redis_find_autoclaim(bytes, len, entries, ROOM, fields, ROOM, &claim, &found)
                                   : redis_find_justid(bytes, len, entries, ROOM, &claim, &found);
            told[n < 32 ? n : 31]++;
            within(found.error, len);
            if (found.len > len) exit(1);
            if (n != REDIS_OK) continue;
            if (call >= 2) {
                within(claim.next, found.len);
                if (claim.claimed > found.entries || claim.len != found.len) exit(1);
            }
            for (size_t i = 0; i < found.streams; i++) within(streams[i].name, found.len);
            for (size_t i = 0; i < found.entries; i++) within(entries[i].id, found.len);
            for (size_t i = 0; i < found.fields; i++) {
                within(fields[i].name, found.len);
                within(fields[i].value, found.len);
            }
        }
        size_t reply_len, values;
        if (redis_find_nodes(bytes, len, nodes, ROOM, &reply_len, &values) == REDIS_OK) {
            if (reply_len > len || values > ROOM) exit(1);
            for (size_t i = 0; i < values; i++) {
                within(nodes[i].text, reply_len);
                if (nodes[i].end <= i || nodes[i].end > values) exit(1);
            }
        }
        free(bytes);
    }
    for (int n = 0; n < 32; n++)
        if (told[n] > 0) printf("told %d: %ld\n", n, told[n]);
    return 0;
}
