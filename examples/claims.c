/* Shows what the reply of one XAUTOCLAIM on standard input says: the entries that were claimed, the ids that are no
   longer in the stream, and where the next XAUTOCLAIM goes on. With JUSTID as the word the reply has ids alone.

   usage: claims [JUSTID] <REPLY */
#include "redis_streams.h"

#include <stdio.h>
#include <stdlib.h>

enum { ROOM = 65536, PLACES = 1000 };

static uint8_t bytes[ROOM];

static void show(const char *before, redis_span span) {
    fputs(before, stdout);
    fwrite(bytes + span.start, 1, span.len, stdout);
}

int main(int count, char **words) {
    static redis_entry entries[PLACES];
    static redis_field fields[PLACES];
    (void)words;
    size_t held = fread(bytes, 1, ROOM, stdin);
    redis_claim claim;
    redis_found found;
    uint32_t told = count > 1 ? redis_find_justid(bytes, held, entries, PLACES, &claim, &found)
                              : redis_find_autoclaim(bytes, held, entries, PLACES, fields, PLACES, &claim, &found);
    if (told == REDIS_SERVER_ERROR) show("the server: ", found.error);
    if (told != REDIS_OK) {
        fprintf(stderr, "claims: told %u\n", told);
        return 1;
    }
    for (size_t i = 0; i < found.entries; i++) {
        const redis_entry *entry = &entries[i];
        show(i < claim.claimed ? "claimed " : "gone ", entry->id);
        for (size_t f = entry->from; f < entry->to && i < claim.claimed; f++) {
            show(" ", fields[f].name);
            show("=", fields[f].value);
        }
        fputs("\n", stdout);
    }
    show("next ", claim.next);
    fputs("\n", stdout);
    return 0;
}
