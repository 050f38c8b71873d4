/* Finds the streams of the replies of a file, PASSES times, in tables that are made once.

   usage: entries_bench FILE PASSES */
#include "redis_streams.h"

#include <stdio.h>
#include <stdlib.h>

int main(int count, char **words) {
    FILE *file = count == 3 ? fopen(words[1], "rb") : NULL;
    if (file == NULL || fseek(file, 0, SEEK_END) != 0) return 1;
    size_t size = ftell(file);
    rewind(file);
    uint8_t *bytes = malloc(size);
    if (bytes == NULL || fread(bytes, 1, size, file) != size) return 1;
    /* No field has fewer than 12 bytes, no entry fewer than 13, no stream fewer than 10. */
    size_t stream_room = size / 10 + 1, entry_room = size / 13 + 1, field_room = size / 12 + 1;
    redis_stream *streams = calloc(stream_room, sizeof *streams);
    redis_entry *entries = calloc(entry_room, sizeof *entries);
    redis_field *fields = calloc(field_room, sizeof *fields);
    if (streams == NULL || entries == NULL || fields == NULL) return 1;
    size_t found_entries = 0;
    for (int pass = 0; pass < atoi(words[2]); pass++) {
        redis_found found;
        for (size_t at = 0; at < size; at += found.len) {
            if (redis_find_streams(bytes + at, size - at, streams, stream_room, entries, entry_room, fields, field_room,
                                   &found) != REDIS_OK)
                return 1;
            found_entries += found.entries;
        }
    }
    printf("%zu entries\n", found_entries);
    return 0;
}
