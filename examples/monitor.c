/* Asks a server for the groups of a stream, and shows on standard error how far each is. Standard output and input are
   the connection: exec 3<>/dev/tcp/localhost/6379; ./monitor orders >&3 <&3

   usage: monitor KEY */
#include "redis_streams.h"

#include <stdio.h>
#include <string.h>
#include <unistd.h>

static uint8_t bytes[1 << 16], texts[1 << 16];
static redis_group_info groups[256];

int main(int count, char **words) {
    size_t held = 0, len;
    if (count != 2 || redis_xinfo_groups((uint8_t *)words[1], strlen(words[1]), bytes, sizeof bytes, &len) != REDIS_OK)
        return 2;
    if (write(1, bytes, len) != (ssize_t)len) return 2;
    redis_records_found found;
    uint32_t told = REDIS_INCOMPLETE;
    for (ssize_t got; told == REDIS_INCOMPLETE && (got = read(0, bytes + held, sizeof bytes - held)) > 0; held += got)
        told = redis_xinfo_groups_reply(bytes, held + got, groups, 256, texts, sizeof texts, &found);
    if (told == REDIS_SERVER_ERROR) fprintf(stderr, "%.*s\n", (int)found.error.len, (char *)bytes + found.error.start);
    if (told != REDIS_OK) return 1;
    for (redis_group_info *it = groups; it < groups + found.records; it++) {
        fprintf(stderr, "%.*s: %zu consumers, %zu pending, ", (int)it->name.len, (char *)texts + it->name.start,
                it->consumers, it->pending);
        fprintf(stderr, it->has_lag ? "%zu to read\n" : "unknown to read\n", it->lag);
    }
    return 0;
}
