/* Writes commands on ranges, groups and what a server tells of a stream to standard output.

   usage: commands */
#include "redis_streams.h"

#include <stdio.h>
#include <stdlib.h>
#include <string.h>

enum { ROOM = 256 };

/* A word as the two arguments that each call wants of it. */
#define TEXT(word) (const uint8_t *)(word), strlen(word)

static uint8_t out[ROOM];
static size_t len;

static void expect(uint32_t told, uint32_t wanted) {
    if (told == wanted) return;
    fprintf(stderr, "commands: told %u in place of %u\n", told, wanted);
    exit(1);
}

/* Puts out the command that a call wrote. */
static void put(uint32_t told) {
    expect(told, REDIS_OK);
    fwrite(out, 1, len, stdout);
}

static void write_ranges(void) {
    put(redis_xlen(TEXT("orders"), out, ROOM, &len));
    put(redis_xrange(TEXT("orders"), TEXT("-"), TEXT("+"), out, ROOM, &len));
    put(redis_xrange_count(TEXT("orders"), TEXT("1-0"), TEXT("+"), 10, out, ROOM, &len));
    put(redis_xrevrange(TEXT("orders"), TEXT("+"), TEXT("-"), out, ROOM, &len));
    put(redis_xrevrange_count(TEXT("orders"), TEXT("+"), TEXT("1-0"), 1, out, ROOM, &len));
    put(redis_xdel(TEXT("orders"), TEXT("1-0"), out, ROOM, &len));
    redis_entry entries[] = {{.id = {0, 3}}, {.id = {3, 3}}};
    put(redis_xdel_entries(TEXT("orders"), TEXT("2-03-0"), entries, 2, out, ROOM, &len));
}

static void write_groups(void) {
    put(redis_xgroup_create(TEXT("orders"), TEXT("g1"), TEXT("$"), true, out, ROOM, &len));
    put(redis_xgroup_create(TEXT("orders"), TEXT("g2"), TEXT("0-0"), false, out, ROOM, &len));
    put(redis_xgroup_setid(TEXT("orders"), TEXT("g1"), TEXT("5-0"), out, ROOM, &len));
    put(redis_xgroup_destroy(TEXT("orders"), TEXT("g2"), out, ROOM, &len));
}

static void write_questions(void) {
    put(redis_xinfo_stream(TEXT("orders"), out, ROOM, &len));
    put(redis_xinfo_groups(TEXT("orders"), out, ROOM, &len));
    put(redis_xinfo_consumers(TEXT("orders"), TEXT("g1"), out, ROOM, &len));
    put(redis_xpending_summary(TEXT("orders"), TEXT("g1"), out, ROOM, &len));
}

/* A command of 26 bytes wants a buffer of 26 bytes, and XDEL wants an id within the bytes. */
static void ask_for_room(void) {
    expect(redis_xlen(TEXT("orders"), out, 25, &len), REDIS_ROOM);
    expect(len, 26);
    expect(redis_xlen(TEXT("orders"), out, len, &len), REDIS_OK);
    redis_entry entry = {.id = {4, 3}};
    expect(redis_xdel_entries(TEXT("orders"), TEXT("2-03-0"), &entry, 0, out, ROOM, &len), REDIS_NOTHING);
    expect(redis_xdel_entries(TEXT("orders"), TEXT("2-03-0"), &entry, 1, out, ROOM, &len), REDIS_OUTSIDE);
    expect(len, 0);
}

int main(void) {
    write_ranges();
    write_groups();
    write_questions();
    ask_for_room();
    return 0;
}
