/* A consumer of a group: reads entries, prints them, and acknowledges them once they are printed.

   usage: consumer KEY GROUP NAME HOST PORT    over a live server, until nothing is left to read
          consumer KEY GROUP NAME              over a stored connection: the replies come on standard input, and
                                               what would be sent goes to standard error

   Entries go to standard output, one a line: the id, then each field as name=value. */
#include "redis_streams.h"

#include <netdb.h>
#include <stdio.h>
#include <stdlib.h>
#include <string.h>
#include <sys/socket.h>
#include <unistd.h>

static const uint8_t *text(const char *word) { return (const uint8_t *)word; }

static void fail(const char *why) {
    fprintf(stderr, "consumer: %s\n", why);
    exit(1);
}

/* What was received, and where its entries stand. The tables grow to what a reply wants. */
typedef struct {
    int from, to;
    uint8_t *bytes;
    size_t held, room;
    redis_stream *streams;
    redis_entry *entries;
    redis_field *fields;
    redis_found room_of;
} connection;

static void *table(void *old, size_t count, size_t size) {
    free(old);
    void *made = calloc(count == 0 ? 1 : count, size);
    if (made == NULL) fail("out of memory");
    return made;
}

static void send_all(connection *c, const uint8_t *bytes, size_t len) {
    while (len > 0) {
        ssize_t written = write(c->to, bytes, len);
        if (written <= 0) fail("the connection takes nothing");
        bytes += written;
        len -= written;
    }
}

/* Receives some bytes more; false at the end. */
static bool receive(connection *c) {
    if (c->held == c->room) {
        c->room = c->room * 2 + 4096;
        c->bytes = realloc(c->bytes, c->room);
        if (c->bytes == NULL) fail("out of memory");
    }
    ssize_t got = read(c->from, c->bytes + c->held, c->room - c->held);
    if (got < 0) fail("the connection gives nothing");
    c->held += got;
    return got > 0;
}

/* Finds where the streams stand of the next reply; false where the connection ends. */
static bool next_streams(connection *c, redis_found *found) {
    for (;;) {
        uint32_t told =
            redis_find_streams(c->bytes, c->held, c->streams, c->room_of.streams, c->entries, c->room_of.entries,
                               c->fields, c->room_of.fields, found);
        switch (told) {
        case REDIS_OK:
            return true;
        case REDIS_ROOM:
            c->room_of = *found;
            c->streams = table(c->streams, found->streams, sizeof *c->streams);
            c->entries = table(c->entries, found->entries, sizeof *c->entries);
            c->fields = table(c->fields, found->fields, sizeof *c->fields);
            break;
        case REDIS_INCOMPLETE:
            if (!receive(c)) {
                if (c->held > 0) fail("the connection ends within a reply");
                return false;
            }
            break;
        case REDIS_SERVER_ERROR:
            fprintf(stderr, "consumer: the server: %.*s\n", (int)found->error.len, c->bytes + found->error.start);
            exit(1);
        case REDIS_OTHER: /* an answer of XACK */
            found->streams = 0;
            return true;
        default:
            fprintf(stderr, "consumer: told %u\n", told);
            exit(1);
        }
    }
}

static void take_off(connection *c, size_t len) {
    memmove(c->bytes, c->bytes + len, c->held - len);
    c->held -= len;
}

static void print_span(const connection *c, redis_span span) { fwrite(c->bytes + span.start, 1, span.len, stdout); }

static void print_entry(const connection *c, const redis_entry *entry) {
    print_span(c, entry->id);
    for (size_t i = entry->from; i < entry->to; i++) {
        putchar(' ');
        print_span(c, c->fields[i].name);
        putchar('=');
        print_span(c, c->fields[i].value);
    }
    puts(entry->deleted ? " deleted" : "");
}

/* Acknowledges so many entries by one command, once all that was printed has left this program. */
static void acknowledge(connection *c, const char *key, const char *group, size_t entries) {
    if (fflush(stdout) != 0) fail("the output takes nothing");
    uint8_t *out = NULL;
    size_t room, len = 4096;
    uint32_t told;
    do {
        room = len;
        out = table(out, room, 1);
        told = redis_xack_entries(text(key), strlen(key), text(group), strlen(group), c->bytes, c->held, c->entries,
                                  entries, out, room, &len);
    } while (told == REDIS_ROOM);
    if (told != REDIS_OK) fail("no command");
    send_all(c, out, len);
    free(out);
}

static void ask(connection *c, const char *key, const char *group, const char *name) {
    redis_read_settings settings = {.has_count = true, .count = 100};
    uint8_t out[4096];
    size_t len;
    if (redis_xreadgroup(&settings, text(group), strlen(group), text(name), strlen(name), text(key), strlen(key),
                         text(">"), 1, out, sizeof out, &len) != REDIS_OK)
        fail("no room for a command");
    send_all(c, out, len);
}

static int connected(const char *host, const char *port) {
    struct addrinfo wanted = {.ai_socktype = SOCK_STREAM}, *first;
    if (getaddrinfo(host, port, &wanted, &first) != 0) fail("no such host");
    int end = socket(first->ai_family, first->ai_socktype, first->ai_protocol);
    if (end < 0 || connect(end, first->ai_addr, first->ai_addrlen) != 0) fail("no connection");
    freeaddrinfo(first);
    return end;
}

int main(int count, char **words) {
    if (count != 4 && count != 6) fail("wanted: KEY GROUP NAME [HOST PORT]");
    bool live = count == 6;
    int end = live ? connected(words[4], words[5]) : -1;
    connection c = {.from = live ? end : 0, .to = live ? end : 2};
    c.streams = table(NULL, 0, sizeof *c.streams);
    c.entries = table(NULL, 0, sizeof *c.entries);
    c.fields = table(NULL, 0, sizeof *c.fields);
    c.bytes = malloc(c.room = 4096);
    if (c.bytes == NULL) fail("out of memory");
    bool acknowledging = false; /* the answer of XACK is still to come */
    for (;;) {
        redis_found found;
        if (!acknowledging) ask(&c, words[1], words[2], words[3]);
        if (!next_streams(&c, &found)) return 0;
        if (acknowledging) {
            acknowledging = false;
        } else {
            if (live && found.entries == 0) return 0;
            for (size_t i = 0; i < found.entries; i++) print_entry(&c, &c.entries[i]);
            if (found.entries > 0) acknowledge(&c, words[1], words[2], found.entries);
            acknowledging = found.entries > 0;
        }
        take_off(&c, found.len);
    }
}
