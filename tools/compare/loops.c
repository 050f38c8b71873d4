/* Loops in C as one writes them by hand, beside which 'compare-speed' and 'cluster-live --speed' run the programs.

   usage: loops drain PORT KEY GROUP FILE   reads a hundred entries, writes their lines, syncs, acknowledges them
          loops look PORT KEY GROUP         looks at the fields of a hundred entries, acknowledges them
          loops fill PORT KEY FILE BATCH    adds each line, with an id of its own, in batches of MULTI, XADD, EXEC
          loops read FILE PASSES            reads the replies of a file so often, and frees each
          loops handle                      a handler of 'jagyerti run', which looks at the line of each job
          loops turns COUNT                 writes the line of a job and waits for its reply, so often

   drain and look end if nothing comes for 100 milliseconds. fill looks at no reply but for errors. */
#include <fcntl.h>
#include <hiredis/hiredis.h>
#include <stdio.h>
#include <stdlib.h>
#include <string.h>
#include <unistd.h>

static redisContext *server;
static char *lines, text[1 << 16];
static size_t used, room;

static void check(int is_well, const char *what) {
    if (!is_well) {
        fprintf(stderr, "loops: %s\n", what);
        exit(1);
    }
}

static void put(const char *bytes, size_t length) {
    if (used + 2 * length + 1 > room) lines = realloc(lines, room = 2 * (used + 2 * length + 1));
    for (size_t i = 0; i < length; i++) {
        const char *plain = "\\\t\n\r", *letters = "\\tnr", *at = bytes[i] ? strchr(plain, bytes[i]) : NULL;
        if (at != NULL) lines[used++] = '\\';
        lines[used++] = at != NULL ? letters[at - plain] : bytes[i];
    }
}

static void put_entry(const redisReply *entry) {
    put(entry->element[0]->str, entry->element[0]->len);
    for (size_t i = 0; i < entry->element[1]->elements; i++) {
        lines[used++] = '\t';
        put(entry->element[1]->element[i]->str, entry->element[1]->element[i]->len);
    }
    put("", 0);
    lines[used++] = '\n';
}

static size_t look(const redisReply *fields) {
    size_t seen = 0;
    for (size_t f = 0; f < fields->elements; f += 2) seen += strcmp(fields->element[f]->str, "item") == 0;
    return seen;
}

/* Into a file, or into none. */
static void consume(const char *key, const char *group, int file) {
    size_t seen = 0, count = 0;
    for (;;) {
        redisReply *reply = redisCommand(server, "XREADGROUP GROUP %s c BLOCK 100 COUNT 100 STREAMS %s >", group, key);
        check(reply != NULL && reply->type != REDIS_REPLY_ERROR, "it cannot read");
        if (reply->type == REDIS_REPLY_NIL) break;
        redisReply *entries = reply->element[0]->element[1];
        const char *words[103] = {"XACK", key, group};
        used = 0;
        for (size_t i = 0; i < entries->elements; i++, count++) {
            if (file >= 0) put_entry(entries->element[i]);
            else seen += look(entries->element[i]->element[1]);
            words[3 + i] = entries->element[i]->element[0]->str;
        }
        check(file < 0 || (write(file, lines, used) == (ssize_t)used && fdatasync(file) == 0), "it cannot write");
        redisReply *done = redisCommandArgv(server, 3 + entries->elements, words, NULL);
        check(done != NULL && done->type == REDIS_REPLY_INTEGER, "it cannot acknowledge");
        freeReplyObject(done);
        freeReplyObject(reply);
    }
    check(file >= 0 || seen == count, "a job has no item");
}

static void take(long replies) {
    while (replies-- > 0) {
        redisReply *reply = NULL;
        check(redisGetReply(server, (void **)&reply) == REDIS_OK, server->errstr);
        check(reply->type != REDIS_REPLY_ERROR, reply->str);
        freeReplyObject(reply);
    }
}

static void fill(const char *key, FILE *file, long most) {
    long count = 0, in_batch = 0;
    char *line = NULL, id[32];
    size_t size = 0;
    for (ssize_t length; (length = getline(&line, &size, file)) > 0;) {
        if (in_batch++ == 0) redisAppendCommand(server, "MULTI");
        const char *words[] = {"XADD", key, id, "line", line};
        size_t sizes[] = {4, strlen(key), sprintf(id, "%ld-0", ++count), 4, length - 1};
        redisAppendCommandArgv(server, 5, words, sizes);
        if (in_batch == most) {
            redisAppendCommand(server, "EXEC");
            take(in_batch + 2);
            in_batch = 0;
        }
    }
    if (in_batch > 0) redisAppendCommand(server, "EXEC");
    take(in_batch > 0 ? in_batch + 2 : 0);
}

static void read_all(FILE *file, long passes) {
    size_t size = 0, length;
    for (; (length = fread(text, 1, sizeof text, file)) > 0; size += length) {
        lines = realloc(lines, size + length);
        memcpy(lines + size, text, length);
    }
    for (; passes > 0; passes--) {
        redisReader *reader = redisReaderCreate();
        void *reply;
        redisReaderFeed(reader, lines, size);
        while (redisReaderGetReply(reader, &reply) == REDIS_OK && reply != NULL) freeReplyObject(reply);
        redisReaderFree(reader);
    }
}

int main(int count, char **words) {
    const char *way = count > 1 ? words[1] : "";
    if (strcmp(way, "drain") == 0 || strcmp(way, "look") == 0 || strcmp(way, "fill") == 0) {
        server = redisConnect("127.0.0.1", atoi(words[2]));
        check(server != NULL && !server->err, "no server");
    }
    lines = malloc(room = sizeof text);
    if (strcmp(way, "drain") == 0 || strcmp(way, "look") == 0) {
        int file = way[0] == 'd' ? open(words[5], O_WRONLY | O_CREAT | O_APPEND, 0666) : -1;
        check(file >= 0 || way[0] == 'l', "no file");
        consume(words[3], words[4], file);
    } else if (strcmp(way, "fill") == 0) {
        fill(words[3], fopen(words[4], "rb"), atol(words[5]));
    } else if (strcmp(way, "read") == 0) {
        read_all(fopen(words[2], "rb"), atol(words[3]));
    } else if (strcmp(way, "handle") == 0) {
        while (fgets(text, sizeof text, stdin) != NULL) {
            puts(strstr(text, "item") != NULL ? "done" : "later");
            fflush(stdout);
        }
    } else if (strcmp(way, "turns") == 0) {
        for (long left = atol(words[2]); left > 0; left--) {
            puts("{\"id\":\"1764000000000-0\",\"fields\":[[\"n\",\"12345\"],[\"item\",\"tea\"]],\"stream\":\"jobs\"}");
            fflush(stdout);
            check(fgets(text, sizeof text, stdin) != NULL && strcmp(text, "done\n") == 0, "no reply");
        }
    } else {
        check(0, "usage: loops drain|look|fill|read|handle|turns ..");
    }
    return 0;
}
