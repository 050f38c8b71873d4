/* Shows any reply on standard input as a tree: a line for each value, indented by how deep it stands.

   usage: nodes <REPLY */
#include "redis_streams.h"

#include <stdio.h>

enum { ROOM = 65536, VALUES = ROOM / 3 };

static uint8_t bytes[ROOM];
static redis_node nodes[VALUES];

/* Shows the values from `from` up to but without `end`. */
static void show(size_t from, size_t end, int depth) {
    for (size_t i = from; i < end; i = nodes[i].end) {
        const redis_node *node = &nodes[i];
        printf("%*s%c", 2 * depth, "", node->kind);
        if (node->members > 0) printf(" %llu", (unsigned long long)node->members);
        if (node->text.len > 0) {
            fputs(" ", stdout);
            fwrite(bytes + node->text.start, 1, node->text.len, stdout);
        }
        fputs("\n", stdout);
        show(i + 1, node->end, depth + 1);
    }
}

int main(void) {
    size_t held = fread(bytes, 1, ROOM, stdin);
    size_t len, count;
    uint32_t told = redis_find_nodes(bytes, held, nodes, VALUES, &len, &count);
    if (told != REDIS_OK) {
        fprintf(stderr, "nodes: told %u\n", told);
        return 1;
    }
    show(0, count, 0);
    return 0;
}
