/* Tells the slots of keys and the partitions of records, as the rows of crates/test_cases have them.

   usage: cluster <ROWS      a row is KIND, a tab and its input, which is up to the next tab or the end. It is printed
                             with its outcome after a tab. Rows of other kinds are left out.

     slot             KEY
     slot-of-hex      KEY, in hex digits
     partition        NUMBER KEY
     partition-of-hex NUMBER KEY, in hex digits
     partition-name   PARTITION NAME */
#include "redis_streams.h"

#include <stdio.h>
#include <stdlib.h>
#include <string.h>

enum { ROOM = 256 };

static uint8_t out[ROOM];

static void expect(uint32_t told, uint32_t wanted) {
    if (told == wanted) return;
    fprintf(stderr, "cluster: told %u in place of %u\n", told, wanted);
    exit(1);
}

/* Writes the bytes over their hex digits, and returns how many there are. */
static size_t read_hex(char *digits, size_t len) {
    for (size_t i = 0; i < len / 2; i++) {
        char digit[] = {digits[2 * i], digits[2 * i + 1], 0};
        digits[i] = (char)strtoul(digit, NULL, 16);
    }
    return len / 2;
}

static void show_partition(const uint8_t *key, size_t len, size_t number) {
    size_t partition;
    uint32_t told = redis_partition_of(key, len, number, &partition);
    if (told == REDIS_NO_PARTITION) {
        printf("no partitions\n");
        return;
    }
    expect(told, REDIS_OK);
    printf("%zu\n", partition);
}

static void show_name(const uint8_t *name, size_t len, size_t partition) {
    size_t wanted;
    expect(redis_partition_name(name, len, partition, out, ROOM, &wanted), REDIS_OK);
    fwrite(out, 1, wanted, stdout);
    printf(" slot %u\n", redis_key_slot(out, wanted));
}

/* Shows a row with its outcome. */
static void show(const char *kind, char *input) {
    bool in_hex = strstr(kind, "hex") != NULL, is_slot = strncmp(kind, "slot", 4) == 0;
    printf("%s\t%s\t", kind, input);
    char *text = input;
    size_t number = is_slot ? 0 : strtoul(input, &text, 10);
    if (!is_slot) text++;
    size_t len = in_hex ? read_hex(text, strlen(text)) : strlen(text);
    if (is_slot) {
        printf("%u\n", redis_key_slot((uint8_t *)text, len));
    } else if (strcmp(kind, "partition-name") == 0) {
        show_name((uint8_t *)text, len, number);
    } else {
        show_partition((uint8_t *)text, len, number);
    }
}

static bool is_kind(const char *kind) {
    const char *kinds[] = {"slot", "slot-of-hex", "partition", "partition-of-hex", "partition-name"};
    for (size_t i = 0; i < sizeof kinds / sizeof *kinds; i++) {
        if (strcmp(kind, kinds[i]) == 0) return true;
    }
    return false;
}

/* The name orders:{3} has 10 bytes, and wants a buffer of 10. Of numbers those up to 65,535 are told, but 0. */
static void ask_for_limits(void) {
    const uint8_t *name = (const uint8_t *)"orders";
    size_t told;
    expect(redis_partition_name(name, 6, 3, out, 9, &told), REDIS_ROOM);
    expect(told, 10);
    expect(redis_partition_name(name, 6, 3, out, told, &told), REDIS_OK);
    expect(redis_partition_name(name, 6, 65535, out, ROOM, &told), REDIS_OK);
    expect(redis_partition_name(name, 6, 65536, out, ROOM, &told), REDIS_NO_PARTITION);
    expect(told, 0);
    expect(redis_partition_of(name, 6, 65535, &told), REDIS_OK);
    expect(redis_partition_of(name, 6, 65536, &told), REDIS_NO_PARTITION);
    expect(told, 0);
    expect(redis_partition_of(name, 6, 0, &told), REDIS_NO_PARTITION);
}

int main(void) {
    char *row = NULL;
    size_t room = 0;
    ask_for_limits();
    while (getline(&row, &room, stdin) > 0) {
        row[strcspn(row, "\n")] = 0;
        char *input = strchr(row, '\t');
        if (input == NULL) continue;
        *input++ = 0;
        input[strcspn(input, "\t")] = 0;
        if (is_kind(row)) show(row, input);
    }
    free(row);
    return 0;
}
