/* A handler of jobs in C: cc -o pack pack.c; jagyerti run URL orders packers --from 0 -- ./pack packed.txt */
#include <stdio.h>
#include <string.h>

static char line[1 << 20];

int main(int count, char **words) {
    FILE *packed = count > 1 ? fopen(words[1], "a") : NULL;
    while (packed != NULL && fgets(line, sizeof line, stdin) != NULL) {
        int is_written = strstr(line, "\"item\"") != NULL && fputs(line, packed) >= 0 && fflush(packed) == 0;
        puts(is_written ? "done" : "later no item yet");
        fflush(stdout);
    }
    return packed == NULL || ferror(stdin);
}
