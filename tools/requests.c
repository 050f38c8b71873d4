/* Put before a program by LD_PRELOAD: counts its requests for memory, and goes on to the C library (glibc) with each.
   With COUNT_REQUESTS a line 'requests ALLOCATIONS REALLOCATIONS' comes to standard error at the end. The request whose
   number is in REFUSE_REQUEST, counted from 1, is refused; then the file is made that REFUSED_MARK names. */
#include <errno.h>
#include <fcntl.h>
#include <stddef.h>
#include <stdio.h>
#include <stdlib.h>
#include <unistd.h>

extern void *__libc_malloc(size_t size);
extern void *__libc_calloc(size_t count, size_t size);
extern void *__libc_realloc(void *old, size_t size);
extern void *__libc_memalign(size_t alignment, size_t size);

static unsigned long allocations, reallocations;

static int refused(unsigned long *count) {
    static unsigned long wanted;
    if (allocations + reallocations == 0) {
        const char *number = getenv("REFUSE_REQUEST");
        wanted = number == NULL ? 0 : strtoul(number, NULL, 10);
    }
    *count += 1;
    if (allocations + reallocations != wanted) return 0;
    const char *mark = getenv("REFUSED_MARK");
    int file = mark == NULL ? -1 : open(mark, O_CREAT | O_WRONLY, 0600);
    if (file >= 0) close(file);
    errno = ENOMEM;
    return 1;
}

void *malloc(size_t size) {
    return refused(&allocations) ? NULL : __libc_malloc(size);
}

void *calloc(size_t count, size_t size) {
    return refused(&allocations) ? NULL : __libc_calloc(count, size);
}

void *realloc(void *old, size_t size) {
    return refused(old == NULL ? &allocations : &reallocations) ? NULL : __libc_realloc(old, size);
}

void *aligned_alloc(size_t alignment, size_t size) {
    return refused(&allocations) ? NULL : __libc_memalign(alignment, size);
}

int posix_memalign(void **place, size_t alignment, size_t size) {
    int before = errno;
    void *memory = aligned_alloc(alignment, size);
    errno = before;
    if (memory != NULL) *place = memory;
    return memory == NULL ? ENOMEM : 0;
}

__attribute__((destructor)) static void say(void) {
    char line[80];
    int length = snprintf(line, sizeof line, "requests %lu %lu\n", allocations, reallocations);
    if (getenv("COUNT_REQUESTS") != NULL && write(STDERR_FILENO, line, (size_t)length) != length) _exit(3);
}
