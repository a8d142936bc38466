/*
 * Loaded before a program (LD_PRELOAD), refuses one of the program's requests for memory.
 *
 * REFUSED_REQUEST   which request is refused, counted from 1; 0 for none
 * REFUSED_FOLLOW    where it is set, each request after that one is also refused
 * REFUSED_TELLS     a file descriptor on which a byte for each refused request is written
 * REFUSED_CALL      where it is set, only the requests of the call of this number are counted, between its lines "call
 *                   begins" and "call ends" on standard error; else all from the program's start on
 *
 * The program's threads are made by requests of the C library, which count too.
 */
#define _GNU_SOURCE
#include <errno.h>
#include <stdatomic.h>
#include <stdlib.h>
#include <string.h>
#include <sys/syscall.h>
#include <unistd.h>

/* glibc's own, under the names that it keeps for libraries like this one. */
extern void *__libc_malloc(size_t size);
extern void *__libc_calloc(size_t count, size_t size);
extern void *__libc_realloc(void *block, size_t size);
extern void *__libc_memalign(size_t alignment, size_t size);

static const char BEGINS[] = "call begins\n";
static const char ENDS[] = "call ends\n";

static long refused;
static int follow;
static int teller;
static long call;
static long calls;
static atomic_long requests;
static atomic_bool counts;

static long number_of(const char *name) {
    const char *value = getenv(name);
    return value ? strtol(value, NULL, 10) : 0;
}

__attribute__((constructor)) static void start(void) {
    refused = number_of("REFUSED_REQUEST");
    follow = getenv("REFUSED_FOLLOW") != NULL;
    teller = (int)number_of("REFUSED_TELLS");
    call = number_of("REFUSED_CALL");
    counts = call == 0;
}

/* Whether this request is a refused one. Each has a number of its own, whatever threads do. */
static int is_refused(void) {
    if (!counts)
        return 0;
    long number = atomic_fetch_add(&requests, 1) + 1;
    if (refused == 0 || number < refused || (number > refused && !follow))
        return 0;
    syscall(SYS_write, teller, "!", 1);
    errno = ENOMEM;
    return 1;
}

void *malloc(size_t size) {
    return is_refused() ? NULL : __libc_malloc(size);
}

void *calloc(size_t count, size_t size) {
    return is_refused() ? NULL : __libc_calloc(count, size);
}

void *realloc(void *block, size_t size) {
    return is_refused() ? NULL : __libc_realloc(block, size);
}

void *aligned_alloc(size_t alignment, size_t size) {
    return is_refused() ? NULL : __libc_memalign(alignment, size);
}

int posix_memalign(void **block, size_t alignment, size_t size) {
    void *taken = is_refused() ? NULL : __libc_memalign(alignment, size);
    if (taken == NULL)
        return ENOMEM;
    *block = taken;
    return 0;
}

static int is_line(const char *line, const void *bytes, size_t count) {
    return count == strlen(line) && memcmp(line, bytes, count) == 0;
}

/* Passes all on, and takes note of the lines round a call. */
ssize_t write(int file, const void *bytes, size_t count) {
    if (call != 0 && file == STDERR_FILENO && is_line(ENDS, bytes, count))
        counts = 0;
    ssize_t written = syscall(SYS_write, file, bytes, count);
    if (call != 0 && file == STDERR_FILENO && is_line(BEGINS, bytes, count))
        counts = ++calls == call;
    return written;
}
