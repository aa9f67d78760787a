// Makes reads and writes of the program before which it is loaded (LD_PRELOAD) fail, or move only one byte. HOW says what they do, "failed" or "short",
// FIRST which call is the first, and LAST which one is the last. For each such call a letter goes to descriptor TOLD: r for a read, o or e for a write
// to standard output or standard error, f for one to a file. A call of at most one byte is not short, and is not counted there.
#define _GNU_SOURCE
#include <dlfcn.h>
#include <errno.h>
#include <stdatomic.h>
#include <stdlib.h>
#include <string.h>
#include <unistd.h>

typedef ssize_t (*Reads)(int, void *, size_t);
typedef ssize_t (*Writes)(int, const void *, size_t);

static atomic_long calls;
static long first_call, last_call;
static int told = -1, is_short;
static Reads reads;
static Writes writes;

__attribute__((constructor)) static void prepare(void) {
    reads = (Reads)dlsym(RTLD_NEXT, "read");
    writes = (Writes)dlsym(RTLD_NEXT, "write");
    const char *how = getenv("HOW"), *first = getenv("FIRST"), *last = getenv("LAST"), *descriptor = getenv("TOLD");
    if (!how || !first || !last || !descriptor) return;
    told = atoi(descriptor);
    is_short = strcmp(how, "short") == 0;
    first_call = atol(first);
    last_call = atol(last);
    calls = 0;
}

static int is_hit(char letter, size_t size) {
    if (told < 0 || (is_short && size <= 1)) return 0;
    long number = atomic_fetch_add(&calls, 1) + 1;
    if (number < first_call || number > last_call) return 0;
    if (writes(told, &letter, 1) < 0) abort();
    return 1;
}

static ssize_t failed(void) {
    errno = EIO;
    return -1;
}

ssize_t read(int file, void *bytes, size_t size) {
    if (!is_hit('r', size)) return reads(file, bytes, size);
    return is_short ? reads(file, bytes, 1) : failed();
}

ssize_t write(int file, const void *bytes, size_t size) {
    if (!is_hit(file == 1 ? 'o' : file == 2 ? 'e' : 'f', size)) return writes(file, bytes, size);
    return is_short ? writes(file, bytes, 1) : failed();
}
