// Refuses memory or threads to the program before which it is loaded (LD_PRELOAD). REFUSED says what is refused, "memory" or "thread",
// FIRST which one is the first, and LAST which one is the last. A byte goes to descriptor TOLD when one is refused.
#define _GNU_SOURCE
#include <dlfcn.h>
#include <errno.h>
#include <pthread.h>
#include <stdatomic.h>
#include <stdlib.h>
#include <string.h>
#include <unistd.h>

extern void *__libc_malloc(size_t);
extern void *__libc_calloc(size_t, size_t);
extern void *__libc_realloc(void *, size_t);
extern void *__libc_memalign(size_t, size_t);

static atomic_long grown, started;
static long first_growth, last_growth, first_thread, last_thread;
static int told = -1;

__attribute__((constructor)) static void prepare(void) {
    const char *kind = getenv("REFUSED"), *first = getenv("FIRST"), *last = getenv("LAST"), *descriptor = getenv("TOLD");
    if (!kind || !first || !last || !descriptor) return;
    told = atoi(descriptor);
    if (strcmp(kind, "thread") == 0) {
        first_thread = atol(first);
        last_thread = atol(last);
    } else {
        first_growth = atol(first);
        last_growth = atol(last);
    }
    grown = started = 0;
}

static int is_refused(atomic_long *count, long first, long last) {
    long number = atomic_fetch_add(count, 1) + 1;
    if (!first || number < first || number > last) return 0;
    if (write(told, "x", 1) < 0) abort();
    errno = ENOMEM;
    return 1;
}

void *malloc(size_t size) { return is_refused(&grown, first_growth, last_growth) ? NULL : __libc_malloc(size); }

void *calloc(size_t count, size_t size) {
    return is_refused(&grown, first_growth, last_growth) ? NULL : __libc_calloc(count, size);
}

void *realloc(void *old, size_t size) {
    return is_refused(&grown, first_growth, last_growth) ? NULL : __libc_realloc(old, size);
}

void *memalign(size_t align, size_t size) {
    return is_refused(&grown, first_growth, last_growth) ? NULL : __libc_memalign(align, size);
}

void *aligned_alloc(size_t align, size_t size) { return memalign(align, size); }

int posix_memalign(void **made, size_t align, size_t size) {
    void *found = memalign(align, size);
    if (!found) return ENOMEM;
    *made = found;
    return 0;
}

typedef int (*Start)(pthread_t *, const pthread_attr_t *, void *(*)(void *), void *);

int pthread_create(pthread_t *thread, const pthread_attr_t *how, void *(*body)(void *), void *with) {
    if (is_refused(&started, first_thread, last_thread)) return EAGAIN;
    return ((Start)dlsym(RTLD_NEXT, "pthread_create"))(thread, how, body, with);
}
