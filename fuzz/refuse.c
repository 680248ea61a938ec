/* Put before a program by LD_PRELOAD: refuses its allocation with the number in the environment's REFUSE, counted from 1, and all
   later ones where REFUSE_LATER is set. The program ends, at its exit, by writing the count of its allocations to the descriptor in
   REFUSE_COUNT. ISO C11, 7.22.3: each of these gives a null pointer where memory can't be had. */
#define _GNU_SOURCE
#include <dlfcn.h>
#include <errno.h>
#include <stdio.h>
#include <stdlib.h>
#include <unistd.h>

static unsigned long made, refused;
static int later, counting = -1;

static void *(*real_malloc)(size_t);
static void *(*real_calloc)(size_t, size_t);
static void *(*real_realloc)(void *, size_t);
static void *(*real_aligned_alloc)(size_t, size_t);
static int (*real_posix_memalign)(void **, size_t, size_t);

__attribute__((constructor)) static void begin(void) {
    const char *number = getenv("REFUSE"), *descriptor = getenv("REFUSE_COUNT");
    real_malloc = (void *(*)(size_t))dlsym(RTLD_NEXT, "malloc");
    real_calloc = (void *(*)(size_t, size_t))dlsym(RTLD_NEXT, "calloc");
    real_realloc = (void *(*)(void *, size_t))dlsym(RTLD_NEXT, "realloc");
    real_aligned_alloc = (void *(*)(size_t, size_t))dlsym(RTLD_NEXT, "aligned_alloc");
    real_posix_memalign = (int (*)(void **, size_t, size_t))dlsym(RTLD_NEXT, "posix_memalign");
    counting = descriptor ? atoi(descriptor) : -1;
    later = getenv("REFUSE_LATER") != NULL;
    made = 0;
    refused = number ? strtoul(number, NULL, 10) : 0;
}

__attribute__((destructor)) static void end(void) {
    char text[32];
    int length = snprintf(text, sizeof text, "%lu", made);
    if (counting >= 0 && write(counting, text, (size_t)length) < 0) _exit(99);
}

static int is_refused(void) {
    made++;
    return refused != 0 && (later ? made >= refused : made == refused);
}

void *malloc(size_t size) {
    if (is_refused()) { errno = ENOMEM; return NULL; }
    return real_malloc(size);
}

void *calloc(size_t count, size_t size) {
    if (real_calloc == NULL || is_refused()) { errno = ENOMEM; return NULL; }
    return real_calloc(count, size);
}

void *realloc(void *block, size_t size) {
    if (is_refused()) { errno = ENOMEM; return NULL; }
    return real_realloc(block, size);
}

void *aligned_alloc(size_t alignment, size_t size) {
    if (is_refused()) { errno = ENOMEM; return NULL; }
    return real_aligned_alloc(alignment, size);
}

int posix_memalign(void **block, size_t alignment, size_t size) {
    if (is_refused()) return ENOMEM;
    return real_posix_memalign(block, alignment, size);
}
