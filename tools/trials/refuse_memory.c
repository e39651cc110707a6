/* Refuses one request for memory of a program that it is loaded into: the one of the number in REFUSE (from 1). Writes how many there were
   into the file that COUNT_FILE names. tools/trials/refuse_memory.py builds and uses it. */
#define _GNU_SOURCE
#include <dlfcn.h>
#include <fcntl.h>
#include <stddef.h>
#include <stdio.h>
#include <stdlib.h>
#include <unistd.h>

static long count, refused = -1;
static void *(*real_malloc)(size_t);
static void *(*real_calloc)(size_t, size_t);
static void *(*real_realloc)(void *, size_t);
static void *(*real_aligned)(size_t, size_t);
static int (*real_memalign)(void **, size_t, size_t);

static int is_refused(void) {
    if (!real_malloc) {
        const char *number = getenv("REFUSE");
        refused = number ? atol(number) : -1;
        real_malloc = dlsym(RTLD_NEXT, "malloc");
        real_calloc = dlsym(RTLD_NEXT, "calloc");
        real_realloc = dlsym(RTLD_NEXT, "realloc");
        real_aligned = dlsym(RTLD_NEXT, "aligned_alloc");
        real_memalign = dlsym(RTLD_NEXT, "posix_memalign");
    }
    return ++count == refused;
}

void *malloc(size_t size) { return is_refused() ? NULL : real_malloc(size); }
void *calloc(size_t many, size_t size) { return is_refused() ? NULL : real_calloc(many, size); }
void *realloc(void *from, size_t size) { return is_refused() ? NULL : real_realloc(from, size); }
void *aligned_alloc(size_t to, size_t size) { return is_refused() ? NULL : real_aligned(to, size); }
int posix_memalign(void **into, size_t to, size_t size) { return is_refused() ? 12 : real_memalign(into, to, size); }

/* Asks for no memory itself. */
__attribute__((destructor)) static void tell(void) {
    const char *name = getenv("COUNT_FILE");
    int file = name ? open(name, O_WRONLY | O_CREAT | O_TRUNC, 0600) : -1;
    char text[32];
    if (file >= 0) {
        int length = snprintf(text, sizeof text, "%ld\n", count);
        if (write(file, text, length) != length)
            abort();
        close(file);
    }
}
