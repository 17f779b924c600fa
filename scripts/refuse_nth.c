/* Loaded before a program: counts its requests for memory, and refuses some. REFUSE_FROM is the number of the first that is
   refused, counted from 1, and REFUSE_TO that of the last. With REFUSE_FROM=0 none is, and at the end their count goes to
   standard error. Once the program says on standard error that memory is back, none is refused from then on. */
#define _GNU_SOURCE
#include <errno.h>
#include <stdio.h>
#include <stdlib.h>
#include <string.h>
#include <sys/syscall.h>
#include <unistd.h>

extern void *__libc_malloc(size_t);
extern void *__libc_calloc(size_t, size_t);
extern void *__libc_realloc(void *, size_t);
extern void *__libc_memalign(size_t, size_t);

static const char BACK[] = "memory is back";
static long from, to, met;

static long given(const char *name) {
    char *text = getenv(name);
    return text ? atol(text) : -1;
}

static void __attribute__((constructor)) begin(void) {
    from = given("REFUSE_FROM");
    to = given("REFUSE_TO");
    met = 0;
}

static void __attribute__((destructor)) end(void) {
    long count = met;
    if (from == 0) dprintf(2, "%ld\n", count);
}

static int is_refused(void) {
    ++met;
    return from > 0 && from <= met && met <= to;
}

ssize_t write(int file, const void *bytes, size_t count) {
    if (file == 2 && count >= sizeof BACK - 1 && memcmp(bytes, BACK, sizeof BACK - 1) == 0) to = 0;
    return syscall(SYS_write, file, bytes, count);
}

void *malloc(size_t n) { return is_refused() ? NULL : __libc_malloc(n); }
void *calloc(size_t n, size_t size) { return is_refused() ? NULL : __libc_calloc(n, size); }
void *realloc(void *old, size_t n) { return is_refused() ? NULL : __libc_realloc(old, n); }
void *aligned_alloc(size_t alignment, size_t n) { return is_refused() ? NULL : __libc_memalign(alignment, n); }
int posix_memalign(void **out, size_t alignment, size_t n) {
    void *made = is_refused() ? NULL : __libc_memalign(alignment, n);
    if (made) *out = made;
    return made ? 0 : ENOMEM;
}
