/* Refuses one request for memory of a program, the one whose number is in the environment as REFUSED_REQUEST, counted from 1, or as
   many in a row from it on as REFUSED_IN_A_ROW says. To be loaded before the C library (LD_PRELOAD). The number of requests is
   written to the file REQUEST_COUNT, 8 bytes. */
#define _GNU_SOURCE
#include <errno.h>
#include <fcntl.h>
#include <stdint.h>
#include <stdlib.h>
#include <sys/mman.h>
#include <unistd.h>

extern void *__libc_malloc(size_t);
extern void *__libc_calloc(size_t, size_t);
extern void *__libc_realloc(void *, size_t);
extern void *__libc_memalign(size_t, size_t);

static uint64_t before_the_start;
static uint64_t *requests = &before_the_start;
static uint64_t refused, in_a_row;

__attribute__((constructor)) static void begin(void) {
    const char *number = getenv("REFUSED_REQUEST"), *row = getenv("REFUSED_IN_A_ROW"), *path = getenv("REQUEST_COUNT");
    refused = number ? strtoull(number, 0, 10) : 0;
    in_a_row = row ? strtoull(row, 0, 10) : 1;
    int file = path ? open(path, O_RDWR) : -1;
    if (file >= 0) {
        void *shared = mmap(0, sizeof *requests, PROT_READ | PROT_WRITE, MAP_SHARED, file, 0);
        if (shared != MAP_FAILED) requests = shared;
        close(file);
    }
    *requests = 0;
}

static int is_refused(void) {
    *requests += 1;
    if (refused == 0 || *requests < refused || *requests - refused >= in_a_row) return 0;
    errno = ENOMEM;
    return 1;
}

void *malloc(size_t size) { return is_refused() ? 0 : __libc_malloc(size); }

void *calloc(size_t count, size_t size) { return is_refused() ? 0 : __libc_calloc(count, size); }

void *realloc(void *old, size_t size) { return is_refused() ? 0 : __libc_realloc(old, size); }

void *aligned_alloc(size_t alignment, size_t size) { return is_refused() ? 0 : __libc_memalign(alignment, size); }

int posix_memalign(void **out, size_t alignment, size_t size) {
    if (is_refused()) return ENOMEM;
    void *made = __libc_memalign(alignment, size);
    if (!made) return ENOMEM;
    *out = made;
    return 0;
}
