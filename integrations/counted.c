/* Counts the patterns that a process compiles, and prints how many at its end. To be loaded before the library, with it (LD_PRELOAD). */
#define _GNU_SOURCE
#include "../examples/c/colfind.h"
#include <dlfcn.h>
#include <stdio.h>

typedef colfind_status compile(colfind_handle *, colfind_handle *, const uint8_t *, size_t, uint8_t, uint8_t);

static unsigned long count;

colfind_status colfind_pattern(colfind_handle *table, colfind_handle *out, const uint8_t *text, size_t n, uint8_t strength,
                               uint8_t variable) {
    compile *next = (compile *)dlsym(RTLD_NEXT, "colfind_pattern");
    count++;
    return next(table, out, text, n, strength, variable);
}

__attribute__((destructor)) static void tell(void) { printf("%lu patterns\n", count); }
