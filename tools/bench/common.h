/* What calls.c and whole_texts.c share: an end with a word where something is wrong, files, time, and a table with a pattern. */
#include "../../examples/c/colfind.h"
#include <stdio.h>
#include <stdlib.h>
#include <string.h>
#include <time.h>

static void need(int holds, const char *what) {
    if (!holds) { fprintf(stderr, "%s\n", what); exit(2); }
}

static uint8_t *read_file(const char *path, size_t *len) {
    FILE *file = fopen(path, "rb");
    need(file && fseek(file, 0, SEEK_END) == 0, path);
    *len = (size_t)ftell(file);
    rewind(file);
    uint8_t *bytes = malloc(*len + 1);
    need(bytes && fread(bytes, 1, *len, file) == *len, path);
    fclose(file);
    return bytes;
}

/* of processor time */
static double seconds(void) {
    struct timespec now;
    clock_gettime(CLOCK_PROCESS_CPUTIME_ID, &now);
    return (double)now.tv_sec + 1e-9 * (double)now.tv_nsec;
}

/* A pattern at strength 1, with the table of a file. */
static void read_pattern(const char *path, const char *sought, colfind_handle *table, colfind_handle *pattern) {
    size_t n;
    uint8_t *bytes = read_file(path, &n);
    need(colfind_table(table, bytes, n, (const uint8_t *)"", 0).kind == 0, "table");
    free(bytes);
    need(colfind_pattern(table, pattern, (const uint8_t *)sought, strlen(sought), 1, COLFIND_NON_IGNORABLE).kind == 0, "pattern");
}
