/* find TABLE PATTERN [FILE]: prints each match at strength 1 with the number of the line that it begins in, as `grep -on` does. */
#include "colfind.h"
#include <stdio.h>
#include <stdlib.h>
#include <string.h>

/* Bytes that were read, and the line of `place`. */
typedef struct { uint8_t *bytes; size_t len, room, place, line; } text;

static void fail(const char *what) { fprintf(stderr, "find: %s\n", what); exit(2); }

static void check(colfind_status status) {
    char message[160];
    if (status.kind == COLFIND_GOOD) return;
    colfind_message(status, message, sizeof message);
    fail(message);
}

/* Reads up to 4,096 bytes more: how many. */
static size_t read_on(text *text, FILE *file) {
    if (text->room - text->len < 4096) {
        text->room = 2 * text->room + 4096;
        text->bytes = realloc(text->bytes, text->room);
        if (!text->bytes) fail("no memory");
    }
    size_t n = fread(text->bytes + text->len, 1, 4096, file);
    if (ferror(file)) fail("a file can't be read");
    text->len += n;
    return n;
}

static FILE *open_file(const char *name) {
    FILE *file = fopen(name, "rb");
    if (!file) { perror(name); exit(2); }
    return file;
}

/* Prints the ranges that wait: how many. Their starts rise, so each byte is looked at once for lines. */
static size_t print(text *text, colfind_handle *search) {
    colfind_range ranges[64];
    size_t n, all = 0;
    while ((n = colfind_take(search, ranges, 64)) > 0)
        for (size_t i = 0; i < n; i++, all++) {
            for (; text->place < ranges[i].start; text->place++) text->line += text->bytes[text->place] == '\n';
            printf("%zu:%.*s\n", text->line, (int)(ranges[i].end - ranges[i].start), (char *)text->bytes + ranges[i].start);
        }
    return all;
}

int main(int argc, char **argv) {
    if (argc != 3 && argc != 4) fail("find TABLE PATTERN [FILE]");
    colfind_handle table = {0}, pattern = {0}, search = {0};
    text rows = {0}, text = {.line = 1};
    FILE *file = open_file(argv[1]);
    while (read_on(&rows, file) > 0) {}
    fclose(file);
    check(colfind_table(&table, rows.bytes, rows.len, (const uint8_t *)"", 0));
    check(colfind_pattern(&table, &pattern, (const uint8_t *)argv[2], strlen(argv[2]), 1, COLFIND_NON_IGNORABLE));
    check(colfind_search(&pattern, &search, COLFIND_ALL));
    file = argc == 4 ? open_file(argv[3]) : stdin;
    size_t n, found = 0;
    while ((n = read_on(&text, file)) > 0) {
        colfind_status fed = colfind_feed(&search, text.bytes + text.len - n, n);
        found += print(&text, &search);
        check(fed);
    }
    colfind_status ended = colfind_finish(&search);
    found += print(&text, &search);
    check(ended);
    fclose(file);
    colfind_free(&search), colfind_free(&pattern), colfind_free(&table);
    free(rows.bytes), free(text.bytes);
    if (fflush(stdout)) fail("the matches can't be written");
    return found == 0;
}
