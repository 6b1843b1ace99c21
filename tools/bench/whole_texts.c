/* Calls of the C library about whole texts: equal, begins and first_in by a search, ends and index by a pattern, or none; and of a long one
   last_before by a pattern, and all_in by a search.

     whole_texts TABLE PATTERN FILE WAY ROUNDS        a call for each line of FILE
     whole_texts TABLE PATTERN FILE WAY ROUNDS FROM   one call for FILE as a whole; of all_in for what stands there from FROM on

   It prints the nanoseconds of processor time of a call, and how many found something. At strength 1; the status is 2 where something is
   wrong. */
#include "common.h"

typedef struct { colfind_handle table, pattern, search; colfind_range ranges[1 << 16]; } handles;
typedef size_t asking(handles *of, const uint8_t *text, size_t n);

static size_t none(handles *of, const uint8_t *text, size_t n) { return (size_t)(of->pattern.at == NULL) + (n == 0) + (*text == 0); }
static size_t equal(handles *of, const uint8_t *text, size_t n) { return colfind_equal(&of->search, text, n).is_equal; }
static size_t begins(handles *of, const uint8_t *text, size_t n) { return colfind_begins(&of->search, text, n).is_found; }
static size_t ends(handles *of, const uint8_t *text, size_t n) { return colfind_ends(&of->pattern, text, n).is_found; }
static size_t index_of(handles *of, const uint8_t *text, size_t n) { return colfind_index(&of->pattern, text, n).is_found; }
static size_t first_in(handles *of, const uint8_t *text, size_t n) { return colfind_first_in(&of->search, text, n, 0).is_found; }
static size_t last_before(handles *of, const uint8_t *text, size_t n) { return colfind_last_before(&of->pattern, text, n, n).is_found; }
static size_t all_in(handles *of, const uint8_t *text, size_t n) { return colfind_all_in(&of->search, text, n, of->ranges, 1 << 16).count; }

static const struct { const char *name; asking *ask; } ways[] = {
    {"none", none}, {"equal", equal}, {"begins", begins}, {"ends", ends}, {"index", index_of}, {"first_in", first_in},
    {"last_before", last_before}, {"all_in", all_in},
};

/* Asks of each line, or of all from an offset on; it counts the calls, and those that found something. */
static void ask_all(asking *ask, handles *of, const uint8_t *text, size_t len, const char *from, size_t *calls, size_t *found) {
    *calls = *found = 0;
    if (from) {
        size_t at = ask == all_in ? strtoul(from, NULL, 10) : 0;
        need(at <= len, "FROM");
        *calls = 1, *found = ask(of, text + at, len - at);
        return;
    }
    const uint8_t *end = text + len;
    for (const uint8_t *line = text, *next; line < end && (next = memchr(line, '\n', (size_t)(end - line))); line = next + 1)
        ++*calls, *found += ask(of, line, (size_t)(next - line)) > 0;
}

int main(int argc, char **argv) {
    static handles of;
    asking *ask = NULL;
    need(argc == 6 || argc == 7, "whole_texts TABLE PATTERN FILE WAY ROUNDS [FROM]");
    for (size_t i = 0; i < sizeof ways / sizeof *ways; i++)
        if (strcmp(ways[i].name, argv[4]) == 0) ask = ways[i].ask;
    need(ask != NULL, "WAY");
    read_pattern(argv[1], argv[2], &of.table, &of.pattern);
    need(colfind_search(&of.pattern, &of.search, COLFIND_ALL).kind == 0, "search");
    size_t len, calls = 0, found = 0;
    uint8_t *text = read_file(argv[3], &len);
    double least = 1e9;
    for (long round = atol(argv[5]); round > 0; round--) {
        double begun = seconds();
        ask_all(ask, &of, text, len, argc == 7 ? argv[6] : NULL, &calls, &found);
        double took = seconds() - begun;
        if (took < least) least = took;
    }
    printf("%.0f %zu\n", 1e9 * least / (double)calls, found);
    colfind_free(&of.search), colfind_free(&of.pattern), colfind_free(&of.table), free(text);
    return 0;
}
