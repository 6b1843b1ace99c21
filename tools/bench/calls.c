/* Calls of the C library, and of ICU.

     calls TABLE PATTERN             prints how many ranges standard input has, read in pieces of 65,536 bytes
     calls TABLE PATTERN TITLES N    nanoseconds of processor time for each line of the file TITLES, searched N times over, and how many
                                     lines have a match: by colfind_first_in, by colfind_index, and by ICU with its text in UTF-16
     calls TABLE PATTERN TEXT        nanoseconds of processor time for a search that is made, one that is resumed amid the text, and pieces of
                                     64 and of 4,096 bytes of the text
   At strength 1. The status is 2 where something is wrong. */
#include "common.h"
#include <unicode/ucol.h>
#include <unicode/usearch.h>
#include <unicode/ustring.h>

typedef struct { const uint8_t *bytes; size_t len; const UChar *units; int32_t units_len; } title;

static void count_ranges(colfind_handle *pattern) {
    colfind_handle search = {0};
    colfind_range ranges[256];
    static uint8_t piece[65536];
    size_t n, taken, all = 0;
    need(colfind_search(pattern, &search, COLFIND_ALL).kind == 0, "search");
    while ((n = fread(piece, 1, sizeof piece, stdin)) > 0) {
        need(colfind_feed(&search, piece, n).kind == 0, "text");
        while ((taken = colfind_take(&search, ranges, 256)) > 0) all += taken;
    }
    need(colfind_finish(&search).kind == 0, "text");
    while ((taken = colfind_take(&search, ranges, 256)) > 0) all += taken;
    printf("%zu\n", all);
    colfind_free(&search);
}

static size_t icu_matches(UStringSearch *search, const title *titles, size_t count) {
    UErrorCode error = U_ZERO_ERROR;
    size_t found = 0;
    for (size_t i = 0; i < count; i++) {
        usearch_setText(search, titles[i].units, titles[i].units_len, &error);
        found += usearch_first(search, &error) != USEARCH_DONE;
    }
    need(U_SUCCESS(error), "ICU");
    return found;
}

static void time_titles(colfind_handle *pattern, const char *sought, const char *path, long rounds) {
    UErrorCode error = U_ZERO_ERROR;
    size_t len, count = 0, found = 0;
    uint8_t *bytes = read_file(path, &len);
    title *titles = malloc(len * sizeof *titles);
    UChar *units = malloc((len + 1) * sizeof *units), word[256];
    need(titles && units, "memory");
    for (uint8_t *at = bytes, *end; at < bytes + len && (end = memchr(at, '\n', (size_t)(bytes + len - at))); at = end + 1) {
        int32_t n;
        u_strFromUTF8(units, (int32_t)len, &n, (const char *)at, (int32_t)(end - at), &error);
        titles[count++] = (title){at, (size_t)(end - at), units, n};
        units += n;
    }
    UCollator *collator = ucol_open("", &error);
    ucol_setStrength(collator, UCOL_PRIMARY);
    int32_t word_len;
    u_strFromUTF8(word, 256, &word_len, sought, -1, &error);
    UStringSearch *by_icu = usearch_openFromCollator(word, word_len, word, word_len, collator, NULL, &error);
    need(U_SUCCESS(error) && count > 0, "ICU");
    colfind_handle search = {0};
    need(colfind_search(pattern, &search, COLFIND_ALL).kind == 0, "search");
    for (int way = 0; way < 3; way++) {
        double best = 1e9;
        for (long round = 0; round < rounds; round++) {
            double begun = seconds();
            found = 0;
            for (size_t i = 0; way == 0 && i < count; i++) found += colfind_first_in(&search, titles[i].bytes, titles[i].len, 0).is_found;
            for (size_t i = 0; way == 1 && i < count; i++) found += colfind_index(pattern, titles[i].bytes, titles[i].len).is_found;
            if (way == 2) found = icu_matches(by_icu, titles, count);
            double took = seconds() - begun;
            if (took < best) best = took;
        }
        printf("%s %.0f %zu\n", way == 0 ? "colfind_first_in" : way == 1 ? "colfind_index" : "ICU", 1e9 * best / (double)count, found);
    }
    colfind_free(&search);
}

/* Nanoseconds for a piece of so many bytes; the ranges are taken and thrown away. */
static double of_a_piece(colfind_handle *pattern, const uint8_t *text, size_t len, size_t size) {
    colfind_handle search = {0};
    colfind_range ranges[256];
    size_t pieces = 0;
    need(colfind_search(pattern, &search, COLFIND_ALL).kind == 0, "search");
    double begun = seconds();
    for (size_t at = 0; at + size <= len; at += size, pieces++) {
        need(colfind_feed(&search, text + at, size).kind == 0, "text");
        while (colfind_take(&search, ranges, 256) == 256) {}
    }
    double took = seconds() - begun;
    colfind_free(&search);
    return 1e9 * took / (double)pieces;
}

static void time_searches(colfind_handle *pattern, const char *path) {
    enum { MANY = 20000, ROUNDS = 5 };
    size_t len;
    uint8_t *text = read_file(path, &len);
    static uint64_t words[1 << 16];
    colfind_handle search = {0};
    need(colfind_search(pattern, &search, COLFIND_ALL).kind == 0 && colfind_feed(&search, text, 1000).kind == 0, "search");
    colfind_saved saved = colfind_save(&search, words, 1 << 16);
    need(saved.status.kind == 0, "save");
    double least[4] = {1e18, 1e18, 1e18, 1e18};
    for (int round = 0; round < ROUNDS; round++)
        for (int way = 0; way < 4; way++) {
            double begun = seconds(), took;
            for (int i = 0; way < 2 && i < MANY; i++) {
                colfind_status made = way == 0 ? colfind_search(pattern, &search, COLFIND_ALL) : colfind_resume(pattern, &search, COLFIND_ALL, words, saved.words);
                need(made.kind == 0, "search");
            }
            took = way < 2 ? 1e9 * (seconds() - begun) / MANY : of_a_piece(pattern, text, len, way == 2 ? 64 : 4096);
            if (took < least[way]) least[way] = took;
        }
    printf("made %.0f\nresumed %.0f\n64 %.0f\n4096 %.0f\n", least[0], least[1], least[2], least[3]);
    colfind_free(&search);
}

int main(int argc, char **argv) {
    need(argc >= 3 && argc <= 5, "TABLE PATTERN [TEXT | TITLES N]");
    colfind_handle table = {0}, pattern = {0};
    read_pattern(argv[1], argv[2], &table, &pattern);
    if (argc == 3) count_ranges(&pattern);
    else if (argc == 4) time_searches(&pattern, argv[3]);
    else time_titles(&pattern, argv[2], argv[3], atol(argv[4]));
    colfind_free(&pattern), colfind_free(&table);
    return 0;
}
