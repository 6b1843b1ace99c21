/* ranges TABLE PATTERN: prints the range of each match in standard input, and a fault. */
#include "colfind.h"
#include <stdio.h>
#include <string.h>

int main(int argc, char **argv) {
    static uint8_t base[1 << 24], piece[4096];
    FILE *file = argc == 3 ? fopen(argv[1], "rb") : NULL;
    size_t size = file ? fread(base, 1, sizeof base, file) : 0;
    if (!file || ferror(file) || size == sizeof base) return fprintf(stderr, "ranges: no table, or one of 16 MB or more\n"), 2;
    colfind_handle table = {0}, pattern = {0}, search = {0};
    colfind_status status = colfind_table(&table, base, size, base, 0); /* no tailor */
    if (!status.kind) status = colfind_pattern(&table, &pattern, (uint8_t *)argv[2], strlen(argv[2]), 1, COLFIND_NON_IGNORABLE);
    if (!status.kind) status = colfind_search(&pattern, &search, COLFIND_ALL);
    for (size_t n = 1; !status.kind && n > 0;) {
        n = fread(piece, 1, sizeof piece, stdin);
        status = n > 0 ? colfind_feed(&search, piece, n) : ferror(stdin) ? colfind_stop(&search) : colfind_finish(&search);
        for (colfind_range range; colfind_take(&search, &range, 1);) printf("%ju:%ju\n", (uintmax_t)range.start, (uintmax_t)range.end);
    }
    char message[160];
    colfind_message(status, message, sizeof message);
    const char *wrong = status.kind ? message : ferror(stdin) ? "the text can't be read further" : fflush(stdout) ? "can't write" : NULL;
    if (wrong) fprintf(stderr, "ranges: %s\n", wrong);
    colfind_free(&search), colfind_free(&pattern), colfind_free(&table), fclose(file);
    return wrong ? 2 : 0;
}
