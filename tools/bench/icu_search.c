/* Prints the byte ranges of the matches that ICU finds in a UTF-8 file, also of those that overlap, and how long its search took.

     icu_search [-q] [-s] 1|2|3 PATTERN FILE

   The number is the strength; -s asks for shifted weighting; -q prints no ranges. The collator is that of the root locale. A last line
   on standard error has the versions, the bytes of the text, the number of matches, and the seconds of processor time of the search
   alone, without the conversion to UTF-16. The status is 2 where something is wrong. ICU does not end on some inputs: set a time limit. */
#include <stdio.h>
#include <stdlib.h>
#include <string.h>
#include <time.h>
#include <unicode/ucol.h>
#include <unicode/usearch.h>
#include <unicode/ustring.h>
#include <unicode/uversion.h>
#include <unistd.h>

typedef struct {
    UChar *units;
    int32_t length;
} Text;

typedef struct {
    int32_t start, end;
} Range;

typedef struct {
    Range *items;
    size_t count, room;
} Ranges;

static void fail(const char *what, const char *why) {
    fprintf(stderr, "icu_search: %s: %s\n", what, why);
    exit(2);
}

static void check(UErrorCode error, const char *what) {
    if (U_FAILURE(error)) fail(what, u_errorName(error));
}

static void *checked(void *memory) {
    if (!memory) fail("memory", "refused");
    return memory;
}

static char *read_file(const char *path, size_t *size) {
    FILE *file = fopen(path, "rb");
    if (!file || fseek(file, 0, SEEK_END)) fail(path, "can't be read");
    *size = (size_t)ftell(file);
    rewind(file);
    char *bytes = checked(malloc(*size + 1));
    if (fread(bytes, 1, *size, file) != *size) fail(path, "can't be read");
    fclose(file);
    return bytes;
}

static Text utf16(const char *bytes, size_t size) {
    UErrorCode error = U_ZERO_ERROR;
    Text text = {checked(malloc((size + 1) * sizeof(UChar))), 0};
    u_strFromUTF8WithSub(text.units, (int32_t)size + 1, &text.length, bytes, (int32_t)size, 0xFFFD, NULL, &error);
    check(error, "conversion");
    return text;
}

static UCollator *collator(int strength, int is_shifted) {
    UErrorCode error = U_ZERO_ERROR;
    UCollator *made = ucol_open("", &error);
    check(error, "collator");
    ucol_setStrength(made, strength == 1 ? UCOL_PRIMARY : strength == 2 ? UCOL_SECONDARY : UCOL_TERTIARY);
    if (is_shifted) ucol_setAttribute(made, UCOL_ALTERNATE_HANDLING, UCOL_SHIFTED, &error);
    check(error, "weighting");
    return made;
}

static UStringSearch *search_for(Text pattern, Text text, const UCollator *by) {
    UErrorCode error = U_ZERO_ERROR;
    UStringSearch *search = usearch_openFromCollator(pattern.units, pattern.length, text.units, text.length, by, NULL, &error);
    check(error, "search");
    usearch_setAttribute(search, USEARCH_OVERLAP, USEARCH_ON, &error);
    check(error, "overlapping matches");
    return search;
}

static void put(Ranges *ranges, Range range) {
    if (ranges->count == ranges->room) {
        ranges->room = ranges->room ? 2 * ranges->room : 1024;
        ranges->items = checked(realloc(ranges->items, ranges->room * sizeof(Range)));
    }
    ranges->items[ranges->count++] = range;
}

static Ranges matches(UStringSearch *search) {
    UErrorCode error = U_ZERO_ERROR;
    Ranges found = {0};
    for (int32_t start = usearch_first(search, &error); start != USEARCH_DONE && U_SUCCESS(error); start = usearch_next(search, &error))
        put(&found, (Range){start, start + usearch_getMatchedLength(search)});
    check(error, "search");
    return found;
}

/* The byte offset of each UTF-16 unit, and of the end. */
static int32_t *byte_offsets(Text text) {
    int32_t *offsets = checked(malloc(((size_t)text.length + 1) * sizeof *offsets));
    int32_t bytes = 0, place = 0;
    while (place < text.length) {
        UChar32 character;
        int32_t start = place;
        U16_NEXT(text.units, place, text.length, character);
        for (int32_t unit = start; unit < place; unit++) offsets[unit] = bytes;
        bytes += U8_LENGTH(character);
    }
    offsets[text.length] = bytes;
    return offsets;
}

static void print_ranges(Ranges found, Text text) {
    int32_t *offsets = byte_offsets(text);
    for (size_t n = 0; n < found.count; n++) printf("%d:%d\n", offsets[found.items[n].start], offsets[found.items[n].end]);
    free(offsets);
}

static double processor_seconds(void) {
    struct timespec time;
    clock_gettime(CLOCK_PROCESS_CPUTIME_ID, &time);
    return (double)time.tv_sec + (double)time.tv_nsec * 1e-9;
}

static void print_summary(size_t bytes, size_t count, double seconds, const UCollator *by) {
    UVersionInfo version;
    char library[U_MAX_VERSION_STRING_LENGTH], weights[U_MAX_VERSION_STRING_LENGTH];
    u_getVersion(version);
    u_versionToString(version, library);
    ucol_getUCAVersion(by, version);
    u_versionToString(version, weights);
    fprintf(stderr, "ICU %s, UCA %s, bytes %zu, matches %zu, seconds %.6f\n", library, weights, bytes, count, seconds);
}

int main(int count, char **words) {
    int is_quiet = 0, is_shifted = 0, option;
    while ((option = getopt(count, words, "qs")) != -1) {
        if (option == '?') return 2;
        *(option == 'q' ? &is_quiet : &is_shifted) = 1;
    }
    if (count - optind != 3) fail("usage", "icu_search [-q] [-s] 1|2|3 PATTERN FILE");
    size_t size;
    char *bytes = read_file(words[optind + 2], &size);
    Text text = utf16(bytes, size), pattern = utf16(words[optind + 1], strlen(words[optind + 1]));
    UCollator *by = collator(atoi(words[optind]), is_shifted);
    UStringSearch *search = search_for(pattern, text, by);
    double start = processor_seconds();
    Ranges found = matches(search);
    double seconds = processor_seconds() - start;
    if (!is_quiet) print_ranges(found, text);
    print_summary(size, found.count, seconds, by);
    usearch_close(search);
    ucol_close(by);
    free(found.items);
    free(pattern.units);
    free(text.units);
    free(bytes);
    return 0;
}
