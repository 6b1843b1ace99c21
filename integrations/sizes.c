/* sizes TABLE: what a session keeps of searches never has more memory than their sizes say, whatever patterns and texts there are. */
#include "searches.h"
#include <assert.h>
#include <malloc.h>
#include <stdio.h>

extern void *__libc_malloc(size_t), *__libc_calloc(size_t, size_t), *__libc_realloc(void *, size_t), *__libc_memalign(size_t, size_t);
extern void __libc_free(void *);

static size_t held; /* bytes of memory that are in use */

static void *counted(void *made) { return held += made ? malloc_usable_size(made) : 0, made; }

void *malloc(size_t size) { return counted(__libc_malloc(size)); }

void *calloc(size_t count, size_t size) { return counted(__libc_calloc(count, size)); }

void *aligned_alloc(size_t alignment, size_t size) { return counted(__libc_memalign(alignment, size)); }

int posix_memalign(void **out, size_t alignment, size_t size) { return (*out = aligned_alloc(alignment, size)) ? 0 : ENOMEM; }

void free(void *old) { held -= old ? malloc_usable_size(old) : 0, __libc_free(old); }

void *realloc(void *old, size_t size) {
    held -= old ? malloc_usable_size(old) : 0;
    return counted(__libc_realloc(old, size));
}

static size_t put(uint8_t *out, uint32_t c) {
    if (c < 0x80) return out[0] = (uint8_t)c, 1;
    if (c < 0x800) return out[0] = (uint8_t)(0xC0 | c >> 6), out[1] = 0x80 | (c & 63), 2;
    size_t n = c < 0x10000 ? 3 : 4;
    for (size_t i = n - 1; i > 0; i--, c >>= 6) out[i] = 0x80 | (c & 63);
    return out[0] = (uint8_t)((n == 3 ? 0xE0 : 0xF0) | c), n;
}

/* From where on the characters of a text are, and how many there are. */
typedef struct { const char *name; uint32_t from, count; } script;

static const script scripts[] = {
    {"one letter", 'a', 1}, {"ASCII", ' ', 95}, {"Latin", 0xC0, 448}, {"marks", 0x300, 112}, {"Cyrillic", 0x400, 256}, {"Thai", 0xE00, 92},
    {"kana", 0x3041, 180}, {"Han", 0x4E00, 20000}, {"Hangul", 0xAC00, 11172}, {"compatibility", 0xFB50, 700}, {"symbols", 0x1D400, 1000},
    {"all", 0x20, 0xD7E0},
};

/* At most `len` bytes of the characters of a script: at random, but for the patterns, which take one. */
static size_t fill(uint8_t *out, size_t len, const script *of, uint64_t *seed) {
    size_t at = 0;
    while (at + 4 <= len || at == 0) {
        *seed = *seed * 6364136223846793005 + 1442695040888963407;
        at += put(out + at, of->from + (uint32_t)(*seed >> 33) % of->count);
    }
    return at;
}

static searches all;
static double most;

static void compare(size_t base, const char *pattern, size_t keys, const char *text, size_t len) {
    size_t size = all.size + all.letters_size;
    double part = (double)(held - base) / (double)size;
    if (part <= most) return;
    most = part;
    printf("%.2f of the size: %zu bytes of %zu, pattern of %zu keys of %s, text of %zu bytes of %s\n", part, held - base, size, keys, pattern,
           len, text);
    assert(part <= 1);
}

/* Texts of each script with one pattern: `steps` times as long each time. */
static void search_texts(colfind_handle *table, const sought *of, size_t base, const char *name) {
    static uint8_t text[1 << 16];
    colfind_range ranges[1];
    uint64_t seed = 1;
    for (size_t i = 0; i < sizeof scripts / sizeof *scripts; i++)
        for (size_t len = 16; len <= sizeof text; len *= 4) {
            colfind_status status = {0};
            size_t n = fill(text, len, &scripts[i], &seed);
            question wanted = (i + of->strength) % 2 ? FIRST : ALL;
            kept_search *kept = find_search(&all, table, of, n, wanted, &status);
            if (!kept) return;
            if (wanted == ALL) colfind_all_in(&kept->search, text, n, ranges, 1);
            else colfind_has(&kept->search, text, n), colfind_first_in(&kept->search, text, n, n / 2);
            compare(base, name, kept->keys, scripts[i].name, n);
        }
}

/* A text of 8 KB with each of so many patterns of a character: what searches find out of letters gives way, and the patterns stay. */
static void search_many(colfind_handle *table, size_t count) {
    static uint8_t text[1 << 13], pattern[4];
    uint64_t seed = 3;
    size_t found_out = 0;
    forget_searches(&all);
    for (size_t i = 0; i < count; i++) {
        sought of = {pattern, put(pattern, 0x4E00 + (uint32_t)i), 1, 0, 0};
        colfind_status status = {0};
        size_t n = fill(text, sizeof text, &scripts[7], &seed);
        kept_search *kept = find_search(&all, table, &of, n, FIRST, &status);
        assert(kept);
        colfind_has(&kept->search, text, n);
        found_out += kept->letters_size;
        assert(all.letters_size <= LETTERS_BYTES && all.count == i + 1);
    }
    assert(found_out > 2 * (size_t)LETTERS_BYTES);
}

int main(int argc, char **argv) {
    static uint8_t bytes[1 << 24], pattern[1 << 16];
    static char buffer[BUFSIZ];
    static const script letters[] = {{"a", 'a', 1}, {"e with an accent", 0xE9, 1}, {"Han", 0x6F22, 1}, {"U+FDFA", 0xFDFA, 1},
                                     {"U+3300", 0x3300, 1}, {"Hangul", 0xAC01, 1}, {"Latin", 0xC0, 448}, {"compatibility", 0xFB50, 700}};
    colfind_handle table = {0};
    uint64_t seed = 2;
    FILE *file = argc == 2 ? fopen(argv[1], "rb") : NULL;
    assert(file);
    assert(!colfind_table(&table, bytes, fread(bytes, 1, sizeof bytes, file), bytes, 0).kind);
    fclose(file);
    setvbuf(stdout, buffer, _IOLBF, sizeof buffer); /* so that it takes no memory later */
    begin_searches(&all);
    size_t base = held;
    for (size_t i = 0; i < sizeof letters / sizeof *letters; i++)
        for (size_t len = 4; len <= sizeof pattern; len *= 4)
            for (uint8_t strength = 1; strength <= 3; strength++) {
                sought of = {pattern, fill(pattern, len, &letters[i], &seed), strength, strength % 2, i % 2};
                search_texts(&table, &of, base, letters[i].name);
                assert(all.count <= SEARCHES_MOST && all.letters_size <= LETTERS_BYTES);
                assert(all.size <= SEARCHES_BYTES || all.count == 1);
            }
    printf("%zu patterns, sizes of %zu and %zu bytes, of which %.2f at most were there\n", all.count, all.size, all.letters_size, most);
    search_many(&table, 200);
    forget_searches(&all);
    assert(held == base && all.count + all.size + all.letters_size == 0);
    colfind_free(&table);
    return 0;
}
