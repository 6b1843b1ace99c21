/* What SQLite and PostgreSQL have in common: the words of a call, the searches that a session keeps while rows come, and a long text on its
 * way through a search of its own. A session keeps a search for each pattern with its strength, weighting and selection, at most
 * SEARCHES_MOST. They have at most SEARCHES_BYTES together, and LETTERS_BYTES more for what they found out of the letters of texts; the least
 * recently used gives way. None of it is for two threads at once. */
#ifndef SEARCHES_H
#define SEARCHES_H
#include "colfind.h"
#include <errno.h>
#include <search.h>
#include <stdbool.h>
#include <stdlib.h>
#include <string.h>
#include <sys/queue.h>
#include <sys/stat.h>

enum { SEARCHES_MOST = 256, SEARCHES_BYTES = 16 << 20, LETTERS_BYTES = 64 << 20, PIECE = 1 << 16, LONG_TEXT = 1 << 20, MOST_FILE = 1 << 28 };

/* What is sought, and how. */
typedef struct { const uint8_t *pattern; size_t len; uint8_t strength, variable, select; } sought;

/* A search that serves text after text, and the pattern that it is of. The search may be left out, and is then made when it is asked for.
 * `seen` counts the bytes of the texts that it was asked for, and `room` those of the longest one of which all ranges were; the sizes are
 * upper bounds of what the two have in memory. */
typedef struct kept_search {
    sought of; /* its pattern stands behind it */
    colfind_handle pattern, search;
    size_t keys, seen, room, pattern_size, search_size, letters_size;
    TAILQ_ENTRY(kept_search) place;
    uint8_t bytes[];
} kept_search;

/* The searches that are kept: in front the one that was asked for last; and a tree of them by what they seek. */
typedef struct { TAILQ_HEAD(searches_by_use, kept_search) by_use; void *by_sought; size_t count, size, letters_size; } searches;

/* 0 or 1 for the first or second of two words, else -1. */
static inline int one_of(const char *word, size_t len, const char *zero, const char *one) {
    if (len == strlen(zero) && memcmp(word, zero, len) == 0) return 0;
    return len == strlen(one) && memcmp(word, one, len) == 0 ? 1 : -1;
}

static inline int weighting_of(const char *word, size_t len) { return one_of(word, len, "non-ignorable", "shifted"); }
static inline int selection_of(const char *word, size_t len) { return one_of(word, len, "all", "chain"); }

static const char no_such_file[] = "no file of at most 256 MB";

/* What keeps an open file from being read as a table; NULL where nothing does. */
static inline const char *wrong_file(int file) {
    struct stat about;
    if (fstat(file, &about) != 0) return strerror(errno);
    if (S_ISDIR(about.st_mode)) return strerror(EISDIR);
    return S_ISREG(about.st_mode) && about.st_size <= MOST_FILE ? NULL : no_such_file;
}

/* ---- how much memory they have. The library does not tell it; this is more than it takes, by its code and as measured */

enum { SIZE_OF_PATTERN = 2048, SIZE_OF_KEY = 36, SIZE_OF_SEARCH = 10240, SIZE_OF_PLACE = 16, MOST_ROWS = 990, SIZE_OF_ROW = 800 };

/* A search keeps the places of as many keys as its pattern has, and, where all ranges were asked for, room for one a byte, and some more. */
static inline size_t size_of_search(const kept_search *kept) {
    return SIZE_OF_SEARCH + SIZE_OF_PLACE * kept->keys + (kept->room ? 32 * (kept->room + 800) : 0);
}

/* It keeps the letters that it met, at most one a byte of text, in a table of 256 to 65,536, and the moves of an automaton, at most a row of
 * them a byte. Of most texts it keeps a tenth of that: they have few letters. */
static inline size_t size_of_letters(size_t seen) {
    size_t letters = seen < 192 ? 256 : seen < 384 ? 1024 : seen < 4096 ? 4096 : 65536;
    return 12 * letters + SIZE_OF_ROW * (seen < MOST_ROWS ? seen : MOST_ROWS);
}

/* How many keys the pattern of a search has, which is the second of its words; 0 where memory is refused. */
static inline size_t keys_of(colfind_handle *search) {
    uint64_t words[64];
    colfind_saved saved = colfind_save(search, words, sizeof words / sizeof *words);
    return saved.status.kind ? 0 : words[1];
}

/* ---- the searches that are kept */

/* The order of the tree, by the shortest pattern first. */
static inline int order(const void *one, const void *other) {
    const sought *a = one, *b = other;
    if (a->len != b->len) return a->len < b->len ? -1 : 1;
    if (a->strength != b->strength) return a->strength - b->strength;
    if (a->variable != b->variable) return a->variable - b->variable;
    if (a->select != b->select) return a->select - b->select;
    return memcmp(a->pattern, b->pattern, a->len);
}

static inline void begin_searches(searches *all) {
    *all = (searches){.by_sought = NULL};
    TAILQ_INIT(&all->by_use);
}

static inline void free_search(kept_search *kept) {
    colfind_free(&kept->search), colfind_free(&kept->pattern);
    free(kept);
}

static inline void forget_search(searches *all, kept_search *kept) {
    tdelete(&kept->of, &all->by_sought, order);
    TAILQ_REMOVE(&all->by_use, kept, place);
    all->count--, all->size -= kept->pattern_size + kept->search_size, all->letters_size -= kept->letters_size;
    free_search(kept);
}

/* Forgets all, as where another table is read. */
static inline void forget_searches(searches *all) {
    while (!TAILQ_EMPTY(&all->by_use)) forget_search(all, TAILQ_FIRST(&all->by_use));
}

static inline void set_sizes(searches *all, kept_search *kept, size_t search, size_t letters) {
    all->size += search - kept->search_size, all->letters_size += letters - kept->letters_size;
    kept->search_size = search, kept->letters_size = letters;
}

/* Makes room where there is more than is kept: first searches give way, some at a time, and their patterns stay; then these too. What is in
 * front stays in any case. */
static inline void make_room(searches *all) {
    kept_search *kept, *first = TAILQ_FIRST(&all->by_use);
    if (all->size > SEARCHES_BYTES || all->letters_size > LETTERS_BYTES)
        TAILQ_FOREACH_REVERSE(kept, &all->by_use, searches_by_use, place) {
            if (kept == first || (all->size <= SEARCHES_BYTES / 4 * 3 && all->letters_size <= LETTERS_BYTES / 4 * 3)) break;
            colfind_free(&kept->search);
            kept->seen = kept->room = 0;
            set_sizes(all, kept, 0, 0);
        }
    while (all->count > SEARCHES_MOST || all->size > SEARCHES_BYTES) {
        if ((kept = TAILQ_LAST(&all->by_use, searches_by_use)) == first) break;
        forget_search(all, kept);
    }
}

/* A pattern and a search for what is sought; NULL with a status where there is none. */
static inline kept_search *make_search(colfind_handle *table, const sought *of, colfind_status *status) {
    kept_search *made = calloc(1, sizeof *made + of->len + 1);
    if (!made) return *status = (colfind_status){COLFIND_NO_MEMORY, 0}, NULL;
    made->of = *of;
    made->of.pattern = memcpy(made->bytes, of->pattern, of->len);
    *status = colfind_pattern(table, &made->pattern, made->bytes, of->len, of->strength, of->variable);
    if (!status->kind) *status = colfind_search(&made->pattern, &made->search, of->select);
    if (!status->kind && !(made->keys = keys_of(&made->search))) *status = (colfind_status){COLFIND_NO_MEMORY, 0};
    made->pattern_size = sizeof *made + of->len + SIZE_OF_PATTERN + SIZE_OF_KEY * made->keys;
    if (!status->kind) return made;
    free_search(made);
    return NULL;
}

/* Makes what is sought, and keeps it in front; NULL with a status. */
static inline kept_search *add_search(searches *all, colfind_handle *table, const sought *of, colfind_status *status) {
    kept_search *made = make_search(table, of, status);
    if (!made) return NULL;
    if (!tsearch(&made->of, &all->by_sought, order)) {
        *status = (colfind_status){COLFIND_NO_MEMORY, 0};
        return free_search(made), NULL;
    }
    TAILQ_INSERT_HEAD(&all->by_use, made, place);
    all->count++, all->size += made->pattern_size;
    return made;
}

/* The kept search for what is sought, in front; NULL where there is none. */
static inline kept_search *known_search(searches *all, const sought *of) {
    kept_search *kept = TAILQ_FIRST(&all->by_use), **found;
    if (kept && order(&kept->of, of) == 0) return kept;
    if (!(found = tfind(of, &all->by_sought, order))) return NULL;
    kept = *found;
    TAILQ_REMOVE(&all->by_use, kept, place);
    TAILQ_INSERT_HEAD(&all->by_use, kept, place);
    return kept;
}

/* What is asked of a text of so many bytes: the first range, or all. */
typedef enum { FIRST, ALL } question;

/* The most bytes of a text that is searched by the search that is kept; a longer one has one of its own. */
static inline size_t most_at_once(question wanted) { return wanted == ALL ? PIECE : LONG_TEXT; }

/* The search for what is sought in a text of so many bytes; NULL with a status where it can't be made. It stays until the next one is asked
 * for. */
static inline kept_search *find_search(searches *all, colfind_handle *table, const sought *of, size_t len, question wanted,
                                       colfind_status *status) {
    kept_search *kept = known_search(all, of);
    if (!kept && !(kept = add_search(all, table, of, status))) return NULL;
    if (!kept->search.at) *status = colfind_search(&kept->pattern, &kept->search, of->select);
    if (status->kind) return NULL;
    if (len <= most_at_once(wanted)) {
        kept->seen += len;
        if (wanted == ALL && len >= kept->room) kept->room = len + 1;
    }
    set_sizes(all, kept, size_of_search(kept), size_of_letters(kept->seen));
    make_room(all);
    return kept;
}

/* ---- a long text, which is fed in pieces. Between two of them the caller sees whether it is to go on */

typedef struct { colfind_handle search; const uint8_t *rest; size_t len; colfind_status status; bool has_ended; } walk;

static inline walk begin_walk(kept_search *kept, const uint8_t *text, size_t len) {
    walk begun = {.rest = text, .len = len};
    begun.status = colfind_search(&kept->pattern, &begun.search, kept->of.select);
    begun.has_ended = begun.status.kind != 0;
    return begun;
}

/* The next ranges, as many as are known and have room; where none are, one piece is fed. So 0 says that there are no more where `has_ended`
 * is true, with the fault behind them. */
static inline size_t go_on(walk *walk, colfind_range *out, size_t room) {
    size_t count = colfind_take(&walk->search, out, room), piece = walk->len < PIECE ? walk->len : PIECE;
    if (count > 0 || walk->has_ended) return count;
    walk->status = piece > 0 ? colfind_feed(&walk->search, walk->rest, piece) : colfind_finish(&walk->search);
    walk->rest += piece, walk->len -= piece;
    walk->has_ended = piece == 0 || walk->status.kind != 0;
    return colfind_take(&walk->search, out, room);
}
#endif
