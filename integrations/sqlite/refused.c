/* refused MODULE TABLE: refuses each request for memory in turn while a connection loads the extension, reads the table, searches and is
 * closed. Whatever is refused, the connection can be used and closed, and all memory is given back. */
#include <assert.h>
#include <errno.h>
#include <sqlite3.h>
#include <stdio.h>
#include <stdlib.h>
#include <string.h>

extern void *__libc_malloc(size_t), *__libc_calloc(size_t, size_t), *__libc_realloc(void *, size_t), *__libc_memalign(size_t, size_t);
extern void __libc_free(void *);

static unsigned long requests, refused, held; /* since the last connection; which one is refused, or none; how many pieces are in use */

static int is_refused(void) { return ++requests == refused ? errno = ENOMEM : 0; }

static void *counted(void *made) { return held += made != NULL, made; }

void *malloc(size_t size) { return is_refused() ? NULL : counted(__libc_malloc(size)); }

void *calloc(size_t count, size_t size) { return is_refused() ? NULL : counted(__libc_calloc(count, size)); }

void *aligned_alloc(size_t alignment, size_t size) { return is_refused() ? NULL : counted(__libc_memalign(alignment, size)); }

int posix_memalign(void **out, size_t alignment, size_t size) {
    void *made = aligned_alloc(alignment, size);
    return made ? *out = made, 0 : ENOMEM;
}

void *realloc(void *old, size_t size) {
    void *made = is_refused() ? NULL : __libc_realloc(old, size);
    return old ? made : counted(made);
}

void free(void *old) {
    held -= old != NULL;
    __libc_free(old);
}

static const char *calls[] = {
    "SELECT colfind_table('%w')", "SELECT colfind('my r\303\251sum\303\251', 'resume', 1)",
    "SELECT count(*), max(match) FROM colfind_ranges('a resume, a R\303\251sum\303\251' || replace(hex(zeroblob(1000)), '0', 'a'), 'a', 1)",
};

static int is_good(sqlite3 *database, const char *statement, const char *word) {
    char *made = sqlite3_mprintf(statement, word);
    int is_good = made && sqlite3_exec(database, made, NULL, NULL, NULL) == SQLITE_OK;
    sqlite3_free(made);
    return is_good;
}

/* A connection loads the extension, by a statement or by a call, and has all calls: whether all went well. */
static int connect(char **words, int by_statement) {
    sqlite3 *database = NULL;
    int is_all_good = sqlite3_open(":memory:", &database) == SQLITE_OK && sqlite3_enable_load_extension(database, 1) == SQLITE_OK;
    if (is_all_good && by_statement) is_all_good = is_good(database, "SELECT load_extension('%w')", words[1]);
    else if (is_all_good) is_all_good = sqlite3_load_extension(database, words[1], NULL, NULL) == SQLITE_OK;
    for (size_t i = 0; i < sizeof calls / sizeof *calls && database; i++) is_all_good &= is_good(database, calls[i], words[2]);
    assert(sqlite3_close(database) == SQLITE_OK);
    return is_all_good;
}

int main(int argc, char **argv) {
    assert(argc == 3);
    for (int by_statement = 0; by_statement < 2; by_statement++) {
        assert(connect(argv, by_statement) && connect(argv, by_statement));
        unsigned long base = held;
        int is_over = 0;
        for (unsigned long number = 1; !is_over; number++) {
            requests = 0, refused = number;
            int is_all_good = connect(argv, by_statement);
            is_over = requests < number, refused = 0;
            assert(connect(argv, by_statement));
            if (held == base && (is_all_good || !is_over)) continue;
            fprintf(stderr, "request %lu: %lu pieces of memory are in use, %lu before\n", number, held, base);
            return 1;
        }
        printf("%lu requests\n", requests);
    }
    return 0;
}
