/* interrupted MODULE TABLE: a search of a long text without a match ends where it is interrupted, and where a progress handler ends it. */
#include <assert.h>
#include <sqlite3.h>
#include <stdio.h>
#include <string.h>

enum { STEPS = 20, LENGTH = 1 << 25 };

typedef struct { sqlite3 *database; int calls, interrupts; } watch;

/* The third time it ends what runs. */
static int progress(void *given) {
    watch *watch = given;
    if (++watch->calls != 3) return 0;
    if (watch->interrupts) sqlite3_interrupt(watch->database);
    return !watch->interrupts;
}

int main(int argc, char **argv) {
    static const char *calls[] = {"SELECT count(*) FROM colfind_ranges(?, 'aab', 1)", "SELECT colfind(?, 'aab', 1)",
                                  "SELECT colfind_range(?, 'aab', 1)"};
    static char text[LENGTH];
    watch watch = {0};
    sqlite3_stmt *made;
    assert(argc == 3 && sqlite3_open(":memory:", &watch.database) == SQLITE_OK);
    sqlite3_db_config(watch.database, SQLITE_DBCONFIG_ENABLE_LOAD_EXTENSION, 1, NULL);
    assert(sqlite3_load_extension(watch.database, argv[1], NULL, NULL) == SQLITE_OK);
    char *reads = sqlite3_mprintf("SELECT colfind_table(%Q)", argv[2]);
    assert(sqlite3_exec(watch.database, reads, NULL, NULL, NULL) == SQLITE_OK);
    sqlite3_free(reads);
    for (size_t i = 0; i < sizeof text; i++) text[i] = "ab"[i % 2];
    for (int i = 0; i < 6; i++) {
        watch.calls = 0, watch.interrupts = i % 2;
        sqlite3_progress_handler(watch.database, STEPS, progress, &watch);
        assert(sqlite3_prepare_v2(watch.database, calls[i / 2], -1, &made, NULL) == SQLITE_OK);
        sqlite3_bind_text(made, 1, text, sizeof text, SQLITE_STATIC);
        int status = sqlite3_step(made);
        if (status != SQLITE_INTERRUPT || watch.calls < 3) return fprintf(stderr, "%s: status %d\n", calls[i / 2], status), 1;
        sqlite3_finalize(made);
        sqlite3_progress_handler(watch.database, 0, NULL, NULL);
        assert(sqlite3_exec(watch.database, "SELECT colfind('baab', 'aab', 1)", NULL, NULL, NULL) == SQLITE_OK);
    }
    return sqlite3_close(watch.database) != SQLITE_OK;
}
