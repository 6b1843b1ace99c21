/* threads MODULE TABLE ROUNDS: two threads with a connection each load the extension, read the table, and search while the other does. */
#include <assert.h>
#include <pthread.h>
#include <sqlite3.h>
#include <stdio.h>
#include <stdlib.h>
#include <string.h>

typedef struct { char **words; int number; } work;

static const char *search = "WITH RECURSIVE n(i) AS (SELECT 1 UNION ALL SELECT i + 1 FROM n WHERE i < 50), "
                            "t(title) AS (SELECT CASE i % 3 WHEN 0 THEN 'a r\303\251sum\303\251' WHEN 1 THEN 'resume, resume' "
                            "ELSE 'none' END FROM n) "
                            "SELECT sum(colfind(title, 'resume', 1)), "
                            "(SELECT count(*) FROM t, colfind_ranges(title, 'resume', 1)), max(colfind_range(title, 'resume', 1)) FROM t";

/* The first row of a statement, its columns with a blank between, is the wanted one. */
static void expect(sqlite3 *database, const char *statement, const char *wanted) {
    sqlite3_stmt *made;
    char got[200] = "";
    assert(sqlite3_prepare_v2(database, statement, -1, &made, NULL) == SQLITE_OK);
    assert(sqlite3_step(made) == SQLITE_ROW);
    for (int i = 0; i < sqlite3_column_count(made); i++) {
        strcat(got, i ? " " : "");
        strcat(got, (const char *)sqlite3_column_text(made, i));
    }
    if (strcmp(got, wanted) != 0) fprintf(stderr, "threads: %s, not %s\n", got, wanted), exit(1);
    sqlite3_finalize(made);
}

static void *run(void *given) {
    work *mine = given;
    sqlite3 *database;
    char *statement = sqlite3_mprintf("SELECT colfind_table(%Q)", mine->words[2]);
    assert(sqlite3_open(":memory:", &database) == SQLITE_OK);
    sqlite3_db_config(database, SQLITE_DBCONFIG_ENABLE_LOAD_EXTENSION, 1, NULL);
    assert(sqlite3_load_extension(database, mine->words[1], NULL, NULL) == SQLITE_OK);
    for (int i = 0; i < atoi(mine->words[3]); i++) {
        if (i % 4 == mine->number) expect(database, statement, mine->words[2]);
        if (i >= 2) expect(database, search, "33 50 [3,9]");
    }
    sqlite3_free(statement);
    assert(sqlite3_close(database) == SQLITE_OK);
    return NULL;
}

int main(int argc, char **argv) {
    pthread_t threads[2];
    work works[2] = {{argv, 0}, {argv, 1}};
    assert(argc == 4);
    for (int i = 0; i < 2; i++) assert(pthread_create(&threads[i], NULL, run, &works[i]) == 0);
    for (int i = 0; i < 2; i++) pthread_join(threads[i], NULL);
    return 0;
}
