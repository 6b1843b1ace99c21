/* mod_colfind: an extension of SQLite that finds a pattern by Unicode collation.
 *   colfind_table([file [, tailor]])                   reads the table of the connection, and is its name; without words its name
 *   colfind(text, pattern [, strength [, weighting]])  1 or 0
 *   colfind_range(..)                                  the first range, as '[start,end]', in characters counted from 1
 *   colfind_ranges(.. [, selection])                   a table of all ranges: start, end, match
 * A connection has its table and its searches; SQLite lets one thread at a time into it. What is wrong is an SQL error. */
#include <sqlite3ext.h>
SQLITE_EXTENSION_INIT1
#include "../searches.h"
#include <fcntl.h>
#include <pthread.h>
#include <stdio.h>
#include <unistd.h>

typedef struct { sqlite3 *database; colfind_handle table; char *name; searches searches; unsigned holders; } connection;

typedef struct { const uint8_t *bytes; size_t len; } text;

static void leave(void *given) {
    connection *own = given;
    if (--own->holders > 0) return;
    forget_searches(&own->searches);
    colfind_free(&own->table);
    sqlite3_free(own->name);
    sqlite3_free(own);
}

/* ---- words of an error, which sqlite3_free frees; NULL as words says that memory was refused */

static char *fault_words(const char *what, colfind_status status) {
    char message[200];
    switch (status.kind) {
    case COLFIND_TABLE_NO_MEMORY: case COLFIND_PATTERN_NO_MEMORY: case COLFIND_TEXT_NO_MEMORY: case COLFIND_NO_MEMORY: return NULL;
    }
    colfind_message(status, message, sizeof message);
    return sqlite3_mprintf("colfind: %s: %s", what, message);
}

/* Ends a function with the words, and frees them. */
static void fail(sqlite3_context *context, char *words) {
    if (words) sqlite3_result_error(context, words, -1);
    else sqlite3_result_error_nomem(context);
    sqlite3_free(words);
}

/* ---- the table */

/* Reads an open file up to its end; false with what is wrong, which is NULL where memory is refused. It may grow meanwhile. */
static bool read_open(int file, uint8_t **bytes, size_t *len, const char **wrong) {
    size_t room = 0;
    for (ssize_t n = 1; n > 0 && *len <= MOST_FILE; *len += n > 0 ? (size_t)n : 0) {
        if (*len == room) {
            uint8_t *more = sqlite3_realloc64(*bytes, room = 2 * room + PIECE);
            if (!more) return false;
            *bytes = more;
        }
        n = read(file, *bytes + *len, room - *len);
        if (n < 0) return *wrong = strerror(errno), false;
    }
    if (*len > MOST_FILE) *wrong = no_such_file;
    return *len <= MOST_FILE;
}

/* The bytes of a file, for sqlite3_free; NULL and words of what is wrong. Nothing but a file is read, so nothing waits. */
static uint8_t *read_file(const char *name, size_t *len, char **words) {
    int file = open(name, O_RDONLY | O_NONBLOCK | O_NOCTTY | O_CLOEXEC);
    const char *wrong = file < 0 ? strerror(errno) : wrong_file(file);
    uint8_t *bytes = NULL;
    *len = 0;
    bool is_read = !wrong && read_open(file, &bytes, len, &wrong);
    *words = wrong ? sqlite3_mprintf("colfind: %s: %s", name, wrong) : NULL;
    if (file >= 0) close(file);
    if (is_read) return bytes;
    sqlite3_free(bytes);
    return NULL;
}

/* Reads the table of a connection; false with words where it can't, and all is as it was. */
static bool read_table(connection *own, const char *name, const char *tailor, char **words) {
    size_t len, tailor_len = 0;
    uint8_t *tailor_bytes = NULL, *bytes = read_file(name, &len, words);
    if (bytes && tailor) tailor_bytes = read_file(tailor, &tailor_len, words);
    char *copy = bytes && (tailor_bytes || !tailor) ? sqlite3_mprintf("%s", name) : NULL;
    bool is_read = false;
    if (copy) {
        colfind_status status = colfind_table(&own->table, bytes, len, tailor_bytes ? tailor_bytes : bytes, tailor_len);
        is_read = !status.kind;
        if (!is_read) *words = fault_words(status.kind > 60 && status.kind < 80 ? tailor : name, status);
    }
    sqlite3_free(bytes), sqlite3_free(tailor_bytes);
    if (is_read) {
        forget_searches(&own->searches);
        sqlite3_free(own->name);
        own->name = copy;
    } else sqlite3_free(copy);
    return is_read;
}

/* Whether the connection has a table: where none was named, that of the environment is read. */
static bool has_table(connection *own, char **words) {
    const char *name = getenv("COLFIND_TABLE"), *tailor = getenv("COLFIND_TAILOR");
    if (own->name) return true;
    if (name && *name) return read_table(own, name, tailor && *tailor ? tailor : NULL, words);
    *words = sqlite3_mprintf("colfind: no table: SELECT colfind_table('FILE'), or COLFIND_TABLE=FILE in the environment");
    return false;
}

static void table_function(sqlite3_context *context, int n, sqlite3_value **values) {
    connection *own = sqlite3_user_data(context);
    const char *names[2] = {NULL, NULL};
    char *words;
    for (int i = 0; i < n; i++) {
        if (sqlite3_value_type(values[i]) == SQLITE_NULL) return;
        names[i] = (const char *)sqlite3_value_text(values[i]);
        if (names[i] && strlen(names[i]) != (size_t)sqlite3_value_bytes(values[i]))
            return sqlite3_result_error(context, "colfind: the name of a file has no zero byte", -1);
    }
    if (n > 0 && (!names[0] || (n > 1 && !names[1]))) sqlite3_result_error_nomem(context);
    else if (n > 0 && !read_table(own, names[0], names[1], &words)) fail(context, words);
    else if (own->name) sqlite3_result_text(context, own->name, -1, SQLITE_TRANSIENT);
}

/* ---- the words of a call */

/* The bytes of a value that is not NULL: of a BLOB as they are, of anything else as text. False where memory was refused. */
static bool text_of(sqlite3_value *value, text *out) {
    bool is_blob = sqlite3_value_type(value) == SQLITE_BLOB;
    const void *bytes = is_blob ? sqlite3_value_blob(value) : sqlite3_value_text(value);
    out->len = (size_t)sqlite3_value_bytes(value);
    out->bytes = bytes ? bytes : "";
    return bytes || (is_blob && out->len == 0);
}

/* The number of value `i` as one of two words: 0 where it is left out, -1 where it is neither. */
static int choice_of(sqlite3_value **values, int n, int i, int (*number)(const char *, size_t), bool *is_refused) {
    text word;
    if (n <= i || !values[i]) return 0;
    if (text_of(values[i], &word)) return number((const char *)word.bytes, word.len);
    *is_refused = true;
    return 0;
}

/* The number of a value, 1, 2 or 3; 0 where it is another one, or none. */
static uint8_t strength_of(sqlite3_value *value) {
    int type = sqlite3_value_numeric_type(value);
    double number = type == SQLITE_INTEGER || type == SQLITE_FLOAT ? sqlite3_value_double(value) : 0;
    return number == 1 || number == 2 || number == 3 ? (uint8_t)number : 0;
}

/* How to search by the values behind the pattern: strength, weighting and selection, each of which may be left out. False with words. */
static bool manner_of(sqlite3_value **values, int n, sought *out, char **words) {
    bool is_refused = false;
    uint8_t strength = n > 0 && values[0] ? strength_of(values[0]) : 3;
    int variable = choice_of(values, n, 1, weighting_of, &is_refused), select = choice_of(values, n, 2, selection_of, &is_refused);
    *words = NULL;
    if (is_refused) return false;
    if (strength == 0) *words = sqlite3_mprintf("colfind: a strength is 1, 2 or 3");
    else if (variable < 0) *words = sqlite3_mprintf("colfind: a weighting is 'non-ignorable' or 'shifted'");
    else if (select < 0) *words = sqlite3_mprintf("colfind: a selection is 'all' or 'chain'");
    else return out->strength = strength, out->variable = (uint8_t)variable, out->select = (uint8_t)select, true;
    return false;
}

/* The search for a pattern in this manner, in a text of so many bytes; NULL with words. */
static kept_search *search_for(connection *own, sqlite3_value *pattern, const sought *manner, size_t len, question wanted, char **words) {
    text given;
    colfind_status status = {0};
    if (!text_of(pattern, &given)) return *words = NULL, NULL;
    if (!has_table(own, words)) return NULL;
    sought of = {given.bytes, given.len, manner->strength, manner->variable, manner->select};
    kept_search *kept = find_search(&own->searches, &own->table, &of, len, wanted, &status);
    if (!kept) *words = fault_words("pattern", status);
    return kept;
}

static bool has_null(int n, sqlite3_value **values) {
    for (int i = 0; i < n; i++)
        if (sqlite3_value_type(values[i]) == SQLITE_NULL) return true;
    return false;
}

/* The search and the text of a function's values; NULL where the result or the error is given already. */
static kept_search *asked(sqlite3_context *context, int n, sqlite3_value **values, text *given) {
    sought manner = {0};
    char *words = NULL;
    kept_search *kept = NULL;
    if (has_null(n, values)) return NULL;
    if (text_of(values[0], given) && manner_of(values + 2, n - 2, &manner, &words))
        kept = search_for(sqlite3_user_data(context), values[1], &manner, given->len, FIRST, &words);
    if (!kept) fail(context, words);
    return kept;
}

/* Whether the query is interrupted, or ended by a progress handler. SQLite looks after both in the steps of a statement, so one is made that
 * does nothing; where it can't be made, nothing is known. */
static bool is_interrupted(sqlite3 *database, sqlite3_stmt **step) {
    if (!*step) sqlite3_prepare_v2(database, "SELECT 1", -1, step, NULL);
    int status = *step ? sqlite3_step(*step) : SQLITE_ROW;
    sqlite3_reset(*step);
    return status == SQLITE_INTERRUPT;
}

/* The next ranges of a long text, as far as they have room, or its end: SQLITE_OK, or SQLITE_INTERRUPT. */
static int next_ranges(sqlite3 *database, walk *walk, colfind_range *out, size_t room, size_t *count) {
    sqlite3_stmt *step = NULL;
    bool is_ended = false;
    while (!(*count = go_on(walk, out, room)) && !walk->has_ended && !is_ended)
        is_ended = walk->len > 0 && is_interrupted(database, &step);
    sqlite3_finalize(step);
    return is_ended ? SQLITE_INTERRUPT : SQLITE_OK;
}

/* ---- the functions */

static size_t characters(const uint8_t *bytes, size_t len) {
    size_t count = 0;
    for (size_t i = 0; i < len; i++) count += (bytes[i] & 0xC0) != 0x80;
    return count;
}

/* Whether a text has a range: the first one. -1 where the error is given already. */
static int first_of_long(sqlite3_context *context, kept_search *kept, text given, colfind_range *out) {
    size_t count;
    walk walk = begin_walk(kept, given.bytes, given.len);
    int status = next_ranges(sqlite3_context_db_handle(context), &walk, out, 1, &count);
    colfind_free(&walk.search);
    if (status) return sqlite3_result_error_code(context, status), -1;
    if (count == 0 && walk.status.kind) return fail(context, fault_words("text", walk.status)), -1;
    return (int)count;
}

static int first_of(sqlite3_context *context, kept_search *kept, text given, colfind_range *out) {
    if (given.len > most_at_once(FIRST)) return first_of_long(context, kept, given, out);
    colfind_first first = colfind_first_in(&kept->search, given.bytes, given.len, 0);
    if (first.status.kind) return fail(context, fault_words("text", first.status)), -1;
    *out = first.range;
    return (int)first.is_found;
}

static void has_function(sqlite3_context *context, int n, sqlite3_value **values) {
    text given;
    colfind_range range;
    kept_search *kept = asked(context, n, values, &given);
    if (!kept) return;
    uint32_t has = given.len <= most_at_once(FIRST) ? colfind_has(&kept->search, given.bytes, given.len) : 2;
    int found = has <= 1 ? (int)has : first_of(context, kept, given, &range);
    if (found >= 0) sqlite3_result_int(context, found);
}

static void range_function(sqlite3_context *context, int n, sqlite3_value **values) {
    text given;
    colfind_range range;
    char printed[48];
    kept_search *kept = asked(context, n, values, &given);
    if (!kept || first_of(context, kept, given, &range) <= 0) return;
    size_t start = 1 + characters(given.bytes, range.start);
    size_t end = start + characters(given.bytes + range.start, range.end - range.start);
    int len = snprintf(printed, sizeof printed, "[%zu,%zu]", start, end);
    sqlite3_result_text(context, printed, len, SQLITE_TRANSIENT);
}

/* ---- the table of all ranges. Its words are columns behind the others, as SQLite has it */

enum { START, END, MATCH, WORDS, MOST_WORDS = 5, BATCH = 256 };

typedef struct { sqlite3_vtab base; connection *own; } ranges_table;

/* The ranges of a text that were found last, which of them is at hand, and how many there were before it. `before` characters stand before
 * the byte `from`, where the one at hand begins. `ranges` has room for BATCH at least. */
typedef struct {
    sqlite3_vtab_cursor base;
    sqlite3_value *values[MOST_WORDS];
    text given;
    walk walk;
    colfind_range *ranges;
    size_t room, count, at, number, from, before;
} ranges_cursor;

static int ranges_connect(sqlite3 *database, void *own, int n, const char *const *words, sqlite3_vtab **out, char **error) {
    (void)n, (void)words, (void)error;
    int status = sqlite3_declare_vtab(database, "CREATE TABLE ranges(start, \"end\", match, text HIDDEN, pattern HIDDEN, strength HIDDEN, "
                                                "weighting HIDDEN, selection HIDDEN)");
    if (status == SQLITE_OK) status = sqlite3_vtab_config(database, SQLITE_VTAB_INNOCUOUS);
    ranges_table *made = status == SQLITE_OK ? sqlite3_malloc(sizeof *made) : NULL;
    if (!made) return status ? status : SQLITE_NOMEM;
    *made = (ranges_table){.own = own};
    *out = &made->base;
    return SQLITE_OK;
}

static int ranges_disconnect(sqlite3_vtab *table) {
    sqlite3_free(table);
    return SQLITE_OK;
}

/* The words that are given become the arguments of ranges_filter, in their order; idxNum has a bit for each. */
static int ranges_plan(sqlite3_vtab *table, sqlite3_index_info *info) {
    int places[MOST_WORDS], given = 0, later = 0, arguments = 0;
    for (int i = 0; i < info->nConstraint; i++) {
        int word = info->aConstraint[i].iColumn - WORDS;
        if (word < 0 || info->aConstraint[i].op != SQLITE_INDEX_CONSTRAINT_EQ) continue;
        if (info->aConstraint[i].usable) places[word] = i, given |= 1 << word;
        else later |= 1 << word;
    }
    if (later & ~given) return SQLITE_CONSTRAINT;
    if ((given & 3) != 3) {
        sqlite3_free(table->zErrMsg);
        table->zErrMsg = sqlite3_mprintf("colfind_ranges wants a text and a pattern");
        return SQLITE_ERROR;
    }
    for (int word = 0; word < MOST_WORDS; word++)
        if (given >> word & 1) info->aConstraintUsage[places[word]].argvIndex = ++arguments, info->aConstraintUsage[places[word]].omit = 1;
    info->idxNum = given;
    info->estimatedCost = 10, info->estimatedRows = 2;
    return SQLITE_OK;
}

static int ranges_open(sqlite3_vtab *table, sqlite3_vtab_cursor **out) {
    (void)table;
    ranges_cursor *made = sqlite3_malloc(sizeof *made);
    colfind_range *ranges = sqlite3_malloc(BATCH * sizeof *ranges);
    if (!made || !ranges) return sqlite3_free(made), sqlite3_free(ranges), SQLITE_NOMEM;
    *made = (ranges_cursor){.ranges = ranges, .room = BATCH};
    *out = &made->base;
    return SQLITE_OK;
}

static void forget_words(ranges_cursor *cursor) {
    for (int i = 0; i < MOST_WORDS; i++) sqlite3_value_free(cursor->values[i]), cursor->values[i] = NULL;
    colfind_free(&cursor->walk.search);
    cursor->count = cursor->at = cursor->number = cursor->from = cursor->before = 0;
}

static int ranges_close(sqlite3_vtab_cursor *base) {
    ranges_cursor *cursor = (ranges_cursor *)base;
    forget_words(cursor);
    sqlite3_free(cursor->ranges);
    sqlite3_free(cursor);
    return SQLITE_OK;
}

/* Ends a call of the table with the words, which are freed later. */
static int refuse(sqlite3_vtab *table, char *words) {
    if (!words) return SQLITE_NOMEM;
    sqlite3_free(table->zErrMsg);
    table->zErrMsg = words;
    return SQLITE_ERROR;
}

/* Goes to a range of those that were found last, or behind them to the next ones, which are read. The fault of a text stands behind all. */
static int go_to(ranges_cursor *cursor, size_t at) {
    sqlite3_vtab *table = cursor->base.pVtab;
    cursor->at = at;
    if (at == cursor->count) {
        cursor->at = 0;
        int status = next_ranges(((ranges_table *)table)->own->database, &cursor->walk, cursor->ranges, cursor->room, &cursor->count);
        if (status) return status;
        if (cursor->count == 0) return cursor->walk.status.kind ? refuse(table, fault_words("text", cursor->walk.status)) : SQLITE_OK;
    }
    size_t start = cursor->ranges[cursor->at].start;
    cursor->before += characters(cursor->given.bytes + cursor->from, start - cursor->from);
    cursor->from = start;
    return SQLITE_OK;
}

/* Finds all ranges of the cursor's text, with room for them, by the search that is kept. */
static void fill(ranges_cursor *cursor, kept_search *kept) {
    for (;;) {
        colfind_all all = colfind_all_in(&kept->search, cursor->given.bytes, cursor->given.len, cursor->ranges, cursor->room);
        cursor->walk = (walk){.status = all.status, .has_ended = true};
        cursor->count = all.count;
        if (all.status.kind != COLFIND_SMALL_BUFFER) return;
        cursor->count = 0;
        colfind_range *more = sqlite3_realloc64(cursor->ranges, all.count * sizeof *more);
        cursor->walk.status = (colfind_status){COLFIND_NO_MEMORY, 0};
        if (!more) return;
        cursor->ranges = more, cursor->room = all.count;
    }
}

/* Copies the values to the places of their words; false where memory was refused. */
static bool take_words(ranges_cursor *cursor, int given, sqlite3_value **values) {
    for (int word = 0; word < MOST_WORDS; word++)
        if (given >> word & 1 && !(cursor->values[word] = sqlite3_value_dup(*values++))) return false;
    return true;
}

static int ranges_filter(sqlite3_vtab_cursor *base, int given, const char *name, int n, sqlite3_value **values) {
    (void)name;
    ranges_cursor *cursor = (ranges_cursor *)base;
    sought manner = {0};
    char *words = NULL;
    kept_search *kept = NULL;
    forget_words(cursor);
    if (has_null(n, values)) return SQLITE_OK;
    if (!take_words(cursor, given, values) || !text_of(cursor->values[0], &cursor->given)) return SQLITE_NOMEM;
    if (manner_of(cursor->values + 2, MOST_WORDS - 2, &manner, &words))
        kept = search_for(((ranges_table *)base->pVtab)->own, cursor->values[1], &manner, cursor->given.len, ALL, &words);
    if (!kept) return refuse(base->pVtab, words);
    if (cursor->given.len <= most_at_once(ALL)) fill(cursor, kept);
    else cursor->walk = begin_walk(kept, cursor->given.bytes, cursor->given.len);
    return go_to(cursor, 0);
}

static int ranges_next(sqlite3_vtab_cursor *base) {
    ranges_cursor *cursor = (ranges_cursor *)base;
    cursor->number++;
    return go_to(cursor, cursor->at + 1);
}

static int ranges_end(sqlite3_vtab_cursor *base) {
    ranges_cursor *cursor = (ranges_cursor *)base;
    return cursor->at >= cursor->count;
}

static int ranges_column(sqlite3_vtab_cursor *base, sqlite3_context *context, int column) {
    ranges_cursor *cursor = (ranges_cursor *)base;
    colfind_range range = cursor->ranges[cursor->at];
    const uint8_t *match = cursor->given.bytes + range.start;
    size_t len = range.end - range.start;
    if (column == START) sqlite3_result_int64(context, (sqlite3_int64)(cursor->before + 1));
    else if (column == END) sqlite3_result_int64(context, (sqlite3_int64)(cursor->before + 1 + characters(match, len)));
    else if (column == MATCH) sqlite3_result_text64(context, (const char *)match, len, SQLITE_TRANSIENT, SQLITE_UTF8);
    else if (cursor->values[column - WORDS]) sqlite3_result_value(context, cursor->values[column - WORDS]);
    return SQLITE_OK;
}

static int ranges_row(sqlite3_vtab_cursor *base, sqlite3_int64 *out) {
    *out = (sqlite3_int64)((ranges_cursor *)base)->number + 1;
    return SQLITE_OK;
}

static const sqlite3_module ranges_module = {
    .xConnect = ranges_connect, .xDisconnect = ranges_disconnect, .xBestIndex = ranges_plan, .xOpen = ranges_open, .xClose = ranges_close,
    .xFilter = ranges_filter, .xNext = ranges_next, .xEof = ranges_end, .xColumn = ranges_column, .xRowid = ranges_row,
};

/* ---- the extension. A table is read by the user alone, not by what a file of a database has */

typedef struct { const char *name; int least, most, flags; void (*function)(sqlite3_context *, int, sqlite3_value **); } a_function;

static const a_function functions[] = {
    {"colfind_table", 0, 2, SQLITE_DIRECTONLY, table_function},
    {"colfind", 2, 4, SQLITE_DETERMINISTIC | SQLITE_INNOCUOUS, has_function},
    {"colfind_range", 2, 4, SQLITE_DETERMINISTIC | SQLITE_INNOCUOUS, range_function},
};

static int add_functions(sqlite3 *database, connection *own) {
    int status = SQLITE_OK;
    for (size_t i = 0; i < sizeof functions / sizeof *functions; i++)
        for (int n = functions[i].least; n <= functions[i].most && status == SQLITE_OK; n++) {
            own->holders++;
            status = sqlite3_create_function_v2(database, functions[i].name, n, SQLITE_UTF8 | functions[i].flags, own,
                                                functions[i].function, NULL, NULL, leave);
        }
    return status;
}

/* Each connection loads the extension, also while another one is in it: SQLite's calls are noted once. */
static void take_calls(const sqlite3_api_routines *calls) {
    static pthread_mutex_t lock = PTHREAD_MUTEX_INITIALIZER;
    pthread_mutex_lock(&lock);
    if (sqlite3_api != calls) SQLITE_EXTENSION_INIT2(calls);
    pthread_mutex_unlock(&lock);
}

__attribute__((visibility("default"))) int sqlite3_modcolfind_init(sqlite3 *database, char **error, const sqlite3_api_routines *calls) {
    (void)error;
    take_calls(calls);
    connection *own = sqlite3_malloc(sizeof *own);
    if (!own) return SQLITE_NOMEM;
    *own = (connection){.database = database, .holders = 2};
    begin_searches(&own->searches);
    int status = add_functions(database, own); /* first: a second load by a statement ends here, for they are in use then */
    if (status == SQLITE_OK) status = sqlite3_create_module_v2(database, "colfind_ranges", &ranges_module, own, leave);
    else leave(own);
    leave(own);
    return status;
}
