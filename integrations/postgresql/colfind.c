/* colfind: an extension of PostgreSQL that finds a pattern by Unicode collation. colfind--1.0.sql has its functions.
 *
 * A backend reads the table of colfind.table once, and keeps its searches for all calls, outside of the memory contexts: no call holds one
 * over a place where a query may end by an error or be cancelled. A long text is fed in pieces to a search of its own; between two of them the
 * query can be cancelled. The library never leaves a call but by its return. */
#include "postgres.h"

#include <fcntl.h>

#include "catalog/pg_type_d.h"
#include "fmgr.h"
#include "funcapi.h"
#include "lib/stringinfo.h"
#include "mb/pg_wchar.h"
#include "miscadmin.h"
#include "storage/fd.h"
#include "utils/builtins.h"
#include "utils/guc.h"
#include "utils/memutils.h"
#include "utils/rangetypes.h"
#include "utils/typcache.h"

#include "../searches.h"

PG_MODULE_MAGIC;
void _PG_init(void);

enum { BATCH = 256 };

typedef struct { const uint8_t *bytes; size_t len; } utf8;

static void report(int level, const char *what, colfind_status status) {
    char message[200];
    int code = status.kind < 20 || (status.kind > 60 && status.kind < 80) ? ERRCODE_CONFIG_FILE_ERROR
             : status.kind < 30 ? ERRCODE_INVALID_PARAMETER_VALUE : ERRCODE_DATA_EXCEPTION;
    switch (status.kind) {
    case COLFIND_TABLE_NO_MEMORY: case COLFIND_PATTERN_NO_MEMORY: case COLFIND_TEXT_NO_MEMORY: case COLFIND_NO_MEMORY:
        code = ERRCODE_OUT_OF_MEMORY;
    }
    colfind_message(status, message, sizeof message);
    ereport(level, (errcode(code), errmsg("colfind: %s: %s", what, message)));
}

/* ---- the table of the backend, and the searches that it keeps with it. `is_sure` says that it is that of the settings */

static char *table_name, *tailor_name;
static char *read_names[2];
static colfind_handle table;
static searches session;
static bool is_sure;

static void doubt(const char *value, void *extra) { is_sure = false; }

/* Appends the bytes of a file; false where it can't be read and `level` is no error. Nothing but a file is read, so nothing waits. */
static bool read_file(const char *name, StringInfo out, int level) {
    int file = OpenTransientFile(name, O_RDONLY | O_NONBLOCK | O_NOCTTY | PG_BINARY);
    bool is_file = file >= 0 && !wrong_file(file);
    ssize_t n = 1;
    while (is_file && n > 0 && out->len <= MOST_FILE) {
        CHECK_FOR_INTERRUPTS();
        enlargeStringInfo(out, PIECE);
        n = read(file, out->data + out->len, PIECE);
        out->len += Max(n, 0);
    }
    if (file < 0 || n < 0) ereport(level, (errcode_for_file_access(), errmsg("colfind: %s: %m", name)));
    else if (n > 0) ereport(level, (errcode(ERRCODE_CONFIG_FILE_ERROR), errmsg("colfind: %s: %s", name, no_such_file)));
    if (file >= 0) CloseTransientFile(file);
    return n == 0;
}

/* Notes which table there is. */
static void keep_names(void) {
    for (int i = 0; i < 2; i++) {
        if (read_names[i]) pfree(read_names[i]);
        read_names[i] = NULL;
    }
    read_names[0] = MemoryContextStrdup(TopMemoryContext, table_name);
    read_names[1] = MemoryContextStrdup(TopMemoryContext, tailor_name);
}

/* Reads the table of the settings. Where it can't and `level` is no error, there is the one that was there before. */
static void read_table(int level) {
    StringInfoData base, tailor;
    initStringInfo(&base), initStringInfo(&tailor);
    if (read_file(table_name, &base, level) && (!*tailor_name || read_file(tailor_name, &tailor, level))) {
        colfind_status status = colfind_table(&table, (uint8_t *)base.data, base.len, (uint8_t *)tailor.data, tailor.len);
        if (status.kind) report(level, status.kind > 60 && status.kind < 80 ? tailor_name : table_name, status);
        else forget_searches(&session), keep_names(), is_sure = true;
    }
    pfree(base.data), pfree(tailor.data);
}

static void need_table(void) {
    if (is_sure) return;
    if (!*table_name)
        ereport(ERROR, (errcode(ERRCODE_OBJECT_NOT_IN_PREREQUISITE_STATE), errmsg("colfind: no table"),
                        errhint("A superuser names one: ALTER DATABASE .. SET colfind.\"table\" = 'FILE'.")));
    if (read_names[1] && strcmp(table_name, read_names[0]) == 0 && strcmp(tailor_name, read_names[1]) == 0) is_sure = true;
    else read_table(ERROR);
}

/* Where the library is loaded by shared_preload_libraries, the server reads the table, and its backends have it. */
void _PG_init(void) {
    const char *about_table = "The file with the table of weights.", *about_tailor = "A file whose rows replace those of the table.";
    DefineCustomStringVariable("colfind.table", about_table, NULL, &table_name, "", PGC_SUSET, 0, NULL, doubt, NULL);
    DefineCustomStringVariable("colfind.tailor", about_tailor, NULL, &tailor_name, "", PGC_SUSET, 0, NULL, doubt, NULL);
    MarkGUCPrefixReserved("colfind");
    begin_searches(&session);
    if (process_shared_preload_libraries_in_progress && *table_name) read_table(WARNING);
}

/* ---- what is sought */

/* The bytes of a text in UTF-8: its own where the server has UTF-8, or SQL_ASCII, of which they are checked. */
static utf8 utf8_of(text *given) {
    char *own = VARDATA_ANY(given), *bytes = pg_server_to_any(own, VARSIZE_ANY_EXHDR(given), PG_UTF8);
    return (utf8){(uint8_t *)bytes, bytes == own ? VARSIZE_ANY_EXHDR(given) : strlen(bytes)};
}

static void refuse(const char *what) { ereport(ERROR, (errcode(ERRCODE_INVALID_PARAMETER_VALUE), errmsg("colfind: a %s", what))); }

static uint8_t choice_of(text *given, int (*number)(const char *, size_t), const char *what) {
    int choice = number(VARDATA_ANY(given), VARSIZE_ANY_EXHDR(given));
    if (choice < 0) refuse(what);
    return choice;
}

static sought sought_of(FunctionCallInfo fcinfo) {
    utf8 pattern = utf8_of(PG_GETARG_TEXT_PP(1));
    int strength = PG_GETARG_INT32(2);
    if (strength < 1 || strength > 3) refuse("strength is 1, 2 or 3");
    return (sought){pattern.bytes, pattern.len, strength,
                    choice_of(PG_GETARG_TEXT_PP(3), weighting_of, "weighting is 'non-ignorable' or 'shifted'"),
                    PG_NARGS() > 4 ? choice_of(PG_GETARG_TEXT_PP(4), selection_of, "selection is 'all' or 'chain'") : COLFIND_ALL};
}

/* The search that a call asks for, in a text of so many bytes. */
static kept_search *search_of(FunctionCallInfo fcinfo, size_t len, question wanted) {
    sought of = sought_of(fcinfo);
    colfind_status status = {0};
    kept_search *kept;
    need_table();
    if (!(kept = find_search(&session, &table, &of, len, wanted, &status))) report(ERROR, "pattern", status);
    return kept;
}

/* ---- ranges of a text */

/* The next ranges of a long text, as far as they have room; 0 at its end. */
static size_t next_ranges(walk *walk, colfind_range *out, size_t room) {
    size_t count;
    while (!(count = go_on(walk, out, room)) && !walk->has_ended) CHECK_FOR_INTERRUPTS();
    if (count == 0 && walk->status.kind) report(ERROR, "text", walk->status);
    return count;
}

/* Whether a text has a range: the first. */
static bool first_of_long(kept_search *kept, utf8 text, colfind_range *out) {
    walk walk = begin_walk(kept, text.bytes, text.len);
    volatile bool is_found = false;
    PG_TRY();
    {
        is_found = next_ranges(&walk, out, 1) > 0;
    }
    PG_FINALLY();
    {
        colfind_free(&walk.search);
    }
    PG_END_TRY();
    return is_found;
}

static bool first_of(kept_search *kept, utf8 text, colfind_range *out) {
    if (text.len > most_at_once(FIRST)) return first_of_long(kept, text, out);
    colfind_first first = colfind_first_in(&kept->search, text.bytes, text.len, 0);
    if (first.status.kind) report(ERROR, "text", first.status);
    *out = first.range;
    return first.is_found;
}

/* How many characters of the server's encoding a part of the text has. */
static int characters(const uint8_t *part, size_t len) {
    char *own = pg_any_to_server((const char *)part, len, PG_UTF8);
    int count = pg_mbstrlen_with_len(own, own == (const char *)part ? len : strlen(own));
    if (own != (const char *)part) pfree(own);
    return count;
}

/* A range of bytes as one of characters, counted from 1. `at` characters stand before the byte `from`, which is not behind its start. */
static Datum int4range_of(utf8 text, colfind_range range, size_t *from, int *at) {
    RangeBound start = {.inclusive = true, .lower = true}, end = {0};
    *at += characters(text.bytes + *from, range.start - *from);
    *from = range.start;
    start.val = Int32GetDatum(1 + *at);
    end.val = Int32GetDatum(1 + *at + characters(text.bytes + range.start, range.end - range.start));
    return RangeTypePGetDatum(make_range(lookup_type_cache(INT4RANGEOID, TYPECACHE_RANGE_INFO), &start, &end, false));
}

/* ---- the functions */

PG_FUNCTION_INFO_V1(pg_colfind);
PG_FUNCTION_INFO_V1(pg_colfind_range);
PG_FUNCTION_INFO_V1(pg_colfind_ranges);

Datum pg_colfind(PG_FUNCTION_ARGS) {
    utf8 given = utf8_of(PG_GETARG_TEXT_PP(0));
    kept_search *kept = search_of(fcinfo, given.len, FIRST);
    colfind_range range;
    uint32_t found = given.len <= most_at_once(FIRST) ? colfind_has(&kept->search, given.bytes, given.len) : 2;
    PG_RETURN_BOOL(found <= 1 ? found : first_of(kept, given, &range));
}

Datum pg_colfind_range(PG_FUNCTION_ARGS) {
    utf8 given = utf8_of(PG_GETARG_TEXT_PP(0));
    kept_search *kept = search_of(fcinfo, given.len, FIRST);
    colfind_range range;
    size_t from = 0;
    int at = 0;
    if (!first_of(kept, given, &range)) PG_RETURN_NULL();
    return int4range_of(given, range, &from, &at);
}

/* The rows that a call gives, and how far its text was counted. */
typedef struct { ReturnSetInfo *out; utf8 text; size_t from; int at; MemoryContext memory; } rows;

static void add_rows(rows *rows, const colfind_range *ranges, size_t n) {
    MemoryContext before = MemoryContextSwitchTo(rows->memory);
    for (size_t i = 0; i < n; i++) {
        bool nulls[2] = {false, false};
        const char *match = (const char *)rows->text.bytes + ranges[i].start;
        size_t len = ranges[i].end - ranges[i].start;
        char *own = pg_any_to_server(match, len, PG_UTF8);
        Datum values[2] = {int4range_of(rows->text, ranges[i], &rows->from, &rows->at),
                           PointerGetDatum(cstring_to_text_with_len(own, own == match ? len : strlen(own)))};
        tuplestore_putvalues(rows->out->setResult, rows->out->setDesc, values, nulls);
        if (i % BATCH == BATCH - 1) MemoryContextReset(rows->memory);
    }
    MemoryContextReset(rows->memory);
    MemoryContextSwitchTo(before);
    CHECK_FOR_INTERRUPTS();
}

/* All ranges of a short text, by the search that is kept. */
static void add_all(rows *rows, kept_search *kept) {
    colfind_range few[BATCH], *ranges = few;
    colfind_all all = colfind_all_in(&kept->search, rows->text.bytes, rows->text.len, few, BATCH);
    if (all.status.kind == COLFIND_SMALL_BUFFER) {
        ranges = palloc(all.count * sizeof *ranges);
        all = colfind_all_in(&kept->search, rows->text.bytes, rows->text.len, ranges, all.count);
    }
    if (all.status.kind) report(ERROR, "text", all.status);
    add_rows(rows, ranges, all.count);
    if (ranges != few) pfree(ranges);
}

/* All ranges of a long text, by a search of its own. */
static void add_all_of_long(rows *rows, kept_search *kept) {
    colfind_range ranges[BATCH];
    walk walk = begin_walk(kept, rows->text.bytes, rows->text.len);
    PG_TRY();
    {
        for (size_t n; (n = next_ranges(&walk, ranges, BATCH)) > 0;) add_rows(rows, ranges, n);
    }
    PG_FINALLY();
    {
        colfind_free(&walk.search);
    }
    PG_END_TRY();
}

Datum pg_colfind_ranges(PG_FUNCTION_ARGS) {
    rows rows = {.out = (ReturnSetInfo *)fcinfo->resultinfo, .text = utf8_of(PG_GETARG_TEXT_PP(0))};
    kept_search *kept = search_of(fcinfo, rows.text.len, ALL);
    InitMaterializedSRF(fcinfo, 0);
    rows.memory = AllocSetContextCreate(CurrentMemoryContext, "colfind", ALLOCSET_DEFAULT_SIZES);
    if (rows.text.len <= most_at_once(ALL)) add_all(&rows, kept);
    else add_all_of_long(&rows, kept);
    MemoryContextDelete(rows.memory);
    return (Datum)0;
}
