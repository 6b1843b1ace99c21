/* tests TABLE COLFIND ROUNDS: the ranges and faults of random texts in random pieces beside those of the program COLFIND, with searches
 * that are saved and resumed and requests for memory that are refused; each status that can come; and each request refused in turn. */
#include "colfind.h"
#include <assert.h>
#include <stdio.h>
#include <stdlib.h>
#include <string.h>
#include <unistd.h>

#define BYTES(s) (const uint8_t *)(s), strlen(s)
#define MOST 4096

/* ---- requests for memory: the one of this number is refused, 0 for none */

static long refuse_at, asked, refusals;
static long wholes, fronts, undecided, safe_places, backward, endings, parted; /* how often each answer has come */
void *__real_malloc(size_t n);
void *__real_realloc(void *p, size_t n);
void *__wrap_malloc(size_t n) { return ++asked == refuse_at ? NULL : __real_malloc(n); }
void *__wrap_realloc(void *p, size_t n) { return ++asked == refuse_at ? NULL : __real_realloc(p, n); }

/* ---- statuses: which have come */

static char reached[128];

static colfind_status seen(colfind_status status) {
    assert(status.kind < sizeof reached);
    reached[status.kind] = 1;
    return status;
}

static int is(colfind_status status, uint32_t kind, uint64_t at) {
    seen(status);
    return status.kind == kind && status.at == at;
}

static int is_refusal(uint32_t kind) {
    return kind == COLFIND_TABLE_NO_MEMORY || kind == COLFIND_PATTERN_NO_MEMORY || kind == COLFIND_TEXT_NO_MEMORY ||
           kind == COLFIND_STATE_NO_MEMORY || kind == COLFIND_NO_MEMORY;
}

/* A call is made again and again, in which the first request is refused, the second.. HANDLE is as it was after a refusal. A call may go on
 * without what was refused: one that changes a search is then done, each other one is made again until no request is refused. */
#define IN_TURN(result, handle, call) EACH_IN_TURN(result, handle, asked < turn, call)
#define ONCE_IN_TURN(result, handle, call) EACH_IN_TURN(result, handle, 1, call)
#define EACH_IN_TURN(result, handle, is_last, call) do { \
    for (long turn = 1;; turn++) { \
        void *before = (handle).at; \
        asked = 0, refuse_at = turn; \
        result = seen((call)); \
        refuse_at = 0; \
        if (is_refusal((result).kind)) assert(asked == turn && (handle).at == before); \
        else if (is_last) break; \
        refusals += asked >= turn; \
    } \
} while (0)

/* ---- random texts */

static uint64_t random_state = 88172645463325252u;

static size_t below(size_t n) {
    random_state ^= random_state << 13, random_state ^= random_state >> 7, random_state ^= random_state << 17;
    return random_state % n;
}

static const char *parts[] = {"resume", "r\303\251sum\303\251", "re\314\201sume\314\201", "a", "A", "aa", "ch", "c", "h", " ", "e", "s", "\n",
                              "\303\251", "\314\201", "\303\272", "\314\247", "\302\255", "-", "\346\274\242", "\360\237\230\200", "\377"};
static const char *sought[] = {"resume", "aa", "a", "e", "ch", "c", "r\303\251sum\303\251", "sumere", "\346\274\242", "-"};

static size_t random_text(uint8_t *text) {
    size_t n = 0, last = sizeof parts / sizeof *parts - (below(4) > 0); /* the last part is no UTF-8 */
    for (size_t left = below(60); left > 0; left--) {
        const char *part = parts[below(last)];
        memcpy(text + n, part, strlen(part));
        n += strlen(part);
    }
    return n;
}

/* ---- what is found */

typedef struct { colfind_range ranges[MOST]; size_t count; colfind_status fault; } answer;

static void by_program(const char *program, const char *table, const uint8_t *text, size_t n, const char *pattern, int strength, int shifted,
                       int chain, answer *out) {
    char name[] = "/tmp/colfind-tests-XXXXXX", line[256];
    int fd = mkstemp(name);
    assert(fd >= 0 && write(fd, text, n) == (ssize_t)n && close(fd) == 0);
    snprintf(line, sizeof line, "%s --table %s --strength %d --variable %s --select %s -- '%s' %s 2>&1", program, table, strength,
             shifted ? "shifted" : "non-ignorable", chain ? "chain" : "all", pattern, name);
    FILE *pipe = popen(line, "r");
    assert(pipe);
    memset(out, 0, sizeof *out);
    while (fgets(line, sizeof line, pipe)) {
        unsigned long long a, b;
        if (sscanf(line, "%llu:%llu", &a, &b) == 2) out->ranges[out->count++] = (colfind_range){a, b};
        else {
            char message[160];
            assert(sscanf(line, "colfind: fault %llu at %llu", &a, &b) == 2);
            out->fault = (colfind_status){(uint32_t)a, b};
            colfind_message(out->fault, message, sizeof message);
            line[strcspn(line, "\n")] = ':';
            assert(strncmp(message, line + strlen("colfind: "), strlen(line) - strlen("colfind: ")) == 0);
        }
    }
    pclose(pipe);
    unlink(name);
}

static void take_some(colfind_handle *search, answer *out, size_t room) {
    size_t waiting = colfind_pending(search), n = colfind_take(search, out->ranges + out->count, room);
    assert(n == (waiting < room ? waiting : room) && colfind_pending(search) == waiting - n);
    out->count += n;
}

/* A text in random pieces. */
static void by_library(colfind_handle *pattern, const uint8_t *text, size_t n, int chain, int refuses, answer *out) {
    colfind_handle search = {0};
    colfind_status status;
    uint64_t words[MOST];
    memset(out, 0, sizeof *out);
    if (refuses) IN_TURN(status, search, colfind_search(pattern, &search, chain));
    else status = colfind_search(pattern, &search, chain);
    assert(status.kind == 0);
    for (size_t at = 0, len; at < n; at += len) {
        len = 1 + below(below(3) ? 4 : 40);
        if (len > n - at) len = n - at;
        if (refuses) ONCE_IN_TURN(status, search, colfind_feed(&search, text + at, len));
        else status = seen(colfind_feed(&search, text + at, len));
        take_some(&search, out, below(4));
        if (status.kind) break;
        if (below(3)) continue;
        take_some(&search, out, MOST - out->count);
        colfind_saved saved = colfind_save(&search, words, below(2) ? MOST : 0);
        if (saved.status.kind) assert(is(saved.status, COLFIND_SMALL_BUFFER, saved.words));
        else if (refuses) IN_TURN(status, search, colfind_resume(pattern, &search, chain, words, saved.words));
        else status = colfind_resume(pattern, &search, chain, words, saved.words);
        assert(status.kind == 0);
    }
    if (!status.kind) {
        if (refuses) ONCE_IN_TURN(status, search, colfind_finish(&search));
        else status = seen(colfind_finish(&search));
        assert(is(colfind_feed(&search, text, n), COLFIND_ENDED, 0) && is(colfind_finish(&search), COLFIND_ENDED, 0));
        assert(is(colfind_stop(&search), COLFIND_ENDED, 0) && is(colfind_save(&search, words, MOST).status, COLFIND_ENDED, 0));
        assert(is(colfind_first_in(&search, text, n, 0).status, COLFIND_ENDED, 0));
        assert(is(colfind_search_part(&search, text, n, 0, n), COLFIND_ENDED, 0));
    }
    take_some(&search, out, MOST - out->count);
    out->fault = status;
    colfind_free(&search), colfind_free(&search);
}

static int same_first(colfind_first first, const answer *all, uint64_t from) {
    seen(first.status);
    if (all->count > 0)
        return !first.status.kind && first.is_found == 1 && first.range.start == all->ranges[0].start + from && first.range.end == all->ranges[0].end + from;
    return !first.is_found && first.status.kind == all->fault.kind && first.status.at == all->fault.at + (all->fault.kind ? from : 0);
}

/* All ranges by one call, with a search that is in the midst of another text, and whether there is one. */
static void all_at_once(colfind_handle *pattern, const uint8_t *text, size_t n, int chain, const answer *wanted) {
    static answer got;
    colfind_handle search = {0};
    colfind_status status;
    colfind_all all;
    size_t rooms[] = {MOST, wanted->count, wanted->count ? wanted->count - 1 : 0, 0};
    assert(colfind_search(pattern, &search, chain).kind == 0 && colfind_feed(&search, BYTES("resume aa res")).kind == 0);
    for (int i = 0; i < 4; i++) {
        size_t written = wanted->count < rooms[i] ? wanted->count : rooms[i];
        memset(&got, 0x5a, sizeof got);
        IN_TURN(status, search, (all = colfind_all_in(&search, text, n, got.ranges, rooms[i])).status);
        assert(all.count == wanted->count && colfind_pending(&search) == 0);
        if (wanted->count > rooms[i]) assert(is(status, COLFIND_SMALL_BUFFER, wanted->count));
        else assert(status.kind == wanted->fault.kind && status.at == wanted->fault.at);
        assert(memcmp(got.ranges, wanted->ranges, written * sizeof *got.ranges) == 0 && got.ranges[written].start == 0x5a5a5a5a5a5a5a5a);
        assert(colfind_has(&search, text, n) == (wanted->count ? 1 : wanted->fault.kind));
    }
    assert(colfind_finish(&search).kind == 0 && colfind_pending(&search) == 0);
    assert(is(colfind_all_in(&search, text, n, got.ranges, MOST).status, COLFIND_ENDED, 0) && colfind_has(&search, text, n) == COLFIND_ENDED);
    colfind_free(&search);
}

static int same_told(colfind_first a, colfind_first b) {
    return a.status.kind == b.status.kind && a.status.at == b.status.at && a.is_found == b.is_found && a.range.start == b.range.start &&
           a.range.end == b.range.end;
}

/* The same answers by a search amid a text, twice, which goes on as if nothing had been asked; and where it has ended. */
static void by_a_search(colfind_handle *pattern, const uint8_t *text, size_t n, colfind_equality wanted, colfind_first first) {
    colfind_handle search = {0};
    colfind_status status;
    colfind_equality equality;
    colfind_first begun;
    assert(colfind_search(pattern, &search, COLFIND_ALL).kind == 0);
    for (int i = 0; i < 3; i++) {
        if (i < 2) assert(colfind_feed(&search, BYTES("\344\270\201")).kind == 0);
        else assert(colfind_stop(&search).kind == 0);
        size_t waiting = colfind_pending(&search);
        IN_TURN(status, search, (equality = colfind_equal(&search, text, n)).status);
        assert(equality.is_equal == wanted.is_equal && is(status, wanted.status.kind, wanted.status.at));
        IN_TURN(status, search, (begun = colfind_begins(&search, text, n)).status);
        assert(same_told(begun, first) && colfind_pending(&search) == waiting);
        asked = 0;
        assert(colfind_equal(&search, text, n).is_equal == wanted.is_equal && asked == 0);
    }
    colfind_free(&search);
}

/* Whether a text is equal to the pattern, and which match begins it, beside the first range of the text between letters that stand nowhere
 * else, for a pattern between these. */
#define GUARD "\344\270\201"
static void from_the_beginning(colfind_handle *table, colfind_handle *pattern, const char *word, int strength, int shifted,
                               const uint8_t *text, size_t n) {
    colfind_handle whole = {0}, front = {0};
    colfind_status status;
    colfind_equality equality;
    colfind_first first, wanted;
    uint8_t guarded[MOST + 6];
    char sought_whole[64];
    snprintf(sought_whole, sizeof sought_whole, GUARD "%s" GUARD, word);
    memcpy(guarded, GUARD, 3), memcpy(guarded + 3, text, n), memcpy(guarded + 3 + n, GUARD, 3);
    assert(colfind_pattern(table, &whole, BYTES(sought_whole), (uint8_t)strength, (uint8_t)shifted).kind == 0);
    assert(colfind_pattern(table, &front, (uint8_t *)sought_whole, strlen(sought_whole) - 3, (uint8_t)strength, (uint8_t)shifted).kind == 0);
    IN_TURN(status, *pattern, (equality = colfind_equal(pattern, text, n)).status);
    wanted = colfind_index(&whole, guarded, n + 6);
    assert(equality.is_equal == wanted.is_found && (!status.kind || is(wanted.status, status.kind, status.at + 3)));
    IN_TURN(status, *pattern, (first = colfind_begins(pattern, text, n)).status);
    wanted = colfind_index(&front, guarded, n + 3);
    assert(first.is_found == wanted.is_found && (!status.kind || is(wanted.status, status.kind, status.at + 3)));
    if (first.is_found) assert(!status.kind && first.range.start == 0 && first.range.end + 3 == wanted.range.end);
    wholes += equality.is_equal, fronts += first.is_found, undecided += status.kind != 0;
    by_a_search(pattern, text, n, equality, first);
    colfind_free(&whole), colfind_free(&front);
}

/* What the text from an offset on says up to another one: the fault, if it stands before that, else the last range that ends there or before. */
static colfind_first said_from(colfind_handle *search, const uint8_t *text, size_t n, size_t from, size_t at) {
    static answer rest;
    colfind_first said = {0};
    colfind_all all = colfind_all_in(search, text + from, n - from, rest.ranges, MOST);
    if (all.status.kind && all.status.at + from < at) {
        said.status = (colfind_status){all.status.kind, all.status.at + from};
        return said;
    }
    for (size_t i = 0; i < all.count; i++)
        if (rest.ranges[i].end + from <= at)
            said.is_found = 1, said.range = (colfind_range){rest.ranges[i].start + from, rest.ranges[i].end + from};
    return said;
}

/* What is met first going back: what the nearest safe offset says that says something, or the whole text. */
static colfind_first met_first(colfind_handle *search, const uint8_t *text, size_t n, size_t at) {
    for (size_t end = at < n ? at : n; ; ) {
        colfind_place place = colfind_previous_safe(search, text, n, end);
        colfind_first said = said_from(search, text, n, place.at, at);
        if (said.is_found || said.status.kind || !place.is_found) return said;
        end = place.at;
    }
}

/* What is told of a text where the last fault is met and no match ends behind it: that fault, or nothing, as behind a bad byte alone. */
static colfind_first told_behind(colfind_handle *search, colfind_handle *pattern, const uint8_t *text, size_t n, colfind_first fault) {
    uint8_t behind[MOST + 1] = {0xff};
    colfind_place next = colfind_next_safe(search, text, n, fault.status.at + 1);
    size_t from = next.is_found ? next.at : n;
    memcpy(behind + 1, text + from, n - from);
    colfind_first told = colfind_ends(pattern, behind, n - from + 1);
    assert(!told.is_found && (!told.status.kind || is(told.status, COLFIND_TEXT_ILL_FORMED, 0)));
    return told.status.kind ? fault : told;
}

/* The last range before some offsets, and the match that ends where the text ends. Without a fault that is the range, up to a letter that
 * stands nowhere else, of the pattern before this letter. */
static void going_back(colfind_handle *table, colfind_handle *pattern, const char *word, int strength, int shifted, const uint8_t *text,
                       size_t n) {
    colfind_handle search = {0}, back = {0};
    colfind_status status;
    colfind_first first, wanted;
    uint8_t guarded[MOST + 3];
    char sought_back[64];
    assert(colfind_search(pattern, &search, COLFIND_ALL).kind == 0);
    for (int i = 0; i < 4; i++) {
        size_t at = i ? below(n + 2) : n;
        IN_TURN(status, *pattern, (first = colfind_last_before(pattern, text, n, at)).status);
        assert(same_told(first, met_first(&search, text, n, at)));
        backward += first.is_found;
    }
    snprintf(sought_back, sizeof sought_back, "%s" GUARD, word);
    memcpy(guarded, text, n), memcpy(guarded + n, GUARD, 3);
    assert(colfind_pattern(table, &back, BYTES(sought_back), (uint8_t)strength, (uint8_t)shifted).kind == 0);
    IN_TURN(status, *pattern, (first = colfind_ends(pattern, text, n)).status);
    wanted = colfind_index(&back, guarded, n + 3);
    if (wanted.status.kind) {
        wanted = met_first(&search, text, n, n);
        if (wanted.is_found && !colfind_equal(pattern, text + wanted.range.start, n - wanted.range.start).is_equal) wanted = (colfind_first){0};
        if (wanted.status.kind) wanted = told_behind(&search, pattern, text, n, wanted);
    }
    if (wanted.is_found) wanted.range.end = n;
    assert(same_told(first, wanted));
    endings += first.is_found;
    colfind_free(&search), colfind_free(&back);
}

/* Searches a part, each request for memory refused in turn: then no range waits, or the search went on without. */
static colfind_status part_in_turn(colfind_handle *search, const uint8_t *text, size_t n, size_t from, size_t to) {
    for (long turn = 1;; turn++) {
        asked = 0, refuse_at = turn;
        colfind_status status = seen(colfind_search_part(search, text, n, from, to));
        refuse_at = 0;
        if (is_refusal(status.kind)) assert(is(status, COLFIND_NO_MEMORY, 0) && colfind_pending(search) == 0);
        else if (asked < turn) return status;
        refusals += asked >= turn;
    }
}

/* A part between two offsets, beside the ranges of the rest of the text; and parts between safe offsets, beside those of the whole text. */
static void in_parts(colfind_handle *pattern, const uint8_t *text, size_t n, int chain) {
    static answer all, got;
    colfind_handle search = {0}, other = {0};
    colfind_status status;
    size_t from = below(n + 1), to = from + below(n + 3 - from), cut, at = 0;
    assert(colfind_search(pattern, &search, chain).kind == 0 && colfind_search(pattern, &other, chain).kind == 0);
    assert(colfind_feed(&search, BYTES("resume aa res")).kind == 0);
    status = part_in_turn(&search, text, n, from, to);
    got.count = colfind_take(&search, got.ranges, MOST);
    colfind_all rest = colfind_all_in(&other, text + from, n - from, all.ranges, MOST);
    if (rest.status.kind && rest.status.at + from <= to) assert(is(status, rest.status.kind, rest.status.at + from));
    else assert(is(status, COLFIND_GOOD, 0));
    for (size_t i = 0; i < rest.count && all.ranges[i].start + from < to; i++, at++)
        assert(at < got.count && got.ranges[i].start == all.ranges[i].start + from && got.ranges[i].end == all.ranges[i].end + from);
    assert(at == got.count && colfind_feed(&search, BYTES("a")).kind == 0);
    assert(is(colfind_search_part(&search, text, n, n + 1, n + 1), COLFIND_BAD_ARGUMENT, 0));
    if (from) assert(is(colfind_search_part(&search, text, n, from, from - 1), COLFIND_BAD_ARGUMENT, 0));
    colfind_free(&search), colfind_free(&other);
    assert(colfind_search(pattern, &search, COLFIND_ALL).kind == 0 && colfind_search(pattern, &other, COLFIND_ALL).kind == 0);
    rest = colfind_all_in(&other, text, n, all.ranges, MOST);
    got.count = 0;
    for (at = 0, cut = 0, status.kind = 0; !status.kind && (at < n || cut == 0); at = cut) {
        colfind_place place = colfind_next_safe(&search, text, n, at + 1 + below(40));
        cut = place.is_found ? place.at : n;
        status = seen(colfind_search_part(&search, text, n, at, cut));
        take_some(&search, &got, MOST - got.count);
        parted++;
        if (cut == n) break;
    }
    assert(status.kind == rest.status.kind && status.at == rest.status.at && got.count == rest.count);
    assert(memcmp(got.ranges, all.ranges, got.count * sizeof *got.ranges) == 0);
    colfind_free(&search), colfind_free(&other);
}

/* The word in the midst of characters of which some are ignored. */
static size_t text_around(const char *word, uint8_t *text) {
    static const char *around[] = {"", "", "\302\255", "-", " ", "\314\201", "s", "\377"};
    return (size_t)sprintf((char *)text, "%s%s%s", around[below(7)], word, around[below(8)]);
}

/* Safe offsets, asked of each offset, and what is found from each of them on. */
static void safe_offsets(colfind_handle *table, colfind_handle *pattern, const uint8_t *text, size_t n) {
    colfind_handle search = {0}, *handles[] = {table, pattern, &search};
    static answer all, rest;
    assert(colfind_search(pattern, &search, COLFIND_ALL).kind == 0);
    colfind_all found = colfind_all_in(&search, text, n, all.ranges, MOST);
    size_t last = SIZE_MAX, offset = 0; /* the safe offset before the one that is asked, and the next one; none is SIZE_MAX */
    for (size_t at = 0; at <= n + 1; at++) {
        colfind_place next = colfind_next_safe(handles[at % 3], text, n, at), before = colfind_previous_safe(handles[at % 2], text, n, at);
        assert(is(next.status, COLFIND_GOOD, 0) && is(before.status, COLFIND_GOOD, 0));
        assert(before.is_found == (last != SIZE_MAX) && (!before.is_found || before.at == last));
        size_t found_at = next.is_found ? next.at : SIZE_MAX;
        assert(at == 0 || offset < at || found_at == offset);
        offset = found_at;
        assert(next.is_found ? next.at >= at && next.at < n : next.at == 0);
        int is_safe = offset == at;
        if (at < n && text[at] && strchr("abcemrsu", text[at])) assert(is_safe); /* contractions begin with `c` and with `u` */
        if (at < n && (text[at] == 'h' || (text[at] & 0xC0) == 0x80)) assert(!is_safe);
        if (!is_safe) continue;
        last = at;
        if (found.status.kind && at >= found.status.at) continue;
        colfind_all from = colfind_all_in(&search, text + at, n - at, rest.ranges, MOST);
        assert(is(from.status, found.status.kind, found.status.kind ? found.status.at - at : 0) && from.count <= found.count);
        for (size_t i = 0; i < from.count; i++) {
            colfind_range wanted = all.ranges[found.count - from.count + i];
            assert(rest.ranges[i].start + at == wanted.start && rest.ranges[i].end + at == wanted.end);
        }
        assert(from.count == found.count || all.ranges[found.count - from.count - 1].start < at);
        safe_places++;
    }
    colfind_free(&search);
}

static void random_round(const char *table_name, const char *program, colfind_handle *table, int refuses) {
    colfind_handle pattern = {0}, search = {0};
    colfind_status status;
    static answer wanted, got;
    uint8_t text[MOST], around[64];
    size_t n = random_text(text), from = below(n + 1);
    const char *word = sought[below(sizeof sought / sizeof *sought)];
    int strength = 1 + (int)below(3), chain = (int)below(2), shifted = (int)below(2);
    IN_TURN(status, pattern, colfind_pattern(table, &pattern, BYTES(word), (uint8_t)strength, (uint8_t)shifted));
    if (is(status, COLFIND_PATTERN_NO_KEY, 0)) { assert(!pattern.at); return; }
    by_program(program, table_name, text, n, word, strength, shifted, chain, &wanted);
    by_library(&pattern, text, n, chain, refuses, &got);
    assert(got.fault.kind == wanted.fault.kind && got.fault.at == wanted.fault.at && got.count == wanted.count);
    assert(memcmp(got.ranges, wanted.ranges, got.count * sizeof *got.ranges) == 0);
    all_at_once(&pattern, text, n, chain, &wanted);
    from_the_beginning(table, &pattern, word, strength, shifted, text, n);
    safe_offsets(table, &pattern, text, n);
    going_back(table, &pattern, word, strength, shifted, text, n);
    in_parts(&pattern, text, n, chain);
    size_t len = text_around(word, around);
    from_the_beginning(table, &pattern, word, strength, shifted, around, len);
    going_back(table, &pattern, word, strength, shifted, around, len);
    /* the first range, with a new search each time and with one for all */
    assert(colfind_search(&pattern, &search, COLFIND_ALL).kind == 0 && colfind_feed(&search, BYTES("resume aa res")).kind == 0);
    for (int twice = 0; twice < 2; twice++) {
        by_program(program, table_name, text + from, n - from, word, strength, shifted, 0, &wanted);
        assert(same_first(colfind_index_from(&pattern, text, n, from), &wanted, from));
        asked = 0, refuse_at = (long)below(3); /* it does without what is refused */
        colfind_first first = colfind_first_in(&search, text, n, from);
        refuse_at = 0;
        assert(same_first(first, &wanted, from) && colfind_pending(&search) == 0);
        if (from == 0) assert(same_first(colfind_index(&pattern, text, n), &wanted, 0));
        from = 0;
    }
    assert(is(colfind_index_from(&pattern, text, n, n + 1).status, COLFIND_BAD_ARGUMENT, 0));
    assert(is(colfind_first_in(&search, text, n, n + 1).status, COLFIND_BAD_ARGUMENT, 0));
    colfind_free(&search), colfind_free(&pattern);
}

/* ---- each status */

#define A "0061 ; [.1C00.0020.0002]\n"
#define LONG "0061 0061 0061 0061 0061 0061 0061 0061 0061 0061 0061 0061 0061 "

/* the faults of one line, which a tailor has too */
static const struct { uint32_t kind; uint64_t at; const char *lines; } line_faults[] = {
    {COLFIND_TABLE_MALFORMED_LINE, 2, A "nonsense\n"},
    {COLFIND_TABLE_BEYOND_UNICODE, 1, "110000 ; [.1C00.0020.0002]\n"},
    {COLFIND_TABLE_MAPPED_TWICE, 2, A A},
    {COLFIND_TABLE_TOO_LONG, 1, LONG LONG LONG LONG LONG "; [.1C00.0020.0002]\n"},
    {COLFIND_TABLE_BREAKS_WF1, 1, "0061 ; [.1C00.0000.0002]\n"},
    {COLFIND_TABLE_BREAKS_WF3, 1, "0061 ; [*0000.0020.0002]\n"},
    {COLFIND_TABLE_BREAKS_PAIRS, 1, "0061 ; [.FB40.0020.0002]\n"},
    {COLFIND_TABLE_BAD_RANGE, 1, "@implicitweights 18AFF..17000; FB00\n"},
};

static void statuses_of_tables(void) {
    colfind_handle table = {0};
    for (size_t i = 0; i < sizeof line_faults / sizeof *line_faults; i++) {
        assert(is(colfind_table(&table, BYTES(line_faults[i].lines), BYTES("")), line_faults[i].kind, line_faults[i].at));
        assert(is(colfind_table(&table, BYTES(A), BYTES(line_faults[i].lines)), line_faults[i].kind + 60, line_faults[i].at));
    }
    char ranges[257 * 40], *end = ranges;
    for (int i = 0; i < 257; i++) end += sprintf(end, "@implicitweights %X..%X; FB00\n", 0x17000 + i, 0x17000 + i);
    assert(is(colfind_table(&table, BYTES(ranges), BYTES("")), COLFIND_TABLE_TOO_MANY_LINES, 257));
    assert(is(colfind_table(&table, BYTES(A), BYTES(ranges)), COLFIND_TAILOR_TOO_MANY_LINES, 257));
    assert(is(colfind_table(&table, BYTES(A "0301 ; [.0000.0010.0002]\n"), BYTES("")), COLFIND_TABLE_BREAKS_WF2, 0));
    assert(is(colfind_table(&table, BYTES("0020 ; [*0201.0020.0002]\n0061 ; [.0202.0020.0002]\n002D ; [*0203.0020.0002]\n"), BYTES("")),
              COLFIND_TABLE_BREAKS_WF4, 0));
    assert(is(colfind_table(&table, BYTES(A "0061 0062 0301 ; [.1C00.0020.0002]\n"), BYTES("")), COLFIND_TABLE_BREAKS_WF5, 0));
    assert(is(colfind_table(&table, BYTES(""), BYTES("")), COLFIND_TABLE_NO_ENTRY, 0));
    assert(!table.at);
}

static void statuses_of_calls(colfind_handle *table) {
    colfind_handle pattern = {0}, other = {0}, search = {0}, out = {0}, empty = {0};
    uint64_t words[MOST], none[1] = {7};
    colfind_range range;
    static uint8_t many[65537];
    memset(many, 'a', sizeof many);
    assert(is(colfind_pattern(table, &out, many, sizeof many, 1, 0), COLFIND_PATTERN_TOO_LONG, 0));
    assert(is(colfind_pattern(table, &out, BYTES(""), 1, 0), COLFIND_PATTERN_NO_KEY, 0));
    for (size_t i = 0; i < 62; i += 2) memcpy(many + i, "\314\201", 2);
    assert(is(colfind_pattern(table, &out, many, 62, 3, 0), COLFIND_PATTERN_LONG_RUN, 0));
    assert(is(colfind_pattern(table, &out, BYTES("a"), 0, 0), COLFIND_BAD_ARGUMENT, 0));
    assert(is(colfind_pattern(table, &out, BYTES("a"), 4, 0), COLFIND_BAD_ARGUMENT, 0));
    assert(is(colfind_pattern(table, &out, BYTES("a"), 1, 2), COLFIND_BAD_ARGUMENT, 0));
    assert(is(colfind_pattern(table, &out, BYTES("\377"), 1, 0), COLFIND_BAD_ARGUMENT, 0));
    assert(is(colfind_pattern(&empty, &out, BYTES("a"), 1, 0), COLFIND_WRONG_HANDLE, 0) && !out.at);
    assert(is(colfind_pattern(table, &pattern, BYTES("resume"), 1, 0), COLFIND_GOOD, 0));
    assert(is(colfind_pattern(table, &other, BYTES("aa"), 1, 0), COLFIND_GOOD, 0));
    assert(is(colfind_search(&pattern, &out, 2), COLFIND_BAD_ARGUMENT, 0));
    assert(is(colfind_search(&pattern, &search, COLFIND_ALL), COLFIND_GOOD, 0));
    size_t count = colfind_save(&search, words, MOST).words;
    assert(is(colfind_save(&search, words, count - 1).status, COLFIND_SMALL_BUFFER, count));
    assert(is(colfind_resume(&pattern, &out, 2, words, count), COLFIND_BAD_ARGUMENT, 0));
    assert(is(colfind_resume(&pattern, &out, COLFIND_CHAIN, words, count), COLFIND_STATE_MALFORMED, 0));
    assert(is(colfind_resume(&pattern, &out, COLFIND_ALL, none, 1), COLFIND_STATE_MALFORMED, 0));
    assert(is(colfind_resume(&other, &out, COLFIND_ALL, words, count), COLFIND_STATE_OF_ANOTHER, 0) && !out.at);
    /* a handle of the wrong kind, in each call */
    colfind_handle *wrong[] = {&empty, table, &pattern, &search};
    for (int i = 0; i < 4; i++) {
        void *before = wrong[i]->at;
        if (wrong[i] != table) assert(is(colfind_pattern(wrong[i], &out, BYTES("a"), 1, 0), COLFIND_WRONG_HANDLE, 0));
        if (wrong[i] != &pattern) {
            assert(is(colfind_search(wrong[i], &out, COLFIND_ALL), COLFIND_WRONG_HANDLE, 0));
            assert(is(colfind_resume(wrong[i], &out, COLFIND_ALL, words, count), COLFIND_WRONG_HANDLE, 0));
            assert(is(colfind_index(wrong[i], BYTES("a")).status, COLFIND_WRONG_HANDLE, 0));
            assert(is(colfind_index_from(wrong[i], BYTES("a"), 0).status, COLFIND_WRONG_HANDLE, 0));
            assert(same_told(colfind_last_before(wrong[i], BYTES("resume"), 6), (colfind_first){{COLFIND_WRONG_HANDLE, 0}, 0, {0, 0}}));
            assert(same_told(colfind_ends(wrong[i], BYTES("resume")), (colfind_first){{COLFIND_WRONG_HANDLE, 0}, 0, {0, 0}}));
        }
        if (wrong[i] == &empty || wrong[i] == table) {
            colfind_equality equal = colfind_equal(wrong[i], BYTES("resume"));
            assert(is(equal.status, COLFIND_WRONG_HANDLE, 0) && equal.is_equal == 0);
            assert(same_told(colfind_begins(wrong[i], BYTES("resume")), (colfind_first){{COLFIND_WRONG_HANDLE, 0}, 0, {0, 0}}));
        }
        if (wrong[i] == &empty) {
            colfind_place next = colfind_next_safe(&empty, BYTES("a"), 0), before = colfind_previous_safe(&empty, BYTES("a"), 1);
            assert(is(next.status, COLFIND_WRONG_HANDLE, 0) && is(before.status, COLFIND_WRONG_HANDLE, 0) && !next.is_found && !before.is_found);
        }
        if (wrong[i] == &empty || wrong[i] == &search) assert(is(colfind_share(wrong[i], &out), COLFIND_WRONG_HANDLE, 0));
        if (wrong[i] != &search) {
            assert(is(colfind_feed(wrong[i], BYTES("a")), COLFIND_WRONG_HANDLE, 0) && is(colfind_finish(wrong[i]), COLFIND_WRONG_HANDLE, 0));
            assert(is(colfind_stop(wrong[i]), COLFIND_WRONG_HANDLE, 0) && is(colfind_save(wrong[i], words, 1).status, COLFIND_WRONG_HANDLE, 0));
            assert(is(colfind_first_in(wrong[i], BYTES("a"), 0).status, COLFIND_WRONG_HANDLE, 0));
            assert(is(colfind_all_in(wrong[i], BYTES("a"), &range, 1).status, COLFIND_WRONG_HANDLE, 0));
            assert(is(colfind_search_part(wrong[i], BYTES("a"), 0, 1), COLFIND_WRONG_HANDLE, 0));
            assert(colfind_has(wrong[i], BYTES("a")) == COLFIND_WRONG_HANDLE);
            assert(colfind_pending(wrong[i]) == 0 && colfind_take(wrong[i], &range, 1) == 0);
        }
        assert(wrong[i]->at == before && !out.at);
    }
    /* faults of a text, told again by each later call */
    for (int again = 0; again < 2; again++) assert(is(colfind_feed(&search, BYTES("resume \377")), COLFIND_TEXT_ILL_FORMED, 7));
    assert(colfind_pending(&search) == 1 && is(colfind_finish(&search), COLFIND_TEXT_ILL_FORMED, 7));
    assert(is(colfind_feed(&search, BYTES("a")), COLFIND_ENDED, 0) && colfind_take(&search, &range, 1) == 1 && range.end == 6);
    assert(is(colfind_index(&pattern, many, 62).status, COLFIND_TEXT_LONG_RUN, 60));
    assert(is(colfind_search(&pattern, &search, COLFIND_ALL), COLFIND_GOOD, 0) && colfind_feed(&search, BYTES("resume, r\303")).kind == 0);
    assert(is(colfind_stop(&search), COLFIND_GOOD, 0) && colfind_take(&search, &range, 1) == 1 && range.end == 6);
    /* those that only words can say: a fault that was reported, and bytes up to the last that may be taken */
    uint32_t kinds[] = {COLFIND_TEXT_LONG_DECOMPOSITION, COLFIND_TEXT_TOO_LONG, COLFIND_TEXT_DECOMPOSITION_NO_MEMORY};
    for (int i = 0; i < 3; i++) {
        words[7] = kinds[i];
        assert(is(colfind_resume(&pattern, &search, COLFIND_ALL, words, count), COLFIND_GOOD, 0));
        assert(is(colfind_feed(&search, BYTES("a")), kinds[i], 0));
    }
    words[7] = 0, words[6] = (uint64_t)1 << 62;
    assert(is(colfind_resume(&pattern, &search, COLFIND_ALL, words, count), COLFIND_GOOD, 0));
    assert(is(colfind_feed(&search, BYTES("a")), COLFIND_TEXT_TOO_LONG, (uint64_t)1 << 62));
    colfind_free(&search), colfind_free(&pattern), colfind_free(&other), colfind_free(&empty);
}

/* ---- worked rows */

#define ROW(call, found, from, to) assert(same_told((call), (colfind_first){{0, 0}, found, {from, to}}))
#define FAULT(call, at) assert(same_told((call), (colfind_first){{COLFIND_TEXT_ILL_FORMED, at}, 0, {0, 0}}))

static void rows(colfind_handle *table) {
    colfind_handle aa = {0}, c = {0}, search = {0};
    colfind_range range;
    assert(colfind_pattern(table, &aa, BYTES("aa"), 3, 0).kind == 0 && colfind_pattern(table, &c, BYTES("c"), 3, 0).kind == 0);
    ROW(colfind_last_before(&aa, BYTES("aaa"), 3), 1, 1, 3);
    ROW(colfind_last_before(&aa, BYTES("aaa"), 9), 1, 1, 3);
    ROW(colfind_last_before(&aa, BYTES("aaa"), 2), 1, 0, 2);
    ROW(colfind_last_before(&aa, BYTES("aaa"), 1), 0, 0, 0);
    FAULT(colfind_last_before(&aa, BYTES("aaa\377"), 4), 3);
    ROW(colfind_last_before(&aa, BYTES("aaa\377"), 3), 1, 0, 2);
    ROW(colfind_last_before(&aa, BYTES("\377 aa"), 4), 1, 2, 4);
    ROW(colfind_ends(&aa, BYTES("aaa")), 1, 1, 3);
    ROW(colfind_ends(&aa, BYTES("aa ")), 0, 0, 0);
    ROW(colfind_ends(&aa, BYTES("a aa\302\255")), 1, 2, 6);
    ROW(colfind_ends(&aa, BYTES("aa\314\201")), 0, 0, 0);
    ROW(colfind_ends(&aa, BYTES("")), 0, 0, 0);
    ROW(colfind_ends(&c, BYTES("ac")), 1, 1, 2);
    ROW(colfind_ends(&c, BYTES("ach")), 0, 0, 0);
    FAULT(colfind_ends(&aa, BYTES("aa\377")), 2);
    FAULT(colfind_ends(&aa, BYTES("\377bb")), 0);
    ROW(colfind_ends(&aa, BYTES("\377bbb")), 0, 0, 0);
    ROW(colfind_ends(&aa, BYTES("\377 aa")), 1, 2, 4);
    assert(colfind_search(&aa, &search, COLFIND_ALL).kind == 0);
    assert(is(colfind_search_part(&search, BYTES("aaaa"), 0, 2), COLFIND_GOOD, 0) && colfind_pending(&search) == 2);
    assert(colfind_take(&search, &range, 1) == 1 && range.start == 0 && range.end == 2);
    assert(colfind_take(&search, &range, 1) == 1 && range.start == 1 && range.end == 3);
    assert(is(colfind_search_part(&search, BYTES("aaaa"), 2, 9), COLFIND_GOOD, 0) && colfind_pending(&search) == 1);
    assert(is(colfind_search_part(&search, BYTES("aaaa"), 4, 4), COLFIND_GOOD, 0) && colfind_pending(&search) == 0);
    assert(is(colfind_search_part(&search, BYTES("aa\377aa"), 1, 2), COLFIND_TEXT_ILL_FORMED, 2) && colfind_pending(&search) == 0);
    assert(is(colfind_search_part(&search, BYTES("aa\377aa"), 3, 5), COLFIND_GOOD, 0) && colfind_pending(&search) == 1);
    colfind_free(&aa), colfind_free(&c), colfind_free(&search);
}

/* ---- refused memory */

static colfind_status save_into(colfind_handle *search, uint64_t *words, size_t *count) {
    colfind_saved saved = colfind_save(search, words, MOST);
    *count = saved.words;
    return saved.status;
}

static void refusals_in_turn(const uint8_t *base, size_t n) {
    colfind_handle table = {0}, pattern = {0}, search = {0}, other = {0};
    colfind_status status;
    uint64_t words[MOST];
    size_t count = 0;
    for (int twice = 0; twice < 2; twice++) { /* the second time each handle has something */
        IN_TURN(status, table, colfind_table(&table, base, n, BYTES("0062 ; [.1C10.0020.0002]\n")));
        assert(status.kind == 0);
        IN_TURN(status, other, colfind_share(&table, &other));
        assert(status.kind == 0);
        IN_TURN(status, pattern, colfind_pattern(&other, &pattern, BYTES("resume"), 1, 0));
        assert(status.kind == 0);
        IN_TURN(status, other, colfind_share(&pattern, &other));
        assert(status.kind == 0 && colfind_index(&other, BYTES("a resume")).is_found);
        IN_TURN(status, search, colfind_search(&pattern, &search, COLFIND_ALL));
        assert(status.kind == 0);
        ONCE_IN_TURN(status, search, colfind_feed(&search, BYTES("a resume, res")));
        assert(status.kind == 0);
        IN_TURN(status, search, save_into(&search, words, &count));
        assert(status.kind == 0);
        IN_TURN(status, search, colfind_resume(&pattern, &search, COLFIND_ALL, words, count));
        assert(status.kind == 0);
        IN_TURN(status, pattern, colfind_index(&pattern, BYTES("a resume")).status);
        assert(status.kind == 0);
        IN_TURN(status, pattern, colfind_index_from(&pattern, BYTES("a resume"), 1).status);
        assert(status.kind == 0);
        IN_TURN(status, pattern, colfind_equal(&pattern, BYTES("resume")).status);
        assert(status.kind == 0 && colfind_equal(&pattern, BYTES("resume")).is_equal == 1);
        IN_TURN(status, pattern, colfind_begins(&pattern, BYTES("resume a")).status);
        assert(status.kind == 0 && colfind_begins(&pattern, BYTES("resume a")).range.end == 6);
        IN_TURN(status, pattern, colfind_last_before(&pattern, BYTES("a resume a"), 9).status);
        assert(status.kind == 0 && colfind_last_before(&pattern, BYTES("a resume a"), 9).range.start == 2);
        IN_TURN(status, pattern, colfind_ends(&pattern, BYTES("a resume")).status);
        assert(status.kind == 0 && colfind_ends(&pattern, BYTES("a resume")).range.start == 2);
        status = part_in_turn(&search, BYTES("a resume resume"), 1, 9);
        assert(status.kind == 0 && colfind_pending(&search) == 1);
        asked = 0;
        assert(colfind_next_safe(&pattern, BYTES("ha"), 0).at == 1 && colfind_previous_safe(&pattern, BYTES("ah"), 2).is_found && asked == 0);
        ONCE_IN_TURN(status, search, twice ? colfind_finish(&search) : colfind_stop(&search));
        assert(status.kind == 0);
    }
    colfind_free(&search), colfind_free(&pattern), colfind_free(&table), colfind_free(&other);
}

/* A piece of several parts: the call is made again with the bytes that were not taken, and no range is lost. */
static void long_piece(colfind_handle *table) {
    size_t n = 300000, within = 0;
    uint8_t *piece = malloc(n);
    colfind_handle pattern = {0};
    assert(piece && colfind_pattern(table, &pattern, BYTES("resume"), 1, 0).kind == 0);
    for (size_t i = 0; i < n; i++) piece[i] = (uint8_t)"resume "[i % 7];
    for (long refused = 1, all = 1; refused <= all + 1; refused++) {
        size_t found = 0;
        colfind_range range;
        colfind_handle search = {0};
        assert(colfind_search(&pattern, &search, COLFIND_ALL).kind == 0);
        asked = 0, refuse_at = refused;
        colfind_status fed = colfind_feed(&search, piece, n);
        refuse_at = 0, all = asked;
        if (fed.kind != COLFIND_GOOD) {
            assert(fed.kind == COLFIND_NO_MEMORY && fed.at % 65536 == 0 && all == refused);
            within += fed.at > 0, refusals++;
            while (colfind_take(&search, &range, 1) == 1) assert(range.start == 7 * found++);
            assert(colfind_feed(&search, piece + fed.at, n - fed.at).kind == 0);
        }
        assert(colfind_finish(&search).kind == 0);
        while (colfind_take(&search, &range, 1) == 1) assert(range.start == 7 * found++);
        assert(found == n / 7);
        colfind_free(&search);
    }
    assert(within > 0);
    colfind_free(&pattern);
    free(piece);
}

/* ---- messages */

static const uint32_t kinds[] = {0, 1, 2, 3, 4, 5, 6, 7, 8, 9, 10, 11, 12, 13, 14, 21, 22, 23, 24, 31, 32, 33, 34, 35, 36, 51, 52, 53,
                                 61, 62, 63, 64, 65, 67, 70, 71, 73, 81, 82, 83, 84, 85};

static void messages(void) {
    char whole[200], part[200], front[64];
    for (size_t i = 0; i <= sizeof kinds / sizeof *kinds; i++) {
        colfind_status status = {i < sizeof kinds / sizeof *kinds ? kinds[i] : UINT32_MAX, i % 3 ? UINT64_MAX : 7};
        size_t n = colfind_message(status, whole, sizeof whole);
        sprintf(front, "fault %u at %llu: ", status.kind, (unsigned long long)status.at);
        assert(n <= 160 && strlen(whole) == n && strncmp(whole, front, strlen(front)) == 0 && n > strlen(front));
        assert((strstr(whole, "no fault has this number") != NULL) == (status.kind == UINT32_MAX));
        for (size_t room = 0; room <= n + 2; room++) {
            memset(part, 'x', sizeof part);
            assert(colfind_message(status, part, room) == n);
            size_t written = room == 0 ? 0 : room <= n ? room - 1 : n;
            assert(memcmp(part, whole, written) == 0 && (room == 0 || part[written] == 0) && part[written + (room > 0)] == 'x');
        }
    }
}

int main(int argc, char **argv) {
    assert(argc == 4);
    static uint8_t base[1 << 16];
    FILE *file = fopen(argv[1], "rb");
    assert(file);
    size_t n = fread(base, 1, sizeof base, file);
    fclose(file);
    colfind_handle table = {0};
    assert(is(colfind_table(&table, base, n, BYTES("")), COLFIND_GOOD, 0));
    for (long round = 0; round < atol(argv[3]); round++) random_round(argv[1], argv[2], &table, (int)below(2));
    statuses_of_tables();
    statuses_of_calls(&table);
    rows(&table);
    long_piece(&table);
    messages();
    colfind_free(&table);
    refusals_in_turn(base, n);
    for (size_t i = 0; i < sizeof kinds / sizeof *kinds; i++)
        if (!reached[kinds[i]]) { printf("status %u has not come\n", kinds[i]); return 1; }
    assert(atol(argv[3]) < 50 || (wholes && fronts > wholes && undecided && safe_places && backward && endings && parted));
    printf("all passed, %ld refusals, %ld whole texts, %ld beginnings, %ld endings, %ld safe offsets, %ld ranges before an offset, %ld parts\n",
           refusals, wholes, fronts, endings, safe_places, backward, parted);
    return 0;
}
