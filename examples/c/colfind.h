/* Finds a pattern in UTF-8 text by Unicode collation (UTS #10). The calls are proved; what C must uphold is said here.
 *
 * What C upholds:
 * - A handle begins as {0}, is never copied, and is given to one call at a time, and once to each call. Two threads may be in calls with
 *   two handles, whatever these were made of: threads that want one table or one pattern have a handle each, by colfind_share.
 * - Each pointer is valid for the length beside it, and not null, not even where the length is 0. Buffers that are written overlap nothing
 *   else that the call is given.
 * - malloc, realloc and free are those of one allocator. No call is made from a signal handler.
 * Who owns what:
 * - What a handle holds belongs to the library until colfind_free. A call that makes something frees first what its handle held.
 * - A pattern keeps its table and a search its pattern, so handles may be freed in any order, and more than once.
 * - Texts, pieces, tables and words belong to C, and are looked at in the call alone.
 *
 * Offsets are in bytes from the beginning of the text; the end of a range is not part of it. */
#ifndef COLFIND_H
#define COLFIND_H
#define COLFIND_VERSION "1.5.0"
#include <stddef.h>
#include <stdint.h>
#ifdef __cplusplus
extern "C" {
#endif

typedef struct { void *at; } colfind_handle;
typedef struct { uint64_t start, end; } colfind_range;

/* How a call has ended: 0 or the number of a fault, and where it stands: the line of a table file, or the byte of a text; else 0. */
typedef struct { uint32_t kind; uint64_t at; } colfind_status;

enum colfind_kind {
    COLFIND_GOOD = 0,
    /* a table file; docs/USING.md says of each number what to do */
    COLFIND_TABLE_MALFORMED_LINE = 1,
    COLFIND_TABLE_BEYOND_UNICODE = 2,
    COLFIND_TABLE_MAPPED_TWICE = 3,
    COLFIND_TABLE_TOO_LONG = 4,
    COLFIND_TABLE_BREAKS_WF1 = 5,
    COLFIND_TABLE_BREAKS_WF2 = 6,
    COLFIND_TABLE_BREAKS_WF3 = 7,
    COLFIND_TABLE_BREAKS_WF4 = 8,
    COLFIND_TABLE_BREAKS_WF5 = 9,
    COLFIND_TABLE_BREAKS_PAIRS = 10,
    COLFIND_TABLE_BAD_RANGE = 11,
    COLFIND_TABLE_NO_ENTRY = 12,
    COLFIND_TABLE_TOO_MANY_LINES = 13,
    COLFIND_TABLE_NO_MEMORY = 14,
    /* a pattern */
    COLFIND_PATTERN_TOO_LONG = 21,
    COLFIND_PATTERN_NO_KEY = 22,
    COLFIND_PATTERN_LONG_RUN = 23,
    COLFIND_PATTERN_NO_MEMORY = 24,
    /* a text. 33 and 35 come from no text, but from words that say that a search reported them */
    COLFIND_TEXT_ILL_FORMED = 31,
    COLFIND_TEXT_LONG_RUN = 32,
    COLFIND_TEXT_LONG_DECOMPOSITION = 33,
    COLFIND_TEXT_TOO_LONG = 34,
    COLFIND_TEXT_DECOMPOSITION_NO_MEMORY = 35,
    COLFIND_TEXT_NO_MEMORY = 36,
    /* the words of a search */
    COLFIND_STATE_MALFORMED = 51,
    COLFIND_STATE_OF_ANOTHER = 52,
    COLFIND_STATE_NO_MEMORY = 53,
    /* the file that tailors a table: 60 more */
    COLFIND_TAILOR_MALFORMED_LINE = 61,
    COLFIND_TAILOR_BEYOND_UNICODE = 62,
    COLFIND_TAILOR_MAPPED_TWICE = 63,
    COLFIND_TAILOR_TOO_LONG = 64,
    COLFIND_TAILOR_BREAKS_WF1 = 65,
    COLFIND_TAILOR_BREAKS_WF3 = 67,
    COLFIND_TAILOR_BREAKS_PAIRS = 70,
    COLFIND_TAILOR_BAD_RANGE = 71,
    COLFIND_TAILOR_TOO_MANY_LINES = 73,
    /* a call */
    COLFIND_NO_MEMORY = 81,    /* of colfind_feed `at` says how many bytes of the piece were taken: go on with the others */
    COLFIND_WRONG_HANDLE = 82, /* a handle holds something else, or nothing */
    COLFIND_ENDED = 83,        /* the search was finished or stopped */
    COLFIND_SMALL_BUFFER = 84, /* `at` says how many words, or ranges, need room */
    COLFIND_BAD_ARGUMENT = 85  /* a number that is none of the ones below, a pattern that is no UTF-8, an offset behind the text, or a part
                                * that ends before it begins */
};
/* With 14, 24, 36, 53 and 81 memory was refused: all handles are as they were, and the call can be made again. So they are with each other
 * fault, but for a search that was fed a fault of its text, or 51 by colfind_feed. colfind_all_in gives up what was fed before in each case
 * but 82 and 83, and colfind_search_part in each but 82, 83 and 85. */

enum { COLFIND_ALL = 0, COLFIND_CHAIN = 1 };             /* selection: all minimal matches, or a chain that do not overlap */
enum { COLFIND_NON_IGNORABLE = 0, COLFIND_SHIFTED = 1 }; /* variable weighting */

/* The table of a file in memory, and of one that tailors it, which may be empty. */
colfind_status colfind_table(colfind_handle *out, const uint8_t *base, size_t n, const uint8_t *tailor, size_t m);

/* A pattern of UTF-8, compiled at strength 1, 2 or 3. */
colfind_status colfind_pattern(colfind_handle *table, colfind_handle *out, const uint8_t *text, size_t n, uint8_t strength,
                               uint8_t variable);

/* A second handle for the table or the pattern that a handle holds. What they hold is there once, and stays until both are freed. */
colfind_status colfind_share(colfind_handle *handle, colfind_handle *out);

/* A search at the beginning of a text. */
colfind_status colfind_search(colfind_handle *pattern, colfind_handle *out, uint8_t select);

/* The search that goes on from the words of one with the same table, pattern and selection. Words that no search has saved, and that pass
 * the tests all the same, are safe: what is found is then said by nothing. */
colfind_status colfind_resume(colfind_handle *pattern, colfind_handle *out, uint8_t select, const uint64_t *words, size_t n);

/* Takes the next piece of the text, cut anywhere. The ranges that became known wait for colfind_take. A fault of the text is told with the
 * ranges before it, and again by each later colfind_feed and colfind_finish; the search can then be saved or freed. Before any of the next
 * 65,536 bytes is looked at, memory is asked for one range a byte and 383 more, so that no range is lost where memory is refused. 51 says
 * that the search was resumed from words that no search has saved, and has ended. */
colfind_status colfind_feed(colfind_handle *search, const uint8_t *piece, size_t n);

/* Ends the text: the rest of the ranges waits. From then on 83. A fault, also one of a character that the end cuts, is told here. */
colfind_status colfind_finish(colfind_handle *search);

/* Gives the text up, as where it can't be read further: the ranges wait that end before its last whole character. From then on 83. */
colfind_status colfind_stop(colfind_handle *search);

/* How many ranges wait. A handle that holds no search has none. */
size_t colfind_pending(colfind_handle *search);

/* Takes ranges that wait, the oldest first, as many as there are and have room: how many. */
size_t colfind_take(colfind_handle *search, colfind_range *out, size_t room);

/* Writes the search as words. Where they have no room nothing is written, and 84 and `words` say how many there are. Ranges that wait are
 * not among them: take them first. */
typedef struct { colfind_status status; size_t words; } colfind_saved;
colfind_saved colfind_save(colfind_handle *search, uint64_t *words, size_t room);

/* A range, if `is_found` is 1; else `is_found` is 0, and so are the offsets. Beside a fault there is none. */
typedef struct { colfind_status status; uint32_t is_found; colfind_range range; } colfind_first;

/* The first range of a text in memory. With a fault there is none before it. */
colfind_first colfind_index(colfind_handle *pattern, const uint8_t *text, size_t n);

/* The first range of what stands in the text from an offset on, taken as a text by itself. Offsets are from the beginning of the text. */
colfind_first colfind_index_from(colfind_handle *pattern, const uint8_t *text, size_t n, size_t from);

/* The same with a search that was made before, for many texts. It needs no memory: where some is refused for what a search keeps of
 * characters, it goes on without. What the search was fed is given up, with the ranges that wait; then it is at the beginning of a text. */
colfind_first colfind_first_in(colfind_handle *search, const uint8_t *text, size_t n, size_t from);

/* Whether a text in memory has a range, by a search that was made before: 1 or 0, or the number of the fault before it. What the search was
 * fed is given up, as by colfind_first_in. */
uint32_t colfind_has(colfind_handle *search, const uint8_t *text, size_t n);

/* Whether a whole text in memory is equal to a pattern, or to that of a search: `is_equal` is 1 where their sort keys are the same, else 0,
 * also beside a fault. Ignorable characters at the ends of the text belong to it. It stops behind the first letter that differs. A fault is
 * told where it stands before the answer is decided. With a pattern memory is asked for at each call. A search keeps it for the next text,
 * which is faster for many short ones, and what it was fed stays. Where memory is refused, 36 at 0. */
typedef struct { colfind_status status; uint32_t is_equal; } colfind_equality;
colfind_equality colfind_equal(colfind_handle *handle, const uint8_t *text, size_t n);

/* The shortest match that begins where the text begins: `range` is from 0 to its end. Ignorable characters in front belong to it. It stops
 * where that is decided, and asks for memory as colfind_equal. A fault is told where it stands before that. */
colfind_first colfind_begins(colfind_handle *handle, const uint8_t *text, size_t n);

/* The last range of a text in memory that ends at `at` or before it: what is met first going back from there, a range or a fault. `at` is in
 * bytes from the beginning of the text, and may be within a character, or behind the end, which is as at the end. It begins at a safe offset
 * some way back, reads on up to `at`, and behind it until a cluster begins, and goes further back where it found nothing. The range before
 * the one that was told is asked for by `range.end - 1`. A fault is told where it stands before `at` and no range was found behind it: it is
 * the first one of the text from a safe offset on, or from the beginning. Memory is asked for at each call; where it is refused, 36 at 0. */
colfind_first colfind_last_before(colfind_handle *pattern, const uint8_t *text, size_t n, size_t at);

/* The shortest match that ends where the text ends: `range` is from its start to `n`. Ignorable characters behind it belong to it. It goes
 * back from the end as colfind_last_before, but no further than to where the rest has no range and more keys than the pattern. A fault is
 * told where what stands behind it does not decide: it is the first one behind the last safe offset in front of it, and from the next safe
 * offset behind it on no match ends there, and there are no more keys than the pattern has. Memory is asked for at each call; where it is
 * refused, 36 at 0. */
colfind_first colfind_ends(colfind_handle *pattern, const uint8_t *text, size_t n);

/* An offset, if `is_found` is 1; else both are 0. */
typedef struct { colfind_status status; uint32_t is_found; uint64_t at; } colfind_place;

/* The nearest safe offset at `from` or behind it, and the nearest one before `before`: the character there alone tells that a search which
 * begins there finds what the whole text has from there on. `from` and `before` may be within a character, or behind the end. The handle
 * holds a table, or a pattern or a search that was made with it, and stays as it is. No memory is needed. All bytes are looked at up to the
 * offset, and all that there are where none is safe. */
colfind_place colfind_next_safe(colfind_handle *handle, const uint8_t *bytes, size_t n, size_t from);
colfind_place colfind_previous_safe(colfind_handle *handle, const uint8_t *bytes, size_t n, size_t before);

/* All ranges of a text in memory, by a search that was made before, for many texts; of one for a chain, the chain. With a fault of the text
 * they are those before it. Where there are more than have room, the first of them are written, and 84 and `count` say how many there are.
 * Memory is asked for as by colfind_feed, for all ranges of the text, and kept for the next one; where it is refused, 81, it is not said
 * what `out` then has. What the search was fed is given up, with the ranges that wait; then it is at the beginning of a text. */
typedef struct { colfind_status status; size_t count; } colfind_all;
colfind_all colfind_all_in(colfind_handle *search, const uint8_t *text, size_t n, colfind_range *out, size_t room);

/* Searches one part of a text in memory, from the offset `from` to the offset `to`, by a search that was made before: the ranges that begin
 * there wait for colfind_take. It reads on behind `to` as far as one of them may reach. Parts of which each begins where the one before
 * ends, at safe offsets, have together, of a search for all ranges, those of the text, up to the first part with a fault, with which the
 * text ends; they may be searched at the same time, by a search each. Of a search for a chain each part has a chain of its own. A fault is
 * told with the ranges before it where it stands at `to` or before it, the first one from `from` on; one behind `to` belongs to a later part.
 * `to` may be behind the end; 85 where `from` is, or where `to` stands before `from`. What the search was fed is given up, with the ranges
 * that waited; then it is at the beginning of a text. Memory is asked for as the ranges come, and kept for the next part; where it is
 * refused, 81, and no range waits. Take all ranges before the search is fed, finished or stopped: else those of the next text come behind
 * them, counted from its own beginning. */
colfind_status colfind_search_part(colfind_handle *search, const uint8_t *text, size_t n, size_t from, size_t to);

/* Writes what a status says as `fault K at N: words`, ended by a zero byte, or as much of it as has room: how many bytes it has without
 * the zero byte, so that a greater number than room - 1 says that it was cut. No text is longer than 160 bytes. */
size_t colfind_message(colfind_status status, char *out, size_t room);

/* Lets go of what a handle holds, if it holds anything. */
void colfind_free(colfind_handle *handle);

#ifdef __cplusplus
}
#endif
#endif
