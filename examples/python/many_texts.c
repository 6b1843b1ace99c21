/* Calls of libcolfind for each of many texts, which colfind.py makes by one call of its own. It is given the calls of the library, so it is
 * linked with nothing but the C library, and the two need not be found together. Without it colfind.py calls for each text by itself.
 *
 * The texts stand one behind the other, with a zero byte between two; none has one. Each answers how many of the texts were searched, from
 * the first on: less than all where a text has a fault, or its ranges have no room. Ranges count from the beginning of their text, in
 * characters where `in_characters` is not 0, else in bytes. */
#include "../c/colfind.h"
#include <string.h>

typedef colfind_first first_call(colfind_handle *, const uint8_t *, size_t, size_t);
typedef colfind_all all_call(colfind_handle *, const uint8_t *, size_t, colfind_range *, size_t);
typedef struct { first_call *first_in; all_call *all_in; } calls;

#define SHORT 256 /* the bytes of a text of which all ranges are found sooner than the first one, for which it is cut in pieces */

/* The end of the text at `at`. */
static const uint8_t *end_of(const uint8_t *at, const uint8_t *end) {
    const uint8_t *zero = memchr(at, 0, (size_t)(end - at));
    return zero ? zero : end;
}

/* A place in a text, which goes on from range to range, and how many characters are before it. */
typedef struct { uint64_t at, characters; } place;

static uint64_t characters_to(place *from, const uint8_t *text, uint64_t to) {
    uint64_t count = 0;
    for (uint64_t i = from->at; i < to; i++) count += (text[i] & 0xC0) != 0x80;
    from->at = to;
    return from->characters += count;
}

/* The first range of a text. The fault of one that is short is told here also where it stands behind a range. */
static colfind_first first_of(const calls *by, colfind_handle *search, const uint8_t *text, size_t size) {
    if (size > SHORT) return by->first_in(search, text, size, 0);
    colfind_first first = {{0, 0}, 0, {0, 0}};
    colfind_all all = by->all_in(search, text, size, &first.range, 1);
    first.status = all.status.kind == COLFIND_SMALL_BUFFER ? first.status : all.status;
    first.is_found = all.count > 0;
    return first;
}

/* Of each text that has a range its number and the first range, and how many these are. */
typedef struct { uint64_t text; colfind_range range; } found_first;
size_t many_first(const calls *by, colfind_handle *search, const uint8_t *texts, size_t size, size_t count, int in_characters,
                  found_first *out, size_t *found) {
    const uint8_t *at = texts, *end = texts + size;
    *found = 0;
    for (size_t i = 0; i < count; i++) {
        const uint8_t *behind = end_of(at, end);
        colfind_first first = first_of(by, search, at, (size_t)(behind - at));
        if (first.status.kind) return i;
        if (first.is_found) {
            place from = {0, 0};
            if (in_characters) {
                first.range.start = characters_to(&from, at, first.range.start);
                first.range.end = characters_to(&from, at, first.range.end);
            }
            out[(*found)++] = (found_first){i, first.range};
        }
        at = behind < end ? behind + 1 : end;
    }
    return count;
}

/* All ranges of each text, one behind the other, and how many each has. */
size_t many_all(const calls *by, colfind_handle *search, const uint8_t *texts, size_t size, size_t count, int in_characters,
                uint64_t *counts, colfind_range *out, size_t room) {
    const uint8_t *at = texts, *end = texts + size;
    for (size_t i = 0; i < count; i++) {
        const uint8_t *behind = end_of(at, end);
        colfind_all all = by->all_in(search, at, (size_t)(behind - at), out, room);
        if (all.status.kind) return i;
        place start = {0, 0}, stop = {0, 0};
        for (size_t k = 0; in_characters && k < all.count; k++) {
            out[k].start = characters_to(&start, at, out[k].start);
            out[k].end = characters_to(&stop, at, out[k].end);
        }
        counts[i] = all.count, out += all.count, room -= all.count;
        at = behind < end ? behind + 1 : end;
    }
    return count;
}
