/* The calls of libcolfind that colfind.el makes, as functions of Emacs. A table and a pattern are objects that Emacs frees; what is
 * wrong is signalled as colfind-error, with the words of colfind_message. */
#include <colfind.h>
#include <emacs-module.h>
#include <stdio.h>
#include <stdlib.h>
#include <string.h>

enum { MOST = 65536 };

enum kind { TABLE, PATTERN };

/* What an object of Emacs holds. A pattern has a search, that has taken `fed` bytes, and its text began behind `base` of these. */
typedef struct { enum kind kind; colfind_handle handle, search; uint64_t fed, base; } held;

static void let_go(void *object) {
    held *of = object;
    colfind_free(&of->search), colfind_free(&of->handle), free(of);
}

static emacs_value call(emacs_env *env, const char *name, ptrdiff_t n, emacs_value *args) {
    return env->funcall(env, env->intern(env, name), n, args);
}

static emacs_value wrong(emacs_env *env, const char *message) {
    emacs_value text = env->make_string(env, message, (ptrdiff_t)strlen(message));
    env->non_local_exit_signal(env, env->intern(env, "colfind-error"), call(env, "list", 1, &text));
    return text;
}

static emacs_value wrong_status(emacs_env *env, colfind_status status) {
    char message[160];
    colfind_message(status, message, sizeof message);
    return wrong(env, message);
}

/* A new object, or NULL where memory is refused, which is signalled. */
static held *new_held(emacs_env *env, enum kind kind) {
    held *made = calloc(1, sizeof *made);
    if (made) made->kind = kind;
    else wrong(env, "memory was refused");
    return made;
}

/* The object for Emacs, or the signal of a fault. */
static emacs_value given(emacs_env *env, held *made, colfind_status status) {
    if (!status.kind) return env->make_user_ptr(env, let_go, made);
    let_go(made);
    return wrong_status(env, status);
}

/* What an object holds, or NULL where it is another one, which is signalled. */
static held *held_by(emacs_env *env, emacs_value object, enum kind kind) {
    if (env->non_local_exit_check(env) || env->get_user_finalizer(env, object) != let_go) {
        if (!env->non_local_exit_check(env)) wrong(env, "an object of another kind");
        return NULL;
    }
    held *found = env->get_user_ptr(env, object);
    if (found->kind == kind) return found;
    wrong(env, "an object of another kind");
    return NULL;
}

/* The UTF-8 of a string, which the caller frees, or NULL, which is signalled. */
static char *text_of(emacs_env *env, emacs_value string, size_t *n) {
    ptrdiff_t size = 0;
    if (!env->copy_string_contents(env, string, NULL, &size)) return NULL;
    char *text = malloc((size_t)size);
    if (!text) return wrong(env, "memory was refused"), NULL;
    if (!env->copy_string_contents(env, string, text, &size)) return free(text), NULL;
    *n = (size_t)size - 1;
    return text;
}

/* (colfind--table BASE TAILOR): the table of the bytes of two files. Each is a string with a character for each byte, as of ASCII. */
static emacs_value table(emacs_env *env, ptrdiff_t n, emacs_value *args, void *data) {
    (void)n, (void)data;
    size_t sizes[2] = {0, 0};
    char *base = text_of(env, args[0], &sizes[0]), *tailor = base ? text_of(env, args[1], &sizes[1]) : NULL;
    held *made = tailor ? new_held(env, TABLE) : NULL;
    emacs_value result = args[0];
    if (made) result = given(env, made, colfind_table(&made->handle, (uint8_t *)base, sizes[0], (uint8_t *)tailor, sizes[1]));
    free(base), free(tailor);
    return result;
}

/* (colfind--pattern TABLE STRING STRENGTH VARIABLE): the pattern of a string at a strength, 1 to 3, and a weighting, 0 or 1. */
static emacs_value pattern(emacs_env *env, ptrdiff_t n, emacs_value *args, void *data) {
    (void)n, (void)data;
    held *of = held_by(env, args[0], TABLE);
    intmax_t strength = of ? env->extract_integer(env, args[2]) : 0, variable = of ? env->extract_integer(env, args[3]) : 0;
    if (!of || env->non_local_exit_check(env)) return args[0];
    size_t size = 0;
    char *text = text_of(env, args[1], &size);
    held *made = text ? new_held(env, PATTERN) : NULL;
    emacs_value result = args[0];
    if (made) {
        int is_byte = strength >= 0 && strength < 256 && variable >= 0 && variable < 256;
        colfind_status status = colfind_pattern(&of->handle, &made->handle, (uint8_t *)text, size, is_byte ? (uint8_t)strength : 0,
                                                is_byte ? (uint8_t)variable : 0);
        if (!status.kind) status = colfind_search(&made->handle, &made->search, COLFIND_ALL);
        result = given(env, made, status);
    }
    free(text);
    return result;
}

/* (colfind--free PATTERN): what a pattern holds is freed before Emacs finds that nothing refers to it. Calls with it are faults then. */
static emacs_value free_at_once(emacs_env *env, ptrdiff_t n, emacs_value *args, void *data) {
    (void)n, (void)data;
    held *of = held_by(env, args[0], PATTERN);
    if (of) colfind_free(&of->search), colfind_free(&of->handle);
    return args[0];
}

/* Has a search begin a text by itself, behind so many bytes. One that was ended is made anew; another keeps what it found of characters. */
static colfind_status begin_behind(held *of, uint64_t base) {
    colfind_status status = colfind_first_in(&of->search, (const uint8_t *)"", 0, 0).status;
    of->base = base;
    return status.kind == COLFIND_ENDED ? colfind_search(&of->handle, &of->search, COLFIND_ALL) : status;
}

/* (colfind--begin PATTERN): the search for a pattern begins a text. */
static emacs_value begin(emacs_env *env, ptrdiff_t n, emacs_value *args, void *data) {
    (void)n, (void)data;
    held *of = held_by(env, args[0], PATTERN);
    colfind_status status = {0, 0};
    if (of) of->fed = 0, status = begin_behind(of, 0);
    return status.kind ? wrong_status(env, status) : args[0];
}

/* Puts the ranges that wait before those of a list, the last first. */
static emacs_value taken(emacs_env *env, held *of, emacs_value list) {
    for (colfind_range range; !env->non_local_exit_check(env) && colfind_take(&of->search, &range, 1);) {
        emacs_value start = env->make_integer(env, (intmax_t)(of->base + range.start));
        emacs_value ends[] = {start, env->make_integer(env, (intmax_t)(of->base + range.end))};
        emacs_value pair[] = {call(env, "cons", 2, ends), list};
        list = call(env, "cons", 2, pair);
    }
    return list;
}

/* Where a text that is cut at a fault goes on, as an offset in the piece; `size` where it can't. Behind thirty marks in a row, and behind
 * what is no UTF-8, a text by itself begins. */
static size_t behind(held *of, colfind_status status, const uint8_t *piece, size_t size) {
    uint64_t at = of->base + status.at + (status.kind == COLFIND_TEXT_ILL_FORMED);
    size_t from = at > of->fed ? (size_t)(at - of->fed) : 0;
    while (status.kind == COLFIND_TEXT_ILL_FORMED && from < size && (piece[from] & 0xC0) == 0x80) from++;
    return status.kind == COLFIND_TEXT_ILL_FORMED || status.kind == COLFIND_TEXT_LONG_RUN ? from : size;
}

/* (colfind--feed PATTERN STRING IS-LAST): the search for a pattern takes the next piece of its text, of at most MOST characters, and ends
 * it where IS-LAST says so: a list of the ranges (START . END) that became known, the last first, in bytes from where the text begins. */
static emacs_value feed(emacs_env *env, ptrdiff_t n, emacs_value *args, void *data) {
    (void)n, (void)data;
    static uint8_t piece[4 * MOST + 1];
    held *of = held_by(env, args[0], PATTERN);
    ptrdiff_t room = sizeof piece;
    if (!of || !env->copy_string_contents(env, args[1], (char *)piece, &room)) return args[0];
    size_t size = (size_t)room - 1;
    emacs_value list = env->intern(env, "nil");
    for (size_t from = 0; from < size;) {
        colfind_status status = colfind_feed(&of->search, piece + from, size - from);
        list = taken(env, of, list);
        if (!status.kind) break;
        from = behind(of, status, piece, size);
        if (from == size && status.kind > COLFIND_TEXT_LONG_RUN) wrong_status(env, status);
        begin_behind(of, of->fed + from);
    }
    of->fed += size;
    if (env->is_not_nil(env, args[2])) colfind_finish(&of->search), list = taken(env, of, list);
    return list;
}

int plugin_is_GPL_compatible; /* Emacs loads no module without it: see README.md, "Who may have it" */

int emacs_module_init(struct emacs_runtime *runtime) {
    static const struct { const char *name, *about; ptrdiff_t n; emacs_function call; } calls[] = {
        {"colfind--table", "The table of the files BASE and TAILOR.\n\n(fn BASE TAILOR)", 2, table},
        {"colfind--pattern", "The pattern of STRING.\n\n(fn TABLE STRING STRENGTH VARIABLE)", 4, pattern},
        {"colfind--free", "Free PATTERN.\n\n(fn PATTERN)", 1, free_at_once},
        {"colfind--begin", "Begin a text for PATTERN.\n\n(fn PATTERN)", 1, begin},
        {"colfind--feed", "The ranges known with STRING, the last first.\n\n(fn PATTERN STRING IS-LAST)", 3, feed},
    };
    if (runtime->size < (ptrdiff_t)sizeof *runtime) return 1;
    emacs_env *env = runtime->get_environment(runtime);
    if (env->size < (ptrdiff_t)sizeof(struct emacs_env_26)) return 2;
    for (size_t i = 0; i < sizeof calls / sizeof *calls; i++) {
        emacs_value made = env->make_function(env, calls[i].n, calls[i].n, calls[i].call, calls[i].about, NULL);
        emacs_value pair[] = {env->intern(env, calls[i].name), made};
        call(env, "defalias", 2, pair);
    }
    emacs_value feature = env->intern(env, "colfind-module");
    call(env, "provide", 1, &feature);
    return 0;
}
