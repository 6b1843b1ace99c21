/* threads TABLE ROUNDS: eight threads over one table and one pattern, with handles of their own for these (colfind_share). They compile,
 * search, share on and free in orders of their own, and each range is compared with that of one thread alone. For helgrind and TSan. */
#include "colfind.h"
#include <assert.h>
#include <pthread.h>
#include <stdio.h>
#include <stdlib.h>
#include <string.h>

#define BYTES(s) (const uint8_t *)(s), strlen(s)
#define THREADS 8
#define MOST 64

static const char *texts[] = {"resume, r\303\251sum\303\251: aa ch", "re\314\201sume\314\201 aaa resume", "none here", "A aA a-a resume"};
static const char *words[] = {"resume", "a", "aa", "e"};

typedef struct { colfind_handle table, pattern; long rounds, number; } work;
typedef struct { colfind_range ranges[MOST]; size_t count; } answer;

static answer wanted[4][4]; /* of each word in each text, by one thread */

static void search(colfind_handle *pattern, const char *text, answer *out) {
    colfind_handle search = {0};
    assert(colfind_search(pattern, &search, COLFIND_ALL).kind == 0);
    colfind_all all = colfind_all_in(&search, BYTES(text), out->ranges, MOST);
    assert(all.status.kind == 0);
    out->count = all.count;
    colfind_free(&search);
}

static void compare(colfind_handle *pattern, int word) {
    answer got;
    for (int i = 0; i < 4; i++) {
        search(pattern, texts[i], &got);
        assert(got.count == wanted[word][i].count && memcmp(got.ranges, wanted[word][i].ranges, got.count * sizeof *got.ranges) == 0);
    }
}

static void *run(void *given) {
    work *mine = given;
    for (long round = 0; round < mine->rounds; round++) {
        int word = (int)((round + mine->number) % 4);
        colfind_handle own = {0}, table = {0}, shared = {0};
        assert(colfind_share(&mine->table, &table).kind == 0 && colfind_pattern(&table, &own, BYTES(words[word]), 1, 0).kind == 0);
        if (round % 2) colfind_free(&table);
        assert(colfind_share(&mine->pattern, &shared).kind == 0);
        compare(&own, word);
        if (round % 3) colfind_free(&own);
        compare(&shared, 0);
        colfind_free(&shared), colfind_free(&own), colfind_free(&table);
    }
    colfind_free(mine->number % 2 ? &mine->table : &mine->pattern);
    colfind_free(mine->number % 2 ? &mine->pattern : &mine->table);
    return NULL;
}

int main(int argc, char **argv) {
    assert(argc == 3);
    static uint8_t base[1 << 16];
    FILE *file = fopen(argv[1], "rb");
    assert(file);
    size_t n = fread(base, 1, sizeof base, file);
    fclose(file);
    colfind_handle table = {0}, pattern = {0};
    assert(colfind_table(&table, base, n, BYTES("")).kind == 0);
    for (int word = 3; word >= 0; word--) {
        assert(colfind_pattern(&table, &pattern, BYTES(words[word]), 1, 0).kind == 0);
        for (int i = 0; i < 4; i++) search(&pattern, texts[i], &wanted[word][i]);
    }
    pthread_t threads[THREADS];
    static work all[THREADS];
    for (long i = 0; i < THREADS; i++) {
        all[i].rounds = atol(argv[2]), all[i].number = i;
        assert(colfind_share(&table, &all[i].table).kind == 0 && colfind_share(&pattern, &all[i].pattern).kind == 0);
        assert(pthread_create(&threads[i], NULL, run, &all[i]) == 0);
    }
    colfind_free(&table), colfind_free(&pattern);
    for (int i = 0; i < THREADS; i++) assert(pthread_join(threads[i], NULL) == 0);
    puts("all threads passed");
    return 0;
}
