/* Runs of 0 elements, as an empty container lends them: each function with each of its runs empty or not, the empty ones behind NULL, and behind a
 * page that nothing may touch. It must answer as with a good pointer. Then the query builder's edges. Exits 0 when all is as it should be; run by
 * `harness/memcheck`. */
#include "tagmurlen_query.h"
#include "tagmurlen_rows.h"
#include <stdio.h>
#include <string.h>
#include <sys/mman.h>

static const uint8_t m1[] = {1, 0, 5, 0, 0, 0, 7, 2, 2, 0, 9, 0, 0, 2, 0, 0, 4, 0, 5, 2, 2, 0, 9, 0, 0, 9, 0, 0, 9, 0, 1, 1, 3, 0, 5, 0, 5, 1, 0, 3, 3, 0, 2, 0, 1,
                             1, 0, 5, 0, 0, 0, 9, 1, 2, 0, 9, 0, 0, 4, 0, 0, 6, 0, 4, 2, 3, 0, 5, 0, 4, 1, 0, 2};
static const uint32_t terms[] = {7, 9, 1, 2, 3, 4, 5, 6};
static const uint8_t weights[] = {1, 2, 1, 1, 1, 1, 1, 1};
static uint8_t query[TAGMURLEN_MAX_QUERY], out[128], marks[16];
static uint32_t docids[16], sums[16], firsts[16], ceilings[16];
static uint16_t scores[16];
static struct tagmurlen_hit rows[16];
static size_t query_len;

/* What a call gave: the number, the value, and counts. */
struct told {
    uint32_t number;
    uint64_t value, counts[3];
};

/* Which runs are empty, a bit for each, and where an empty one points. */
struct lent {
    unsigned empty;
    void *nowhere;
};

#define RUN(i, run, n) (l.empty >> (i) & 1 ? l.nowhere : (void *)(run)), (l.empty >> (i) & 1 ? 0 : (size_t)(n))

static void check(struct lent l, struct told *t) { t->number = tagmurlen_check(RUN(0, m1, sizeof m1), &t->value); }
static void check_query(struct lent l, struct told *t) { t->number = tagmurlen_check_query(RUN(0, query, query_len), &t->value); }
static void read_list(struct lent l, struct told *t) {
    t->number = tagmurlen_read_list(RUN(0, m1, sizeof m1), 7, RUN(1, docids, 16), RUN(2, scores, 16), &t->value);
}
static void write_list(struct lent l, struct told *t) {
    static const uint32_t two[] = {2, 4};
    static const uint16_t their[] = {5, 3};
    t->number = tagmurlen_write_list(true, 7, RUN(0, two, 2), RUN(1, their, 2), RUN(2, out, sizeof out), &t->value);
}
static void rank_all(struct lent l, struct told *t) {
    t->number = tagmurlen_rank_all(RUN(0, query, query_len), RUN(1, m1, sizeof m1), RUN(2, docids, 16), RUN(3, sums, 16), &t->value);
}
static void search(struct lent l, struct told *t) {
    t->number = tagmurlen_search(RUN(0, query, query_len), RUN(1, m1, sizeof m1), RUN(2, docids, 16), RUN(3, sums, 16), RUN(4, firsts, 16),
                                 RUN(5, ceilings, 16), RUN(6, marks, 16), &t->value, &t->counts[0], &t->counts[1], &t->counts[2]);
}
static void set(struct lent l, struct told *t) { t->number = tagmurlen_set(RUN(0, m1, sizeof m1), 7, 9, 3, RUN(1, out, sizeof out), &t->value); }
static void clear(struct lent l, struct told *t) { t->number = tagmurlen_clear(RUN(0, m1, sizeof m1), 7, 9, RUN(1, out, sizeof out), &t->value); }
static void clear_last(struct lent l, struct told *t) { /* the new shelf has 0 bytes, so that an empty buffer is room enough */
    uint8_t one[25];
    tagmurlen_set(m1, 0, 7, 9, 1, one, sizeof one, &t->value);
    t->number = tagmurlen_clear(one, sizeof one, 7, 9, RUN(0, out, sizeof out), &t->value);
}
static void withdraw(struct lent l, struct told *t) { t->number = tagmurlen_withdraw(RUN(0, m1, sizeof m1), 9, RUN(1, out, sizeof out), &t->value); }
static void convert(struct lent l, struct told *t) { t->number = tagmurlen_convert(RUN(0, m1, sizeof m1), 7, RUN(1, out, sizeof out), &t->value); }
static void rank_rows(struct lent l, struct told *t) {
    struct tagmurlen_ranked r = tagmurlen_rank_rows(RUN(0, query, query_len), RUN(1, m1, sizeof m1), RUN(2, rows, 16));
    t->number = r.number;
    t->value = r.number ? r.offset : r.hits;
}
static void search_rows(struct lent l, struct told *t) {
    struct tagmurlen_searched s = tagmurlen_search_rows(RUN(0, query, query_len), RUN(1, m1, sizeof m1), RUN(2, rows, 16), RUN(3, firsts, 16),
                                                        RUN(4, ceilings, 16), RUN(5, marks, 16));
    t->number = s.number;
    t->value = s.number ? s.offset : s.hits;
    t->counts[0] = s.intervals;
}

static const struct {
    const char *name;
    void (*call)(struct lent, struct told *);
    int runs;
} functions[] = {{"check", check, 1}, {"check_query", check_query, 1}, {"read_list", read_list, 3}, {"write_list", write_list, 3},
                 {"rank_all", rank_all, 4}, {"search", search, 7}, {"set", set, 2}, {"clear", clear, 2}, {"clear, the last", clear_last, 1},
                 {"withdraw", withdraw, 2}, {"convert", convert, 2}, {"rank_rows", rank_rows, 3}, {"search_rows", search_rows, 6}};

/* Compares the answers of a function, those runs empty: behind a good pointer, and behind another. */
static int differs(size_t f, unsigned empty, void *nowhere) {
    static uint64_t good;
    struct told should, is;
    memset(&should, 0, sizeof should);
    memset(&is, 0, sizeof is);
    functions[f].call((struct lent){empty, &good}, &should);
    functions[f].call((struct lent){empty, nowhere}, &is);
    int differ = memcmp(&should, &is, sizeof is) != 0;
    if (differ)
        printf("differs: %s, empty runs %x, behind %p: number %u, should be %u\n", functions[f].name, empty, nowhere, is.number, should.number);
    return differ;
}

static int wrong_builder(void) {
    uint8_t built[TAGMURLEN_MAX_QUERY + 9];
    uint64_t value;
    int wrong = 0;
    memset(built, 99, sizeof built);
    wrong += tagmurlen_put_query(built, 19, 1, terms, weights, 2) != 0 || tagmurlen_put_query(built, 3, 1, terms, weights, 0) != 0;
    wrong += tagmurlen_put_query(built, sizeof built, 1, terms, weights, (size_t)-1) != 0 || built[0] != 99; /* the room is short: nothing is written */
    wrong += tagmurlen_put_query(built, 20, 300, terms, weights, 2) != 20 || built[20] != 99;
    wrong += tagmurlen_check_query(built, 20, &value) != TAGMURLEN_QUERY_K;
    wrong += tagmurlen_put_query(built, 4, 1, NULL, NULL, 0) != 4 || tagmurlen_check_query(built, 4, &value) != TAGMURLEN_QUERY_TERMS;
    wrong += tagmurlen_put_query(built, TAGMURLEN_MAX_QUERY, 100, terms, weights, 8) != TAGMURLEN_MAX_QUERY;
    wrong += tagmurlen_check_query(built, TAGMURLEN_MAX_QUERY, &value) != TAGMURLEN_ACCEPTED || value != 100 || built[TAGMURLEN_MAX_QUERY] != 99;
    if (wrong)
        printf("differs: the query builder\n");
    return wrong;
}

int main(void) {
    void *shut = mmap(NULL, 4096, PROT_NONE, MAP_PRIVATE | MAP_ANONYMOUS, -1, 0);
    int calls = 0, differ = wrong_builder();
    query_len = tagmurlen_put_query(query, sizeof query, 1, terms, weights, 2);
    for (size_t f = 0; f < sizeof functions / sizeof functions[0]; f++)
        for (unsigned empty = 0; empty < 1u << functions[f].runs; empty++, calls += 2)
            differ += differs(f, empty, NULL) + differs(f, empty, shut);
    printf("%d calls with empty runs, %d differ\n", calls, differ);
    return differ != 0;
}
