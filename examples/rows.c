/* The scope's search M2, its hits written into lent rows: by the exhaustive ranker and by the pruned one. The rows past them stay as they were, and so
 * do all rows of a refusal. Exits 0 when all is as it should be. From the repository's root:
 *     harness/build lent && cc -Iinclude examples/rows.c target/staticlib/liblent.a -o target/rows && target/rows */
#include "tagmurlen_rows.h"
#include <stdio.h>
#include <string.h>

enum { ROWS = 4 };

static const uint8_t shelf[] = {1, 0, 5, 0, 0, 0, 7, 2, 2, 0, 9, 0, 0, 2, 0, 0, 4, 0, 5, 2, 2, 0, 9, 0, 0, 9, 0, 0, 9, 0, 1, 1, 3, 0, 5, 0, 5, 1, 0, 3, 3, 0, 2, 0, 1,
                                1, 0, 5, 0, 0, 0, 9, 1, 2, 0, 9, 0, 0, 4, 0, 0, 6, 0, 4, 2, 3, 0, 5, 0, 4, 1, 0, 2};
static const uint8_t query[] = {0x20, 0, 1, 2, 0x21, 0, 5, 0, 0, 0, 7, 1, 0x21, 0, 5, 0, 0, 0, 9, 2};
static const struct tagmurlen_hit untouched = {77, 88};
static int wrong = 0;

static void clear(struct tagmurlen_hit *rows) {
    for (int i = 0; i < ROWS; i++)
        rows[i] = untouched;
}

static void expect(const char *what, int held) {
    printf("%s: %s\n", held ? "as it should be" : "WRONG", what);
    wrong += !held;
}

static int same(struct tagmurlen_hit row, uint32_t docid, uint32_t score) { return row.docid == docid && row.score == score; }

static int hits_then_rest(const struct tagmurlen_hit *rows) {
    return same(rows[0], 4, 11) && same(rows[1], 2, 5) && same(rows[2], 77, 88) && same(rows[3], 77, 88);
}

static int all_as_they_were(const struct tagmurlen_hit *rows) {
    for (int i = 0; i < ROWS; i++)
        if (!same(rows[i], 77, 88))
            return 0;
    return 1;
}

int main(void) {
    struct tagmurlen_hit rows[ROWS];

    clear(rows);
    struct tagmurlen_ranked r = tagmurlen_rank_rows(query, sizeof query, shelf, sizeof shelf, rows, ROWS);
    expect("all lists read: two hits", r.number == 0 && r.offset == 0 && r.hits == 2);
    expect("all lists read: the rows past them", hits_then_rest(rows));

    clear(rows);
    r = tagmurlen_rank_rows(query, sizeof query, shelf, sizeof shelf - 1, rows, ROWS);
    expect("a shelf cut short: 6 at its last field", r.number == TAGMURLEN_SHELF_FIELDS && r.offset == 65 && r.hits == 0);
    expect("a shelf cut short: the rows", all_as_they_were(rows));

    r = tagmurlen_rank_rows(query, sizeof query, shelf, sizeof shelf, rows, 1);
    expect("one row for two: 9 at 0", r.number == TAGMURLEN_OUTPUT_SHORT && r.offset == 0 && r.hits == 0 && all_as_they_were(rows));

    uint32_t firsts[8], ceilings[8];
    uint8_t marks[8];
    memset(marks, 99, sizeof marks);
    clear(rows);
    struct tagmurlen_searched s = tagmurlen_search_rows(query, sizeof query, shelf, sizeof shelf, rows, ROWS, firsts, 8, ceilings, 8, marks, 8);
    expect("pruned: two hits, seven intervals, two blocks of three", s.number == 0 && s.hits == 2 && s.intervals == 7 && s.opened == 2 && s.blocks == 3);
    expect("pruned: the rows past the hits", hits_then_rest(rows));
    expect("pruned: the book, its last row not touched", memcmp(marks, (const uint8_t[]){0, 1, 1, 1, 0, 0, 0, 99}, 8) == 0 && firsts[2] == 4 && ceilings[2] == 13);
    return wrong != 0;
}
