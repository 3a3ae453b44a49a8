/* Tagmurlen: searches that write their hits into lent rows, a docid beside its score. Link target/staticlib/liblent.a (made by `harness/build lent`,
 * for x86-64-v2); it may be linked beside libembed.a.
 *
 * Each function hands back a struct by value: the refusal's number (enum tagmurlen_refusal) and offset, both 0 where there is none, and the counts.
 * Rows past the last hit are not touched, and a refusal leaves every row as it was. A pointer is followed by how many elements it points to, as in
 * tagmurlen.h. */
#ifndef TAGMURLEN_ROWS_H
#define TAGMURLEN_ROWS_H

#include "tagmurlen.h"

#ifdef __cplusplus
extern "C" {
#endif

struct tagmurlen_hit {
    uint32_t docid;
    uint32_t score;
};

struct tagmurlen_ranked {
    uint32_t number;
    uint64_t offset;
    uint64_t hits;
};

/* The best k documents of a query, all its lists read: 1 to 5, 6, 7, 9, 8. */
struct tagmurlen_ranked tagmurlen_rank_rows(const uint8_t *query, size_t query_len, const uint8_t *shelf, size_t shelf_len,
                                            struct tagmurlen_hit *rows, size_t rows_len);

struct tagmurlen_searched {
    uint32_t number;
    uint64_t offset;
    uint64_t intervals; /* in number 8 too */
    uint64_t opened;    /* blocks that an opened interval met */
    uint64_t blocks;    /* blocks of the query's lists */
    uint64_t hits;
};

/* The same by the pruned search, with its book, one row per interval in three runs: first docid, ceiling, mark (0 skipped, 1 opened, 2 stopped
   here, 3 not reached). TAGMURLEN_MAX_INTERVALS rows are always enough. Number 8 fills the book too. */
struct tagmurlen_searched tagmurlen_search_rows(const uint8_t *query, size_t query_len, const uint8_t *shelf, size_t shelf_len,
                                                struct tagmurlen_hit *rows, size_t rows_len, uint32_t *firsts, size_t firsts_len,
                                                uint32_t *ceilings, size_t ceilings_len, uint8_t *marks, size_t marks_len);

#ifdef __cplusplus
}
#endif

#endif
