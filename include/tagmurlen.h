/* Tagmurlen: a search over errata sheets, for programs in C. Link target/staticlib/libembed.a (made by `harness/build embed`, for x86-64-v2).
 *
 * Every function returns 0 when it accepts its input, or the number of a refusal (enum tagmurlen_refusal). It stores its result through `value`,
 * or the refusal's offset. It reads only what is lent to it, allocates nothing, keeps nothing, and may be called from any number of threads.
 *
 * A pointer is followed by how many elements it points to. For 0 elements it may be NULL or dangle, as an empty container's does: nothing is read or
 * written through it. Otherwise it must be aligned, and what a function may write must not overlap anything else that is lent to the same call. The
 * places for numbers, such as `value`, are never NULL. A refusal leaves every lent run as it was, but for the book of a search that stops at a wrong
 * body.
 *
 * No function recurses, and none takes more stack on a larger input: set, clear and withdraw take 39 KB, search 28 KB, rank_all 12 KB, the others less
 * than 2 KB (`harness/stack` measures it). That is no part of the proof, which is about a machine that has stack enough.
 *
 * tagmurlen_query.h writes a query's bytes. */
#ifndef TAGMURLEN_H
#define TAGMURLEN_H

#include <stdbool.h>
#include <stddef.h>
#include <stdint.h>

#ifdef __cplusplus
extern "C" {
#endif

enum tagmurlen_limit {
    TAGMURLEN_MAX_DOCID = 16777215,  /* sheet numbers (docids) are 1 to this */
    TAGMURLEN_MAX_POSTINGS = 6400,   /* postings of a list */
    TAGMURLEN_MAX_LISTS = 1024,      /* lists of a shelf */
    TAGMURLEN_MAX_SHELF = 1048576,   /* bytes of a shelf */
    TAGMURLEN_MAX_K = 100,           /* hits of a query */
    TAGMURLEN_MAX_TERMS = 8,         /* terms of a query */
    TAGMURLEN_MAX_INTERVALS = 1025   /* rows of a book */
};

enum tagmurlen_refusal {
    TAGMURLEN_ACCEPTED = 0,
    TAGMURLEN_QUERY_FIELDS = 1,   /* query fields wrong or cut short; at the first such field, or the query length */
    TAGMURLEN_QUERY_K = 2,        /* k not 1 to 100; at 0 */
    TAGMURLEN_QUERY_TERMS = 3,    /* no term, or more than 8; at the query length, or the ninth */
    TAGMURLEN_QUERY_WEIGHT = 4,   /* weight 0; at the first such field */
    TAGMURLEN_QUERY_REPEATED = 5, /* term twice; at the second of the first pair to close */
    TAGMURLEN_SHELF_FIELDS = 6,   /* shelf over 1,048,576 bytes (at 0); field missing, unexpected, of wrong length or cut short; terms not rising;
                                     block count not 1 to 64; mixed tags in one list, at the first body whose tag is not the first body's;
                                     1,025th list; at its tag, or the shelf length where no byte is left */
    TAGMURLEN_SUMMARY = 7,        /* wrong summary; at its tag */
    TAGMURLEN_BODY = 8,           /* wrong body; at its tag */
    TAGMURLEN_OUTPUT_SHORT = 9,   /* lent output too short; at 0 */
    TAGMURLEN_POSTING = 10,       /* docid or score out of range; docids not rising; runs of unequal length; nothing to write; at the posting's
                                     index, for unequal runs the shorter length, 0 in an edit or with nothing to write */
    TAGMURLEN_LIMITS = 11,        /* result would pass 6,400 postings, 1,024 lists or 1,048,576 bytes; at 0 */
    TAGMURLEN_NOT_THERE = 12      /* list, block or posting not there; a withdrawn docid in no list; at 0 */
};

enum tagmurlen_mark { /* of an interval, in a search's book */
    TAGMURLEN_SKIPPED = 0,
    TAGMURLEN_OPENED = 1,
    TAGMURLEN_STOPPED = 2,    /* a block that it meets has a wrong body: 8 */
    TAGMURLEN_NOT_REACHED = 3 /* it lies behind the one that stopped */
};

/* Checks a shelf: 6, 7, 8. Stores 0 for a sound shelf. */
uint32_t tagmurlen_check(const uint8_t *shelf, size_t shelf_len, uint64_t *value);

/* Checks a query: 1 to 5. Stores k, the rows that a search wants lent, for a right query. */
uint32_t tagmurlen_check_query(const uint8_t *query, size_t query_len, uint64_t *value);

/* Reads the list of a term to the front of two runs, docids beside scores: 6, 7, 12, 8 (that list), 9. Stores how many postings there are. */
uint32_t tagmurlen_read_list(const uint8_t *shelf, size_t shelf_len, uint32_t term, uint32_t *docids, size_t docids_len,
                             uint16_t *scores, size_t scores_len, uint64_t *value);

/* Writes a list to the front of `out`, its bodies tagged 04 if `strip` (all gap numbers of a block, then all its scores), else 03 (each posting's gap
   number, then its score): 11, 10, 9. Stores how many bytes it wrote, the same for both. */
uint32_t tagmurlen_write_list(bool strip, uint32_t term, const uint32_t *docids, size_t docids_len, const uint16_t *scores,
                              size_t scores_len, uint8_t *out, size_t out_len, uint64_t *value);

/* The best k documents of a query, all its lists read, to the front of two runs, docids beside their scores: 1 to 5, 6, 7, 9, 8.
   Stores how many hits there are. The shorter run is the number of rows. */
uint32_t tagmurlen_rank_all(const uint8_t *query, size_t query_len, const uint8_t *shelf, size_t shelf_len,
                            uint32_t *docids, size_t docids_len, uint32_t *scores, size_t scores_len, uint64_t *value);

/* The same hits by the pruned search, which opens only the blocks that can still matter: 1 to 5, 6, 7, 9, 8 (the blocks it opens). On a shelf that
   `tagmurlen_check` accepts they equal those of `tagmurlen_rank_all`. Stores how many hits there are.
   It keeps a book in three runs, with a row for each interval of sheets: first docid, ceiling, mark (enum tagmurlen_mark). A run shorter than the
   number of intervals is refused as 9; TAGMURLEN_MAX_INTERVALS rows are always enough.
   Stores how many intervals there are, how many blocks were opened, and how many blocks the query's lists have: 0 each in a refusal, but 8 has
   its number of intervals and a filled book, in which the interval that stopped is marked. */
uint32_t tagmurlen_search(const uint8_t *query, size_t query_len, const uint8_t *shelf, size_t shelf_len,
                          uint32_t *docids, size_t docids_len, uint32_t *scores, size_t scores_len,
                          uint32_t *firsts, size_t firsts_len, uint32_t *ceilings, size_t ceilings_len, uint8_t *marks, size_t marks_len,
                          uint64_t *value, uint64_t *intervals, uint64_t *opened, uint64_t *blocks);

/* The edits and the converter read one shelf and write another to the front of `out`, which must not overlap it. They store the new shelf's length.
   An edit keeps a list's tag, 03 or 04; a new list gets 03. */

/* Adds a posting or replaces its score: 10, 6, 7, 8, 11, 9. */
uint32_t tagmurlen_set(const uint8_t *shelf, size_t shelf_len, uint32_t term, uint32_t docid, uint16_t score, uint8_t *out,
                       size_t out_len, uint64_t *value);

/* Removes a posting: 10, 6, 7, 8, 12, 11, 9. */
uint32_t tagmurlen_clear(const uint8_t *shelf, size_t shelf_len, uint32_t term, uint32_t docid, uint8_t *out, size_t out_len,
                         uint64_t *value);

/* Removes a sheet from every list: 10, 6, 7, 8, 12, 11, 9. */
uint32_t tagmurlen_withdraw(const uint8_t *shelf, size_t shelf_len, uint32_t docid, uint8_t *out, size_t out_len, uint64_t *value);

/* Turns the list of a term to the other layout, from tag 03 to 04 or from 04 to 03, block by block, changing no posting: 6, 7, 8, 12, 9. The new
   shelf is as long as the old one. */
uint32_t tagmurlen_convert(const uint8_t *shelf, size_t shelf_len, uint32_t term, uint8_t *out, size_t out_len, uint64_t *value);

#ifdef __cplusplus
}
#endif

#endif
