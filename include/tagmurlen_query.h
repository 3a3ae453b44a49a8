/* Tagmurlen: the bytes of a query. Needs no archive. */
#ifndef TAGMURLEN_QUERY_H
#define TAGMURLEN_QUERY_H

#include <stddef.h>
#include <stdint.h>

enum { TAGMURLEN_MAX_QUERY = 68 }; /* bytes of a query with 8 terms */

/* Writes a query to the front of `out`: the best `k`, then `n` terms, each with its weight. Returns its length, 4 + 8 n; or 0, and writes nothing,
   where `out_len` is less. It judges nothing: `tagmurlen_check_query` does, and so does a search. (A `k` above 255, which its byte cannot hold, is
   written as 255, which they refuse alike.) */
static inline size_t tagmurlen_put_query(uint8_t *out, size_t out_len, unsigned k, const uint32_t *terms, const uint8_t *weights, size_t n) {
    size_t i;
    if (out_len < 4 || (out_len - 4) / 8 < n)
        return 0;
    out[0] = 0x20;
    out[1] = 0;
    out[2] = 1;
    out[3] = (uint8_t)(k < 255 ? k : 255);
    for (i = 0; i < n; i++) {
        uint8_t *field = out + 4 + 8 * i;
        field[0] = 0x21;
        field[1] = 0;
        field[2] = 5;
        field[3] = (uint8_t)(terms[i] >> 24);
        field[4] = (uint8_t)(terms[i] >> 16 & 0xff);
        field[5] = (uint8_t)(terms[i] >> 8 & 0xff);
        field[6] = (uint8_t)(terms[i] & 0xff);
        field[7] = weights[i];
    }
    return 4 + 8 * n;
}

#endif
