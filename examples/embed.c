/* Writes a list, rescores a sheet, turns the list to strips, searches, and shows a refusal. From the repository's root:
 *     harness/build embed && cc -Iinclude examples/embed.c target/staticlib/libembed.a -o target/embed && target/embed */
#include "tagmurlen.h"
#include "tagmurlen_query.h"
#include <stdio.h>

int main(void) {
    uint32_t sheets[200];
    uint16_t scores[200];
    uint8_t first[1024], second[1024], shelf[1024];
    uint64_t value = 0;
    for (uint32_t i = 0; i < 200; i++) { /* in two blocks, 1 to 100 and 101 to 200 */
        sheets[i] = i + 1;
        scores[i] = 5;
    }

    uint32_t number = tagmurlen_write_list(false, 7, sheets, 200, scores, 200, first, sizeof first, &value);
    printf("written: %u, %llu bytes\n", number, (unsigned long long)value);

    number = tagmurlen_set(first, value, 7, 9, 65535, second, sizeof second, &value); /* sheet 9 is raised to the top score */
    printf("rescored: %u, %llu bytes\n", number, (unsigned long long)value);

    number = tagmurlen_convert(second, value, 7, shelf, sizeof shelf, &value); /* in each block all scores stand together now */
    printf("in strips: %u, %llu bytes\n", number, (unsigned long long)value);
    size_t length = value;

    const uint32_t terms[] = {7};
    const uint8_t weights[] = {10};
    uint8_t query[TAGMURLEN_MAX_QUERY]; /* the best 2 for term 7, weight 10 */
    size_t query_length = tagmurlen_put_query(query, sizeof query, 2, terms, weights, 1);
    number = tagmurlen_check_query(query, query_length, &value);
    printf("query: %u, wants %llu rows\n", number, (unsigned long long)value);

    uint32_t found[2], summed[2], firsts[TAGMURLEN_MAX_INTERVALS], ceilings[TAGMURLEN_MAX_INTERVALS];
    uint8_t marks[TAGMURLEN_MAX_INTERVALS];
    uint64_t intervals, opened, blocks;
    number = tagmurlen_search(query, query_length, shelf, length, found, 2, summed, 2, firsts, TAGMURLEN_MAX_INTERVALS, ceilings,
                              TAGMURLEN_MAX_INTERVALS, marks, TAGMURLEN_MAX_INTERVALS, &value, &intervals, &opened, &blocks);
    if (number == TAGMURLEN_ACCEPTED)
        for (uint64_t i = 0; i < value; i++)
            printf("sheet %u scores %u\n", found[i], summed[i]);
    printf("searched: %u, opened %llu of %llu blocks\n", number, (unsigned long long)opened, (unsigned long long)blocks);

    shelf[17] = 0; /* the first summary's greatest score is made smaller than that of sheet 9, as in the incident */
    number = tagmurlen_check(shelf, length, &value);
    printf("kept an old greatest score: refused as %u at %llu\n", number, (unsigned long long)value);
    return number == TAGMURLEN_BODY ? 0 : 1;
}
