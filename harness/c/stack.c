/* How much stack each function of the archive takes: a stack is filled with a pattern, the function is called there, and the lowest byte that it
 * changed is sought. No function recurses or has frames that grow with its input, so that a call that is accepted shows the depth. Run by
 * `harness/stack`. */
#include "tagmurlen.h"
#include "tagmurlen_query.h"
#include <stdio.h>
#include <string.h>
#include <ucontext.h>

enum { STACK = 1 << 18, PATTERN = 0xA5, POSTINGS = TAGMURLEN_MAX_POSTINGS, ROOM = 8 * 30000 };

static uint8_t stack[STACK], query[TAGMURLEN_MAX_QUERY], shelf[ROOM], out[ROOM];
static size_t query_len, shelf_len;
static uint32_t docids[POSTINGS], sums[POSTINGS], firsts[TAGMURLEN_MAX_INTERVALS], ceilings[TAGMURLEN_MAX_INTERVALS];
static uint16_t scores[POSTINGS];
static uint8_t marks[TAGMURLEN_MAX_INTERVALS];
static uint64_t value, intervals, opened, blocks;
static uint32_t number;

static void nothing(void) { number = 0; }
static void check(void) { number = tagmurlen_check(shelf, shelf_len, &value); }
static void check_query(void) { number = tagmurlen_check_query(query, query_len, &value); }
static void read_list(void) { number = tagmurlen_read_list(shelf, shelf_len, 8, docids, POSTINGS, scores, POSTINGS, &value); }
static void write_list(void) { number = tagmurlen_write_list(true, 7, docids, POSTINGS, scores, POSTINGS, out, ROOM, &value); }
static void set(void) { number = tagmurlen_set(shelf, shelf_len, 8, 9, 7, out, ROOM, &value); }
static void clear(void) { number = tagmurlen_clear(shelf, shelf_len, 8, 9, out, ROOM, &value); }
static void withdraw(void) { number = tagmurlen_withdraw(shelf, shelf_len, 9, out, ROOM, &value); }
static void convert(void) { number = tagmurlen_convert(shelf, shelf_len, 8, out, ROOM, &value); }
static void rank_all(void) { number = tagmurlen_rank_all(query, query_len, shelf, shelf_len, docids, 100, sums, 100, &value); }
static void search(void) {
    number = tagmurlen_search(query, query_len, shelf, shelf_len, docids, 100, sums, 100, firsts, TAGMURLEN_MAX_INTERVALS, ceilings,
                              TAGMURLEN_MAX_INTERVALS, marks, TAGMURLEN_MAX_INTERVALS, &value, &intervals, &opened, &blocks);
}

/* Eight full lists, in either layout by turns, gaps of one and of two bytes; a query that names them all. */
static void make_input(void) {
    uint32_t terms[TAGMURLEN_MAX_TERMS];
    uint8_t weights[TAGMURLEN_MAX_TERMS];
    for (uint32_t i = 0; i < POSTINGS; i++) {
        docids[i] = i % 2 ? 300 * i : 300 * i + 9;
        scores[i] = (uint16_t)(1 + i * 7919 % 65535);
    }
    for (uint32_t i = 0; i < TAGMURLEN_MAX_TERMS; i++) {
        terms[i] = i + 1;
        weights[i] = (uint8_t)(i + 1);
        tagmurlen_write_list(i % 2, i + 1, docids, POSTINGS, scores, POSTINGS, shelf + shelf_len, ROOM - shelf_len, &value);
        shelf_len += value;
    }
    query_len = tagmurlen_put_query(query, sizeof query, TAGMURLEN_MAX_K, terms, weights, TAGMURLEN_MAX_TERMS);
}

/* The bytes below the top of the stack that a call changed. */
static size_t depth(void (*call)(void)) {
    ucontext_t here, there;
    size_t untouched = 0;
    memset(stack, PATTERN, STACK);
    getcontext(&there);
    there.uc_stack.ss_sp = stack;
    there.uc_stack.ss_size = STACK;
    there.uc_link = &here;
    makecontext(&there, call, 0);
    swapcontext(&here, &there);
    while (stack[untouched] == PATTERN)
        untouched++;
    return STACK - untouched;
}

int main(void) {
    static const struct {
        const char *name;
        void (*call)(void);
    } functions[] = {{"check", check}, {"check_query", check_query}, {"read_list", read_list}, {"write_list", write_list}, {"set", set},
                     {"clear", clear}, {"withdraw", withdraw}, {"convert", convert}, {"rank_all", rank_all}, {"search", search}};
    int wrong = 0;
    make_input();
    for (size_t i = 0; i < sizeof functions / sizeof functions[0]; i++) {
        size_t used = depth(functions[i].call) - depth(nothing);
        functions[i].call();
        printf("%-12s %6zu bytes%s\n", functions[i].name, used, number ? ", refused" : "");
        wrong += number != 0;
    }
    return wrong != 0;
}
