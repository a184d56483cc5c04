/* The deepest trees, told on the stack that a main thread has: `tests/trees` runs it with 8 MB. A parse's: 65 tokens, each
 * under a chain of 250 rules, 16,250 rounds in all; and the longest list, 8,192 tokens, a level of left factors each. Their trees have the words that the rules give. And the
 * deepest store: 16,383 Sums, each the left factor of the next. */
#include <stdio.h>
#include <stdlib.h>

#include "grammar_file.h"

enum { LINKS = 250, MOST = 20000 };

static size_t set, held, used;
static uint32_t items[BRINESADDLE_MAX_ITEM_WORDS], starts[BRINESADDLE_MAX_START_WORDS], queue[BRINESADDLE_MAX_QUEUE_WORDS];
static uint64_t rows[BRINESADDLE_MAX_ROW_WORDS];
static uint16_t store[BRINESADDLE_MAX_UNITS], tokens[MOST];
static uint32_t words[4 * MOST], wanted[4 * MOST];
static size_t wanted_len;

#define LENT(words) words, sizeof(words) / sizeof *(words)
#define PARSE file, file_len, &set, &held, &used, LENT(items), LENT(starts), LENT(rows), LENT(queue), LENT(store)
#define READ_PARSE file, file_len, set, held, used, LENT(items), LENT(starts), LENT(rows), LENT(queue), LENT(store)

static void check(const char *what, uint64_t got, uint64_t due)
{
    if (got != due) {
        fprintf(stderr, "%s: wanted %llu, got %llu\n", what, (unsigned long long)due, (unsigned long long)got);
        exit(1);
    }
}

/* The tree under a handle is the one that is wanted. */
static void told(const char *what, size_t units, size_t handle)
{
    uint64_t trees = 0;
    size_t count = 0, place = 0;
    check(what, brinesaddle_count(store, units, handle, &trees, &place), BRINESADDLE_DONE);
    check(what, trees, 1);
    check(what, brinesaddle_tree(store, units, handle, 0, words, 0, &count, &place), BRINESADDLE_TOO_SHORT);
    check(what, count, wanted_len);
    check(what, brinesaddle_tree(store, units, handle, 0, LENT(words), &count, &place), BRINESADDLE_DONE);
    check(what, count, wanted_len);
    for (size_t k = 0; k < count; k++)
        check(what, words[k], wanted[k]);
    printf("%s: %zu words\n", what, count);
}

/* That of so many tokens 0, read with the file at hand. */
static void parsed(const char *what, size_t count)
{
    uint32_t yes = 0, handle = 0;
    size_t taken = 0;
    check(what, brinesaddle_start(PARSE), BRINESADDLE_DONE);
    check(what, brinesaddle_run(PARSE, tokens, count, &taken), BRINESADDLE_DONE);
    check(what, brinesaddle_finished(READ_PARSE, &yes, &handle), BRINESADDLE_DONE);
    check(what, yes, 1);
    told(what, used, handle);
}

static void want(uint32_t word)
{
    wanted[wanted_len++] = word;
}

int main(void)
{
    /* A1 ::= A2, A2 ::= A3, .., A250 ::= A1 0 | 0. */
    head(LINKS + 3, 1, LINKS + 2);
    rule(LINKS + 1, 1, LINKS + 2);
    for (unsigned link = 1; link < LINKS; link++)
        rule(link, link + 1, 0xFFFF);
    rule(LINKS, 1, 0);
    rule(LINKS, 0, 0xFFFF);
    for (size_t token = 0; token < 65; token++) {
        for (uint32_t link = 1; link < LINKS; link++)
            want(link);
        want(token < 64 ? LINKS : LINKS + 1);
    }
    for (size_t token = 0; token < 65; token++)
        want(0);
    parsed("16,250 rounds", 65);

    /* S ::= S 0 | 0. */
    head(4, 1, 3);
    rule(2, 1, 3);
    rule(1, 1, 0);
    rule(1, 0, 0xFFFF);
    wanted_len = 0;
    for (size_t k = 1; k < 8192; k++)
        want(1);
    want(2);
    for (size_t k = 0; k < 8192; k++)
        want(0);
    parsed("a list of 8,192 tokens", 8192);

    /* A leaf, and Sums that are the actions of Products: each the one before, with itself, so that its one tree has 2^levels words and more. */
    uint64_t trees = 0;
    size_t count = 0, place = 0, handle = BRINESADDLE_MAX_UNITS - 3;
    store[0] = 0x8005;
    for (size_t at = 1; at < BRINESADDLE_MAX_UNITS; at++)
        store[at] = at % 2 ? 0x0107 : at > 2 ? 0x6303 : 0x6202;
    check("16,383 levels", brinesaddle_count(LENT(store), handle, &trees, &place), BRINESADDLE_DONE);
    check("16,383 levels", trees, 1);
    check("16,383 levels", brinesaddle_tree(LENT(store), handle, 0, LENT(words), &count, &place), BRINESADDLE_TOO_SHORT);
    check("16,383 levels", count, SIZE_MAX);
    printf("a store of 16,383 levels: no place is long enough\n");
    return 0;
}
