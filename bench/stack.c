/* How many bytes of stack each call of the static library uses, its arguments and return address among them, and how many the header
 * says. `bench/stack` builds and runs it. The stack below the caller is painted, and after the call the lowest word without its paint is
 * looked for. The figure is the most of many calls: on a parse with files cut off, broken, small and the largest there can be, from the
 * start to the first full buffer; on nodes of every kind and length; on the deepest trees. Fails where the header says less. x86-64; it needs the
 * 8 MB of stack that a main thread has. */
#include <stdio.h>
#include <stdlib.h>
#include <string.h>

#include "../oracle/grammar_file.h"

enum { PAINTED_WORDS = 7 << 17, SYMBOLS = BRINESADDLE_MAX_TOKENS + 3, RULES = 2048, TOKENS = 4096, UNITS = BRINESADDLE_MAX_UNITS,
       ITEMS = BRINESADDLE_MAX_ITEM_WORDS / BRINESADDLE_ITEM_WORDS };

static const uint64_t PAINT = 0xA5C3965A3C69F00F;

/* The bytes of stack that a call uses. */
__attribute__((noinline)) static size_t stack_of(void (*call)(void))
{
    volatile uint64_t *top, *lowest;
    __asm__ volatile("mov %%rsp, %0" : "=r"(top));
    for (volatile uint64_t *word = top - PAINTED_WORDS; word < top; word++)
        *word = PAINT;
    call();
    for (lowest = top - PAINTED_WORDS; *lowest == PAINT;)
        lowest++;
    return (size_t)(top - lowest) * sizeof *top;
}

/* What the calls are made with. */
static size_t set, held, used, taken, first, count, position, behind, place;
static uint32_t items[BRINESADDLE_MAX_ITEM_WORDS], starts[BRINESADDLE_MAX_START_WORDS], queue[BRINESADDLE_MAX_QUEUE_WORDS];
static uint64_t rows[BRINESADDLE_MAX_ROW_WORDS];
static uint16_t tokens[TOKENS], positions[2 * TOKENS], forest[UNITS], store[UNITS];
static const uint16_t both_kinds[] = {0, 1};
static size_t tokens_len;
static uint32_t yes, handle, node[5], answer, tree_words[2 * TOKENS * 2];
static uint64_t trees;

/* A written grammar, and the place of its file. */
static uint8_t written[9 + 36 * 65535], made[BRINESADDLE_MAX_FILE];
static size_t written_len, length;
static uint32_t empty;

/* The plain engine's table, and how many tokens it is asked of. */
static uint64_t table[BRINESADDLE_MAX_TABLE_WORDS];
static size_t few;

/* The places of the reports, each at its longest, and whether they are lent or nothing is. */
static uint16_t expected_tokens[BRINESADDLE_MAX_TOKENS];
static uint8_t text[BRINESADDLE_MAX_LINE * ITEMS];
static uint32_t words[5 * ITEMS];
static struct brinesaddle_item records[ITEMS];
static int lent = 1;

#define FILE_LENT file, file_len
#define LENT(words) words, sizeof(words) / sizeof *(words)
#define STATE &set, &held, &used
#define READ_STATE set, held, used
#define WORDS LENT(items), LENT(starts), LENT(rows), LENT(queue), LENT(forest)
#define PLACE(words) words, lent ? sizeof(words) / sizeof *(words) : 0, &count

static void check(void) { answer = brinesaddle_check(FILE_LENT); }
static void start(void) { answer = brinesaddle_start(FILE_LENT, STATE, WORDS); }
static void token(void) { answer = brinesaddle_token(FILE_LENT, STATE, WORDS, tokens[0]); }
static void run(void) { answer = brinesaddle_run(FILE_LENT, STATE, WORDS, tokens, tokens_len, &taken); }
static void kinds(void) { answer = brinesaddle_kinds(FILE_LENT, STATE, WORDS, LENT(both_kinds)); }
static void run_kinds(void) { answer = brinesaddle_run_kinds(FILE_LENT, STATE, WORDS, positions, 2 * tokens_len, &taken); }
static void finished(void) { answer = brinesaddle_finished(FILE_LENT, READ_STATE, WORDS, &yes, &handle); }
static void latest_set(void) { answer = brinesaddle_latest_set(FILE_LENT, READ_STATE, WORDS, &first, &count); }
static void expected(void) { answer = brinesaddle_expected(FILE_LENT, READ_STATE, WORDS, PLACE(expected_tokens)); }
static void listing(void) { answer = brinesaddle_listing(FILE_LENT, READ_STATE, WORDS, PLACE(text)); }
static void latest_words(void) { answer = brinesaddle_latest_words(FILE_LENT, READ_STATE, WORDS, PLACE(words)); }
static void latest_records(void) { answer = brinesaddle_latest_records(FILE_LENT, READ_STATE, WORDS, PLACE(records)); }
static void node_write(void) { answer = brinesaddle_node_write(store, UNITS, position, node, &behind, &place); }
static void node_read(void) { answer = brinesaddle_node_read(store, UNITS, position, node, &behind, &place); }
static void node_walk(void) { answer = brinesaddle_node_walk(store, UNITS, 0, &count, &behind, &place); }
static void count_trees(void) { answer = brinesaddle_count(forest, UNITS, handle, &trees, &place); }
static void tree(void) { answer = brinesaddle_tree(forest, UNITS, handle, 0, LENT(tree_words), &count, &place); }
static void plain(void) { answer = brinesaddle_plain(FILE_LENT, tokens, few, table, lent ? BRINESADDLE_MAX_TABLE_WORDS : 0, &yes, &count); }
static void translate(void) { answer = brinesaddle_translate(written, written_len, made, sizeof made, &length, &empty); }

enum {
    CHECK, START, TOKEN, RUN, KINDS, RUN_KINDS, FINISHED, LATEST_SET, EXPECTED, LISTING, LATEST_WORDS, LATEST_RECORDS, NODE_WRITE, NODE_READ, NODE_WALK, TRANSLATE,
    COUNT, PARSE_TREE, TREE, PLAIN, CALLS
};

static const struct {
    const char *name;
    void (*call)(void);
    size_t said;
} calls[CALLS] = {
    [CHECK] = {"check", check, BRINESADDLE_REPORT_STACK},
    [START] = {"start", start, BRINESADDLE_PARSE_STACK},
    [TOKEN] = {"token", token, BRINESADDLE_PARSE_STACK},
    [RUN] = {"run", run, BRINESADDLE_PARSE_STACK},
    [KINDS] = {"kinds", kinds, BRINESADDLE_PARSE_STACK},
    [RUN_KINDS] = {"run_kinds", run_kinds, BRINESADDLE_PARSE_STACK},
    [FINISHED] = {"finished", finished, BRINESADDLE_REPORT_STACK},
    [LATEST_SET] = {"latest_set", latest_set, BRINESADDLE_REPORT_STACK},
    [EXPECTED] = {"expected", expected, BRINESADDLE_REPORT_STACK},
    [LISTING] = {"listing", listing, BRINESADDLE_REPORT_STACK},
    [LATEST_WORDS] = {"latest_words", latest_words, BRINESADDLE_REPORT_STACK},
    [LATEST_RECORDS] = {"latest_records", latest_records, BRINESADDLE_RECORDS_STACK},
    [NODE_WRITE] = {"node_write", node_write, BRINESADDLE_NODE_STACK},
    [NODE_READ] = {"node_read", node_read, BRINESADDLE_NODE_STACK},
    [NODE_WALK] = {"node_walk", node_walk, BRINESADDLE_NODE_STACK},
    [TRANSLATE] = {"translate", translate, BRINESADDLE_TRANSLATE_STACK},
    [COUNT] = {"count", count_trees, BRINESADDLE_COUNT_STACK},
    [PARSE_TREE] = {"tree of a list", tree, BRINESADDLE_PARSE_TREE_STACK},
    [TREE] = {"tree", tree, BRINESADDLE_TREE_STACK},
    [PLAIN] = {"plain", plain, BRINESADDLE_PLAIN_STACK},
};

static size_t most[CALLS];

/* Makes a call, which has to answer as wanted: a figure of another way through the code would mean nothing. */
static void measure(int which, uint32_t wanted)
{
    size_t bytes = stack_of(calls[which].call);
    if (answer != wanted) {
        fprintf(stderr, "%s answered %u in place of %u\n", calls[which].name, answer, wanted);
        exit(1);
    }
    if (bytes > most[which])
        most[which] = bytes;
}

/* ------------------------------------------------------------------------------------------------------------------------- Grammars */

/* S ::= S P | num, P ::= plus S. */
static void small_grammar(void)
{
    head(6, 2, 4);
    rule(4, 2, 5);
    rule(2, 2, 3);
    rule(2, 0, 0xFFFF);
    rule(3, 1, 2);
}

/* As many symbols and rules as there can be: each nonterminal is token 0, two of itself, or leads to the next. */
static void largest_grammar(void)
{
    head(SYMBOLS, 2, RULES);
    rule(SYMBOLS - 2, 2, SYMBOLS - 1);
    for (unsigned left = 2; left < SYMBOLS - 2; left++) {
        rule(left, left, left);
        rule(left, 0, 0xFFFF);
        rule(left, left < SYMBOLS - 3 ? left + 1 : 0, left);
        rule(left, 1, left);
        if (left < 17)
            rule(left, 1, 1);
    }
}

/* ----------------------------------------------------------------------------------------------------------------------------- Calls */

/* Every report that fills a place. */
static void places(uint32_t wanted)
{
    measure(EXPECTED, wanted);
    measure(LISTING, wanted);
    measure(LATEST_WORDS, wanted);
    measure(LATEST_RECORDS, wanted);
}

/* Every call on a parse, each refused alike. */
static void refused_alike(uint32_t wanted)
{
    measure(TOKEN, wanted);
    measure(RUN, wanted);
    measure(KINDS, wanted);
    measure(RUN_KINDS, wanted);
    measure(FINISHED, wanted);
    measure(LATEST_SET, wanted);
    places(wanted);
}

/* The plain engine with the file at hand, accepted. */
static void settles(void)
{
    few = BRINESADDLE_MAX_PLAIN_TOKENS;
    measure(PLAIN, BRINESADDLE_DONE);
    lent = 0;
    measure(PLAIN, BRINESADDLE_TOO_SHORT);
    lent = 1;
    few++;
    measure(PLAIN, BRINESADDLE_TOO_MANY_TOKENS);
}

/* Every call with the file at hand, accepted, and tokens of which the long run is refused with `full`. */
static void parses(uint32_t full)
{
    for (size_t k = 0; k < tokens_len; k++)
        positions[2 * k] = 1, positions[2 * k + 1] = tokens[k];
    measure(CHECK, BRINESADDLE_DONE);
    settles();
    measure(START, BRINESADDLE_DONE);
    measure(KINDS, BRINESADDLE_DONE);
    measure(START, BRINESADDLE_DONE);
    measure(RUN_KINDS, full);
    measure(START, BRINESADDLE_DONE);
    measure(TOKEN, BRINESADDLE_DONE);
    measure(FINISHED, BRINESADDLE_DONE);
    measure(START, BRINESADDLE_DONE);
    measure(RUN, full);
    measure(FINISHED, BRINESADDLE_DONE);
    measure(LATEST_SET, BRINESADDLE_DONE);
    places(BRINESADDLE_DONE);
    lent = 0;
    places(BRINESADDLE_TOO_SHORT);
    lent = 1;
    starts[0] = 1;
    refused_alike(BRINESADDLE_ILL_FORMED);
    starts[0] = 0;
    file_len--;
    measure(CHECK, BRINESADDLE_MALFORMED);
    measure(PLAIN, BRINESADDLE_MALFORMED);
    measure(START, BRINESADDLE_MALFORMED);
    refused_alike(BRINESADDLE_MALFORMED);
    file_len++;
    memcpy(file + file_len - 6, file + file_len - 12, 6);
    measure(CHECK, BRINESADDLE_BROKEN);
    measure(PLAIN, BRINESADDLE_BROKEN);
    measure(START, BRINESADDLE_BROKEN);
    refused_alike(BRINESADDLE_BROKEN);
}

/* A node of each row of document 01's table at position 300, and one unfit. */
static void nodes(void)
{
    static const uint32_t fit[][5] = {
        {BRINESADDLE_SUM, 31, 255, 0, 0},         {BRINESADDLE_SUM, 1 << 20, 1 << 20, 0, 0},
        {BRINESADDLE_PRODUCT, 9, 290, 0, 0},      {BRINESADDLE_PRODUCT, 9, 200, 0, 0},
        {BRINESADDLE_PRODUCT, 9, 200, 1, 290},    {BRINESADDLE_PRODUCT, 1 << 20, 20, 1, 30},
        {BRINESADDLE_NULLING_LEAF, 7, 0, 0, 0},   {BRINESADDLE_NULLING_LEAF, 1 << 20, 0, 0, 0},
        {BRINESADDLE_EVALUATED, 7, 0, 0, 0},      {BRINESADDLE_EVALUATED, 1 << 20, 0, 0, 0},
    };
    position = 300;
    for (size_t k = 0; k < sizeof fit / sizeof *fit; k++) {
        memset(store, 0xFF, sizeof store);
        memcpy(node, fit[k], sizeof node);
        measure(NODE_WRITE, BRINESADDLE_DONE);
        measure(NODE_READ, BRINESADDLE_DONE);
        measure(NODE_WALK, BRINESADDLE_DONE);
    }
    node[0] = 4;
    measure(NODE_WRITE, BRINESADDLE_UNFIT);
    memset(store, 0, sizeof store);
    measure(NODE_WALK, BRINESADDLE_DONE);
    store[UNITS - 1] = 0xF000;
    measure(NODE_WALK, BRINESADDLE_NO_NODE);
    position = UNITS - 1;
    measure(NODE_READ, BRINESADDLE_NO_NODE);
    store[300] = 0xA000, store[301] = 1, store[302] = 0x1000;
    position = 300;
    measure(NODE_READ, BRINESADDLE_NO_NODE);
    measure(NODE_WALK, BRINESADDLE_NO_NODE);
    position = UNITS - 1;
    node[0] = BRINESADDLE_EVALUATED, node[1] = 1 << 20;
    measure(NODE_WRITE, BRINESADDLE_NO_ROOM);
}

/* A written grammar of these u16s behind its version. */
static void write_down(const uint16_t *numbers, size_t count)
{
    written_len = 0;
    written[written_len++] = 2;
    for (size_t k = 0; k < count; k++) {
        written[written_len++] = (uint8_t)(numbers[k] >> 8);
        written[written_len++] = (uint8_t)numbers[k];
    }
}

/* A translation with each answer, and one of the largest file: S ::= x y for 2,047 pairs of 50 tokens. */
static void translations(void)
{
    static const struct {
        uint16_t numbers[12];
        size_t count;
        uint32_t answer;
    } small[] = {
        {{1, 1, 2, 1, 1, 0, 1, 2, 0, 1}, 10, BRINESADDLE_DONE},
        {{1, 1, 2, 1, 1, 0, 1, 2, 0}, 9, BRINESADDLE_NOT_WRITTEN},
        {{1, 1, 1, 1, 1, 1, 1}, 7, BRINESADDLE_CIRCULAR},
        {{1, 1, 0, 1}, 4, BRINESADDLE_BARREN},
        {{1, 2, 2, 1, 1, 1, 0, 2, 0}, 9, BRINESADDLE_UNREACHABLE},
        {{1, 1, 1, 1, 1, 0}, 6, BRINESADDLE_NO_SENTENCE},
        {{510, 1, 1, 510, 510, 1, 0}, 7, BRINESADDLE_FILE_ROOM},
    };
    for (size_t k = 0; k < sizeof small / sizeof *small; k++) {
        write_down(small[k].numbers, small[k].count);
        measure(TRANSLATE, small[k].answer);
    }
    static uint16_t pairs[4 + 4 * (RULES - 1)] = {50, 1, RULES - 1, 50};
    for (unsigned k = 0; k < RULES - 1; k++) {
        uint16_t *rule = pairs + 4 + 4 * k;
        rule[0] = 50, rule[1] = 2, rule[2] = (uint16_t)(k / 50), rule[3] = (uint16_t)(k % 50);
    }
    write_down(pairs, sizeof pairs / sizeof *pairs);
    measure(TRANSLATE, BRINESADDLE_DONE);
}

/* The longest list, S ::= S 0 | 0; and the deepest store, Sums that are the actions of Products, each of the Sum before it with itself. */
static void deepest_trees(void)
{
    head(4, 1, 3);
    rule(2, 1, 3);
    rule(1, 1, 0);
    rule(1, 0, 0xFFFF);
    memset(tokens, 0, sizeof tokens);
    measure(START, BRINESADDLE_DONE);
    for (int half = 0; half < 2; half++)
        measure(RUN, BRINESADDLE_DONE);
    measure(FINISHED, BRINESADDLE_DONE);
    measure(COUNT, BRINESADDLE_DONE);
    measure(PARSE_TREE, BRINESADDLE_DONE);
    forest[0] = 0x8005;
    for (size_t at = 1; at < UNITS; at++)
        forest[at] = at % 2 ? 0x0107 : at > 2 ? 0x6303 : 0x6202;
    handle = UNITS - 3;
    measure(COUNT, BRINESADDLE_DONE);
    measure(TREE, BRINESADDLE_TOO_SHORT);
    handle = UNITS - 2;
    measure(COUNT, BRINESADDLE_NO_NODE);
    measure(TREE, BRINESADDLE_NO_NODE);
}

int main(void)
{
    for (tokens_len = 0; tokens_len < TOKENS; tokens_len++)
        tokens[tokens_len] = tokens_len % 2;
    small_grammar();
    parses(BRINESADDLE_STORE_FULL);
    memset(tokens, 0, sizeof tokens);
    largest_grammar();
    parses(BRINESADDLE_QUEUE_FULL);
    nodes();
    translations();
    deepest_trees();
    int less = 0;
    for (int which = 0; which < CALLS; which++) {
        printf("%-14s %6zu, header %6zu\n", calls[which].name, most[which], calls[which].said);
        less |= calls[which].said < most[which];
    }
    return less;
}
