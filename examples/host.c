/* A host in C: reads tokens of document 01's grammar A, asks whether they are a sentence, and prints the latest set and the ways to derive
 * it; tells of a refused token what could have stood there; then writes a node, reads it back and walks over it, and shows where a store is
 * bad. `tests/host` builds and runs it. */
#include <stdio.h>

#include "brinesaddle.h"

/* S ::= S P | num, P ::= plus S; num is token 0, plus token 1. */
static const uint8_t grammar[] = {1, 0, 0, 0, 0x23, 0, 6, 0, 2, 0, 4, 0, 4, 0, 2, 0, 5, 0, 2, 0, 2, 0, 3, 0, 2, 0, 0, 0xFF, 0xFF, 0, 3, 0, 1, 0, 2};

enum { ITEMS = 64, SETS = 16, QUEUE = 16, UNITS = 256 };

/* A parse: the state, and the words lent to it. */
struct parse {
    size_t set, held, used;
    uint32_t items[BRINESADDLE_ITEM_WORDS * ITEMS], starts[SETS + 1], queue[BRINESADDLE_ENTRY_WORDS * QUEUE];
    uint64_t rows[BRINESADDLE_ROW_WORDS * SETS];
    uint16_t store[UNITS];
};

/* The state of a parse, where a call may change it and where it reads it alone, and its words, as every call takes them. */
#define STATE(p) &(p)->set, &(p)->held, &(p)->used
#define READ_STATE(p) (p)->set, (p)->held, (p)->used
#define SLICE(words) (words), sizeof(words) / sizeof *(words)
#define WORDS(p) SLICE((p)->items), SLICE((p)->starts), SLICE((p)->rows), SLICE((p)->queue), SLICE((p)->store)

/* The ways to derive what is below a Sum: of each the rule, and the nodes of its symbols. */
static void ways(const struct parse *p, uint32_t handle)
{
    uint32_t node[5] = {0};
    size_t behind = handle, place = 0;
    brinesaddle_node_read(p->store, p->used, handle, node, &behind, &place);
    printf("node %u: symbol %u", handle, node[2]);
    for (uint32_t left = node[1]; left > 0; left--) {
        brinesaddle_node_read(p->store, p->used, behind, node, &behind, &place);
        printf(", by rule %u from node %u", node[1], node[2]);
        if (node[3])
            printf(" and node %u", node[4]);
    }
    printf("\n");
}

static void show(struct parse *p, const uint16_t *tokens, size_t count)
{
    size_t taken = 0, first = 0, words = 0;
    uint32_t yes = 0, handle = 0;
    uint32_t started = brinesaddle_start(SLICE(grammar), STATE(p), WORDS(p));
    uint32_t stopped = brinesaddle_run(SLICE(grammar), STATE(p), WORDS(p), tokens, count, &taken);
    brinesaddle_finished(SLICE(grammar), READ_STATE(p), WORDS(p), &yes, &handle);
    brinesaddle_latest_set(SLICE(grammar), READ_STATE(p), WORDS(p), &first, &words);
    printf("start %u, read %zu, stopped %u, finished %s, set %zu:", started, taken, stopped, yes ? "yes" : "no", p->set);
    for (size_t k = first; k < first + words; k += BRINESADDLE_ITEM_WORDS)
        printf(" (%u, %u, %u)", p->items[k], p->items[k + 1], p->items[k + 2]);
    printf("\n");
    if (yes)
        ways(p, handle);
}

/* What support tells of a refused token: what could have stood there, and the latest set, as text and for the console as records. */
static void explain(const struct parse *p)
{
    static uint16_t tokens[BRINESADDLE_MAX_TOKENS];
    static uint8_t text[BRINESADDLE_MAX_LINE * ITEMS];
    static struct brinesaddle_item records[ITEMS];
    size_t count = 0;
    if (brinesaddle_expected(SLICE(grammar), READ_STATE(p), WORDS(p), tokens, BRINESADDLE_MAX_TOKENS, &count) == BRINESADDLE_DONE) {
        printf("could have stood here:");
        for (size_t k = 0; k < count; k++)
            printf(" %u", tokens[k]);
        printf("\n");
    }
    if (brinesaddle_listing(SLICE(grammar), READ_STATE(p), WORDS(p), text, sizeof text, &count) == BRINESADDLE_DONE)
        fwrite(text, 1, count, stdout);
    uint32_t told = brinesaddle_latest_records(SLICE(grammar), READ_STATE(p), WORDS(p), records, 1, &count);
    printf("a place of 1 record: %u, needed %zu\n", told, count);
    if (brinesaddle_latest_records(SLICE(grammar), READ_STATE(p), WORDS(p), records, ITEMS, &count) == BRINESADDLE_DONE)
        for (const struct brinesaddle_item *item = records; item < records + count; item++)
            printf("rule %u, left %u, first %u, second %u, origin %u\n", item->rule, item->left, item->first, item->second, item->origin);
}

static void nodes(void)
{
    uint16_t store[48];
    uint32_t product[5] = {BRINESADDLE_PRODUCT, 9, 20, 1, 35}, found[5] = {0};
    size_t behind = 0, count = 0, end = 0, place = 0;
    for (size_t k = 0; k < 48; k++)
        store[k] = 0xFFFF;
    uint32_t wrote = brinesaddle_node_write(store, 48, 40, product, &behind, &place);
    printf("write %u, behind %zu, units %04X %04X\n", wrote, behind, store[40], store[41]);
    uint32_t read = brinesaddle_node_read(store, 48, 0, found, &behind, &place);
    printf("read %u, kind %u, action %u, left %u, right %u, behind %zu\n", read, found[0], found[1], found[2], found[4], behind);
    uint32_t walked = brinesaddle_node_walk(store, 48, 0, &count, &end, &place);
    printf("walk %u, nodes %zu, behind %zu\n", walked, count, end);
    uint32_t at_end = brinesaddle_node_read(store, 48, behind, found, &behind, &place);
    printf("read on %u, end %s\n", at_end, found[0] == BRINESADDLE_END ? "yes" : "no");
    product[2] = 40;
    wrote = brinesaddle_node_write(store, 48, 40, product, &behind, &place);
    printf("its own factor: %u at %zu\n", wrote, place);
    store[40] = 0xF000;
    walked = brinesaddle_node_walk(store, 48, 0, &count, &end, &place);
    printf("a bad unit: %u at %zu\n", walked, place);
}

int main(void)
{
    static struct parse p;
    const uint16_t sentence[] = {0, 1, 0}, two_ways[] = {0, 1, 0, 1, 0}, no_sentence[] = {0, 0};
    printf("check %u\n", brinesaddle_check(SLICE(grammar)));
    show(&p, sentence, 3);
    show(&p, two_ways, 5);
    show(&p, no_sentence, 2);
    explain(&p);
    printf("token 70000: %u\n", brinesaddle_token(SLICE(grammar), STATE(&p), WORDS(&p), 70000));
    p.starts[0] = 1;
    printf("damaged: %u\n", brinesaddle_token(SLICE(grammar), STATE(&p), WORDS(&p), 1));
    nodes();
    return 0;
}
