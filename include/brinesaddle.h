/* Brinesaddle: the rule reader of the load balancer, for hosts in C.
 *
 * Link target/staticlib/libhost.a (`oracle/archive`, x86-64 Linux). Nothing is allocated and nothing is kept between calls: a parse
 * is three words of the host, the set number, the item count and the number of used units, and five slices that the host lends.
 *
 * Slices. A slice is a pointer and a number of elements. The pointer is not null, even of an empty slice, and is aligned for its
 * elements. Slices and words that a call may write overlap nothing else that the same call takes. A slice that is `const` here is not
 * written. Any contents are taken: no call needs its words prepared but for what a start does.
 *
 * Answers. Each call returns a number: 0 is done; the others are refusals, in this order of precedence but for 7, 8, 9 and 14, of which the
 * first that is met is told. What a refused call leaves is said at each call. In short: a run keeps the tokens or positions before the
 * refused one and tells how many they are; a walk tells the nodes before the units that are none; finished and latest_set put 0 into their
 * words, finished's handle all ones; a call that fills a place tells in `count` how long it must be, or 0 where it is refused for another
 * reason; every other refused call leaves everything as it was. And 10, 11 and 12 tell their place: 10 and 11 the position asked for, 12
 * the unit at which the fault was seen.
 */
#ifndef BRINESADDLE_H
#define BRINESADDLE_H

#include <stddef.h>
#include <stdint.h>

#ifdef __cplusplus
extern "C" {
#endif

enum {
    BRINESADDLE_DONE = 0,
    BRINESADDLE_MALFORMED = 1,     /* fewer than 11 bytes, version not 1, or L not the real length or not 11 + 6R */
    BRINESADDLE_BROKEN = 2,        /* another rule for grammars is broken */
    BRINESADDLE_NO_SETS = 3,       /* start: no room for a set */
    BRINESADDLE_ILL_FORMED = 4,    /* the state is not well formed in these words under this grammar */
    BRINESADDLE_NO_TOKEN = 5,      /* the token is T or above; or no kind, kinds that do not rise strictly, or one that is T or above */
    BRINESADDLE_NOT_PREDICTED = 6, /* no sentence goes on with this token, or with any kind of this position */
    BRINESADDLE_ITEMS_FULL = 7,    /* the items are full */
    BRINESADDLE_QUEUE_FULL = 8,    /* the queue is full */
    BRINESADDLE_SETS_FULL = 9,     /* the new set number would be past the sets */
    BRINESADDLE_UNFIT = 10,        /* node value unfit */
    BRINESADDLE_NO_ROOM = 11,      /* the node does not fit the store from its position */
    BRINESADDLE_NO_NODE = 12,      /* the units at the position are no node */
    BRINESADDLE_TOO_SHORT = 13,    /* the place lent is too short for what is told */
    BRINESADDLE_STORE_FULL = 14,   /* a token or a position: its nodes do not fit the store */
    BRINESADDLE_NOT_WRITTEN = 16,  /* translate: the bytes are no written grammar of version 2 */
    BRINESADDLE_CIRCULAR = 17,     /* a nonterminal derives itself */
    BRINESADDLE_BARREN = 18,       /* a nonterminal derives no token string, not even the empty one */
    BRINESADDLE_UNREACHABLE = 19,  /* a nonterminal is unreachable */
    BRINESADDLE_NO_SENTENCE = 20,  /* there is no nonempty sentence */
    BRINESADDLE_FILE_ROOM = 21     /* the file would have more than 512 symbols or 2,048 rules, or more bytes than are lent */
};

/* The words that count. More may be lent: words past these are never touched and do not matter.
 *   items   three words an item: origin, rule, and the handle of the node of its first symbol
 *   starts  a word a set, and one more
 *   rows    BRINESADDLE_ROW_WORDS a set
 *   queue   two words an entry
 *   store   units of 16 bits: the forest, the nodes of all that was read. Every token adds to it, four units and more where it completes
 *           something, and only a start empties it. So with a forest a parse ends at some length, with 14: with the largest store a list
 *           (S ::= S 0 | 0) ends behind 8,192 tokens, S ::= 0 S | 0 behind 97, S ::= S S | 0 behind 31
 * An item had two words, a queue entry one, and there was no store, before there was a forest. A host that still lends the 8,192 item words and
 * 1,024 queue words of that time has room for 2,730 items and 512 entries, where it had 4,096 and 1,024. And a row had two words before grammars
 * could have 512 symbols: 2,048 row words are 256 sets, where they were 1,024. */
enum {
    BRINESADDLE_ITEM_WORDS = 3,
    BRINESADDLE_MAX_ITEM_WORDS = 12288,
    BRINESADDLE_MAX_START_WORDS = 1025,
    BRINESADDLE_ROW_WORDS = 8,
    BRINESADDLE_MAX_ROW_WORDS = 8192,
    BRINESADDLE_ENTRY_WORDS = 2,
    BRINESADDLE_MAX_QUEUE_WORDS = 2048,
    BRINESADDLE_MAX_UNITS = 32768 /* of a node store */
};

/* The bytes of stack that a call needs, its arguments among them: measured on x86-64 at release (bench/stack), and rounded up. A program
 * whose symbols are bound late needs up to 4 KiB more at its first call, for the linker. */
enum {
    BRINESADDLE_PARSE_STACK = 184320, /* start, token, run, kinds, run_kinds */
    BRINESADDLE_REPORT_STACK = 77824, /* check, finished, latest_set, expected, listing, latest_words */
    BRINESADDLE_RECORDS_STACK = 159744, /* latest_records: it holds the words of a whole set */
    BRINESADDLE_NODE_STACK = 512,     /* node_write, node_read, node_walk */
    BRINESADDLE_TRANSLATE_STACK = 217088 /* translate: it holds marks for every symbol that two bytes can name */
};

/* Checks a grammar file of version 1. Answers 0, 1 or 2, and writes nothing. A nonterminal that the start symbol does not reach by the rules
 * is 2; files with one were accepted once. */
uint32_t brinesaddle_check(const uint8_t *file, size_t file_len);

/* Starts a parse. `set`, `held` and `used` hold an old state, of any value.
 * Answers 0, 1, 2 or 3. Done: the state is fresh (its three words 0), the words within capacity are cleared, row 0 holds what the wrapper
 * begins with, and the usable units of the store are 0xFFFF. A store of no units is taken; tokens then meet 14. Refused: words, units and old
 * state as they were. */
uint32_t brinesaddle_start(const uint8_t *file, size_t file_len, size_t *set, size_t *held, size_t *used, uint32_t *items,
                           size_t items_len, uint32_t *starts, size_t starts_len, uint64_t *rows, size_t rows_len, uint32_t *queue,
                           size_t queue_len, uint16_t *store, size_t store_len);

/* Reads one token. Any number is taken; T and above is answered 5.
 * Answers 0, 1, 2, 4, 5, 6, 7, 8, 9 or 14; of the four for want of room the one that is met first, 9 last. Done: state, words and store are those
 * after the token. Refused: all as it was. */
uint32_t brinesaddle_token(const uint8_t *file, size_t file_len, size_t *set, size_t *held, size_t *used, uint32_t *items,
                           size_t items_len, uint32_t *starts, size_t starts_len, uint64_t *rows, size_t rows_len, uint32_t *queue,
                           size_t queue_len, uint16_t *store, size_t store_len, uint32_t token);

/* Reads tokens up to the first that is refused. The same as one call a token, but grammar and state are checked once; they are checked
 * for an empty run too.
 * Answers as a token does, for the first refusal. Done or refused, `taken` is the number of tokens that were taken, and state and words are
 * those after them: a run that is refused at a later token has moved on. With 1, 2 and 4 none was taken, and all is as it was. */
uint32_t brinesaddle_run(const uint8_t *file, size_t file_len, size_t *set, size_t *held, size_t *used, uint32_t *items,
                         size_t items_len, uint32_t *starts, size_t starts_len, uint64_t *rows, size_t rows_len, uint32_t *queue,
                         size_t queue_len, uint16_t *store, size_t store_len, const uint16_t *tokens, size_t tokens_len,
                         size_t *taken);

/* Reads one position: a word that may be of several kinds of token, as `pool` is a keyword in one place and a name in another. `kinds` are
 * these kinds, strictly rising. Those that are not predicted here are passed over and leave no trace; each of the others is read, so that a
 * sentence may go on with any of them. A position of one kind is that token.
 * Answers as a token does: 5 where there is no kind, the kinds do not rise strictly or one is T or above, whatever the others are; 6 where
 * none is predicted. Of 7, 8 and 14 the one that is met first, kind by kind in rising order, and then in what they complete. Done: state,
 * words and store are those after the position, with a node for each kind that is used, in rising order. Refused: all as it was. */
uint32_t brinesaddle_kinds(const uint8_t *file, size_t file_len, size_t *set, size_t *held, size_t *used, uint32_t *items,
                           size_t items_len, uint32_t *starts, size_t starts_len, uint64_t *rows, size_t rows_len, uint32_t *queue,
                           size_t queue_len, uint16_t *store, size_t store_len, const uint16_t *kinds, size_t kinds_len);

/* Reads positions up to the first that is refused. `positions` has them one behind the other: how many kinds, then the kinds. So 2 0 1 1 0
 * are the positions [0 1] and [0]. One that the slice cuts off is answered 5. The same as one call a position, but grammar and state are
 * checked once; they are checked for an empty run too.
 * Answers as a position does, for the first refusal. Done or refused, `taken` is the number of positions, not of words, that were taken,
 * and state and words are those after them. With 1, 2 and 4 none was taken, and all is as it was. */
uint32_t brinesaddle_run_kinds(const uint8_t *file, size_t file_len, size_t *set, size_t *held, size_t *used, uint32_t *items,
                               size_t items_len, uint32_t *starts, size_t starts_len, uint64_t *rows, size_t rows_len,
                               uint32_t *queue, size_t queue_len, uint16_t *store, size_t store_len, const uint16_t *positions,
                               size_t positions_len, size_t *taken);

/* Whether the tokens taken since the start are a sentence, or one kind of each position taken; and the handle of all derivations of all such
 * sentences, the position in the store of the start symbol's Sum.
 * Answers 0, 1, 2 or 4. Done: `yes` is 1 or 0. Refused: `yes` is 0. Where `yes` is 0, `handle` is 0xFFFFFFFF. A handle stays good until the next
 * start: what is read later writes behind it. */
uint32_t brinesaddle_finished(const uint8_t *file, size_t file_len, size_t set, size_t held, size_t used, const uint32_t *items,
                              size_t items_len, const uint32_t *starts, size_t starts_len, const uint64_t *rows, size_t rows_len,
                              const uint32_t *queue, size_t queue_len, const uint16_t *store, size_t store_len, uint32_t *yes,
                              uint32_t *handle);

/* Where the latest set stands: items[first] up to items[first + count - 1], three words an item. At the start the set is empty.
 * Answers 0, 1, 2 or 4. Refused: `first` and `count` are 0. */
uint32_t brinesaddle_latest_set(const uint8_t *file, size_t file_len, size_t set, size_t held, size_t used, const uint32_t *items,
                                size_t items_len, const uint32_t *starts, size_t starts_len, const uint64_t *rows, size_t rows_len,
                                const uint32_t *queue, size_t queue_len, const uint16_t *store, size_t store_len, size_t *first,
                                size_t *count);

/* Four calls tell of a parse in a place that the host lends: what could stand next, and the latest set as text, as words and as records.
 * They only read the parse, and write the whole list or nothing. Each answers 0, 1, 2, 4 or 13, and `count` is written always; lengths and
 * counts are in elements of the place, so in tokens, bytes, words and records.
 *   0        the list stands at the front of the place; `count` is its length; the elements behind it are as they were
 *   13       the place is too short and as it was; `count` is the length needed, the least that would do
 *   1, 2, 4  the place is as it was; `count` is 0
 * 13 comes last: no length is told of a parse that is refused. A place of no elements asks for the length, and suffices where there is
 * nothing to tell; its pointer is not null either. */
enum {
    BRINESADDLE_MAX_TOKENS = 509, /* the most tokens of a grammar, so of expected */
    BRINESADDLE_MAX_LINE = 25     /* the most bytes of a line of the listing, its newline among them */
};

/* The ordinary tokens that could stand next, rising: exactly those below T that a token call on the same state and words would not answer
 * 6. One that would meet 7, 8, 9 or 14 is among them. Of a parse from a start these are the tokens that go on with some sentence behind those
 * taken; there is none where only the end can follow.
 * T tokens of place always suffice. */
uint32_t brinesaddle_expected(const uint8_t *file, size_t file_len, size_t set, size_t held, size_t used, const uint32_t *items,
                              size_t items_len, const uint32_t *starts, size_t starts_len, const uint64_t *rows, size_t rows_len,
                              const uint32_t *queue, size_t queue_len, const uint16_t *store, size_t store_len, uint16_t *tokens,
                              size_t tokens_len, size_t *count);

/* The latest set as ASCII text, a line an item in the order of the set: left side, first, second and origin, as in
 *   2 ::= 2 * 3 @ 0
 * which is a 2 begun at set 0 whose first symbol, 2, is read, and whose second, 3, is to come. Symbols are numbers, the wrapper and the end
 * mark too; numbers are decimal without leading zeros, parted by single blanks; every line ends with a newline (0x0A). No NUL is written.
 * At the start the set is empty, and so is the text.
 * BRINESADDLE_MAX_LINE bytes of place for each of the `held` items always suffice. */
uint32_t brinesaddle_listing(const uint8_t *file, size_t file_len, size_t set, size_t held, size_t used, const uint32_t *items,
                             size_t items_len, const uint32_t *starts, size_t starts_len, const uint64_t *rows, size_t rows_len,
                             const uint32_t *queue, size_t queue_len, const uint16_t *store, size_t store_len, uint8_t *text,
                             size_t text_len, size_t *count);

/* An item of the latest set with the symbols of its rule. */
struct brinesaddle_item {
    uint32_t rule, left, first, second, origin;
};

/* The latest set as words, five an item in the order of the set: rule, left side, first, second, origin.
 * Five words of place for each of the `held` items always suffice. */
uint32_t brinesaddle_latest_words(const uint8_t *file, size_t file_len, size_t set, size_t held, size_t used, const uint32_t *items,
                                  size_t items_len, const uint32_t *starts, size_t starts_len, const uint64_t *rows,
                                  size_t rows_len, const uint32_t *queue, size_t queue_len, const uint16_t *store, size_t store_len,
                                  uint32_t *words, size_t words_len, size_t *count);

/* The same as records, one an item.
 * One record of place for each of the `held` items always suffices. */
uint32_t brinesaddle_latest_records(const uint8_t *file, size_t file_len, size_t set, size_t held, size_t used,
                                    const uint32_t *items, size_t items_len, const uint32_t *starts, size_t starts_len,
                                    const uint64_t *rows, size_t rows_len, const uint32_t *queue, size_t queue_len,
                                    const uint16_t *store, size_t store_len, struct brinesaddle_item *records, size_t records_len,
                                    size_t *count);

/* The store of a parse holds, for each token and each kind used of a position, an Evaluated with it; and for each nonterminal that it
 * completes over some stretch, a Sum of all the ways, and right behind it a Product a way: the rule number as its action, the nodes of the
 * rule's symbols as its factors. Factors lie before their Sum. Read it as any store, its first `used` units; what a host writes into it
 * itself is no part of the parse, and a state may then be answered 4.
 *
 * A node of a forest is five numbers: its kind, and
 *   Sum          count, nonterminal, 0, 0
 *   Product      action, left factor, flag, right factor
 *   NullingLeaf  symbol, 0, 0, 0
 *   Evaluated    symbol, 0, 0, 0
 * Factors are positions in the same store, before the Product's own. A Product's flag tells whether there is a right factor: what is read
 * has 1, or 0 and a right factor of 0; in what is written any number but 0 counts as 1. A writer may leave anything in numbers that its
 * node has no use for, so in the right factor too where the flag is 0. */
enum {
    BRINESADDLE_SUM = 0,
    BRINESADDLE_PRODUCT = 1,
    BRINESADDLE_NULLING_LEAF = 2,
    BRINESADDLE_EVALUATED = 3,
    BRINESADDLE_END = 4 /* read: no node, the end of the store */
};

/* Writes a node at position p of a store.
 * Answers 0, 10 (a value is too large, a factor does not lie before p, or the kind is none of the four) or 11. Done: `behind` is the
 * position behind the node, no other unit is changed, and `place` is as it was. Refused: `place` is p; store and `behind` as they were. */
uint32_t brinesaddle_node_write(uint16_t *store, size_t store_len, size_t p, const uint32_t node[5], size_t *behind, size_t *place);

/* Reads the first node from p on, fillers 0xFFFF skipped.
 * Answers 0 or 12. Done: `node` is the node and `behind` the position behind it; at the end of the store `node` is BRINESADDLE_END and
 * four zeros, and `behind` as it was; `place` is as it was. 12: `place` is the unit of the store at which the fault was seen, the other two
 * as they were. That is the head, behind the fillers, for a head that no form has, a distance or factor that is wrong, a node cut off by
 * the end of the store and a longer form than was due; and the unit behind the head where that alone is wrong, as it must be zero. */
uint32_t brinesaddle_node_read(const uint16_t *store, size_t store_len, size_t p, uint32_t node[5], size_t *behind, size_t *place);

/* Reads on from p to the end or the first 12.
 * Answers 0 or 12. Either way `count` is the number of nodes read, and `behind` the position behind the last one, p if there is none: 12 is
 * the answer of a read from `behind`, and `place` what that read tells. Where the answer is 0, `place` is as it was. */
uint32_t brinesaddle_node_walk(const uint16_t *store, size_t store_len, size_t p, size_t *count, size_t *behind, size_t *place);

/* Translates a written grammar, version 2, into a grammar file of version 1 with the same nonempty sentences (docs/TRANSLATION.md fixes
 * every byte). Any bytes are taken. `written` and `file` must not overlap, and neither of them the two words.
 * Answers 0, or the lowest that applies of 16 to 21. Done: the file stands in the first `length` bytes of `file`, those behind it are as they
 * were, it passes brinesaddle_check, and `empty` is 1 or 0: whether the empty sentence was there, which no file can tell. Refused: `file`
 * and both words as they were.
 * BRINESADDLE_MAX_FILE bytes of place always suffice. Nothing more is lent: a call works on its own stack.
 * Time: milliseconds for a grammar that a person wrote. It grows with the square of the input where a stranger makes it: the largest and
 * worst input, 2.3 MB, takes minutes (docs/SPEED.md), and ends. */
enum {
    BRINESADDLE_MAX_FILE = 12299
};

uint32_t brinesaddle_translate(const uint8_t *written, size_t written_len, uint8_t *file, size_t file_len, size_t *length, uint32_t *empty);

/* ---- Every tree, each once
 *
 * The trees under a handle, the position of a Sum in a store: for each of its Products in the order of the store, and for each tree of the left
 * factor in its order, each of the right. Where the handle is one that brinesaddle_finished told, these are exactly the derivations from the
 * start symbol of the tokens read by then, some kind chosen at each position, each once; what is read later changes none of it, until the next start.
 *
 * Any store and any handle is taken. Handles and factors name the head of a node itself: no filler is skipped in front of it. Below a handle are the
 * handle and, of every Sum below it, each factor that lies before that Sum and has a Sum. A Sum is faulty where fewer Products are read behind it
 * than it counts, or where a factor of one lies not before the Sum, or is at neither Sum nor Evaluated. The lowest faulty Sum below the handle, or
 * the handle where no Sum is there, is 12, whatever else is asked. Nothing of it grows with the number of trees: a call costs a look at each unit
 * before the handle, and tree a walk over the words that it tells. */
enum {
    BRINESADDLE_TOO_MANY_TREES = 23, /* count: more than a uint64_t tells */
    BRINESADDLE_NO_SUCH_TREE = 24    /* tree: k is at or past the number of trees */
};

/* The bytes of stack, as above. A call has a table of its own, 352 KiB; and tree takes 160 bytes more for each level of left factors of left factors
 * of Products with two. A parse has four units and more to such a level, so at most 8,192 of them; another store two, but for a pair in some 500, so
 * at most 16,448. That is more than the 2 MB that a thread may have: where a store may be no parse's, tell trees on a larger stack. */
enum {
    BRINESADDLE_COUNT_STACK = 364544,
    BRINESADDLE_PARSE_TREE_STACK = 1843200, /* tree: the store is that of a parse */
    BRINESADDLE_TREE_STACK = 3276800        /* tree: any store */
};

/* How many trees there are under a handle.
 * Answers 0, 12 or 23. Done: `trees` is the number, 0 for a Sum of no Products. 12: `place` is the position of the fault. Whatever is not
 * written is as it was. */
uint32_t brinesaddle_count(const uint16_t *store, size_t store_len, size_t handle, uint64_t *trees, size_t *place);

/* The k-th tree under a handle, k from 0, in preorder: the action of each Product chosen, which is the number of its rule, then its left factor's
 * tree, then its right's; of an Evaluated its symbol, which is the token. A parse's tree needs no more words than the units used.
 * Answers 0, 12, 24 or 13, the first that applies, and `count` is written always. Where there are more trees than count tells, every k is below
 * them.
 *   0       the words stand at the front of `out`; `count` is how many; the words behind them are as they were
 *   13      `out` is too short and as it was; `count` is the number of words needed, or SIZE_MAX where that is above 32,768 (a foreign store
 *           can share a tree with itself; no parse does); the tree is still told to one who lends enough
 *   12, 24  `out` is as it was; `count` is 0. 12: `place` is the position of the fault; with every other answer it is as it was */
uint32_t brinesaddle_tree(const uint16_t *store, size_t store_len, size_t handle, uint64_t k, uint32_t *out, size_t out_len, size_t *count,
                          size_t *place);

/* ---- The plain engine, for auditors
 *
 * A second way to the same answer, with no sets, no queue and no prediction: a table of which symbol derives which stretch of the tokens, filled by
 * length. Its yes is proved to equal "all tokens taken and finished" of a parse, wherever that parse met no refusal for want of room.
 *
 * The table has a row of eight words for each stretch, symbol s as bit s % 64 of word s / 64: first the stretches of one token, by where they
 * begin, then those of two, and so on. Of n tokens the stretch of l tokens behind the first i has row (l - 1) n - (l - 1)(l - 2) / 2 + i. */
enum {
    BRINESADDLE_TOO_MANY_TOKENS = 22, /* plain: more than BRINESADDLE_MAX_PLAIN_TOKENS */
    BRINESADDLE_MAX_PLAIN_TOKENS = 64,
    BRINESADDLE_MAX_TABLE_WORDS = 16640, /* always suffice; n tokens need 4 n (n + 1) */
    BRINESADDLE_PLAIN_STACK = 73728      /* the bytes of stack, as above */
};

/* Whether tokens are a sentence.
 * Answers 0, 1, 2, 5 (some token, wherever it stands), 22 or 13, the first that applies; `count` is written always. An empty string is no sentence,
 * and needs no table.
 *   0            `yes` is 1 or 0; the table stands at the front of `table`, a bit set exactly where the symbol derives the stretch; `count` is
 *                how many words it has; the words behind it are as they were
 *   13           `table` is too short and as it was, and `yes` too; `count` is the number of words needed
 *   1, 2, 5, 22  `table` and `yes` as they were; `count` is 0 */
uint32_t brinesaddle_plain(const uint8_t *file, size_t file_len, const uint16_t *tokens, size_t tokens_len, uint64_t *table, size_t table_len,
                           uint32_t *yes, size_t *count);

#ifdef __cplusplus
}
#endif

#endif
