/* A host in C whose words may be of several kinds: no word of the routing language is reserved, so that `pool` is a keyword in one place
 * and a name in another. Each keyword is given as the kinds [its token, NAME], any other word as [NAME] or [NUMBER]. Reads rules so, and
 * beside that with each word as one token, and tells as what the words were read. `tests/host` builds and runs it, with the path of the
 * language: examples/routes. */
#include <stdio.h>
#include <stdlib.h>
#include <string.h>

#include "brinesaddle.h"

enum { ITEMS = 256, SETS = 32, QUEUE = 64, UNITS = 2048, WORDS = 32, NAMES = BRINESADDLE_MAX_TOKENS + 3, LONGEST = 63 };

/* The language: its grammar file, and the names of its tokens by number. */
static uint8_t grammar[BRINESADDLE_MAX_FILE];
static size_t grammar_len;
static char names[NAMES][LONGEST + 1];
static uint16_t tokens, name, number;

/* A parse: the state, and the words lent to it. */
static size_t set, held, used;
static uint32_t items[BRINESADDLE_ITEM_WORDS * ITEMS], starts[SETS + 1], queue[BRINESADDLE_ENTRY_WORDS * QUEUE];
static uint64_t rows[BRINESADDLE_ROW_WORDS * SETS];
static uint16_t store[UNITS];

#define SLICE(words) (words), sizeof(words) / sizeof *(words)
#define STATE grammar, grammar_len, &set, &held, &used
#define READ_STATE grammar, grammar_len, set, held, used
#define LENT SLICE(items), SLICE(starts), SLICE(rows), SLICE(queue), SLICE(store)

static FILE *open_part(const char *language, const char *part)
{
    char path[256];
    snprintf(path, sizeof path, "%s.%s", language, part);
    FILE *file = fopen(path, "rb");
    if (!file) {
        perror(path);
        exit(2);
    }
    return file;
}

/* The token with this name; the number of tokens where none has it. */
static uint16_t token_named(const char *text)
{
    uint16_t token = 0;
    while (token < tokens && strcmp(names[token], text) != 0)
        token++;
    return token;
}

static void learn(const char *language)
{
    FILE *file = open_part(language, "grammar");
    grammar_len = fread(grammar, 1, sizeof grammar, file);
    fclose(file);
    tokens = (uint16_t)(grammar[7] << 8 | grammar[8]);
    file = open_part(language, "names");
    unsigned symbol;
    char text[LONGEST + 1];
    while (fscanf(file, "%u %63s", &symbol, text) == 2)
        if (symbol < NAMES)
            strcpy(names[symbol], text);
    fclose(file);
    name = token_named("NAME");
    number = token_named("NUMBER");
}

/* The kinds of a word, rising, and how many there are. The names of the language come behind its keywords. */
static size_t kinds_of(const char *word, uint16_t kinds[2])
{
    uint16_t token = token_named(word);
    size_t many = 0;
    if (token < name)
        kinds[many++] = token;
    kinds[many++] = strspn(word, "0123456789") == strlen(word) ? number : name;
    return many;
}

/* What could stand next, by name. */
static void tell_expected(void)
{
    static uint16_t place[BRINESADDLE_MAX_TOKENS];
    size_t count = 0;
    brinesaddle_expected(READ_STATE, LENT, SLICE(place), &count);
    printf("  could have stood here:");
    for (size_t k = 0; k < count; k++)
        printf(" %s", names[place[k]]);
    printf("\n");
}

/* The kinds that were used, leaf by leaf. */
static void tell_leaves(void)
{
    uint32_t node[5] = {0};
    size_t behind = 0, place = 0;
    printf("  read as:");
    while (brinesaddle_node_read(store, used, behind, node, &behind, &place) == BRINESADDLE_DONE && node[0] != BRINESADDLE_END)
        if (node[0] == BRINESADDLE_EVALUATED)
            printf(" %s", names[node[1]]);
    printf("\n");
}

/* A rule, each word as one token, and each as all its kinds, in one call each. */
static void read_rule(const char *rule)
{
    char text[256];
    uint16_t plain[WORDS], positions[3 * WORDS];
    size_t words = 0, length = 0, taken = 0;
    uint32_t yes = 0, handle = 0;
    printf("%s\n", rule);
    snprintf(text, sizeof text, "%s", rule);
    for (char *word = strtok(text, " "); word && words < WORDS; word = strtok(NULL, " ")) {
        size_t many = kinds_of(word, positions + length + 1);
        positions[length] = (uint16_t)many;
        plain[words++] = positions[length + 1];
        length += 1 + many;
    }
    brinesaddle_start(STATE, LENT);
    uint32_t stopped = brinesaddle_run(STATE, LENT, plain, words, &taken);
    printf("  keywords reserved: read %zu, stopped %u\n", taken, stopped);
    brinesaddle_start(STATE, LENT);
    stopped = brinesaddle_run_kinds(STATE, LENT, positions, length, &taken);
    brinesaddle_finished(READ_STATE, LENT, &yes, &handle);
    printf("  words of several kinds: read %zu, stopped %u, finished %s\n", taken, stopped, yes ? "yes" : "no");
    tell_leaves();
    if (stopped == BRINESADDLE_NOT_PREDICTED)
        tell_expected();
}

/* One word behind what was read. */
static void offer(const char *word)
{
    uint16_t kinds[2];
    size_t many = kinds_of(word, kinds);
    printf("  and %s: %u\n", word, brinesaddle_kinds(STATE, LENT, kinds, many));
}

int main(int argc, char **argv)
{
    if (argc != 2) {
        fprintf(stderr, "usage: words LANGUAGE   e.g. words examples/routes\n");
        return 2;
    }
    learn(argv[1]);
    read_rule("when host is pool then pool pool");
    read_rule("when then is host then drop");
    read_rule("always pool sticky weight 3 sticky");
    read_rule("always pool weight");
    offer("weight");
    offer("weight");
    offer("7");
    return 0;
}
