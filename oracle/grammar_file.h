/* A grammar file, made rule by rule: for the programs in C beside the library. */
#include "brinesaddle.h"

static uint8_t file[BRINESADDLE_MAX_FILE];
static size_t file_len;

static void put(unsigned number)
{
    file[file_len++] = (uint8_t)(number >> 8);
    file[file_len++] = (uint8_t)number;
}

static void rule(unsigned left, unsigned one, unsigned two)
{
    put(left);
    put(one);
    put(two);
}

/* The head, with which a file begins. */
static void head(unsigned symbols, unsigned token_count, unsigned rules)
{
    file_len = 0;
    put(0x0100);
    put(0);
    file[file_len - 1] = (uint8_t)((11 + 6 * rules) >> 8);
    file[file_len++] = (uint8_t)(11 + 6 * rules);
    put(symbols);
    put(token_count);
    put(rules);
}
