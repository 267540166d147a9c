/* Bytes lent to the library, with guard bytes on both sides, and what all of them have to be after the call. */
#ifndef LENT_H
#define LENT_H

#include "check.h"
#include <string.h>

enum { GUARD = 64 };

struct bytes {
    const uint8_t *at;
    size_t length;
};
static const struct bytes NOTHING = {NULL, 0};

struct lent {
    uint8_t *bytes; /* GUARD bytes stand before them and behind them */
    size_t length;
    uint8_t *expected; /* the same, guards included */
};

/* Guards and blank bytes differ from their neighbours; with `flip` 255 each byte is another one than with `flip` 0. */
static struct lent lend_blank(size_t length, uint8_t flip)
{
    size_t all = GUARD + length + GUARD;
    uint8_t *bytes = memory_for(all), *expected = memory_for(all);
    for (size_t k = 0; k < all; k++)
        bytes[k] = (uint8_t)(7 * k + 3) ^ flip;
    memcpy(expected, bytes, all);
    return (struct lent){bytes + GUARD, length, expected};
}

/* Says that the first bytes lent will be these. */
static void expect_first(struct lent lent, struct bytes first)
{
    if (first.length > 0)
        memcpy(lent.expected + GUARD, first.at, first.length);
}

static struct lent lend(struct bytes bytes, uint8_t flip)
{
    struct lent lent = lend_blank(bytes.length, flip);
    if (bytes.length > 0)
        memcpy(lent.bytes, bytes.at, bytes.length);
    expect_first(lent, bytes);
    return lent;
}

/* Checks every byte, guards included, and takes them back. */
static void take_back(struct where at, const char *what, struct lent lent)
{
    check_bytes(at, what, lent.expected, lent.bytes - GUARD, GUARD + lent.length + GUARD, -GUARD);
    free(lent.bytes - GUARD);
    free(lent.expected);
}

#endif
