/*
 * Document 01 and the items 2 and 3 of document 02 on all strings of at most WIDE bits, with no trie and no slots: a
 * ledger of prefixes so short, and its smallest table. A string of WIDE bits has one hop throughout, as nothing is held
 * below it.
 */
#ifndef PLAIN_H
#define PLAIN_H

#include "records.h"

enum { WIDE = 9, ALL_STRINGS = 1 << (WIDE + 1), DISCARD = 0, HIGHEST_HOP = 256 };

/*
 * A string of n bits with the value v is element 2^n + v; its children are twice that and one more. An element is 0 if
 * none is held, else the hop and 1.
 */
struct plain {
    uint16_t held[ALL_STRINGS];
};

struct set {
    bool has[HIGHEST_HOP + 1];
};

static uint32_t start_of(unsigned string, unsigned length)
{
    return length == 0 ? 0 : (uint32_t)(string - (1u << length)) << (32 - length);
}

static struct set only(unsigned hop)
{
    struct set set = {{false}};
    set.has[hop] = true;
    return set;
}

/* The hops that both sets have or, where there is none, those of either. */
static struct set join(const struct set *zero, const struct set *one)
{
    struct set both, either;
    bool apart = true;
    for (unsigned hop = 0; hop <= HIGHEST_HOP; hop++) {
        both.has[hop] = zero->has[hop] && one->has[hop];
        either.has[hop] = zero->has[hop] || one->has[hop];
        apart = apart && !both.has[hop];
    }
    return apart ? either : both;
}

/* The sets, for all strings from the hop in force above them on. */
static void form_sets(const struct plain *plain, struct set *sets, unsigned string, unsigned above)
{
    unsigned hop = plain->held[string] != 0 ? plain->held[string] - 1u : above;
    if (string >= ALL_STRINGS / 2) {
        sets[string] = only(hop);
    } else {
        form_sets(plain, sets, 2 * string, hop);
        form_sets(plain, sets, 2 * string + 1, hop);
        sets[string] = join(&sets[2 * string], &sets[2 * string + 1]);
    }
}

static unsigned least(const struct set *set)
{
    unsigned hop = 0;
    while (!set->has[hop])
        hop += 1;
    return hop;
}

static void write_below(const struct set *sets, struct list *table, unsigned string, unsigned length, unsigned above)
{
    if (!sets[string].has[above]) {
        above = least(&sets[string]);
        announce(table, start_of(string, length), length, above);
    }
    if (length < WIDE) {
        write_below(sets, table, 2 * string, length + 1, above);
        write_below(sets, table, 2 * string + 1, length + 1, above);
    }
}

/* The smallest table. Above the empty string discard is in force. */
static void plain_table(const struct plain *plain, struct list *table)
{
    struct set *sets = memory_for(ALL_STRINGS * sizeof *sets);
    table->count = 0;
    form_sets(plain, sets, 1, DISCARD);
    write_below(sets, table, 1, 0, DISCARD);
    free(sets);
}

#endif
