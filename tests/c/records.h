/* Lists of records, and a plain lookup in them. No rule is checked here: bad records are built as well. */
#ifndef RECORDS_H
#define RECORDS_H

#include "lent.h"

enum { RECORD = 8, ANNOUNCE = 1, WITHDRAW = 2, MOST_RECORDS = 10000 };

struct list {
    size_t count;
    uint8_t bytes[RECORD * MOST_RECORDS];
};

static struct bytes all_of(const struct list *list)
{
    return (struct bytes){list->bytes, RECORD * list->count};
}

static void put(struct list *list, size_t place, uint32_t address, unsigned length, unsigned action, unsigned hop)
{
    const unsigned fields[RECORD] = {address >> 24, address >> 16, address >> 8, address,
                                     length,        action,        hop >> 8,     hop};
    for (size_t k = 0; k < RECORD; k++)
        list->bytes[RECORD * place + k] = (uint8_t)fields[k];
}

static void add(struct list *list, uint32_t address, unsigned length, unsigned action, unsigned hop)
{
    put(list, list->count++, address, length, action, hop);
}

static void announce(struct list *list, uint32_t address, unsigned length, unsigned hop)
{
    add(list, address, length, ANNOUNCE, hop);
}

static void withdraw(struct list *list, uint32_t address, unsigned length)
{
    add(list, address, length, WITHDRAW, 0);
}

static uint32_t address_in(const uint8_t *record)
{
    return (uint32_t)record[0] << 24 | (uint32_t)record[1] << 16 | (uint32_t)record[2] << 8 | record[3];
}

static bool begins(const uint8_t *record, uint32_t address)
{
    unsigned length = record[4];
    return length == 0 || (address_in(record) ^ address) >> (32 - length) == 0;
}

/* By longest match among good announcements, of which the later counts. */
static uint32_t plain_lookup(struct bytes list, uint32_t address)
{
    const uint8_t *best = NULL;
    for (const uint8_t *record = list.at; record != list.at + list.length; record += RECORD)
        if (begins(record, address) && (best == NULL || record[4] >= best[4]))
            best = record;
    return best == NULL ? 0 : (uint32_t)best[6] << 8 | best[7];
}

#endif
