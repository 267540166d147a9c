/* The two calls, each checked as a whole: the answer, and every byte of what was lent and of what stands around it. */
#ifndef CALLS_H
#define CALLS_H

#include "plant.h"
#include "records.h"

static void lookup_once(struct where at, struct bytes list, uint32_t address, struct arvandish_found expected,
                        bool null)
{
    struct lent in = lend(list, 0);
    struct arvandish_found came = arvandish_lookup(null ? NULL : in.bytes, list.length, address);
    plant_in_lookup(&came, in);
    check_number(at, "lookup: number", expected.number, came.number);
    check_number(at, "lookup: hop", expected.hop, came.hop);
    check_number(at, "lookup: place", expected.place, came.place);
    take_back(at, "lookup: list", in);
}

static void lookup_at(struct where at, struct bytes list, uint32_t address, struct arvandish_found expected)
{
    lookup_once(at, list, address, expected, false);
    if (list.length == 0)
        lookup_once(at, list, address, expected, true);
}

/* NULL stands for a list and an output of no bytes, if `null`. */
static void table_once(struct where at, struct bytes list, size_t room, struct arvandish_written expected,
                       struct bytes table, uint8_t flip, bool null)
{
    struct lent in = lend(list, flip), out = lend_blank(room, flip);
    expect_first(out, table);
    struct arvandish_written came = arvandish_table(null && list.length == 0 ? NULL : in.bytes, list.length,
                                                    null && room == 0 ? NULL : out.bytes, room);
    plant_in_table(&came, in, out);
    check_number(at, "table: number", expected.number, came.number);
    check_number(at, "table: count", expected.count, came.count);
    take_back(at, "table: list", in);
    take_back(at, "table: output", out);
}

/* Twice with other bytes in the output, so that no byte written can pass for one that was there before. */
static void table_at(struct where at, struct bytes list, size_t room, struct arvandish_written expected,
                     struct bytes table)
{
    table_once(at, list, room, expected, table, 0, false);
    table_once(at, list, room, expected, table, 255, false);
    if (list.length == 0 || room == 0)
        table_once(at, list, room, expected, table, 0, true);
}

#define LOOKUP(list, address, hop) lookup_at(HERE, list, address, (struct arvandish_found){0, hop, 0})
#define LOOKUP_REFUSED(list, address, number, place) \
    lookup_at(HERE, list, address, (struct arvandish_found){number, 0, place})
#define TABLE(list, room, table) \
    table_at(HERE, list, room, (struct arvandish_written){0, (table).length / RECORD}, table)
#define TABLE_REFUSED(list, room, number, count) \
    table_at(HERE, list, room, (struct arvandish_written){number, count}, NOTHING)

#endif
