/*
 * Document 01's cases and those of the items 2 and 3 of document 02, with prefixes as bits. J's 32 slots cannot be
 * lent: this door has 1,024 of its own.
 */
#ifndef CASES_H
#define CASES_H

#include "calls.h"

#define TEN "00001010" /* 10.0.0.0/8 */
#define LAST "11111111111111111111111111111111"

/* In a hop's place: the prefix is withdrawn. No record has room for a hop so high. */
enum { WITHDRAWN = 65536 };

/* No bits at all end the steps. */
struct step {
    const char *bits;
    unsigned hop;
};

struct named_case {
    const char *name;
    struct step held[6];
    uint32_t number;
    uint64_t count; /* on a refusal */
    struct step written[4];
};

static const struct named_case CASES[] = {
    {"A", {{0}}, 0, 0, {{0}}},
    {"B", {{"", 1}}, 0, 0, {{"", 1}}},
    {"C", {{"", 1}, {"00", 2}, {"10", 2}, {"11", 3}}, 0, 0, {{"", 2}, {"01", 1}, {"11", 3}}},
    {"D", {{"", 1}, {"1", 2}}, 0, 0, {{"", 1}, {"1", 2}}},
    {"E", {{"", 2}, {"1", 1}}, 0, 0, {{"", 1}, {"0", 2}}},
    {"F", {{"", 1}, {"0", 2}, {"1", 2}}, 0, 0, {{"", 2}}},
    {"G", {{"", 1}, {"0", 2}, {"1", 2}, {"0", WITHDRAWN}}, 0, 0, {{"", 1}, {"1", 2}}},
    {"H", {{"", 5}, {TEN, 5}}, 0, 0, {{"", 5}}},
    {"I", {{"", 1}, {"01", 2}, {"10", 3}}, 0, 0, {{"", 1}, {"01", 2}, {"10", 3}}},
    {"J", {{"", 1}, {LAST, 2}}, 0, 0, {{"", 1}, {LAST, 2}}},
    {"K", {{"", WITHDRAWN}}, 8, 0, {{0}}},
    {"L, 256", {{"", 256}}, 0, 0, {{"", 256}}},
    {"L, 257", {{"", 1}, {"0", 257}}, 7, 1, {{0}}},
    {"L, 0", {{"", 1}, {"00", 0}}, 0, 0, {{"", 1}, {"00", 0}}},
    {"M, 32", {{"", 1}, {LAST, 64}}, 0, 0, {{"", 1}, {LAST, 64}}},
    {"64 and 65", {{"0", 65}, {"1", 64}}, 0, 0, {{"", 64}, {"0", 65}}},
    {"128 and 129", {{"0", 129}, {"1", 128}}, 0, 0, {{"", 128}, {"0", 129}}},
    {"192 and 193", {{"0", 193}, {"1", 192}}, 0, 0, {{"", 192}, {"0", 193}}},
    {"C, hops far apart", {{"", 1}, {"00", 193}, {"10", 193}, {"11", 65}}, 0, 0, {{"", 193}, {"01", 1}, {"11", 65}}},
    {"a prefix comes back", {{"", 1}, {"0", 2}, {"0", WITHDRAWN}, {"0", 3}}, 0, 0, {{"", 1}, {"0", 3}}},
    {"withdrawn twice", {{"", 1}, {"0", 2}, {"0", WITHDRAWN}, {"0", WITHDRAWN}}, 8, 3, {{0}}},
    {"a longer one stays", {{"", 1}, {"0", 2}, {"00", 3}, {"0", WITHDRAWN}}, 0, 0, {{"", 1}, {"00", 3}}},
    {"the default goes", {{"", 1}, {"0", 2}, {"", WITHDRAWN}}, 0, 0, {{"0", 2}}},
    {"all go", {{"", 1}, {"0", 2}, {"", WITHDRAWN}, {"0", WITHDRAWN}}, 0, 0, {{0}}},
    {"no default, one hop", {{"0", 2}, {"1", 2}}, 0, 0, {{"", 2}}},
    {"no default, two hops", {{"0", 1}, {"1", 2}}, 0, 0, {{"", 1}, {"1", 2}}},
    {"no default, one half", {{"0", 1}}, 0, 0, {{"0", 1}}},
    {"document 001's example", {{"00", 1}, {"010", 1}, {"1", 1}}, 0, 0, {{"", 1}, {"011", 0}}},
    {"discard below", {{"", 1}, {"0", 0}}, 0, 0, {{"1", 1}}},
    {"discard above", {{"", 0}, {"1", 1}}, 0, 0, {{"1", 1}}},
    {"discards alone", {{"", 0}, {"1", 0}}, 0, 0, {{0}}},
    {"a discard goes", {{"", 1}, {"00", 0}, {"00", WITHDRAWN}}, 0, 0, {{"", 1}}},
};

static void put_steps(struct list *list, const struct step *steps)
{
    list->count = 0;
    for (; steps->bits != NULL; steps++) {
        uint32_t address = 0;
        unsigned length = (unsigned)strlen(steps->bits);
        for (unsigned k = 0; k < length; k++)
            address |= (uint32_t)(steps->bits[k] - '0') << (31 - k);
        if (steps->hop == WITHDRAWN)
            withdraw(list, address, length);
        else
            announce(list, address, length, steps->hop);
    }
}

static void one_case(const struct named_case *one)
{
    static struct list held, written;
    now_trying("case %s", one->name);
    put_steps(&held, one->held);
    put_steps(&written, one->written);
    struct bytes list = all_of(&held), table = all_of(&written);
    for (size_t room = 0; room <= list.length + RECORD; room++)
        if (one->number != 0)
            TABLE_REFUSED(list, room, one->number, one->count);
        else if (room < table.length)
            TABLE_REFUSED(list, room, 11, written.count);
        else
            TABLE(list, room, table);
    if (one->number == 0)
        TABLE(table, table.length, table);
}

static void document_cases(void)
{
    for (size_t k = 0; k < sizeof CASES / sizeof *CASES; k++)
        one_case(&CASES[k]);
}

/* Case C and O byte for byte, as document 01 prints them. */
static void case_c_whole(void)
{
    static const uint8_t held[] = {0, 0, 0, 0, 0, 1, 0, 1, 0,    0, 0, 0, 2, 1, 0, 2,
                                   128, 0, 0, 0, 2, 1, 0, 2, 0xC0, 0, 0, 0, 2, 1, 0, 3};
    static const uint8_t written[] = {0, 0, 0, 0, 0, 1, 0, 2, 0x40, 0, 0, 0, 2, 1, 0, 1, 0xC0, 0, 0, 0, 2, 1, 0, 3};
    const struct bytes list = {held, sizeof held}, table = {written, sizeof written};
    now_trying("case C, whole");
    TABLE_REFUSED(list, 0, 11, 3);
    TABLE_REFUSED(list, 23, 11, 3);
    TABLE(list, 24, table);
    TABLE(list, 1000, table);
    for (uint32_t quarter = 0; quarter < 4; quarter++) {
        static const uint32_t hops[] = {2, 1, 2, 3};
        uint32_t first = quarter << 30, last = first | 0x3FFFFFFF;
        for (size_t k = 0; k < 2; k++) {
            LOOKUP(k == 0 ? list : table, first, hops[quarter]);
            LOOKUP(k == 0 ? list : table, last, hops[quarter]);
        }
    }
}

#endif
