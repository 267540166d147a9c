/*
 * Faults to plant in what comes back from the library, so that the test can be seen to fail: gcc -DPLANT=n plants the
 * n-th. Each is planted in every call that has what it needs: a table, an output, a list, this refusal.
 */
#ifndef PLANT_H
#define PLANT_H

#include "arvandish.h"
#include "lent.h"

#ifndef PLANT
#define PLANT 0
#endif

/* What the table call may refuse with. */
static const uint32_t REFUSAL_NUMBERS[] = {3, 4, 5, 6, 7, 8, 9, 11};
enum { REFUSALS = sizeof REFUSAL_NUMBERS / sizeof *REFUSAL_NUMBERS };

enum fault {
    NO_FAULT,
    SUCCESS_IS_REFUSED,
    COUNT_OF_SUCCESS,
    FIRST_TABLE_BYTE,
    LAST_TABLE_BYTE,
    BYTE_BEHIND_TABLE,
    LAST_OUTPUT_BYTE,
    BYTE_BEFORE_OUTPUT,
    BYTE_BEHIND_OUTPUT,
    FIRST_LIST_BYTE,
    LAST_LIST_BYTE,
    BYTE_BEFORE_LIST,
    BYTE_BEHIND_LIST,
    LOOKUP_IS_REFUSED,
    HOP_OF_SUCCESS,
    HOP_OF_REFUSAL,
    PLACE_OF_SUCCESS,
    PLACE_OF_REFUSAL,
    LOOKUP_FIRST_LIST_BYTE,
    LOOKUP_LAST_LIST_BYTE,
    LOOKUP_BYTE_BEFORE_LIST,
    LOOKUP_BYTE_BEHIND_LIST,
    /* From here on one fault for each refusal of the table call. */
    REFUSAL_IS_SUCCESS,
    REFUSAL_HAS_ANOTHER_NUMBER = REFUSAL_IS_SUCCESS + REFUSALS,
    REFUSAL_HAS_ANOTHER_COUNT = REFUSAL_HAS_ANOTHER_NUMBER + REFUSALS,
    REFUSAL_CHANGES_FIRST_OUTPUT_BYTE = REFUSAL_HAS_ANOTHER_COUNT + REFUSALS,
    REFUSAL_CHANGES_LAST_OUTPUT_BYTE = REFUSAL_CHANGES_FIRST_OUTPUT_BYTE + REFUSALS,
    FAULTS = REFUSAL_CHANGES_LAST_OUTPUT_BYTE + REFUSALS
};
_Static_assert(PLANT >= NO_FAULT && PLANT < FAULTS, "there is no such fault to plant");

static bool planted(enum fault fault)
{
    return PLANT == fault;
}

static bool planted_for(enum fault fault, uint32_t number)
{
    for (unsigned k = 0; k < REFUSALS; k++)
        if (REFUSAL_NUMBERS[k] == number)
            return PLANT == fault + k;
    return false;
}

static void spoil(bool wanted, uint8_t *byte)
{
    if (wanted)
        *byte ^= 1;
}

/* The bytes of something lent, and the guards next to it. */
static void spoil_lent(struct lent lent, bool first, bool last, bool before, bool behind)
{
    spoil(first && lent.length > 0, lent.bytes);
    spoil(last && lent.length > 0, lent.bytes + lent.length - 1);
    spoil(before, lent.bytes - 1);
    spoil(behind, lent.bytes + lent.length);
}

static void plant_in_table(struct arvandish_written *came, struct lent list, struct lent out)
{
    uint32_t number = came->number;
    size_t table = number == 0 ? 8 * (size_t)came->count : 0;
    bool rest = number == 0 && table < out.length;

    spoil(planted(FIRST_TABLE_BYTE) && table > 0, out.bytes);
    spoil(planted(LAST_TABLE_BYTE) && table > 0, out.bytes + table - 1);
    spoil(planted(BYTE_BEHIND_TABLE) && rest, out.bytes + table);
    spoil_lent(out, planted_for(REFUSAL_CHANGES_FIRST_OUTPUT_BYTE, number),
               (planted(LAST_OUTPUT_BYTE) && rest) || planted_for(REFUSAL_CHANGES_LAST_OUTPUT_BYTE, number),
               planted(BYTE_BEFORE_OUTPUT), planted(BYTE_BEHIND_OUTPUT));
    spoil_lent(list, planted(FIRST_LIST_BYTE), planted(LAST_LIST_BYTE), planted(BYTE_BEFORE_LIST),
               planted(BYTE_BEHIND_LIST));

    if ((planted(COUNT_OF_SUCCESS) && number == 0) || planted_for(REFUSAL_HAS_ANOTHER_COUNT, number))
        came->count += 1;
    if ((planted(SUCCESS_IS_REFUSED) && number == 0) || planted_for(REFUSAL_HAS_ANOTHER_NUMBER, number))
        came->number += 1;
    if (planted_for(REFUSAL_IS_SUCCESS, number))
        came->number = 0;
}

static void plant_in_lookup(struct arvandish_found *came, struct lent list)
{
    bool success = came->number == 0;

    spoil_lent(list, planted(LOOKUP_FIRST_LIST_BYTE), planted(LOOKUP_LAST_LIST_BYTE), planted(LOOKUP_BYTE_BEFORE_LIST),
               planted(LOOKUP_BYTE_BEHIND_LIST));
    if (planted(success ? HOP_OF_SUCCESS : HOP_OF_REFUSAL))
        came->hop += 1;
    if (planted(success ? PLACE_OF_SUCCESS : PLACE_OF_REFUSAL))
        came->place += 1;
    if (planted(LOOKUP_IS_REFUSED) && success)
        came->number = REFUSAL_NUMBERS[0];
}

#endif
