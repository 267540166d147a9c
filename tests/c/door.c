/*
 * Tests the C door from C: every answer of arvandish_lookup and arvandish_table, and every byte lent or next to that.
 * Built and run by tests/c/run. `door faults` prints how many faults can be planted (plant.h).
 */
#include "cases.h"
#include "plain.h"

enum { SLOTS = 1024, GOOD = 5 };
static const uint32_t LAST_ADDRESS = 0xFFFFFFFF;

static void good_announcements(struct list *list)
{
    list->count = 0;
    announce(list, 0, 0, 1);
    announce(list, 0x0A000000, 8, 2);
    announce(list, 0x0A010000, 16, 3);
    announce(list, LAST_ADDRESS, 32, 256);
    announce(list, 0x80000000, 1, 4);
}

struct damage {
    uint32_t address;
    unsigned length, action, hop;
    uint32_t in_table, in_lookup; /* the numbers */
};

/* Where several rules are broken, the first gives the number. */
static const struct damage DAMAGES[] = {
    {0x0A000000, 33, ANNOUNCE, 1, 4, 4},    {0x0A000001, 255, 3, 257, 4, 4},        {0, 128, WITHDRAW, 0, 4, 4},
    {0x0A000001, 8, ANNOUNCE, 1, 5, 5},     {0x80000000, 0, ANNOUNCE, 1, 5, 5},     {0xFFFFFFFF, 31, 3, 257, 5, 5},
    {0x0A800000, 8, WITHDRAW, 0, 5, 5},     {0x0A000000, 8, 0, 1, 6, 6},            {0x0A000000, 8, 3, 0, 6, 6},
    {0x0A000000, 8, 255, 257, 6, 6},        {0x0A000000, 8, ANNOUNCE, 257, 7, 7},   {0x0A000000, 8, WITHDRAW, 1, 7, 6},
    {0x0A000000, 8, ANNOUNCE, 65535, 7, 7}, {0x0A000000, 8, WITHDRAW, 256, 7, 6},   {0, 8, ANNOUNCE, 512, 7, 7},
    {0x0B000000, 8, WITHDRAW, 0, 8, 6},     {0x0A000000, 9, WITHDRAW, 0, 8, 6},     {0x0A000000, 7, WITHDRAW, 0, 8, 6},
    {0, 32, WITHDRAW, 0, 8, 6},
};
enum { ALL_DAMAGES = sizeof DAMAGES / sizeof *DAMAGES };

static void damage_at(const struct list *good, size_t place, const struct damage *damage)
{
    static struct list list;
    now_trying("record %zu of %zu is %08" PRIx32 "/%u, action %u, hop %u", place, good->count, damage->address,
               damage->length, damage->action, damage->hop);
    list = *good;
    put(&list, place, damage->address, damage->length, damage->action, damage->hop);
    TABLE_REFUSED(all_of(&list), RECORD * list.count, damage->in_table, place);
    TABLE_REFUSED(all_of(&list), 0, damage->in_table, place);
    LOOKUP_REFUSED(all_of(&list), 0, damage->in_lookup, place);
    LOOKUP_REFUSED(all_of(&list), LAST_ADDRESS, damage->in_lookup, place);
}

static void damaged_records(void)
{
    static struct list list;
    good_announcements(&list);
    for (size_t place = 0; place < GOOD; place++)
        for (size_t k = 0; k < ALL_DAMAGES; k++)
            damage_at(&list, place, &DAMAGES[k]);

    now_trying("of two bad records the first counts");
    put(&list, 3, 0, 0, 3, 1);
    put(&list, 2, 0, 0, ANNOUNCE, 257);
    TABLE_REFUSED(all_of(&list), 40, 7, 2);
    LOOKUP_REFUSED(all_of(&list), 0, 7, 2);
}

/* 3 for each length that is no multiple of 8, before any record is looked at. */
static void lengths(void)
{
    static struct list good, bad;
    good_announcements(&good);
    bad = good;
    put(&bad, 0, 1, 33, 3, 257);
    for (size_t length = 0; length <= RECORD * GOOD; length++) {
        struct bytes list = {good.bytes, length}, damaged = {bad.bytes, length};
        now_trying("%zu bytes", length);
        if (length % RECORD != 0) {
            TABLE_REFUSED(list, length, 3, 0);
            TABLE_REFUSED(damaged, length, 3, 0);
            LOOKUP_REFUSED(list, 0x0A010000, 3, 0);
            LOOKUP_REFUSED(damaged, 0x0A010000, 3, 0);
        } else if (length > 0) {
            TABLE_REFUSED(damaged, length, 4, 0);
            LOOKUP_REFUSED(damaged, 0, 4, 0);
        }
    }
    now_trying("no bytes");
    TABLE(NOTHING, 0, NOTHING);
    TABLE(NOTHING, 100, NOTHING);
    LOOKUP(NOTHING, 0, 0);
    LOOKUP(NOTHING, LAST_ADDRESS, 0);
}

/* Looks up both sides of both edges of each record's prefix, in the list that ends with it. */
static void edges(const struct list *list)
{
    for (size_t count = 1; count <= list->count; count++) {
        const uint8_t *record = list->bytes + RECORD * (count - 1);
        struct bytes part = {list->bytes, RECORD * count};
        uint32_t first = address_in(record), last = first | (uint32_t)((uint64_t)LAST_ADDRESS >> record[4]);
        const uint32_t addresses[] = {first - 1, first, last, last + 1};
        now_trying("lookup at the edges of record %zu", count - 1);
        for (size_t k = 0; k < 4; k++)
            LOOKUP(part, addresses[k], plain_lookup(part, addresses[k]));
    }
}

static void lookups(void)
{
    static struct list list;
    good_announcements(&list);
    edges(&list);
    now_trying("lookup with hops worked out by hand");
    const struct {
        uint32_t address, hop;
    } known[] = {{0, 1},          {0x09FFFFFF, 1}, {0x0A000000, 2}, {0x0A00FFFF, 2}, {0x0A010000, 3},
                 {0x0A01FFFF, 3}, {0x0A020000, 2}, {0x0AFFFFFF, 2}, {0x0B000000, 1}, {0x7FFFFFFF, 1},
                 {0x80000000, 4}, {0xFFFFFFFE, 4}, {0xFFFFFFFF, 256}};
    for (size_t k = 0; k < sizeof known / sizeof *known; k++)
        LOOKUP(all_of(&list), known[k].address, known[k].hop);

    /* Every length, and prefixes that come twice: the later counts, whatever stands between. */
    list.count = 0;
    for (unsigned length = 32; length > 0; length--)
        announce(&list, (uint32_t)(0xA5A5A5A5ull >> (32 - length) << (32 - length)), length, length);
    for (unsigned length = 1; length <= 32; length += 3)
        announce(&list, (uint32_t)(0xA5A5A5A5ull >> (32 - length) << (32 - length)), length, 257 - length);
    edges(&list);
    now_trying("no route");
    LOOKUP(all_of(&list), 0x7FFFFFFF, 0);

    /* Document 01's example of document 001: 01* to hop 1, 0100* to hop 2. */
    list.count = 0;
    announce(&list, 0x40000000, 2, 1);
    announce(&list, 0x40000000, 4, 2);
    now_trying("01* and 0100*");
    LOOKUP(all_of(&list), 0x40000000, 2);
    LOOKUP(all_of(&list), 0x50000000, 1);
    LOOKUP(all_of(&list), 0x80000000, 0);

    /* A discard hides a shorter route, and a longer one hides the discard. */
    announce(&list, 0, 0, 3);
    announce(&list, 0x40000000, 2, 0);
    now_trying("01* discarded under *");
    LOOKUP(all_of(&list), 0x40000000, 2);
    LOOKUP(all_of(&list), 0x50000000, 0);
    LOOKUP(all_of(&list), 0x80000000, 3);
}

/* All strings of at most 9 bits are 1,023; with one of 10 bits the library's slots are used up. */
static void slots(void)
{
    static struct list list, table;
    list.count = table.count = 0;
    announce(&list, 0, 0, 1);
    announce(&table, 0, 0, 1);
    announce(&table, 0, WIDE + 1, 3);
    for (uint32_t k = 0; k < 1u << WIDE; k++) {
        announce(&list, k << (32 - WIDE), WIDE, 1 + k % 2);
        if (k % 2 == 1)
            announce(&table, k << (32 - WIDE), WIDE, 2);
    }
    announce(&list, 0, WIDE + 1, 3);
    struct bytes exactly = all_of(&list), written = all_of(&table);
    now_trying("a list that needs all %d slots", SLOTS);
    TABLE(exactly, exactly.length, written);
    TABLE(exactly, written.length, written);
    TABLE_REFUSED(exactly, written.length - 1, 11, table.count);

    size_t full = list.count;
    uint32_t other = 1u << (32 - WIDE - 1);
    now_trying("one slot more, for a discard");
    announce(&list, other, WIDE + 1, 0);
    announce(&list, 0, 0, 1);
    TABLE_REFUSED(all_of(&list), RECORD * list.count, 9, full);
    now_trying("the list lookup has no limit of slots");
    LOOKUP(all_of(&list), 0, 3);
    LOOKUP(all_of(&list), other, 0);

    now_trying("a full ledger takes a new hop, and room that was freed");
    list.count = full;
    announce(&list, 0, WIDE + 1, 4);
    withdraw(&list, 0, WIDE + 1);
    announce(&list, other, WIDE + 1, 3);
    put(&table, 1, other, WIDE + 1, ANNOUNCE, 3);
    TABLE(all_of(&list), RECORD * list.count, written);
    announce(&list, 0, WIDE + 1, 1);
    TABLE_REFUSED(all_of(&list), RECORD * list.count, 9, list.count - 1);
}

static uint32_t draw(uint32_t bound)
{
    static uint32_t word = 2463534242;
    word ^= word << 13;
    word ^= word >> 17;
    word ^= word << 5;
    return word % bound;
}

/*
 * Random announcements of prefixes of at most WIDE bits, discards among them, and withdrawals if these are wanted. The
 * hops are those at both ends of each word in which the library keeps a set.
 */
static void random_list(struct list *list, struct plain *plain, size_t records, bool withdrawals)
{
    static const unsigned hops[] = {DISCARD, 1, 64, 65, 128, 129, 192, 193, HIGHEST_HOP};
    memset(plain, 0, sizeof *plain);
    list->count = 0;
    while (list->count < records) {
        unsigned length = draw(WIDE + 1), string = (1u << length) + draw(1u << length);
        unsigned hop = hops[draw(sizeof hops / sizeof *hops)];
        if (withdrawals && plain->held[string] != 0) {
            withdraw(list, start_of(string, length), length);
            plain->held[string] = 0;
        } else {
            announce(list, start_of(string, length), length, hop);
            plain->held[string] = (uint16_t)(hop + 1);
        }
    }
}

/* The list's table is the one that is worked out plainly, too long for an output of a byte less, and its own table. */
static void check_table(const struct list *list, const struct plain *plain, struct list *table)
{
    plain_table(plain, table);
    struct bytes held = all_of(list), written = all_of(table);
    TABLE(held, held.length, written);
    if (table->count > 0)
        TABLE_REFUSED(held, written.length - 1, 11, table->count);
    TABLE(written, written.length, written);
}

/* With so few records many a list holds no default, and leaves addresses without a route. */
static void short_lists(void)
{
    static struct list list, table;
    static struct plain plain;
    for (int tries = 0; tries < 500; tries++) {
        random_list(&list, &plain, draw(30), true);
        now_trying("short list %d, of %zu records", tries, list.count);
        check_table(&list, &plain, &table);
    }
}

static void long_lists(void)
{
    static struct list list, table;
    static struct plain plain;
    for (int withdrawals = 1; withdrawals >= 0; withdrawals--) {
        random_list(&list, &plain, MOST_RECORDS, withdrawals);
        now_trying("%d records, %s withdrawals", MOST_RECORDS, withdrawals ? "with" : "without");
        check_table(&list, &plain, &table);
    }
    /* The list without withdrawals, damaged far inside, and looked up beside its table. */
    for (size_t place = 1; place < MOST_RECORDS; place += MOST_RECORDS / 3 - 1)
        for (size_t k = 0; k < ALL_DAMAGES; k++)
            if (DAMAGES[k].in_table < 8)
                damage_at(&list, place, &DAMAGES[k]);
    now_trying("lookup in %d records and in their table", MOST_RECORDS);
    for (int tries = 0; tries < 200; tries++) {
        uint32_t address = draw(1u << WIDE) << (32 - WIDE) | draw(1u << (32 - WIDE));
        uint32_t hop = plain_lookup(all_of(&list), address);
        LOOKUP(all_of(&list), address, hop);
        LOOKUP(all_of(&table), address, hop);
    }
}

int main(int arguments, char **argument)
{
    if (arguments == 2 && strcmp(argument[1], "faults") == 0) {
        printf("%d\n", FAULTS - 1);
        return 0;
    }
    document_cases();
    case_c_whole();
    damaged_records();
    lengths();
    lookups();
    slots();
    short_lists();
    long_lists();
    end();
}
