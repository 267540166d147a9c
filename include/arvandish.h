/*
 * arvandish.h - the smallest IPv4 route table, for a forwarding daemon. This header is the whole manual.
 *
 * Build     bash doors/archives            makes target/staticlib/libarvandish.a
 * Link      cc daemon.c -Iinclude target/staticlib/libarvandish.a
 *           (x86-64 Linux; from libc it needs memset and nothing else)
 *
 * RECORDS. A list is a run of 8-byte records, without a header:
 *
 *     bytes 0 to 3   address, high byte first
 *     byte  4        prefix length, 0 to 32; the address bits behind it are 0
 *     byte  5        action: 1 announce, 2 withdraw
 *     bytes 6 to 7   hop, high byte first: 0 to 256 to announce, 0 to withdraw
 *
 * An announcement of a prefix that is held replaces its hop. A withdrawal removes exactly that prefix. The hop of an address is that
 * of the longest prefix held that begins it, and 0 where none does. Hop 0 means "discard", for want of a route or by a route that says
 * so: an answer and not a refusal. A route announced with hop 0 is held like any other: it needs its slots, and it hides the shorter
 * ones that cover it.
 *
 * ANSWERS. `number` is 0 on success, else the refusal, the first that applies in this order, the whole list (3) before its records,
 * and a record at a time (4 to 9):
 *
 *      3   the list's length is no multiple of 8
 *      4   a prefix length over 32
 *      5   an address bit behind the length is set
 *      6   the action is not 1 or 2; in arvandish_lookup, not 1
 *      7   the hop is over 256 in an announcement, or not 0 in a withdrawal
 *      8   a withdrawal of a prefix that is not held         (arvandish_table)
 *      9   the routes need more than 1,024 slots             (arvandish_table)
 *     11   the output is shorter than the table              (arvandish_table)
 *
 * No call answers 10. A list needs no default route; one that leaves no route held has a table of 0 records.
 *
 * Slots: one for the empty prefix, held or not, and one for each other string of bits that begins or equals a held prefix. A lone
 * 10.0.0.0/8 needs 9.
 *
 * WHAT THE CALLER OWES. `list` points to list_len readable bytes, `out` to out_len writable ones, and the two do not overlap. NULL goes
 * with length 0. Nothing else: any bytes are taken, each call checks for itself, stays inside what it is lent, and ends.
 *
 * The calls keep no state, allocate nothing and are safe to call from several threads at once, as long as no other thread writes to
 * what is lent. arvandish_table needs about 70 KiB of stack, arvandish_lookup next to none.
 *
 * That each call answers and leaves what stands here is proved by machine: docs/PROMISES.md.
 */
#ifndef ARVANDISH_H
#define ARVANDISH_H

#include <stddef.h>
#include <stdint.h>

#ifdef __cplusplus
extern "C" {
#endif

/* What a lookup found. */
struct arvandish_found {
    uint32_t number; /* 0, or the refusal: 3 to 7 */
    uint32_t hop;    /* the hop, 0 for discard; 0 beside a refusal */
    uint64_t place;  /* 4 to 7: the place of the first bad record, counted from 0; otherwise 0 */
};

/*
 * The hop of `address` (a number: 10.0.0.1 is 0x0A000001) in a list of announcements, as the ledger that they would make in order, so
 * of two records for one prefix the later counts. There is no limit of slots here. One pass over the list.
 */
struct arvandish_found arvandish_lookup(const uint8_t *list, size_t list_len, uint32_t address);

/* What became of a table. */
struct arvandish_written {
    uint32_t number; /* 0, or the refusal: 3 to 9, or 11 */
    uint64_t count;  /* 0: the records written. 11: the records that the table needs, 8 bytes each. 3 to 9: the records of the
                        list that were applied; for 4 to 9 that is the refused record's place, counted from 0 */
};

/*
 * Applies an update list to a fresh ledger of 1,024 slots and writes the smallest table that forwards or discards every address as that
 * ledger does: announcements, some of them perhaps with hop 0, by address, then by length. `count` records stand at the start of `out`;
 * the bytes behind them stay as they were. The same forwarding gives the same bytes. On a refusal every byte of `out` is as it was.
 *
 * The table never has more records than the list, so out_len >= list_len is always enough. To ask for the length first, pass NULL and
 * 0: the answer is 11 with the count that is needed, or 0 with count 0 where every address is discarded.
 */
struct arvandish_written arvandish_table(const uint8_t *list, size_t list_len, uint8_t *out, size_t out_len);

#ifdef __cplusplus
}
#endif

#endif
