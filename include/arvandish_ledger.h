/*
 * arvandish_ledger.h - the ledger door: update, lookup and writing on memory that the caller lends.
 *
 * For our own tool, tests and benchmarks. It is not offered to the forwarding daemon: that one uses arvandish.h, which also has
 * the records and the numbers that are used here.
 *
 * Build     bash doors/archives            makes target/staticlib/libarvandish_ledger.a
 *
 * MEMORY. A ledger lives in four slices of uint32_t, `lo`, `hi`, `up` and `hop`, with one element a slot each: 1 to 1,048,576 slots.
 * Zeroed memory is the empty ledger. docs/LAYOUT.md says what the elements mean; a caller need not know. Lend the same four slices,
 * whole, to each call. Slices of one call do not overlap; each pointer goes with its count of elements, NULL with 0.
 *
 * ANSWERS. `number` is 0 on success, else the refusal, the first that applies:
 *
 *      1   the slices differ in length, or have 0 or over 1,048,576 slots; in writing, also a scratch that has not five words a slot
 *      2   the memory holds no ledger (never for memory that only these calls wrote, from zeros on)
 *      3 to 9     of a list and its records, as in arvandish.h; 9 speaks of the slots lent
 *     11   writing, and the output is shorter than 8 times the smallest count
 *
 * No call answers 10: the empty ledger writes 0 records.
 *
 * Any memory and any bytes are taken; each call checks for itself, stays inside what it is lent, and ends. What each promises:
 * docs/PROMISES.md.
 */
#ifndef ARVANDISH_LEDGER_H
#define ARVANDISH_LEDGER_H

#include "arvandish.h"

#ifdef __cplusplus
extern "C" {
#endif

/* What became of an update. */
struct arvandish_updated {
    uint32_t number; /* 0: complete, every record was applied; else the refusal: 1 to 9 */
    uint64_t count;  /* the records applied; after a refusal by 4 to 9, the place of the refused one */
};

/*
 * Applies a list of records in order, up to the first that is refused. The ledger is then the one after the `count` records applied.
 * 1, 2 and 3 change nothing.
 */
struct arvandish_updated arvandish_ledger_update(uint32_t *lo, size_t lo_len, uint32_t *hi, size_t hi_len, uint32_t *up,
                                                 size_t up_len, uint32_t *hop, size_t hop_len, const uint8_t *list,
                                                 size_t list_len);

/* The hop of an address by longest match in the ledger held, 0 for discard; place is 0. Changes nothing. */
struct arvandish_found arvandish_ledger_lookup(const uint32_t *lo, size_t lo_len, const uint32_t *hi, size_t hi_len,
                                               const uint32_t *up, size_t up_len, const uint32_t *hop, size_t hop_len,
                                               uint32_t address);

/*
 * Writes the smallest table of the ledger held into `out`. The scratch has five words a slot. What it holds on entry never matters; it
 * is zero after success and after 11, and as it was after 1 and 2. Bytes of `out` behind the table stay as they were, and a refusal
 * leaves all of them. `count` is the records written, for 11 the records needed, else 0. The ledger never changes.
 */
struct arvandish_written arvandish_ledger_write(const uint32_t *lo, size_t lo_len, const uint32_t *hi, size_t hi_len,
                                                const uint32_t *up, size_t up_len, const uint32_t *hop, size_t hop_len,
                                                uint64_t *scratch, size_t scratch_len, uint8_t *out, size_t out_len);

#ifdef __cplusplus
}
#endif

#endif
