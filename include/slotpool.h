/* The slot pool: blocks of an arena of bytes, with the tables in a second room and their totals in a record beside it.
 *
 * Every call on a pool takes the arena, the table room and the record, and answers a number of the table below. A refusal changes no
 * byte of them. The caller owes: both buffers are valid for their given lengths, do not overlap, and, like the record, are not used by
 * anybody else during a call; `totals`, `out` and `value` are memory of their own. Likewise the lists `sizes` and `handles` are valid for
 * their given lengths, the planner's for 17 places, and overlap neither each other nor a buffer; their pointers are not null, even where
 * a length is 0. Nothing else: any bytes, numbers, lengths, handles, sizes, alignments, caps and proposals may be given.
 *
 * A grant gives a handle, and the calls on the block take it. It is the block's start, the place of its first byte in the arena, a multiple
 * of 16; plus, in the low four bits, how often the block's slot was granted before, modulo 16. So a handle that was kept too long is
 * refused, even if another block has its start by now, except that a slot's blocks a multiple of 16 grants apart are not told apart if they
 * start at the same place, nor are blocks before and after all of a group were released: then the slots are counted anew.
 *
 * The archive is x86-64 code and leaves one symbol undefined, the C library's memset, which is believed and not proved. It has no state of
 * its own: pools on different threads are apart, and one pool is not to be called from two threads at once. A room has 16 bytes, and 264 for
 * each row of 512 bytes of arena: 33,808 bytes for 64 KiB. Every call reads all of it (set up writes it): with 64 KiB, full of blocks of 160
 * bytes, a measure takes about 1 microsecond on the machine of docs/PERFORMANCE.md.
 */
#ifndef SLOTPOOL_H
#define SLOTPOOL_H

#include <stddef.h>
#include <stdint.h>

#ifdef __cplusplus
extern "C" {
#endif

enum {
    SLOTPOOL_DONE = 0,           /* done */
    SLOTPOOL_BAD_ARENA = 1,      /* set up only: arena length outside the rule, or table room of another size */
    SLOTPOOL_UNSOUND = 2,        /* arena or table room length wrong, the tables not sound, or the record not their totals */
    SLOTPOOL_TOO_LARGE = 3,      /* a size of 131,052 or more; of an aligned block, the size that its slot is taken for */
    SLOTPOOL_NO_SUCH_BLOCK = 4,  /* the handle's start is no live block's, nor that of answer 5 */
    SLOTPOOL_ALREADY_FREE = 5,   /* the start of the last block of a slot that is not live */
    SLOTPOOL_HEADER_DAMAGED = 6, /* the 4 bytes before the block are not those due */
    SLOTPOOL_OVERRUN = 7,        /* header right, the byte past the end or the guard not that due */
    SLOTPOOL_NO_ROOM = 8,        /* no slot of the class, and no run of free rows for a new group */
    SLOTPOOL_TOO_LONG = 9,       /* lists: over 17 times the cap, a cap outside 1 to 131,051, or `handles` of fewer than 17 places */
    SLOTPOOL_STALE = 10,         /* a live block's start, but the handle is not the block's present one */
    SLOTPOOL_NOT_IN_PLACE = 11,  /* resize in place only: the slot has too few bytes from the start on, or is not of a class for the size */
    SLOTPOOL_BAD_ALIGNMENT = 13, /* an alignment that is no power of two from 1 to 4,096 */
    SLOTPOOL_BAD_PROPOSAL = 17   /* a list whose proposal the check refuses */
};

/* The start of a handle: the place of the block's first byte in the arena. */
static inline size_t slotpool_start(size_t handle)
{
    return handle & ~(size_t)15;
}

/* The entries that the hardware takes in a gather list. */
enum { SLOTPOOL_ENTRIES = 17 };

/* The totals of a pool. The record that is lent as `totals` is written by set up, whatever stands in it, and brought up to date by every
 * other call that is done; keep it with the room. */
typedef struct slotpool_totals {
    size_t blocks;  /* live blocks */
    size_t bytes;   /* their requested bytes */
    size_t held;    /* rows held */
    size_t free;    /* rows free */
    size_t ready;   /* ready slots */
    size_t waiting; /* waiting slots */
} slotpool_totals;

/* The table room for an arena of arena_len bytes, which is 512 to 262,144, a multiple of 512; 0 for any other length. */
size_t slotpool_room_len(size_t arena_len);

/* Writes zero over the arena, makes tables with no blocks, and writes the record. Answers 0 or 1. */
uint32_t slotpool_set_up(uint8_t *arena, size_t arena_len, uint8_t *room, size_t room_len, slotpool_totals *totals);

/* Grants a block of n bytes, all zero; *value is its handle. Answers 0, 2, 3 or 8. */
uint32_t slotpool_grant(uint8_t *arena, size_t arena_len, uint8_t *room, size_t room_len, slotpool_totals *totals, size_t n,
                        size_t *value);

/* Grants a block of n bytes, all zero, that starts at a multiple of align, counted from the arena's first byte: its address is such a
 * multiple only if the arena's is. *value is its handle. align is a power of two from 1 to 4,096. Up to 16 this is a grant of n. From 32 on
 * the slot is taken for a size of n + align - 16, and the block keeps the alignment when it is resized or moved. Answers 0, 2, 13, 3 or 8,
 * refusals in this order. */
uint32_t slotpool_grant_aligned(uint8_t *arena, size_t arena_len, uint8_t *room, size_t room_len, slotpool_totals *totals, size_t n,
                                size_t align, size_t *value);

/* Takes a block back and clears it. Answers 0, 2, 4, 5, 10, 6 or 7, refusals in this order. */
uint32_t slotpool_release(uint8_t *arena, size_t arena_len, uint8_t *room, size_t room_len, slotpool_totals *totals, size_t handle);

/* Gives a block the size n where it is; *value is its handle, which stays the same. Bytes it gains are zero. That can be done if its slot has
 * n bytes from its start on, and is of the class that a grant of n bytes with its alignment would take, or of the next one up; else the
 * answer is 11. Answers 0, 2, 3, 4, 5, 10, 6, 7 or 11, refusals in this order. */
uint32_t slotpool_resize_in_place(uint8_t *arena, size_t arena_len, uint8_t *room, size_t room_len, slotpool_totals *totals, size_t handle,
                                  size_t n, size_t *value);

/* Gives a block the size n elsewhere, even where it could stay: a block with its alignment is granted while it is live, the bytes that both
 * have are copied, and it is released. *value is the handle from then on. Bytes it gains are zero. Answers 0, 2, 3, 4, 5, 10, 6, 7 or 8,
 * refusals in this order. */
uint32_t slotpool_move(uint8_t *arena, size_t arena_len, uint8_t *room, size_t room_len, slotpool_totals *totals, size_t handle, size_t n,
                       size_t *value);

/* *value is the size of a block. Answers 0, 2, 4, 5, 10, 6 or 7, refusals in this order. */
uint32_t slotpool_measure(const uint8_t *arena, size_t arena_len, const uint8_t *room, size_t room_len, const slotpool_totals *totals,
                          size_t handle, size_t *value);

/* *out is a copy of the record. Answers 0 or 2. */
uint32_t slotpool_report(const uint8_t *arena, size_t arena_len, const uint8_t *room, size_t room_len, const slotpool_totals *totals,
                         slotpool_totals *out);

/* Gather lists: `length` bytes in at most 17 entries of at most `cap` bytes each. A proposal says the size of each entry. */

/* 1 if a proposal is accepted, 0 if not. Accepted are at most 17 sizes, each from 1 to the cap, whose sum is the length, for a cap from
 * 1 to 131,051; nothing else. */
uint32_t slotpool_check_list(size_t length, size_t cap, const size_t *sizes, size_t sizes_len);

/* Writes a proposal that the check accepts, full caps and then the rest, to the front of `sizes`, and keeps its later places; *value is
 * the number of sizes. Answers 0, or 9 by the length or the cap. */
uint32_t slotpool_plan_list(size_t length, size_t cap, size_t sizes[17], size_t *value);

/* Grants the sizes of an accepted proposal in order, all of them or none. Writes the blocks' handles to the front of `handles`, and keeps
 * its later places; *value is the number of entries. Answers 0, 2, 9, 17 or 8, refusals in this order. */
uint32_t slotpool_grant_list(uint8_t *arena, size_t arena_len, uint8_t *room, size_t room_len, slotpool_totals *totals, size_t length,
                             size_t cap, const size_t *sizes, size_t sizes_len, size_t *handles, size_t handles_len, size_t *value);

/* With a refusal, *value is 0, *out is six zeros, and a list is as it was. */

#ifdef __cplusplus
}
#endif

#endif
