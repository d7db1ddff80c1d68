/* The second engine of the slot pool: a plain record for each slot in the tables, and no record of the totals beside them.
 *
 * The calls of slotpool.h, but without `totals`: from a set up that is done, each pool with its own room, the same calls and the same
 * stores to the arena get the same answers and leave the same bytes of the arena. Only the bytes of the tables differ, and nothing in a room
 * says whose it is: a room belongs to the engine that set it up, and a call of the other on it answers 2 or goes by what it reads there.
 * Numbers, handles, what the caller owes and what a refusal keeps are as in slotpool.h, and so are the machine, threads and the size of a room;
 * this archive too leaves memset undefined and nothing else, and a call takes 1 to 5 times as long. The check of a proposal and the planner,
 * which take no pool, are there. A program that uses both engines links both archives.
 */
#ifndef SLOTPOOL_PLAIN_H
#define SLOTPOOL_PLAIN_H

#include "slotpool.h"

#ifdef __cplusplus
extern "C" {
#endif

/* The table room for an arena of arena_len bytes, which is 512 to 262,144, a multiple of 512; 0 for any other length. */
size_t slotpool_plain_room_len(size_t arena_len);

/* Writes zero over the arena, and makes tables with no blocks. Answers 0 or 1. */
uint32_t slotpool_plain_set_up(uint8_t *arena, size_t arena_len, uint8_t *room, size_t room_len);

/* Grants a block of n bytes, all zero; *value is its handle. Answers 0, 2, 3 or 8. */
uint32_t slotpool_plain_grant(uint8_t *arena, size_t arena_len, uint8_t *room, size_t room_len, size_t n, size_t *value);

/* Grants a block of n bytes, all zero, that starts at a multiple of align, a power of two from 1 to 4,096, counted from the arena's first
 * byte: its address is such a multiple only if the arena's is. *value is its handle. Answers 0, 2, 13, 3 or 8, refusals in this order. */
uint32_t slotpool_plain_grant_aligned(uint8_t *arena, size_t arena_len, uint8_t *room, size_t room_len, size_t n, size_t align,
                                      size_t *value);

/* Takes a block back and clears it. Answers 0, 2, 4, 5, 10, 6 or 7, refusals in this order. */
uint32_t slotpool_plain_release(uint8_t *arena, size_t arena_len, uint8_t *room, size_t room_len, size_t handle);

/* Gives a block the size n where it is; *value is its handle, which stays the same. Bytes it gains are zero. Answers 0, 2, 3, 4, 5, 10, 6, 7
 * or 11, refusals in this order. */
uint32_t slotpool_plain_resize_in_place(uint8_t *arena, size_t arena_len, uint8_t *room, size_t room_len, size_t handle, size_t n,
                                        size_t *value);

/* Gives a block the size n elsewhere, even where it could stay; *value is its handle from then on. Bytes it gains are zero. Answers 0, 2, 3,
 * 4, 5, 10, 6, 7 or 8, refusals in this order. */
uint32_t slotpool_plain_move(uint8_t *arena, size_t arena_len, uint8_t *room, size_t room_len, size_t handle, size_t n, size_t *value);

/* *value is the size of a block. Answers 0, 2, 4, 5, 10, 6 or 7, refusals in this order. */
uint32_t slotpool_plain_measure(const uint8_t *arena, size_t arena_len, const uint8_t *room, size_t room_len, size_t handle,
                                size_t *value);

/* *out is the totals, counted. Answers 0 or 2. */
uint32_t slotpool_plain_report(const uint8_t *arena, size_t arena_len, const uint8_t *room, size_t room_len, slotpool_totals *out);

/* Grants the sizes of an accepted proposal in order, all of them or none. Writes the blocks' handles to the front of `handles`, and keeps
 * its later places; *value is the number of entries. Answers 0, 2, 9, 17 or 8, refusals in this order. */
uint32_t slotpool_plain_grant_list(uint8_t *arena, size_t arena_len, uint8_t *room, size_t room_len, size_t length, size_t cap,
                                   const size_t *sizes, size_t sizes_len, size_t *handles, size_t handles_len, size_t *value);

/* With a refusal, *value is 0, *out is six zeros, and a list is as it was. */

#ifdef __cplusplus
}
#endif

#endif
