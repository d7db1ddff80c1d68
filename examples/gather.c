/* Grants a packet as one gather list and a ring of descriptors on a boundary, lets a mapped buffer grow, shows what the pool refuses, and
 * prints a map of the arena's rows. */
#include <stdalign.h>
#include <stdio.h>
#include <stdlib.h>
#include <string.h>

#include "slotpool.h"

enum { ARENA = 8192, ROW = 512 };

/* Alignments are counted from its first byte, so it is aligned itself, for all of them. */
static alignas(4096) uint8_t arena[ARENA];
static uint8_t *room;
static size_t room_len;
static slotpool_totals totals;

/* What every call on the pool is lent. */
#define POOL arena, ARENA, room, room_len, &totals

static const char *name(uint32_t answer)
{
    static const char *const names[] = {"done", "bad arena", "unsound", "too large", "no such block",
                                        "already free", "header damaged", "overrun", "no room", "list too long", "stale", "not in place",
                                        [SLOTPOOL_BAD_ALIGNMENT] = "bad alignment", [SLOTPOOL_BAD_PROPOSAL] = "bad proposal"};
    return names[answer];
}

/* One character a row: '.' free, a digit or letter for the class of the group that begins there, '-' for its later rows. */
static void map(void)
{
    printf("rows  ");
    for (size_t row = 0; row < ARENA / ROW; row++) {
        const uint8_t *record = room + 16 + 264 * row; /* docs/TABLES.md */
        putchar(record[0] == 0 ? '.' : record[0] == 1 ? "0123456789ABCDEFGHIJKLMNOPQRSTUVWXYZabcdefghijkl"[record[1]] : '-');
    }
    slotpool_totals t;
    slotpool_report(POOL, &t);
    printf("  %zu blocks, %zu bytes, %zu rows held, %zu free, %zu slots ready, %zu waiting\n", t.blocks, t.bytes, t.held, t.free, t.ready,
           t.waiting);
}

/* Asks for a list of so many bytes in entries of these sizes, at most cap each; gives how many were granted. */
static size_t grant_list(size_t length, size_t cap, const size_t *sizes, size_t count, size_t handles[SLOTPOOL_ENTRIES])
{
    size_t entries;
    uint32_t answer = slotpool_grant_list(POOL, length, cap, sizes, count, handles, SLOTPOOL_ENTRIES, &entries);
    printf("list of %zu bytes as", length);
    for (size_t i = 0; i < count; i++)
        printf(" %zu", sizes[i]);
    printf(": %s", name(answer));
    for (size_t i = 0; i < entries; i++)
        printf("%s %zu", i == 0 ? "," : "", handles[i]);
    putchar('\n');
    return entries;
}

/* Gives a block that the driver has mapped another size, if that can be done; its handle from then on. */
static size_t resize_mapped(size_t handle, size_t n)
{
    size_t value;
    uint32_t answer = slotpool_resize_in_place(POOL, handle, n, &value);
    printf("resize %zu to %zu in place: %s\n", handle, n, name(answer));
    if (answer == SLOTPOOL_NOT_IN_PLACE) {
        /* the mapping is torn down here, before the block moves, and made anew after, where the block is then */
        answer = slotpool_move(POOL, handle, n, &value);
        printf("move %zu, %zu bytes: %s, %zu\n", handle, n, name(answer), value);
    }
    return answer == SLOTPOOL_DONE ? value : handle;
}

int main(void)
{
    room_len = slotpool_room_len(ARENA);
    room = malloc(room_len);
    if (room == NULL || slotpool_set_up(POOL) != SLOTPOOL_DONE)
        return 1;
    printf("an arena of %d bytes, a table room of %zu\n", ARENA, room_len);
    map();

    /* a packet of 400 bytes in entries of at most 160, as the planner proposes */
    size_t sizes[SLOTPOOL_ENTRIES], list[SLOTPOOL_ENTRIES], planned;
    if (slotpool_plan_list(400, 160, sizes, &planned) != SLOTPOOL_DONE)
        return 1;
    size_t entries = grant_list(400, 160, sizes, planned, list);
    for (size_t i = 0; i < entries; i++)
        memset(arena + slotpool_start(list[i]), 'a' + (int)i, sizes[i]);
    map();

    /* a list whose last entry has no room, and one whose sizes do not add up: no entry is granted, and the map stays */
    size_t ours[2] = {160, 100}, refused[SLOTPOOL_ENTRIES];
    grant_list(260, 160, ours, 2, refused);
    grant_list(261, 160, ours, 2, refused);
    map();

    /* the driver writes one byte too many into the second entry */
    size_t value, past = slotpool_start(list[1]) + sizes[1];
    uint8_t kept = arena[past];
    arena[past] = 1;
    printf("release %zu with one byte written past its end: %s\n", list[1], name(slotpool_release(POOL, list[1])));
    arena[past] = kept;

    printf("resize %zu to 188 in place: %s\n", list[0], name(slotpool_resize_in_place(POOL, list[0], 188, &value)));
    printf("release %zu: %s\n", list[1], name(slotpool_release(POOL, list[1])));
    printf("release %zu again: %s\n", list[1], name(slotpool_release(POOL, list[1])));
    printf("release %zu: %s\n", list[1] + 16, name(slotpool_release(POOL, list[1] + 16)));
    printf("grant 131052: %s\n", name(slotpool_grant(POOL, 131052, &value)));
    printf("grant 5000: %s\n", name(slotpool_grant(POOL, 5000, &value)));
    map();

    /* 8 descriptors of 16 bytes, which the engine wants at a multiple of 64: a slot for 48 bytes more, from whose beginning at 400 the next
     * multiple is 448 */
    printf("grant 128 aligned to 48: %s\n", name(slotpool_grant_aligned(POOL, 128, 48, &value)));
    printf("grant 128 aligned to 64: %s", name(slotpool_grant_aligned(POOL, 128, 64, &value)));
    printf(", %zu\n", value);
    if ((uintptr_t)(arena + slotpool_start(value)) % 64 != 0)
        return 1;
    map();

    /* a mapped buffer of 80 bytes: its slot of 96 holds 92, and for 160 it moves to a slot of 192 */
    size_t buffer;
    if (slotpool_grant(POOL, 80, &buffer) != SLOTPOOL_DONE)
        return 1;
    memset(arena + slotpool_start(buffer), 'm', 80);
    buffer = resize_mapped(buffer, 92);
    buffer = resize_mapped(buffer, 160);
    const uint8_t *bytes = arena + slotpool_start(buffer);
    printf("its bytes 0 and 79 are %c and %c, and byte 80, which it gained, is %d\n", bytes[0], bytes[79], bytes[80]);
    map();

    /* a flipped bit in the tables: block 16 has 156 bytes for 188, which its slot may hold. The tables are sound by themselves, and without the
     * record this grant would be done; but their totals are not those of the record */
    uint8_t *size = room + 16 + 16 + 4; /* docs/TABLES.md: row 0, slot 0, requested size */
    *size ^= 32;
    printf("grant 80 with a flipped table bit: %s\n", name(slotpool_grant(POOL, 80, &value)));
    *size ^= 32;
    printf("measure %zu: %s", list[0], name(slotpool_measure(POOL, list[0], &value)));
    printf(", %zu\n", value);

    /* the driver keeps the third entry's handle too long: the entry is released and, its group being full, the next block has its slot and
     * starts at the same place; but its handle is another */
    while (slotpool_grant(POOL, 80, &value) == SLOTPOOL_DONE)
        ;
    printf("release %zu: %s\n", list[2], name(slotpool_release(POOL, list[2])));
    printf("grant 80: %s", name(slotpool_grant(POOL, 80, &value)));
    printf(", %zu, at %zu\n", value, slotpool_start(value));
    printf("release %zu again: %s\n", list[2], name(slotpool_release(POOL, list[2])));
    map();
    free(room);
    return 0;
}
