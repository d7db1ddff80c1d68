/* Runs the second engine as a monitor of the first. Each has an arena and a table room of its own; every call is made on both, and their
 * answers, values and whole arenas are compared after it. The program ends with 1 at the first difference.
 *
 * It prints a line for each call, with the number of the first engine's answer and its value, and then those of the monitor. */
#include <stdalign.h>
#include <stdio.h>
#include <stdlib.h>
#include <string.h>

#include "slotpool_plain.h"

enum { ARENA = 16384, ROOM = 16 + 264 * (ARENA / 512) }; /* docs/TABLES.md */

/* Alignments are counted from the arena's first byte, so it is aligned itself. The monitor's is a copy that no DMA engine reads. */
static struct {
    alignas(4096) uint8_t arena[ARENA];
    uint8_t room[ROOM];
    slotpool_totals totals;
} first;

static struct {
    uint8_t arena[ARENA], room[ROOM];
} monitor;

/* What every call on a pool is lent. */
#define FIRST first.arena, ARENA, first.room, ROOM, &first.totals
#define MONITOR monitor.arena, ARENA, monitor.room, ROOM

/* What a call gives back. */
struct answer {
    uint32_t number;
    size_t value;
};

static unsigned calls;

/* Before a call: the stores since the last one, which came to the first arena alone, in the other too. The arenas were equal after that call,
 * so a copy makes the same stores; a host that sees each store can make it in both. */
static void begin(void)
{
    memcpy(monitor.arena, first.arena, ARENA);
}

static void check(int same, const char *what)
{
    if (same)
        return;
    printf("the %s differ after call %u\n", what, calls);
    exit(1);
}

/* After a call: the same answers, and the same bytes. */
static size_t end(const char *call, struct answer one, struct answer other)
{
    calls++;
    printf("%-34s %2u %5zu   %2u %5zu\n", call, (unsigned)one.number, one.value, (unsigned)other.number, other.value);
    check(one.number == other.number && one.value == other.value, "answers");
    check(memcmp(first.arena, monitor.arena, ARENA) == 0, "arenas");
    return one.value;
}

static void set_up(void)
{
    struct answer one = {slotpool_set_up(FIRST), 0}, other = {slotpool_plain_set_up(MONITOR), 0};
    end("set up", one, other);
}

/* Makes a call that gives a value on both pools, and gives it: the body of the functions that follow. */
#define BOTH(name, ...)                                                        \
    struct answer one, other;                                                  \
    begin();                                                                   \
    one.number = slotpool_##name(FIRST, __VA_ARGS__, &one.value);              \
    other.number = slotpool_plain_##name(MONITOR, __VA_ARGS__, &other.value);  \
    return end(call, one, other)

static size_t grant(const char *call, size_t n)
{
    BOTH(grant, n);
}

static size_t grant_aligned(const char *call, size_t n, size_t align)
{
    BOTH(grant_aligned, n, align);
}

/* The handles go to two lists, which are compared as well. */
static void grant_list(const char *call, size_t length, size_t cap, const size_t *sizes, size_t count, size_t handles[SLOTPOOL_ENTRIES])
{
    struct answer one, other;
    size_t others[SLOTPOOL_ENTRIES];
    memcpy(others, handles, sizeof others);
    begin();
    one.number = slotpool_grant_list(FIRST, length, cap, sizes, count, handles, SLOTPOOL_ENTRIES, &one.value);
    other.number = slotpool_plain_grant_list(MONITOR, length, cap, sizes, count, others, SLOTPOOL_ENTRIES, &other.value);
    end(call, one, other);
    check(memcmp(handles, others, sizeof others) == 0, "lists");
}

static void release(const char *call, size_t handle)
{
    begin();
    struct answer one = {slotpool_release(FIRST, handle), 0}, other = {slotpool_plain_release(MONITOR, handle), 0};
    end(call, one, other);
}

static size_t resize_in_place(const char *call, size_t handle, size_t n)
{
    BOTH(resize_in_place, handle, n);
}

static size_t move(const char *call, size_t handle, size_t n)
{
    BOTH(move, handle, n);
}

static size_t measure(const char *call, size_t handle)
{
    BOTH(measure, handle);
}

/* The first engine gives its record, the monitor counts. */
static void report(void)
{
    slotpool_totals totals, counted;
    begin();
    struct answer one = {slotpool_report(FIRST, &totals), 0}, other = {slotpool_plain_report(MONITOR, &counted), 0};
    one.value = totals.bytes;
    other.value = counted.bytes;
    end("report, requested bytes", one, other);
    check(memcmp(&totals, &counted, sizeof totals) == 0, "totals");
}

int main(void)
{
    /* whatever stands in the arenas before */
    memset(first.arena, 0xA5, ARENA);
    memset(monitor.arena, 0x5A, ARENA);
    set_up();

    size_t packet = grant("grant 160", 160);
    memset(first.arena + slotpool_start(packet), 'p', 160);
    size_t ring = grant_aligned("grant 128 aligned to 64", 128, 64);
    if ((uintptr_t)(first.arena + slotpool_start(ring)) % 64 != 0)
        return 1;
    memset(first.arena + slotpool_start(ring), 'r', 128);

    /* a packet of 400 bytes in entries of at most 160; check and planner take no pool, and there is one of each */
    size_t sizes[SLOTPOOL_ENTRIES], list[SLOTPOOL_ENTRIES] = {0}, planned;
    if (slotpool_plan_list(400, 160, sizes, &planned) != SLOTPOOL_DONE)
        return 1;
    grant_list("list of 400, at most 160 each", 400, 160, sizes, planned, list);
    grant_list("list of 401 in the same entries", 401, 160, sizes, planned, list);
    grant_list("list of 18, at most 1 each", 18, 1, sizes, planned, list);
    report();

    /* the packet has room for 188 bytes where it is, and moves for more; the ring keeps its boundary */
    packet = resize_in_place("resize the packet in place to 188", packet, 188);
    resize_in_place("resize the packet in place to 189", packet, 189);
    packet = move("move the packet, 189 bytes", packet, 189);
    measure("measure the packet", packet);
    ring = move("move the ring, 128 bytes again", ring, 128);
    if ((uintptr_t)(first.arena + slotpool_start(ring)) % 64 != 0)
        return 1;
    move("move the ring, 16000 bytes", ring, 16000);

    /* a store into the guard of the list's first entry, the last of 28 spare bytes, and one into its header; then both as they were */
    uint8_t *guard = first.arena + slotpool_start(list[0]) + 160 + 27, *header = first.arena + slotpool_start(list[0]) - 1;
    *guard ^= 1;
    release("release an entry, guard damaged", list[0]);
    *header ^= 1;
    release("release it, header damaged, too", list[0]);
    resize_in_place("resize it in place to 100", list[0], 100);
    move("move it, 100 bytes", list[0], 100);
    *guard ^= 1;
    *header ^= 1;
    release("release it, mended", list[0]);
    release("release it again", list[0]);

    /* two blocks fill a group, so the third has the slot of the one that was released */
    size_t old = grant("grant 2028", 2028);
    grant("grant 2028", 2028);
    release("release the first of them", old);
    grant("grant 2028", 2028);
    measure("measure by the old handle", old);

    measure("measure what is no block", ring + 16);
    grant("grant 131052", 131052);
    grant("grant 5000", 5000);
    grant_aligned("grant 128 aligned to 48", 128, 48);
    report();

    printf("%u calls: answers, values and arenas were equal after each\n", calls);
    return 0;
}
