/* Every refusal of every call, through the C functions, alone and with each later one due behind it: its number, the value 0 (from report,
 * six zeros), and no byte changed, nor a number of the record, nor a place of a lent list. With PLAIN, the calls of the second engine. */
#include <stdio.h>
#include <stdlib.h>
#include <string.h>

#include "slotpool_plain.h"

#ifdef PLAIN
#define ON_POOL(call) slotpool_plain_##call
#define RECORD
#else
#define ON_POOL(call) slotpool_##call
#define RECORD , &pool.record.totals
#endif

enum call { SET_UP, GRANT, RELEASE, RESIZE_IN_PLACE, MOVE, MEASURE, REPORT, GRANT_ALIGNED, GRANT_LIST, PLAN_LIST };

static const char *const names[] = {"set up", "grant", "release", "resize in place", "move", "measure", "report", "grant aligned",
                                    "grant list", "plan list"};

/* The numbers that each call on blocks can refuse with, in the order in which they are tested; 0 ends them. */
static const uint8_t refusals[][9] = {
    {1}, {2, 3, 8}, {2, 4, 5, 10, 6, 7}, {2, 3, 4, 5, 10, 6, 7, 11}, {2, 3, 4, 5, 10, 6, 7, 8}, {2, 4, 5, 10, 6, 7}, {2}};

/* The pool: one group holds all rows, with a freed block and a live one. Each is the second of its slot: it starts 16 bytes after the slot's
 * beginning, and the low bits of its handle are 1. The live one's guard is the 5 bytes before END. */
enum { ARENA = 4096, SIZE = 160, SLOTS = 21, SLOT = 192, FREED = 16 + 16 + 1, LIVE = FREED + SLOT, END = 16 + SLOT + 188 };

/* The largest size of the group's class. A block of one byte more has no room. */
enum { MOST = 188 };

/* Aligned blocks, each with the first answer due in the order 2, 13, 3, 8. */
static const struct aligned {
    uint32_t due;
    size_t n, align;
} blocks[] = {
    /* unsound tables, with a block that would be granted, and with 13, 3 and 8 due behind it */
    {2, SIZE, 32},
    {2, SIZE_MAX, 0},
    {2, 131052, 32},
    {2, MOST, 64},
    /* no power of two, or one over 4,096: with a block that would be granted as an ordinary one */
    {13, SIZE, 0},
    {13, SIZE, 3},
    {13, SIZE, 48},
    {13, SIZE, 8192},
    {13, SIZE, SIZE_MAX},
    {13, SIZE, SIZE_MAX / 2 + 1},
    /* .. with 3 and with 8 due behind it */
    {13, 131052, 3},
    {13, SIZE_MAX, 8192},
    {13, MOST + 1, 24},
    /* too large, by itself and once it is enlarged, which wraps for none: 8 would be due behind it */
    {3, 131052, 1},
    {3, 131052, 16},
    {3, 131036, 32},
    {3, 126972, 4096},
    {3, SIZE_MAX, 8},
    {3, SIZE_MAX, 32},
    {3, SIZE_MAX - 15, 32},
    {3, SIZE_MAX - 4079, 4096},
    /* no room for the class of the size, and of the enlarged one */
    {8, MOST + 1, 2},
    {8, MOST - 15, 32},
    {8, 131035, 32},
    {8, 0, 4096},
    {8, 126971, 4096},
};

/* Lists, each with the first answer due in the order 2, 9, 17, 8. */
static const struct list {
    uint32_t due;
    size_t length, cap, places, count, sizes[18];
} lists[] = {
    /* unsound tables, with a list that would be granted, and with one that is wrong in every way */
    {2, SIZE, MOST, 17, 1, {SIZE}},
    {2, SIZE_MAX, 0, 0, 1, {0}},
    /* a length over 17 times the cap */
    {9, 17 * MOST + 1, MOST, 17, 1, {MOST}},
    {9, SIZE_MAX, MOST, 17, 1, {SIZE_MAX}},
    /* a cap out of its range */
    {9, 0, 0, 17, 0, {0}},
    {9, SIZE, 131052, 17, 1, {SIZE}},
    {9, MOST + 1, SIZE_MAX, 17, 1, {MOST + 1}},
    /* fewer than 17 places, which the planner is not told: with a list that would be granted, and with 17 and 8 due behind it */
    {9, SIZE, MOST, 16, 1, {SIZE}},
    {9, 0, MOST, 16, 0, {0}},
    {9, 0, MOST, 0, 0, {0}},
    {9, SIZE, MOST, 16, 1, {SIZE + 1}},
    {9, MOST + 1, MOST + 1, 16, 1, {MOST + 1}},
    /* too many sizes, a size of 0, one over the cap, another sum, and one that wraps */
    {17, 18, MOST, 17, 18, {1, 1, 1, 1, 1, 1, 1, 1, 1, 1, 1, 1, 1, 1, 1, 1, 1, 1}},
    {17, SIZE, MOST, 17, 2, {SIZE, 0}},
    {17, 0, MOST, 17, 1, {0}},
    {17, SIZE, SIZE - 1, 17, 1, {SIZE}},
    {17, SIZE - 1, MOST, 17, 1, {SIZE}},
    {17, SIZE, MOST, 40, 0, {0}},
    {17, SIZE, MOST, 17, 3, {SIZE, SIZE_MAX, 1}},
    /* .. with 8 due behind it */
    {17, MOST + 2, MOST + 1, 17, 1, {MOST + 1}},
    /* no room for the only size, and for the last */
    {8, MOST + 1, MOST + 1, 17, 1, {MOST + 1}},
    {8, SIZE + MOST + MOST + 1, MOST + 1, 40, 3, {SIZE, MOST, MOST + 1}},
};

/* A record, and its numbers. */
union record {
    slotpool_totals totals;
    size_t numbers[6];
};

static struct {
    uint8_t arena[ARENA], room[ARENA];
    union record record;
    size_t handles[40], sizes[17];
} pool, before;

static size_t arena_len, room_len, handle, n;
static const struct aligned *block;
static const struct list *list;
#define LENT pool.arena, arena_len, pool.room, room_len RECORD

/* What a call gives back beside its number: its value, or report's totals. All numbers are PATTERN before the call. */
static union record given;
#define VALUE &given.numbers[0]
enum { PATTERN = 0x5A5A };

static enum call call;

/* The answer that is due, and one that would be due without it, or the same. */
static uint32_t due, behind;

/* Why 2 is due: by the tables, or, where there is a record, by a number of it that is one too large, or one too small. With which low bits 4, 5
 * or 10 is. By which size 11 is. */
static unsigned cause;
#ifdef PLAIN
enum { BY_TABLES, CAUSES, BITS = 16 };
#else
enum { BY_TABLES, CAUSES = 1 + 6 + 6, BITS = 16 };
#endif

/* Sizes that the live block does not get in place: a byte more than its slot has from its start on, a byte more than the slot has, and the most of
 * the second class below. */
static const size_t unfit[] = {MOST - 15, MOST + 1, 140};
enum { UNFIT = sizeof unfit / sizeof *unfit };

static void check(int holds, int line, const char *what)
{
    if (holds)
        return;
    printf("%s:%d: %s, answer %u due before %u", __FILE__, line, names[call], (unsigned)due, (unsigned)behind);
    if (call == GRANT_ALIGNED)
        printf(", block %d", (int)(block - blocks));
    if (call >= GRANT_LIST)
        printf(", list %d", (int)(list - lists));
    printf(", cause %u: it is not so that %s\n", cause, what);
    exit(1);
}
#define CHECK(what) check(what, __LINE__, #what)

/* A grant that is done, with the handle due. */
static void grant(size_t due_handle)
{
    CHECK(ON_POOL(grant)(LENT, SIZE, VALUE) == SLOTPOOL_DONE);
    CHECK(*VALUE == due_handle);
}

static void release(size_t granted)
{
    CHECK(ON_POOL(release)(LENT, granted) == SLOTPOOL_DONE);
}

/* Sets the pool up: a first block in every slot of the group, all released but the last, which keeps the group for the second ones. */
static void set_up(void)
{
    memset(&pool, 0xA5, sizeof pool);
    arena_len = ARENA;
    room_len = ON_POOL(room_len)(ARENA);
    CHECK(ON_POOL(set_up)(LENT) == SLOTPOOL_DONE);
    for (size_t i = 0; i < SLOTS; i++)
        grant(16 + i * SLOT);
    for (size_t i = 0; i < SLOTS - 1; i++)
        release(16 + i * SLOT);
    grant(FREED);
    grant(LIVE);
    release(16 + (SLOTS - 1) * SLOT);
    release(FREED);
    handle = LIVE;
    n = SIZE;
}

/* Makes a refusal due. */
static void spoil(uint32_t refusal)
{
    size_t start = slotpool_start(LIVE);
    switch (refusal) {
    case SLOTPOOL_BAD_ARENA:
        arena_len--;
        break;
    case SLOTPOOL_UNSOUND:
        if (cause == BY_TABLES)
            pool.room[room_len - 1] = 1;
        else
            pool.record.numbers[(cause - 1) % 6] += cause <= 6 ? 1 : SIZE_MAX;
        break;
    case SLOTPOOL_TOO_LARGE:
        n = 131052;
        break;
    case SLOTPOOL_NO_SUCH_BLOCK:
        handle = start + 16 + cause % BITS;
        break;
    case SLOTPOOL_ALREADY_FREE:
        handle = slotpool_start(FREED) + cause % BITS;
        break;
    case SLOTPOOL_STALE:
        handle = start + (LIVE + 1 + cause % (BITS - 1)) % BITS;
        break;
    case SLOTPOOL_HEADER_DAMAGED:
        pool.arena[start - 1] ^= 1;
        break;
    case SLOTPOOL_OVERRUN:
        pool.arena[END - 1] ^= 1;
        break;
    case SLOTPOOL_NO_ROOM:
        n = MOST + 1;
        break;
    case SLOTPOOL_NOT_IN_PLACE:
        n = unfit[cause % UNFIT];
        break;
    }
}

/* Makes the call; gives how many numbers it has to give back. */
static size_t make(uint32_t *answer)
{
    switch (call) {
    case SET_UP:
        *answer = ON_POOL(set_up)(LENT);
        return 0;
    case GRANT:
        *answer = ON_POOL(grant)(LENT, n, VALUE);
        return 1;
    case RELEASE:
        *answer = ON_POOL(release)(LENT, handle);
        return 0;
    case RESIZE_IN_PLACE:
        *answer = ON_POOL(resize_in_place)(LENT, handle, n, VALUE);
        return 1;
    case MOVE:
        *answer = ON_POOL(move)(LENT, handle, n, VALUE);
        return 1;
    case MEASURE:
        *answer = ON_POOL(measure)(LENT, handle, VALUE);
        return 1;
    case GRANT_ALIGNED:
        *answer = ON_POOL(grant_aligned)(LENT, block->n, block->align, VALUE);
        return 1;
    case GRANT_LIST:
        *answer = ON_POOL(grant_list)(LENT, list->length, list->cap, list->sizes, list->count, pool.handles, list->places, VALUE);
        return 1;
    case PLAN_LIST:
        *answer = slotpool_plan_list(list->length, list->cap, pool.sizes, VALUE);
        return 1;
    default:
        *answer = ON_POOL(report)(LENT, &given.totals);
        return 6;
    }
}

static void refuse_once(void)
{
    set_up();
    if (behind != due)
        spoil(behind);
    spoil(due);
    before = pool;
    for (size_t i = 0; i < 6; i++)
        given.numbers[i] = PATTERN;
    uint32_t answer;
    size_t values = make(&answer);
    CHECK(answer == due);
    for (size_t i = 0; i < 6; i++)
        CHECK(given.numbers[i] == (i < values ? 0 : PATTERN));
    CHECK(memcmp(&pool, &before, sizeof pool) == 0);
}

static unsigned causes(void)
{
    switch (due) {
    case SLOTPOOL_UNSOUND:
        return CAUSES;
    case SLOTPOOL_NO_SUCH_BLOCK:
    case SLOTPOOL_ALREADY_FREE:
        return BITS;
    case SLOTPOOL_STALE:
        return BITS - 1;
    case SLOTPOOL_NOT_IN_PLACE:
        return UNFIT;
    default:
        return 1;
    }
}

/* A refusal before another, by every cause; gives how many those are. */
static unsigned refuse_before(uint32_t other)
{
    behind = other;
    for (cause = 0; cause < causes(); cause++)
        refuse_once();
    return causes();
}

static unsigned refuse(void)
{
    return refuse_before(due);
}

/* A call's refusals, each alone and before each later one. */
static unsigned refuse_in_order(const uint8_t *numbers)
{
    unsigned seen = 0;
    for (const uint8_t *first = numbers; *first; first++)
        for (const uint8_t *later = first; *later; later++) {
            due = *first;
            seen += refuse_before(*later);
        }
    return seen;
}

/* A start is the multiple of 16 at or below the handle. */
static void check_starts(void)
{
    for (size_t i = 0; i < ARENA; i++) {
        CHECK(slotpool_start(i) == i / 16 * 16);
        CHECK(slotpool_start(SIZE_MAX - i) == SIZE_MAX / 16 * 16 - i / 16 * 16);
    }
}

/* A list, and its plan where the planner refuses it, too. 17 is due exactly if the check refuses. */
static unsigned refuse_list(void)
{
    due = list->due;
    call = GRANT_LIST;
    unsigned seen = refuse();
    uint32_t accepted = slotpool_check_list(list->length, list->cap, list->sizes, list->count);
    CHECK(accepted == 0 || accepted == 1);
    CHECK(accepted ? due != SLOTPOOL_BAD_PROPOSAL : due != SLOTPOOL_NO_ROOM);
    if (due != SLOTPOOL_TOO_LONG || list->places < SLOTPOOL_ENTRIES)
        return seen;
    call = PLAN_LIST;
    return seen + refuse();
}

int main(void)
{
    unsigned seen = 0;
    check_starts();
    for (call = SET_UP; call <= REPORT; call++)
        seen += refuse_in_order(refusals[call]);
    call = GRANT_ALIGNED;
    for (block = blocks; block < blocks + sizeof blocks / sizeof *blocks; block++) {
        due = block->due;
        seen += refuse();
    }
    for (list = lists; list < lists + sizeof lists / sizeof *lists; list++)
        seen += refuse_list();
    printf("%u refusals, each with its number, the value 0 and nothing changed\n", seen);
    return 0;
}
