/* order_draw: the schedules of some tables and seeds to the byte, in the least room and in more; the longest; and
 * refusal 23.
 */
#include "checks.h"

#include <string.h>

static const size_t rooms[] = {ORDER_SCHEDULE_MOST, ORDER_SCHEDULE_MOST + 1, ORDER_REPORT_ROOM};
enum { ROOMS = sizeof rooms / sizeof rooms[0] };

static void drawn(const uint8_t *table, size_t table_length, uint32_t seed, const uint8_t *schedule, size_t length,
                  uint32_t ending)
{
    for (size_t i = 0; i < ROOMS; i++) {
        Lent lent = lend(table, table_length, table, 0, table, 0);
        lent.bytes_length = rooms[i];
        draw_is(lent, seed, schedule, length, ending);
    }
}

static void of_table_a(void)
{
    static const uint8_t one[] = {0, 0, 1, 1}, other[] = {1, 0, 0, 1}, third[] = {0, 1, 0, 1};
    drawn(table_a, TABLE_A, 0, one, 4, ORDER_FINISHED);
    drawn(table_a, TABLE_A, 2, other, 4, ORDER_FINISHED);
    drawn(table_a, TABLE_A, 4, third, 4, ORDER_FINISHED);
    drawn(table_a, TABLE_A, 0x80000000, one, 4, ORDER_FINISHED);
    drawn(table_a, TABLE_A, 0xffffffff, other, 4, ORDER_FINISHED);
}

/* Actor 0 receives, waits and sets; actor 1 sends and sets twice. Once actor 0 waits, actor 1 alone is ready; then both
 * are.
 */
static void one_alone(void)
{
    static const uint8_t table[] = {
        1, 2, 1, 0, 12, 0, 3, 0, 36, 0, 3, 0, /* two actors, with three actions each */
        4, 0, 0, 0, 0, 0, 0, 0,               /* 0.0 Receive from mailbox 0 */
        6, 1, 0, 1, 0, 0, 0, 0,               /* 0.1 WaitAny for 0.0 */
        0, 2, 0, 0, 1, 0, 0, 0,               /* 0.2 Set cell 2 */
        3, 0, 0, 0, 0, 0, 0, 0,               /* 1.0 Send to mailbox 0 */
        0, 1, 0, 0, 1, 0, 0, 0,               /* 1.1 Set cell 1 */
        0, 1, 0, 0, 2, 0, 0, 0,               /* 1.2 Set cell 1 */
    };
    static const uint8_t zero[] = {0, 1, 0, 1, 0, 1}, four[] = {0, 1, 1, 0, 1, 0};
    drawn(table, sizeof table, 0, zero, 6, ORDER_FINISHED);
    drawn(table, sizeof table, 4, four, 6, ORDER_FINISHED);
}

/* Eight actors with a Set each: every number of ready actors from eight down to one. */
static void of_eight(void)
{
    uint8_t table[4 + 8 * (4 + 8)] = {1, 8, 0, 0};
    for (uint8_t actor = 0; actor < 8; actor++) {
        table[4 + 4 * actor] = (uint8_t)(36 + 8 * actor);
        table[6 + 4 * actor] = 1;
    }
    static const uint8_t zero[] = {6, 0, 3, 7, 4, 2, 1, 5}, most[] = {5, 6, 3, 4, 1, 7, 2, 0};
    drawn(table, sizeof table, 0, zero, 8, ORDER_FINISHED);
    drawn(table, sizeof table, 0xffffffff, most, 8, ORDER_FINISHED);
}

static void ends(void)
{
    static const uint8_t idle[] = {1, 1, 0, 0, 8, 0, 0, 0}; /* one actor without actions */
    static const uint8_t owned[] = {
        1, 1, 0, 1, 8, 0, 1, 0, 10, 0, 0, 1, 0, 0, 0, 0, /* one actor that waits for a mutex */
    };
    static const uint8_t mail[] = {
        1, 1, 1, 0, 8, 0, 2, 0, 4, 0, 0, 0, 0, 0, 0, 0, 6, 1, 0, 1, 0, 0, 0, 0, /* one that waits for a value */
    };
    static const uint8_t over[] = {
        1, 1, 0, 0, 8, 0, 2, 0, 0, 0, 0, 0, 0, 0, 0, 0x80, 1, 0, 0, 0, 0, 0, 0, 0, /* one that doubles 2,147,483,648 */
    };
    static const uint8_t step[] = {0};
    drawn(idle, sizeof idle, 1, step, 0, ORDER_FINISHED);
    drawn(owned, sizeof owned, 1, step, 0, ORDER_STUCK);
    drawn(mail, sizeof mail, 1, step, 1, ORDER_STUCK);
    drawn(over, sizeof over, 1, step, 1, ORDER_STUCK);
}

/* Eight actors with 32 Sets each: the first entries from seed 1, all 256 of them, and the same in any room. */
static void longest(void)
{
    static const uint8_t begin[] = {0, 0, 6, 3, 0, 0, 6, 2};
    uint8_t table[ORDER_TABLE_MOST] = {1, 8, 0, 0};
    for (size_t actor = 0; actor < 8; actor++) {
        size_t offset = 36 + 256 * actor;
        table[4 + 4 * actor] = (uint8_t)(offset & 0xff);
        table[5 + 4 * actor] = (uint8_t)(offset >> 8);
        table[6 + 4 * actor] = 32;
    }
    uint8_t schedule[ORDER_SCHEDULE_MOST];
    OrderDraw answer = order_draw(table, sizeof table, 1, schedule, sizeof schedule);
    expect_number(answer.length, ORDER_SCHEDULE_MOST, "order_draw", "the longest schedule's length");
    expect(memcmp(schedule, begin, sizeof begin) == 0, "order_draw", "the longest schedule begins otherwise");
    drawn(table, sizeof table, 1, schedule, sizeof schedule, ORDER_FINISHED);
}

/* Refused for its room, whatever the table is. */
static void no_room(size_t room)
{
    Lent lent = with(table_a, 0, table_a, 0);
    lent.bytes_length = room;
    draw_refused(lent, ORDER_REFUSED_SCHEDULE_ROOM, 0);
    lent.table_length = TABLE_A - 1;
    draw_refused(lent, ORDER_REFUSED_SCHEDULE_ROOM, 0);
    lent.table_length = 0;
    draw_refused(lent, ORDER_REFUSED_SCHEDULE_ROOM, 0);
}

void draws(void)
{
    of_table_a();
    one_alone();
    of_eight();
    ends();
    longest();
    no_room(0);
    no_room(4); /* the schedule would fit */
    no_room(ORDER_SCHEDULE_MOST - 1);
}
