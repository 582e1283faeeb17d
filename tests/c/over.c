/* Totals: the greatest that a cell holds, and Adds that would pass it. They are never ready, the page says `over`, and
 * 21 and 22 stand in the place of 13 and 16.
 */
#include "checks.h"

/* Actor 0 doubles 2,147,483,648. Actor 1 adds 0 to 4,294,967,295, then 1. */
static const uint8_t totals[] = {
    1, 2, 0, 0, 12, 0, 2, 0, 28, 0, 4, 0, /* two actors, with two and four actions */
    0, 0, 0, 0, 0, 0, 0, 0x80,            /* 0.0 Set cell 0 */
    1, 0, 0, 0, 0, 0, 0, 0,               /* 0.1 Add cell 0 to cell 0 */
    0, 0, 0, 0, 0xff, 0xff, 0xff, 0xff,   /* 1.0 Set cell 0 */
    1, 0, 1, 0, 0, 0, 0, 0,               /* 1.1 Add cell 1 to cell 0 */
    0, 1, 0, 0, 1, 0, 0, 0,               /* 1.2 Set cell 1 */
    1, 0, 1, 0, 0, 0, 0, 0,               /* 1.3 Add cell 1 to cell 0 */
};

static Lent after(const uint8_t *schedule, size_t length)
{
    return lend(totals, sizeof totals, schedule, length, schedule, 0);
}

void sums(void)
{
    static const uint8_t doubled[] = {0, 0}, added[] = {1, 1, 1, 1}, stuck[] = {0, 1, 1, 1};
    static const uint8_t waits[] = {
        1, 2, 0, 1, 12, 0, 2, 0, 28, 0, 1, 0, /* two actors, with two actions and one */
        0, 0, 0, 0, 0, 0, 0, 0x80,            /* 0.0 Set cell 0 */
        1, 0, 0, 0, 0, 0, 0, 0,               /* 0.1 Add cell 0 to cell 0 */
        10, 0, 0, 1, 0, 0, 0, 0,              /* 1.0 MutexWait for mutex 0 */
    };
    entry_refused(totals, sizeof totals, doubled, 2, ORDER_REFUSED_OVER, ORDER_REFUSED_SECOND_OVER, 1);
    entry_refused(totals, sizeof totals, added, 4, ORDER_REFUSED_OVER, ORDER_REFUSED_SECOND_OVER, 3);
    prefix_refused(lend(totals, sizeof totals, stuck, 4, doubled, 2), ORDER_REFUSED_SECOND_OVER, 1);
    prefix_refused(lend(totals, sizeof totals, stuck, 2, doubled, 2), ORDER_REFUSED_SECOND_OVER, 1);
    ready_is(after(doubled, 1), 2, 1, ORDER_GOING);
    ready_is(after(added, 1), 3, 2, ORDER_GOING);
    ready_is(after(added, 2), 3, 2, ORDER_GOING);
    ready_is(after(added, 3), 1, 1, ORDER_GOING);
    ready_is(after(stuck, 4), 0, 0, ORDER_STUCK);
    ready_is(lend(waits, sizeof waits, doubled, 1, doubled, 0), 0, 0, ORDER_STUCK);
    page_is(after(stuck, 3),
            "0  1 over     2147483648" ZERO ZERO ZERO FOUR "\n"
            "1  2 ready    4294967295" ZERO ZERO ZERO FOUR "\n");
    page_is(after(stuck, 4),
            "0  1 over     2147483648" ZERO ZERO ZERO FOUR "\n"
            "1  3 over     4294967295          1" ZERO ZERO FOUR "\n");
    page_is(lend(waits, sizeof waits, doubled, 1, doubled, 0),
            "0  1 over     2147483648" ZERO ZERO ZERO FOUR "\n"
            "1  0 waits   " FOUR FOUR "\n");
}
