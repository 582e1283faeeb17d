/* order_page: table A's pages to the byte, in the least room and in more, and refusal 20. */
#include "checks.h"

static const uint8_t whole[] = {0, 1, 0, 1}, one[] = {1, 1};

/* The page of a schedule of table A, with so many bytes lent. */
static void laid(const uint8_t *schedule, size_t length, size_t room, const char *page)
{
    Lent lent = with(schedule, length, schedule, 0);
    lent.bytes_length = room;
    page_is(lent, page);
}

/* Refused for its room, whatever the table and the schedule are. */
static void no_room(size_t room)
{
    Lent lent = with(whole, sizeof whole, whole, 0);
    lent.bytes_length = room;
    page_refused(lent, ORDER_REFUSED_PAGE_ROOM, 0);
    lent.table_length = 0;
    page_refused(lent, ORDER_REFUSED_PAGE_ROOM, 0);
    lent = with(one, sizeof one, one, 0);
    lent.bytes_length = room;
    page_refused(lent, ORDER_REFUSED_PAGE_ROOM, 0);
}

void lines(void)
{
    static const size_t rooms[] = {ORDER_PAGE_ROOM, ORDER_PAGE_ROOM + 1, ORDER_REPORT_ROOM};
    for (size_t i = 0; i < 3; i++) {
        laid(whole, 4, rooms[i],
             "0  2 finished        149" ZERO ZERO ZERO FOUR "\n"
             "1  2 finished" ZERO ZERO "        149          1" FOUR "\n");
        laid(one, 1, rooms[i],
             "0  0 ready   " FOUR FOUR "\n"
             "1  1 waits   " FOUR FOUR "\n");
    }
    no_room(0);
    no_room(204); /* the page would fit */
    no_room(ORDER_PAGE_ROOM - 1);
}
