// The header as C++: it is accepted, and its constants can be array sizes.
#include "order.h"

static_assert(ORDER_REPORT_ROOM == 2912 + 64 + 2 + 6 * ORDER_SCHEDULE_MOST,
              "a depth for each of eight actors at eight mutexes, a journal with an entry for each step");
static_assert(ORDER_PAGE_ROOM == 8 * 102, "a line for each of eight actors");
static_assert(ORDER_ROUTE_ROOM(0) == 0 && ORDER_ROUTE_ROOM(1) == 0, "no exchange");
static_assert(ORDER_ROUTE_ROOM(4) == 6 && ORDER_ROUTE_ROOM(256) == 32640, "every pair once");

OrderRoute routed(const uint8_t *table, size_t table_length);

OrderRoute routed(const uint8_t *table, size_t table_length)
{
    const uint8_t first[] = {0, 0, 1, 1}, second[] = {1, 0, 0, 1};
    uint16_t route[ORDER_ROUTE_ROOM(sizeof first)];
    return order_route(table, table_length, first, sizeof first, second, sizeof second, route,
                       sizeof route / sizeof route[0]);
}
