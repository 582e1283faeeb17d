/* Checks that are counted, and what a call is lent. */
#include "checks.h"

#include <stdio.h>
#include <string.h>

int failures;

void expect(int holds, const char *call, const char *what)
{
    if (!holds) {
        failures++;
        printf("%s: %s\n", call, what);
    }
}

void expect_number(size_t is, size_t wanted, const char *call, const char *what)
{
    if (is != wanted) {
        failures++;
        printf("%s: %s is %zu, not %zu\n", call, what, is, wanted);
    }
}

Lent lend(const uint8_t *table, size_t table_length, const uint8_t *first, size_t first_length,
          const uint8_t *second, size_t second_length)
{
    Lent lent;
    memset(&lent, 0xa5, sizeof lent);
    lent.table_length = table_length;
    lent.first_length = first_length;
    lent.second_length = second_length;
    lent.bytes_length = ORDER_REPORT_ROOM;
    lent.route_length = ROUTE;
    memcpy(lent.table, table, table_length);
    memcpy(lent.first, first, first_length);
    memcpy(lent.second, second, second_length);
    memcpy(lent.table_before, lent.table, sizeof lent.table);
    memcpy(lent.first_before, lent.first, sizeof lent.first);
    memcpy(lent.second_before, lent.second, sizeof lent.second);
    memcpy(lent.bytes_before, lent.bytes, sizeof lent.bytes);
    memcpy(lent.route_before, lent.route, sizeof lent.route);
    return lent;
}

Lent with(const uint8_t *first, size_t first_length, const uint8_t *second, size_t second_length)
{
    return lend(table_a, sizeof table_a, first, first_length, second, second_length);
}

void expect_kept(const Lent *lent, size_t bytes, size_t route, const char *call)
{
    expect(memcmp(lent->table, lent->table_before, sizeof lent->table) == 0, call, "the table changed");
    expect(memcmp(lent->first, lent->first_before, sizeof lent->first) == 0, call, "the first schedule changed");
    expect(memcmp(lent->second, lent->second_before, sizeof lent->second) == 0, call,
           "the second schedule changed");
    expect(memcmp(lent->bytes + bytes, lent->bytes_before + bytes, sizeof lent->bytes - bytes) == 0, call,
           "the lent bytes changed where they may not");
    expect(memcmp(lent->route + route, lent->route_before + route,
                  sizeof lent->route - route * sizeof lent->route[0]) == 0,
           call, "the route buffer changed where it may not");
}
