/* Refusals 1 to 9: every call gives them alike. */
#include "checks.h"

#include <string.h>

static void table_refused(const uint8_t *table, size_t length, uint32_t number, uint32_t position)
{
    static const uint8_t schedule[] = {0};
    static const uint8_t steps[4] = {9, 9, 9, 9};
    Lent lent = lend(table, length, schedule, 1, schedule, 1);
    check_refused(lent, number, position);
    run_refused(lent, number, position);
    ready_refused(lent, number, position);
    page_refused(lent, number, position);
    draw_refused(lent, number, position);
    pair_refused(lent, steps, number, position);
    same_refused(lent, number, position);
    prefix_refused(lent, number, position);
    route_refused(lent, number, position);
}

/* Table A with one byte replaced. */
static void changed_refused(size_t at, uint8_t byte, uint32_t number, uint32_t position)
{
    uint8_t table[TABLE_A];
    memcpy(table, table_a, sizeof table);
    table[at] = byte;
    table_refused(table, sizeof table, number, position);
}

void tables(void)
{
    uint8_t longer[TABLE_A + 1] = {0};
    memcpy(longer, table_a, sizeof table_a);
    check_refused(with(table_a, 0, table_a, 0), ORDER_ACCEPTED, 0);
    table_refused(table_a, 0, ORDER_REFUSED_SHORT_TABLE, 0);
    table_refused(table_a, 3, ORDER_REFUSED_SHORT_TABLE, 0);
    changed_refused(0, 2, ORDER_REFUSED_EDITION, 0);
    changed_refused(1, 0, ORDER_REFUSED_COUNT, 0);
    changed_refused(1, 9, ORDER_REFUSED_COUNT, 0);
    changed_refused(2, 9, ORDER_REFUSED_COUNT, 0);
    changed_refused(3, 9, ORDER_REFUSED_COUNT, 0);
    table_refused(table_a, 11, ORDER_REFUSED_DIRECTORY, 0);
    changed_refused(4, 13, ORDER_REFUSED_DIRECTORY, 0);
    changed_refused(6, 33, ORDER_REFUSED_DIRECTORY, 0);
    /* (i) */
    table_refused(table_a, 43, ORDER_REFUSED_TABLE_END, 0);
    changed_refused(12, 255, ORDER_REFUSED_KIND, 12);
    changed_refused(12, 12, ORDER_REFUSED_KIND, 12);
    table_refused(longer, sizeof longer, ORDER_REFUSED_TABLE_END, 0);
    changed_refused(13, 8, ORDER_REFUSED_RANGE, 12);
    /* (j) */
    changed_refused(39, 0, ORDER_REFUSED_RANGE, 36);
    changed_refused(40, 1, ORDER_REFUSED_LISTED, 36);
    changed_refused(41, 1, ORDER_REFUSED_UNUSED, 36);
    changed_refused(15, 1, ORDER_REFUSED_UNUSED, 12);
}
