/* The ready answer, the page and the draw: every field, what is written to the byte, and the rest of what was lent as
 * it was.
 */
#include "checks.h"

#include <string.h>

void ready_is(Lent lent, uint32_t mask, uint32_t count, uint32_t ending)
{
    OrderReady answer = order_ready(lent.table, lent.table_length, lent.first, lent.first_length);
    expect_number(answer.refusal, ORDER_ACCEPTED, "order_ready", "the refusal");
    expect_number(answer.position, 0, "order_ready", "the position");
    expect_number(answer.mask, mask, "order_ready", "the mask");
    expect_number(answer.count, count, "order_ready", "the count");
    expect_number(answer.ending, ending, "order_ready", "the ending");
    expect_kept(&lent, 0, 0, "order_ready");
}

void page_is(Lent lent, const char *page)
{
    OrderPage answer = order_page(lent.table, lent.table_length, lent.first, lent.first_length, lent.bytes,
                                  lent.bytes_length);
    size_t length = strlen(page);
    expect_number(answer.refusal, ORDER_ACCEPTED, "order_page", "the refusal");
    expect_number(answer.position, 0, "order_page", "the position");
    expect_number(answer.length, (uint32_t)length, "order_page", "the page's length");
    expect(memcmp(lent.bytes, page, length) == 0, "order_page", "the page is another");
    expect_kept(&lent, length, 0, "order_page");
}

void draw_is(Lent lent, uint32_t seed, const uint8_t *schedule, size_t length, uint32_t ending)
{
    OrderDraw answer = order_draw(lent.table, lent.table_length, seed, lent.bytes, lent.bytes_length);
    expect_number(answer.refusal, ORDER_ACCEPTED, "order_draw", "the refusal");
    expect_number(answer.position, 0, "order_draw", "the position");
    expect_number(answer.length, (uint32_t)length, "order_draw", "the schedule's length");
    expect(memcmp(lent.bytes, schedule, length) == 0, "order_draw", "the schedule is another");
    expect_kept(&lent, length, 0, "order_draw");

    OrderReady end = order_ready(lent.table, lent.table_length, lent.bytes, length);
    expect_number(end.refusal, ORDER_ACCEPTED, "order_ready of a drawn schedule", "the refusal");
    expect_number(end.ending, ending, "order_ready of a drawn schedule", "the ending");
}
