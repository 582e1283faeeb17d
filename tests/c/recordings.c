/* Two recordings: order_prefix on what both have, with bad entries before the cut and after it, and order_remainder by
 * its place in the caller's memory.
 */
#include "checks.h"

/* A remainder's numbers have all bits of a length; the compiler leaves room before them. */
_Static_assert(offsetof(OrderRemainder, from) == 8 && offsetof(OrderRemainder, length) == 16 &&
                   sizeof(OrderRemainder) == 24,
               "recording, four bytes without a use, from, length");

/* Recordings of table A; the last entry of a bad one is refused. */
static const uint8_t whole[] = {0, 0, 1, 1}, begun[] = {1, 0, 0}, other[] = {1, 0};
static const uint8_t absent[] = {0, 0, 7, 7}, done[] = {0, 0, 0, 7}, waits[] = {1, 0, 1, 7};

static void prefix_is(const uint8_t *first, size_t first_length, const uint8_t *second, size_t second_length,
                      uint32_t verdict, uint32_t compared)
{
    Lent lent = with(first, first_length, second, second_length);
    OrderSame answer = order_prefix(lent.table, lent.table_length, lent.first, lent.first_length, lent.second,
                                    lent.second_length);
    expect_number(answer.refusal, ORDER_ACCEPTED, "order_prefix", "the refusal");
    expect_number(answer.position, 0, "order_prefix", "the position");
    expect_number(answer.verdict, verdict, "order_prefix", "the verdict");
    expect_number(answer.pairs, compared, "order_prefix", "the pairs compared");
    expect_kept(&lent, 0, 0, "order_prefix");
}

/* Entry 2 of `bad` is refused: where it is the last before the cut, in either recording and in the longer or the
 * shorter; not where it is the first after the cut. order_same refuses it there.
 */
static void bad_entry(const uint8_t bad[4], uint32_t number, uint32_t second)
{
    static const size_t lengths[][2] = {{3, 3}, {4, 3}, {3, 4}};
    for (size_t i = 0; i < 3; i++) {
        size_t bads = lengths[i][0], wholes = lengths[i][1];
        prefix_refused(with(bad, bads, whole, wholes), number, 2);
        prefix_refused(with(whole, wholes, bad, bads), second, 2);
    }
    for (size_t length = 3; length <= 4; length++) {
        prefix_is(bad, length, bad, 2, ORDER_SAME, 1);
        prefix_is(bad, 2, bad, length, ORDER_SAME, 1);
        same_refused(with(bad, length, bad, 2), number, 2);
        same_refused(with(bad, 2, bad, length), second, 2);
    }
}

static void prefixes(void)
{
    prefix_is(whole, 4, begun, 3, ORDER_SAME, 3);
    prefix_is(begun, 3, whole, 4, ORDER_SAME, 3);
    prefix_is(whole, 4, other, 2, ORDER_DIFFERENT, 0);
    prefix_is(other, 2, whole, 4, ORDER_DIFFERENT, 0);
    prefix_is(whole, 3, begun, 3, ORDER_SAME, 3);
    prefix_is(whole, 2, begun, 2, ORDER_DIFFERENT, 0);
    prefix_is(absent, 0, absent, 4, ORDER_SAME, 0);
    prefix_is(absent, 4, absent, 0, ORDER_SAME, 0);
    bad_entry(absent, ORDER_REFUSED_NO_ACTOR, ORDER_REFUSED_SECOND_NO_ACTOR);
    bad_entry(done, ORDER_REFUSED_FINISHED, ORDER_REFUSED_SECOND_FINISHED);
    bad_entry(waits, ORDER_REFUSED_NOT_READY, ORDER_REFUSED_SECOND_NOT_READY);
    /* The second part is refused before the first's remainder would be. */
    prefix_refused(with(absent, 3, absent + 2, 1), ORDER_REFUSED_SECOND_NO_ACTOR, 0);
    same_refused(with(absent, 3, absent + 2, 1), ORDER_REFUSED_NO_ACTOR, 2);
}

/* The remainder is of `recording` and begins at `begin`, in the caller's memory. */
static void left(const uint8_t *first, size_t first_length, const uint8_t *second, size_t second_length,
                 uint32_t recording, const uint8_t *begin, size_t length)
{
    OrderRemainder answer = order_remainder(first, first_length, second, second_length);
    const uint8_t *of = answer.recording == ORDER_FIRST ? first : second;
    expect_number(answer.recording, recording, "order_remainder", "the recording");
    expect_number(answer.length, length, "order_remainder", "the length");
    if (of == NULL) {
        expect_number(answer.from, 0, "order_remainder", "the begin");
    } else {
        expect(of + answer.from == begin, "order_remainder", "it begins elsewhere");
    }
}

static void remainders(void)
{
    left(whole, 4, begun, 3, ORDER_FIRST, whole + 3, 1);
    left(begun, 3, whole, 4, ORDER_SECOND, whole + 3, 1);
    left(whole, 4, begun, 0, ORDER_FIRST, whole, 4);
    left(begun, 0, whole, 4, ORDER_SECOND, whole, 4);
    /* Equal lengths: the end of the first. */
    left(whole, 3, begun, 3, ORDER_FIRST, whole + 3, 0);
    left(begun, 3, whole, 3, ORDER_FIRST, begun + 3, 0);
    left(whole, 0, begun, 0, ORDER_FIRST, whole, 0);
    /* One slice twice, and slices that overlap. */
    left(whole, 4, whole, 4, ORDER_FIRST, whole + 4, 0);
    left(whole, 3, whole + 1, 3, ORDER_FIRST, whole + 3, 0);
    left(whole + 1, 3, whole, 3, ORDER_FIRST, whole + 4, 0);
    left(whole, 4, whole + 2, 2, ORDER_FIRST, whole + 2, 2);
    left(whole + 2, 2, whole, 4, ORDER_SECOND, whole + 2, 2);
    /* No pointer where there is no entry. */
    left(whole, 4, NULL, 0, ORDER_FIRST, whole, 4);
    left(NULL, 0, whole, 4, ORDER_SECOND, whole, 4);
    left(NULL, 0, whole, 0, ORDER_FIRST, NULL, 0);
    left(whole, 0, NULL, 0, ORDER_FIRST, whole, 0);
    left(NULL, 0, NULL, 0, ORDER_FIRST, NULL, 0);
}

void recordings(void)
{
    prefixes();
    remainders();
}
