/* How many pairs of entries order_same and order_prefix compare. */
#include "checks.h"

/* Four actors with a Send each. Actors 0 and 3 post to mailbox 0 and actors 1 and 2 to mailbox 1; or all to one. */
static const uint8_t apart[] = {
    1,  4, 2, 0, 20, 0, 1, 0, 28, 0, 1, 0, 36, 0, 1, 0, 44, 0, 1, 0, 3, 0, 0, 0, 0, 0,
    0,  0, 3, 1, 0,  0, 0, 0, 0,  0, 3, 1, 0,  0, 0, 0, 0,  0, 3, 0, 0, 0, 0, 0, 0, 0,
};
static const uint8_t together[] = {
    1,  4, 1, 0, 20, 0, 1, 0, 28, 0, 1, 0, 36, 0, 1, 0, 44, 0, 1, 0, 3, 0, 0, 0, 0, 0,
    0,  0, 3, 0, 0,  0, 0, 0, 0,  0, 3, 0, 0,  0, 0, 0, 0,  0, 3, 0, 0, 0, 0, 0, 0, 0,
};

static const uint8_t first[] = {0, 1, 2, 3};

static void expect_answer(OrderSame answer, uint32_t verdict, uint32_t pairs, const char *call)
{
    expect_number(answer.refusal, ORDER_ACCEPTED, call, "the refusal");
    expect_number(answer.position, 0, call, "the position");
    expect_number(answer.verdict, verdict, call, "the verdict");
    expect_number(answer.pairs, pairs, call, "the pairs compared");
}

/* Schedules of equal lengths, by both calls; and with an entry more that order_prefix leaves out. */
static void both_say(const uint8_t *table, size_t length, const uint8_t *one, const uint8_t *other, size_t entries,
                     uint32_t verdict, uint32_t pairs)
{
    Lent lent = lend(table, length, one, entries, other, entries);
    OrderSame answer = order_same(lent.table, lent.table_length, lent.first, entries, lent.second, entries);
    expect_answer(answer, verdict, pairs, "order_same");
    answer = order_prefix(lent.table, lent.table_length, lent.first, entries, lent.second, entries);
    expect_answer(answer, verdict, pairs, "order_prefix");
    answer = order_prefix(lent.table, lent.table_length, lent.first, entries, lent.second, entries + 1);
    expect_answer(answer, verdict, pairs, "order_prefix of a longer second");
    answer = order_prefix(lent.table, lent.table_length, lent.first, entries + 1, lent.second, entries);
    expect_answer(answer, verdict, pairs, "order_prefix of a longer first");
    expect_kept(&lent, 0, 0, "pairs compared");
}

/* The first pair in opposite orders at each place, in turn 01, 02, 12, 03, 13, 23, and others after it. */
static void each_pair(void)
{
    static const uint8_t seconds[][4] = {
        {1, 0, 3, 2}, {2, 0, 1, 3}, {3, 0, 2, 1}, {3, 0, 1, 2}, {0, 3, 1, 2}, {0, 1, 3, 2},
    };
    for (uint32_t i = 0; i < 6; i++) {
        both_say(together, sizeof together, first, seconds[i], 4, ORDER_DIFFERENT, i + 1);
    }
    both_say(together, sizeof together, first, first, 4, ORDER_SAME, 6);
    both_say(together, sizeof together, first, seconds[0], 2, ORDER_DIFFERENT, 1);
    both_say(together, sizeof together, first, seconds[0], 0, ORDER_SAME, 0);
    both_say(together, sizeof together, first, first, 1, ORDER_SAME, 0);
    both_say(together, sizeof together, first, first, 2, ORDER_SAME, 1);
}

/* Independent pairs in opposite orders are compared and do not end the search. The later entry decides which pair
 * comes first; of the entries of the other schedule it is another pair.
 */
static void among_others(void)
{
    static const uint8_t back[] = {3, 2, 1, 0}, front[] = {3, 0, 1, 2}, exchanged[] = {1, 0, 3, 2};
    both_say(apart, sizeof apart, first, back, 4, ORDER_DIFFERENT, 3);
    both_say(apart, sizeof apart, back, first, 4, ORDER_DIFFERENT, 3);
    both_say(apart, sizeof apart, first, front, 4, ORDER_DIFFERENT, 4);
    both_say(apart, sizeof apart, front, first, 4, ORDER_DIFFERENT, 1);
    both_say(apart, sizeof apart, first, exchanged, 4, ORDER_SAME, 6);
}

/* Other steps and other lengths: nothing is compared, whatever the two have in common. */
static void nothing_compared(void)
{
    static const uint8_t one[] = {0, 1, 2}, other[] = {1, 0, 3};
    both_say(together, sizeof together, one, other, 3, ORDER_DIFFERENT, 0);
    Lent lent = lend(together, sizeof together, one, 3, other, 2);
    expect_answer(order_same(lent.table, lent.table_length, lent.first, 3, lent.second, 2), ORDER_DIFFERENT, 0,
                  "order_same of other lengths");
    expect_answer(order_same(lent.table, lent.table_length, lent.second, 2, lent.first, 3), ORDER_DIFFERENT, 0,
                  "order_same of other lengths");
    expect_answer(order_same(lent.table, lent.table_length, lent.first, 3, lent.first, 2), ORDER_DIFFERENT, 0,
                  "order_same of other lengths");
    expect_answer(order_prefix(lent.table, lent.table_length, lent.first, 3, lent.second, 2), ORDER_DIFFERENT, 1,
                  "order_prefix of other lengths");
}

/* Eight actors with 32 Sends to one mailbox each: two neighbours of 256 entries in the other order. */
static void longest(void)
{
    static uint8_t table[ORDER_TABLE_MOST] = {1, 8, 1, 0};
    static uint8_t one[ORDER_SCHEDULE_MOST], other[ORDER_SCHEDULE_MOST];
    static const struct {
        size_t k;
        uint32_t pairs;
    } places[] = {{0, 1}, {1, 3}, {127, 8256}, {253, 32385}, {254, 32640}};
    for (size_t actor = 0; actor < 8; actor++) {
        size_t offset = 36 + actor * 256;
        table[4 + 4 * actor] = (uint8_t)offset;
        table[5 + 4 * actor] = (uint8_t)(offset >> 8);
        table[6 + 4 * actor] = 32;
    }
    for (size_t entry = 0; entry < ORDER_SCHEDULE_MOST; entry++) {
        table[36 + 8 * entry] = 3;
        one[entry] = other[entry] = (uint8_t)(entry % 8);
    }
    expect_answer(order_same(table, sizeof table, one, sizeof one, other, sizeof other), ORDER_SAME, 32640,
                  "order_same of 256 entries");
    for (size_t i = 0; i < sizeof places / sizeof places[0]; i++) {
        size_t k = places[i].k;
        other[k] = one[k + 1];
        other[k + 1] = one[k];
        expect_answer(order_same(table, sizeof table, one, sizeof one, other, sizeof other), ORDER_DIFFERENT,
                      places[i].pairs, "order_same of 256 entries");
        expect_answer(order_prefix(table, sizeof table, one, sizeof one, other, sizeof other), ORDER_DIFFERENT,
                      places[i].pairs, "order_prefix of 256 entries");
        other[k] = one[k];
        other[k + 1] = one[k + 1];
    }
}

void compared(void)
{
    each_pair();
    among_others();
    nothing_compared();
    longest();
}
