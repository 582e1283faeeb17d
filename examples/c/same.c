/* Whether two other orders of a site are the same run as the first. The table is read from standard input. */
#include "order.h"

#include <stdio.h>

int main(void)
{
    static const uint8_t first[6] = {0, 0, 1, 1, 2, 2};
    static const uint8_t others[2][6] = {{2, 1, 0, 0, 1, 2}, {1, 1, 0, 0, 2, 2}};
    uint8_t table[ORDER_TABLE_MOST + 1]; /* a longer file is refused */
    size_t length = fread(table, 1, sizeof table, stdin);

    for (int i = 0; i < 2; i++) {
        OrderSame answer = order_same(table, length, first, sizeof first, others[i], sizeof others[i]);
        if (answer.refusal != ORDER_ACCEPTED) {
            printf("refused %u at %u\n", (unsigned)answer.refusal, (unsigned)answer.position);
            return 1;
        }
        const char *verdict = answer.verdict == ORDER_SAME ? "same" : "different";
        printf("%s, %u pairs compared\n", verdict, (unsigned)answer.pairs);
    }
    return 0;
}
