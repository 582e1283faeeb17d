/* The calls from C: document 01's cases (a) to (j) as far as calls show them, table A's pages, totals that run
 * over, drawn schedules, recordings that do not end together, the pairs that a verdict compares, Notes and the
 * journal, Locks taken twice, each refusal of each call, and `NULL, 0` for every slice. At a refusal every other field
 * is 0, and what was lent is compared byte for byte.
 * Usage: calls TABLE, a file with table A. Prints a line for each check that fails and ends with status 1 if
 * any did.
 */
#include "checks.h"

#include <stdio.h>

uint8_t table_a[TABLE_A];

/* Whether the file has table A's number of bytes, which are then in `table_a`. */
static int read_table_a(const char *path)
{
    FILE *file = fopen(path, "rb");
    if (file == NULL) {
        return 0;
    }
    size_t length = fread(table_a, 1, sizeof table_a, file);
    int whole = length == sizeof table_a && fgetc(file) == EOF && !ferror(file);
    fclose(file);
    return whole;
}

int main(int count, char **arguments)
{
    if (count != 2 || !read_table_a(arguments[1])) {
        fprintf(stderr, "usage: calls TABLE, a file with the %d bytes of table A\n", TABLE_A);
        return 2;
    }
    tables();
    stepping();
    lines();
    sums();
    draws();
    verdicts();
    recordings();
    compared();
    journal();
    locks();
    empty_slices();
    if (failures > 0) {
        printf("calls from C: %d checks failed\n", failures);
        return 1;
    }
    printf("calls from C: all checks hold\n");
    return 0;
}
