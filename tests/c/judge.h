/* How the C tests judge the calls' answers, and the memory that they lend. */
#include "gdp.h"

#include <stdio.h>
#include <stdlib.h>
#include <string.h>

static unsigned passed, failed;

static void judge(int right, const char *call, unsigned number, unsigned wanted) {
    if (right && number == wanted) {
        passed++;
        return;
    }
    failed++;
    if (failed <= 20) /* one fault makes many */
        fprintf(stderr, "%s gave %u and should give %u%s.\n", call, number, wanted,
                right ? "" : "; value, state or lent memory are not as they should be");
}

/* Says how many calls were judged, and answers the exit status. */
static int judged(void) {
    printf("%u calls answered as they should, %u not\n", passed, failed);
    return failed > 0;
}

/* Memory of exactly so many bytes, so that a checker sees any step past its end; none at all is the null pointer. */
static uint8_t *lent(size_t length) {
    uint8_t *bytes = length ? malloc(length) : NULL;
    if (length && !bytes) {
        fprintf(stderr, "There is no memory for the test.\n");
        exit(1);
    }
    for (size_t i = 0; i < length; i++)
        bytes[i] = (uint8_t)(37 * i + 11);
    return bytes;
}

/* Whether such memory is as it was, from one place up to another. */
static int as_lent(const uint8_t *bytes, size_t from, size_t to) {
    for (size_t i = from; i < to; i++)
        if (bytes[i] != (uint8_t)(37 * i + 11))
            return 0;
    return 1;
}
