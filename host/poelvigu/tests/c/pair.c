/* Document 01's example through the entries as poelvigu.h declares them: prints the seven numbers and the rewritten
 * routine, then what becomes of a part of the bytes; ends with 0 where all is as it should be. */
#include <inttypes.h>
#include <stdio.h>
#include <string.h>

#include "poelvigu.h"

/* A tuple of 7 and 8 is built, and its part 1 is returned. */
static const uint8_t pair[] = {
    2, 0, 0, 3, 2, 0, 0, 0, 0, 2, 0, 1, 0, 0, 0, 0, 3, 1, 0, 0, 0, 2, 0, 0, 10, 0, 0, 2, 0, 7,
    0, 0, 0, 0, 8, 0, 0, 0, 0, 11, 1, 0, 3, 0, 0, 1, 0, 0, 0, 0, 0, 3, 1, 3, 1, 0,
};

int main(void) {
    uint8_t output[100];
    uint64_t answer[POELVIGU_ANSWERS];
    uint64_t offset = 1;
    size_t i;

    memset(output, 0x5a, sizeof output);
    poelvigu_lower(pair, sizeof pair, output, sizeof output, 1, 1, 8, answer, POELVIGU_ANSWERS);
    if (answer[POELVIGU_NUMBER] != 0)
        return 1;
    for (i = POELVIGU_RESULT; i <= POELVIGU_REASON; i++)
        printf("%" PRIu64 "%c", answer[i], i == POELVIGU_REASON ? '\n' : ' ');
    for (i = 0; i < answer[POELVIGU_LENGTH]; i++)
        printf("%02x", output[i]);
    printf("\n");
    if (poelvigu_check(output, answer[POELVIGU_LENGTH], &offset) != 0 || offset != 0)
        return 2;
    for (; i < sizeof output; i++)
        if (output[i] != 0x5a)
            return 3;

    poelvigu_lower(pair, 55, output, sizeof output, 1, 1, 8, answer, POELVIGU_ANSWERS);
    printf("refused %" PRIu64 " %" PRIu64 "\n", answer[POELVIGU_NUMBER], answer[POELVIGU_OFFSET]);
    if (poelvigu_check(pair, 55, &offset) != answer[POELVIGU_NUMBER] || offset != answer[POELVIGU_OFFSET])
        return 4;
    poelvigu_lower(pair, sizeof pair, output, sizeof output, 1, 1, 17, answer, POELVIGU_ANSWERS);
    printf("refused %" PRIu64 " %" PRIu64 "\n", answer[POELVIGU_NUMBER], answer[POELVIGU_OFFSET]);
    return 0;
}
