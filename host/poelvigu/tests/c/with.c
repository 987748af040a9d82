/* A tuple in a tuple, returned, in both editions, through the entry with choices as poelvigu.h declares it: prints the seven numbers
 * and the rewritten routine, and two refusals; ends with 0 where all is as it should be. */
#include <inttypes.h>
#include <stdio.h>
#include <string.h>

#include "poelvigu.h"

/* let inner = (1, 2); (inner, 3) */
static const uint8_t nested[] = {
    3, 0, 0, 3, 2, 0, 0, 0, 0, 3, 2, 1, 0, 0, 0, 2, 0, 1, 0, 0, 0, 0, 3, 1, 0, 2, 0, 2, 0, 0, 10,
    0, 0, 2, 0, 1, 0, 0, 0, 0, 2, 0, 0, 0, 0, 10, 1, 0, 2, 3, 0, 0, 0, 3, 0, 0, 0, 3, 1, 3, 1, 0,
};

/* let one = (one,); one */
static const uint8_t looped[] = {
    2, 0, 0, 3, 1, 0, 0, 1, 0, 1, 0, 0, 0, 0, 1, 1, 0, 1, 0, 0, 10, 0, 0, 1, 3, 0, 0, 3, 1, 3, 0, 0,
};

static uint8_t output[200];
static uint8_t page[7];
static uint64_t answer[POELVIGU_ANSWERS_WITH + 1];

static void call(const uint8_t *input, size_t length, const uint64_t *choices, size_t given, size_t room) {
    size_t i;
    memset(output, 0x5a, sizeof output);
    memset(page, 0x5a, sizeof page);
    for (i = 0; i <= POELVIGU_ANSWERS_WITH; i++)
        answer[i] = 77;
    poelvigu_lower_with(input, length, output, sizeof output, page, sizeof page, choices, given, answer, room);
}

/* Whether the page, the bytes behind the output and the numbers behind the answer are as they were. */
static int apart(size_t room) {
    size_t i;
    for (i = 0; i < sizeof page; i++)
        if (page[i] != 0x5a)
            return 0;
    for (i = room > POELVIGU_LENGTH ? answer[POELVIGU_LENGTH] : sizeof output; i < sizeof output; i++)
        if (output[i] != 0x5a)
            return 0;
    for (i = room; i <= POELVIGU_ANSWERS_WITH; i++)
        if (answer[i] != 77)
            return 0;
    return 1;
}

int main(void) {
    uint64_t choices[POELVIGU_CHOICES] = {1, 1, 8, 1, 9, 9, 9};
    uint64_t whole[POELVIGU_ANSWERS_WITH];
    size_t i, edition, room;

    for (edition = 1; edition <= 2; edition++) {
        choices[POELVIGU_EDITION] = edition;
        call(nested, sizeof nested, choices, POELVIGU_CHOICES, POELVIGU_ANSWERS_WITH);
        if (answer[POELVIGU_NUMBER] != POELVIGU_ACCEPTED || answer[POELVIGU_PAGE_LENGTH] != 0)
            return 1;
        for (i = POELVIGU_RESULT; i <= POELVIGU_REASON; i++)
            printf("%" PRIu64 "%c", answer[i], i == POELVIGU_REASON ? '\n' : ' ');
        for (i = 0; i < answer[POELVIGU_LENGTH]; i++)
            printf("%02x", output[i]);
        printf("\n");
        if (!apart(POELVIGU_ANSWERS_WITH))
            return 2;
        memcpy(whole, answer, sizeof whole);
        /* As many numbers as there is room for. */
        for (room = 0; room <= POELVIGU_ANSWERS_WITH; room++) {
            call(nested, sizeof nested, choices, POELVIGU_CHOICES, room);
            if (memcmp(whole, answer, room * sizeof *whole) != 0 || !apart(room))
                return 3;
        }
    }

    /* Missing choices have their defaults; the edition that stands there is edition 2. */
    for (i = 0; i <= POELVIGU_CHOICES; i++) {
        call(nested, sizeof nested, choices, i, POELVIGU_ANSWERS_WITH);
        if (answer[POELVIGU_MATERIALIZATIONS] != (i > POELVIGU_EDITION ? 2 : 1))
            return 4;
    }

    call(looped, sizeof looped, choices, POELVIGU_CHOICES, POELVIGU_ANSWERS_WITH);
    printf("refused %" PRIu64 " %" PRIu64 "\n", answer[POELVIGU_NUMBER], answer[POELVIGU_OFFSET]);
    if (answer[POELVIGU_NUMBER] != POELVIGU_LOOPED || !apart(POELVIGU_ANSWERS_WITH) || output[0] != 0x5a)
        return 5;
    choices[POELVIGU_MOST] = 17;
    call(looped, sizeof looped, choices, POELVIGU_CHOICES, POELVIGU_ANSWERS_WITH);
    printf("refused %" PRIu64 " %" PRIu64 "\n", answer[POELVIGU_NUMBER], answer[POELVIGU_OFFSET]);
    return answer[POELVIGU_NUMBER] == POELVIGU_MOST_ABOVE_16 ? 0 : 6;
}
