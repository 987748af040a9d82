/* The entries of the proved archive, for C: link libpoelvigu.a (`rt lib` in crates/poelvigu writes it to
 * crates/poelvigu/out). A slice is a pointer and then a length. Any lengths and any bytes may be given; the slices lent to one call
 * are apart from one another, and no pointer is kept. */
#ifndef POELVIGU_H
#define POELVIGU_H

#include <stddef.h>
#include <stdint.h>

#ifdef __cplusplus
extern "C" {
#endif

/* The places of the numbers that `poelvigu_lower` and `poelvigu_lower_with` answer. */
enum poelvigu_answer {
    POELVIGU_NUMBER,           /* 0, or the number of the refusal: enum poelvigu_refusal */
    POELVIGU_OFFSET,           /* of the refusal */
    POELVIGU_RESULT,           /* 1 where anything was rewritten */
    POELVIGU_BUILDS,
    POELVIGU_EXTRACTS,
    POELVIGU_INSERTS,
    POELVIGU_ASSIGNS,
    POELVIGU_MATERIALIZATIONS,
    POELVIGU_REASON,           /* the shelf reason, 0 to 5 */
    POELVIGU_LENGTH,           /* of the rewritten routine */
    POELVIGU_ANSWERS,          /* so many of `poelvigu_lower` */
    POELVIGU_PAGE_LENGTH = POELVIGU_ANSWERS, /* of `poelvigu_lower_with` alone: 0, no page is made yet */
    POELVIGU_ANSWERS_WITH      /* so many of `poelvigu_lower_with` */
};

/* The places of the choices that `poelvigu_lower_with` takes. A flag is on when it is not 0; a choice that is missing at the end
 * has its default, and further ones are not read. */
enum poelvigu_choice {
    POELVIGU_TUPLES,           /* enable_tuples, a flag: 1 where missing */
    POELVIGU_STRUCTS,          /* enable_structs, a flag: 1 where missing */
    POELVIGU_MOST,             /* max_aggregate_size: 8 where missing; above 16 refused */
    POELVIGU_EDITION,          /* 2 is edition 2, any other number edition 1, and so is a missing one */
    POELVIGU_SWEEP,            /* this and the next two are not read yet */
    POELVIGU_JOINS,
    POELVIGU_PAGE,
    POELVIGU_CHOICES
};

/* Why a call is refused. The offset of 1 to 9 is that of the field; it is 0 from 10 on. */
enum poelvigu_refusal {
    POELVIGU_ACCEPTED,
    POELVIGU_ENDS,             /* 1: the bytes end inside a field */
    POELVIGU_PASSES_MOST,      /* 2: a count passes its most */
    POELVIGU_UNDEFINED,        /* 3: a kind, operation, boolean or bit is not defined */
    POELVIGU_TOO_HIGH,         /* 4: a type, value or block number is too high */
    POELVIGU_TYPE_TWICE,       /* 5: a type, or a field name of a struct, stands twice */
    POELVIGU_VALUE_TWICE,      /* 6: a value is defined twice */
    POELVIGU_LATE_PHI,         /* 7: a Phi stands after another kind */
    POELVIGU_CALL_COUNTS,      /* 8: a Call has other counts of dests and return types */
    POELVIGU_BYTES_LEFT,       /* 9: bytes go on after the last block */
    POELVIGU_ARRAY_COUNT,      /* 10: an array would be built again with another count of elements than its type has */
    POELVIGU_OUTPUT_TOO_LONG,  /* 11: the output is longer than the lent buffer */
    POELVIGU_MOST_ABOVE_16,    /* 12: max_aggregate_size is above 16 */
    POELVIGU_LOOPED = 14,      /* 14, edition 2: a value would be built again inside itself */
    POELVIGU_OVERFULL          /* 15, edition 2: the next value or a block's instructions would pass 65,535 */
};

/* Whether the bytes are a routine: 0 and offset 0, or the number of the refusal and its offset. */
uint8_t poelvigu_check(const uint8_t *input, size_t input_len, uint64_t *offset);

/* Rewrites the routine in `input` into `output`. A flag is on when it is not 0; `most` above 16 is refused. A refusal leaves
 * the output as it was; else the routine stands from its first byte on and the bytes behind it stay. As many of the
 * POELVIGU_ANSWERS numbers are written as `answer_len` has room for. A routine with neither shelf reason 1 nor 2 comes out with
 * neither, and one without reason 1 without it; that a second run, over what came out, keeps shelf reason 0 is not promised. */
void poelvigu_lower(const uint8_t *input, size_t input_len, uint8_t *output, size_t output_len, uint64_t tuples,
                    uint64_t structs, uint64_t most, uint64_t *answer, size_t answer_len);

/* The same under choices by place, enum poelvigu_choice, and with one number more. `page` stays as it is: no page is made
 * yet. Without choices it does what `poelvigu_lower` does under 1, 1 and 8. In both editions what `poelvigu_lower` promises of
 * shelf reasons 1 and 2 holds, and no more is promised of a second run. */
void poelvigu_lower_with(const uint8_t *input, size_t input_len, uint8_t *output, size_t output_len, uint8_t *page,
                         size_t page_len, const uint64_t *choices, size_t choices_len, uint64_t *answer, size_t answer_len);

#ifdef __cplusplus
}
#endif

#endif
