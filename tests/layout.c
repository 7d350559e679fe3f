/*
 * The structs of include/ladlewillow.h as a C compiler lays them out: each size and offset is printed, and is the one that
 * `repr(C)` gives in the library (8-byte size_t). Then one call that hands all of them over.
 */
#include <stdio.h>
#include "ladlewillow.h"

/* An image of the smallest chip, all zero: the sum that it stores is 0, which is not the sum of its map. */
#define SMALLEST 0x20000
static uint8_t image[SMALLEST];

#define SIZE(type, want) \
    _Static_assert(sizeof(type) == (want), "size of " #type); \
    printf("size %s %zu\n", #type, sizeof(type))
#define ALIGN(type, want) \
    _Static_assert(_Alignof(type) == (want), "alignment of " #type); \
    printf("align %s %zu\n", #type, _Alignof(type))
#define OFFSET(type, field, want) \
    _Static_assert(offsetof(type, field) == (want), "offset of " #type "." #field); \
    printf("offset %s.%s %zu\n", #type, #field, offsetof(type, field))

int main(void)
{
    SIZE(lw_block, 3);
    ALIGN(lw_block, 1);
    OFFSET(lw_block, physical, 0);
    OFFSET(lw_block, count, 1);
    OFFSET(lw_block, condition, 2);
    SIZE(lw_mapping, 2824);
    ALIGN(lw_mapping, 8);
    OFFSET(lw_mapping, len, 0);
    OFFSET(lw_mapping, blocks, 8);
    OFFSET(lw_mapping, tickets, 776);
    SIZE(lw_answer, 16);
    ALIGN(lw_answer, 8);
    OFFSET(lw_answer, number, 0);
    OFFSET(lw_answer, place, 8);
    SIZE(lw_outcome, 2840);
    ALIGN(lw_outcome, 8);
    OFFSET(lw_outcome, answer, 0);
    OFFSET(lw_outcome, mapping, 16);

    lw_outcome opened = lw_open(image, sizeof image);
    printf("open %u %zu\n", (unsigned)opened.answer.number, opened.answer.place);
    if (opened.answer.number != 2 || opened.answer.place != 0) {
        fputs("layout: 2 0 was expected of a zeroed image\n", stderr);
        return 1;
    }
    return 0;
}
