/*
 * Adds 1 by both evaluations: to 1, from flags in which overflow is set, and to the largest signed number. A number that
 * is no evaluation is refused.
 */
#include <inttypes.h>
#include <stdio.h>

#include "pokchrei.h"

static void print_end(uint8_t evaluation, uint64_t rax, uint64_t flags)
{
    static const char *const NAMES[] = {"base", "board", "neither"};
    static const uint64_t no_addresses[1];
    static const uint8_t no_tags[1];
    /* Add64 Rax, 1 */
    static const uint8_t code[] = {0x02, 0x41, 0x00, 0x40, 1, 0, 0, 0, 0, 0, 0, 0};
    uint64_t no_values[1] = {0}, regs[16] = {[POKCHREI_RAX] = rax}, steps;
    uint32_t xmms[64] = {0};
    uint8_t number, marked, opened;
    size_t place, mark;

    uint8_t kind = pokchrei_run(code, sizeof code, no_addresses, 0, no_tags, 0, no_values, 0, regs, xmms, &flags, 0, 0,
                                POKCHREI_LARGEST_LIMIT, evaluation, &number, &place, &steps, &marked, &mark, &opened);
    printf("%s: ", NAMES[evaluation]);
    if (kind == POKCHREI_DONE)
        printf("Rax %" PRIu64 ", flags %" PRIu64 "\n", regs[POKCHREI_RAX], flags);
    else
        printf("%s %u at %zu\n", kind == POKCHREI_REFUSED ? "refused" : "not done", number, place);
}

int main(void)
{
    for (uint8_t evaluation = POKCHREI_BASE; evaluation <= POKCHREI_BOARD; evaluation++) {
        print_end(evaluation, 1, 2048);
        print_end(evaluation, INT64_MAX, 0);
    }
    print_end(POKCHREI_BOARD + 1, 1, 2048);
    return 0;
}
