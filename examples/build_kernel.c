/*
 * Builds a kernel that counts Rax down to 0, prints its bytes, and runs it from 3, to its end and under a limit. Then
 * tries to begin another with a scale that there is not.
 */
#include <inttypes.h>
#include <stdio.h>

#include "pokchrei.h"

/* While Rax differs from 0, Sub64 Rax 1. Answers 0, or the number of the first refusal. */
static uint8_t build(pokchrei_build *kernel, uint8_t *buffer, size_t room)
{
    pokchrei_operand rax = pokchrei_reg(POKCHREI_RAX);
    uint8_t refusal;

    pokchrei_build_begin(kernel);
    refusal = pokchrei_build_open_while(kernel, buffer, room, pokchrei_compare(POKCHREI_O_NE, rax, pokchrei_const(0)));
    if (refusal != 0)
        return refusal;
    refusal = pokchrei_build_add(kernel, buffer, room, pokchrei_two(POKCHREI_SUB64, rax, pokchrei_const(1)));
    if (refusal != 0)
        return refusal;
    return pokchrei_build_close(kernel, buffer, room);
}

static uint8_t run(const uint8_t *code, size_t length, uint64_t regs[16], uint32_t fuel, uint64_t limit,
                   uint64_t *steps)
{
    /* No cells: C asks for pointers all the same. */
    uint64_t no_addresses[1] = {0}, no_values[1] = {0};
    uint8_t no_tags[1] = {0};
    uint32_t xmms[64] = {0};
    uint64_t flags = 0;
    uint8_t number, marked, opened;
    size_t place, mark;

    return pokchrei_run(code, length, no_addresses, 0, no_tags, 0, no_values, 0, regs, xmms, &flags, 0, fuel, limit,
                        POKCHREI_BASE, &number, &place, steps, &marked, &mark, &opened);
}

int main(void)
{
    uint8_t buffer[64];
    uint64_t regs[16] = {[POKCHREI_RAX] = 3};
    uint64_t steps;
    pokchrei_build kernel;

    uint8_t refusal = build(&kernel, buffer, sizeof buffer);
    if (refusal != 0) {
        fprintf(stderr, "refused %u\n", refusal);
        return 1;
    }
    if (!pokchrei_build_finished(&kernel))
        return 1;
    for (size_t i = 0; i < kernel.length; i++)
        printf("%02x%c", buffer[i], i + 1 < kernel.length ? ' ' : '\n');
    if (run(buffer, kernel.length, regs, 4, POKCHREI_LARGEST_LIMIT, &steps) != POKCHREI_DONE)
        return 1;
    printf("done\nsteps %" PRIu64 "\nRax %" PRIu64 "\n", steps, regs[POKCHREI_RAX]);

    regs[POKCHREI_RAX] = 3;
    if (run(buffer, kernel.length, regs, 4, 5, &steps) != POKCHREI_STOPPED)
        return 1;
    printf("stopped\nsteps %" PRIu64 "\nRax %" PRIu64 "\n", steps, regs[POKCHREI_RAX]);

    pokchrei_build_begin(&kernel);
    pokchrei_operand by_3 = pokchrei_mindex(POKCHREI_RBX, 3, POKCHREI_RCX, 0);
    refusal = pokchrei_build_add(&kernel, buffer, sizeof buffer, pokchrei_one(POKCHREI_MUL64, by_3));
    printf("scale 3: refused %u\n", refusal);
    return 0;
}
