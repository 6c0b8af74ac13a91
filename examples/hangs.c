/*
 * Where the fill word decides the end: a kernel subtracts, which leaves the fill word in the flags, and then adds carry to
 * Rax. Under the fill words 0 and 1 it ends with two different Rax, and the watch has the place of what added. With an
 * Add64 in between, which sets carry by its own sum, one end is promised. The program fails where a watch is not so, and
 * where an unmarked one's promise is not kept.
 */
#include <inttypes.h>
#include <stdio.h>
#include <string.h>

#include "pokchrei.h"

/* What is compared: registers, and the watch. */
typedef struct end {
    uint64_t regs[16];
    uint8_t marked;
    size_t mark;
    uint8_t opened;
} end;

/* A block of Sub64 Rbx, 1, with `closes` Add64 Rbx, 0, and Adcx64 Rax, 0. Answers 0 where each call is taken. */
static uint8_t build(pokchrei_build *kernel, uint8_t *buffer, size_t room, int closes)
{
    pokchrei_operand rax = pokchrei_reg(POKCHREI_RAX), rbx = pokchrei_reg(POKCHREI_RBX);
    uint8_t refusals = 0;

    pokchrei_build_begin(kernel);
    refusals |= pokchrei_build_open_block(kernel, buffer, room);
    refusals |= pokchrei_build_add(kernel, buffer, room, pokchrei_two(POKCHREI_SUB64, rbx, pokchrei_const(1)));
    if (closes)
        refusals |= pokchrei_build_add(kernel, buffer, room, pokchrei_two(POKCHREI_ADD64, rbx, pokchrei_const(0)));
    refusals |= pokchrei_build_add(kernel, buffer, room, pokchrei_two(POKCHREI_ADCX64, rax, pokchrei_const(0)));
    refusals |= pokchrei_build_close(kernel, buffer, room);
    return refusals;
}

/* Runs code from Rax 7 and Rbx 1, with no cells. Answers whether it is done. */
static int run(const uint8_t *code, size_t length, uint64_t fill, end *last)
{
    static const uint64_t no_addresses[1];
    static const uint8_t no_tags[1];
    uint64_t no_values[1] = {0}, flags = 0, steps;
    uint32_t xmms[64] = {0};
    uint8_t number;
    size_t place;

    memset(last->regs, 0, sizeof last->regs);
    last->regs[POKCHREI_RAX] = 7;
    last->regs[POKCHREI_RBX] = 1;
    return pokchrei_run(code, length, no_addresses, 0, no_tags, 0, no_values, 0, last->regs, xmms, &flags, fill, 0,
                        POKCHREI_LARGEST_LIMIT, POKCHREI_BASE, &number, &place, &steps, &last->marked, &last->mark,
                        &last->opened) == POKCHREI_DONE;
}

static void print_end(uint64_t fill, const end *last)
{
    printf("fill %" PRIu64 ": Rax %" PRIu64 ", ", fill, last->regs[POKCHREI_RAX]);
    if (last->marked)
        printf("marked at %zu, ", last->mark);
    else
        printf("unmarked, ");
    printf("carry %s, overflow %s\n", last->opened & POKCHREI_OPEN_CARRY ? "open" : "closed",
           last->opened & POKCHREI_OPEN_OVERFLOW ? "open" : "closed");
}

/* What an unmarked watch promises of the registers and of itself. */
static int keeps_promise(const end *first, const end *second)
{
    return first->marked || (!second->marked && first->opened == second->opened &&
                             memcmp(first->regs, second->regs, sizeof first->regs) == 0);
}

int main(void)
{
    for (int closes = 0; closes <= 1; closes++) {
        uint8_t buffer[64];
        pokchrei_build kernel;
        end ends[2];

        if (build(&kernel, buffer, sizeof buffer, closes) != 0)
            return 1;
        puts(closes ? "Sub64, Add64, Adcx64" : "Sub64, Adcx64");
        for (uint64_t fill = 0; fill <= 1; fill++) {
            if (!run(buffer, kernel.length, fill, &ends[fill]))
                return 1;
            print_end(fill, &ends[fill]);
        }
        if (ends[0].marked == closes || !keeps_promise(&ends[0], &ends[1]))
            return 1;
    }
    return 0;
}
