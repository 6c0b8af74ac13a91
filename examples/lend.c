/* Lends one cell to a kernel that adds Rax to it, and prints the end. */
#include <inttypes.h>
#include <stdio.h>

#include "pokchrei.h"

static const char *const NAMES[16] = {"Rax", "Rbx", "Rcx", "Rdx", "Rsi", "Rdi", "Rbp", "Rsp",
                                      "R8",  "R9",  "R10", "R11", "R12", "R13", "R14", "R15"};

static void print_answer(uint8_t kind, uint8_t number, size_t place)
{
    switch (kind) {
    case POKCHREI_DONE:
        puts("done");
        break;
    case POKCHREI_FAULT:
        printf("fault %u at %zu\n", number, place);
        break;
    case POKCHREI_STOPPED:
        printf("stopped %u at %zu\n", number, place);
        break;
    case POKCHREI_SPENT:
        printf("spent at %zu\n", place);
        break;
    default:
        printf("refused %u at %zu\n", number, place);
    }
}

int main(void)
{
    /* Add64 of the cell at 4096 and Rax */
    static const uint8_t code[] = {0x02, 0x42, 0x00, 0x10, 0, 0, 0, 0, 0, 0, 0x41, 0x00};
    static const uint64_t addresses[] = {4096};
    static const uint8_t tags[] = {64};
    uint64_t values[] = {7};
    uint64_t regs[16] = {[POKCHREI_RAX] = 5};
    uint32_t xmms[64] = {0};
    uint64_t flags = 0, steps;
    uint8_t number, marked, opened;
    size_t place, mark;

    uint8_t kind = pokchrei_run(code, sizeof code, addresses, 1, tags, 1, values, 1, regs, xmms, &flags, 0, 0,
                                POKCHREI_LARGEST_LIMIT, POKCHREI_BASE, &number, &place, &steps, &marked, &mark, &opened);
    print_answer(kind, number, place);
    if (kind == POKCHREI_REFUSED)
        return 1;
    printf("steps %" PRIu64 "\n", steps);
    printf("flags %" PRIu64 "\n", flags);
    for (int i = 0; i < 16; i++)
        if (regs[i] != 0)
            printf("%s %" PRIu64 "\n", NAMES[i], regs[i]);
    printf("cell %" PRIu64 " %u %" PRIu64 "\n", addresses[0], tags[0], values[0]);
    return 0;
}
