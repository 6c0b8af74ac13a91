/*
 * How much fuel a kernel needs: one that counts Rax down to 0, from 3. Finds the least fuel at or below a cap, also under one
 * that is too low, and under a limit, and holds each to runs with that fuel and with one less. The program fails where they differ.
 */
#include <inttypes.h>
#include <stdio.h>
#include <string.h>

#include "pokchrei.h"

/* While Rax differs from 0, Sub64 Rax 1. Answers 0 where each call is taken. */
static uint8_t build(pokchrei_build *kernel, uint8_t *buffer, size_t room)
{
    pokchrei_operand rax = pokchrei_reg(POKCHREI_RAX);
    pokchrei_record not_zero = pokchrei_compare(POKCHREI_O_NE, rax, pokchrei_const(0));
    uint8_t refusals = 0;

    pokchrei_build_begin(kernel);
    refusals |= pokchrei_build_open_while(kernel, buffer, room, not_zero);
    refusals |= pokchrei_build_add(kernel, buffer, room, pokchrei_two(POKCHREI_SUB64, rax, pokchrei_const(1)));
    refusals |= pokchrei_build_close(kernel, buffer, room);
    return refusals;
}

/* Rax 3, and all else 0. There are no cells; C asks for pointers all the same. */
typedef struct lent {
    uint64_t regs[16], flags, no_values[1];
    uint32_t xmms[64];
} lent;
static const lent start = {.regs = {[POKCHREI_RAX] = 3}};
static const uint64_t no_addresses[1];
static const uint8_t no_tags[1];

/* What is told of an end, and what it leaves. */
typedef struct end {
    uint8_t kind, number, marked, opened;
    size_t place, mark;
    uint64_t steps;
    lent left;
} end;

static end run(const uint8_t *code, size_t length, uint32_t fuel, uint64_t limit)
{
    end e = {.left = start};
    e.kind = pokchrei_run(code, length, no_addresses, 0, no_tags, 0, e.left.no_values, 0, e.left.regs, e.left.xmms,
                          &e.left.flags, 0, fuel, limit, POKCHREI_BASE, &e.number, &e.place, &e.steps, &e.marked,
                          &e.mark, &e.opened);
    return e;
}

static end search(const uint8_t *code, size_t length, uint32_t cap, uint64_t limit, uint32_t *fuel)
{
    end e = {.left = start};
    e.kind = pokchrei_least_fuel(code, length, no_addresses, 0, no_tags, 0, e.left.no_values, 0, e.left.regs,
                                 e.left.xmms, &e.left.flags, 0, cap, limit, POKCHREI_BASE, fuel, &e.number, &e.place,
                                 &e.steps, &e.marked, &e.mark, &e.opened);
    return e;
}

/* Whether a search has found what a run ends in: a cap that is spent has a kind and a number of its own. */
static int alike(const end *found, const end *ran)
{
    if (found->kind == POKCHREI_CAP_SPENT) {
        if (found->number != POKCHREI_CAP_TOO_LOW || ran->kind != POKCHREI_SPENT)
            return 0;
    } else if (found->kind != ran->kind || found->number != ran->number) {
        return 0;
    }
    return found->place == ran->place && found->steps == ran->steps && found->marked == ran->marked &&
           found->mark == ran->mark && found->opened == ran->opened &&
           memcmp(&found->left, &ran->left, sizeof ran->left) == 0;
}

/* Searches, prints what it finds, and answers whether runs say the same. */
static int search_and_try(const uint8_t *code, size_t length, uint32_t cap, uint64_t limit)
{
    uint32_t fuel;
    end found = search(code, length, cap, limit, &fuel);
    end ran = run(code, length, found.kind == POKCHREI_CAP_SPENT ? cap : fuel, limit);

    printf("cap %" PRIu32 ": ", cap);
    if (found.kind == POKCHREI_CAP_SPENT)
        printf("%u at %zu", found.number, found.place);
    else if (found.kind == POKCHREI_DONE)
        printf("fuel %" PRIu32 ", done", fuel);
    else
        printf("fuel %" PRIu32 ", stopped %u at %zu", fuel, found.number, found.place);
    printf(", steps %" PRIu64 ", Rax %" PRIu64 "\n", found.steps, found.left.regs[POKCHREI_RAX]);
    return alike(&found, &ran) && (fuel == 0 || run(code, length, fuel - 1, limit).kind == POKCHREI_SPENT);
}

int main(void)
{
    uint8_t buffer[64];
    pokchrei_build kernel;

    if (build(&kernel, buffer, sizeof buffer) != 0 || !pokchrei_build_finished(&kernel))
        return 1;
    if (!search_and_try(buffer, kernel.length, UINT32_MAX, POKCHREI_LARGEST_LIMIT) ||
        !search_and_try(buffer, kernel.length, 4, POKCHREI_LARGEST_LIMIT) ||
        !search_and_try(buffer, kernel.length, 3, POKCHREI_LARGEST_LIMIT))
        return 1;
    puts("with a limit of 5:");
    return !search_and_try(buffer, kernel.length, 4, 5);
}
