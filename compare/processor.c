/*
 * Executes ADD and ADC on this processor, and Add64 and AddCarry64 on the board through the proved static library, and
 * compares the sum, carry and overflow. The library's other flags have to be the fill word's. The processor's are not
 * compared: those that it sets by the result the board takes from the fill word.
 *
 *     processor [SEED [N]]     every pair of the words at the edges, then N random pairs (2,000,000); SEED may be `new`
 */
#include <inttypes.h>
#include <stdio.h>
#include <stdlib.h>
#include <string.h>
#include <time.h>

#include "pokchrei.h"

#ifndef __x86_64__
#error "ADD and ADC of an x86-64 processor are what is compared"
#endif

enum { CARRY = 1, OVERFLOW = 1 << 11, EDGES = 6 * 64 };

/* A sum, with what it leaves in carry and overflow. */
typedef struct sum {
    uint64_t word;
    uint8_t carry, overflow;
} sum;

static uint64_t state, done, carried, overflowed;

static uint64_t draw(void)
{
    state ^= state << 13;
    state ^= state >> 7;
    state ^= state << 17;
    return state;
}

static sum add(uint64_t a, uint64_t b)
{
    sum s = {a, 0, 0};
    __asm__("addq %3, %0\n\tsetc %1\n\tseto %2" : "+r"(s.word), "=&r"(s.carry), "=&r"(s.overflow) : "r"(b) : "cc");
    return s;
}

/* 255 and 1 carry, 255 and 0 do not. */
static sum add_with_carry(uint64_t a, uint64_t b, uint8_t carry)
{
    sum s = {a, 0, 0};
    __asm__("addb $255, %b4\n\tadcq %3, %0\n\tsetc %1\n\tseto %2"
            : "+r"(s.word), "=&r"(s.carry), "=&r"(s.overflow), "+r"(b), "+r"(carry)
            :
            : "cc");
    return s;
}

static void print_sum(const char *name, uint64_t word, uint64_t flags)
{
    printf("%s: %#" PRIx64 ", flags %#" PRIx64 "\n", name, word, flags);
}

/* Rbx is added to Rax by an instruction of this kind; there are no cells. */
static void compare(uint8_t kind, uint64_t a, uint64_t b, uint64_t flags, uint64_t fill)
{
    static const uint64_t no_addresses[1];
    static const uint8_t no_tags[1];
    static uint64_t no_values[1];
    static uint32_t xmms[64];
    const uint8_t code[] = {kind, 0x41, POKCHREI_RAX, 0x41, POKCHREI_RBX};
    uint64_t regs[16] = {[POKCHREI_RAX] = a, [POKCHREI_RBX] = b}, left = flags, steps;
    uint8_t number, marked, opened;
    size_t place, mark;

    uint8_t end = pokchrei_run(code, sizeof code, no_addresses, 0, no_tags, 0, no_values, 0, regs, xmms, &left, fill, 0, 1,
                               POKCHREI_BOARD, &number, &place, &steps, &marked, &mark, &opened);
    sum s = kind == POKCHREI_ADD64 ? add(a, b) : add_with_carry(a, b, flags & CARRY);
    uint64_t expected = (fill & ~(uint64_t)(CARRY | OVERFLOW)) | (s.carry ? CARRY : 0) | (s.overflow ? OVERFLOW : 0);
    if (end != POKCHREI_DONE || steps != 1 || regs[POKCHREI_RAX] != s.word || left != expected) {
        printf("kind %02x of %#" PRIx64 " and %#" PRIx64 ", flags %#" PRIx64 ", fill %#" PRIx64 "\n", kind, a, b, flags, fill);
        print_sum("expected by the processor", s.word, expected);
        print_sum("left on the board", regs[POKCHREI_RAX], left);
        printf("end %u after %" PRIu64 " steps\n", end, steps);
        exit(1);
    }
    done++;
    carried += s.carry;
    overflowed += s.overflow;
}

/* Both kinds; the second with the carry and without. */
static void compare_all(uint64_t a, uint64_t b, uint64_t flags, uint64_t fill)
{
    compare(POKCHREI_ADD64, a, b, flags, fill);
    compare(POKCHREI_ADD_CARRY64, a, b, flags | CARRY, fill);
    compare(POKCHREI_ADD_CARRY64, a, b, flags & ~(uint64_t)CARRY, fill);
}

/* The powers of two, their neighbours, and what is left of 2^64 without them. */
static uint64_t edge(unsigned i)
{
    uint64_t word = ((uint64_t)1 << i % 64) + i / 64 % 3 - 1;
    return i < EDGES / 2 ? word : -word;
}

int main(int count, char **words)
{
    int named = count > 1 && strcmp(words[1], "new") != 0;
    uint64_t seed = named ? strtoull(words[1], NULL, 10) : (uint64_t)time(NULL);
    uint64_t pairs = count > 2 ? strtoull(words[2], NULL, 10) : 2000000;
    state = seed * 2 + 1;
    for (unsigned i = 0; i < EDGES; i++)
        for (unsigned j = 0; j < EDGES; j++) {
            compare_all(edge(i), edge(j), 0, UINT64_MAX);
            compare_all(edge(i), edge(j), UINT64_MAX, 0);
        }
    for (uint64_t i = 0; i < pairs; i++) {
        uint64_t a = draw(), b = draw(), flags = draw(), fill = draw();
        compare_all(a, b, flags, fill);
    }
    printf("%" PRIu64 " additions, seed %" PRIu64 ", %" PRIu64 " with carry and %" PRIu64
           " with overflow: the board leaves sum, carry and overflow as ADD and ADC do\n", done, seed, carried, overflowed);
    return 0;
}
