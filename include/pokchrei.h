/*
 * Pokchrei: a proved evaluator of x64 kernels, as a static library.
 *
 *     tools/staticlib.sh                                # proves, and writes target/staticlib/libcapi.a
 *     cc -Iinclude prog.c target/staticlib/libcapi.a     # links
 *
 * Each function takes any numbers and any arrays: nothing is asked of their contents. What C itself asks is the
 * caller's: a pointer is not null, also where its length is 0; it is aligned, and as many elements lie behind it as
 * the length says; an array that is written (values, regs, xmms, flags, fuel, number, place, steps, marked, mark, opened,
 * out, buffer and the five of a build) overlaps no other. No function keeps a pointer, allocates, or touches anything but
 * what it is lent.
 */
#ifndef POKCHREI_H
#define POKCHREI_H

#include <stddef.h>
#include <stdint.h>

#ifdef __cplusplus
extern "C" {
#endif

/* How a run ended, or a search for its least fuel. */
enum pokchrei_kind {
    POKCHREI_DONE = 0,    /* after the last code */
    POKCHREI_FAULT = 1,   /* a check failed: number (a pokchrei_fault), and place of its instruction or comparison */
    POKCHREI_SPENT = 2,   /* a While was met without fuel: its place */
    POKCHREI_REFUSED = 3, /* code (1 to 7) or cells (11 to 15) were not accepted: number, and place or index; or the
                             evaluation (0, at 0) is no pokchrei_evaluation */
    POKCHREI_STOPPED = 4, /* the limit was used up: its number (a pokchrei_stop), and the place of what came next */
    POKCHREI_CAP_SPENT = 5 /* of pokchrei_least_fuel alone, the run at the cap is Spent: number (a pokchrei_search), and place
                              of the While */
};

/* The number of a Stopped. */
enum pokchrei_stop {
    POKCHREI_LIMIT_USED_UP = 37 /* as many steps as the limit were made, and an instruction or a comparison came next */
};

/* The number of a cap that is spent. */
enum pokchrei_search {
    POKCHREI_CAP_TOO_LOW = 61 /* with every fuel up to the cap the run is Spent */
};

/*
 * Which flags Add64 and AddCarry64 leave. Both evaluations set carry by the sum. Every other instruction and every
 * comparison does the same by both, Adcx64 and Adox64 too, but a run may end otherwise by what reads these flags.
 */
enum pokchrei_evaluation {
    POKCHREI_BASE = 0, /* the old flags but for the carry, as F* has it; the job program's */
    POKCHREI_BOARD = 1 /* the fill word but for the carry and for overflow, which tells whether destination + source, each
                          read as two's complement, and in AddCarry64 + the old carry, is outside the signed range of 64
                          bits */
};

/* The largest limit: at a step a nanosecond it lasts for 584 years. */
#define POKCHREI_LARGEST_LIMIT UINT64_MAX

/*
 * The number of a Fault: that of the first check that failed. Sources are judged from left to right, then amounts and
 * counts (33 to 35), then destinations; Mulx64's high one with the registers as the low half would leave them.
 */
enum pokchrei_fault {
    POKCHREI_UNREADABLE = 31,     /* no 64-bit cell at the address of a source, a shift amount or a compared operand */
    POKCHREI_UNWRITABLE = 32,     /* a destination that is a constant or Rsp, or no 64-bit cell at its address */
    POKCHREI_SHIFT_TOO_FAR = 33,  /* Shr64 or Shl64 by 64 or more */
    POKCHREI_LANES_TOO_FAR = 34,  /* Pslld or Psrld by 32 or more */
    POKCHREI_NOT_BY_4 = 35,       /* VPSLLDQ by another count than 4 */
    POKCHREI_WILD_ADDRESS = 36    /* in place of 31 or 32: base + scale * index + offset, not taken modulo 2^64, is below
                                     0 or above 2^64 - 1 */
};

/*
 * The watch of a run tells whether its end can hang on the fill word. Carry, bit 0 of the flags, or overflow, bit 11, is
 * open while it is a bit of the fill word, put there by what set it last. What completes opens and closes them so:
 *
 *     every comparison, SUB64, MUL64, IMUL64, AND64, SHR64, SHL64, PADDD    opens both
 *     XOR64, POPCNT64                                                       closes both
 *     LZCNT64, TZCNT64                                                      closes carry, opens overflow
 *     ADD64, ADD_CARRY64                                                    closes carry, and on the board overflow too
 *     ADCX64                                                                closes carry
 *     ADOX64                                                                closes overflow
 *     every other instruction                                               changes neither
 *
 * A run begins with neither open, whatever flags it starts from. What fails a check, or is not tried, opens, closes and
 * marks nothing.
 *
 * ADD_CARRY64 and ADCX64 add carry, and ADOX64 overflow. The first of these that completes while what it adds is open
 * marks the watch with its place. A mark stays where it is, and behind it flags open and close by the same rules.
 *
 * An unmarked watch promises that under every other fill word the run, from the same start, has the same kind, number and
 * place, steps, registers, xmm words, cells and watch; and carry and overflow are the same too, unless they are open at the
 * end, where each is that fill word's bit. The other bits of the flags, which no instruction reads, may differ. A marked
 * watch promises nothing: the end may differ, or not.
 */
enum pokchrei_open {
    POKCHREI_OPEN_CARRY = 1,
    POKCHREI_OPEN_OVERFLOW = 2
};

/* The registers in state order, which is not the processor's. */
enum pokchrei_register {
    POKCHREI_RAX = 0,
    POKCHREI_RBX = 1,
    POKCHREI_RCX = 2,
    POKCHREI_RDX = 3,
    POKCHREI_RSI = 4,
    POKCHREI_RDI = 5,
    POKCHREI_RBP = 6,
    POKCHREI_RSP = 7,
    POKCHREI_R8 = 8,
    POKCHREI_R9 = 9,
    POKCHREI_R10 = 10,
    POKCHREI_R11 = 11,
    POKCHREI_R12 = 12,
    POKCHREI_R13 = 13,
    POKCHREI_R14 = 14,
    POKCHREI_R15 = 15
};

/*
 * Checks code. Answers 0 where it is accepted, else the number of the refusal, 1 to 7; *place is the byte offset
 * that it names (0 where accepted).
 *
 * 7 says that the scale of an M_INDEX is none of 1, 2, 4 and 8; its place is the scale's first byte. Operands are judged
 * one after the other, and each from left to right once all its bytes are there (else 3): of an M_INDEX first the base (4
 * where it is above 15), then the scale (7), then the index (4).
 */
uint8_t pokchrei_check_code(const uint8_t *code, size_t code_length, size_t *place);

/*
 * Checks cells: three lists, of one length where they are to be accepted. Answers 0 where they are, else the number
 * of the refusal, 11 to 15; *index is the cell that it names (0 where accepted).
 */
uint8_t pokchrei_check_cells(const uint64_t *addresses, size_t address_count, const uint8_t *tags, size_t tag_count,
                             const uint64_t *values, size_t value_count, size_t *index);

/*
 * Runs code over lent cells. The start is read from regs, xmms (word j of xmm i at 4 * i + j), flags and values, and
 * the end is written there: for a fault, a stopped and a spent run as it was just before that instruction, comparison
 * or loop test; for a refusal as lent. Answers a pokchrei_kind; *number and *place belong to it, and are 0 where it
 * has none. The evaluation is a pokchrei_evaluation; any other byte is refused ahead of all else. (C itself cuts a number
 * above 255 to its lowest byte.)
 *
 * *steps is the number of steps made: of instructions completed and of comparisons that passed their check; 0 for a
 * refusal. With as many as limit made, the run is stopped where an instruction or a comparison comes next, ahead of its
 * checks; a While without fuel is spent all the same, and a run that ends there is done. Code of n codes with Whiles
 * nested d deep makes at most n * (fuel + 1)^d steps. A larger limit changes no end but that of a stopped run.
 *
 * The watch at the end is in the last three: *marked is 1 where it is marked, and *mark is then the mark's place; both
 * are 0 where it is not. *opened is the sum of what is open, POKCHREI_OPEN_CARRY and POKCHREI_OPEN_OVERFLOW. All three
 * are 0 for a refusal.
 */
uint8_t pokchrei_run(const uint8_t *code, size_t code_length, const uint64_t *addresses, size_t address_count,
                     const uint8_t *tags, size_t tag_count, uint64_t *values, size_t value_count, uint64_t regs[16],
                     uint32_t xmms[64], uint64_t *flags, uint64_t fill, uint32_t fuel, uint64_t limit,
                     uint8_t evaluation, uint8_t *number, size_t *place, uint64_t *steps, uint8_t *marked, size_t *mark,
                     uint8_t *opened);

/*
 * Finds the least fuel at or below a cap with which a run is not Spent, and the end that it then has. It takes what
 * pokchrei_run takes, with the cap in place of the fuel; limit and evaluation are the same at every fuel. It makes one
 * run, at the cap, and needs no more memory than that.
 *
 * POKCHREI_DONE, POKCHREI_FAULT or POKCHREI_STOPPED is the answer of the run with *fuel, and regs, xmms, flags, values and
 * all that is told are as that run leaves them. With less fuel the run is Spent, and with more it ends the same. A While
 * needs fuel for each test, also for the last, where its comparison does not hold, and for one whose comparison is not
 * made, since its check fails or the limit is used up; so a smaller limit can lower *fuel. What tests no loop needs 0.
 *
 * POKCHREI_CAP_SPENT is answered exactly where the run at the cap is Spent: *number is 61, *place is that While's, and all
 * else is as that run leaves it. A refusal is as in pokchrei_run. Both have a *fuel of 0.
 *
 * A kernel that never ends runs on until cap or limit ends it: the limit is what bounds a search with a large cap.
 */
uint8_t pokchrei_least_fuel(const uint8_t *code, size_t code_length, const uint64_t *addresses, size_t address_count,
                            const uint8_t *tags, size_t tag_count, uint64_t *values, size_t value_count,
                            uint64_t regs[16], uint32_t xmms[64], uint64_t *flags, uint64_t fill, uint32_t cap,
                            uint64_t limit, uint8_t evaluation, uint32_t *fuel, uint8_t *number, size_t *place,
                            uint64_t *steps, uint8_t *marked, size_t *mark, uint8_t *opened);

/* The room that the text of a job is given; it needs no more. */
#define POKCHREI_JOB_ROOM 65536

/*
 * Answers a job as the job program does. The input is the job's bytes: fuel (4), fill (8), flags (8), sixteen registers
 * (8 each), sixteen xmm (four words of 4 each), cell count (2), cells (address 8, tag 1, value 8), then code; fields low
 * byte first. The step limit is the largest, the evaluation the base's. The text is written to the start of out; what
 * lies behind it stays. Answers the text's length.
 */
size_t pokchrei_job(const uint8_t *input, size_t input_length, uint8_t out[POKCHREI_JOB_ROOM]);

/*
 * The builder writes code at the front of a lent buffer, call by call, and works out the lengths: each stands as 0 as
 * long as its part is open. It writes nothing behind what it has built. An IfElse opens with its true part; to close
 * that is to open the false part. The functions of the library take numbers and arrays; the pokchrei_build_ functions
 * at the end are the short way to call them.
 */

/* The room that the longest code needs. */
#define POKCHREI_CODE_ROOM 16384

/*
 * A build; its bytes are in the buffer. Where it was begun, and each call was given build and buffer as the call before
 * left them, pokchrei_check_code accepts it once it is finished. Any other build is answered too, with 51 where its
 * depth is above 32, or its innermost part has a kind above 2 or does not begin behind its length and within the build;
 * no call leaves the buffer's bounds.
 */
typedef struct pokchrei_build {
    uint16_t length;     /* bytes built so far */
    uint16_t depth;      /* how many parts are open; then for each, outermost first: */
    uint8_t parts[32];   /* 0 a Block's codes, 1 an IfElse's true part, 2 its false part or a While's part */
    uint16_t fields[32]; /* the place of the length that counts it */
    uint16_t starts[32]; /* the place where it begins */
} pokchrei_build;

/* The kinds of records, in F*'s names; the last three, which F* has not, are request 2026-02's. */
enum pokchrei_instruction {
    POKCHREI_MOV64 = 0x01,
    POKCHREI_ADD64 = 0x02,
    POKCHREI_ADD_LEA64 = 0x03,
    POKCHREI_ADD_CARRY64 = 0x04,
    POKCHREI_ADCX64 = 0x05,
    POKCHREI_ADOX64 = 0x06,
    POKCHREI_SUB64 = 0x07,
    POKCHREI_MUL64 = 0x08,
    POKCHREI_MULX64 = 0x09,
    POKCHREI_IMUL64 = 0x0a,
    POKCHREI_XOR64 = 0x0b,
    POKCHREI_AND64 = 0x0c,
    POKCHREI_SHR64 = 0x0d,
    POKCHREI_SHL64 = 0x0e,
    POKCHREI_PADDD = 0x0f,
    POKCHREI_PXOR = 0x10,
    POKCHREI_PSLLD = 0x11,
    POKCHREI_PSRLD = 0x12,
    POKCHREI_PSHUFD = 0x13,
    POKCHREI_PCMPEQD = 0x14,
    POKCHREI_PEXTRQ = 0x15,
    POKCHREI_PINSRD = 0x16,
    POKCHREI_PINSRQ = 0x17,
    POKCHREI_VPSLLDQ = 0x18,
    /*
     * Counts of the source's 64 bits, written to the destination, which is not read. The fill word is left in the flags:
     * by POPCNT64 without carry and overflow, by the other two with carry where the source is 0 and without elsewhere.
     */
    POKCHREI_POPCNT64 = 0x19, /* its ones */
    POKCHREI_LZCNT64 = 0x1a,  /* its zeros above the highest one; 64 for 0 */
    POKCHREI_TZCNT64 = 0x1b   /* its zeros below the lowest one; 64 for 0 */
};

enum pokchrei_comparison {
    POKCHREI_O_EQ = 0x30,
    POKCHREI_O_NE = 0x31,
    POKCHREI_O_LE = 0x32,
    POKCHREI_O_GE = 0x33,
    POKCHREI_O_LT = 0x34,
    POKCHREI_O_GT = 0x35
};

enum pokchrei_operand_kind {
    POKCHREI_O_CONST = 0x40,
    POKCHREI_O_REG = 0x41,
    POKCHREI_M_CONST = 0x42,
    POKCHREI_M_REG = 0x43,
    POKCHREI_M_INDEX = 0x44
};

/* An operand. Here and in a record, what the kind does not have is not looked at. */
typedef struct pokchrei_operand {
    uint8_t kind;
    uint8_t base;    /* the register of O_REG and M_REG, the base of M_INDEX */
    uint8_t index;   /* M_INDEX */
    int16_t scale;   /* M_INDEX: 1, 2, 4 or 8 */
    uint64_t number; /* O_CONST, M_CONST */
    int64_t offset;  /* M_REG, M_INDEX */
} pokchrei_operand;

/* An instruction or a comparison: its kind, its xmm numbers, amounts and imm8, and up to three operands. */
typedef struct pokchrei_record {
    uint8_t kind;
    uint8_t body[3];
    uint8_t operands[3];
    uint8_t bases[3];
    uint8_t indexes[3];
    int16_t scales[3];
    uint64_t numbers[3];
    int64_t offsets[3];
} pokchrei_record;

/* Begins a build: all zeros. */
void pokchrei_begin(uint16_t *length, uint16_t *depth, uint8_t parts[32], uint16_t fields[32], uint16_t starts[32]);

/*
 * The calls. Each answers 0 where it is taken. Else it answers the first of these numbers that holds, and build and
 * buffer are as they were:
 *
 *      2  a kind is no instruction's (add), no comparison's (open_if_else, open_while) or no operand's
 *     51  nothing is open to close, or the open part has not the code that it needs, or has the one that it takes, or
 *         the build is finished
 *      4  a register or xmm number above 15
 *      7  the scale of an M_INDEX, in scales, is none of 1, 2, 4 and 8
 *     53  the code would be the 33rd level; an IfElse or a While that is opened at the 32nd is taken, but no code fits
 *         into it, and so it can't be closed
 *     52  too many bytes for the buffer, or more than 16,384; a close too, where the buffer is now shorter than what
 *         was built
 *
 * 4 and 7 share their place in this order: the first wrong field in the record's bytes decides. There xmm numbers stand
 * ahead of the operands, and of an M_INDEX the base ahead of the scale, and that ahead of the index.
 */
uint8_t pokchrei_open_block(uint16_t *length, uint16_t *depth, uint8_t parts[32], uint16_t fields[32],
                            uint16_t starts[32], uint8_t *buffer, size_t buffer_length);

uint8_t pokchrei_open_if_else(uint16_t *length, uint16_t *depth, uint8_t parts[32], uint16_t fields[32],
                              uint16_t starts[32], uint8_t *buffer, size_t buffer_length, uint8_t kind,
                              const uint8_t body[3], const uint8_t operands[3], const uint8_t bases[3],
                              const uint8_t indexes[3], const int16_t scales[3], const uint64_t numbers[3],
                              const int64_t offsets[3]);

uint8_t pokchrei_open_while(uint16_t *length, uint16_t *depth, uint8_t parts[32], uint16_t fields[32],
                            uint16_t starts[32], uint8_t *buffer, size_t buffer_length, uint8_t kind,
                            const uint8_t body[3], const uint8_t operands[3], const uint8_t bases[3],
                            const uint8_t indexes[3], const int16_t scales[3], const uint64_t numbers[3],
                            const int64_t offsets[3]);

uint8_t pokchrei_add(uint16_t *length, uint16_t *depth, uint8_t parts[32], uint16_t fields[32], uint16_t starts[32],
                     uint8_t *buffer, size_t buffer_length, uint8_t kind, const uint8_t body[3],
                     const uint8_t operands[3], const uint8_t bases[3], const uint8_t indexes[3],
                     const int16_t scales[3], const uint64_t numbers[3], const int64_t offsets[3]);

uint8_t pokchrei_close(uint16_t *length, uint16_t *depth, uint8_t parts[32], uint16_t fields[32], uint16_t starts[32],
                       uint8_t *buffer, size_t buffer_length);

/*
 * Operands. A register is given as a number, so that one from 16 to 255 gets the builder's answer, 4; and so is a scale,
 * where any but 1, 2, 4 and 8 gets 7. A wider number, an amount too, is cut down by C itself before it is seen
 * (-Wconversion tells): a scale of 65,537 is seen as 1.
 */

static inline pokchrei_operand pokchrei_const(uint64_t number)
{
    pokchrei_operand operand = {POKCHREI_O_CONST, 0, 0, 0, number, 0};
    return operand;
}

static inline pokchrei_operand pokchrei_reg(uint8_t reg)
{
    pokchrei_operand operand = {POKCHREI_O_REG, reg, 0, 0, 0, 0};
    return operand;
}

static inline pokchrei_operand pokchrei_mconst(uint64_t address)
{
    pokchrei_operand operand = {POKCHREI_M_CONST, 0, 0, 0, address, 0};
    return operand;
}

static inline pokchrei_operand pokchrei_mreg(uint8_t reg, int64_t offset)
{
    pokchrei_operand operand = {POKCHREI_M_REG, reg, 0, 0, 0, offset};
    return operand;
}

/* At base + scale * index + offset, with a scale of 1, 2, 4 or 8. */
static inline pokchrei_operand pokchrei_mindex(uint8_t base, int16_t scale, uint8_t index, int64_t offset)
{
    pokchrei_operand operand = {POKCHREI_M_INDEX, base, index, scale, 0, offset};
    return operand;
}

/*
 * Records, by what their kinds have. Each kind has its own helper: where another is used, an operand that is missing is
 * answered 2, but bytes are taken by their position, and what is over is dropped.
 */

static inline pokchrei_record pokchrei_record_of(uint8_t kind, uint8_t x, uint8_t y, uint8_t z)
{
    /* Written out: C++ warns of {0}, and C99 has no {}. */
    pokchrei_record record = {kind,      {x, y, z}, {0, 0, 0}, {0, 0, 0},
                              {0, 0, 0}, {0, 0, 0}, {0, 0, 0}, {0, 0, 0}};
    return record;
}

static inline void pokchrei_set_operand(pokchrei_record *record, size_t i, pokchrei_operand operand)
{
    record->operands[i] = operand.kind;
    record->bases[i] = operand.base;
    record->indexes[i] = operand.index;
    record->scales[i] = operand.scale;
    record->numbers[i] = operand.number;
    record->offsets[i] = operand.offset;
}

/* MUL64, its source. */
static inline pokchrei_record pokchrei_one(enum pokchrei_instruction kind, pokchrei_operand a)
{
    pokchrei_record record = pokchrei_record_of((uint8_t)kind, 0, 0, 0);
    pokchrei_set_operand(&record, 0, a);
    return record;
}

/* MOV64, ADD64, ADD_CARRY64 to SUB64, IMUL64 to SHL64, POPCNT64 to TZCNT64: destination, then source or amount. */
static inline pokchrei_record pokchrei_two(enum pokchrei_instruction kind, pokchrei_operand a, pokchrei_operand b)
{
    pokchrei_record record = pokchrei_one(kind, a);
    pokchrei_set_operand(&record, 1, b);
    return record;
}

/* ADD_LEA64, destination and two sources; MULX64, high destination, low destination, source. */
static inline pokchrei_record pokchrei_three(enum pokchrei_instruction kind, pokchrei_operand a, pokchrei_operand b,
                                             pokchrei_operand c)
{
    pokchrei_record record = pokchrei_two(kind, a, b);
    pokchrei_set_operand(&record, 2, c);
    return record;
}

/* PADDD, PXOR, PCMPEQD. */
static inline pokchrei_record pokchrei_xmms(enum pokchrei_instruction kind, uint8_t dst, uint8_t src)
{
    return pokchrei_record_of((uint8_t)kind, dst, src, 0);
}

/* PSLLD, PSRLD. */
static inline pokchrei_record pokchrei_xmm_amount(enum pokchrei_instruction kind, uint8_t dst, uint8_t amount)
{
    return pokchrei_record_of((uint8_t)kind, dst, amount, 0);
}

/* PSHUFD and its permutation, VPSLLDQ and its count. */
static inline pokchrei_record pokchrei_xmms_amount(enum pokchrei_instruction kind, uint8_t dst, uint8_t src,
                                                   uint8_t amount)
{
    return pokchrei_record_of((uint8_t)kind, dst, src, amount);
}

/* PEXTRQ from the xmm's lane to the operand; PINSRD and PINSRQ from the operand to the lane. */
static inline pokchrei_record pokchrei_lane(enum pokchrei_instruction kind, uint8_t xmm, uint8_t index,
                                            pokchrei_operand operand)
{
    pokchrei_record record = pokchrei_record_of((uint8_t)kind, xmm, index, 0);
    pokchrei_set_operand(&record, 0, operand);
    return record;
}

static inline pokchrei_record pokchrei_compare(enum pokchrei_comparison kind, pokchrei_operand a, pokchrei_operand b)
{
    pokchrei_record record = pokchrei_record_of((uint8_t)kind, 0, 0, 0);
    pokchrei_set_operand(&record, 0, a);
    pokchrei_set_operand(&record, 1, b);
    return record;
}

/* The calls on a build and a buffer with this much room. They answer as above. */

static inline void pokchrei_build_begin(pokchrei_build *build)
{
    pokchrei_begin(&build->length, &build->depth, build->parts, build->fields, build->starts);
}

static inline uint8_t pokchrei_build_open_block(pokchrei_build *build, uint8_t *buffer, size_t room)
{
    return pokchrei_open_block(&build->length, &build->depth, build->parts, build->fields, build->starts, buffer, room);
}

static inline uint8_t pokchrei_build_open_if_else(pokchrei_build *build, uint8_t *buffer, size_t room,
                                             pokchrei_record comparison)
{
    return pokchrei_open_if_else(&build->length, &build->depth, build->parts, build->fields, build->starts, buffer,
                                 room, comparison.kind, comparison.body, comparison.operands, comparison.bases,
                                 comparison.indexes, comparison.scales, comparison.numbers, comparison.offsets);
}

static inline uint8_t pokchrei_build_open_while(pokchrei_build *build, uint8_t *buffer, size_t room,
                                           pokchrei_record comparison)
{
    return pokchrei_open_while(&build->length, &build->depth, build->parts, build->fields, build->starts, buffer,
                               room, comparison.kind, comparison.body, comparison.operands, comparison.bases,
                               comparison.indexes, comparison.scales, comparison.numbers, comparison.offsets);
}

static inline uint8_t pokchrei_build_add(pokchrei_build *build, uint8_t *buffer, size_t room,
                                         pokchrei_record instruction)
{
    return pokchrei_add(&build->length, &build->depth, build->parts, build->fields, build->starts, buffer, room,
                        instruction.kind, instruction.body, instruction.operands, instruction.bases,
                        instruction.indexes, instruction.scales, instruction.numbers, instruction.offsets);
}

static inline uint8_t pokchrei_build_close(pokchrei_build *build, uint8_t *buffer, size_t room)
{
    return pokchrei_close(&build->length, &build->depth, build->parts, build->fields, build->starts, buffer, room);
}

/* Whether the outermost code is complete: the code is then the buffer's first build->length bytes. */
static inline int pokchrei_build_finished(const pokchrei_build *build)
{
    return build->depth == 0 && build->length > 0;
}

#ifdef __cplusplus
}
#endif

#endif
