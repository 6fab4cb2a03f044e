/* original [planted]: the functions for boards set to the original power state, at their limits. What they must answer is put down by hand from
 * document 02, Change 1, with the masks, shifts and function numbers of the kernel's public header; of calls without a power state it is what
 * psci_decode, psci_encode and psci_recode answer. Prints how many cases there were and how many failed; the first that fail are named on standard
 * error. With the word planted one expectation of each list is wrong, and so many cases must fail. */
#include <inttypes.h>
#include <linux/psci.h>
#include <stdio.h>
#include <string.h>

#include "psci.h"

#define COUNT(list) (sizeof(list) / sizeof(list)[0])

/* The bits that a power state may have; the paper and the kernel's header name the same. */
static const uint32_t allowed = PSCI_0_2_POWER_STATE_ID_MASK | PSCI_0_2_POWER_STATE_TYPE_MASK | PSCI_0_2_POWER_STATE_AFFL_MASK;
_Static_assert((PSCI_0_2_POWER_STATE_ID_MASK | PSCI_0_2_POWER_STATE_TYPE_MASK | PSCI_0_2_POWER_STATE_AFFL_MASK) == 0x0301ffff, "document 02's bits");

/* The calls with a power state: the function number, the tag, whether it is of the 64-bit form, and the register of the power state. */
struct stated {
    uint64_t number, tag;
    int is_64, index;
};

static const struct stated stated[] = {
    {PSCI_0_2_FN_CPU_SUSPEND, PSCI_TAG_CPU_SUSPEND, 0, 1},
    {PSCI_0_2_FN64_CPU_SUSPEND, PSCI_TAG_CPU_SUSPEND, 1, 1},
    {PSCI_1_0_FN_STAT_RESIDENCY, PSCI_TAG_STAT_RESIDENCY, 0, 2},
    {PSCI_1_0_FN64_STAT_RESIDENCY, PSCI_TAG_STAT_RESIDENCY, 1, 2},
    {PSCI_1_0_FN_STAT_COUNT, PSCI_TAG_STAT_COUNT, 0, 2},
    {PSCI_1_0_FN64_STAT_COUNT, PSCI_TAG_STAT_COUNT, 1, 2},
};

/* Power states with their parts by hand. */
static const struct {
    uint32_t word;
    uint64_t down, id, level;
} states[] = {
    {0x00000000, 0, 0, 0},      {0x0000ffff, 0, 0xffff, 0}, {0x00010000, 1, 0, 0},      {0x01000000, 0, 0, 1},
    {0x02000000, 0, 0, 2},      {0x03000000, 0, 0, 3},      {0x0301ffff, 1, 0xffff, 3}, {0x02011234, 1, 0x1234, 2},
};

/* Registers that are refused: the number and what it carries. A refused MPIDR comes before a refused power state. */
static const struct {
    uint64_t regs[PSCI_REGISTERS];
    uint64_t number, carried;
} refused[] = {
    {{0x84000001, 0xffffffff00020000, 0x80000, 9}, 26, 0x00020000},
    {{0xc4000001, 0xffffffff40000002, 0x80000, 9}, 26, 0x40000002},
    {{0x84000010, 0xffffffff01000000, 0x04000000, 0}, 3, 0x01000000},
    {{0x84000011, 0x80000000, 0xffffffff, 0}, 3, 0x80000000},
    {{0xc4000010, 0xffffffff01000000, 0x04000000, 0}, 4, 0xffffffff01000000},
    {{0xc4000011, 0x10000000000, 0xffffffff, 0}, 4, 0x10000000000},
    {{0x84000010, 0x01000000, 0x0301ffff, 0}, 3, 0x01000000},
    {{0xc4000010, 0x01000000, 0x0301ffff, 0}, 4, 0x01000000},
    {{0x84000010, 0xffffffff00030201, 0xffffffff04000000, 0}, 26, 0x04000000},
    {{0x84000011, 0x030201, 0x80000000, 0}, 26, 0x80000000},
    {{0xc4000010, 0xff00ffffff, 0x00fe0000, 0}, 26, 0x00fe0000},
    {{0xc4000011, 0, 0xffffffff, 0}, 26, 0xffffffff},
    {{0x84000016, 0x01000000, 0x04000000, 0}, 1, 0x84000016},
    {{0x84000004, 0xff000000, 3, 0}, 5, 3},
};

/* Calls by their words and what they are written as. */
static const struct {
    uint64_t call[PSCI_CALL_WORDS], out[PSCI_REGISTERS];
} written[] = {
    {{1, 1, 0xffff, 3, 0, 0xffffffff, 0xfffffffe, 0, 0}, {0x84000001, 0x0301ffff, 0xffffffff, 0xfffffffe}},
    {{1, 0, 2, 1, 1, 0xffff000000080000, 0x123456789, 0, 0}, {0xc4000001, 0x01000002, 0xffff000000080000, 0x123456789}},
    {{20, 0, 0, 3, 2, 1, 1, 0xffff, 3}, {0x84000010, 0x030201, 0x0301ffff, 0}},
    {{21, 1, 4, 3, 2, 1, 0, 0xffff, 0}, {0xc4000011, 0x400030201, 0xffff, 0}},
    {{3, 0, 0, 3, 2, 1, 0, 0x80000, 9}, {0x84000003, 0x030201, 0x80000, 9}},
    {{11, 1, 0x7fffffff, 0, 7, 0, 0, 0, 0}, {0x84000012, 0xffffffff, 7, 0}},
};

/* Words that can't be written: the number and what it carries. A wrong part comes before 14, 27 and 31. */
static const struct {
    uint64_t call[PSCI_CALL_WORDS];
    uint64_t number, carried;
} unwritten[] = {
    {{1, 0, 0, 4, 0, 0, 0, 0, 0}, 27, 4},
    {{1, 1, 0xffff, 255, 1, 0, 0, 0, 0}, 27, 255},
    {{20, 0, 0, 3, 2, 1, 1, 2, 4}, 27, 4},
    {{20, 1, 4, 3, 2, 1, 0, 2, 128}, 27, 128},
    {{21, 0, 0, 3, 2, 1, 0, 0xffff, 4}, 27, 4},
    {{21, 1, 4, 3, 2, 1, 1, 0, 7}, 27, 7},
    {{1, 0, 0x10000, 0, 0, 0, 0, 0, 0}, PSCI_WRONG_PART, 0},
    {{1, 0, 0x10000, 4, 0, 0, 0, 0, 0}, PSCI_WRONG_PART, 0},
    {{1, 0, 0, 256, 0, 0, 0, 0, 0}, PSCI_WRONG_PART, 0},
    {{1, 2, 0, 0, 0, 0, 0, 0, 0}, PSCI_WRONG_PART, 0},
    {{1, 0, 0, 0, 2, 0, 0, 0, 0}, PSCI_WRONG_PART, 0},
    {{1, 0, 0, 0, 0, 0x100000000, 0, 0, 0}, PSCI_WRONG_PART, 0},
    {{1, 0, 0, 0, 0, 0, 0x100000000, 0, 0}, PSCI_WRONG_PART, 0},
    {{1, 0, 0, 4, 0, 0, 0, 1, 0}, PSCI_WRONG_PART, 0},
    {{1, 0, 0, 4, 0, 0, 0, 0, 1}, PSCI_WRONG_PART, 0},
    {{20, 0, 0, 0, 0, 0, 0, 0x10000, 0}, PSCI_WRONG_PART, 0},
    {{20, 0, 0, 0, 0, 0, 2, 0, 4}, PSCI_WRONG_PART, 0},
    {{20, 0, 1, 0, 0, 0, 0, 0, 4}, PSCI_WRONG_PART, 0},
    {{21, 0, 0, 0, 0, 256, 0, 0, 4}, PSCI_WRONG_PART, 0},
    {{21, 0, 0, 0, 0, 0, 0, 0x100000000000ffff, 4}, PSCI_WRONG_PART, 0},
    {{21, 0, 0, 0, 0, 0, 0, 0, 256}, PSCI_WRONG_PART, 0},
    {{3, 0, 0, 3, 2, 1, 1, 0x80000, 9}, 14, 0},
    {{3, 1, 0, 3, 2, 1, 0, 0x80000, 9}, 14, 0},
    {{11, 1, 0x80000000, 0, 0, 0, 0, 0, 0}, 31, 0x80000000},
    {{11, 1, 0x80000001, 1, 7, 0, 0, 0, 0}, 31, 0x80000001},
    {{22, 0, 0, 0, 0, 0, 0, 0, 0}, PSCI_UNKNOWN_TAG, 22},
    {{UINT64_MAX, 2, 0, 4, 0, 0, 0, 0, 1}, PSCI_UNKNOWN_TAG, UINT64_MAX},
};

/* Memory protect: r1, and whether it is enabled, by all of r1. */
static const struct {
    uint64_t r1, enabled;
} protect[] = {{0, 0}, {1, 1}, {0x80000000, 1}, {0x100000000, 1}, {0xffffffff00000000, 1}};

/* What stands in registers and parts where the two formats are compared: the limits of every field, and bits beside them. */
static const uint64_t values[] = {
    0,          1,          2,          3,          4,          9,          0x00030201, 0x00ffffff,  0x01000000,  0x0301ffff,    0x40000002,
    0x7fffffff, 0x80000000, 0x80000001, 0x84000001, 0xc4000011, 0x84000016, 0xffffffff, 0x100000000, 0x400030201, 0x10000000000, UINT64_MAX,
};
static const uint64_t contexts[] = {0, 9, 0xffffffff00000001};

static int cases, failed;

/* 1 where wrong expectations are planted, and then what makes that of the first of a list wrong. */
static uint64_t planted;

static uint64_t slip(size_t i) {
    return i == 0 ? planted : 0;
}

static void check(int good, const char *what, uint64_t which) {
    cases++;
    if (!good && failed++ < 20)
        fprintf(stderr, "original: %s %" PRIx64 "\n", what, which);
}

typedef struct psci_refusal function(const uint64_t *asked, uint64_t *lent);

/* Accepted with these words. What is lent has every bit wrong, so that all of it must be written. */
static int gives(function *asks, const uint64_t *asked, const uint64_t *expected, int count) {
    uint64_t lent[PSCI_CALL_WORDS];
    for (int i = 0; i < count; i++)
        lent[i] = ~expected[i];
    struct psci_refusal refusal = asks(asked, lent);
    return refusal.number == PSCI_ACCEPTED && refusal.carried == 0 && memcmp(lent, expected, count * sizeof lent[0]) == 0;
}

/* Refused, and what is lent left as it was. */
static int refuses(function *asks, const uint64_t *asked, uint64_t number, uint64_t carried) {
    uint64_t lent[PSCI_CALL_WORDS], untouched[PSCI_CALL_WORDS];
    memset(lent, 0xa5, sizeof lent);
    memset(untouched, 0xa5, sizeof untouched);
    struct psci_refusal refusal = asks(asked, lent);
    return refusal.number == number && refusal.carried == carried && memcmp(lent, untouched, sizeof lent) == 0;
}

/* Registers, the call that they make, and what it is written as. */
struct laid {
    uint64_t regs[PSCI_REGISTERS], call[PSCI_CALL_WORDS], out[PSCI_REGISTERS];
};

/* A suspend with that power state and those parts of it. A 32-bit call has the low halves of address and context. */
static struct laid suspend(const struct stated *f, uint32_t word, const uint64_t parts[3]) {
    const uint64_t is_64 = f->is_64, kept = is_64 ? UINT64_MAX : UINT32_MAX, address = 0xffff000000080000, context = 0x123456789abcdef0;
    return (struct laid){
        {f->number, word, address, context},
        {f->tag, parts[0], parts[1], parts[2], is_64, address & kept, context & kept, 0, 0},
        {f->number, word, address & kept, context & kept},
    };
}

/* A residency or a count of core 4.3.2.1, or 3.2.1 in a 32-bit call, which leaves out the high half of r1. r3 has no field. */
static struct laid residency(const struct stated *f, uint32_t word, const uint64_t parts[3]) {
    const uint64_t is_64 = f->is_64;
    return (struct laid){
        {f->number, is_64 ? 0x400030201 : 0xffffffff00030201, word, 7},
        {f->tag, is_64, is_64 ? 4 : 0, 3, 2, 1, parts[0], parts[1], parts[2]},
        {f->number, is_64 ? 0x400030201 : 0x030201, word, 0},
    };
}

/* A call with that power state, in whose register the high half does not count. */
static struct laid laid_out(const struct stated *f, uint32_t word, const uint64_t parts[3]) {
    struct laid laid = f->index == 1 ? suspend(f, word, parts) : residency(f, word, parts);
    laid.regs[f->index] |= (uint64_t)~word << 32;
    return laid;
}

/* The registers make that call, which is written so; and what is written makes the same call and is written as it is. */
static int is_call(const struct laid *laid) {
    return gives(psci_decode_original, laid->regs, laid->call, PSCI_CALL_WORDS) &&
           gives(psci_decode_original, laid->out, laid->call, PSCI_CALL_WORDS) &&
           gives(psci_encode_original, laid->call, laid->out, PSCI_REGISTERS) &&
           gives(psci_recode_original, laid->regs, laid->out, PSCI_REGISTERS) && gives(psci_recode_original, laid->out, laid->out, PSCI_REGISTERS);
}

static int is_refused(const uint64_t regs[PSCI_REGISTERS], uint64_t number, uint64_t carried) {
    return refuses(psci_decode_original, regs, number, carried) && refuses(psci_recode_original, regs, number, carried);
}

/* A power state in a call: accepted with its parts if it has allowed bits alone, and else refused with 26 and the word. */
static int is_state(const struct stated *f, uint32_t word, uint64_t wrong) {
    const uint64_t parts[] = {
        (word & PSCI_0_2_POWER_STATE_TYPE_MASK) >> PSCI_0_2_POWER_STATE_TYPE_SHIFT,
        ((word & PSCI_0_2_POWER_STATE_ID_MASK) >> PSCI_0_2_POWER_STATE_ID_SHIFT) ^ wrong,
        (word & PSCI_0_2_POWER_STATE_AFFL_MASK) >> PSCI_0_2_POWER_STATE_AFFL_SHIFT,
    };
    struct laid laid = laid_out(f, word, parts);
    return word & ~allowed ? is_refused(laid.regs, PSCI_INVALID_ORIGINAL_POWER_STATE, word) : is_call(&laid);
}

/* Every bit turned in each of three power states, and every upper half of a power state. */
static void check_states(void) {
    const uint32_t turned[] = {0, 0x0301ffff, 0x0200a5a5};
    size_t asked = 0;
    for (size_t i = 0; i < COUNT(stated); i++) {
        for (size_t j = 0; j < COUNT(turned); j++)
            for (int bit = 0; bit < 32; bit++) {
                uint32_t word = turned[j] ^ (uint32_t)1 << bit;
                check(is_state(&stated[i], word, slip(asked++)), "a bit turned in power state", word);
            }
        for (uint32_t upper = 0; upper <= 0xffff; upper++)
            check(is_state(&stated[i], upper << 16 | 0x1234, 0), "power state", upper << 16 | 0x1234);
    }
}

/* The lists by hand. */
static void check_lists(void) {
    for (size_t i = 0; i < COUNT(states); i++)
        for (size_t j = 0; j < COUNT(stated); j++) {
            const uint64_t parts[] = {states[i].down, states[i].id, states[i].level ^ slip(i + j)};
            struct laid laid = laid_out(&stated[j], states[i].word, parts);
            check(is_call(&laid), "parts of power state", states[i].word);
        }
    for (size_t i = 0; i < COUNT(refused); i++)
        check(is_refused(refused[i].regs, refused[i].number ^ slip(i), refused[i].carried), "refusal of number", refused[i].regs[0]);
    for (size_t i = 0; i < COUNT(written); i++) {
        const uint64_t *out = written[i].out, expected[] = {out[0], out[1] ^ slip(i), out[2], out[3]};
        check(gives(psci_encode_original, written[i].call, expected, PSCI_REGISTERS), "call written with tag", written[i].call[0]);
    }
    for (size_t i = 0; i < COUNT(unwritten); i++) {
        const uint64_t *call = unwritten[i].call, carried = unwritten[i].carried ^ slip(i);
        check(refuses(psci_encode_original, call, unwritten[i].number, carried), "refusal of tag", call[0]);
    }
    for (size_t i = 0; i < COUNT(protect); i++) {
        uint64_t enabled = protect[i].enabled ^ slip(i);
        struct laid laid = {{0x84000013, protect[i].r1, 6, 7}, {PSCI_TAG_MEM_PROTECT, enabled}, {0x84000013, enabled}};
        check(is_call(&laid), "memory protect", protect[i].r1);
    }
}

/* Two functions say and write the same. */
static int agree(function *one, function *other, const uint64_t *asked, uint64_t wrong) {
    uint64_t lent[PSCI_CALL_WORDS], wanted[PSCI_CALL_WORDS];
    memset(lent, 0xa5, sizeof lent);
    memset(wanted, 0xa5, sizeof wanted);
    struct psci_refusal refusal = one(asked, lent), expected = other(asked, wanted);
    return refusal.number == (expected.number ^ wrong) && refusal.carried == expected.carried && memcmp(lent, wanted, sizeof lent) == 0;
}

/* Decoded and then encoded, registers are what recode makes of them; refused, recode refuses them so. */
static int recodes(const uint64_t regs[PSCI_REGISTERS], uint64_t wrong) {
    uint64_t call[PSCI_CALL_WORDS], words[PSCI_REGISTERS];
    struct psci_refusal refusal = psci_decode_original(regs, call);
    if (refusal.number != PSCI_ACCEPTED)
        return refuses(psci_recode_original, regs, refusal.number ^ wrong, refusal.carried);
    if (psci_encode_original(call, words).number != PSCI_ACCEPTED)
        return 0;
    words[0] ^= wrong;
    return gives(psci_recode_original, regs, words, PSCI_REGISTERS);
}

static int has_state(uint64_t number) {
    for (size_t i = 0; i < COUNT(stated); i++)
        if (stated[i].number == number)
            return 1;
    return 0;
}

/* A number with the values in its registers: without a power state it is, by both formats, the same call or the same refusal. Whether any of the sets
 * is accepted. */
static int check_number(uint64_t number, uint64_t wrong) {
    const size_t n = COUNT(values);
    uint64_t call[PSCI_CALL_WORDS];
    int accepted = 0;
    for (size_t i = 0; i < n * n * COUNT(contexts); i++) {
        const uint64_t regs[] = {0xdeadbeef00000000 | number, values[i % n], values[i / n % n], contexts[i / n / n]};
        const uint64_t wrong_here = i == 0 ? wrong : 0;
        accepted |= psci_decode_original(regs, call).number == PSCI_ACCEPTED;
        check(recodes(regs, wrong_here), "decoded and then encoded, number", number);
        if (has_state(number))
            continue;
        check(agree(psci_decode_original, psci_decode, regs, wrong_here), "decoded in both formats, number", number);
        check(agree(psci_recode_original, psci_recode, regs, wrong_here), "recoded in both formats, number", number);
    }
    return accepted;
}

/* The 64 numbers of both forms, of which 35 are known. */
static void check_numbers(void) {
    int known = 0;
    for (uint64_t low = 0; low < 0x20; low++)
        known += check_number(PSCI_0_2_FN_BASE + low, slip(low)) + check_number(PSCI_0_2_FN64_BASE + low, 0);
    check(known == 35, "known numbers", known);
}

/* Every tag that has no power state, and unknown ones, each with one part after the other at each of the values: encoded by both formats alike. */
static void check_parts(void) {
    for (uint64_t tag = 0; tag < 0x20; tag++)
        for (size_t i = 0; i < (PSCI_CALL_WORDS - 1) * COUNT(values); i++) {
            uint64_t call[PSCI_CALL_WORDS] = {tag};
            call[1 + i / COUNT(values)] = values[i % COUNT(values)];
            if (tag != PSCI_TAG_CPU_SUSPEND && tag != PSCI_TAG_STAT_RESIDENCY && tag != PSCI_TAG_STAT_COUNT)
                check(agree(psci_encode_original, psci_encode, call, slip(tag + i)), "encoded in both formats, tag", tag);
        }
}

int main(int count, char **arguments) {
    planted = count == 2 && strcmp(arguments[1], "planted") == 0;
    if (count != 1 && !planted) {
        fprintf(stderr, "original: nothing or the word planted is expected\n");
        return 2;
    }
    check_lists();
    check_states();
    check_numbers();
    check_parts();
    printf("%d cases, %d failed\n", cases, failed);
    return failed != 0;
}
