/* names: every name of psci.h, on values put down from document 01, for refusal 31, memory protect by Change 2, leftovers and the original format
 * from document 02: each call by its tag and parts, each feature by its number, each refusal. Prints how many cases there were; a case that fails is
 * named on standard error. In C11 and in C++11. */
#include <inttypes.h>
#include <stdio.h>
#include <string.h>

#include "psci.h"

/* A part by its index in the nine words; index 0, that of the tag, ends the list. */
struct part {
    int index;
    uint64_t value;
};

/* Registers of which nothing is ignored, and the call that they make. */
struct example {
    uint64_t regs[PSCI_REGISTERS];
    uint64_t tag;
    struct part parts[PSCI_CALL_WORDS];
};

static const struct example calls[] = {
    {{0x84000000, 0, 0, 0}, PSCI_TAG_VERSION, {{0, 0}}},
    {{0x84000001, 0x40000002, 0x80000, 9},
     PSCI_TAG_CPU_SUSPEND,
     {{PSCI_CPU_SUSPEND_STATE + PSCI_POWER_STATE_DOWN, 1},
      {PSCI_CPU_SUSPEND_STATE + PSCI_POWER_STATE_ID, 2},
      {PSCI_CPU_SUSPEND_ENTRY + PSCI_ENTRY_FORM, 0},
      {PSCI_CPU_SUSPEND_ENTRY + PSCI_ENTRY_ADDRESS, 0x80000},
      {PSCI_CPU_SUSPEND_ENTRY + PSCI_ENTRY_CONTEXT, 9}}},
    {{0x84000002, 0, 0, 0}, PSCI_TAG_CPU_OFF, {{0, 0}}},
    {{0xc4000003, 0x400030201, 0xffff000000080000, 0xffff000000000009},
     PSCI_TAG_CPU_ON,
     {{PSCI_CPU_ON_TARGET_CPU + PSCI_MPIDR_HAS_AFF3, 1},
      {PSCI_CPU_ON_TARGET_CPU + PSCI_MPIDR_AFF3, 4},
      {PSCI_CPU_ON_TARGET_CPU + PSCI_MPIDR_AFF2, 3},
      {PSCI_CPU_ON_TARGET_CPU + PSCI_MPIDR_AFF1, 2},
      {PSCI_CPU_ON_TARGET_CPU + PSCI_MPIDR_AFF0, 1},
      {PSCI_CPU_ON_ENTRY + PSCI_ENTRY_FORM, 1},
      {PSCI_CPU_ON_ENTRY + PSCI_ENTRY_ADDRESS, 0xffff000000080000},
      {PSCI_CPU_ON_ENTRY + PSCI_ENTRY_CONTEXT, 0xffff000000000009}}},
    {{0x84000004, 0x030201, 2, 0},
     PSCI_TAG_AFFINITY_INFO,
     {{PSCI_AFFINITY_INFO_MPIDR + PSCI_MPIDR_AFF2, 3},
      {PSCI_AFFINITY_INFO_MPIDR + PSCI_MPIDR_AFF1, 2},
      {PSCI_AFFINITY_INFO_MPIDR + PSCI_MPIDR_AFF0, 1},
      {PSCI_AFFINITY_INFO_LEVEL, 2}}},
    {{0x84000005, 0x030201, 0, 0},
     PSCI_TAG_MIGRATE,
     {{PSCI_MIGRATE_TARGET_AFFINITY + PSCI_MPIDR_AFF2, 3},
      {PSCI_MIGRATE_TARGET_AFFINITY + PSCI_MPIDR_AFF1, 2},
      {PSCI_MIGRATE_TARGET_AFFINITY + PSCI_MPIDR_AFF0, 1}}},
    {{0x84000006, 0, 0, 0}, PSCI_TAG_MIGRATE_INFO_TYPE, {{0, 0}}},
    {{0x84000007, 0, 0, 0}, PSCI_TAG_MIGRATE_INFO_UP_CPU, {{PSCI_MIGRATE_INFO_UP_CPU_IS_32BIT, 1}}},
    {{0xc4000007, 0, 0, 0}, PSCI_TAG_MIGRATE_INFO_UP_CPU, {{PSCI_MIGRATE_INFO_UP_CPU_IS_32BIT, 0}}},
    {{0x84000008, 0, 0, 0}, PSCI_TAG_SYSTEM_OFF, {{0, 0}}},
    {{0xc4000015, 1, 0xffff000000000007, 0},
     PSCI_TAG_SYSTEM_OFF2,
     {{PSCI_SYSTEM_OFF2_TYPE, 0},
      {PSCI_SYSTEM_OFF2_COOKIE + PSCI_COOKIE_FORM, 1},
      {PSCI_SYSTEM_OFF2_COOKIE + PSCI_COOKIE_WORD, 0xffff000000000007}}},
    {{0x84000009, 0, 0, 0}, PSCI_TAG_SYSTEM_RESET, {{0, 0}}},
    {{0xc4000012, 0x80000005, 7, 0},
     PSCI_TAG_SYSTEM_RESET2,
     {{PSCI_SYSTEM_RESET2_TYPE + PSCI_RESET_VENDOR, 1},
      {PSCI_SYSTEM_RESET2_TYPE + PSCI_RESET_TYPE, 5},
      {PSCI_SYSTEM_RESET2_COOKIE + PSCI_COOKIE_FORM, 1},
      {PSCI_SYSTEM_RESET2_COOKIE + PSCI_COOKIE_WORD, 7}}},
    {{0x84000012, 0, 7, 0}, PSCI_TAG_SYSTEM_RESET2, {{PSCI_SYSTEM_RESET2_COOKIE + PSCI_COOKIE_WORD, 7}}},
    {{0x84000013, 1, 0, 0}, PSCI_TAG_MEM_PROTECT, {{PSCI_MEM_PROTECT_ENABLED, 1}}},
    {{0xc4000014, 0xffff000000000001, 0x2000, 0},
     PSCI_TAG_MEM_PROTECT_CHECK_RANGE,
     {{PSCI_MEM_PROTECT_CHECK_RANGE_RANGE + PSCI_RANGE_FORM, 1},
      {PSCI_MEM_PROTECT_CHECK_RANGE_RANGE + PSCI_RANGE_BASE, 0xffff000000000001},
      {PSCI_MEM_PROTECT_CHECK_RANGE_RANGE + PSCI_RANGE_LENGTH, 0x2000}}},
    {{0x8400000a, 0x80000000, 0, 0}, PSCI_TAG_FEATURES, {{PSCI_FEATURES_FEATURE, 0x80000000}}},
    {{0x8400000b, 0, 0, 0}, PSCI_TAG_CPU_FREEZE, {{0, 0}}},
    {{0x8400000c, 0x80000, 9, 0},
     PSCI_TAG_CPU_DEFAULT_SUSPEND,
     {{PSCI_CPU_DEFAULT_SUSPEND_ENTRY + PSCI_ENTRY_ADDRESS, 0x80000}, {PSCI_CPU_DEFAULT_SUSPEND_ENTRY + PSCI_ENTRY_CONTEXT, 9}}},
    {{0x8400000d, 0x030201, 0xffffffff, 0},
     PSCI_TAG_NODE_HW_STATE,
     {{PSCI_NODE_HW_STATE_TARGET_CPU + PSCI_MPIDR_AFF2, 3},
      {PSCI_NODE_HW_STATE_TARGET_CPU + PSCI_MPIDR_AFF1, 2},
      {PSCI_NODE_HW_STATE_TARGET_CPU + PSCI_MPIDR_AFF0, 1},
      {PSCI_NODE_HW_STATE_LEVEL, 0xffffffff}}},
    {{0xc400000e, 0x80000, 9, 0},
     PSCI_TAG_SYSTEM_SUSPEND,
     {{PSCI_SYSTEM_SUSPEND_ENTRY + PSCI_ENTRY_FORM, 1},
      {PSCI_SYSTEM_SUSPEND_ENTRY + PSCI_ENTRY_ADDRESS, 0x80000},
      {PSCI_SYSTEM_SUSPEND_ENTRY + PSCI_ENTRY_CONTEXT, 9}}},
    {{0x8400000f, 1, 0, 0}, PSCI_TAG_SET_SUSPEND_MODE, {{PSCI_SET_SUSPEND_MODE_MODE, 1}}},
    {{0x84000010, 0x030201, 0x40000002, 0},
     PSCI_TAG_STAT_RESIDENCY,
     {{PSCI_STAT_RESIDENCY_TARGET_CPU + PSCI_MPIDR_AFF2, 3},
      {PSCI_STAT_RESIDENCY_TARGET_CPU + PSCI_MPIDR_AFF1, 2},
      {PSCI_STAT_RESIDENCY_TARGET_CPU + PSCI_MPIDR_AFF0, 1},
      {PSCI_STAT_RESIDENCY_STATE + PSCI_POWER_STATE_DOWN, 1},
      {PSCI_STAT_RESIDENCY_STATE + PSCI_POWER_STATE_ID, 2}}},
    {{0xc4000011, 0, 2, 0},
     PSCI_TAG_STAT_COUNT,
     {{PSCI_STAT_COUNT_TARGET_CPU + PSCI_MPIDR_HAS_AFF3, 1}, {PSCI_STAT_COUNT_STATE + PSCI_POWER_STATE_ID, 2}}},
};

/* The three calls that the original format has for itself. */
static const struct example originals[] = {
    {{0xc4000001, 0x03010002, 0x80000, 9},
     PSCI_TAG_CPU_SUSPEND,
     {{PSCI_ORIGINAL_CPU_SUSPEND_STATE + PSCI_ORIGINAL_STATE_DOWN, 1},
      {PSCI_ORIGINAL_CPU_SUSPEND_STATE + PSCI_ORIGINAL_STATE_ID, 2},
      {PSCI_ORIGINAL_CPU_SUSPEND_STATE + PSCI_ORIGINAL_STATE_LEVEL, 3},
      {PSCI_ORIGINAL_CPU_SUSPEND_ENTRY + PSCI_ENTRY_FORM, 1},
      {PSCI_ORIGINAL_CPU_SUSPEND_ENTRY + PSCI_ENTRY_ADDRESS, 0x80000},
      {PSCI_ORIGINAL_CPU_SUSPEND_ENTRY + PSCI_ENTRY_CONTEXT, 9}}},
    {{0x84000010, 0x030201, 0x02010004, 0},
     PSCI_TAG_STAT_RESIDENCY,
     {{PSCI_STAT_RESIDENCY_TARGET_CPU + PSCI_MPIDR_AFF2, 3},
      {PSCI_STAT_RESIDENCY_TARGET_CPU + PSCI_MPIDR_AFF1, 2},
      {PSCI_STAT_RESIDENCY_TARGET_CPU + PSCI_MPIDR_AFF0, 1},
      {PSCI_STAT_RESIDENCY_STATE + PSCI_ORIGINAL_STATE_DOWN, 1},
      {PSCI_STAT_RESIDENCY_STATE + PSCI_ORIGINAL_STATE_ID, 4},
      {PSCI_STAT_RESIDENCY_STATE + PSCI_ORIGINAL_STATE_LEVEL, 2}}},
    {{0xc4000011, 0, 0x01000004, 0},
     PSCI_TAG_STAT_COUNT,
     {{PSCI_STAT_COUNT_TARGET_CPU + PSCI_MPIDR_HAS_AFF3, 1},
      {PSCI_STAT_COUNT_STATE + PSCI_ORIGINAL_STATE_ID, 4},
      {PSCI_STAT_COUNT_STATE + PSCI_ORIGINAL_STATE_LEVEL, 1}}},
};

typedef struct psci_refusal (*decoder)(const uint64_t regs[PSCI_REGISTERS], uint64_t call[PSCI_CALL_WORDS]);
typedef struct psci_refusal (*encoder)(const uint64_t call[PSCI_CALL_WORDS], uint64_t out[PSCI_REGISTERS]);
typedef struct psci_refusal (*recoder)(const uint64_t regs[PSCI_REGISTERS], uint64_t out[PSCI_REGISTERS]);
typedef struct psci_refusal (*keeper)(const uint64_t regs[PSCI_REGISTERS], uint64_t call[PSCI_CALL_WORDS], uint64_t leftovers[PSCI_REGISTERS]);

/* Registers of which something is ignored, and M3's, by decoder: the call that they make, and the leftovers. */
static const struct {
    keeper decode;
    uint64_t regs[PSCI_REGISTERS], call[PSCI_CALL_WORDS], leftovers[PSCI_REGISTERS];
} left_over[] = {
    {psci_decode_with_leftovers, {0x84000000, 5, 6, 7}, {PSCI_TAG_VERSION, 0, 0, 0, 0, 0, 0, 0, 0}, {0, 5, 6, 7}},
    {psci_decode_with_leftovers, {0xffffffff84000002, 0, 0, 0}, {PSCI_TAG_CPU_OFF, 0, 0, 0, 0, 0, 0, 0, 0}, {0xffffffff00000000, 0, 0, 0}},
    {psci_decode_with_leftovers, {0xc4000003, 0x100020304, 0x80000, 9}, {PSCI_TAG_CPU_ON, 1, 1, 2, 3, 4, 1, 0x80000, 9}, {0, 0, 0, 0}},
    {psci_decode_with_leftovers, {0x84000013, 0x100000000, 0, 0}, {PSCI_TAG_MEM_PROTECT, 1, 0, 0, 0, 0, 0, 0, 0}, {0, 0x100000001, 0, 0}},
    {psci_decode_smccc_with_leftovers, {0x84000013, 0x100000000, 0, 0}, {PSCI_TAG_MEM_PROTECT, 0, 0, 0, 0, 0, 0, 0, 0}, {0, 0x100000000, 0, 0}},
    {psci_decode_smccc_with_leftovers, {0x84000000, 5, 6, 7}, {PSCI_TAG_VERSION, 0, 0, 0, 0, 0, 0, 0, 0}, {0, 5, 6, 7}},
    {psci_decode_smccc_with_leftovers, {0xffffffff84000002, 0, 0, 0}, {PSCI_TAG_CPU_OFF, 0, 0, 0, 0, 0, 0, 0, 0}, {0xffffffff00000000, 0, 0, 0}},
    {psci_decode_smccc_with_leftovers, {0xc4000003, 0x100020304, 0x80000, 9}, {PSCI_TAG_CPU_ON, 1, 1, 2, 3, 4, 1, 0x80000, 9}, {0, 0, 0, 0}},
};

/* A feature: its number, and the header's name for it. */
static const struct {
    uint64_t number;
    uint64_t named;
} features[] = {
    {0x84000000, PSCI_FUNCTION_PSCI_VERSION},
    {0x84000001, PSCI_FUNCTION_CPU_SUSPEND_32},
    {0xc4000001, PSCI_FUNCTION_CPU_SUSPEND_64},
    {0x84000002, PSCI_FUNCTION_CPU_OFF},
    {0x84000003, PSCI_FUNCTION_CPU_ON_32},
    {0xc4000003, PSCI_FUNCTION_CPU_ON_64},
    {0x84000004, PSCI_FUNCTION_AFFINITY_INFO_32},
    {0xc4000004, PSCI_FUNCTION_AFFINITY_INFO_64},
    {0x84000005, PSCI_FUNCTION_MIGRATE_32},
    {0xc4000005, PSCI_FUNCTION_MIGRATE_64},
    {0x84000006, PSCI_FUNCTION_MIGRATE_INFO_TYPE},
    {0x84000007, PSCI_FUNCTION_MIGRATE_INFO_UP_CPU_32},
    {0xc4000007, PSCI_FUNCTION_MIGRATE_INFO_UP_CPU_64},
    {0x84000008, PSCI_FUNCTION_SYSTEM_OFF},
    {0x84000009, PSCI_FUNCTION_SYSTEM_RESET},
    {0x8400000a, PSCI_FUNCTION_PSCI_FEATURES},
    {0x8400000b, PSCI_FUNCTION_CPU_FREEZE},
    {0x8400000c, PSCI_FUNCTION_CPU_DEFAULT_SUSPEND_32},
    {0xc400000c, PSCI_FUNCTION_CPU_DEFAULT_SUSPEND_64},
    {0x8400000d, PSCI_FUNCTION_NODE_HW_STATE_32},
    {0xc400000d, PSCI_FUNCTION_NODE_HW_STATE_64},
    {0x8400000e, PSCI_FUNCTION_SYSTEM_SUSPEND_32},
    {0xc400000e, PSCI_FUNCTION_SYSTEM_SUSPEND_64},
    {0x8400000f, PSCI_FUNCTION_PSCI_SET_SUSPEND_MODE},
    {0x84000010, PSCI_FUNCTION_PSCI_STAT_RESIDENCY_32},
    {0xc4000010, PSCI_FUNCTION_PSCI_STAT_RESIDENCY_64},
    {0x84000011, PSCI_FUNCTION_PSCI_STAT_COUNT_32},
    {0xc4000011, PSCI_FUNCTION_PSCI_STAT_COUNT_64},
    {0x84000012, PSCI_FUNCTION_SYSTEM_RESET2_32},
    {0xc4000012, PSCI_FUNCTION_SYSTEM_RESET2_64},
    {0x84000013, PSCI_FUNCTION_MEM_PROTECT},
    {0x84000014, PSCI_FUNCTION_MEM_PROTECT_CHECK_RANGE_32},
    {0xc4000014, PSCI_FUNCTION_MEM_PROTECT_CHECK_RANGE_64},
    {0x84000015, PSCI_FUNCTION_SYSTEM_OFF2_32},
    {0xc4000015, PSCI_FUNCTION_SYSTEM_OFF2_64},
    {0x80000000, PSCI_FEATURE_SMCCC_VERSION},
};

/* Registers that are refused: the number and what it carries. */
static const struct {
    uint64_t regs[PSCI_REGISTERS];
    uint64_t number, carried;
} refused[] = {
    {{0xffffffff84000016, 0, 0, 0}, PSCI_UNRECOGNISED_FUNCTION_ID, 0x84000016},
    {{0x84000001, 0xffffffff50000000, 0, 0}, PSCI_INVALID_POWER_STATE, 0x50000000},
    {{0x84000003, 0xffffffff01000000, 0, 0}, PSCI_INVALID_MPIDR_32, 0x01000000},
    {{0xc4000003, 0xffffffff01000000, 0, 0}, PSCI_INVALID_MPIDR_64, 0xffffffff01000000},
    {{0x84000004, 0xff000000, 3, 0}, PSCI_INVALID_LOWER_AFFINITY_LEVEL, 3},
    {{0x84000015, 0, 0, 0}, PSCI_UNRECOGNISED_SYSTEM_OFF2_TYPE, 0},
    {{0x84000012, 1, 0, 0}, PSCI_UNRECOGNISED_SYSTEM_RESET2_TYPE, 1},
    {{0x8400000f, 2, 0, 0}, PSCI_UNRECOGNISED_SUSPEND_MODE, 2},
};

/* Words of a call that can't be written: the number and what it carries. */
static const struct {
    uint64_t call[PSCI_CALL_WORDS];
    uint64_t number, carried;
} unwritten[] = {
    {{PSCI_TAG_CPU_ON, 0, 0, 3, 2, 1, 1, 0x80000, 9}, PSCI_MIXED_CALL_FORMS, 0},
    {{PSCI_TAG_CPU_SUSPEND, 0, 0x10000000, 0, 0, 0, 0, 0, 0}, PSCI_INVALID_STATE_ID, 0x10000000},
    {{PSCI_TAG_SYSTEM_RESET2, 1, 0x80000000, 0, 0, 0, 0, 0, 0}, PSCI_INVALID_VENDOR_TYPE, 0x80000000},
    {{PSCI_TAG_STAT_COUNT + 1, 0, 0, 0, 0, 0, 0, 0, 0}, PSCI_UNKNOWN_TAG, 22},
    {{PSCI_TAG_MEM_PROTECT, 2, 0, 0, 0, 0, 0, 0, 0}, PSCI_WRONG_PART, 0},
    {{PSCI_TAG_FEATURES, 0x84000016, 0, 0, 0, 0, 0, 0, 0}, PSCI_WRONG_PART, 0},
    {{PSCI_TAG_FEATURES, 0x184000000, 0, 0, 0, 0, 0, 0, 0}, PSCI_WRONG_PART, 0},
    {{PSCI_TAG_CPU_OFF, 0, 0, 0, 0, 0, 0, 0, 1}, PSCI_WRONG_PART, 0},
};

/* Memory protect: r1, and whether it is enabled by all of r1 and by its low half. */
static const struct {
    uint64_t r1, whole, low;
} protect[] = {
    {0, 0, 0},
    {1, 1, 1},
    {0x80000000, 1, 1},
    {0x100000000, 1, 0},
    {0xffffffff00000000, 1, 0},
    {0x100000001, 1, 1},
};

static int cases, failed;

static void check(int good, const char *what, uint64_t which) {
    cases++;
    if (!good) {
        failed++;
        fprintf(stderr, "names: %s %" PRIx64 "\n", what, which);
    }
}

static int is(struct psci_refusal refusal, uint64_t number, uint64_t carried) {
    return refusal.number == number && refusal.carried == carried;
}

/* The registers decode to these nine words. */
static int decodes(decoder decode, const uint64_t regs[PSCI_REGISTERS], const uint64_t call[PSCI_CALL_WORDS]) {
    uint64_t decoded[PSCI_CALL_WORDS];
    memset(decoded, 0xa5, sizeof decoded);
    return is(decode(regs, decoded), PSCI_ACCEPTED, 0) && memcmp(decoded, call, sizeof decoded) == 0;
}

/* The registers are written again as these words. */
static int rewrites(recoder recode, const uint64_t regs[PSCI_REGISTERS], const uint64_t out[PSCI_REGISTERS]) {
    uint64_t words[PSCI_REGISTERS];
    memset(words, 0xa5, sizeof words);
    return is(recode(regs, words), PSCI_ACCEPTED, 0) && memcmp(words, out, sizeof words) == 0;
}

/* The nine words encode to these registers. */
static int encodes(encoder encode, const uint64_t call[PSCI_CALL_WORDS], const uint64_t regs[PSCI_REGISTERS]) {
    uint64_t words[PSCI_REGISTERS];
    memset(words, 0xa5, sizeof words);
    return is(encode(call, words), PSCI_ACCEPTED, 0) && memcmp(words, regs, sizeof words) == 0;
}

/* The registers decode to these nine words with these leftovers, and both are written as the registers. */
static int leaves(keeper decode, const uint64_t regs[PSCI_REGISTERS], const uint64_t call[PSCI_CALL_WORDS],
                  const uint64_t leftovers[PSCI_REGISTERS]) {
    uint64_t decoded[PSCI_CALL_WORDS], left[PSCI_REGISTERS], out[PSCI_REGISTERS];
    memset(decoded, 0xa5, sizeof decoded);
    memset(left, 0xa5, sizeof left);
    memset(out, 0xa5, sizeof out);
    return is(decode(regs, decoded, left), PSCI_ACCEPTED, 0) && memcmp(decoded, call, sizeof decoded) == 0 &&
           memcmp(left, leftovers, sizeof left) == 0 && is(psci_encode_with_leftovers(decoded, left, out), PSCI_ACCEPTED, 0) &&
           memcmp(out, regs, sizeof out) == 0;
}

/* A refusal of registers, and of words with leftovers, that leaves what is lent as it was. */
static int leaves_all(keeper decode, const uint64_t regs[PSCI_REGISTERS], uint64_t number, uint64_t carried) {
    uint64_t call[PSCI_CALL_WORDS] = {1, 2, 3, 4, 5, 6, 7, 8, 9}, left[PSCI_REGISTERS] = {1, 2, 3, 4};
    const uint64_t lent[PSCI_CALL_WORDS] = {1, 2, 3, 4, 5, 6, 7, 8, 9};
    return is(decode(regs, call, left), number, carried) && memcmp(call, lent, sizeof call) == 0 && memcmp(left, lent, sizeof left) == 0;
}

static int leaves_out(const uint64_t call[PSCI_CALL_WORDS], uint64_t number, uint64_t carried) {
    uint64_t out[PSCI_REGISTERS] = {1, 2, 3, 4};
    const uint64_t lent[PSCI_REGISTERS] = {1, 2, 3, 4};
    return is(psci_encode_with_leftovers(call, lent, out), number, carried) && memcmp(out, lent, sizeof out) == 0;
}

/* The registers decode to these nine words by psci_decode and psci_decode_smccc, the words encode to the registers, both write the registers again,
 * and neither leaves anything over. */
static int same(const uint64_t regs[PSCI_REGISTERS], const uint64_t call[PSCI_CALL_WORDS]) {
    const uint64_t nothing[PSCI_REGISTERS] = {0, 0, 0, 0};
    return decodes(psci_decode, regs, call) && decodes(psci_decode_smccc, regs, call) && encodes(psci_encode, call, regs) &&
           rewrites(psci_recode, regs, regs) && rewrites(psci_recode_smccc, regs, regs) &&
           leaves(psci_decode_with_leftovers, regs, call, nothing) && leaves(psci_decode_smccc_with_leftovers, regs, call, nothing);
}

/* The same in the original format. */
static int same_original(const uint64_t regs[PSCI_REGISTERS], const uint64_t call[PSCI_CALL_WORDS]) {
    return decodes(psci_decode_original, regs, call) && encodes(psci_encode_original, call, regs) && rewrites(psci_recode_original, regs, regs);
}

/* Memory protect by one decoder: enabled or not, and written so. */
static int protects(decoder decode, recoder recode, uint64_t r1, uint64_t enabled) {
    const uint64_t regs[PSCI_REGISTERS] = {0x84000013, r1, 6, 7}, out[PSCI_REGISTERS] = {0x84000013, enabled, 0, 0};
    uint64_t call[PSCI_CALL_WORDS];
    memset(call, 0, sizeof call);
    call[0] = PSCI_TAG_MEM_PROTECT;
    call[PSCI_MEM_PROTECT_ENABLED] = enabled;
    return decodes(decode, regs, call) && rewrites(recode, regs, out);
}

/* The nine words of an example. */
static void lay_out(const struct example *example, uint64_t call[PSCI_CALL_WORDS]) {
    memset(call, 0, PSCI_CALL_WORDS * sizeof call[0]);
    call[0] = example->tag;
    for (const struct part *part = example->parts; part < example->parts + PSCI_CALL_WORDS && part->index != 0; part++)
        call[part->index] = part->value;
}

#define COUNT(list) (sizeof(list) / sizeof(list)[0])

int main(void) {
    uint64_t call[PSCI_CALL_WORDS], words[PSCI_REGISTERS];
    uint8_t line[PSCI_LINE_BYTES];

    for (size_t i = 0; i < COUNT(calls); i++) {
        lay_out(&calls[i], call);
        check(same(calls[i].regs, call), "call", calls[i].regs[0]);
    }
    for (size_t i = 0; i < COUNT(originals); i++) {
        lay_out(&originals[i], call);
        check(same_original(originals[i].regs, call), "call of the original format", originals[i].regs[0]);
    }
    for (size_t i = 0; i < COUNT(features); i++) {
        const uint64_t regs[PSCI_REGISTERS] = {0x8400000a, features[i].number, 0, 0};
        memset(call, 0, sizeof call);
        call[0] = PSCI_TAG_FEATURES;
        call[PSCI_FEATURES_FEATURE] = features[i].named;
        check(same(regs, call), "feature", features[i].number);
    }
    for (size_t i = 0; i < COUNT(refused); i++) {
        check(is(psci_decode(refused[i].regs, call), refused[i].number, refused[i].carried), "refusal", refused[i].number);
        check(is(psci_recode(refused[i].regs, words), refused[i].number, refused[i].carried), "refusal of recode", refused[i].number);
        check(is(psci_decode_smccc(refused[i].regs, call), refused[i].number, refused[i].carried), "refusal by Change 2", refused[i].number);
        check(is(psci_recode_smccc(refused[i].regs, words), refused[i].number, refused[i].carried), "refusal of recode by Change 2", refused[i].number);
        check(leaves_all(psci_decode_with_leftovers, refused[i].regs, refused[i].number, refused[i].carried),
              "refusal with leftovers", refused[i].number);
        check(leaves_all(psci_decode_smccc_with_leftovers, refused[i].regs, refused[i].number, refused[i].carried),
              "refusal with leftovers by Change 2", refused[i].number);
    }
    for (size_t i = 0; i < COUNT(protect); i++) {
        check(protects(psci_decode, psci_recode, protect[i].r1, protect[i].whole), "memory protect by all of r1", protect[i].r1);
        check(protects(psci_decode_smccc, psci_recode_smccc, protect[i].r1, protect[i].low), "memory protect by its low half", protect[i].r1);
    }
    for (size_t i = 0; i < COUNT(unwritten); i++) {
        check(is(psci_encode(unwritten[i].call, words), unwritten[i].number, unwritten[i].carried), "refusal", unwritten[i].number);
        check(leaves_out(unwritten[i].call, unwritten[i].number, unwritten[i].carried), "refusal with leftovers", unwritten[i].number);
    }
    for (size_t i = 0; i < COUNT(left_over); i++)
        check(leaves(left_over[i].decode, left_over[i].regs, left_over[i].call, left_over[i].leftovers), "leftovers", left_over[i].regs[0]);
    const uint64_t cpu_off[PSCI_CALL_WORDS] = {PSCI_TAG_CPU_OFF, 0, 0, 0, 0, 0, 0, 0, 0};
    const uint64_t ones[PSCI_REGISTERS] = {UINT64_MAX, UINT64_MAX, UINT64_MAX, UINT64_MAX};
    check(is(psci_encode_with_leftovers(cpu_off, ones, words), PSCI_ACCEPTED, 0) && words[0] == 0xffffffff7bfffffd && words[1] == UINT64_MAX &&
              words[2] == UINT64_MAX && words[3] == UINT64_MAX,
          "any leftovers", PSCI_TAG_CPU_OFF);

    const uint64_t elsewhere[PSCI_REGISTERS] = {0x84000001, 0xffffffff00020000, 0, 0};
    check(is(psci_decode_original(elsewhere, call), PSCI_INVALID_ORIGINAL_POWER_STATE, 0x20000), "refusal of the original format", 26);
    check(is(psci_recode_original(elsewhere, words), PSCI_INVALID_ORIGINAL_POWER_STATE, 0x20000), "refusal of its recode", 26);
    const uint64_t above_3[PSCI_CALL_WORDS] = {PSCI_TAG_CPU_SUSPEND, 0, 2, 4, 0, 0, 0, 0, 0};
    check(is(psci_encode_original(above_3, words), PSCI_INVALID_POWER_LEVEL, 4), "refusal of the original format", 27);

    memset(call, 0, sizeof call);
    call[0] = PSCI_TAG_SYSTEM_OFF2;
    call[PSCI_SYSTEM_OFF2_TYPE] = 1; /* there is one off type, and its part is 0 */
    check(is(psci_encode(call, words), PSCI_WRONG_PART, 0), "refusal", PSCI_WRONG_PART);

    const uint64_t off[PSCI_REGISTERS] = {0x84000002, 0, 0, 0};
    struct psci_written written = psci_line(PSCI_LAST_RECORD, off, line);
    check(written.number == PSCI_ACCEPTED && written.value == strlen("1899 ok") + 4 * 17 + 1, "line", PSCI_LAST_RECORD);
    written = psci_line(PSCI_LAST_RECORD + 1, off, line);
    check(written.number == PSCI_BAD_NUMBER && written.value == PSCI_LAST_RECORD + 1, "line", PSCI_LAST_RECORD + 1);

    printf("%d cases, %d failed\n", cases, failed);
    return failed != 0;
}
