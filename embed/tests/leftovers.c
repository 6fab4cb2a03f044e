/* leftovers [planted] < crates/sheet/stdin: the functions with leftovers on every record of a whole log, by both decoders. What is decoded must be
 * what the decoder without leftovers gives, each leftover the register exclusive-or the recoded word, and what is written with the leftovers the
 * registers. Prints how many records were accepted and refused, and how many cases failed; the first that fail are named on standard error. With the
 * word planted the expectation of the first record of each kind, accepted and refused, is wrong for each decoder: four cases must fail. */
#include <inttypes.h>
#include <stdio.h>
#include <string.h>

#include "psci.h"

enum { RECORD = 34, UNTOUCHED = 0xa5 };

/* A decoder with leftovers, the one without, and the recoder. */
static const struct decoder {
    const char *name;
    struct psci_refusal (*keep)(const uint64_t regs[PSCI_REGISTERS], uint64_t call[PSCI_CALL_WORDS], uint64_t leftovers[PSCI_REGISTERS]);
    struct psci_refusal (*decode)(const uint64_t regs[PSCI_REGISTERS], uint64_t call[PSCI_CALL_WORDS]);
    struct psci_refusal (*recode)(const uint64_t regs[PSCI_REGISTERS], uint64_t out[PSCI_REGISTERS]);
} decoders[] = {
    {"psci_decode_with_leftovers", psci_decode_with_leftovers, psci_decode, psci_recode},
    {"psci_decode_smccc_with_leftovers", psci_decode_smccc_with_leftovers, psci_decode_smccc, psci_recode_smccc},
};
enum { DECODERS = sizeof decoders / sizeof decoders[0] };

static size_t accepted[DECODERS], refused[DECODERS], failed;

/* 1 where wrong expectations are planted, and then what makes that of the first of a kind wrong. */
static uint64_t planted;

static uint64_t slip(size_t count) {
    return count == 0 ? planted : 0;
}

/* Two length bytes, then the registers, big-endian. */
static void registers_of(const uint8_t record[RECORD], uint64_t regs[PSCI_REGISTERS]) {
    for (int i = 0; i < PSCI_REGISTERS; i++) {
        regs[i] = 0;
        for (int j = 0; j < 8; j++)
            regs[i] = regs[i] << 8 | record[2 + 8 * i + j];
    }
}

static int untouched(const uint64_t *words, int count) {
    uint64_t as_lent[PSCI_CALL_WORDS];
    memset(as_lent, UNTOUCHED, sizeof as_lent);
    return memcmp(words, as_lent, (size_t)count * sizeof as_lent[0]) == 0;
}

/* The call written with these leftovers is each word exclusive-or its leftover. */
static int writes(const uint64_t call[PSCI_CALL_WORDS], const uint64_t words[PSCI_REGISTERS], const uint64_t leftovers[PSCI_REGISTERS]) {
    uint64_t out[PSCI_REGISTERS];
    memset(out, UNTOUCHED, sizeof out);
    struct psci_refusal refusal = psci_encode_with_leftovers(call, leftovers, out);
    for (int i = 0; i < PSCI_REGISTERS; i++)
        if (out[i] != (words[i] ^ leftovers[i]))
            return 0;
    return refusal.number == PSCI_ACCEPTED && refusal.carried == 0;
}

/* Of an accepted set: the call, its leftovers beside its words, the registers written again, and the call written with other leftovers. */
static int keeps(const uint64_t regs[PSCI_REGISTERS], const uint64_t call[PSCI_CALL_WORDS], const uint64_t expected[PSCI_CALL_WORDS],
                 const uint64_t leftovers[PSCI_REGISTERS], const uint64_t words[PSCI_REGISTERS], uint64_t wrong) {
    uint64_t out[PSCI_REGISTERS], others[PSCI_REGISTERS];
    for (int i = 0; i < PSCI_REGISTERS; i++) {
        if (leftovers[i] != (regs[i] ^ words[i] ^ wrong))
            return 0;
        others[i] = ~regs[i] * 0x9e3779b97f4a7c15;
    }
    memset(out, UNTOUCHED, sizeof out);
    return memcmp(call, expected, PSCI_CALL_WORDS * sizeof call[0]) == 0 &&
           psci_encode_with_leftovers(call, leftovers, out).number == PSCI_ACCEPTED && memcmp(out, regs, sizeof out) == 0 &&
           writes(call, words, others);
}

/* One set by one decoder. */
static int is_kept(int index, const uint64_t regs[PSCI_REGISTERS]) {
    const struct decoder *by = &decoders[index];
    uint64_t call[PSCI_CALL_WORDS], expected[PSCI_CALL_WORDS], leftovers[PSCI_REGISTERS], words[PSCI_REGISTERS];
    memset(call, UNTOUCHED, sizeof call);
    memset(leftovers, UNTOUCHED, sizeof leftovers);

    struct psci_refusal said = by->keep(regs, call, leftovers), decoded = by->decode(regs, expected), recoded = by->recode(regs, words);
    if (said.number != decoded.number || said.number != recoded.number || said.carried != decoded.carried)
        return 0;
    if (said.number == PSCI_ACCEPTED)
        return keeps(regs, call, expected, leftovers, words, slip(accepted[index]++));
    leftovers[0] ^= slip(refused[index]++);
    return untouched(call, PSCI_CALL_WORDS) && untouched(leftovers, PSCI_REGISTERS);
}

int main(int count, char **arguments) {
    uint8_t record[RECORD];
    uint64_t regs[PSCI_REGISTERS];

    planted = count == 2 && strcmp(arguments[1], "planted") == 0;
    if (count != 1 && !planted) {
        fprintf(stderr, "leftovers: nothing or the word planted is expected\n");
        return 2;
    }
    if (getchar() != 1) {
        fprintf(stderr, "leftovers: a log of version 1 is expected\n");
        return 2;
    }
    for (size_t number = 0; fread(record, 1, RECORD, stdin) == RECORD; number++) {
        registers_of(record, regs);
        for (int i = 0; i < DECODERS; i++)
            if (!is_kept(i, regs) && failed++ < 20)
                fprintf(stderr, "leftovers: record %zu by %s\n", number, decoders[i].name);
    }
    for (int i = 0; i < DECODERS; i++)
        printf("%zu accepted, %zu refused; ", accepted[i], refused[i]);
    printf("%zu failed\n", failed);
    return failed != 0;
}
