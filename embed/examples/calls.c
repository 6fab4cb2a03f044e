/* calls R0 R1 R2 R3: what firmware does with a power call, in small. Four registers in hexadecimal; out come the call or its refusal, and the
 * record's line as a sheet has it; both by the low half of r1 for memory protect. The example in Rust, calls.rs, prints the same. */
#include <inttypes.h>
#include <stdio.h>
#include <string.h>

#include "psci.h"

/* The core, affinity 3 first if the call has it. */
static void show_core(const uint64_t *mpidr) {
    printf("core ");
    if (mpidr[PSCI_MPIDR_HAS_AFF3])
        printf("%" PRIu64 ".", mpidr[PSCI_MPIDR_AFF3]);
    printf("%" PRIu64 ".%" PRIu64 ".%" PRIu64, mpidr[PSCI_MPIDR_AFF2], mpidr[PSCI_MPIDR_AFF1], mpidr[PSCI_MPIDR_AFF0]);
}

static void show_entry(const uint64_t *entry) {
    printf("start at 0x%" PRIx64 " with context 0x%" PRIx64, entry[PSCI_ENTRY_ADDRESS], entry[PSCI_ENTRY_CONTEXT]);
}

static void show_state(const uint64_t *state) {
    printf("%s, state 0x%" PRIx64, state[PSCI_POWER_STATE_DOWN] ? "power down" : "standby", state[PSCI_POWER_STATE_ID]);
}

/* Four calls in their own words; of any other its function number, which stands in the first of its four words. */
static void show_call(const uint64_t call[PSCI_CALL_WORDS]) {
    uint64_t words[PSCI_REGISTERS] = {0};

    switch (call[0]) {
    case PSCI_TAG_CPU_SUSPEND:
        printf("suspend this core: ");
        show_state(call + PSCI_CPU_SUSPEND_STATE);
        printf("; then ");
        show_entry(call + PSCI_CPU_SUSPEND_ENTRY);
        break;
    case PSCI_TAG_CPU_OFF:
        printf("turn off this core");
        break;
    case PSCI_TAG_CPU_ON:
        printf("turn on ");
        show_core(call + PSCI_CPU_ON_TARGET_CPU);
        printf(": ");
        show_entry(call + PSCI_CPU_ON_ENTRY);
        break;
    case PSCI_TAG_MEM_PROTECT:
        printf("%s memory protection", call[PSCI_MEM_PROTECT_ENABLED] ? "enable" : "disable");
        break;
    default:
        psci_encode(call, words); /* the call was decoded, so it is not refused */
        printf("another call, number 0x%" PRIx64, words[0]);
    }
    printf("\n");
}

/* What firmware answers the image. The number and the value of the refusal are in the record's line. */
static int answer_to(struct psci_refusal refusal) {
    return refusal.number == PSCI_UNRECOGNISED_FUNCTION_ID ? -1 : -2;
}

/* 1 to 16 hexadecimal digits, perhaps behind 0x. */
static int read_register(const char *text, uint64_t *word) {
    if (strncmp(text, "0x", 2) == 0)
        text += 2;
    size_t digits = strspn(text, "0123456789abcdefABCDEF");
    return digits >= 1 && digits <= 16 && text[digits] == '\0' && sscanf(text, "%" SCNx64, word) == 1;
}

int main(int count, char **arguments) {
    uint64_t regs[PSCI_REGISTERS], call[PSCI_CALL_WORDS];
    uint8_t line[PSCI_LINE_BYTES];

    int good = count == 1 + PSCI_REGISTERS;
    for (int i = 0; good && i < PSCI_REGISTERS; i++)
        good = read_register(arguments[1 + i], &regs[i]);
    if (!good) {
        fprintf(stderr, "calls: four registers are expected, each of 1 to 16 hexadecimal digits\n");
        return 2;
    }

    struct psci_refusal refusal = psci_decode_smccc(regs, call);
    if (refusal.number == PSCI_ACCEPTED)
        show_call(call);
    else
        printf("refused: answer %d\n", answer_to(refusal));

    struct psci_written written = psci_line(0, regs, line);
    fwrite(line, 1, written.value, stdout); /* record 0 has a line */
    return 0;
}
