/* sheet line|recode_smccc < crates/sheet/stdin: the sheet of a whole log through C, each line by psci_line, or laid out here over
 * psci_recode_smccc. */
#include <inttypes.h>
#include <stdio.h>
#include <string.h>

#include "psci.h"

enum { RECORD = 34 };

/* Two length bytes, then the registers, big-endian. */
static void registers_of(const uint8_t record[RECORD], uint64_t regs[PSCI_REGISTERS]) {
    for (int i = 0; i < PSCI_REGISTERS; i++) {
        regs[i] = 0;
        for (int j = 0; j < 8; j++)
            regs[i] = regs[i] << 8 | record[2 + 8 * i + j];
    }
}

/* Whether the line leaves the bytes before and behind it as they were. Bytes may be lent anywhere: those of one line after the other begin at each
 * offset in a word. */
static int by_line(size_t number, const uint64_t regs[PSCI_REGISTERS]) {
    _Alignas(8) uint8_t room[8 + PSCI_LINE_BYTES], untouched[sizeof room];
    size_t offset = number % 8;
    memset(room, 0xaa, sizeof room);
    memset(untouched, 0xaa, sizeof untouched);

    struct psci_written written = psci_line(number, regs, room + offset);
    if (written.number != PSCI_ACCEPTED || written.value > PSCI_LINE_BYTES)
        return 0;
    fwrite(room + offset, 1, written.value, stdout);
    size_t end = offset + written.value;
    return memcmp(room, untouched, offset) == 0 && memcmp(room + end, untouched, sizeof room - end) == 0;
}

/* Whether a refusal leaves the words as they were. */
static int by_recode(size_t number, const uint64_t regs[PSCI_REGISTERS]) {
    uint64_t out[PSCI_REGISTERS] = {1, 2, 3, 4};

    struct psci_refusal refusal = psci_recode_smccc(regs, out);
    if (refusal.number == PSCI_ACCEPTED) {
        printf("%zu ok %016" PRIx64 " %016" PRIx64 " %016" PRIx64 " %016" PRIx64 "\n", number, out[0], out[1], out[2], out[3]);
        return refusal.carried == 0;
    }
    printf("%zu no %" PRIu64 " %016" PRIx64 "\n", number, refusal.number, refusal.carried);
    return out[0] == 1 && out[1] == 2 && out[2] == 3 && out[3] == 4;
}

/* A number above the last is refused and carried, and the lent bytes are left. */
static int refuses_number(size_t number) {
    const uint64_t regs[PSCI_REGISTERS] = {0x84000002, 0, 0, 0};
    uint8_t out[PSCI_LINE_BYTES], untouched[PSCI_LINE_BYTES];
    memset(out, 0xaa, sizeof out);
    memset(untouched, 0xaa, sizeof untouched);

    struct psci_written written = psci_line(number, regs, out);
    return written.number == PSCI_BAD_NUMBER && written.value == number && memcmp(out, untouched, sizeof out) == 0;
}

int main(int count, char **arguments) {
    uint8_t record[RECORD];
    uint64_t regs[PSCI_REGISTERS];
    size_t records = 0;
    int good = 1;

    if (count != 2 || (strcmp(arguments[1], "line") != 0 && strcmp(arguments[1], "recode_smccc") != 0)) {
        fprintf(stderr, "sheet: line or recode_smccc is expected\n");
        return 2;
    }
    int is_line = strcmp(arguments[1], "line") == 0;
    if (getchar() != 1) {
        fprintf(stderr, "sheet: a log of version 1 is expected\n");
        return 2;
    }
    printf("sheet 1\n");
    for (; fread(record, 1, RECORD, stdin) == RECORD; records++) {
        registers_of(record, regs);
        good &= is_line ? by_line(records, regs) : by_recode(records, regs);
    }
    printf("end %zu 0\n", records);
    good &= refuses_number(PSCI_LAST_RECORD + 1) && refuses_number(SIZE_MAX);
    if (!good)
        fprintf(stderr, "sheet: a line or words that should be left were written, or a line was refused\n");
    return !good;
}
