/* recorded < crates/replay/stdin: asks the exported functions what is recorded, and compares the answers; and of what a decoder is asked also its
 * recode. Prints how many records of each operation were compared, and how many differed; one is planted wrong.
 *
 * A record is sixteen big-endian words: operation, nine words of a call, four registers, a refusal's number and what it carries. The operations
 * are 0 decode, 1 encode, 3 decode by Change 2, 4 and 5 decode and encode in the original format, and are counted in this order. Records of other
 * operations are passed over, and so are labels, which begin with a printable character, each with the record behind it. */
#include <inttypes.h>
#include <stdio.h>

#include "psci.h"

enum { DECODE = 0, ENCODE = 1, DECODE_SMCCC = 3, DECODE_ORIGINAL = 4, ENCODE_ORIGINAL = 5, OPERATIONS = 6 };
enum { WORDS = 16, CALL = 1, REGS = 10, NUMBER = 14, CARRIED = 15 };

typedef struct psci_refusal function(const uint64_t *asked, uint64_t *lent);

/* What is asked, by operation: a decoder with the encoder and the recode that belong to it, or an encoder alone. */
static const struct {
    function *decode, *encode, *recode;
} codecs[OPERATIONS] = {
    [DECODE] = {psci_decode, psci_encode, psci_recode},
    [ENCODE] = {NULL, psci_encode, NULL},
    [DECODE_SMCCC] = {psci_decode_smccc, psci_encode, psci_recode_smccc},
    [DECODE_ORIGINAL] = {psci_decode_original, psci_encode_original, psci_recode_original},
    [ENCODE_ORIGINAL] = {NULL, psci_encode_original, NULL},
};

static uint64_t word_at(const uint8_t *bytes) {
    uint64_t word = 0;
    for (int i = 0; i < 8; i++)
        word = word << 8 | bytes[i];
    return word;
}

/* Whether a function answers as the record has it. What is lent has every bit wrong: accepted, all of it must be written; refused, none. */
static int answers(function *asks, const uint64_t *asked, const uint64_t record[WORDS], const uint64_t *expected, int count) {
    uint64_t lent[PSCI_CALL_WORDS];
    for (int i = 0; i < count; i++)
        lent[i] = ~expected[i];
    struct psci_refusal refusal = asks(asked, lent);
    int same = refusal.number == record[NUMBER] && refusal.carried == record[CARRIED];
    for (int i = 0; i < count; i++)
        same &= lent[i] == (refusal.number == PSCI_ACCEPTED ? expected[i] : ~expected[i]);
    return same;
}

/* An encoder's answer; or a decoder's, and what its recode writes, which must be the words of the recorded call. */
static int agrees(const uint64_t record[WORDS]) {
    function *decode = codecs[record[0]].decode, *encode = codecs[record[0]].encode, *recode = codecs[record[0]].recode;
    uint64_t words[PSCI_REGISTERS] = {0};

    if (decode == NULL)
        return answers(encode, record + CALL, record, record + REGS, PSCI_REGISTERS);
    int same = answers(decode, record + REGS, record, record + CALL, PSCI_CALL_WORDS);
    if (record[NUMBER] == PSCI_ACCEPTED)
        same &= encode(record + CALL, words).number == PSCI_ACCEPTED;
    return same & answers(recode, record + REGS, record, words, PSCI_REGISTERS);
}

int main(void) {
    uint8_t block[8 * WORDS];
    uint64_t words[WORDS];
    unsigned long compared[OPERATIONS] = {0}, differed = 0;
    int labelled = 0;
    size_t size;

    while ((size = fread(block, 1, sizeof block, stdin)) == sizeof block) {
        int is_label = block[0] >= 0x20 && block[0] <= 0x7e;
        if (labelled || is_label) {
            labelled = !labelled;
            continue;
        }
        for (int i = 0; i < WORDS; i++)
            words[i] = word_at(block + 8 * i);
        if (words[0] < OPERATIONS && codecs[words[0]].encode != NULL) {
            compared[words[0]]++;
            differed += !agrees(words);
        }
    }
    if (ferror(stdin) || size != 0) {
        fprintf(stderr, "recorded: standard input could not be read, or ends in the middle of a record\n");
        return 1;
    }
    for (int i = 0; i < OPERATIONS; i++)
        if (codecs[i].encode != NULL)
            printf("%lu ", compared[i]);
    printf("%lu\n", differed);
    return 0;
}
