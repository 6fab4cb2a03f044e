/* Power calls between system images and board firmware (Arm's PSCI), for callers in C11 and C++11.
 *
 * A power call comes as four registers, r0 to r3. psci_decode turns them into a call, psci_encode a call into four words, psci_recode does one
 * after the other, and psci_line writes a record's line of a sheet. Decoding ignores some bits of the registers: psci_decode_with_leftovers gives
 * those too, and psci_encode_with_leftovers puts them back. The functions with smccc in their names, and psci_line, read memory protect by the low
 * half of r1, as the SMC Calling Convention gives it to a 32-bit call; psci_decode, psci_recode and psci_decode_with_leftovers read it as the Rust
 * crate arm-psci does, by all of r1. Every function is proved to give what its definition says, for all contents of what it is lent;
 * docs/PROMISES.md leads to the definitions. docs/EMBEDDING.md says how to build and link the archives:
 *
 *   libcall_exports.a      psci_decode, psci_decode_smccc, psci_encode, psci_recode, psci_recode_smccc
 *   libleftover_exports.a  psci_decode_with_leftovers, psci_decode_smccc_with_leftovers, psci_encode_with_leftovers
 *   libline_exports.a      psci_line
 *   liboriginal_exports.a  psci_decode_original, psci_encode_original, psci_recode_original
 *
 * DEN0022 has two formats of a power state, the extended and the original one, and a board is set to one of them. Suspend, residency and count are
 * the calls that have a power state. The three functions of liboriginal_exports.a belong together, for boards set to the original format; all others
 * belong together, for boards set to the extended format. Neither four registers nor nine words say which format they are of: those of one format
 * must not be handed to a function of the other, which may refuse them or take them for another call. A line is of the extended format alone.
 *
 * What a caller owes: each pointer is to as many words or bytes as its parameter says, aligned for them; nothing else writes to them during the
 * call; and no parameter that is written overlaps another. What the numbers are is never a caller's duty: every input gets an answer.
 *
 * There is no state, no heap and no start-up code, so all cores may call at once.
 */
#ifndef RAMPCOMFREY_PSCI_H
#define RAMPCOMFREY_PSCI_H

#include <stddef.h>
#include <stdint.h>

#ifdef __cplusplus
#define PSCI_ASSERT(fact, text) static_assert(fact, text)
#define PSCI_ALIGNMENT(type) alignof(type)
extern "C" {
#else
#define PSCI_ASSERT(fact, text) _Static_assert(fact, text)
#define PSCI_ALIGNMENT(type) _Alignof(type)
#endif

/* How many words the registers of a call are, how many words a call is, and how many bytes are lent for a line. */
#define PSCI_REGISTERS 4
#define PSCI_CALL_WORDS 9
#define PSCI_LINE_BYTES 80

/* The highest record number of a line. */
#define PSCI_LAST_RECORD 1899

/* What decode, encode and recode say: 0 and 0, or a refusal's number and the value that it carries. */
struct psci_refusal {
    uint64_t number; /* PSCI_ACCEPTED, or one of enum psci_refusal_number */
    uint64_t carried;
};

/* What line says: 0 and how many bytes the line has, or a refusal's number and the value that it carries. */
struct psci_written {
    uint64_t number; /* PSCI_ACCEPTED, or PSCI_BAD_NUMBER */
    uint64_t value;
};

/* Why something is turned back. docs/REFUSALS.md has all numbers, also of operations that are not in this header. To the image firmware
 * answers -1 (NOT_SUPPORTED) for 1 and -2 (INVALID_PARAMETERS) for every other number. */
enum psci_refusal_number {
    PSCI_ACCEPTED = 0,

    /* decode, recode; in this order: 1 for an unknown number, 5, then the fields by register */
    PSCI_UNRECOGNISED_FUNCTION_ID = 1,         /* carries the low half of r0, or the feature asked about */
    PSCI_INVALID_POWER_STATE = 2,              /* the power state: in the extended format alone */
    PSCI_INVALID_MPIDR_32 = 3,                 /* the low half of the register */
    PSCI_INVALID_MPIDR_64 = 4,                 /* the register */
    PSCI_INVALID_LOWER_AFFINITY_LEVEL = 5,     /* the level */
    PSCI_UNRECOGNISED_SYSTEM_OFF2_TYPE = 6,    /* the type */
    PSCI_UNRECOGNISED_SYSTEM_RESET2_TYPE = 7,  /* the type */
    PSCI_UNRECOGNISED_SUSPEND_MODE = 8,        /* the mode */
    PSCI_INVALID_ORIGINAL_POWER_STATE = 26,    /* the power state: in the original format alone, in the place of 2 */

    /* encode; 1002 and 1003 come first, since such words are no call */
    PSCI_MIXED_CALL_FORMS = 14,                /* 0: a CPU on whose MPIDR and entry differ in form */
    PSCI_INVALID_STATE_ID = 15,                /* the state ID, which is above 0x0fffffff: in the extended format alone */
    PSCI_INVALID_POWER_LEVEL = 27,             /* the level, which is above 3: in the original format alone, in the place of 15 */
    PSCI_INVALID_VENDOR_TYPE = 31,             /* the vendor's reset type, which is above 0x7fffffff */
    PSCI_UNKNOWN_TAG = 1002,                   /* the tag */
    PSCI_WRONG_PART = 1003,                    /* 0: a part that has no room in its slot, is no feature's number, or is not 0 where there is none */

    /* line */
    PSCI_BAD_NUMBER = 24                       /* the record number, which is above PSCI_LAST_RECORD */
};

/* A call is nine words: its tag, then the parts of its fields in order, then zeros. call[0] is one of these. */
enum psci_tag {
    PSCI_TAG_VERSION = 0,
    PSCI_TAG_CPU_SUSPEND = 1,
    PSCI_TAG_CPU_OFF = 2,
    PSCI_TAG_CPU_ON = 3,
    PSCI_TAG_AFFINITY_INFO = 4,
    PSCI_TAG_MIGRATE = 5,
    PSCI_TAG_MIGRATE_INFO_TYPE = 6,
    PSCI_TAG_MIGRATE_INFO_UP_CPU = 7,
    PSCI_TAG_SYSTEM_OFF = 8,
    PSCI_TAG_SYSTEM_OFF2 = 9,
    PSCI_TAG_SYSTEM_RESET = 10,
    PSCI_TAG_SYSTEM_RESET2 = 11,
    PSCI_TAG_MEM_PROTECT = 12,
    PSCI_TAG_MEM_PROTECT_CHECK_RANGE = 13,
    PSCI_TAG_FEATURES = 14,
    PSCI_TAG_CPU_FREEZE = 15,
    PSCI_TAG_CPU_DEFAULT_SUSPEND = 16,
    PSCI_TAG_NODE_HW_STATE = 17,
    PSCI_TAG_SYSTEM_SUSPEND = 18,
    PSCI_TAG_SET_SUSPEND_MODE = 19,
    PSCI_TAG_STAT_RESIDENCY = 20,
    PSCI_TAG_STAT_COUNT = 21
};

/* Where the parts of a call stand in its words. */
enum psci_part {
    /* where a field begins, by call; a call that is not here has no parts */
    PSCI_CPU_SUSPEND_STATE = 1,             /* power state */
    PSCI_CPU_SUSPEND_ENTRY = 3,             /* entry */
    PSCI_CPU_ON_TARGET_CPU = 1,             /* MPIDR */
    PSCI_CPU_ON_ENTRY = 6,                  /* entry */
    PSCI_AFFINITY_INFO_MPIDR = 1,           /* MPIDR */
    PSCI_AFFINITY_INFO_LEVEL = 6,           /* one word of 32 bits; decode gives at most 2, or 3 with affinity 3 */
    PSCI_MIGRATE_TARGET_AFFINITY = 1,       /* MPIDR */
    PSCI_MIGRATE_INFO_UP_CPU_IS_32BIT = 1,  /* one word, 0 or 1 */
    PSCI_SYSTEM_OFF2_TYPE = 1,              /* one word, 0: hibernate off */
    PSCI_SYSTEM_OFF2_COOKIE = 2,            /* cookie */
    PSCI_SYSTEM_RESET2_TYPE = 1,            /* reset type */
    PSCI_SYSTEM_RESET2_COOKIE = 3,          /* cookie */
    PSCI_MEM_PROTECT_ENABLED = 1,           /* one word, 0 or 1 */
    PSCI_MEM_PROTECT_CHECK_RANGE_RANGE = 1, /* range */
    PSCI_FEATURES_FEATURE = 1,              /* one word, one of PSCI_FUNCTION_.., or PSCI_FEATURE_SMCCC_VERSION */
    PSCI_CPU_DEFAULT_SUSPEND_ENTRY = 1,     /* entry */
    PSCI_NODE_HW_STATE_TARGET_CPU = 1,      /* MPIDR */
    PSCI_NODE_HW_STATE_LEVEL = 6,           /* one word of 32 bits */
    PSCI_SYSTEM_SUSPEND_ENTRY = 1,          /* entry */
    PSCI_SET_SUSPEND_MODE_MODE = 1,         /* one word, 0 platform coordinated, 1 OS initiated */
    PSCI_STAT_RESIDENCY_TARGET_CPU = 1,     /* MPIDR */
    PSCI_STAT_RESIDENCY_STATE = 6,          /* power state */
    PSCI_STAT_COUNT_TARGET_CPU = 1,         /* MPIDR */
    PSCI_STAT_COUNT_STATE = 6,              /* power state */

    /* the same of a suspend in the original format, whose power state is one part longer; every other field, the power states of residency and
     * count too, begins where it does above */
    PSCI_ORIGINAL_CPU_SUSPEND_STATE = 1, /* original power state */
    PSCI_ORIGINAL_CPU_SUSPEND_ENTRY = 4, /* entry */

    /* the parts of a field, counted from where it begins: call[PSCI_CPU_ON_ENTRY + PSCI_ENTRY_ADDRESS]; a form is 0 in a 32-bit call, whose
     * words have 32 bits, and 1 in a 64-bit call */
    PSCI_MPIDR_HAS_AFF3 = 0, /* 1 in a 64-bit call; 0 in a 32-bit call, and then affinity 3 is 0 */
    PSCI_MPIDR_AFF3 = 1,     /* affinities have 8 bits */
    PSCI_MPIDR_AFF2 = 2,
    PSCI_MPIDR_AFF1 = 3,
    PSCI_MPIDR_AFF0 = 4,

    /* a power state of the extended format */
    PSCI_POWER_STATE_DOWN = 0, /* 0 standby or retention, 1 power down */
    PSCI_POWER_STATE_ID = 1,   /* 32 bits; decode gives at most 0x0fffffff */

    /* one of the original format */
    PSCI_ORIGINAL_STATE_DOWN = 0,  /* 0 standby or retention, 1 power down */
    PSCI_ORIGINAL_STATE_ID = 1,    /* 16 bits */
    PSCI_ORIGINAL_STATE_LEVEL = 2, /* 8 bits; decode gives at most 3 */

    PSCI_ENTRY_FORM = 0,
    PSCI_ENTRY_ADDRESS = 1,
    PSCI_ENTRY_CONTEXT = 2,

    PSCI_COOKIE_FORM = 0,
    PSCI_COOKIE_WORD = 1,

    PSCI_RANGE_FORM = 0,
    PSCI_RANGE_BASE = 1,
    PSCI_RANGE_LENGTH = 2,

    PSCI_RESET_VENDOR = 0, /* 0 the architectural warm reset, and then the type is 0; 1 a vendor's */
    PSCI_RESET_TYPE = 1    /* 0x7fffffff at most: bit 31 of the word, which marks a vendor's and which encode sets, is no part of it */
};

/* The functions by their numbers, document 01's: the low half of r0, the first of a call's four words, and what a feature can be. */
#define PSCI_FUNCTION_PSCI_VERSION               0x84000000
#define PSCI_FUNCTION_CPU_SUSPEND_32             0x84000001
#define PSCI_FUNCTION_CPU_SUSPEND_64             0xc4000001
#define PSCI_FUNCTION_CPU_OFF                    0x84000002
#define PSCI_FUNCTION_CPU_ON_32                  0x84000003
#define PSCI_FUNCTION_CPU_ON_64                  0xc4000003
#define PSCI_FUNCTION_AFFINITY_INFO_32           0x84000004
#define PSCI_FUNCTION_AFFINITY_INFO_64           0xc4000004
#define PSCI_FUNCTION_MIGRATE_32                 0x84000005
#define PSCI_FUNCTION_MIGRATE_64                 0xc4000005
#define PSCI_FUNCTION_MIGRATE_INFO_TYPE          0x84000006
#define PSCI_FUNCTION_MIGRATE_INFO_UP_CPU_32     0x84000007
#define PSCI_FUNCTION_MIGRATE_INFO_UP_CPU_64     0xc4000007
#define PSCI_FUNCTION_SYSTEM_OFF                 0x84000008
#define PSCI_FUNCTION_SYSTEM_RESET               0x84000009
#define PSCI_FUNCTION_PSCI_FEATURES              0x8400000a
#define PSCI_FUNCTION_CPU_FREEZE                 0x8400000b
#define PSCI_FUNCTION_CPU_DEFAULT_SUSPEND_32     0x8400000c
#define PSCI_FUNCTION_CPU_DEFAULT_SUSPEND_64     0xc400000c
#define PSCI_FUNCTION_NODE_HW_STATE_32           0x8400000d
#define PSCI_FUNCTION_NODE_HW_STATE_64           0xc400000d
#define PSCI_FUNCTION_SYSTEM_SUSPEND_32          0x8400000e
#define PSCI_FUNCTION_SYSTEM_SUSPEND_64          0xc400000e
#define PSCI_FUNCTION_PSCI_SET_SUSPEND_MODE      0x8400000f
#define PSCI_FUNCTION_PSCI_STAT_RESIDENCY_32     0x84000010
#define PSCI_FUNCTION_PSCI_STAT_RESIDENCY_64     0xc4000010
#define PSCI_FUNCTION_PSCI_STAT_COUNT_32         0x84000011
#define PSCI_FUNCTION_PSCI_STAT_COUNT_64         0xc4000011
#define PSCI_FUNCTION_SYSTEM_RESET2_32           0x84000012
#define PSCI_FUNCTION_SYSTEM_RESET2_64           0xc4000012
#define PSCI_FUNCTION_MEM_PROTECT                0x84000013
#define PSCI_FUNCTION_MEM_PROTECT_CHECK_RANGE_32 0x84000014
#define PSCI_FUNCTION_MEM_PROTECT_CHECK_RANGE_64 0xc4000014
#define PSCI_FUNCTION_SYSTEM_OFF2_32             0x84000015
#define PSCI_FUNCTION_SYSTEM_OFF2_64             0xc4000015

/* The one feature that is no function. */
#define PSCI_FEATURE_SMCCC_VERSION 0x80000000

/* The call that the four registers make. Accepted: all nine words of call are written. Refused, 1 to 8: call is left as it was. */
struct psci_refusal psci_decode(const uint64_t regs[PSCI_REGISTERS], uint64_t call[PSCI_CALL_WORDS]);

/* The same, but that memory protect (PSCI_TAG_MEM_PROTECT) is enabled where the low half of r1 is not zero, whatever its high half holds. With r1
 * 0x100000000 it is disabled here, and enabled by psci_decode. Every other call, and every refusal, is psci_decode's; refused, 1 to 8, call is left
 * as it was. */
struct psci_refusal psci_decode_smccc(const uint64_t regs[PSCI_REGISTERS], uint64_t call[PSCI_CALL_WORDS]);

/* The four words of a call: its function number, its fields in their registers, all other bits zero. Accepted: all four words of out are
 * written. Refused, 1002, 1003, 14, 15 or 31: out is left as it was. Words that psci_decode or psci_decode_smccc gave are never refused, and the four
 * words are then those of psci_recode or psci_recode_smccc: both are proved. */
struct psci_refusal psci_encode(const uint64_t call[PSCI_CALL_WORDS], uint64_t out[PSCI_REGISTERS]);

/* Decodes four registers and encodes the call: what is left are the function number and its fields. Accepted: all four words of out are
 * written. Refused, 1 to 8: out is left as it was. */
struct psci_refusal psci_recode(const uint64_t regs[PSCI_REGISTERS], uint64_t out[PSCI_REGISTERS]);

/* The same by psci_decode_smccc: the second word of memory protect is 0 or 1 by the low half of r1. Refused, 1 to 8: out is left as it was. */
struct psci_refusal psci_recode_smccc(const uint64_t regs[PSCI_REGISTERS], uint64_t out[PSCI_REGISTERS]);

/* Decodes as psci_decode, and keeps what decoding ignores: each leftover is the register exclusive-or the word that psci_encode writes for it, so a
 * bit is set where these two differ. All four are zero exactly where the registers are what psci_recode makes of them. Accepted: all nine words of
 * call and all four of leftovers are written. Refused, 1 to 8: both are left as they were. */
struct psci_refusal psci_decode_with_leftovers(const uint64_t regs[PSCI_REGISTERS], uint64_t call[PSCI_CALL_WORDS],
                                               uint64_t leftovers[PSCI_REGISTERS]);

/* The same by psci_decode_smccc and psci_recode_smccc. Of memory protect with r1 0x100000000 the second leftover is 0x100000000 here, where it is
 * disabled and written 0, and 0x100000001 by the function above. Refused, 1 to 8: call and leftovers are left as they were. */
struct psci_refusal psci_decode_smccc_with_leftovers(const uint64_t regs[PSCI_REGISTERS], uint64_t call[PSCI_CALL_WORDS],
                                                     uint64_t leftovers[PSCI_REGISTERS]);

/* The four words of a call as psci_encode writes them, each exclusive-or its leftover; the leftovers may be any four words. Accepted: all four words
 * of out are written. Refused, 1002, 1003, 14, 15 or 31: out is left as it was. A call and leftovers that either of the two above gave are never
 * refused, and the four words are then the registers that it was given: both are proved. */
struct psci_refusal psci_encode_with_leftovers(const uint64_t call[PSCI_CALL_WORDS], const uint64_t leftovers[PSCI_REGISTERS],
                                               uint64_t out[PSCI_REGISTERS]);

/* For boards set to the original format, as the two below. The call that the four registers make. Of the power state of a suspend, residency or
 * count bits 0 to 15 are the state ID, bit 16 power down, and bits 24 and 25 the level; a bit set elsewhere in it is 26. In residency and count a
 * refused MPIDR comes first. Every other call, and every other refusal, is psci_decode's: memory protect by all of r1. Accepted: all nine words of
 * call are written. Refused, 1, 3 to 8 or 26: call is left as it was. */
struct psci_refusal psci_decode_original(const uint64_t regs[PSCI_REGISTERS], uint64_t call[PSCI_CALL_WORDS]);

/* The four words of a call of the original format: its function number, its fields in their registers, all other bits zero. Accepted: all four
 * words of out are written. Refused, 1002, 1003, 14, 27 or 31: out is left as it was. Words that psci_decode_original gave are never refused, and the
 * four words are then those of psci_recode_original: both are proved. */
struct psci_refusal psci_encode_original(const uint64_t call[PSCI_CALL_WORDS], uint64_t out[PSCI_REGISTERS]);

/* Decodes four registers by psci_decode_original and encodes the call by psci_encode_original. Accepted: all four words of out are written.
 * Refused, 1, 3 to 8 or 26: out is left as it was. It is proved to refuse what psci_decode_original refuses and nothing else. */
struct psci_refusal psci_recode_original(const uint64_t regs[PSCI_REGISTERS], uint64_t out[PSCI_REGISTERS]);

/* The line of the record of that number with those registers: the number, then "ok" and the four words that psci_recode_smccc gives, or "no", the
 * refusal's number and what it carries; words and values as 16 hexadecimal digits, one space between all, a line feed at the end. Accepted:
 * value bytes at the front of out are the line, the rest of out is left as it was. Refused, PSCI_BAD_NUMBER: out is left as it was. */
struct psci_written psci_line(size_t number, const uint64_t regs[PSCI_REGISTERS], uint8_t out[PSCI_LINE_BYTES]);

/* What the archives take for granted. Results are two words, so that they come back in registers on x86-64 and on AArch64. */
PSCI_ASSERT(sizeof(uint64_t) == 8 && PSCI_ALIGNMENT(uint64_t) == 8, "a word has eight bytes and stands at a multiple of eight");
PSCI_ASSERT(sizeof(uint8_t) == 1, "a byte has one byte");
PSCI_ASSERT(sizeof(size_t) == 8 && sizeof(void *) == 8, "a size and a pointer have eight bytes");
PSCI_ASSERT(sizeof(struct psci_refusal) == 16 && PSCI_ALIGNMENT(struct psci_refusal) == 8, "a refusal is two words");
PSCI_ASSERT(offsetof(struct psci_refusal, number) == 0 && offsetof(struct psci_refusal, carried) == 8, "the number, then the value");
PSCI_ASSERT(sizeof(struct psci_written) == 16 && PSCI_ALIGNMENT(struct psci_written) == 8, "what line says is two words");
PSCI_ASSERT(offsetof(struct psci_written, number) == 0 && offsetof(struct psci_written, value) == 8, "the number, then the value");
PSCI_ASSERT(PSCI_CPU_ON_ENTRY + PSCI_ENTRY_CONTEXT == PSCI_CALL_WORDS - 1, "the longest call fills its words");
PSCI_ASSERT(PSCI_STAT_RESIDENCY_STATE + PSCI_ORIGINAL_STATE_LEVEL == PSCI_CALL_WORDS - 1, "so does a residency of the original format");
PSCI_ASSERT(PSCI_STAT_COUNT_STATE + PSCI_ORIGINAL_STATE_LEVEL == PSCI_CALL_WORDS - 1, "so does a count of the original format");
PSCI_ASSERT(PSCI_ORIGINAL_CPU_SUSPEND_ENTRY == PSCI_CPU_SUSPEND_ENTRY + 1, "a power state of the original format is a word longer");
PSCI_ASSERT(PSCI_ORIGINAL_CPU_SUSPEND_STATE + PSCI_ORIGINAL_STATE_LEVEL + 1 == PSCI_ORIGINAL_CPU_SUSPEND_ENTRY, "the level stands before the entry");
PSCI_ASSERT(PSCI_SYSTEM_OFF2_TYPE + 1 == PSCI_SYSTEM_OFF2_COOKIE, "the off type is one word, before the cookie");

#ifdef __cplusplus
}
#endif

#undef PSCI_ASSERT
#undef PSCI_ALIGNMENT

#endif
