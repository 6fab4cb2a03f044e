/* What a program in C stands on where there is no operating system: QEMU's machine virt, at EL1, with the MMU off and alignment checked. Linked to a
 * test it takes the place of the C library, as far as the tests need one.
 *
 * A word that is read or written at an address which is no multiple of its size ends in a fault here, and so does an instruction that names a
 * floating-point or vector register. A fault is a line on standard error, and the status 3. Input, output and arguments come by Arm's semihosting:
 * they are QEMU's own, and the words of its -append. */
#include <stdarg.h>
#include <stdint.h>
#include <stdio.h>
#include <string.h>

/* SCTLR_EL1: bit 1 has alignment checked, bit 3 that of the stack; bit 0, the MMU, is off; the others are those that are always set. With CPACR_EL1 0
 * no floating-point or vector instruction is let through. All exceptions go to one place. */
__asm__(".section .text.start, \"ax\"\n"
        ".global _start\n"
        "_start: adrp x0, top\n"
        "        add sp, x0, :lo12:top\n"
        "        adr x0, vectors\n"
        "        msr vbar_el1, x0\n"
        "        msr cpacr_el1, xzr\n"
        "        ldr x0, =0x30d0080a\n"
        "        msr sctlr_el1, x0\n"
        "        isb\n"
        "        b start\n"
        "        .balign 0x800\n"
        "vectors: .rept 16\n"
        "        .balign 0x80\n"
        "        mrs x0, esr_el1\n"
        "        mrs x1, elr_el1\n"
        "        mrs x2, far_el1\n"
        "        b fault\n"
        "        .endr\n"
        ".global semihosting\n"
        "semihosting: hlt 0xf000\n"
        "        ret\n"
        ".bss\n"
        "        .balign 16\n"
        "        .skip 0x10000\n"
        "top:\n"
        ".text\n");

enum { OPEN = 0x01, WRITE0 = 0x04, WRITE = 0x05, READ = 0x06, COMMAND_LINE = 0x15, EXIT = 0x18 };
enum { APPLICATION_EXIT = 0x20026, READ_BYTES = 1, APPEND_BYTES = 9, FAULT = 3 };

long semihosting(long operation, const void *block);
int main(int count, char **arguments);
_Noreturn void start(void);
_Noreturn void fault(uint64_t syndrome, uint64_t instruction, uint64_t address);

static FILE files[3];
FILE *stdin = &files[0], *stdout = &files[1], *stderr = &files[2];
static long input, output;
static int input_failed;
static char read[4096], written[4096];
static size_t read_at, read_end, written_end;

static void flush(void) {
    const uint64_t block[3] = {(uint64_t)output, (uint64_t)written, written_end};
    semihosting(WRITE, block);
    written_end = 0;
}

static _Noreturn void leave(int status) {
    const uint64_t block[2] = {APPLICATION_EXIT, (uint64_t)status};
    flush();
    for (;;)
        semihosting(EXIT, block);
}

int getchar(void) {
    if (read_at == read_end) {
        const uint64_t block[3] = {(uint64_t)input, (uint64_t)read, sizeof read};
        size_t left = (size_t)semihosting(READ, block);
        input_failed |= left > sizeof read;
        read_at = 0;
        read_end = input_failed ? 0 : sizeof read - left;
    }
    return read_at < read_end ? (unsigned char)read[read_at++] : EOF;
}

int getc(FILE *file) { return file == stdin ? getchar() : EOF; }

int ferror(FILE *file) { return file == stdin && input_failed; }

static void put(FILE *file, char byte) {
    const char text[2] = {byte, 0};
    if (file == stderr) {
        semihosting(WRITE0, text);
    } else {
        written[written_end++] = byte;
        if (written_end == sizeof written)
            flush();
    }
}

size_t fread(void *bytes, size_t size, size_t count, FILE *file) {
    size_t had = 0;
    for (int byte; had < size * count && (byte = getc(file)) != EOF; had++)
        ((char *)bytes)[had] = (char)byte;
    return size == 1 ? had : had / size;
}

size_t fwrite(const void *bytes, size_t size, size_t count, FILE *file) {
    for (size_t i = 0; i < size * count; i++)
        put(file, ((const char *)bytes)[i]);
    return count;
}

static void put_number(FILE *file, uint64_t number, unsigned base, int digits) {
    if (digits > 1 || number >= base)
        put_number(file, number / base, base, digits - 1);
    put(file, "0123456789abcdef"[number % base]);
}

/* Text and numbers from 0 up, of as many digits as a width says: %s, %d, %lu, %zu, %lx, %016lx. */
static void put_all(FILE *file, const char *format, va_list rest) {
    for (; *format; format++) {
        int digits = 0, is_long = 0;
        if (*format != '%') {
            put(file, *format);
            continue;
        }
        while (*++format >= '0' && *format <= '9')
            digits = 10 * digits + *format - '0';
        for (; *format == 'l' || *format == 'z'; format++)
            is_long = 1;
        if (*format == 's')
            for (const char *text = va_arg(rest, const char *); *text; text++)
                put(file, *text);
        else
            put_number(file, is_long ? va_arg(rest, uint64_t) : va_arg(rest, unsigned), *format == 'x' ? 16 : 10, digits);
    }
}

int printf(const char *format, ...) {
    va_list rest;
    va_start(rest, format);
    put_all(stdout, format, rest);
    va_end(rest);
    return 0;
}

int fprintf(FILE *file, const char *format, ...) {
    va_list rest;
    va_start(rest, format);
    put_all(file, format, rest);
    va_end(rest);
    return 0;
}

void *memset(void *to, int byte, size_t size) {
    for (size_t i = 0; i < size; i++)
        ((char *)to)[i] = (char)byte;
    return to;
}

void *memcpy(void *restrict to, const void *restrict from, size_t size) {
    for (size_t i = 0; i < size; i++)
        ((char *)to)[i] = ((const char *)from)[i];
    return to;
}

int memcmp(const void *left, const void *right, size_t size) {
    const unsigned char *a = left, *b = right;
    for (size_t i = 0; i < size; i++)
        if (a[i] != b[i])
            return a[i] - b[i];
    return 0;
}

size_t strlen(const char *text) {
    size_t size = 0;
    while (text[size])
        size++;
    return size;
}

int strcmp(const char *left, const char *right) { return memcmp(left, right, strlen(left) + 1); }

_Noreturn void fault(uint64_t syndrome, uint64_t instruction, uint64_t address) {
    /* a data abort at this level, 0x25, whose reason is alignment, 0x21 */
    int is_alignment = syndrome >> 26 == 0x25 && (syndrome & 0x3f) == 0x21;
    fprintf(stderr, "bare: %s at %lx: syndrome %lx, address %lx\n", is_alignment ? "alignment fault" : "fault", instruction, syndrome, address);
    leave(FAULT);
}

static long opened(const char *name, uint64_t mode) {
    const uint64_t block[3] = {(uint64_t)name, mode, strlen(name)};
    return semihosting(OPEN, block);
}

_Noreturn void start(void) {
    static char line[512], *words[8];
    uint64_t block[2] = {(uint64_t)line, sizeof line};
    int count = 0;
    input = opened("/dev/stdin", READ_BYTES);
    output = opened("/dev/stdout", APPEND_BYTES);
    semihosting(COMMAND_LINE, block);
    for (char *at = line; *at && count < 8; count++) {
        words[count] = at;
        while (*at && *at != ' ')
            at++;
        if (*at)
            *at++ = 0;
    }
    leave(main(count, words));
}
