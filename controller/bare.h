/* What a program on the emulated controller needs, without a library of C: text and files by semihosting, memory that is lent as the program cue lends it, and a timer. A program
 * that includes this defines `reset`, where the board begins. */
#ifndef BARE_H
#define BARE_H

#include <stddef.h>

#include "film_index.h"

/* Semihosting, and numbers as text. */
static int host(int operation, const void *block) {
    register int r0 __asm__("r0") = operation;
    register const void *r1 __asm__("r1") = block;
    __asm__ volatile("bkpt 0xab" : "+r"(r0) : "r"(r1) : "memory");
    return r0;
}

static void text(const char *s) { host(4, s); }

static void number(uint64_t n) {
    char digits[24];
    int at = 23;
    digits[at] = 0;
    do {
        digits[--at] = (char)('0' + n % 10);
        n /= 10;
    } while (n);
    text(digits + at);
}

/* What the compiler may ask for. */
void *memcpy(void *to, const void *from, size_t n) {
    for (size_t k = 0; k < n; k++) ((volatile uint8_t *)to)[k] = ((const uint8_t *)from)[k];
    return to;
}
void *memset(void *to, int byte, size_t n) {
    for (size_t k = 0; k < n; k++) ((volatile uint8_t *)to)[k] = (uint8_t)byte;
    return to;
}
void __aeabi_memcpy(void *to, const void *from, size_t n) { memcpy(to, from, n); }
void __aeabi_memset(void *to, size_t n, int byte) { memset(to, byte, n); }
void __aeabi_memclr(void *to, size_t n) { memset(to, 0, n); }
void __aeabi_memcpy4(void *to, const void *from, size_t n) __attribute__((alias("__aeabi_memcpy")));
void __aeabi_memcpy8(void *to, const void *from, size_t n) __attribute__((alias("__aeabi_memcpy")));
void __aeabi_memset4(void *to, size_t n, int byte) __attribute__((alias("__aeabi_memset")));
void __aeabi_memset8(void *to, size_t n, int byte) __attribute__((alias("__aeabi_memset")));
void __aeabi_memclr4(void *to, size_t n) __attribute__((alias("__aeabi_memclr")));
void __aeabi_memclr8(void *to, size_t n) __attribute__((alias("__aeabi_memclr")));

/* What is lent to a call: the numbers of 2,048 rows, and 16,384 bytes of output. */
#define ROOM (FILM_ROW_NUMBERS * 2048)
static film_row_number rows[ROOM];
static uint8_t listing[16384];

/* The timer runs down and counts instructions (-icount shift=0), 40 of them to a tick. */
#define SYST ((volatile uint32_t *)0xe000e010)

static void begin(void) {
    SYST[1] = 0xffffff;
    SYST[2] = 0;
    SYST[0] = 5;
}

static uint32_t ticks(void) { return 0xffffff - SYST[2]; }

void reset(void);
extern uint32_t stack_top[];
__attribute__((section(".vectors"), used)) const void *const vectors[2] = {stack_top, (const void *)reset};

#endif
