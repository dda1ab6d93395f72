/* The floating-point settings that the calls ask for, and what they answer without. Run with the word `kept` this expects a program that
 * keeps subnormals, and tries every other setting in turn; with the word `flushed` one that was linked with -ffast-math, whose start turns
 * flushing on. tools/try-c compiles and runs both. */
#include "ngeunsadok.h"

#include <fenv.h>
#include <stdio.h>

static int wrong = 0;

static void expect(int truth, const char *what) {
    if (!truth) {
        printf("settings.c: not so: %s\n", what);
        wrong = 1;
    }
}

/* How the processor treats subnormals, in the bits of its control register. */
#if defined(__x86_64__)
#include <xmmintrin.h>
static void flush(unsigned bits) { _mm_setcsr((_mm_getcsr() & ~0x8040u) | bits); }
static const unsigned flushing[] = {0x8000u, 0x0040u, 0x8040u}; /* results, operands, both */
#elif defined(__aarch64__)
static void flush(unsigned bits) {
    unsigned long word;
    __asm__ volatile("mrs %0, fpcr" : "=r"(word));
    word = (word & ~0x1000000ul) | bits;
    __asm__ volatile("msr fpcr, %0" : : "r"(word));
}
static const unsigned flushing[] = {0x1000000u}; /* both */
#else
#error the archive is for x86-64 and for Arm
#endif

static uint32_t least_root(void) { return ngeunsadok_bits(ngeunsadok_root(ngeunsadok_from_bits(1)).value); }

static void kept(void) {
    const int roundings[] = {FE_UPWARD, FE_DOWNWARD, FE_TOWARDZERO};
    size_t k;

    expect(least_root() == 0x1A3504F3, "the root of 00000001 is 1A3504F3");
    expect(ngeunsadok_float_settings_hold(), "the settings hold at the start");
    for (k = 0; k < sizeof roundings / sizeof *roundings; k++) {
        fesetround(roundings[k]);
        expect(!ngeunsadok_float_settings_hold(), "another rounding is told");
        fesetround(FE_TONEAREST);
    }
    for (k = 0; k < sizeof flushing / sizeof *flushing; k++) {
        flush(flushing[k]);
        expect(!ngeunsadok_float_settings_hold(), "flushing is told");
        flush(0);
    }
    expect(ngeunsadok_float_settings_hold(), "the settings hold at the end");
    if (!wrong) puts("C: another rounding, and flushing of subnormals, are told");
}

static void flushed(void) {
    expect(!ngeunsadok_float_settings_hold(), "-ffast-math is told");
    expect(least_root() != 0x1A3504F3, "-ffast-math makes the root of 00000001 wrong");
    if (!wrong) printf("C: linked with -ffast-math the root of 00000001 is %08lX, and that is told\n", (unsigned long)least_root());
}

int main(int count, char **words) {
    if (count == 2 && !strcmp(words[1], "kept")) kept();
    else if (count == 2 && !strcmp(words[1], "flushed")) flushed();
    else wrong = 1;
    return wrong;
}
