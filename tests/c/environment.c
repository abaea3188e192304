/* Asks for the floating-point environment under each rounding and with small numbers taken for 0, as a program can set them, and sees
   that the answer is yes under the proved one alone. Prints each that answers otherwise. */
#include "lictor.h"

#include <fenv.h>
#include <stdio.h>

#if defined(__x86_64__)
#include <immintrin.h>
static unsigned long control(void) { return _mm_getcsr(); }
static void set_control(unsigned long bits) { _mm_setcsr((unsigned)bits); }
/* results and operands below the least normal number as 0 */
static const unsigned long flushes[] = {0x8000, 0x0040, 0x8040};
#elif defined(__aarch64__)
static unsigned long control(void) {
    unsigned long bits;
    __asm__ volatile("mrs %0, fpcr" : "=r"(bits));
    return bits;
}
static void set_control(unsigned long bits) { __asm__ volatile("msr fpcr, %0" : : "r"(bits)); }
/* both */
static const unsigned long flushes[] = {1ul << 24};
#else
#error "no way to flush small numbers on this processor"
#endif

static int failed;

static void expect(const char *where, int what) {
    if (!what) {
        printf("environment.c: %s\n", where);
        failed = 1;
    }
}

int main(void) {
    const int modes[] = {FE_UPWARD, FE_DOWNWARD, FE_TOWARDZERO};
    const unsigned long kept = control();
    const double small[1] = {1e-160};
    double norm = 7.0;
    uint64_t ok, number;
    expect("as it comes", lictor_environment_ok() == 1);
    expect("a length as it comes", lictor_norm(small, 1, 1, &norm) == LICTOR_ACCEPTED && norm > 0.0);
    for (int i = 0; i < 3; i++) {
        expect("a rounding is set", fesetround(modes[i]) == 0);
        ok = lictor_environment_ok();
        expect("the rounding is set back", fesetround(FE_TONEAREST) == 0);
        expect("another rounding", ok == 0);
    }
    for (unsigned i = 0; i < sizeof flushes / sizeof *flushes; i++) {
        set_control(kept | flushes[i]);
        ok = lictor_environment_ok();
        number = i == 0 ? lictor_norm(small, 1, 1, &norm) : LICTOR_ACCEPTED;
        set_control(kept);
        expect("a length is answered", number == LICTOR_ACCEPTED);
        expect("small numbers taken for 0", ok == 0);
    }
    expect("a length under flush to zero", norm == 0.0);
    expect("as it came", lictor_environment_ok() == 1);
    puts(failed ? "environment: failed" : "environment: as expected");
    return failed;
}
