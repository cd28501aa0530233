/* Which vector registers there are: wipe.S overwrites those. */
#include <cpuid.h>
#include <stdint.h>

#include "wipe.h"

enum { SSE, AVX, AVX_512 };

/* Bits of what cpuid says, and of what the system saves of a process (XCR0). */
#define OSXSAVE (1u << 27)
#define AVX_512_VL (1u << 31)
#define SAVES_AVX 0x06u
#define SAVES_AVX_512 0xe6u

uint8_t vectors = SSE;

static uint32_t saved_by_the_system(void)
{
    uint32_t low, high;

    __asm__ volatile("xgetbv" : "=a"(low), "=d"(high) : "c"(0));
    return low;
}

/* Runs when the program, or the library, is loaded. */
__attribute__((constructor)) static void look(void)
{
    uint32_t a, b, c, d;

    if (!__get_cpuid(1, &a, &b, &c, &d) || (c & OSXSAVE) == 0 || (saved_by_the_system() & SAVES_AVX) != SAVES_AVX)
        return;
    vectors = AVX;
    if (__get_cpuid_count(7, 0, &a, &b, &c, &d) && (b & AVX_512_VL) != 0 &&
        (saved_by_the_system() & SAVES_AVX_512) == SAVES_AVX_512)
        vectors = AVX_512;
}
