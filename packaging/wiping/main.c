/* The main function of krbtool: it calls the proved one in the build for the processor, and then overwrites the stack below. */
#define _DEFAULT_SOURCE
#include <stdbool.h>
#include <stdint.h>
#include <sys/mman.h>
#include <sys/platform/x86.h>
#include <unistd.h>

#include "wipe.h"

int main(int count, char **words, char **environment);

/* The proved one in each build, under the names that packaging/link-program gives. */
int x86_64_main(int count, char **words, char **environment);
int x86_64_v2_main(int count, char **words, char **environment);

/* Whether the processor has what x86-64-v2 adds. The loader asks the same of the C library before it picks a build of the shared library, and
 * so does the proved main of that build, which otherwise refuses to run. */
static bool is_v2(void)
{
    return CPU_FEATURE_ACTIVE(CMPXCHG16B) && CPU_FEATURE_ACTIVE(LAHF64_SAHF64) && CPU_FEATURE_ACTIVE(POPCNT) &&
           CPU_FEATURE_ACTIVE(SSE3) && CPU_FEATURE_ACTIVE(SSSE3) && CPU_FEATURE_ACTIVE(SSE4_1) &&
           CPU_FEATURE_ACTIVE(SSE4_2);
}

/* The lowest address of the stack that is mapped: it grows by pages as it is used. */
static uintptr_t lowest_mapped(uintptr_t address)
{
    uintptr_t page = (uintptr_t)sysconf(_SC_PAGESIZE), low = address / page * page;
    unsigned char is_in_memory;

    while (mincore((void *)(low - page), page, &is_in_memory) == 0)
        low -= page;
    return low;
}

int main(int count, char **words, char **environment)
{
    int status = (is_v2() ? x86_64_v2_main : x86_64_main)(count, words, environment);
    uintptr_t top, low;

    __asm__ volatile("movq %%rsp, %0" : "=r"(top));
    low = lowest_mapped(top);
    /* (the address that it returns to is above) */
    wipe_below(top - sizeof top - low);
    return status;
}
