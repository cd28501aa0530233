/* Binds what the library calls of the C library when it is loaded. A program over the static library may leave that to the loader, at the first
 * call of each function: the loader then saves all registers on the stack, deeper down than is overwritten. */
#include <stdint.h>
#include <stdlib.h>
#include <string.h>

/* No optimiser drops what was done before. */
#define IS_USED(at) __asm__ volatile("" : : "r"(at) : "memory")

static volatile size_t none = 0;

__attribute__((constructor)) static void bind(void)
{
    static uint8_t bytes, more;
    void *block = malloc(none + 1);

    IS_USED(block);
    free(block);
    memcpy(&bytes, &more, none);
    IS_USED(&bytes);
    memmove(&bytes, &more, none);
    IS_USED(&bytes);
    memset(&bytes, 0, none);
    IS_USED(&bytes);
}
