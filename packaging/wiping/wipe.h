/* How what is dead is overwritten. No optimiser drops it. */
#ifndef WIPE_H
#define WIPE_H

#include <stddef.h>
#include <stdint.h>
#include <string.h>

/* Overwrites memory that isn't read again. */
static inline void wipe(void *at, size_t size)
{
    memset(at, 0, size);
    __asm__ volatile("" : : "r"(at) : "memory");
}

/* Overwrites so many bytes of the stack below the caller's frame, and the registers that a call needn't keep. */
void wipe_below(size_t size) __attribute__((visibility("hidden")));

/* Which vector registers there are. */
extern uint8_t vectors __attribute__((visibility("hidden")));

#endif
