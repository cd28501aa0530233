/* Drawing by a stored seed, and bytes that are bent. */
#ifndef DRAWN_H
#define DRAWN_H

#include <string.h>

#include "bytes.h"

static uint64_t state;

/* xorshift64 (Marsaglia, "Xorshift RNGs") */
static inline uint32_t below(uint32_t limit)
{
    state ^= state << 13;
    state ^= state >> 7;
    state ^= state << 17;
    return (uint32_t)((state >> 32) % limit);
}

enum bend { BIT_TURNED, END_CUT_OFF, CUT_OUT, PUT_IN_TWICE };

/* Bends the bytes at a place: a piece of this size, which is put in twice only if there is room. */
static inline void bend_at(struct bytes *bytes, size_t at, size_t size, size_t room, enum bend how)
{
    switch (how) {
    case BIT_TURNED:
        bytes->at[at] ^= (uint8_t)(1u << below(8));
        break;
    case END_CUT_OFF:
        bytes->size = at;
        break;
    case CUT_OUT:
        memmove(bytes->at + at, bytes->at + at + size, bytes->size - at - size);
        bytes->size -= size;
        break;
    case PUT_IN_TWICE:
        if (bytes->size + size <= room) {
            memmove(bytes->at + at + size, bytes->at + at, bytes->size - at);
            bytes->size += size;
        }
    }
}

#endif
