/* The heap of the library for C and of krbtool: what the proved code calls to allocate and to free, over malloc and free. It stands in for the
 * toolchain's file of these functions, and overwrites each block before it is freed or moved.
 *
 * The size of a block stands before it, so nothing is asked of malloc but what C says: any allocator will do. A block that grows is moved by
 * hand, since realloc may leave a copy behind. */
#include <stdbool.h>
#include <stdint.h>
#include <stdlib.h>
#include <string.h>

#include "wipe.h"

/* The proved code asks for alignments up to 16, which malloc has too. */
#define HEAD 16

/* What the proved code gets: whether there was memory, and the block. Without memory it is some address. */
struct tried {
    bool ok;
    uint8_t *block;
};

struct tried rattle_alloc(size_t size, size_t alignment);
struct tried rattle_realloc(uint8_t *block, size_t kept, size_t size, size_t alignment);
void rattle_dealloc(uint8_t *block);

/* A block of up to so many bytes is overwritten here, since calling memset would take longer than that. */
#define SMALL 128

static uint8_t nothing;

static size_t *size_of(uint8_t *block)
{
    return (size_t *)(void *)(block - HEAD);
}

/* Overwrites a block that is freed. The last step of a small one may take some of what stands before it, which isn't needed any more. */
static void wipe_block(uint8_t *block, size_t room)
{
    if (room > SMALL) {
        wipe(block, room);
        return;
    }
    for (size_t at = 0; at + HEAD <= room; at += HEAD)
        wipe(block + at, HEAD);
    wipe(block + room - HEAD, HEAD);
}

struct tried rattle_alloc(size_t size, size_t alignment)
{
    struct tried tried = {false, &nothing};
    size_t room = size > 0 ? size : alignment;
    uint8_t *start = room <= SIZE_MAX - HEAD ? malloc(HEAD + room) : NULL;

    if (start != NULL) {
        tried.ok = true;
        tried.block = start + HEAD;
        *size_of(tried.block) = room;
    }
    return tried;
}

void rattle_dealloc(uint8_t *block)
{
    wipe_block(block, *size_of(block));
    free(block - HEAD);
}

/* Makes a block one of another size, with its first `kept` bytes. Without memory it is as it was. A block that gets little smaller stays
 * where it is. */
struct tried rattle_realloc(uint8_t *block, size_t kept, size_t size, size_t alignment)
{
    struct tried stays = {true, block}, tried;
    size_t room = *size_of(block);

    if (size > 0 && size <= room && size > room / 4 * 3)
        return stays;
    tried = rattle_alloc(size, alignment);
    if (!tried.ok && size > 0 && size <= room)
        return stays;
    if (tried.ok) {
        memcpy(tried.block, block, kept);
        rattle_dealloc(block);
    }
    return tried;
}
