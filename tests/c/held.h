/* How many bytes the program holds. A program that includes this is linked with --wrap=malloc, --wrap=realloc and --wrap=free. */
#ifndef HELD_H
#define HELD_H

#include <stdint.h>
#include <stdlib.h>
#include <string.h>

/* In front of each piece: its size. */
#define HEAD 16

void *__real_malloc(size_t size);
void *__real_realloc(void *at, size_t size);
void __real_free(void *at);
void *__wrap_malloc(size_t size);
void *__wrap_realloc(void *at, size_t size);
void __wrap_free(void *at);

/* How many bytes were asked for and aren't freed. The heap's own header of each piece isn't counted. */
static size_t held = 0;

static void *sized(uint8_t *at, size_t size)
{
    if (at == NULL)
        return NULL;
    memcpy(at, &size, sizeof size);
    held += size;
    return at + HEAD;
}

static uint8_t *head(uint8_t *at)
{
    size_t size;

    memcpy(&size, at - HEAD, sizeof size);
    held -= size;
    return at - HEAD;
}

void *__wrap_malloc(size_t size)
{
    return sized(__real_malloc(size + HEAD), size);
}

void *__wrap_realloc(void *at, size_t size)
{
    return sized(__real_realloc(at == NULL ? NULL : head(at), size + HEAD), size);
}

void __wrap_free(void *at)
{
    if (at != NULL)
        __real_free(head(at));
}

#endif
