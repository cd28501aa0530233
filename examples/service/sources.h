/* What the library asks its caller for: the bytes of files, the clock, and random bytes. */
#ifndef SOURCES_H
#define SOURCES_H

#include <fcntl.h>
#include <sys/random.h>
#include <sys/stat.h>

#include "fevstunik.h"
#include "wire.h"

/* The bytes of a file of any size, which the caller overwrites and frees, or NULL. There is no other copy of them. */
static inline uint8_t *whole_file(const char *name, size_t *size)
{
    int file = open(name, O_RDONLY);
    struct stat found;
    uint8_t *bytes = file >= 0 && fstat(file, &found) == 0 ? malloc((size_t)found.st_size + 1) : NULL;
    ssize_t count = bytes == NULL ? -1 : read(file, bytes, (size_t)found.st_size + 1);

    if (file >= 0)
        close(file);
    *size = count < 0 ? 0 : (size_t)count;
    if (count >= 0 && count == found.st_size)
        return bytes;
    free(bytes);
    return NULL;
}

static inline fevstunik_time clock_now(void)
{
    struct timespec time;
    fevstunik_time now;

    if (clock_gettime(CLOCK_REALTIME, &time) != 0)
        give_up("clock");
    now.seconds = time.tv_sec;
    now.micros = (uint32_t)(time.tv_nsec / 1000);
    return now;
}

static inline void draw(uint8_t *at, size_t size)
{
    if (getrandom(at, size, 0) != (ssize_t)size)
        give_up("getrandom");
}

#endif
