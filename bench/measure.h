/* What the programs of bench/ that time calls have in common: the clock, files, and calls that must succeed. */
#include <errno.h>
#include <stdint.h>
#include <stdio.h>
#include <stdlib.h>
#include <string.h>
#include <time.h>

#define SERVICE "host/web0.example.test@EXAMPLE.TEST"

struct bytes {
    uint8_t *at;
    size_t size;
};

struct parts {
    struct bytes *at;
    long count;
};

static inline double processor_time(void)
{
    struct timespec t;
    clock_gettime(CLOCK_PROCESS_CPUTIME_ID, &t);
    return t.tv_sec * 1e9 + t.tv_nsec;
}

/* Prints the nanoseconds of processor time for each call since `began`. */
static inline void tell(double began, long count)
{
    printf("%.1f\n", (processor_time() - began) / count);
}

static inline void must(int is_well, const char *what, unsigned long code)
{
    if (!is_well) {
        fprintf(stderr, "%s: %lu\n", what, code);
        exit(1);
    }
}

static inline struct bytes read_file(const char *name)
{
    FILE *file = fopen(name, "rb");
    struct bytes bytes = {malloc(1 << 26), 0};
    must(file != NULL && bytes.at != NULL, name, errno);
    bytes.size = fread(bytes.at, 1, 1 << 26, file);
    fclose(file);
    return bytes;
}

/* The parts of a file, each of which stands after its size in four bytes (the greatest first). */
static inline struct parts read_parts(const char *name)
{
    struct bytes all = read_file(name);
    struct parts parts = {calloc(all.size / 4 + 1, sizeof *parts.at), 0};
    for (size_t at = 0; at < all.size;) {
        const uint8_t *head = all.at + at;
        struct bytes part = {all.at + at + 4, (size_t)head[0] << 24 | head[1] << 16 | head[2] << 8 | head[3]};
        parts.at[parts.count++] = part;
        at += 4 + part.size;
    }
    return parts;
}

static inline void write_part(FILE *file, const uint8_t *bytes, size_t size)
{
    const uint8_t head[4] = {size >> 24, size >> 16, size >> 8, size};
    must(fwrite(head, 1, 4, file) == 4 && fwrite(bytes, 1, size, file) == size, "a part", errno);
}
