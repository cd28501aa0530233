/* Bytes that a program is handed in hexadecimal digits or in a file. */
#ifndef BYTES_H
#define BYTES_H

#include <stdint.h>
#include <stdio.h>
#include <stdlib.h>

#ifndef BYTES_ROOM
#define BYTES_ROOM 4096
#endif

struct bytes {
    uint8_t at[BYTES_ROOM];
    size_t size;
};

static inline int digit(char text)
{
    return text >= '0' && text <= '9' ? text - '0' : text >= 'a' && text <= 'f' ? text - 'a' + 10 : -1;
}

/* Reads bytes in hexadecimal digits, up to what is none; answers how many. */
static inline size_t read_hex(uint8_t *at, size_t room, const char *text)
{
    size_t size = 0;

    for (; size < room && digit(text[0]) >= 0 && digit(text[1]) >= 0; text += 2)
        at[size++] = (uint8_t)(digit(text[0]) << 4 | digit(text[1]));
    return size;
}

static inline void from_hex(struct bytes *bytes, const char *text)
{
    bytes->size = read_hex(bytes->at, sizeof bytes->at, text);
}

static inline void from_file(struct bytes *bytes, const char *name)
{
    FILE *file = fopen(name, "rb");

    if (file == NULL)
        exit(2);
    bytes->size = fread(bytes->at, 1, sizeof bytes->at, file);
    fclose(file);
}

/* Reads a program's inputs, one for each word: a keytab and a cache from files, and the others in hexadecimal digits. */
static inline void from_words(struct bytes *const *inputs, size_t count, char **words)
{
    size_t at;

    for (at = 0; at < count; at++)
        if (at < 2)
            from_file(inputs[at], words[1 + at]);
        else
            from_hex(inputs[at], words[1 + at]);
}

#endif
