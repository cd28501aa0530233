/* What the programs here check with: numbers, answers and bytes, counted, with a line that begins with `wrong` for each that isn't as it
 * should be. */
#ifndef CHECKS_H
#define CHECKS_H

#include <stdio.h>
#include <stdlib.h>
#include <string.h>

#include "bytes.h"
#include "fevstunik.h"

/* Which service is wanted: each of the keytab, or the fixture's. */
#define EACH_NAME (const uint8_t *)"", 0
#define WEB (const uint8_t *)"host/web@EX", 11

static int passed = 0, failed = 0;

static inline void is(const char *what, long long found, long long wanted)
{
    if (found == wanted) {
        passed++;
        return;
    }
    failed++;
    printf("wrong: %s: %lld, not %lld\n", what, found, wanted);
}

static inline void is_answer(const char *what, fevstunik_answer found, unsigned code, int kerberos, size_t at, size_t size)
{
    if (found.code == code && found.kerberos == kerberos && found.at == at && found.size == size) {
        passed++;
        return;
    }
    failed++;
    printf("wrong: %s: {%u, %d, %zu, %zu}, not {%u, %d, %zu, %zu}\n", what, found.code, found.kerberos, found.at, found.size, code,
           kerberos, at, size);
}

static inline void is_bytes(const char *what, const uint8_t *found, const void *wanted, size_t size)
{
    is(what, memcmp(found, wanted, size), 0);
}

static inline fevstunik_time moment(int64_t seconds, uint32_t micros)
{
    fevstunik_time time;

    time.seconds = seconds;
    time.micros = micros;
    return time;
}

#endif
