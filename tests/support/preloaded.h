/* What preloaded libraries share: which of the calls that a library watches are met.
 *
 *   CALL_FIRST=N     the Nth of them is met, counted from 1
 *   CALL_LAST=M      and each up to the Mth
 *   CALL_MET=FILE    this file is made once a call is met
 */
#ifndef PRELOADED_H
#define PRELOADED_H

#include <fcntl.h>
#include <stdlib.h>
#include <unistd.h>

static long number(const char *name)
{
    const char *text = getenv(name);
    return text ? atol(text) : 0;
}

/* Counts a call, and returns whether it is met. */
static int is_counted_in(void)
{
    static long calls;
    const char *met = getenv("CALL_MET");

    calls += 1;
    if (calls < number("CALL_FIRST") || calls > number("CALL_LAST"))
        return 0;
    if (met)
        close(open(met, O_WRONLY | O_CREAT, 0600));
    return 1;
}

#endif
