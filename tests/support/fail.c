/* A library to be preloaded: some of a program's reads or writes fail, are interrupted, or move one byte alone.
 *
 *   FAIL_CALL=read   which calls: read or write
 *   FAIL_HOW=error   fails, as a broken disk does; interrupted: fails, as if a signal came; short: moves one byte
 *
 * preloaded.h says which of these calls.
 */
#define _GNU_SOURCE
#include <errno.h>
#include <string.h>
#include <sys/syscall.h>

#include "preloaded.h"

static int is(const char *name, const char *wanted)
{
    const char *text = getenv(name);
    return text && strcmp(text, wanted) == 0;
}

/* How many bytes are to be moved, or -1 where the call fails. */
static long allowed(const char *call, size_t count)
{
    if (!is("FAIL_CALL", call) || !is_counted_in())
        return (long)count;
    if (is("FAIL_HOW", "short"))
        return count < 1 ? (long)count : 1;
    errno = is("FAIL_HOW", "interrupted") ? EINTR : EIO;
    return -1;
}

ssize_t read(int file, void *bytes, size_t count)
{
    long most = allowed("read", count);
    return most < 0 ? -1 : syscall(SYS_read, file, bytes, most);
}

ssize_t write(int file, const void *bytes, size_t count)
{
    long most = allowed("write", count);
    return most < 0 ? -1 : syscall(SYS_write, file, bytes, most);
}

ssize_t __write(int file, const void *bytes, size_t count)
{
    return write(file, bytes, count);
}
