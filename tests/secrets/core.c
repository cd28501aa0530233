/* Makes all calls that handle keys, frees all handles, overwrites its own buffers, says so on a line, and waits until standard input ends: then
 * its memory can be looked at. The arguments are the folder of the files (tests/support/key_material.py) and, to stop while the service of type
 * 20 still holds what it accepted, `held`. */
#include "flow.h"

/* What this program itself holds of secrets. */
static void forget(void)
{
    size_t at;

    for (at = 0; at < FILES; at++)
        memset(files[at].at, 0, sizeof files[at].at);
    memset(buffer, 0, sizeof buffer);
    memset(tag, 0, sizeof tag);
    __asm__ volatile("" : : : "memory");
}

static void wait(void)
{
    char byte;

    forget();
    puts("ready");
    fflush(stdout);
    while (read(STDIN_FILENO, &byte, 1) > 0)
        ;
}

int main(int count, char **words)
{
    size_t at;

    if (count < 2)
        return 2;
    read_files(words[1]);
    for (of = 0; of < 2; of++)
        for (at = 0; at < STEPS; at++) {
            is_code(&steps[at], steps[at].make());
            if (count > 2 && of == 1 && steps[at].make == replying) {
                wait();
                return 0;
            }
        }
    wait();
    return 0;
}
