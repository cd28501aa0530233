/* A service turns away requests of 1 MiB: those for a service whose name is larger than each name of the keytab, for which it takes no memory,
 * and one whose ticket doesn't open, for which it takes no piece of more than 64 KiB. The arguments are the files of the keytab and of the requests,
 * of which that one is the last. It is linked with --wrap=malloc and --wrap=realloc. Whoever counts what each request takes counts from one call of
 * `counted` to the next. Each line of output that begins with `wrong` is one. */
#define BYTES_ROOM (1 << 20)
#include "checks.h"

/* The tickets of the fixture are valid then. */
#define START 1700000100

void *__real_malloc(size_t size);
void *__real_realloc(void *at, size_t size);
void *__wrap_malloc(size_t size);
void *__wrap_realloc(void *at, size_t size);
void counted(void);

/* How many bytes were asked for, and how many at once. */
static size_t asked = 0, largest = 0;

static void ask(size_t size)
{
    asked += size;
    if (size > largest)
        largest = size;
}

void *__wrap_malloc(size_t size)
{
    ask(size);
    return __real_malloc(size);
}

void *__wrap_realloc(void *at, size_t size)
{
    ask(size);
    return __real_realloc(at, size);
}

__attribute__((noinline)) void counted(void)
{
    __asm__ volatile("");
}

static fevstunik_acceptor service;
static fevstunik_accepted accepted;

static void turned_away(const char *file, unsigned code, size_t most)
{
    static struct bytes request;
    const fevstunik_time now = {START, 0};
    fevstunik_answer answer;
    size_t before;

    from_file(&request, file);
    is("the size", request.size > 1040000, 1);
    before = asked;
    largest = 0;
    counted();
    answer = fevstunik_acceptor_accept(&service, &accepted, request.at, request.size, &now);
    counted();
    is("the answer", answer.code, code);
    is("pieces of memory", largest <= most, 1);
    if (most == 0)
        is("memory", (long long)(asked - before), 0);
}

int main(int count, char **words)
{
    static struct bytes keytab;
    fevstunik_acceptor_options options = {.size = sizeof options, .skew = 300, .restarts = FEVSTUNIK_RESTART_FIRST_LIFE};
    int at;

    if (count < 4)
        return 2;
    from_file(&keytab, words[1]);
    is("service", fevstunik_acceptor_new(&service, keytab.at, keytab.size, WEB, &options).code, FEVSTUNIK_OK);
    is("accepted", fevstunik_accepted_new(&accepted).code, FEVSTUNIK_OK);
    for (at = 2; at < count - 1; at++)
        turned_away(words[at], FEVSTUNIK_NOT_US, 0);
    turned_away(words[at], FEVSTUNIK_TICKET_INTEGRITY, 65536);
    fevstunik_accepted_free(&accepted);
    fevstunik_acceptor_free(&service);
    printf("%d passed, %d failed\n", passed, failed);
    return failed > 0;
}
