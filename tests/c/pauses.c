/* A client at its limit sends requests when half of what it sent has expired at once, and when all has. The arguments are the files of the
 * keytab and of the client's cache, and how many requests it sends first. Whoever counts what each later request takes counts from one call of
 * `counted` to the next. Each line of output that begins with `wrong` is one. */
#include "asked.h"
#include "checks.h"

/* So many requests are counted each time. */
#define COUNTED 40

static struct bytes keytab;
static struct client client;
static fevstunik_acceptor service;

__attribute__((noinline)) void counted(void)
{
    __asm__ volatile("");
}

static void make(size_t limit)
{
    fevstunik_acceptor_options options = {.size = sizeof options,
                                          .skew = 300,
                                          .restarts = FEVSTUNIK_RESTART_FIRST_LIFE,
                                          .limit = limit,
                                          .limit_for_client = limit};

    is("service", fevstunik_acceptor_new(&service, keytab.at, keytab.size, WEB, &options).code, FEVSTUNIK_OK);
}

static void ask(int64_t now)
{
    uint32_t at;

    for (at = 0; at < COUNTED; at++) {
        counted();
        is("a request", sent(&client, &service, now, at, now), FEVSTUNIK_OK);
    }
}

int main(int count, char **words)
{
    long requests = count == 4 ? atol(words[3]) : 0, at;

    if (requests == 0)
        return 2;
    from_file(&keytab, words[1]);
    ready(&client, words[2]);
    make((size_t)requests);
    for (at = 0; at < requests; at++)
        (void)sent(&client, &service, START + (at < requests / 2 ? -250 : 250), (uint32_t)at, START);
    is("remembered", (long long)fevstunik_acceptor_count(&service), requests);
    is("full", sent(&client, &service, START, 0, START), FEVSTUNIK_FULL);
    ask(START + 60);
    is("half has expired", (long long)fevstunik_acceptor_count(&service), requests - requests / 2 + COUNTED);
    ask(START + 1000);
    counted();
    is("all has", (long long)fevstunik_acceptor_count(&service), COUNTED);
    fevstunik_acceptor_free(&service);
    done_with(&client);
    printf("%d passed, %d failed\n", passed, failed);
    return failed > 0;
}
