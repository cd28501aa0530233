/* What a service holds: how many bytes for each request, and how much at most while one client sends as many requests as it can. The
 * arguments are the files of the keytab and of two clients' caches. It is linked with --wrap=malloc, --wrap=realloc and --wrap=free. Each line
 * of output that begins with `wrong` is one. */
#include "asked.h"
#include "checks.h"
#include "held.h"

static struct bytes keytab;
static struct client clients[2];
static fevstunik_acceptor service;

static void make(size_t limit, size_t limit_for_client)
{
    fevstunik_acceptor_options options = {.size = sizeof options, .skew = 300, .restarts = FEVSTUNIK_RESTART_FIRST_LIFE, .limit = limit,
                                          .limit_for_client = limit_for_client};

    is("service", fevstunik_acceptor_new(&service, keytab.at, keytab.size, WEB, &options).code, FEVSTUNIK_OK);
}

/* At most 30 bytes for a request of known names, and 224 for the first of a client among few. (clients.c has many clients.) */
static void sizes(long requests)
{
    size_t before;
    long at;

    /* (what the handles of the clients hold doesn't change any more after their first request) */
    make(0, 0);
    (void)sent(&clients[1], &service, START, 0, START);
    make(2000000, 2000000);
    (void)sent(&clients[0], &service, START, 0, START);
    before = held;
    is("another client", sent(&clients[1], &service, START, 0, START), FEVSTUNIK_OK);
    is("bytes of a client's first request", held - before <= 224, 1);
    is("its second", sent(&clients[1], &service, START, 1, START), FEVSTUNIK_OK);
    is("bytes of both", held - before <= 224 + 40, 1);
    before = held;
    for (at = 0; at < requests; at++)
        if (sent(&clients[0], &service, START + at / 1000 % 300, (uint32_t)(2 + at % 1000 + at / 300000 * 1000), START) != FEVSTUNIK_OK)
            is("a request", at, -1);
    is("remembered", (long long)fevstunik_acceptor_count(&service), requests + 3);
    is("bytes for each", held - before <= 30 * (size_t)requests, 1);
    is("all expire", sent(&clients[1], &service, START + 1000, 0, START + 1000), FEVSTUNIK_OK);
    is("one is left", (long long)fevstunik_acceptor_count(&service), 1);
    for (at = 0; at < requests / 10; at++)
        (void)sent(&clients[1], &service, START + 1000, (uint32_t)at + 1, START + 1000);
    is("what expired is freed", held - before <= 40 * (size_t)requests / 5, 1);
}

/* A few hundred requests of one client have room for an eighth more, and not for twice as many. */
static void room(void)
{
    const long requests = 600;
    size_t before;
    long at;

    make(0, 0);
    is("the first", sent(&clients[0], &service, START, 0, START), FEVSTUNIK_OK);
    before = held;
    for (at = 1; at <= requests; at++)
        if (sent(&clients[0], &service, START, (uint32_t)at, START) != FEVSTUNIK_OK)
            is("a request of few", at, -1);
    is("bytes for each of few", held - before <= 28 * (size_t)requests, 1);
}

/* How much the process held at most, in KiB, or 0. (What getrusage says includes the process that this one was forked from.) */
static long peak(void)
{
    FILE *status = fopen("/proc/self/status", "r");
    char line[256];
    long found = 0;

    while (status != NULL && fgets(line, sizeof line, status) != NULL)
        if (strncmp(line, "VmHWM:", 6) == 0)
            found = strtol(line + 6, NULL, 10);
    if (status != NULL)
        fclose(status);
    return found;
}

/* One client sends so many requests a microsecond apart, of times up to the skew ahead. Another one logs in throughout. */
static void attack(long requests)
{
    size_t most = 0;
    long at, accepted = 0, refused = 0;

    make(0, 0);
    for (at = 0; at < requests; at++) {
        unsigned code = sent(&clients[0], &service, START + 299, (uint32_t)(at + 1000000 - requests), START);

        accepted += code == FEVSTUNIK_OK;
        refused += code == FEVSTUNIK_FULL;
        most = held > most ? held : most;
        if (at % 1000 == 0 && sent(&clients[1], &service, START, (uint32_t)at, START) != FEVSTUNIK_OK)
            is("the other client", at, -1);
    }
    is("accepted", accepted, 100000);
    is("refused", refused, requests - 100000);
    is("bytes", most < 64 << 20, 1);
    is("the process", peak() > 0 && peak() < 64 << 10, 1);
}

int main(int count, char **words)
{
    if (count != 6)
        return 2;
    from_file(&keytab, words[1]);
    ready(&clients[0], words[2]);
    ready(&clients[1], words[3]);
    attack(atol(words[4]));
    sizes(atol(words[5]));
    room();
    fevstunik_acceptor_free(&service);
    done_with(&clients[0]);
    done_with(&clients[1]);
    is("all is freed", (long long)held, 0);
    printf("%d passed, %d failed\n", passed, failed);
    return failed > 0;
}
