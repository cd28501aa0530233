/* A service that remembers only so many requests, of all clients and of one. The arguments are the files of the keytab and of two clients'
 * caches. Each line of output that begins with `wrong` is one. */
#include "asked.h"
#include "checks.h"

static struct bytes keytab;
static struct client alice, other;
static fevstunik_acceptor service;

static void make(size_t limit, size_t limit_for_client)
{
    fevstunik_acceptor_options options = {.size = sizeof options, .skew = 300, .restarts = FEVSTUNIK_RESTART_FIRST_LIFE, .limit = limit,
                                          .limit_for_client = limit_for_client};

    is_answer("service", fevstunik_acceptor_new(&service, keytab.at, keytab.size, WEB, &options), FEVSTUNIK_OK, 0, 0, 0);
}

static void usage_is(const char *what, size_t remembered, size_t limit, size_t limit_for_client, size_t full)
{
    fevstunik_usage usage;

    is_answer(what, fevstunik_acceptor_usage(&service, &usage), FEVSTUNIK_OK, 0, 0, 0);
    is("remembered", (long long)usage.remembered, (long long)remembered);
    is("counted", (long long)fevstunik_acceptor_count(&service), (long long)remembered);
    is("held", usage.held >= remembered, 1);
    is("limit", (long long)usage.limit, (long long)limit);
    is("limit for a client", (long long)usage.limit_for_client, (long long)limit_for_client);
    is("full", (long long)usage.full, (long long)full);
}

/* Of the estimate, 28 bytes are for a request, and 200 for a client at a service. */
static void bytes_are(const char *what, size_t requests, size_t pairs)
{
    fevstunik_usage usage;

    (void)fevstunik_acceptor_usage(&service, &usage);
    is(what, (long long)usage.bytes, (long long)(28 * requests + 200 * pairs));
}

/* What isn't said is a million, and a tenth for each client. */
static void defaults(void)
{
    fevstunik_usage usage;

    is_answer("empty", fevstunik_acceptor_usage(&service, &usage), FEVSTUNIK_EMPTY_HANDLE, 0, 0, 0);
    make(0, 0);
    usage_is("defaults", 0, 1000000, 100000, 0);
    make(50, 0);
    usage_is("a tenth", 0, 50, 5, 0);
    make(9, 0);
    usage_is("at least one", 0, 9, 1, 0);
    make(0, 7);
    usage_is("one limit alone", 0, 1000000, 7, 0);
}

static void one_client(void)
{
    fevstunik_time latest;
    long at;

    make(10, 3);
    for (at = 0; at < 3; at++)
        is("up to the limit", sent(&alice, &service, START + at, 0, START), FEVSTUNIK_OK);
    is("past it", sent(&alice, &service, START + 3, 0, START + 9), FEVSTUNIK_FULL);
    usage_is("nothing changed", 3, 10, 3, 1);
    bytes_are("bytes of one client", 3, 1);
    is("nor the latest moment", fevstunik_acceptor_latest(&service, &latest).code, FEVSTUNIK_OK);
    is("the latest second", latest.seconds, START);
    is("another client", sent(&other, &service, START, 0, START), FEVSTUNIK_OK);
    is("a repeat is found", sent(&alice, &service, START, 0, START), FEVSTUNIK_REPEAT);
    is("what was refused isn't remembered", sent(&alice, &service, START + 3, 0, START), FEVSTUNIK_FULL);
    usage_is("two were refused", 4, 10, 3, 2);
    bytes_are("bytes of two clients", 4, 2);
    /* Nobody else calls while the time passes: the client's own request comes when its first ones don't count any more. */
    is("the last moment of the first", sent(&alice, &service, START + 300, 1, START + 300), FEVSTUNIK_FULL);
    is("later", sent(&alice, &service, START + 300, 2, START + 301), FEVSTUNIK_OK);
    usage_is("the first is forgotten", 3, 10, 3, 3);
    is("and the limit holds", sent(&alice, &service, START + 300, 3, START + 301), FEVSTUNIK_FULL);
}

static void all_clients(void)
{
    make(4, 3);
    is("one", sent(&alice, &service, START, 1, START), FEVSTUNIK_OK);
    is("two", sent(&other, &service, START, 1, START), FEVSTUNIK_OK);
    is("three", sent(&alice, &service, START, 2, START), FEVSTUNIK_OK);
    is("four", sent(&other, &service, START, 2, START), FEVSTUNIK_OK);
    is("five", sent(&alice, &service, START, 3, START), FEVSTUNIK_FULL);
    is("six", sent(&other, &service, START, 3, START), FEVSTUNIK_FULL);
    usage_is("full", 4, 4, 3, 2);
    is("after a long time", sent(&other, &service, START + 3000, 0, START + 3000), FEVSTUNIK_OK);
    usage_is("all is forgotten but one", 1, 4, 3, 2);
}

int main(int count, char **words)
{
    if (count != 4)
        return 2;
    from_file(&keytab, words[1]);
    ready(&alice, words[2]);
    ready(&other, words[3]);
    defaults();
    one_client();
    all_clients();
    fevstunik_acceptor_free(&service);
    done_with(&alice);
    done_with(&other);
    printf("%d passed, %d failed\n", passed, failed);
    return failed > 0;
}
