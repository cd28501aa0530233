/* Times `fevstunik_acceptor_accept` of a service that remembers many requests, for bench/seen.py.
 *
 *   seen KEYTAB CACHE CLIENTS REMEMBERED CALLERS COUNT     prints the nanoseconds of processor time for each of COUNT requests of CALLERS of the
 *                                                          CLIENTS in turn, while REMEMBERED requests of the CLIENTS are remembered
 *
 * KEYTAB and CACHE have the fixture's files: the ticket's sealed part is opened, and sealed again for each client with its name.
 */
#include <stdio.h>
#include <time.h>

#include "asked.h"

/* The key of the keytab, and the usage of a ticket's sealed part. */
static const uint8_t service_key[16] = {0x37, 0x05, 0xd9, 0x60, 0x80, 0xc1, 0x77, 0x28,
                                        0xa0, 0xe8, 0x00, 0xea, 0xb6, 0xe0, 0xd2, 0x3c};
enum { TICKET = 2, TAG = 16, CONFOUNDER = 16 };

static struct bytes cache, part;
static size_t part_at;
static fevstunik_acceptor service;
static struct client client = {.confounder = {1}};

struct request {
    uint8_t at[1024];
    size_t size;
};

static void must(int holds)
{
    if (!holds)
        exit(1);
}

/* The ticket's sealed part stands at the end of the cache, before four bytes. */
static void open_ticket(void)
{
    const size_t end = cache.size - 4;
    size_t size = CONFOUNDER + TAG;

    while (size < end &&
           fevstunik_open(19, service_key, 16, TICKET, cache.at + end - size, size, part.at, sizeof part.at).code !=
               FEVSTUNIK_OK)
        size++;
    must(size < end);
    part.size = size - CONFOUNDER - TAG;
    part_at = end - size;
}

/* The same bytes with another name of five letters. */
static void renamed(struct bytes *made, const struct bytes *of, const char *name)
{
    memcpy(made->at, of->at, of->size);
    made->size = of->size;
    for (size_t at = 0; at + 5 <= of->size; at++)
        if (memcmp(of->at + at, "alice", 5) == 0)
            memcpy(made->at + at, name, 5);
}

/* A request of the client of this number, at this microsecond. */
static void make(struct request *made, uint32_t number, uint32_t micros)
{
    static struct bytes file, plain;
    static const char digits[] = "0123456789abcdefghijklmnopqrstuvwxyz";
    const fevstunik_time at = {START + micros / 1000000, micros % 1000000};
    const fevstunik_choice choice = {0, 0, false, false};
    fevstunik_pending pending = FEVSTUNIK_PENDING_INIT;
    fevstunik_answer answer;
    char name[5];

    for (int digit = 4; digit >= 0; digit--, number /= 36)
        name[digit] = digits[number % 36];
    renamed(&file, &cache, name);
    renamed(&plain, &part, name);
    must(fevstunik_seal(19, service_key, 16, TICKET, client.confounder, CONFOUNDER, plain.at, plain.size,
                        file.at + part_at, plain.size + CONFOUNDER + TAG)
             .code == FEVSTUNIK_OK);
    must(fevstunik_cache_new(&client.cache, file.at, file.size).code == FEVSTUNIK_OK);
    answer = fevstunik_request(&client.cache, &pending, (const uint8_t *)"host/web@EX", 11, &at, client.confounder,
                               CONFOUNDER, &choice, client.confounder, 0, made->at, sizeof made->at);
    must(answer.code == FEVSTUNIK_OK);
    made->size = answer.size;
    fevstunik_pending_free(&pending);
    fevstunik_cache_free(&client.cache);
}

static void accept(const struct request *request)
{
    const fevstunik_time now = {START, 0};

    must(fevstunik_acceptor_accept(&service, &client.accepted, request->at, request->size, &now).code == FEVSTUNIK_OK);
}

static double processor_time(void)
{
    struct timespec t;

    clock_gettime(CLOCK_PROCESS_CPUTIME_ID, &t);
    return (double)t.tv_sec * 1e9 + (double)t.tv_nsec;
}

/* The callers are spread over all clients. */
static void timed(uint32_t clients, uint32_t callers, uint32_t count)
{
    struct request *requests = calloc(count, sizeof *requests);
    double start;

    must(requests != NULL);
    for (uint32_t at = 0; at < count; at++)
        make(&requests[at], (uint32_t)((uint64_t)(at % callers) * clients / callers), 100000000 + at);
    start = processor_time();
    for (uint32_t at = 0; at < count; at++)
        accept(&requests[at]);
    printf("%.1f\n", (processor_time() - start) / count);
    free(requests);
}

int main(int count, char **words)
{
    static struct bytes keytab;
    static struct request request;
    fevstunik_acceptor_options options = {.size = sizeof options,
                                          .skew = 300,
                                          .restarts = FEVSTUNIK_RESTART_FIRST_LIFE,
                                          .limit = 2000000,
                                          .limit_for_client = 200000};

    if (count != 7)
        return 2;
    if (atol(words[3]) == 1)
        options.limit_for_client = options.limit;
    from_file(&keytab, words[1]);
    from_file(&cache, words[2]);
    open_ticket();
    must(fevstunik_acceptor_new(&service, keytab.at, keytab.size, (const uint8_t *)"host/web@EX", 11, &options).code ==
         FEVSTUNIK_OK);
    must(fevstunik_accepted_new(&client.accepted).code == FEVSTUNIK_OK);
    for (long at = 0; at < atol(words[4]); at++) {
        make(&request, (uint32_t)(at % atol(words[3])), (uint32_t)at);
        accept(&request);
    }
    timed((uint32_t)atol(words[3]), (uint32_t)atol(words[5]), (uint32_t)atol(words[6]));
    fevstunik_accepted_free(&client.accepted);
    fevstunik_acceptor_free(&service);
    return 0;
}
