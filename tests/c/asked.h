/* Clients that send requests to a service. */
#ifndef ASKED_H
#define ASKED_H

#include <string.h>

#include "bytes.h"
#include "fevstunik.h"

/* The tickets of the fixture are valid then. */
#define START 1700000100

struct client {
    fevstunik_cache cache;
    fevstunik_accepted accepted;
    uint8_t confounder[16], request[4096];
};

static inline void ready(struct client *client, const char *file)
{
    static struct bytes read;

    memset(client, 0, sizeof *client);
    from_file(&read, file);
    (void)fevstunik_cache_new(&client->cache, read.at, read.size);
    (void)fevstunik_accepted_new(&client->accepted);
}

/* The code that the service answers at a second of its clock to a request of this time of the client's. */
static inline unsigned sent(struct client *client, fevstunik_acceptor *service, int64_t seconds, uint32_t micros, int64_t now)
{
    const fevstunik_time client_time = {seconds, micros}, service_time = {now, 0};
    const fevstunik_choice choice = {0, 0, false, false};
    fevstunik_pending pending = FEVSTUNIK_PENDING_INIT;
    fevstunik_answer answer = fevstunik_request(&client->cache, &pending, (const uint8_t *)"host/web@EX", 11, &client_time,
                                                client->confounder, sizeof client->confounder, &choice, client->confounder, 0,
                                                client->request, sizeof client->request);

    fevstunik_pending_free(&pending);
    if (answer.code != FEVSTUNIK_OK)
        return answer.code;
    return fevstunik_acceptor_accept(service, &client->accepted, client->request, answer.size, &service_time).code;
}

static inline void done_with(struct client *client)
{
    fevstunik_accepted_free(&client->accepted);
    fevstunik_cache_free(&client->cache);
}

#endif
