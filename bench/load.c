/* Clients of examples/service/service, for bench/stores.py: sends requests, some at a time, each over a connection of its own, and waits for each
 * reply.
 *
 *     load PORT CLIENTS < REQUESTS      a line of hexadecimal digits for each request
 *
 * It prints how many replies came that are no errors, and how many nanoseconds passed. */
#include <pthread.h>
#include <stdatomic.h>

#include "../examples/service/wire.h"

#define REQUESTS 100000

static struct {
    uint8_t *at;
    size_t size;
} requests[REQUESTS];
static size_t count;
static atomic_size_t next, let_in;
static int port;

static int digit(char it)
{
    return it >= 'a' ? it - 'a' + 10 : it - '0';
}

static void read_requests(void)
{
    static char line[8192];

    while (count < REQUESTS && fgets(line, sizeof line, stdin) != NULL) {
        requests[count].at = malloc(sizeof line / 2);
        if (requests[count].at == NULL)
            give_up("memory");
        for (const char *it = line; it[0] > ' ' && it[1] > ' '; it += 2)
            requests[count].at[requests[count].size++] = (uint8_t)(16 * digit(it[0]) + digit(it[1]));
        count++;
    }
}

/* A reply is an AP-REP (RFC 4120, section 5.5.2), which an error isn't. */
static void *send_some(void *bytes)
{
    struct bytes *reply = bytes;
    size_t at;

    while ((at = atomic_fetch_add(&next, 1)) < count) {
        int peer = connect_to(port);

        if (transmit(peer, requests[at].at, requests[at].size) && receive(peer, reply) && reply->size > 0 && reply->at[0] == 0x6f)
            atomic_fetch_add(&let_in, 1);
        close(peer);
    }
    return NULL;
}

int main(int words, char **word)
{
    static struct bytes replies[64];
    pthread_t clients[64];
    struct timespec began, ended;
    int at, many = words == 3 ? atoi(word[2]) : 0;

    if (many < 1 || many > 64)
        return 2;
    port = atoi(word[1]);
    read_requests();
    clock_gettime(CLOCK_MONOTONIC, &began);
    for (at = 0; at < many; at++)
        if (pthread_create(&clients[at], NULL, send_some, &replies[at]) != 0)
            give_up("thread");
    for (at = 0; at < many; at++)
        pthread_join(clients[at], NULL);
    clock_gettime(CLOCK_MONOTONIC, &ended);
    printf("%zu %lld\n", let_in, (ended.tv_sec - began.tv_sec) * 1000000000LL + ended.tv_nsec - began.tv_nsec);
    return 0;
}
