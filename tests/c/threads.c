/* Eight threads share one service, with a lock around the one call that decides. Each has a handle of its own for what is accepted, and
 * reads it without the lock: it is its own request's client. The arguments are the keytab's file and a file of caches in hex, one a line,
 * whose clients have names of five letters in EX: for each client it makes so many requests, and one more that every thread sends. */
#include <pthread.h>

#include "checks.h"
#include "listed.h"
#include "made.h"

#define THREADS 8
#define CLIENTS 40
#define EACH 400
#define REQUESTS (CLIENTS * EACH)

/* A request, and its client's text. */
struct sent {
    uint8_t at[600];
    size_t size;
    char client[9];
};

/* What a thread saw: requests that were accepted as its client's, as another's, refused as repeats, and all else. */
struct seen {
    pthread_t thread;
    int first, last, step;
    long own, others, repeats, faults;
    long each[CLIENTS];
};

static struct bytes keytab, caches[CLIENTS];
static struct sent requests[REQUESTS + CLIENTS];
static fevstunik_cache held[CLIENTS];
static fevstunik_pending pending = FEVSTUNIK_PENDING_INIT;
static fevstunik_acceptor service = FEVSTUNIK_ACCEPTOR_INIT;
static pthread_mutex_t lock = PTHREAD_MUTEX_INITIALIZER;
static const fevstunik_time now = {1700000100, 0};

static void make(int at)
{
    static const uint8_t none[16] = {0};
    fevstunik_choice choice = {0, 0, false, false};
    const struct bytes *cache = &caches[at % CLIENTS];
    fevstunik_time sent = moment(1700000100, (uint32_t)(at / CLIENTS));
    fevstunik_owner owner;
    uint8_t name[64];
    fevstunik_answer answer = fevstunik_request(&held[at % CLIENTS], &pending, WEB, &sent, none, 16, &choice, none, 0, requests[at].at,
                                                sizeof requests[at].at);

    is("a request", answer.code, FEVSTUNIK_OK);
    requests[at].size = answer.size;
    is("its client", owner_in(cache->at, cache->size, &owner, name, sizeof name).size, 8);
    memcpy(requests[at].client, name, 8);
}

static void look(struct seen *seen, fevstunik_accepted *accepted, int at, uint32_t code)
{
    uint8_t buffer[256];
    fevstunik_known known;
    fevstunik_answer told = fevstunik_accepted_known(accepted, &known, buffer, sizeof buffer);

    if (code == FEVSTUNIK_REPEAT && told.code == FEVSTUNIK_NOTHING_THERE)
        seen->repeats++;
    else if (code != FEVSTUNIK_OK || told.code != FEVSTUNIK_OK || known.client.size != 8)
        seen->faults++;
    else if (memcmp(buffer + known.client.at, requests[at].client, 8) != 0 || known.cusec != (uint32_t)(at / CLIENTS))
        seen->others++;
    else {
        seen->own++;
        seen->each[at % CLIENTS]++;
    }
}

static void *work(void *given)
{
    struct seen *seen = given;
    fevstunik_accepted accepted = FEVSTUNIK_ACCEPTED_INIT;
    fevstunik_answer answer;
    int at;

    if (fevstunik_accepted_new(&accepted).code != FEVSTUNIK_OK)
        seen->faults++;
    for (at = seen->first; at < seen->last; at += seen->step) {
        pthread_mutex_lock(&lock);
        answer = fevstunik_acceptor_accept(&service, &accepted, requests[at].at, requests[at].size, &now);
        pthread_mutex_unlock(&lock);
        look(seen, &accepted, at, answer.code);
    }
    fevstunik_accepted_free(&accepted);
    return NULL;
}

/* Sends the requests from `first` to `last` by all threads: each its part, or each all of them. */
static struct seen send_all(int first, int last, int is_shared)
{
    static struct seen threads[THREADS];
    struct seen all;
    int i, j;

    memset(threads, 0, sizeof threads);
    memset(&all, 0, sizeof all);
    for (i = 0; i < THREADS; i++) {
        threads[i].first = is_shared ? first : first + i;
        threads[i].last = last;
        threads[i].step = is_shared ? 1 : THREADS;
        if (pthread_create(&threads[i].thread, NULL, work, &threads[i]) != 0)
            exit(2);
    }
    for (i = 0; i < THREADS; i++) {
        pthread_join(threads[i].thread, NULL);
        all.own += threads[i].own;
        all.others += threads[i].others;
        all.repeats += threads[i].repeats;
        all.faults += threads[i].faults;
        for (j = 0; j < CLIENTS; j++)
            all.each[j] += threads[i].each[j];
    }
    return all;
}

static void is_seen(const char *what, struct seen all, long own, long repeats)
{
    int j;

    is(what, all.own, own);
    is("another's client", all.others, 0);
    is("repeats", all.repeats, repeats);
    is("faults", all.faults, 0);
    for (j = 0; j < CLIENTS; j++)
        is("of this client", all.each[j], own / CLIENTS);
}

int main(int count, char **words)
{
    static char line[8192];
    FILE *file;
    int i;

    if (count != 3 || (file = fopen(words[2], "r")) == NULL)
        return 2;
    from_file(&keytab, words[1]);
    for (i = 0; i < CLIENTS && fgets(line, sizeof line, file) != NULL; i++)
        from_hex(&caches[i], line);
    fclose(file);
    for (i = 0; i < CLIENTS; i++)
        is("a cache", fevstunik_cache_new(&held[i], caches[i].at, caches[i].size).code, FEVSTUNIK_OK);
    for (i = 0; i < REQUESTS + CLIENTS; i++)
        make(i);
    is_answer("new", first_life(&service, keytab.at, keytab.size, 300, WEB), FEVSTUNIK_OK, 0, 0, 0);
    is_seen("each is its own client's", send_all(0, REQUESTS, 0), REQUESTS, 0);
    is("all are remembered", (long long)fevstunik_acceptor_count(&service), REQUESTS);
    is_seen("none again", send_all(0, 2 * CLIENTS, 1), 0, 2 * CLIENTS * THREADS);
    is_seen("each once", send_all(REQUESTS, REQUESTS + CLIENTS, 1), CLIENTS, CLIENTS * (THREADS - 1));
    fevstunik_acceptor_free(&service);
    fevstunik_pending_free(&pending);
    for (i = 0; i < CLIENTS; i++)
        fevstunik_cache_free(&held[i]);
    printf("%d passed, %d failed\n", passed, failed);
    return failed != 0;
}
