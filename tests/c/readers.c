/* Eight threads that share all that a call only reads: files, a request, names, and each kind of struct that a call takes as const. Each has
 * handles of its own.
 * Valgrind's helgrind says whether a call writes to what they share. The arguments are the keytab's file and the cache's. */
#include <pthread.h>

#include "checks.h"

#define THREADS 8
#define ROUNDS 5

static struct bytes keytab, cache;
static const uint8_t zeros[16] = {0};
static fevstunik_time now = {1700000100, 7};
static fevstunik_choice choice = {0, 0, false, false};
static fevstunik_acceptor_options options, shared;
static fevstunik_key_parts parts = {1700000000, 4, 3, 19};
static fevstunik_context_choice context;
static fevstunik_wrapped wrapped = {FEVSTUNIK_MECHANISM_KERBEROS, FEVSTUNIK_MECHANISM_KERBEROS};
static fevstunik_verdict verdict = {FEVSTUNIK_SAYS_COMPLETED, FEVSTUNIK_MECHANISM_KERBEROS};
static fevstunik_message_options sides;
static uint8_t request[1024];
static size_t request_size;

/* What a thread counted. */
struct counts {
    pthread_t thread;
    int well, ill;
};

static void count(struct counts *counts, int is_well)
{
    if (is_well)
        counts->well++;
    else
        counts->ill++;
}

static void accept_it(struct counts *counts)
{
    fevstunik_acceptor service = FEVSTUNIK_ACCEPTOR_INIT;
    fevstunik_accepted accepted = FEVSTUNIK_ACCEPTED_INIT;
    fevstunik_known known;
    uint8_t buffer[256];

    count(counts, fevstunik_acceptor_new(&service, keytab.at, keytab.size, WEB, &options).code == FEVSTUNIK_OK);
    count(counts, fevstunik_accepted_new(&accepted).code == FEVSTUNIK_OK);
    count(counts, fevstunik_acceptor_accept(&service, &accepted, request, request_size, &now).code == FEVSTUNIK_OK);
    count(counts, fevstunik_accepted_known(&accepted, &known, buffer, sizeof buffer).code == FEVSTUNIK_OK);
    count(counts, fevstunik_accepted_reply(&accepted, zeros, 16, &choice, zeros, 0, buffer, sizeof buffer).code == FEVSTUNIK_OK);
    count(counts, fevstunik_acceptor_accept(&service, &accepted, request, request_size, &now).code == FEVSTUNIK_REPEAT);
    count(counts, fevstunik_acceptor_error(&service, WEB, 3, &now, buffer, sizeof buffer).code == FEVSTUNIK_OK);
    count(counts, fevstunik_error(FEVSTUNIK_SKEW, WEB, 3, &now, buffer, sizeof buffer).code == FEVSTUNIK_OK);
    fevstunik_accepted_free(&accepted);
    fevstunik_acceptor_free(&service);
}

static void list_them(struct counts *counts)
{
    fevstunik_keytab entries = FEVSTUNIK_KEYTAB_INIT;
    fevstunik_cache credentials = FEVSTUNIK_CACHE_INIT;
    fevstunik_pending pending = FEVSTUNIK_PENDING_INIT;
    fevstunik_key_entry entry;
    fevstunik_owner owner;
    uint8_t buffer[1024];

    count(counts, fevstunik_keytab_new(&entries, keytab.at, keytab.size).code == FEVSTUNIK_OK);
    count(counts, fevstunik_keytab_entry(&entries, 0, &entry, buffer, sizeof buffer).code == FEVSTUNIK_OK);
    count(counts, fevstunik_cache_new(&credentials, cache.at, cache.size).code == FEVSTUNIK_OK);
    count(counts, fevstunik_cache_owner(&credentials, &owner, buffer, sizeof buffer).code == FEVSTUNIK_OK);
    count(counts, fevstunik_request(&credentials, &pending, WEB, &now, zeros, 16, &choice, zeros, 0, buffer, sizeof buffer).code == FEVSTUNIK_OK);
    count(counts, fevstunik_context_request(&credentials, &pending, WEB, &now, zeros, 16, &choice, zeros, 0, &context, buffer, sizeof buffer).code
                      == FEVSTUNIK_OK);
    count(counts, fevstunik_keytab_add(keytab.at, keytab.size, WEB, zeros, 16, &parts, buffer, sizeof buffer).code == FEVSTUNIK_OK);
    fevstunik_pending_free(&pending);
    fevstunik_cache_free(&credentials);
    fevstunik_keytab_free(&entries);
}

/* A service that shares a store lets the client in, and both begin messages. */
static void log_in(struct counts *counts)
{
    fevstunik_acceptor service = FEVSTUNIK_ACCEPTOR_INIT;
    fevstunik_login login = FEVSTUNIK_LOGIN_INIT;
    fevstunik_messages messages = FEVSTUNIK_MESSAGES_INIT;
    uint8_t buffer[256];

    count(counts, fevstunik_acceptor_new(&service, keytab.at, keytab.size, WEB, &shared).code == FEVSTUNIK_OK);
    count(counts, fevstunik_service_answer(&service, &login, request, request_size, &now, zeros, 16, buffer, sizeof buffer).code == FEVSTUNIK_ASK_STORE);
    count(counts, fevstunik_login_settle(&login, FEVSTUNIK_SAID_NEW, &now, buffer, sizeof buffer).code == FEVSTUNIK_OK);
    count(counts, fevstunik_messages_of_accepted(&messages, &login.accepted, &choice, zeros, 0, false).code == FEVSTUNIK_OK);
    count(counts, fevstunik_messages_new(&messages, &sides, zeros, 16, zeros, 0, zeros, 0).code == FEVSTUNIK_OK);
    count(counts, fevstunik_messages_after_list(&messages, &sides, zeros, 16, zeros, 0, zeros, 0).code == FEVSTUNIK_OK);
    count(counts, fevstunik_accepted_sent(&login.accepted).code == FEVSTUNIK_OK);
    fevstunik_messages_free(&messages);
    fevstunik_login_free(&login);
    fevstunik_acceptor_free(&service);
}

static void wrap_them(struct counts *counts)
{
    uint8_t buffer[1024];

    count(counts, fevstunik_token_request(&wrapped, request, request_size, buffer, sizeof buffer).code == FEVSTUNIK_OK);
    count(counts, fevstunik_token_reply(&wrapped, request, request_size, buffer, sizeof buffer).code == FEVSTUNIK_OK);
    count(counts, fevstunik_token_error(&wrapped, request, request_size, buffer, sizeof buffer).code == FEVSTUNIK_OK);
    count(counts, fevstunik_verdict_token(&verdict, buffer, sizeof buffer).code == FEVSTUNIK_OK);
}

static void *work(void *given)
{
    int i;

    for (i = 0; i < ROUNDS; i++) {
        accept_it(given);
        list_them(given);
        log_in(given);
        wrap_them(given);
    }
    return NULL;
}

/* Makes the request that all send. */
static void make(void)
{
    fevstunik_cache held = FEVSTUNIK_CACHE_INIT;
    fevstunik_pending pending = FEVSTUNIK_PENDING_INIT;
    fevstunik_answer answer;

    is("a cache", fevstunik_cache_new(&held, cache.at, cache.size).code, FEVSTUNIK_OK);
    answer = fevstunik_request(&held, &pending, WEB, &now, zeros, 16, &choice, zeros, 0, request, sizeof request);
    is("a request", answer.code, FEVSTUNIK_OK);
    request_size = answer.size;
    fevstunik_pending_free(&pending);
    fevstunik_cache_free(&held);
}

int main(int arguments, char **words)
{
    static struct counts threads[THREADS];
    int i;

    if (arguments != 3)
        return 2;
    from_file(&keytab, words[1]);
    from_file(&cache, words[2]);
    options.size = sizeof options;
    options.skew = 300;
    options.restarts = FEVSTUNIK_RESTART_FIRST_LIFE;
    shared = options;
    shared.started.seconds = 1699990000;
    shared.restarts = FEVSTUNIK_RESTART_SHARED;
    sides.role = FEVSTUNIK_ROLE_CLIENT;
    sides.session_type = 19;
    make();
    for (i = 0; i < THREADS; i++)
        if (pthread_create(&threads[i].thread, NULL, work, &threads[i]) != 0)
            return 2;
    for (i = 0; i < THREADS; i++) {
        pthread_join(threads[i].thread, NULL);
        is("good answers", threads[i].well, 26 * ROUNDS);
        is("faults", threads[i].ill, 0);
    }
    printf("%d passed, %d failed\n", passed, failed);
    return failed != 0;
}
