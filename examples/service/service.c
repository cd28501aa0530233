/* A service over TCP on the loopback, for several clients at once. A client that is let in sends a text under the key of the service's reply,
 * and gets a receipt. It has ten seconds for all of that. At SIGHUP the service reads its keytab again.
 *
 *     service KEYTAB NAME COUNT [first] [STORE [SECONDS]]      NAME as host/web@EX; it ends after so many connections
 *
 * STORE is what all processes of the service share, as sqlite:/run/web/stamps, redis:/run/redis/redis.sock or redis:USER@HOST:PORT. Without one,
 * logins are refused at first, after each start; with one, only after the store was made. It has so many seconds to answer, 2 if they are left
 * out. `first` says that every key of the keytab is new: then there is no pause. docs/OPERATING.md, "Restarts", says why there is one.
 *
 * It prints its port, and then a line for each connection: `CLIENT: TEXT`, `refused CODE, ticket for NAME`, `refused CODE` if the client sent
 * no request, or `hung up`. */
#include "store.h"
#include "text.h"
#include "threads.h"

#define SKEW 300

static fevstunik_acceptor service = FEVSTUNIK_ACCEPTOR_INIT;
static fevstunik_acceptor_options options = {.size = sizeof options, .skew = SKEW, .subkey_type = SUBKEY_TYPE};
static struct store store;
static char **given;

/* Makes the service, or gives it the keytab as it is now. */
static void load(void)
{
    size_t size, length = strlen(given[2]);
    uint8_t *keytab = whole_file(given[1], &size), *name = (uint8_t *)given[2];

    if (keytab == NULL)
        perror(given[1]);
    else {
        fevstunik_answer answer = service.opaque == NULL
                                      ? fevstunik_acceptor_new(&service, keytab, size, name, length, &options)
                                      : fevstunik_acceptor_replace_keytab(&service, keytab, size, name, length, false);

        fprintf(stderr, "keytab: %s\n", fevstunik_code_text(answer.code));
        explicit_bzero(keytab, size);
        free(keytab);
    }
    if (service.opaque == NULL)
        exit(2);
}

/* Asks the store about a client that the service would let in. No lock is held meanwhile, and nothing of the client can be read. */
static fevstunik_said ask(fevstunik_login *login)
{
    uint8_t stamp[MOST];
    fevstunik_time keep_until;
    fevstunik_answer answer = fevstunik_login_stamp(login, &keep_until, stamp, sizeof stamp);

    if (answer.code != FEVSTUNIK_OK)
        return FEVSTUNIK_SAID_FAILED;
    keep_until.seconds += 2 * (store.made.largest_skew - SKEW);
    return store_add(&store, stamp, answer.size, keep_until);
}

/* Decides about what a client sent, and sends what goes back. */
static fevstunik_answer decide(int peer, fevstunik_login *login, const struct bytes *input, const uint8_t *random,
                               size_t random_size)
{
    lock();
    fevstunik_time now = clock_now();
    fevstunik_answer answer =
        fevstunik_service_answer(&service, login, input->at, input->size, &now, random, random_size, NULL, 0);
    unlock();
    if (answer.code == FEVSTUNIK_ASK_STORE) {
        fevstunik_said said = ask(login);

        /* (it may be too late by now) */
        now = clock_now();
        answer = fevstunik_login_settle(login, said, &now, NULL, 0);
    }
    if (answer.code != FEVSTUNIK_SHORT_BUFFER)
        return answer;
    uint8_t *out = malloc(answer.size);
    if (out == NULL)
        give_up("memory");
    answer = fevstunik_login_answer(login, out, answer.size);
    (void)transmit(peer, out, answer.size);
    free(out);
    return answer;
}

/* Prints why a client isn't let in, and which service its ticket is for. Nobody has sealed that name: it proves nothing. */
static void print_refusal(fevstunik_login *login, uint32_t code)
{
    uint8_t bytes[1024];
    fevstunik_asked asked;

    /* (a name that is longer isn't printed) */
    if (fevstunik_login_asked(login, &asked, bytes, sizeof bytes).code == FEVSTUNIK_OK)
        printf("refused %s, ticket for %.*s\n", fevstunik_code_name(code), (int)asked.service.size,
               (const char *)bytes + asked.service.at);
    else
        printf("refused %s\n", fevstunik_code_name(code));
}

static void serve(int peer)
{
    struct bytes input;
    uint8_t random[16 + SUBKEY_SIZE];
    fevstunik_login login = FEVSTUNIK_LOGIN_INIT;
    fevstunik_answer answer = {FEVSTUNIK_GO_ON, 0, 0, 0};

    /* (the reply is made of these, whichever of the client's messages it answers) */
    draw(random, sizeof random);
    while (answer.code == FEVSTUNIK_GO_ON && receive(peer, &input))
        answer = decide(peer, &login, &input, random, sizeof random);
    if (answer.code == FEVSTUNIK_OK)
        hear(peer, &login.accepted, random + 16);
    else if (answer.code == FEVSTUNIK_GO_ON)
        printf("hung up\n");
    else
        print_refusal(&login, answer.code);
    explicit_bzero(random, sizeof random);
    fevstunik_login_free(&login);
}

static void open_store(const char *name, int seconds)
{
    if (!store_open(&store, name, seconds))
        exit(2);
    if (store.made.largest_skew >= SKEW)
        return;
    refuse(name, "it was made for a smaller skew");
    exit(2);
}

/* Takes the options after COUNT, and returns whether they are right. The start over a store is the moment at which it was made. */
static int take_options(char **words, int count)
{
    int is_first = count > 0 && strcmp(words[0], "first") == 0, at = is_first;

    options.started = clock_now();
    options.restarts = is_first ? FEVSTUNIK_RESTART_FIRST_LIFE : FEVSTUNIK_RESTART_STARTED;
    if (at == count)
        return 1;
    if (count > at + 2)
        return 0;
    open_store(words[at], count > at + 1 ? atoi(words[at + 1]) : 2);
    options.restarts = FEVSTUNIK_RESTART_SHARED;
    options.any_start = is_first;
    options.started = (fevstunik_time){0, 0};
    if (!is_first)
        options.started = (fevstunik_time){store.made.at / 1000000 + store.made.largest_skew - SKEW,
                                           (uint32_t)(store.made.at % 1000000)};
    return 1;
}

int main(int count, char **words)
{
    /* A peer or a store that hangs up doesn't end the service. */
    signal(SIGPIPE, SIG_IGN);
    given = words;
    if (count < 4 || !take_options(words + 4, count - 4)) {
        fputs(
            "usage: service KEYTAB NAME COUNT [first] [sqlite:FILE | redis:SOCKET | redis:USER@HOST:PORT [SECONDS]]\n",
            stderr);
        return 2;
    }
    load();
    serve_each(atoi(words[3]), serve, load);
    fevstunik_acceptor_free(&service);
    store_close(&store);
    return 0;
}
