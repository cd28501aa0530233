/* A login with a store of stamps, in two steps: a service that shares a store lets nobody in before the store has spoken. The arguments are the
 * files of the keytab and of the cache, and in hex a token that begins a negotiation and holds no request, the token that goes on with the
 * fixture's request, and a request of the last second of the year 9999. */
#include "asked.h"
#include "checks.h"

#define SKEW 300

static const fevstunik_time now = {START + 1, 0};
static const fevstunik_wrapped wrapping = {FEVSTUNIK_MECHANISM_KERBEROS, FEVSTUNIK_MECHANISM_KERBEROS};
static struct bytes keytab, cache, asking, going_on, at_the_end;
static uint8_t out[4096], token[1 << 16], buffer[4096], random_bytes[48];
static fevstunik_acceptor service;

/* A service whose store remembers from long before the requests on. */
static fevstunik_acceptor_options shared(void)
{
    fevstunik_acceptor_options options = {
        .size = sizeof options, .started = {START - 10 * SKEW, 0}, .skew = SKEW, .restarts = FEVSTUNIK_RESTART_SHARED};

    return options;
}

static void make(fevstunik_acceptor_options options)
{
    is_answer("service", fevstunik_acceptor_new(&service, keytab.at, keytab.size, WEB, &options), FEVSTUNIK_OK, 0, 0,
              0);
}

/* A token of the cache's client, who asks for a reply and has one of his own for each time; and what he expects. */
static size_t requested(fevstunik_pending *pending, uint32_t micros)
{
    static uint8_t request[4096];
    fevstunik_cache credentials = FEVSTUNIK_CACHE_INIT;
    const fevstunik_time at = {START, micros};
    const fevstunik_choice choice = {0, 0, true, true};
    const fevstunik_context_choice context = {0, {0}};
    fevstunik_answer answer;

    is("cache", fevstunik_cache_new(&credentials, cache.at, cache.size).code, FEVSTUNIK_OK);
    answer = fevstunik_context_request(&credentials, pending, WEB, &at, random_bytes, 16, &choice, random_bytes, 0,
                                       &context, request, sizeof request);
    is("request", answer.code, FEVSTUNIK_OK);
    fevstunik_cache_free(&credentials);
    return fevstunik_token_request(&wrapping, request, answer.size, token, sizeof token).size;
}

static fevstunik_answer called(fevstunik_login *login, const uint8_t *input, size_t size, size_t random_size)
{
    return fevstunik_service_answer(&service, login, input, size, &now, random_bytes, random_size, out, sizeof out);
}

/* Nothing of a client can be read, and nothing goes back. */
static void is_closed(const char *what, fevstunik_login *login)
{
    const fevstunik_choice choice = {0, 0, false, false};
    fevstunik_known known;
    fevstunik_asked asked;
    fevstunik_time time;
    int32_t kind;

    memset(out, 0xee, sizeof out);
    is_answer(what, fevstunik_login_answer(login, out, sizeof out), FEVSTUNIK_NOTHING_THERE, 0, 0, 0);
    is("nothing is sent", out[0], 0xee);
    is_answer(what, fevstunik_login_asked(login, &asked, buffer, sizeof buffer), FEVSTUNIK_NOTHING_THERE, 0, 0, 0);
    is_answer(what, fevstunik_accepted_known(&login->accepted, &known, buffer, sizeof buffer), FEVSTUNIK_NOTHING_THERE,
              0, 0, 0);
    is_answer(what, fevstunik_accepted_stamp(&login->accepted, SKEW, &time, buffer, sizeof buffer),
              FEVSTUNIK_NOTHING_THERE, 0, 0, 0);
    is_answer(what, fevstunik_accepted_start(&login->accepted, &time), FEVSTUNIK_NOTHING_THERE, 0, 0, 0);
    is_answer(what, fevstunik_accepted_count(&login->accepted, FEVSTUNIK_LIST_ADDRESSES), FEVSTUNIK_NOTHING_THERE, 0, 0,
              0);
    is_answer(what, fevstunik_accepted_item(&login->accepted, FEVSTUNIK_LIST_CHECKSUM, 0, &kind, buffer, sizeof buffer),
              FEVSTUNIK_NOTHING_THERE, 0, 0, 0);
    is_answer(
        what,
        fevstunik_accepted_reply(&login->accepted, random_bytes, 16, &choice, random_bytes, 0, buffer, sizeof buffer),
        FEVSTUNIK_NOTHING_THERE, 0, 0, 0);
}

/* The service asks its store for a client. */
static void asks(const char *what, fevstunik_login *login, const uint8_t *input, size_t size, size_t random_size)
{
    memset(out, 0xee, sizeof out);
    is_answer(what, called(login, input, size, random_size), FEVSTUNIK_ASK_STORE, 0, 0, 0);
    is("nothing is written", out[0], 0xee);
    is_closed(what, login);
}

static fevstunik_answer settled(fevstunik_login *login, uint32_t said, int64_t seconds, uint32_t micros)
{
    const fevstunik_time then = {seconds, micros};

    memset(out, 0xee, sizeof out);
    return fevstunik_login_settle(login, said, &then, out, sizeof out);
}

/* A login that doesn't wait is refused by name, whatever the store says of it, and stays as it is. */
static void is_idle(const char *what, fevstunik_login *login)
{
    fevstunik_time until = {7, 7};
    uint32_t said;

    for (said = FEVSTUNIK_SAID_NEW; said <= FEVSTUNIK_SAID_FAILED; said++)
        is_answer(what, settled(login, said, START + 1, 0), FEVSTUNIK_NOT_WAITING, 0, 0, 0);
    is("nothing is sent", out[0], 0xee);
    is_answer(what, fevstunik_login_stamp(login, &until, buffer, sizeof buffer), FEVSTUNIK_NOT_WAITING, 0, 0, 0);
    is("no time", until.seconds == 7 && until.micros == 7, 1);
}

/* The client reads the reply, with the subkey of the random bytes that were drawn for the first step. */
static void is_let_in(fevstunik_pending *pending, size_t size, uint32_t subkey_type, size_t subkey_size)
{
    fevstunik_agreement agreement;
    uint8_t message[4096];
    bool is_error;
    fevstunik_answer answer = fevstunik_token_answer(out, size, &is_error, message, sizeof message);

    is("a reply", answer.code == FEVSTUNIK_OK && !is_error, 1);
    is("it ends", fevstunik_finish(pending, message, answer.size, &agreement, buffer, sizeof buffer).code,
       FEVSTUNIK_OK);
    is("its subkey", agreement.service_subkey_type, subkey_type);
    is("its size", (long long)agreement.service_subkey.size, (long long)subkey_size);
    is_bytes("its bytes", buffer + agreement.service_subkey.at, random_bytes + 16, subkey_size);
}

static void is_refused_with(int code, size_t size)
{
    fevstunik_krb_error error;
    uint8_t message[4096];
    bool is_error;
    fevstunik_answer answer = fevstunik_token_answer(out, size, &is_error, message, sizeof message);

    is("an error", answer.code == FEVSTUNIK_OK && is_error, 1);
    is("it is read", fevstunik_krb_error_read(message, answer.size, &error, buffer, sizeof buffer).code, FEVSTUNIK_OK);
    is("its code", error.code, code);
}

static void lets_in(uint32_t subkey_type, size_t subkey_size)
{
    fevstunik_acceptor_options options = shared();
    fevstunik_login login = FEVSTUNIK_LOGIN_INIT, again = FEVSTUNIK_LOGIN_INIT;
    fevstunik_pending pending = FEVSTUNIK_PENDING_INIT;
    fevstunik_known known;
    size_t size = requested(&pending, 5);
    fevstunik_answer answer;

    options.subkey_type = subkey_type;
    make(options);
    is_answer("too few random bytes", called(&login, token, size, 15 + subkey_size), FEVSTUNIK_BAD_RANDOM, 0, 0, 0);
    asks("asked", &login, token, size, 16 + subkey_size);
    is("it is remembered", (long long)fevstunik_acceptor_count(&service), 1);
    is("the same service knows it", called(&again, token, size, 16 + subkey_size).code, FEVSTUNIK_REPEAT);
    is_idle("what is refused at once", &again);
    fevstunik_acceptor_free(&service);
    answer = settled(&login, FEVSTUNIK_SAID_NEW, START + SKEW, 5);
    is("let in", answer.code, FEVSTUNIK_OK);
    is("after the bytes", out[answer.size], 0xee);
    is_let_in(&pending, answer.size, subkey_type, subkey_size);
    is("the client", fevstunik_accepted_known(&login.accepted, &known, buffer, sizeof buffer).code, FEVSTUNIK_OK);
    is_bytes("his name", buffer + known.client.at, "alice@EX", 8);
    is("his time", known.ctime == START && known.cusec == 5, 1);
    is("the same answer", fevstunik_login_answer(&login, out, sizeof out).size == answer.size, 1);
    is_idle("what is settled", &login);
    is("the client stays", fevstunik_accepted_known(&login.accepted, &known, buffer, sizeof buffer).code, FEVSTUNIK_OK);
    fevstunik_login_free(&login);
    fevstunik_login_free(&again);
    is("freed", login.opaque == NULL && login.accepted.opaque == NULL, 1);
    fevstunik_pending_free(&pending);
}

/* What a store says, and when, decides. */
static void refusals(void)
{
    static const struct {
        const char *name;
        uint32_t said, micros;
        int64_t seconds;
        uint32_t code;
        int kerberos;
    } rows[] = {
        {"known", FEVSTUNIK_SAID_KNOWN, 0, START + 1, FEVSTUNIK_REPEAT, 34},
        {"failed", FEVSTUNIK_SAID_FAILED, 0, START + 1, FEVSTUNIK_STORE_FAILED, 60},
        {"late by a microsecond", FEVSTUNIK_SAID_NEW, 10, START + SKEW, FEVSTUNIK_SKEW, 37},
        {"late by more", FEVSTUNIK_SAID_NEW, 0, START + 10 * SKEW, FEVSTUNIK_SKEW, 37},
        {"known and late", FEVSTUNIK_SAID_KNOWN, 0, START + 10 * SKEW, FEVSTUNIK_REPEAT, 34},
    };
    fevstunik_login login = FEVSTUNIK_LOGIN_INIT;
    fevstunik_pending pending = FEVSTUNIK_PENDING_INIT;
    fevstunik_asked asked;
    fevstunik_known known;
    fevstunik_answer answer;
    size_t row;

    for (row = 0; row < sizeof rows / sizeof rows[0]; row++) {
        make(shared());
        asks(rows[row].name, &login, token, requested(&pending, 9), 16);
        answer = settled(&login, rows[row].said, rows[row].seconds, rows[row].micros);
        is(rows[row].name, answer.code, rows[row].code);
        is("its code of RFC 4120", answer.kerberos, rows[row].kerberos);
        is_refused_with(rows[row].kerberos, answer.size);
        is_answer("it is said again", fevstunik_login_answer(&login, out, sizeof out), rows[row].code,
                  rows[row].kerberos, 0, answer.size);
        is("nobody is let in", fevstunik_accepted_known(&login.accepted, &known, buffer, sizeof buffer).code,
           FEVSTUNIK_NOTHING_THERE);
        is("what was asked", fevstunik_login_asked(&login, &asked, buffer, sizeof buffer).code, FEVSTUNIK_OK);
        is_bytes("the service", buffer + asked.service.at, "host/web@EX", 11);
        is_idle("what is refused", &login);
        fevstunik_login_free(&login);
    }
    fevstunik_pending_free(&pending);
}

/* What isn't an answer decides nothing: the login still waits. */
static void faults(void)
{
    static const uint32_t numbers[] = {0, 4, 257, UINT32_MAX};
    fevstunik_login login = FEVSTUNIK_LOGIN_INIT, other = FEVSTUNIK_LOGIN_INIT;
    fevstunik_pending pending = FEVSTUNIK_PENDING_INIT;
    fevstunik_time until = {7, 7};
    size_t row;

    is_answer("empty", settled(&login, FEVSTUNIK_SAID_NEW, START, 0), FEVSTUNIK_EMPTY_HANDLE, 0, 0, 0);
    is_answer("the number of none", settled(&login, 0, START, 0), FEVSTUNIK_BAD_SAID, 0, 0, 0);
    is_answer("the moment of none", settled(&login, FEVSTUNIK_SAID_NEW, START, 1000000), FEVSTUNIK_BAD_MOMENT, 0, 0, 0);
    is_answer("the stamp of none", fevstunik_login_stamp(&login, &until, buffer, sizeof buffer), FEVSTUNIK_EMPTY_HANDLE,
              0, 0, 0);
    make(shared());
    is("it goes on", called(&other, asking.at, asking.size, 16).code, FEVSTUNIK_GO_ON);
    is_idle("what goes on", &other);
    asks("in the second round", &other, going_on.at, going_on.size, 16);
    is("settled", settled(&other, FEVSTUNIK_SAID_NEW, START + 1, 0).code, FEVSTUNIK_OK);
    asks("asked", &login, token, requested(&pending, 11), 16);
    for (row = 0; row < sizeof numbers / sizeof numbers[0]; row++) {
        is_answer("a number that says nothing", settled(&login, numbers[row], START, 1000000), FEVSTUNIK_BAD_SAID, 0, 0,
                  0);
        is_closed("it waits", &login);
    }
    is_answer("a wrong moment", settled(&login, FEVSTUNIK_SAID_NEW, START, 1000000), FEVSTUNIK_BAD_MOMENT, 0, 0, 0);
    is_closed("it waits then", &login);
    is("let in", settled(&login, FEVSTUNIK_SAID_NEW, START, 0).code, FEVSTUNIK_OK);
    fevstunik_login_free(&login);
    asks("another", &login, token, requested(&pending, 12), 16);
    is("the call again", called(&login, token, requested(&pending, 13), 16).code, FEVSTUNIK_NEGOTIATION_OVER);
    is_idle("it no longer waits", &login);
    fevstunik_login_free(&login);
    fevstunik_login_free(&other);
    fevstunik_pending_free(&pending);
}

/* The store is asked for what a service that shares none has of the request. */
static void stamps(void)
{
    fevstunik_acceptor_options options = shared();
    fevstunik_login login = FEVSTUNIK_LOGIN_INIT, alone = FEVSTUNIK_LOGIN_INIT;
    fevstunik_pending pending = FEVSTUNIK_PENDING_INIT;
    fevstunik_time until = {7, 7}, wanted;
    uint8_t stamp[256];
    fevstunik_answer answer;
    size_t size = requested(&pending, 14);

    options.restarts = FEVSTUNIK_RESTART_STARTED;
    make(options);
    is("alone", called(&alone, token, size, 16).code, FEVSTUNIK_OK);
    is_idle("a service that shares none", &alone);
    answer = fevstunik_accepted_stamp(&alone.accepted, SKEW, &wanted, stamp, sizeof stamp);
    is("its stamp", answer.code, FEVSTUNIK_OK);
    make(shared());
    asks("asked", &login, token, size, 16);
    is_answer("short", fevstunik_login_stamp(&login, &until, buffer, answer.size - 1), FEVSTUNIK_SHORT_BUFFER, 0, 0,
              answer.size);
    is("until then", until.seconds == START + 2 * SKEW && until.micros == 14, 1);
    until.seconds = 7;
    is_answer("stamp", fevstunik_login_stamp(&login, &until, buffer, sizeof buffer), FEVSTUNIK_OK, 0, 0, answer.size);
    is_bytes("its bytes", buffer, stamp, answer.size);
    is("the same time", until.seconds == wanted.seconds && until.micros == wanted.micros, 1);
    fevstunik_login_free(&login);
    answer = fevstunik_service_answer(&service, &login, at_the_end.at, at_the_end.size,
                                      &(fevstunik_time){253402300799, 0}, random_bytes, 16, out, sizeof out);
    is("at the end of time", answer.code, FEVSTUNIK_ASK_STORE);
    until.seconds = 7;
    is_answer("no moment", fevstunik_login_stamp(&login, &until, buffer, sizeof buffer), FEVSTUNIK_BAD_MOMENT, 0, 0, 0);
    is("no time", until.seconds, 7);
    is("it is refused", settled(&login, FEVSTUNIK_SAID_FAILED, 253402300799, 0).code, FEVSTUNIK_STORE_FAILED);
    fevstunik_login_free(&login);
    fevstunik_login_free(&alone);
    fevstunik_pending_free(&pending);
}

/* The decision stands if the buffer is short. */
static void short_buffers(void)
{
    fevstunik_login login = FEVSTUNIK_LOGIN_INIT;
    fevstunik_pending pending = FEVSTUNIK_PENDING_INIT;
    fevstunik_answer answer;

    make(shared());
    asks("asked", &login, token, requested(&pending, 15), 16);
    memset(out, 0xee, sizeof out);
    answer = fevstunik_login_settle(&login, FEVSTUNIK_SAID_NEW, &now, out, 20);
    is("short", answer.code, FEVSTUNIK_SHORT_BUFFER);
    is("nothing is written", out[0], 0xee);
    is_idle("it is settled", &login);
    is_answer("the answer", fevstunik_login_answer(&login, out, sizeof out), FEVSTUNIK_OK, 0, 0, answer.size);
    is_let_in(&pending, answer.size, 0, 0);
    fevstunik_login_free(&login);
    fevstunik_pending_free(&pending);
}

/* Two services that share a store ask it for the same stamp; the one that is told that it is new lets the client in. */
static void two_services(void)
{
    fevstunik_login logins[2] = {FEVSTUNIK_LOGIN_INIT, FEVSTUNIK_LOGIN_INIT};
    fevstunik_pending pending = FEVSTUNIK_PENDING_INIT;
    fevstunik_time until;
    uint8_t stamps[2][256];
    size_t at, sizes[2], size = requested(&pending, 16);

    for (at = 0; at < 2; at++) {
        make(shared());
        asks("asked", &logins[at], token, size, 16);
        sizes[at] = fevstunik_login_stamp(&logins[at], &until, stamps[at], sizeof stamps[at]).size;
    }
    is("one stamp", sizes[0] == sizes[1] && memcmp(stamps[0], stamps[1], sizes[0]) == 0, 1);
    is("let in", settled(&logins[1], FEVSTUNIK_SAID_NEW, START + 1, 0).code, FEVSTUNIK_OK);
    is("refused", settled(&logins[0], FEVSTUNIK_SAID_KNOWN, START + 1, 0).code, FEVSTUNIK_REPEAT);
    fevstunik_login_free(&logins[0]);
    fevstunik_login_free(&logins[1]);
    fevstunik_pending_free(&pending);
}

/* The calls that ask no store are refused, and whatever is replaced, the service shares its store. */
static void stays_shared(void)
{
    fevstunik_accepted accepted = FEVSTUNIK_ACCEPTED_INIT;
    fevstunik_login login = FEVSTUNIK_LOGIN_INIT;
    fevstunik_pending pending = FEVSTUNIK_PENDING_INIT;
    fevstunik_wrapped wrapped;
    fevstunik_known known;
    uint8_t request[4096];
    size_t size = requested(&pending, 17);

    make(shared());
    size = fevstunik_token_open(token, size, &wrapped, request, sizeof request).size;
    is("ready", fevstunik_accepted_new(&accepted).code, FEVSTUNIK_OK);
    is_answer("accept", fevstunik_acceptor_accept(&service, &accepted, request, size, &now), FEVSTUNIK_SHARED, 0, 0, 0);
    is("nothing is accepted", fevstunik_accepted_known(&accepted, &known, buffer, sizeof buffer).code,
       FEVSTUNIK_NOTHING_THERE);
    is("nothing is remembered", (long long)fevstunik_acceptor_count(&service), 0);
    is("no latest moment", fevstunik_acceptor_latest(&service, &(fevstunik_time){0, 0}).code, FEVSTUNIK_NOTHING_THERE);
    is("no error", fevstunik_acceptor_error(&service, WEB, 3, &now, buffer, sizeof buffer).code,
       FEVSTUNIK_NOTHING_THERE);
    is("keytab", fevstunik_acceptor_replace_keytab(&service, keytab.at, keytab.size, WEB, false).code, FEVSTUNIK_OK);
    is("realm", fevstunik_acceptor_add_realm(&service, (const uint8_t *)"EX", 2).code, FEVSTUNIK_OK);
    is("bindings", fevstunik_acceptor_replace_bindings(&service, FEVSTUNIK_BINDINGS_IF_SENT, random_bytes, 16).code,
       FEVSTUNIK_OK);
    asks("a request alone", &login, request, size, 16);
    fevstunik_login_free(&login);
    is("bindings are required",
       fevstunik_acceptor_replace_bindings(&service, FEVSTUNIK_BINDINGS_REQUIRED, random_bytes, 16).code, FEVSTUNIK_OK);
    is("the terms come first", called(&login, token, requested(&pending, 18), 16).code, FEVSTUNIK_CHANNEL_BINDINGS);
    is_idle("what breaks the terms", &login);
    fevstunik_login_free(&login);
    fevstunik_accepted_free(&accepted);
    fevstunik_pending_free(&pending);
}

/* The store's start is a start: the same moments are refused, and requests from before it. */
static void starts(void)
{
    fevstunik_acceptor_options options = shared();
    fevstunik_login login = FEVSTUNIK_LOGIN_INIT;
    fevstunik_pending pending = FEVSTUNIK_PENDING_INIT;
    size_t size = requested(&pending, 19);

    options.started = now;
    make(options);
    is("just started", called(&login, token, size, 16).code, FEVSTUNIK_JUST_STARTED);
    is_idle("it isn't asked for", &login);
    fevstunik_login_free(&login);
    options.started = moment(1577836799, 0);
    is_answer("too early", fevstunik_acceptor_new(&service, keytab.at, keytab.size, WEB, &options),
              FEVSTUNIK_EARLY_START, 0, 0, 0);
    options.any_start = true;
    make(options);
    asks("any start", &login, token, size, 16);
    fevstunik_login_free(&login);
    options.started = moment(START, 1000000);
    is_answer("no moment", fevstunik_acceptor_new(&service, keytab.at, keytab.size, WEB, &options),
              FEVSTUNIK_BAD_MOMENT, 0, 0, 0);
    options.restarts = FEVSTUNIK_RESTART_SHARED + 1;
    is_answer("no such rule", fevstunik_acceptor_new(&service, keytab.at, keytab.size, WEB, &options),
              FEVSTUNIK_NO_START, 0, 0, 0);
    fevstunik_pending_free(&pending);
}

/* The second message of a client that names NTLM first waits for the store, and is decided on after that. The words are its first message, and
 * then each code with the message. */
static void second_messages(int count, char **words)
{
    static struct bytes first, second;
    int at;

    from_hex(&first, words[0]);
    for (at = 1; at + 1 < count; at += 2) {
        fevstunik_login login = FEVSTUNIK_LOGIN_INIT;

        make(shared());
        from_hex(&second, words[at + 1]);
        is("a list", called(&login, first.at, first.size, 16).code, FEVSTUNIK_GO_ON);
        is("the store is asked", called(&login, second.at, second.size, 16).code, FEVSTUNIK_ASK_STORE);
        is_closed("until then", &login);
        is(words[at], fevstunik_login_settle(&login, FEVSTUNIK_SAID_NEW, &now, out, sizeof out).code, atoi(words[at]));
        is("the same", fevstunik_login_answer(&login, out, sizeof out).code, atoi(words[at]));
        fevstunik_login_free(&login);
    }
    is("messages", at, 11);
}

int main(int count, char **words)
{
    struct bytes *const inputs[] = {&keytab, &cache, &asking, &going_on, &at_the_end};
    int at;

    if (count < 7)
        return 2;
    from_words(inputs, 5, words);
    for (at = 0; at < 48; at++)
        random_bytes[at] = (uint8_t)(5 * at + 1);
    lets_in(0, 0);
    lets_in(19, 16);
    lets_in(20, 32);
    refusals();
    faults();
    stamps();
    short_buffers();
    two_services();
    stays_shared();
    second_messages(count - 6, words + 6);
    starts();
    fevstunik_acceptor_free(&service);
    printf("%d passed, %d failed\n", passed, failed);
    return failed != 0;
}
