/* A login in one call: what a service answers to what a client sent, by its terms. The arguments are the files of the keytab and of the cache,
 * and in hex a token that begins a negotiation and holds no request, and the token that goes on with the fixture's request. Lines of standard
 * input have what tests/support/c_cases.py makes:
 *
 *     TERMS CODE KERBEROS HEX      a new service with these terms answers this to the request, however it is wrapped */
#include "asked.h"
#include "checks.h"

#define EACH_WRAPPING 3

static const fevstunik_time now = {START + 1, 0};
static const fevstunik_wrapped wrappings[EACH_WRAPPING] = {{0, 0}, {FEVSTUNIK_MECHANISM_KERBEROS, FEVSTUNIK_MECHANISM_NONE},
                                                           {FEVSTUNIK_MECHANISM_WINDOWS, FEVSTUNIK_MECHANISM_KERBEROS}};
static struct bytes keytab, cache, asking, going_on;
static const uint8_t none[16];
static uint8_t hash[16], out[4096], token[1 << 16], random_bytes[48];
static fevstunik_acceptor service;

static fevstunik_acceptor_options terms_of(const char *terms)
{
    fevstunik_acceptor_options options = {.size = sizeof options, .skew = 300, .restarts = FEVSTUNIK_RESTART_FIRST_LIFE};

    memcpy(options.bindings_hash, hash, sizeof hash);
    options.anonymous = strcmp(terms, "anonymous") == 0;
    options.only_realms = strcmp(terms, "realms") == 0;
    options.bindings = strcmp(terms, "sent") == 0       ? FEVSTUNIK_BINDINGS_IF_SENT
                       : strcmp(terms, "required") == 0 ? FEVSTUNIK_BINDINGS_REQUIRED
                                                        : FEVSTUNIK_BINDINGS_IGNORED;
    return options;
}

static void make(fevstunik_acceptor_options options)
{
    is_answer("service", fevstunik_acceptor_new(&service, keytab.at, keytab.size, WEB, &options), FEVSTUNIK_OK, 0, 0, 0);
    if (options.only_realms)
        is_answer("realm", fevstunik_acceptor_add_realm(&service, (const uint8_t *)"EX", 2), FEVSTUNIK_OK, 0, 0, 0);
}

static fevstunik_answer called(fevstunik_login *login, const uint8_t *input, size_t size, size_t random_size, size_t room)
{
    return fevstunik_service_answer(&service, login, input, size, &now, random_bytes, random_size, out, room);
}

/* The bytes of what goes back are asked for after the decision, and any number of times. */
static fevstunik_answer decided(fevstunik_login *login, const uint8_t *input, size_t size, size_t random_size)
{
    fevstunik_answer first, again;

    memset(out, 0xee, sizeof out);
    first = fevstunik_service_answer(&service, login, input, size, &now, random_bytes, random_size, NULL, 0);
    is("nothing is written", out[0], 0xee);
    again = fevstunik_login_answer(login, out, sizeof out);
    if (first.code == FEVSTUNIK_SHORT_BUFFER) {
        is_answer("one byte too few", fevstunik_login_answer(login, out, first.size - 1), FEVSTUNIK_SHORT_BUFFER, 0, 0, first.size);
        is("as many bytes", (long long)again.size, (long long)first.size);
    } else
        is_answer("the same", again, first.code, first.kerberos, first.at, 0);
    is("after the bytes", out[again.size], 0xee);
    return again;
}

/* A request in a wrapping. */
static size_t wrapped_in(const fevstunik_wrapped *wrapping, const uint8_t *request, size_t size)
{
    if (wrapping->mechanism != 0)
        return fevstunik_token_request(wrapping, request, size, token, sizeof token).size;
    memcpy(token, request, size);
    return size;
}

/* What goes back to a client that asks for no reply: accept-completed or reject, in a negotiation. */
static void goes_back(const char *what, int wrapping, fevstunik_answer answer)
{
    fevstunik_verdict verdict = {0, 0};

    if (wrapping != 2) {
        is(what, (long long)answer.size, 0);
        return;
    }
    is_answer(what, fevstunik_verdict_read(out, answer.size, &verdict), FEVSTUNIK_OK, 0, 0, 0);
    is(what, verdict.says, answer.code == FEVSTUNIK_OK ? FEVSTUNIK_SAYS_COMPLETED : FEVSTUNIK_SAYS_REJECTED);
}

/* A request is remembered if it is accepted, also if it is refused for a cause after that of a repeat or for a breach of the terms. */
static int is_remembered(unsigned code)
{
    return code == FEVSTUNIK_OK || (code > FEVSTUNIK_REPEAT && code <= FEVSTUNIK_CHANNEL_BINDINGS);
}

static void one_login(const char *terms, int wrapping, const uint8_t *request, size_t size, unsigned code, int kerberos)
{
    fevstunik_login login = FEVSTUNIK_LOGIN_INIT, again = FEVSTUNIK_LOGIN_INIT;
    fevstunik_known known;
    uint8_t buffer[256];
    fevstunik_answer answer;

    make(terms_of(terms));
    size = wrapped_in(&wrappings[wrapping], request, size);
    answer = decided(&login, token, size, 16);
    is(terms, answer.code, code);
    is("its code of RFC 4120", answer.kerberos, kerberos);
    goes_back("what goes back", wrapping, answer);
    is("what is known", fevstunik_accepted_known(&login.accepted, &known, buffer, sizeof buffer).code,
       code == FEVSTUNIK_OK ? FEVSTUNIK_OK : FEVSTUNIK_NOTHING_THERE);
    is("the login is over", called(&login, token, size, 16, sizeof out).code, FEVSTUNIK_NEGOTIATION_OVER);
    is("nothing is known then", fevstunik_accepted_known(&login.accepted, &known, buffer, sizeof buffer).code, FEVSTUNIK_NOTHING_THERE);
    is("the same bytes again", decided(&again, token, size, 16).code, is_remembered(code) ? FEVSTUNIK_REPEAT : code);
    fevstunik_login_free(&login);
    fevstunik_login_free(&again);
    is("freed", login.opaque == NULL && login.accepted.opaque == NULL, 1);
}

static void one(const char *line)
{
    static uint8_t request[1 << 16];
    char terms[16];
    unsigned code;
    int kerberos, end = 0, wrapping;
    size_t size;

    if (sscanf(line, "%15s %u %d %n", terms, &code, &kerberos, &end) != 3 || end == 0)
        exit(2);
    size = read_hex(request, sizeof request, line + end);
    /* (by itself only a request is one) */
    for (wrapping = request[0] == 0x6e ? 0 : 1; wrapping < EACH_WRAPPING; wrapping++)
        one_login(terms, wrapping, request, size, code, kerberos);
}

/* A request of the cache's client with channel bindings, that asks for a reply; and what it expects. */
static size_t bound(fevstunik_pending *pending, uint32_t micros, const uint8_t *bindings)
{
    static uint8_t request[4096];
    fevstunik_cache credentials = FEVSTUNIK_CACHE_INIT;
    const fevstunik_time at = {START, micros};
    const fevstunik_choice choice = {0, 0, true, true};
    fevstunik_context_choice context = {0, {0}};
    fevstunik_answer answer;

    memcpy(context.bindings, bindings, sizeof context.bindings);
    is("cache", fevstunik_cache_new(&credentials, cache.at, cache.size).code, FEVSTUNIK_OK);
    answer = fevstunik_context_request(&credentials, pending, WEB, &at, random_bytes, 16, &choice, random_bytes, 0, &context, request,
                                       sizeof request);
    is("request", answer.code, FEVSTUNIK_OK);
    fevstunik_cache_free(&credentials);
    return wrapped_in(&wrappings[2], request, answer.size);
}

/* One without bindings. */
static size_t requested(fevstunik_pending *pending, uint32_t micros)
{
    return bound(pending, micros, none);
}

/* The client gets a reply with the subkey of the random bytes; and if the answer is sent again, an error that says so. */
static void replies(uint32_t subkey_type, size_t subkey_size)
{
    fevstunik_acceptor_options options = terms_of("plain");
    fevstunik_login login = FEVSTUNIK_LOGIN_INIT;
    fevstunik_pending pending = FEVSTUNIK_PENDING_INIT;
    fevstunik_agreement agreement;
    fevstunik_krb_error error;
    uint8_t message[4096], buffer[4096];
    bool is_error;
    size_t size = requested(&pending, 5);
    fevstunik_answer answer;

    options.subkey_type = subkey_type;
    make(options);
    is_answer("too few random bytes", called(&login, token, size, 15 + subkey_size, sizeof out), FEVSTUNIK_BAD_RANDOM, 0, 0, 0);
    is_answer("too many", called(&login, token, size, 17 + subkey_size, sizeof out), FEVSTUNIK_BAD_RANDOM, 0, 0, 0);
    is_answer("nothing was decided", fevstunik_login_answer(&login, out, sizeof out), FEVSTUNIK_EMPTY_HANDLE, 0, 0, 0);
    answer = decided(&login, token, size, 16 + subkey_size);
    is("let in", answer.code, FEVSTUNIK_OK);
    answer = fevstunik_token_answer(out, answer.size, &is_error, message, sizeof message);
    is("a reply", answer.code == FEVSTUNIK_OK && !is_error, 1);
    is("it ends", fevstunik_finish(&pending, message, answer.size, &agreement, buffer, sizeof buffer).code, FEVSTUNIK_OK);
    is("its subkey", agreement.service_subkey_type, subkey_type);
    is("its size", (long long)agreement.service_subkey.size, (long long)subkey_size);
    is_bytes("its bytes", buffer + agreement.service_subkey.at, random_bytes + 16, subkey_size);
    fevstunik_login_free(&login);
    answer = decided(&login, token, size, 16 + subkey_size);
    is("sent again", answer.code, FEVSTUNIK_REPEAT);
    answer = fevstunik_token_answer(out, answer.size, &is_error, message, sizeof message);
    is("an error", answer.code == FEVSTUNIK_OK && is_error, 1);
    is("it is read", fevstunik_krb_error_read(message, answer.size, &error, buffer, sizeof buffer).code, FEVSTUNIK_OK);
    is("its code", error.code, 34);
    fevstunik_login_free(&login);
    fevstunik_pending_free(&pending);
}

/* The client is asked for its token in the first round, and let in in the second. */
static void two_rounds(void)
{
    fevstunik_login login = FEVSTUNIK_LOGIN_INIT;
    fevstunik_verdict verdict = {0, 0};
    fevstunik_known known;
    uint8_t buffer[256];
    const fevstunik_time bad = {0, 1000000};
    fevstunik_answer answer;

    make(terms_of("plain"));
    answer = decided(&login, asking.at, asking.size, 16);
    is("it goes on", answer.code, FEVSTUNIK_GO_ON);
    is_answer("what it says", fevstunik_verdict_read(out, answer.size, &verdict), FEVSTUNIK_OK, 0, 0, 0);
    is("incomplete", verdict.says, FEVSTUNIK_SAYS_INCOMPLETE);
    is("nothing is known", fevstunik_accepted_known(&login.accepted, &known, buffer, sizeof buffer).code, FEVSTUNIK_NOTHING_THERE);
    is_answer("a wrong moment", fevstunik_service_answer(&service, &login, going_on.at, going_on.size, &bad, random_bytes, 16, out, sizeof out),
              FEVSTUNIK_BAD_MOMENT, 0, 0, 0);
    is_answer("nothing was decided then", fevstunik_login_answer(&login, out, sizeof out), FEVSTUNIK_NOTHING_THERE, 0, 0, 0);
    answer = decided(&login, going_on.at, going_on.size, 16);
    is("let in", answer.code, FEVSTUNIK_OK);
    is_answer("what it says then", fevstunik_verdict_read(out, answer.size, &verdict), FEVSTUNIK_OK, 0, 0, 0);
    is("completed", verdict.says, FEVSTUNIK_SAYS_COMPLETED);
    is("no mechanism", verdict.mechanism, FEVSTUNIK_MECHANISM_NONE);
    is("the client", fevstunik_accepted_known(&login.accepted, &known, buffer, sizeof buffer).code, FEVSTUNIK_OK);
    is_bytes("its name", buffer + known.client.at, "alice@EX", 8);
    fevstunik_login_free(&login);
}

/* An element of DER. */
static size_t element(uint8_t *to, uint8_t tag, const uint8_t *content, size_t size)
{
    size_t at = 0;

    to[at++] = tag;
    if (size >= 0x80)
        to[at++] = size >= 0x100 ? 0x82 : 0x81;
    if (size >= 0x100)
        to[at++] = (uint8_t)(size >> 8);
    to[at++] = (uint8_t)size;
    memmove(to + at, content, size);
    return at + size;
}

/* A client's later message in a negotiation (RFC 4178, section 4.2.2), with a token that has this request, if there is one, and this MIC. */
static size_t later(const uint8_t *request, size_t size, const uint8_t *mic, size_t mic_size)
{
    static uint8_t one[8192], two[8192], fields[8192];
    size_t at = 0, made;

    if (size > 0) {
        made = fevstunik_token_request(&wrappings[1], request, size, one, sizeof one).size;
        made = element(two, 0x04, one, made);
        at += element(fields + at, 0xa2, two, made);
    }
    if (mic_size > 0) {
        made = element(two, 0x04, mic, mic_size);
        at += element(fields + at, 0xa3, two, made);
    }
    made = element(one, 0x30, fields, at);
    return element(token, 0xa1, one, made);
}

/* NTLM and then Kerberos: a negotiation without a token, and the list in it. */
static const uint8_t listing[] = {0x60, 0x27, 0x06, 0x06, 0x2b, 0x06, 0x01, 0x05, 0x05, 0x02, 0xa0, 0x1d, 0x30, 0x1b,
                                  0xa0, 0x19, 0x30, 0x17, 0x06, 0x0a, 0x2b, 0x06, 0x01, 0x04, 0x01, 0x82, 0x37, 0x02,
                                  0x02, 0x0a, 0x06, 0x09, 0x2a, 0x86, 0x48, 0x86, 0xf7, 0x12, 0x01, 0x02, 0x02};
enum { LIST_AT = 16, LIST_SIZE = 25, MIC_SIZE = 32 };

/* The client's messages, by the reply in the service's answer, which ends with the service's MIC of the list. */
static void client_side(fevstunik_messages *client, fevstunik_pending *pending, size_t size)
{
    fevstunik_message_options options = {.role = FEVSTUNIK_ROLE_CLIENT, .session_type = 19, .client_seq = 7};
    fevstunik_agreement agreement;
    fevstunik_received received;
    uint8_t buffer[256];
    size_t at = 0;

    while (at + 3 < size && memcmp(out + at, "\x02\x00\x6f", 3) != 0)
        at++;
    is("the reply ends", fevstunik_finish(pending, out + at + 2, out[at + 3] + 2, &agreement, buffer, sizeof buffer).code, FEVSTUNIK_OK);
    is("its messages", fevstunik_messages_new(client, &options, buffer + agreement.session_key.at, agreement.session_key.size, none, 0, none, 0).code,
       FEVSTUNIK_OK);
    is("the service's MIC",
       fevstunik_messages_verify(client, listing + LIST_AT, LIST_SIZE, out + size - MIC_SIZE, MIC_SIZE, &received).code, FEVSTUNIK_OK);
    is("its number", (long long)received.number, 0);
}

/* The messages after the login go on after the MICs, and the next ones are taken. */
static void messages_go_on(fevstunik_login *login, fevstunik_messages *client)
{
    static const fevstunik_choice choice = {0, 0, false, false};
    static const fevstunik_message_options options = {.role = FEVSTUNIK_ROLE_SERVICE, .session_type = 19, .client_seq = 7};
    fevstunik_messages held = FEVSTUNIK_MESSAGES_INIT, made = FEVSTUNIK_MESSAGES_INIT;
    fevstunik_received received;
    fevstunik_known known;
    uint8_t buffer[256], text[MIC_SIZE];

    is_answer("a MIC was sent", fevstunik_accepted_sent(&login->accepted), FEVSTUNIK_OK, 0, 0, 1);
    is("known", fevstunik_accepted_known(&login->accepted, &known, buffer, sizeof buffer).code, FEVSTUNIK_OK);
    is("by the login", fevstunik_messages_of_accepted(&held, &login->accepted, &choice, none, 0, false).code, FEVSTUNIK_OK);
    is("by the keys",
       fevstunik_messages_after_list(&made, &options, buffer + known.session_key.at, known.session_key.size, none, 0, none, 0).code, FEVSTUNIK_OK);
    is("the client's next", (long long)fevstunik_messages_mic(client, (const uint8_t *)"hello", 5, text, sizeof text).size, MIC_SIZE);
    is("is taken", fevstunik_messages_verify(&held, (const uint8_t *)"hello", 5, text, sizeof text, &received).code, FEVSTUNIK_OK);
    is("with its number", (long long)received.number, 8);
    is("is taken there", fevstunik_messages_verify(&made, (const uint8_t *)"hello", 5, text, sizeof text, &received).code, FEVSTUNIK_OK);
    is("the service's next", (long long)fevstunik_messages_mic(&held, (const uint8_t *)"hi", 2, text, sizeof text).size, MIC_SIZE);
    is("is taken by the client", fevstunik_messages_verify(client, (const uint8_t *)"hi", 2, text, sizeof text, &received).code, FEVSTUNIK_OK);
    is("with the number after the MIC", (long long)received.number, 1);
    fevstunik_messages_free(&held);
    fevstunik_messages_free(&made);
}

/* A client that names NTLM first is asked for its token and for its MIC of the list, and let in by its third message. Its MIC is turned by these
 * bits, or left out. */
static void listed(uint32_t micros, uint8_t turned, bool has_mic, unsigned code)
{
    static uint8_t request[4096];
    fevstunik_cache credentials = FEVSTUNIK_CACHE_INIT;
    fevstunik_login login = FEVSTUNIK_LOGIN_INIT;
    fevstunik_pending pending = FEVSTUNIK_PENDING_INIT;
    fevstunik_messages client = FEVSTUNIK_MESSAGES_INIT;
    const fevstunik_choice choice = {0, 7, true, true};
    const fevstunik_context_choice context = {0, {0}};
    const fevstunik_time at = {START, micros};
    uint8_t mic[MIC_SIZE];
    fevstunik_answer answer;

    make(terms_of("plain"));
    is("cache", fevstunik_cache_new(&credentials, cache.at, cache.size).code, FEVSTUNIK_OK);
    answer = fevstunik_context_request(&credentials, &pending, WEB, &at, random_bytes, 16, &choice, none, 0, &context, request, sizeof request);
    is("request", answer.code, FEVSTUNIK_OK);
    is("it is asked for its token", decided(&login, listing, sizeof listing, 16).code, FEVSTUNIK_GO_ON);
    answer = decided(&login, token, later(request, answer.size, NULL, 0), 16);
    is("and for its MIC", answer.code, FEVSTUNIK_GO_ON);
    is_answer("nothing is known yet", fevstunik_accepted_sent(&login.accepted), FEVSTUNIK_NOTHING_THERE, 0, 0, 0);
    client_side(&client, &pending, answer.size);
    is("the client's MIC", fevstunik_messages_mic(&client, listing + LIST_AT, LIST_SIZE, mic, sizeof mic).code, FEVSTUNIK_OK);
    mic[MIC_SIZE - 1] ^= turned;
    answer = decided(&login, token, later(NULL, 0, mic, has_mic ? MIC_SIZE : 0), 16);
    is("how it ends", answer.code, code);
    if (code == FEVSTUNIK_OK) {
        is("nothing goes back", (long long)answer.size, 0);
        messages_go_on(&login, &client);
    } else
        goes_back("a reject", 2, answer);
    fevstunik_login_free(&login);
    fevstunik_messages_free(&client);
    fevstunik_pending_free(&pending);
    fevstunik_cache_free(&credentials);
}

/* How a service answers to the second message of a client that names NTLM first. The words are its first message, and then each code with the
 * message. */
static void second_messages(int count, char **words)
{
    static struct bytes first, second;
    int at;

    from_hex(&first, words[0]);
    for (at = 1; at + 1 < count; at += 2) {
        fevstunik_login login = FEVSTUNIK_LOGIN_INIT;

        make(terms_of("plain"));
        from_hex(&second, words[at + 1]);
        is("a list", decided(&login, first.at, first.size, 16).code, FEVSTUNIK_GO_ON);
        is(words[at], called(&login, second.at, second.size, 16, sizeof out).code, atoi(words[at]));
        is("the same", fevstunik_login_answer(&login, out, sizeof out).code, atoi(words[at]));
        fevstunik_login_free(&login);
        is_answer("freed", fevstunik_accepted_sent(&login.accepted), FEVSTUNIK_EMPTY_HANDLE, 0, 0, 0);
    }
    is("messages", at, 11);
}

/* The decision stands if the buffer is short: it isn't made again, and the request is remembered once. */
static void short_buffer(void)
{
    fevstunik_login login = FEVSTUNIK_LOGIN_INIT, other = FEVSTUNIK_LOGIN_INIT;
    fevstunik_pending pending = FEVSTUNIK_PENDING_INIT;
    size_t size = requested(&pending, 7);

    make(terms_of("plain"));
    memset(out, 0xee, sizeof out);
    is("short", called(&login, token, size, 16, 20).code, FEVSTUNIK_SHORT_BUFFER);
    is("nothing is written", out[0], 0xee);
    is("remembered", (long long)fevstunik_acceptor_count(&service), 1);
    is("the answer", fevstunik_login_answer(&login, out, sizeof out).code, FEVSTUNIK_OK);
    is("another login", called(&other, token, size, 16, sizeof out).code, FEVSTUNIK_REPEAT);
    is("remembered once", (long long)fevstunik_acceptor_count(&service), 1);
    is("the call again", called(&login, token, size, 16, sizeof out).code, FEVSTUNIK_NEGOTIATION_OVER);
    fevstunik_login_free(&login);
    fevstunik_login_free(&other);
    fevstunik_pending_free(&pending);
}

/* What a refused request asked for, and what any request asks for. */
static void asked(void)
{
    fevstunik_login login = FEVSTUNIK_LOGIN_INIT;
    fevstunik_asked found;
    uint8_t buffer[64];

    is_answer("empty", fevstunik_login_asked(&login, &found, buffer, sizeof buffer), FEVSTUNIK_EMPTY_HANDLE, 0, 0, 0);
    make(terms_of("plain"));
    (void)decided(&login, asking.at, asking.size, 16);
    is_answer("not refused", fevstunik_login_asked(&login, &found, buffer, sizeof buffer), FEVSTUNIK_NOTHING_THERE, 0, 0, 0);
    (void)decided(&login, going_on.at, going_on.size, 16);
    is_answer("let in", fevstunik_login_asked(&login, &found, buffer, sizeof buffer), FEVSTUNIK_NOTHING_THERE, 0, 0, 0);
    fevstunik_login_free(&login);
    (void)decided(&login, asking.at, asking.size, 16);
    is("a repeat", decided(&login, going_on.at, going_on.size, 16).code, FEVSTUNIK_REPEAT);
    memset(&found, 0x5a, sizeof found);
    is_answer("short", fevstunik_login_asked(&login, &found, buffer, 10), FEVSTUNIK_SHORT_BUFFER, 0, 0, 11);
    is_answer("asked", fevstunik_login_asked(&login, &found, buffer, sizeof buffer), FEVSTUNIK_OK, 0, 0, 11);
    is_bytes("the service", buffer + found.service.at, "host/web@EX", 11);
    is("its size", (long long)found.service.size, 11);
    is("its type", found.service_type, 3);
    is("the ticket's type", found.etype, 19);
    is("its version", found.has_kvno && found.kvno == 3, 1);
    is("no reply", found.wants_reply, 0);
    fevstunik_login_free(&login);
}

static void request_asks(void)
{
    fevstunik_pending pending = FEVSTUNIK_PENDING_INIT;
    fevstunik_wrapped wrapped;
    fevstunik_asked found;
    uint8_t request[4096], buffer[64];
    size_t size = requested(&pending, 9);

    size = fevstunik_token_open(token, size, &wrapped, request, sizeof request).size;
    memset(&found, 0x5a, sizeof found);
    is_answer("no request", fevstunik_request_asks(token, size, &found, buffer, sizeof buffer), FEVSTUNIK_NOTHING_THERE, 0, 0, 0);
    is("nothing is filled", found.etype, 0x5a5a5a5a);
    is_answer("short", fevstunik_request_asks(request, size, &found, buffer, 0), FEVSTUNIK_SHORT_BUFFER, 0, 0, 11);
    is_answer("asks", fevstunik_request_asks(request, size, &found, buffer, sizeof buffer), FEVSTUNIK_OK, 0, 0, 11);
    is_bytes("the service", buffer, "host/web@EX", 11);
    is("a reply", found.wants_reply && found.etype == 19 && found.has_kvno && found.kvno == 3, 1);
    fevstunik_pending_free(&pending);
}

/* A service that was started again, one that is full, and none. */
static void other_services(void)
{
    fevstunik_acceptor_options options = terms_of("plain");
    fevstunik_login login = FEVSTUNIK_LOGIN_INIT;
    fevstunik_pending pending = FEVSTUNIK_PENDING_INIT;
    size_t size = requested(&pending, 11);

    fevstunik_acceptor_free(&service);
    is_answer("none", called(&login, token, size, 16, sizeof out), FEVSTUNIK_EMPTY_HANDLE, 0, 0, 0);
    is_answer("a realm of none", fevstunik_acceptor_add_realm(&service, token, 2), FEVSTUNIK_EMPTY_HANDLE, 0, 0, 0);
    options.restarts = FEVSTUNIK_RESTART_STARTED;
    options.started = now;
    make(options);
    is("just started", called(&login, token, size, 16, sizeof out).code, FEVSTUNIK_JUST_STARTED);
    is("it is said again", fevstunik_login_answer(&login, out, sizeof out).code, FEVSTUNIK_JUST_STARTED);
    fevstunik_login_free(&login);
    options.restarts = FEVSTUNIK_RESTART_FIRST_LIFE;
    options.limit = options.limit_for_client = 1;
    make(options);
    is("one", decided(&login, token, size, 16).code, FEVSTUNIK_OK);
    fevstunik_login_free(&login);
    size = requested(&pending, 12);
    is("full", decided(&login, token, size, 16).code, FEVSTUNIK_FULL);
    fevstunik_login_free(&login);
    fevstunik_pending_free(&pending);
}

/* A realm is let in from the moment that it is added; the others aren't, though any was before. */
static void realms(void)
{
    fevstunik_acceptor_options options = terms_of("plain");
    fevstunik_login login = FEVSTUNIK_LOGIN_INIT;
    fevstunik_pending pending = FEVSTUNIK_PENDING_INIT;
    size_t size = requested(&pending, 13);

    make(options);
    is_answer("another realm", fevstunik_acceptor_add_realm(&service, (const uint8_t *)"EXA", 3), FEVSTUNIK_OK, 0, 0, 0);
    is("a beginning isn't it", decided(&login, token, size, 16).code, FEVSTUNIK_FOREIGN_REALM);
    fevstunik_login_free(&login);
    is_answer("the realm", fevstunik_acceptor_add_realm(&service, (const uint8_t *)"EX", 2), FEVSTUNIK_OK, 0, 0, 0);
    size = requested(&pending, 14);
    is("let in", decided(&login, token, size, 16).code, FEVSTUNIK_OK);
    fevstunik_login_free(&login);
    options.only_realms = true;
    is_answer("service", fevstunik_acceptor_new(&service, keytab.at, keytab.size, WEB, &options), FEVSTUNIK_OK, 0, 0, 0);
    is("none is added yet", decided(&login, token, size, 16).code, FEVSTUNIK_FOREIGN_REALM);
    fevstunik_login_free(&login);
    fevstunik_pending_free(&pending);
}

/* Terms are refused, and a struct without terms has the defaults, whatever is after it. */
static void options_for_terms(void)
{
    fevstunik_acceptor_options options = terms_of("required");
    fevstunik_login login = FEVSTUNIK_LOGIN_INIT;
    fevstunik_pending pending = FEVSTUNIK_PENDING_INIT;
    size_t size = requested(&pending, 15);

    options.bindings = 3;
    options.subkey_type = 18;
    is_answer("bindings", fevstunik_acceptor_new(&service, keytab.at, 1, WEB, &options), FEVSTUNIK_BAD_BINDINGS, 0, 0, 0);
    options.bindings = FEVSTUNIK_BINDINGS_IF_SENT;
    memcpy(options.bindings_hash, none, sizeof none);
    is_answer("no hash", fevstunik_acceptor_new(&service, keytab.at, 1, WEB, &options), FEVSTUNIK_BAD_BINDINGS, 0, 0, 0);
    memcpy(options.bindings_hash, hash, sizeof hash);
    is_answer("subkey", fevstunik_acceptor_new(&service, keytab.at, 1, WEB, &options), FEVSTUNIK_KEY_TYPE, 0, 0, 0);
    options.size = 56;
    make(options);
    is("no bindings", decided(&login, token, size, 16).code, FEVSTUNIK_OK);
    fevstunik_login_free(&login);
    fevstunik_pending_free(&pending);
}

/* Channel bindings are replaced while a service runs. There are none that a client without bindings meets. */
static void replaced_bindings(void)
{
    static const struct {
        uint32_t rule;
        const uint8_t *hash;
        size_t size;
        uint32_t code, without, with;
    } rows[] = {
        {FEVSTUNIK_BINDINGS_REQUIRED, hash, 16, FEVSTUNIK_OK, FEVSTUNIK_CHANNEL_BINDINGS, FEVSTUNIK_OK},
        {FEVSTUNIK_BINDINGS_REQUIRED, none, 16, FEVSTUNIK_BAD_BINDINGS, FEVSTUNIK_CHANNEL_BINDINGS, FEVSTUNIK_OK},
        {FEVSTUNIK_BINDINGS_IF_SENT, none, 16, FEVSTUNIK_BAD_BINDINGS, FEVSTUNIK_CHANNEL_BINDINGS, FEVSTUNIK_OK},
        {FEVSTUNIK_BINDINGS_IF_SENT, hash, 15, FEVSTUNIK_BAD_BINDINGS, FEVSTUNIK_CHANNEL_BINDINGS, FEVSTUNIK_OK},
        {3, hash, 16, FEVSTUNIK_BAD_BINDINGS, FEVSTUNIK_CHANNEL_BINDINGS, FEVSTUNIK_OK},
        {FEVSTUNIK_BINDINGS_REQUIRED, random_bytes, 16, FEVSTUNIK_OK, FEVSTUNIK_CHANNEL_BINDINGS, FEVSTUNIK_CHANNEL_BINDINGS},
        {FEVSTUNIK_BINDINGS_IF_SENT, random_bytes, 16, FEVSTUNIK_OK, FEVSTUNIK_OK, FEVSTUNIK_CHANNEL_BINDINGS},
        {FEVSTUNIK_BINDINGS_IGNORED, NULL, 0, FEVSTUNIK_OK, FEVSTUNIK_OK, FEVSTUNIK_OK},
    };
    fevstunik_login login = FEVSTUNIK_LOGIN_INIT;
    fevstunik_pending pending = FEVSTUNIK_PENDING_INIT;
    size_t row;

    make(terms_of("plain"));
    for (row = 0; row < sizeof rows / sizeof rows[0]; row++) {
        is_answer("bindings", fevstunik_acceptor_replace_bindings(&service, rows[row].rule, rows[row].hash, rows[row].size), rows[row].code, 0, 0, 0);
        is("a client without bindings", decided(&login, token, requested(&pending, 100 + (uint32_t)row), 16).code, rows[row].without);
        fevstunik_login_free(&login);
        is("a client with the hash", decided(&login, token, bound(&pending, 200 + (uint32_t)row, hash), 16).code, rows[row].with);
        fevstunik_login_free(&login);
    }
    fevstunik_acceptor_free(&service);
    is_answer("none", fevstunik_acceptor_replace_bindings(&service, 0, none, 16), FEVSTUNIK_EMPTY_HANDLE, 0, 0, 0);
    fevstunik_pending_free(&pending);
}

int main(int count, char **words)
{
    static char line[1 << 17];
    struct bytes *const inputs[] = {&keytab, &cache, &asking, &going_on};
    int at;

    if (count < 6)
        return 2;
    from_words(inputs, 4, words);
    for (at = 0; at < 48; at++)
        random_bytes[at] = (uint8_t)(3 * at + 1);
    for (at = 0; at < 16; at++)
        hash[at] = (uint8_t)(at + 1);
    replies(0, 0);
    replies(19, 16);
    replies(20, 32);
    two_rounds();
    listed(20, 0, true, FEVSTUNIK_OK);
    listed(21, 1, true, FEVSTUNIK_LIST_MIC_WRONG);
    listed(22, 0, false, FEVSTUNIK_LIST_MIC_MISSING);
    second_messages(count - 5, words + 5);
    short_buffer();
    asked();
    request_asks();
    other_services();
    realms();
    options_for_terms();
    replaced_bindings();
    for (at = 0; fgets(line, sizeof line, stdin) != NULL; at++)
        one(line);
    is("lines", at > 20, 1);
    fevstunik_acceptor_free(&service);
    printf("%d passed, %d failed\n", passed, failed);
    return failed != 0;
}
