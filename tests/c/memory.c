/* Lets each allocation of each call fail in turn, and looks whether the call answers FEVSTUNIK_OUT_OF_MEMORY and nothing else, and leaves all
 * as it was: then the same call is made with memory, and does what it does. The arguments are the files of the keytab and of the cache, and
 * in hex the request with a subkey, the reply to it and an error. It is linked with --wrap=malloc, --wrap=realloc and --wrap=free. Each line of output
 * that begins with `wrong` is one. */
#include "checks.h"
#include "listed.h"
#include "made.h"

/* Where the request has its options, and the encryption type of its ticket. */
#define OPTIONS_AT 23
#define ETYPE_AT 81

void *__real_malloc(size_t size);
void *__real_realloc(void *at, size_t size);
void __real_free(void *at);
void *__wrap_malloc(size_t size);
void *__wrap_realloc(void *at, size_t size);
void __wrap_free(void *at);

/* How many allocations are left before one fails; none fails where it is negative. How many pieces are held. */
static long left = -1, held = 0;

static int fails(void)
{
    return left >= 0 && left-- == 0;
}

void *__wrap_malloc(size_t size)
{
    void *at = fails() ? NULL : __real_malloc(size);

    held += at != NULL;
    return at;
}

void *__wrap_realloc(void *at, size_t size)
{
    void *new = fails() ? NULL : __real_realloc(at, size);

    held += at == NULL && new != NULL;
    return new;
}

void __wrap_free(void *at)
{
    held -= at != NULL;
    __real_free(at);
}

static struct bytes keytab, cache, request, reply, error;
static uint8_t buffer[4096];
static const fevstunik_choice plain = {0, 0, false, true}, keyed = {19, 128, true, true};
static const fevstunik_time now = {1700000100, 5};
static const uint8_t *const service_name = (const uint8_t *)"host/web@EX";
static fevstunik_acceptor service;
static fevstunik_accepted accepted;
static fevstunik_cache credentials;
static fevstunik_keytab keys;
static fevstunik_pending pending;
static fevstunik_messages messages;

static fevstunik_answer making(void)
{
    return first_life(&service, keytab.at, keytab.size, 300, WEB);
}

static fevstunik_answer starting(void)
{
    static const fevstunik_time start = {1699999799, 0};

    return started(&service, keytab.at, keytab.size, 300, WEB, &start);
}

static fevstunik_answer renewing(void)
{
    return fevstunik_acceptor_replace_keytab(&service, keytab.at, keytab.size, WEB, false);
}

static fevstunik_answer stamping(void)
{
    fevstunik_time until;

    return fevstunik_accepted_stamp(&accepted, 300, &until, buffer, sizeof buffer);
}

static fevstunik_answer getting_ready(void)
{
    return fevstunik_accepted_new(&accepted);
}

static fevstunik_answer accepting(void)
{
    return fevstunik_acceptor_accept(&service, &accepted, request.at, request.size, &now);
}

static fevstunik_answer telling(void)
{
    fevstunik_known known;

    return fevstunik_accepted_known(&accepted, &known, buffer, sizeof buffer);
}

static fevstunik_answer replying(void)
{
    return fevstunik_accepted_reply(&accepted, cache.at, 16, &keyed, cache.at, 16, buffer, sizeof buffer);
}

static fevstunik_answer refusing_by_code(void)
{
    return fevstunik_error(FEVSTUNIK_REPEAT, service_name, 11, 3, &now, buffer, sizeof buffer);
}

static fevstunik_answer refusing(void)
{
    return fevstunik_acceptor_error(&service, service_name, 11, 3, &now, buffer, sizeof buffer);
}

static fevstunik_answer asking(void)
{
    return fevstunik_request(&credentials, &pending, service_name, 11, &now, cache.at, 16, &keyed, cache.at, 16, buffer, sizeof buffer);
}

static fevstunik_answer asking_in_context(void)
{
    static const fevstunik_context_choice context = {0, {0}};

    return fevstunik_context_request(&credentials, &pending, service_name, 11, &now, cache.at, 16, &keyed, cache.at, 16, &context, buffer,
                                     sizeof buffer);
}

static fevstunik_answer beginning(void)
{
    static const fevstunik_message_options options = {.role = FEVSTUNIK_ROLE_CLIENT, .session_type = 19};

    return fevstunik_messages_new(&messages, &options, cache.at, 16, NULL, 0, NULL, 0);
}

static fevstunik_answer beginning_after(void)
{
    static const fevstunik_message_options options = {.role = FEVSTUNIK_ROLE_CLIENT, .session_type = 19};

    return fevstunik_messages_after_list(&messages, &options, cache.at, 16, NULL, 0, NULL, 0);
}

static fevstunik_answer beginning_for(void)
{
    return fevstunik_messages_of_accepted(&messages, &accepted, &keyed, cache.at, 16, false);
}

static fevstunik_answer reading_cache(void)
{
    return fevstunik_cache_new(&credentials, cache.at, cache.size);
}

static fevstunik_answer reading_keytab(void)
{
    return fevstunik_keytab_new(&keys, keytab.at, keytab.size);
}

static fevstunik_answer finishing(void)
{
    fevstunik_agreement agreement;

    return fevstunik_finish(&pending, reply.at, reply.size, &agreement, buffer, sizeof buffer);
}

static fevstunik_answer sealing(void)
{
    return fevstunik_seal(19, cache.at, 16, 2, cache.at, 16, cache.at, 5, buffer, sizeof buffer);
}

static fevstunik_answer opening(void)
{
    uint8_t text[37];

    (void)fevstunik_seal(19, cache.at, 16, 2, cache.at, 16, cache.at, 5, text, sizeof text);
    return fevstunik_open(19, cache.at, 16, 2, text, sizeof text, buffer, sizeof buffer);
}

static fevstunik_answer checking(void)
{
    return fevstunik_keytab_check(keytab.at, keytab.size);
}

static fevstunik_answer checking_cache(void)
{
    return fevstunik_cache_check(cache.at, cache.size);
}

static fevstunik_answer listing(void)
{
    fevstunik_key_entry entry;

    return entry_in(keytab.at, keytab.size, 0, &entry, buffer, sizeof buffer);
}

static fevstunik_answer listing_cache(void)
{
    fevstunik_cache_entry entry;

    return credential_in(cache.at, cache.size, 0, &entry, buffer, sizeof buffer);
}

static fevstunik_answer owning(void)
{
    fevstunik_owner owner;

    return owner_in(cache.at, cache.size, &owner, buffer, sizeof buffer);
}

static fevstunik_answer adding(void)
{
    static const fevstunik_key_parts parts = {1700000000, 3, 3, 19};

    return fevstunik_keytab_add(keytab.at, keytab.size, service_name, 11, cache.at, 16, &parts, buffer, sizeof buffer);
}

static fevstunik_answer removing(void)
{
    return fevstunik_keytab_remove(keytab.at, keytab.size, 0, buffer, sizeof buffer);
}

static fevstunik_answer writing(void)
{
    return fevstunik_keytab_write(keytab.at, keytab.size, buffer, sizeof buffer);
}

static const fevstunik_wrapped negotiated = {FEVSTUNIK_MECHANISM_KERBEROS, FEVSTUNIK_MECHANISM_KERBEROS};

static fevstunik_answer wrapping_request(void)
{
    return fevstunik_token_request(&negotiated, request.at, request.size, buffer, sizeof buffer);
}

static fevstunik_answer wrapping_reply(void)
{
    return fevstunik_token_reply(&negotiated, reply.at, reply.size, buffer, sizeof buffer);
}

static fevstunik_answer wrapping_error(void)
{
    return fevstunik_token_error(&negotiated, reply.at, reply.size, buffer, sizeof buffer);
}

static fevstunik_answer reading_context(void)
{
    static const uint8_t checksum[24] = {16};
    fevstunik_context context;

    return fevstunik_context_read(checksum, sizeof checksum, &context, buffer, sizeof buffer);
}

/* The first token of a negotiation, with the request. */
static fevstunik_answer taking(void)
{
    static uint8_t token[sizeof buffer];
    fevstunik_negotiation negotiation = {0, 0};
    fevstunik_wrapped wrapped;
    long after = left;
    fevstunik_answer answer;

    left = -1;
    answer = fevstunik_token_request(&negotiated, request.at, request.size, token, sizeof token);
    left = after;
    answer = fevstunik_negotiation_take(&negotiation, token, answer.size, &wrapped, buffer, sizeof buffer);
    is("it stays where it was", negotiation.stage, answer.code == FEVSTUNIK_OUT_OF_MEMORY ? 0 : 2);
    return answer;
}

static fevstunik_answer saying(void)
{
    static const fevstunik_verdict verdict = {FEVSTUNIK_SAYS_COMPLETED, FEVSTUNIK_MECHANISM_KERBEROS};

    return fevstunik_verdict_token(&verdict, buffer, sizeof buffer);
}

static fevstunik_answer reading_error(void)
{
    fevstunik_krb_error found;

    return fevstunik_krb_error_read(error.at, error.size, &found, buffer, sizeof buffer);
}

/* The latest moment, or a second that no service here is told. */
static fevstunik_time latest(void)
{
    fevstunik_time at = moment(-1, 0);

    (void)fevstunik_acceptor_latest(&service, &at);
    return at;
}

static void is_at(const char *what, long at, long long found, long long wanted)
{
    char name[80];

    snprintf(name, sizeof name, "%s, %ld", what, at);
    is(name, found, wanted);
}

/* The Nth allocation fails, for each N until there is none; then the call ends well. A call that fails keeps so many pieces at most. */
static void is_told_keeping(const char *what, fevstunik_answer (*call)(void), long most)
{
    long at, before = held;
    size_t count = fevstunik_acceptor_count(&service), i;
    void *opaque = service.opaque, *kept = accepted.opaque, *read = credentials.opaque, *awaited = pending.opaque, *listed = keys.opaque;
    fevstunik_time moment_before = latest();
    fevstunik_answer answer;

    for (at = 0; at < 1000; at++) {
        memset(buffer, 0xa5, sizeof buffer);
        left = at;
        answer = call();
        if (left >= 0)
            break;
        is_at(what, at, answer.code, FEVSTUNIK_OUT_OF_MEMORY);
        is_at("size", at, (long long)answer.size, 0);
        is_at("pieces held", at, held >= before && held <= before + most, 1);
        is_at("the handle", at, service.opaque == opaque && accepted.opaque == kept, 1);
        is_at("the client's handles", at, credentials.opaque == read && pending.opaque == awaited && keys.opaque == listed, 1);
        is_at("what is remembered", at, (long long)fevstunik_acceptor_count(&service), (long long)count);
        is_at("the latest second", at, latest().seconds, moment_before.seconds);
        is_at("the latest microsecond", at, latest().micros, moment_before.micros);
        for (i = 0; i < sizeof buffer && buffer[i] == 0xa5; i++)
            ;
        is_at("the buffer", at, (long long)i, sizeof buffer);
    }
    left = -1;
    is_at("allocations", at, at > 0 && at < 1000, 1);
    is_at(what, at, answer.code, FEVSTUNIK_OK);
}

static void is_told(const char *what, fevstunik_answer (*call)(void))
{
    is_told_keeping(what, call, 0);
}

/* The first request with a ticket keeps the keys that it derives. If only they can't be kept, the request is the same. */
static void first_request(void)
{
    static uint8_t wanted[sizeof buffer];
    long at, unkept = 0;
    fevstunik_answer answer, first = asking();
    size_t i;

    is_at("first request", 0, first.code, FEVSTUNIK_OK);
    memcpy(wanted, buffer, sizeof buffer);
    for (at = 0; at < 1000; at++) {
        void *awaited = pending.opaque;

        is_at("cache", at, reading_cache().code, FEVSTUNIK_OK);
        memset(buffer, 0xa5, sizeof buffer);
        left = at;
        answer = asking();
        if (left >= 0)
            break;
        unkept += answer.code == FEVSTUNIK_OK;
        is_at("first request", at, answer.code == FEVSTUNIK_OK || answer.code == FEVSTUNIK_OUT_OF_MEMORY, 1);
        for (i = 0; i < sizeof buffer && buffer[i] == 0xa5; i++)
            ;
        if (answer.code == FEVSTUNIK_OK)
            is_at("its bytes", at, answer.size == first.size && memcmp(buffer, wanted, first.size) == 0, 1);
        else
            is_at("nothing", at, i == sizeof buffer && pending.opaque == awaited, 1);
    }
    left = -1;
    is_at("allocations", at, at > 0 && at < 1000, 1);
    is_at("requests whose keys aren't kept", at, unkept, 1);
    is_at("first request", at, answer.code, FEVSTUNIK_OK);
}

/* The first request with a ticket: the service may keep the ticket, sealed and opened, even if memory runs out later in the call, and then room
 * to put aside what it drops. */
static void first_accept(void)
{
    long at, before;
    fevstunik_answer answer;

    for (at = 0; at < 1000; at++) {
        is_at("service", at, making().code, FEVSTUNIK_OK);
        is_at("ready", at, getting_ready().code, FEVSTUNIK_OK);
        before = held;
        left = at;
        answer = accepting();
        if (left >= 0)
            break;
        is_at("first accept", at, answer.code, FEVSTUNIK_OUT_OF_MEMORY);
        is_at("remembered", at, (long long)fevstunik_acceptor_count(&service), 0);
        is_at("pieces held", at, held == before || held == before + 2 || held == before + 3, 1);
        left = -1;
        is_at("then", at, accepting().code, FEVSTUNIK_OK);
    }
    left = -1;
    is_at("allocations", at, at > 0 && at < 1000, 1);
    is_at("first accept", at, answer.code, FEVSTUNIK_OK);
}

static fevstunik_login login;

static fevstunik_answer logging_in(void)
{
    return fevstunik_service_answer(&service, &login, request.at, request.size, &now, cache.at, 16, buffer, sizeof buffer);
}

/* A client isn't let in where memory runs out, before the decision or after it; and nothing of it is known. */
static void logins(void)
{
    long at;
    fevstunik_answer answer;
    fevstunik_known known;

    for (at = 0; at < 1000; at++) {
        is_at("service of logins", at, making().code, FEVSTUNIK_OK);
        left = at;
        answer = logging_in();
        if (left >= 0)
            break;
        is_at("login", at, answer.code, FEVSTUNIK_OUT_OF_MEMORY);
        is_at("nothing is sent", at, (long long)answer.size, 0);
        answer = fevstunik_login_answer(&login, buffer, sizeof buffer);
        is_at("its answer", at, answer.code == FEVSTUNIK_OUT_OF_MEMORY || answer.code == FEVSTUNIK_EMPTY_HANDLE, 1);
        is_at("its client", at, fevstunik_accepted_known(&login.accepted, &known, buffer, sizeof buffer).code != FEVSTUNIK_OK, 1);
        fevstunik_login_free(&login);
        answer = logging_in();
        is_at("login then", at, answer.code == FEVSTUNIK_OK || answer.code == FEVSTUNIK_REPEAT, 1);
        fevstunik_login_free(&login);
    }
    left = -1;
    is_at("allocations of a login", at, at > 10 && at < 1000, 1);
    is_at("login at last", at, answer.code, FEVSTUNIK_OK);
    fevstunik_login_free(&login);
}

static fevstunik_answer sharing(void)
{
    fevstunik_acceptor_options options = {.size = sizeof options, .started = {1600000000, 0}, .skew = 300, .restarts = FEVSTUNIK_RESTART_SHARED};

    return fevstunik_acceptor_new(&service, keytab.at, keytab.size, service_name, 11, &options);
}

static fevstunik_answer asking_the_store(void)
{
    fevstunik_time until;

    return fevstunik_login_stamp(&login, &until, buffer, sizeof buffer);
}

static fevstunik_answer settling(uint32_t said)
{
    return fevstunik_login_settle(&login, said, &now, buffer, sizeof buffer);
}

static int is_known(void)
{
    fevstunik_known known;

    return fevstunik_accepted_known(&login.accepted, &known, buffer, sizeof buffer).code == FEVSTUNIK_OK;
}

/* A service whose store isn't asked since memory ran out lets nobody in. */
static void questions(void)
{
    long at;
    fevstunik_answer answer;

    for (at = 0; at < 1000; at++) {
        is_at("service that shares a store", at, sharing().code, FEVSTUNIK_OK);
        left = at;
        answer = logging_in();
        if (left >= 0)
            break;
        is_at("the store isn't asked", at, answer.code, FEVSTUNIK_OUT_OF_MEMORY);
        is_at("it can't be settled", at, settling(FEVSTUNIK_SAID_NEW).code != FEVSTUNIK_OK, 1);
        is_at("its client", at, is_known(), 0);
        fevstunik_login_free(&login);
    }
    left = -1;
    is_at("allocations of a question", at, at > 10 && at < 1000, 1);
    is_at("the store is asked", at, answer.code, FEVSTUNIK_ASK_STORE);
    is_told("question", asking_the_store);
    fevstunik_login_free(&login);
}

/* A login isn't settled, or is settled as out of memory; a refusal is said even if its error can't be made. */
static void settlings(uint32_t said, unsigned code)
{
    long at, waits = 0;
    fevstunik_answer answer;

    for (at = 0; at < 1000; at++) {
        is_at("service again", at, sharing().code, FEVSTUNIK_OK);
        is_at("asked", at, logging_in().code, FEVSTUNIK_ASK_STORE);
        left = at;
        answer = settling(said);
        if (left >= 0)
            break;
        left = -1;
        is_at("settled", at, answer.code == FEVSTUNIK_OUT_OF_MEMORY || (answer.code == code && code != FEVSTUNIK_OK), 1);
        is_at("nothing is sent", at, (long long)answer.size, 0);
        is_at("nobody is let in", at, is_known(), 0);
        answer = settling(said);
        is_at("once", at, answer.code == FEVSTUNIK_NOT_WAITING || (answer.code == code && ++waits > 0), 1);
        fevstunik_login_free(&login);
    }
    left = -1;
    is_at("it may have waited on", at, waits > 0, 1);
    is_at("allocations to settle", at, at > 1 && at < 1000, 1);
    is_at("settled at last", at, answer.code, code);
    fevstunik_login_free(&login);
}

static fevstunik_answer reading_asked(void)
{
    fevstunik_asked asked;

    return fevstunik_login_asked(&login, &asked, buffer, sizeof buffer);
}

static fevstunik_answer reading_request(void)
{
    fevstunik_asked asked;

    return fevstunik_request_asks(request.at, request.size, &asked, buffer, sizeof buffer);
}

static fevstunik_answer adding_realm(void)
{
    static const char realm[] = "A.REALM.OF.MORE.THAN.24.BYTES";

    return fevstunik_acceptor_add_realm(&service, (const uint8_t *)realm, sizeof realm - 1);
}

/* The request comes too early, so it isn't remembered, but its ticket is kept. */
static void keep_ticket(void)
{
    fevstunik_time early = now;

    early.seconds -= 1000;
    is_at("too early", 0, fevstunik_acceptor_accept(&service, &accepted, request.at, request.size, &early).code, FEVSTUNIK_SKEW);
}

/* A service that takes another keytab frees the ticket that it kept. */
static void ticket_until_another_keytab(void)
{
    long before;

    is_at("service for another keytab", 0, making().code, FEVSTUNIK_OK);
    is_at("ready for another keytab", 0, getting_ready().code, FEVSTUNIK_OK);
    before = held;
    keep_ticket();
    is_at("pieces held with a ticket", 0, held, before + 2);
    is_at("another keytab", 0, renewing().code, FEVSTUNIK_OK);
    is_at("pieces held without a ticket", 0, held, before);
}

/* No error tells of out of memory. */
static void without_a_code(void)
{
    is_at("new", 0, making().code, FEVSTUNIK_OK);
    left = 0;
    is_at("accept", 0, accepting().code, FEVSTUNIK_OUT_OF_MEMORY);
    left = -1;
    is_at("no code", 0, refusing().code, FEVSTUNIK_NO_CODE);
    is_at("none accepted", 0, telling().code, FEVSTUNIK_NOTHING_THERE);
    is_at("accept then", 0, accepting().code, FEVSTUNIK_OK);
    is_at("nothing refused", 0, refusing().code, FEVSTUNIK_NOTHING_THERE);
    fevstunik_acceptor_free(&service);
}

/* What isn't a request of the ordinary kind is refused without memory: not even the service's name is copied. */
static void refusals_without_memory(void)
{
    is_at("new", 2, making().code, FEVSTUNIK_OK);
    left = 0;
    is_at("another message", 0, fevstunik_acceptor_accept(&service, &accepted, reply.at, reply.size, &now).code, FEVSTUNIK_MESSAGE_TYPE);
    is_at("half a request", 0, fevstunik_acceptor_accept(&service, &accepted, request.at, request.size / 2, &now).code, FEVSTUNIK_MALFORMED);
    request.at[OPTIONS_AT] ^= 0x40;
    is_at("user to user", 0, accepting().code, FEVSTUNIK_USER_TO_USER);
    request.at[OPTIONS_AT] ^= 0x40;
    request.at[ETYPE_AT] ^= 1;
    is_at("another type", 0, accepting().code, FEVSTUNIK_TICKET_ETYPE);
    request.at[ETYPE_AT] ^= 1;
    is_at("none was asked for", 1, left, 0);
    is_at("accept", 2, accepting().code, FEVSTUNIK_OUT_OF_MEMORY);
    is_at("accept then", 2, accepting().code, FEVSTUNIK_OK);
    fevstunik_acceptor_free(&service);
}

/* These faults are reported without memory: those of caches, keys and confounders. Texts are sealed and opened without memory. Each next
 * allocation would fail. */
static void faults_without_memory(void)
{
    static const fevstunik_choice other = {17, 0, false, false};
    fevstunik_cache_entry entry;
    fevstunik_owner owner;

    is_at("new", 1, making().code, FEVSTUNIK_OK);
    is_at("accept", 1, accepting().code, FEVSTUNIK_OK);
    left = 0;
    is_at("version", 0, fevstunik_cache_check(cache.at, 1).code, FEVSTUNIK_FILE_VERSION);
    is_at("cut off", 0, fevstunik_cache_check(cache.at, cache.size - 1).code, FEVSTUNIK_FILE_BAD_ITEM);
    is_at("credential", 0, credential_in(cache.at, cache.size - 1, 0, &entry, buffer, sizeof buffer).code, FEVSTUNIK_FILE_BAD_ITEM);
    is_at("owner", 0, owner_in(cache.at, 3, &owner, buffer, sizeof buffer).code, FEVSTUNIK_FILE_HEADER);
    is_at("cache", 0, fevstunik_cache_new(&credentials, cache.at, 1).code, FEVSTUNIK_FILE_VERSION);
    is_at("seal type", 0, fevstunik_seal(17, cache.at, 16, 2, cache.at, 16, cache.at, 5, buffer, sizeof buffer).code, FEVSTUNIK_KEY_TYPE);
    is_at("seal confounder", 0, fevstunik_seal(19, cache.at, 16, 2, cache.at, 15, cache.at, 5, buffer, sizeof buffer).code,
       FEVSTUNIK_BAD_CONFOUNDER);
    is_at("open length", 0, fevstunik_open(20, cache.at, 16, 2, cache.at, 64, buffer, sizeof buffer).code, FEVSTUNIK_KEY_LENGTH);
    is_at("open short", 0, fevstunik_open(19, cache.at, 16, 2, cache.at, 31, buffer, sizeof buffer).code, FEVSTUNIK_TEXT_SHORT);
    is_at("open tag", 0, fevstunik_open(19, cache.at, 16, 2, cache.at, 64, buffer, sizeof buffer).code, FEVSTUNIK_TEXT_INTEGRITY);
    is_at("seal", 0, sealing().code, FEVSTUNIK_OK);
    is_at("open", 0, opening().code, FEVSTUNIK_OK);
    is_at("reply confounder", 0, fevstunik_accepted_reply(&accepted, cache.at, 15, &plain, cache.at, 0, buffer, sizeof buffer).code,
       FEVSTUNIK_BAD_CONFOUNDER);
    is_at("reply type", 0, fevstunik_accepted_reply(&accepted, cache.at, 16, &other, cache.at, 16, buffer, sizeof buffer).code,
       FEVSTUNIK_KEY_TYPE);
    is_at("none was asked for", 0, left, 0);
    left = -1;
    fevstunik_acceptor_free(&service);
}

/* A keytab whose second record lacks its last byte. */
static struct bytes cut;

static fevstunik_answer checking_cut(void)
{
    return fevstunik_keytab_check(cut.at, cut.size);
}

static fevstunik_answer reading_cut(void)
{
    return fevstunik_keytab_new(&keys, cut.at, cut.size);
}

static fevstunik_answer writing_cut(void)
{
    return fevstunik_keytab_write(cut.at, cut.size, buffer, sizeof buffer);
}

static fevstunik_answer making_of_cut(void)
{
    return first_life(&service, cut.at, cut.size, 300, WEB);
}

static fevstunik_answer renewing_by_cut(void)
{
    return fevstunik_acceptor_replace_keytab(&service, cut.at, cut.size, WEB, false);
}

/* There is no memory for the first record, and the fault of the second one is reported. */
static void is_cut(const char *what, fevstunik_answer (*call)(void))
{
    left = 0;
    is_at(what, 0, call().code, FEVSTUNIK_FILE_TRUNCATED);
    is_at(what, 1, left, -1);
    left = -1;
}

static void keytab_faults_without_memory(void)
{
    size_t record = keytab.size - 2;

    memcpy(cut.at, keytab.at, keytab.size);
    memcpy(cut.at + keytab.size, keytab.at + 2, record);
    cut.size = keytab.size + record;
    left = 0;
    is_at("two records without memory", 0, checking_cut().code, FEVSTUNIK_OUT_OF_MEMORY);
    is_at("two records", 0, (long long)checking_cut().size, 2);
    is_at("a service", 0, making().code, FEVSTUNIK_OK);
    cut.size--;
    is_cut("cut, check", checking_cut);
    is_cut("cut, new", reading_cut);
    is_cut("cut, write", writing_cut);
    is_cut("cut, service", making_of_cut);
    is_cut("cut, new keytab", renewing_by_cut);
    fevstunik_acceptor_free(&service);
}

/* Names are checked without memory, one of 16 MiB too, whatever is found. */
static void checks_names(void)
{
    enum { SIZE = 16 << 20 };
    uint8_t *text = malloc(SIZE);

    if (!text)
        abort();
    memset(text, '/', SIZE);
    memcpy(text + SIZE - 3, "@EX", 3);
    left = 0;
    is("components of a name", (long long)fevstunik_name_check(service_name, 11).size, 2);
    is("components of a long name", (long long)fevstunik_name_check(text, SIZE).size, SIZE - 2);
    text[SIZE - 4] = ' ';
    is("the place of a long name's fault", (long long)fevstunik_name_check(text, SIZE).at, SIZE - 4);
    is("no memory was asked for", left, 0);
    left = -1;
    free(text);
}

int main(int count, char **words)
{
    struct bytes *const inputs[] = {&keytab, &cache, &request, &reply, &error};
    long before, again;

    if (count != 6)
        return 2;
    from_words(inputs, 5, words);
    is_told("new", making);
    is_told("ready", getting_ready);
    first_accept();
    ticket_until_another_keytab();
    is_at("new then", 0, making().code, FEVSTUNIK_OK);
    keep_ticket();
    /* (the service may have made room to put aside what it drops) */
    is_told_keeping("accept", accepting, 1);
    is_told("known", telling);
    is_told("ready again", getting_ready);
    is_at("a ready place", 0, telling().code, FEVSTUNIK_NOTHING_THERE);
    is_at("new again", 0, making().code, FEVSTUNIK_OK);
    keep_ticket();
    is_told_keeping("accept again", accepting, 1);
    is_told("stamp", stamping);
    is_told("new keytab", renewing);
    is_told("reply", replying);
    is_told("messages of what was accepted", beginning_for);
    fevstunik_messages_free(&messages);
    is_at("a repeat", 0, accepting().code, FEVSTUNIK_REPEAT);
    is_told("error", refusing);
    is_told("error by code", refusing_by_code);
    is_told("started", starting);
    keep_ticket();
    is_told_keeping("accept then", accepting, 1);
    fevstunik_acceptor_free(&service);
    fevstunik_accepted_free(&accepted);
    is_at("freed", 0, held, 0);
    is_at("ready", 1, getting_ready().code, FEVSTUNIK_OK);
    is_told("cache", reading_cache);
    is_told("cache again", reading_cache);
    is_told("keytab", reading_keytab);
    is_told("keytab again", reading_keytab);
    first_request();
    before = held;
    for (again = 0; again < 10; again++)
        is_at("request once more", again, asking().code, FEVSTUNIK_OK);
    is_at("the keys are kept once", 0, held, before);
    is_told("request", asking);
    is_told("request again", asking);
    is_told("request in a context", asking_in_context);
    is_at("request then", 0, asking().code, FEVSTUNIK_OK);
    is_told("finish", finishing);
    is_told("token of a request", wrapping_request);
    is_told("token of a reply", wrapping_reply);
    is_told("token of an error", wrapping_error);
    is_told("context", reading_context);
    is_told("messages", beginning);
    is_told("messages again", beginning);
    is_told("messages after a list", beginning_after);
    fevstunik_messages_free(&messages);
    is_told("negotiation", taking);
    is_told("verdict", saying);
    logins();
    is_at("a login again", 0, logging_in().code, FEVSTUNIK_REPEAT);
    is_told("what a login asked", reading_asked);
    is_told("what a request asks", reading_request);
    is_told("a realm", adding_realm);
    fevstunik_login_free(&login);
    questions();
    settlings(FEVSTUNIK_SAID_NEW, FEVSTUNIK_OK);
    settlings(FEVSTUNIK_SAID_KNOWN, FEVSTUNIK_REPEAT);
    settlings(FEVSTUNIK_SAID_FAILED, FEVSTUNIK_STORE_FAILED);
    is_told("an error that is read", reading_error);
    is_told("keytab check", checking);
    is_told("cache check", checking_cache);
    is_told("keytab entry", listing);
    is_told("cache credential", listing_cache);
    is_told("cache owner", owning);
    is_told("keytab add", adding);
    is_told("keytab remove", removing);
    is_told("keytab write", writing);
    checks_names();
    without_a_code();
    refusals_without_memory();
    faults_without_memory();
    keytab_faults_without_memory();
    fevstunik_accepted_free(&accepted);
    fevstunik_cache_free(&credentials);
    fevstunik_keytab_free(&keys);
    fevstunik_pending_free(&pending);
    is_at("freed", 1, held, 0);
    printf("%d passed, %d failed\n", passed, failed);
    return failed != 0;
}
