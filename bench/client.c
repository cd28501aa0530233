/* Times requests that a client makes, by the library for C and by MIT krb5, and writes the messages that services are timed with.
 *
 *   client ours CACHES COUNT                              prints the nanoseconds of processor time of fevstunik_request
 *   client theirs CACHES COUNT                            the same of krb5_mk_req_extended
 *   client write CACHES requests|tokens EACH COUNT OUT    writes so many messages, each after its size in four bytes
 *
 * CACHES is a folder of credential caches with the names 0, 1 and so on, which are used in turn; EACH says how often before the next one. Both
 * sides have the credentials in memory. A token is one of a negotiation, and asks for a reply.
 */
#include <krb5.h>

#include "fevstunik.h"
#include "measure.h"

#define ROOM 65536

static const uint8_t random_bytes[16] = {7};
static fevstunik_cache *caches;
static krb5_creds *credentials;
static krb5_context context;
static long number;

static char *named(const char *folder, long index, const char *kind)
{
    static char name[4096];
    snprintf(name, sizeof name, "%s%s/%ld", kind, folder, index);
    return name;
}

static void count_caches(const char *folder)
{
    for (FILE *file; (file = fopen(named(folder, number, ""), "rb")) != NULL; number++)
        fclose(file);
    must(number > 0, folder, 0);
}

static void is_well(fevstunik_answer answer, const char *what)
{
    must(answer.code == FEVSTUNIK_OK, what, answer.code);
}

static void read_ours(const char *folder)
{
    count_caches(folder);
    caches = calloc(number, sizeof *caches);
    for (long i = 0; i < number; i++) {
        struct bytes file = read_file(named(folder, i, ""));
        is_well(fevstunik_cache_new(&caches[i], file.at, file.size), "a cache");
        free(file.at);
    }
}

static void read_theirs(const char *folder)
{
    count_caches(folder);
    credentials = calloc(number, sizeof *credentials);
    must(krb5_init_context(&context) == 0, "a context", 0);
    for (long i = 0; i < number; i++) {
        krb5_ccache cache;
        krb5_cc_cursor cursor;
        must(krb5_cc_resolve(context, named(folder, i, "FILE:"), &cache) == 0, "a cache", i);
        must(krb5_cc_start_seq_get(context, cache, &cursor) == 0, "a cache", i);
        must(krb5_cc_next_cred(context, cache, &cursor, &credentials[i]) == 0, "a credential", i);
        krb5_cc_end_seq_get(context, cache, &cursor);
        krb5_cc_close(context, cache);
    }
}

static fevstunik_time clock_now(void)
{
    struct timespec t;
    clock_gettime(CLOCK_REALTIME, &t);
    return (fevstunik_time){t.tv_sec, t.tv_nsec / 1000};
}

static void ours(long count)
{
    static const fevstunik_choice plain = {0, 0, false, false};
    static uint8_t made[ROOM];
    fevstunik_pending pending = FEVSTUNIK_PENDING_INIT;
    double began = processor_time();
    for (long i = 0; i < count; i++) {
        fevstunik_time now = clock_now();
        is_well(fevstunik_request(&caches[i % number], &pending, (const uint8_t *)SERVICE, strlen(SERVICE), &now, random_bytes, 16, &plain,
                                  random_bytes, 0, made, sizeof made), "a request");
    }
    tell(began, count);
}

static void theirs(long count)
{
    krb5_auth_context state;
    must(krb5_auth_con_init(context, &state) == 0, "a state", 0);
    must(krb5_auth_con_setflags(context, state, 0) == 0, "flags", 0);
    double began = processor_time();
    for (long i = 0; i < count; i++) {
        krb5_data made;
        must(krb5_mk_req_extended(context, &state, 0, NULL, &credentials[i % number], &made) == 0, "a request", i);
        krb5_free_data_contents(context, &made);
    }
    tell(began, count);
}

static void write_request(FILE *file, fevstunik_cache *cache, fevstunik_time at)
{
    static const fevstunik_choice plain = {0, 0, false, false};
    static uint8_t made[ROOM];
    fevstunik_pending pending = FEVSTUNIK_PENDING_INIT;
    fevstunik_answer answer = fevstunik_request(cache, &pending, (const uint8_t *)SERVICE, strlen(SERVICE), &at, random_bytes, 16, &plain,
                                                random_bytes, 0, made, sizeof made);
    is_well(answer, "a request");
    write_part(file, made, answer.size);
    fevstunik_pending_free(&pending);
}

static void write_token(FILE *file, fevstunik_cache *cache, fevstunik_time at)
{
    static const fevstunik_choice choice = {.has_seq = true, .seq = 1, .wants_reply = true};
    static const fevstunik_context_choice flags = {.flags = 0};
    static const fevstunik_wrapped wrapped = {FEVSTUNIK_MECHANISM_KERBEROS, FEVSTUNIK_MECHANISM_KERBEROS};
    static uint8_t request[ROOM], token[ROOM];
    fevstunik_pending pending = FEVSTUNIK_PENDING_INIT;
    fevstunik_answer made = fevstunik_context_request(cache, &pending, (const uint8_t *)SERVICE, strlen(SERVICE), &at, random_bytes, 16, &choice,
                                                      random_bytes, 0, &flags, request, sizeof request);
    is_well(made, "a request");
    fevstunik_answer wrap = fevstunik_token_request(&wrapped, request, made.size, token, sizeof token);
    is_well(wrap, "a token");
    write_part(file, token, wrap.size);
    fevstunik_pending_free(&pending);
}

/* The clients' clocks are four minutes ahead, so that the messages are good for nine. Each time is a microsecond after the one before. */
static void write_messages(int are_tokens, long each, long count, const char *out)
{
    FILE *file = fopen(out, "wb");
    must(file != NULL, out, errno);
    fevstunik_time now = clock_now();
    for (long i = 0; i < count; i++) {
        fevstunik_time at = {now.seconds + 240 + i / 1000000, i % 1000000};
        (are_tokens ? write_token : write_request)(file, &caches[i / each % number], at);
    }
    must(fclose(file) == 0, out, errno);
}

int main(int argc, char **argv)
{
    if (argc == 7 && strcmp(argv[1], "write") == 0) {
        read_ours(argv[2]);
        write_messages(strcmp(argv[3], "tokens") == 0, atol(argv[4]), atol(argv[5]), argv[6]);
    } else if (argc == 4 && strcmp(argv[1], "ours") == 0) {
        read_ours(argv[2]);
        ours(atol(argv[3]));
    } else if (argc == 4 && strcmp(argv[1], "theirs") == 0) {
        read_theirs(argv[2]);
        theirs(atol(argv[3]));
    } else {
        return 2;
    }
    return 0;
}
