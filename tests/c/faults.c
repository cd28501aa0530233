/* Each fault that the header names of a function, with ample memory: that of a call is told, and nothing else. The arguments are the files of
 * the keytab and of the cache, and the reply in hex. Lines of standard input have what tests/c_cases.py makes:
 *
 *     request CODE KERBEROS HEX      a new service with the keytab answers this to the request
 *     cache CODE KERBEROS HEX        this is answered where a request is asked for with the cache */
#include "checks.h"
#include "listed.h"
#include "made.h"

/* One byte more than a file may have, and than a message may have. */
#define LONG_FILE (16777216 + 1)
#define LONG_NAME (1048576 + 1)

static struct bytes keytab, cache, reply;
static uint8_t long_file[LONG_FILE], long_name[LONG_NAME + 3], buffer[4096];
static const fevstunik_time sent = {1700000100, 5};

/* What is asked for; the fixture's, but for one thing. */
struct asked {
    const uint8_t *cache, *service;
    size_t cache_size, service_size, subkey_size;
    fevstunik_time at;
    int32_t subkey_type;
};

static struct asked usual(void)
{
    struct asked it = {cache.at, (const uint8_t *)"host/web@EX", 0, 11, 0, {1700000100, 5}, 0};

    it.cache_size = cache.size;
    return it;
}

/* A fault prevents a request: of a cache's file that it is read, else that it is built. Nothing is awaited of it. */
static void prevented(const char *what, struct asked it, unsigned code, size_t at)
{
    fevstunik_choice choice = {0, 0, false, true};
    const fevstunik_context_choice context = {0, {0}};
    fevstunik_cache held = FEVSTUNIK_CACHE_INIT;
    fevstunik_pending pending = FEVSTUNIK_PENDING_INIT;
    fevstunik_answer answer = fevstunik_cache_new(&held, it.cache, it.cache_size);

    choice.subkey_type = it.subkey_type;
    is(what, held.opaque != NULL, answer.code == FEVSTUNIK_OK);
    if (answer.code == FEVSTUNIK_OK)
        answer = fevstunik_request(&held, &pending, it.service, it.service_size, &it.at, cache.at, 16, &choice, cache.at, it.subkey_size,
                                   buffer, sizeof buffer);
    is_answer(what, answer, code, 0, at, 0);
    is("nothing is awaited", pending.opaque == NULL, 1);
    if (held.opaque != NULL)
        is_answer(what, fevstunik_context_request(&held, &pending, it.service, it.service_size, &it.at, cache.at, 16, &choice, cache.at,
                                                  it.subkey_size, &context, buffer, sizeof buffer), code, 0, at, 0);
    is("nothing is awaited in a context", pending.opaque == NULL, 1);
    fevstunik_cache_free(&held);
}

static struct asked named(const char *service)
{
    struct asked it = usual();

    it.service = (const uint8_t *)service;
    it.service_size = strlen(service);
    return it;
}

static void askings(void)
{
    struct asked it;

    prevented("not UTF-8", named("\xff@EX"), FEVSTUNIK_NOT_UTF8, 0);
    prevented("two realms", named("a@b@c"), FEVSTUNIK_BAD_TEXT, 3);
    prevented("no realm", named("host/web"), FEVSTUNIK_NO_REALM, 0);
    prevented("another service", named("host/mail@EX"), FEVSTUNIK_NO_CREDENTIAL, 0);
    it = usual();
    it.at = moment(-62167219201, 0);
    prevented("before the year 0000", it, FEVSTUNIK_BAD_MOMENT, 0);
    it.at = moment(253402300800, 0);
    prevented("after the year 9999", it, FEVSTUNIK_BAD_MOMENT, 0);
    it.at = moment(1700000100, 1000000);
    prevented("micros", it, FEVSTUNIK_BAD_MOMENT, 0);
    it.at = moment(1700036000, 0);
    prevented("expired", it, FEVSTUNIK_CREDENTIAL_EXPIRED, 0);
    it = usual();
    it.subkey_type = 18;
    it.subkey_size = 32;
    prevented("type", it, FEVSTUNIK_KEY_TYPE, 0);
    it.subkey_type = 20;
    it.subkey_size = 31;
    prevented("length", it, FEVSTUNIK_KEY_LENGTH, 0);
}

/* A fault of a keytab, told by each function that reads one; a service that was there stays. */
static void is_no_keytab(const char *what, const uint8_t *file, size_t size, unsigned code, size_t at)
{
    static const fevstunik_key_parts parts = {1700000000, 3, 3, 19};
    fevstunik_acceptor service = FEVSTUNIK_ACCEPTOR_INIT;
    fevstunik_key_entry entry;
    void *held;

    is_answer("new", first_life(&service, keytab.at, keytab.size, 86400, EACH_NAME), FEVSTUNIK_OK, 0, 0, 0);
    held = service.opaque;
    is_answer(what, first_life(&service, file, size, 86400, EACH_NAME), code, 0, at, 0);
    is("it stays", service.opaque == held, 1);
    is_answer(what, started(&service, file, size, 86400, EACH_NAME, &sent), code, 0, at, 0);
    is("it stays then", service.opaque == held, 1);
    is_answer(what, fevstunik_acceptor_replace_keytab(&service, file, size, EACH_NAME, true), code, 0, at, 0);
    fevstunik_acceptor_free(&service);
    is_answer(what, fevstunik_keytab_check(file, size), code, 0, at, 0);
    is_answer(what, entry_in(file, size, 0, &entry, buffer, sizeof buffer), code, 0, at, 0);
    is_answer(what, fevstunik_keytab_add(file, size, (const uint8_t *)"a@EX", 4, cache.at, 16, &parts, buffer, sizeof buffer), code, 0, at, 0);
    is_answer(what, fevstunik_keytab_remove(file, size, 0, buffer, sizeof buffer), code, 0, at, 0);
    is_answer(what, fevstunik_keytab_write(file, size, buffer, sizeof buffer), code, 0, at, 0);
}

/* A fault of a cache, told by each function that reads one. */
static void is_no_cache(const char *what, const uint8_t *file, size_t size, unsigned code, size_t at)
{
    fevstunik_cache_entry credential;
    fevstunik_owner owner;
    struct asked it = usual();

    it.cache = file;
    it.cache_size = size;
    prevented(what, it, code, at);
    is_answer(what, fevstunik_cache_check(file, size), code, 0, at, 0);
    is_answer(what, credential_in(file, size, 0, &credential, buffer, sizeof buffer), code, 0, at, 0);
    is_answer(what, owner_in(file, size, &owner, buffer, sizeof buffer), code, 0, at, 0);
}

static void files(void)
{
    static const uint8_t no_entry[] = {5, 2, 0, 0, 0, 1, 0}, no_principal[] = {5, 4, 0, 0, 0};

    long_file[0] = 5;
    long_file[1] = 2;
    is_no_keytab("a long keytab", long_file, LONG_FILE, FEVSTUNIK_TOO_LONG, 0);
    is_no_keytab("an old keytab", (const uint8_t *)"\5\1", 2, FEVSTUNIK_FILE_VERSION, 0);
    is_no_keytab("a keytab cut off", keytab.at, keytab.size - 1, FEVSTUNIK_FILE_TRUNCATED, 2);
    is_no_keytab("a record without an entry", no_entry, sizeof no_entry, FEVSTUNIK_FILE_BAD_ITEM, 2);
    long_file[1] = 4;
    is_no_cache("a long cache", long_file, LONG_FILE, FEVSTUNIK_TOO_LONG, 0);
    is_no_cache("an old cache", (const uint8_t *)"\5\2", 2, FEVSTUNIK_FILE_VERSION, 0);
    is_no_cache("a cache without a header", cache.at, 3, FEVSTUNIK_FILE_HEADER, 0);
    is_no_cache("a cache without a principal", no_principal, sizeof no_principal, FEVSTUNIK_FILE_BAD_ITEM, 4);
    is_no_cache("a cache cut off", cache.at, cache.size - 1, FEVSTUNIK_FILE_BAD_ITEM, 27);
}

/* Keys of other types and lengths. */
static void keys(void)
{
    uint8_t *key = cache.at;

    is_answer("seal", fevstunik_seal(18, key, 32, 2, key, 16, key, 5, buffer, sizeof buffer), FEVSTUNIK_KEY_TYPE, 0, 0, 0);
    is_answer("seal", fevstunik_seal(19, key, 32, 2, key, 16, key, 5, buffer, sizeof buffer), FEVSTUNIK_KEY_LENGTH, 0, 0, 0);
    is_answer("open", fevstunik_open(18, key, 32, 2, key, 40, buffer, sizeof buffer), FEVSTUNIK_KEY_TYPE, 0, 0, 0);
    is_answer("open", fevstunik_open(20, key, 16, 2, key, 40, buffer, sizeof buffer), FEVSTUNIK_KEY_LENGTH, 0, 0, 0);
    is_answer("open", fevstunik_open(20, key, 32, 2, key, 39, buffer, sizeof buffer), FEVSTUNIK_TEXT_SHORT, 0, 0, 0);
    is_answer("open", fevstunik_open(20, key, 32, 2, key, 40, buffer, sizeof buffer), FEVSTUNIK_TEXT_INTEGRITY, 0, 0, 0);
    is_answer("checksum", fevstunik_checksum(0, key, 0, 2, key, 5, buffer, sizeof buffer), FEVSTUNIK_KEY_TYPE, 0, 0, 0);
    is_answer("checksum", fevstunik_checksum(20, key, 31, 2, key, 5, buffer, sizeof buffer), FEVSTUNIK_KEY_LENGTH, 0, 0, 0);
    is_answer("check", fevstunik_checksum_check(-20, key, 32, 2, key, 5, key, 24), FEVSTUNIK_KEY_TYPE, 0, 0, 0);
    is_answer("check", fevstunik_checksum_check(20, key, 33, 2, key, 5, key, 24), FEVSTUNIK_KEY_LENGTH, 0, 0, 0);
    is_answer("check", fevstunik_checksum_check(20, key, 32, 2, key, 5, key, 24), FEVSTUNIK_TEXT_INTEGRITY, 0, 0, 0);
}

/* A service that is wanted by what is no name isn't made, and one that was made stays. */
static void is_no_service(const char *what, const uint8_t *name, size_t size, unsigned code, size_t at)
{
    fevstunik_acceptor service = FEVSTUNIK_ACCEPTOR_INIT;
    void *held;

    is_answer("new", first_life(&service, keytab.at, keytab.size, 86400, WEB), FEVSTUNIK_OK, 0, 0, 0);
    held = service.opaque;
    is_answer(what, first_life(&service, keytab.at, keytab.size, 86400, name, size), code, 0, at, 0);
    is("it stays", service.opaque == held, 1);
    is_answer(what, started(&service, keytab.at, keytab.size, 86400, name, size, &sent), code, 0, at, 0);
    is("it stays then", service.opaque == held, 1);
    is_answer(what, fevstunik_acceptor_replace_keytab(&service, keytab.at, keytab.size, name, size, false), code, 0, at, 0);
    is_answer("the skew first", first_life(&service, keytab.at, keytab.size, 86401, name, size), FEVSTUNIK_BAD_SKEW, 0, 0, 0);
    is_answer("the keytab then", first_life(&service, keytab.at, 1, 86400, name, size), FEVSTUNIK_FILE_VERSION, 0, 0, 0);
    fevstunik_acceptor_free(&service);
}

static void services(void)
{
    is_no_service("not UTF-8", (const uint8_t *)"\xff@EX", 4, FEVSTUNIK_NOT_UTF8, 0);
    is_no_service("two realms", (const uint8_t *)"a@b@c", 5, FEVSTUNIK_BAD_TEXT, 3);
    is_no_service("no realm", (const uint8_t *)"host/web", 8, FEVSTUNIK_NO_REALM, 0);
}

/* What a service answers to a request, and why there is no reply; and an error for a name that is too long for one. */
static void is_refused(const char *what, const uint8_t *request, size_t size, unsigned code, int kerberos)
{
    fevstunik_acceptor service = FEVSTUNIK_ACCEPTOR_INIT;
    fevstunik_accepted accepted = FEVSTUNIK_ACCEPTED_INIT;
    fevstunik_choice choice = {0, 0, false, false};

    is_answer("new", first_life(&service, keytab.at, keytab.size, 300, EACH_NAME), FEVSTUNIK_OK, 0, 0, 0);
    is_answer("ready", fevstunik_accepted_new(&accepted), FEVSTUNIK_OK, 0, 0, 0);
    is_answer(what, fevstunik_acceptor_accept(&service, &accepted, request, size, &sent), code, kerberos, 0, 0);
    is_answer("no reply", fevstunik_accepted_reply(&accepted, request, 16, &choice, request, 0, buffer, sizeof buffer), FEVSTUNIK_NOTHING_THERE,
              0, 0, 0);
    is_answer("a long name", fevstunik_acceptor_error(&service, long_name, sizeof long_name, 3, &sent, buffer, sizeof buffer),
              FEVSTUNIK_TOO_LONG, 0, 0, 0);
    is("an error", fevstunik_acceptor_error(&service, long_name + LONG_NAME - 1, 4, 3, &sent, buffer, sizeof buffer).code, FEVSTUNIK_OK);
    is("its code", buffer[42], kerberos);
    memset(buffer, 0, sizeof buffer);
    is_answer("a long name", fevstunik_error(code, long_name, sizeof long_name, 3, &sent, buffer, sizeof buffer), FEVSTUNIK_TOO_LONG, 0, 0, 0);
    is("an error by code", fevstunik_error(code, long_name + LONG_NAME - 1, 4, 3, &sent, buffer, sizeof buffer).code, FEVSTUNIK_OK);
    is("its code then", buffer[42], kerberos);
    fevstunik_acceptor_free(&service);
    fevstunik_accepted_free(&accepted);
}

static void one(const char *line)
{
    static uint8_t bytes[1 << 21];
    struct asked it = usual();
    char what[16];
    unsigned code;
    int kerberos, end = 0;
    size_t size;

    if (sscanf(line, "%15s %u %d %n", what, &code, &kerberos, &end) != 3 || end == 0)
        exit(2);
    size = read_hex(bytes, sizeof bytes, line + end);
    it.cache = bytes;
    it.cache_size = size;
    if (strcmp(what, "cache") == 0)
        prevented(what, it, code, 0);
    else
        is_refused(what, bytes, size, code, kerberos);
}

int main(int count, char **words)
{
    static char line[1 << 23];
    int lines = 0;

    if (count != 4)
        return 2;
    from_file(&keytab, words[1]);
    from_file(&cache, words[2]);
    from_hex(&reply, words[3]);
    memset(long_name, 'a', LONG_NAME);
    memcpy(long_name + LONG_NAME, "@EX", 3);
    askings();
    files();
    keys();
    services();
    long_file[0] = 0x6e;
    is_refused("a long request", long_file, 1048577, FEVSTUNIK_MALFORMED, 60);
    for (; fgets(line, sizeof line, stdin) != NULL; lines++)
        one(line);
    is("lines", lines > 0, 1);
    printf("%d passed, %d failed\n", passed, failed);
    return failed != 0;
}
