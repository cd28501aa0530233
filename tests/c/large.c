/* Hands the library large files and messages: a keytab and a cache of thousands of items, whose last is the one that is wanted, and a ticket
 * with much authorization data. The arguments are the number of entries and of credentials, and the files of the keytab, of the cache
 * and of the request. Each line of output that begins with `wrong` is one. */
#include "checks.h"
#include "listed.h"
#include "made.h"

/* Bytes of authorization data, and of the record of the last entry. */
#define DATA 100000
#define RECORD 54

struct file {
    uint8_t *at;
    size_t size;
};

static struct file keytab, cache, request;
static uint8_t *buffer;
static size_t room;

static struct file whole(const char *name)
{
    FILE *input = fopen(name, "rb");
    struct file file;

    if (input == NULL || fseek(input, 0, SEEK_END) != 0)
        exit(2);
    file.size = (size_t)ftell(input);
    file.at = malloc(file.size);
    rewind(input);
    if (file.at == NULL || fread(file.at, 1, file.size, input) != file.size)
        exit(2);
    fclose(input);
    return file;
}

static void keys(size_t entries)
{
    fevstunik_key_entry entry;
    size_t last = entries - 1, size = keytab.size;

    is_answer("entries", fevstunik_keytab_check(keytab.at, size), FEVSTUNIK_OK, 0, 0, entries);
    is_answer("the last entry", entry_in(keytab.at, size, last, &entry, buffer, room), FEVSTUNIK_OK, 0, 0, 27);
    is_bytes("its name", buffer + entry.name.at, "host/web@EX", 11);
    is("its version", entry.kvno, 3);
    is_answer("no more", entry_in(keytab.at, size, entries, &entry, buffer, room), FEVSTUNIK_NO_SUCH_ENTRY, 0, 0, 0);
    is_answer("write", fevstunik_keytab_write(keytab.at, size, buffer, room), FEVSTUNIK_OK, 0, 0, size);
    is_bytes("what is written", buffer, keytab.at, size);
    is_answer("remove", fevstunik_keytab_remove(keytab.at, size, last, buffer, room), FEVSTUNIK_OK, 0, 0, size);
    is_answer("one fewer", fevstunik_keytab_check(buffer, size), FEVSTUNIK_OK, 0, 0, last);
    is_bytes("what stays", buffer, keytab.at, size - RECORD);
}

/* A key is put in after thousands, under a long name. */
static void long_name(size_t entries)
{
    static const fevstunik_key_parts parts = {1700000000, 3, 3, 19};
    static char name[60004];
    fevstunik_answer answer;
    size_t size;

    memset(name, 'n', 60000);
    memcpy(name + 60000, "@EX", 4);
    answer = fevstunik_keytab_add(keytab.at, keytab.size, (uint8_t *)name, 60003, keytab.at, 16, &parts, buffer, room);
    size = answer.size;
    is("a long name", answer.code, FEVSTUNIK_OK);
    is_answer("one more", fevstunik_keytab_check(buffer, size), FEVSTUNIK_OK, 0, 0, entries + 1);
    is_bytes("what was there", buffer, keytab.at, keytab.size);
}

static void accepted_item(fevstunik_accepted *accepted)
{
    int32_t kind = 0;
    size_t i, wrong = 0;

    is_answer("lists", fevstunik_accepted_count(accepted, FEVSTUNIK_LIST_TICKET_AUTHORIZATION), FEVSTUNIK_OK, 0, 0, 1);
    is_answer("data", fevstunik_accepted_item(accepted, FEVSTUNIK_LIST_TICKET_AUTHORIZATION, 0, &kind, buffer, room), FEVSTUNIK_OK, 0, 0,
              DATA);
    for (i = 0; i < DATA; i++)
        wrong += buffer[i] != i % 251;
    is("its type", kind, 1);
    is("its bytes", (long long)wrong, 0);
}

static void acceptance(void)
{
    fevstunik_acceptor service = FEVSTUNIK_ACCEPTOR_INIT;
    fevstunik_accepted accepted = FEVSTUNIK_ACCEPTED_INIT;
    fevstunik_cache credentials = FEVSTUNIK_CACHE_INIT;
    fevstunik_pending pending = FEVSTUNIK_PENDING_INIT;
    fevstunik_time now = {1700000101, 0};
    fevstunik_choice choice = {0, 0, false, true};
    fevstunik_known known;
    fevstunik_answer answer;

    is_answer("service", first_life(&service, keytab.at, keytab.size, 300, WEB), FEVSTUNIK_OK, 0, 0, 0);
    is_answer("ready", fevstunik_accepted_new(&accepted), FEVSTUNIK_OK, 0, 0, 0);
    is_answer("accept", fevstunik_acceptor_accept(&service, &accepted, request.at, request.size, &now), FEVSTUNIK_OK, 0, 0, 0);
    is_answer("known", fevstunik_accepted_known(&accepted, &known, buffer, room), FEVSTUNIK_OK, 0, 0, 8 + 16 + 11);
    is_bytes("client", buffer + known.client.at, "alice@EX", 8);
    accepted_item(&accepted);
    is_answer("again", fevstunik_acceptor_accept(&service, &accepted, request.at, request.size, &now), FEVSTUNIK_REPEAT, 34, 0, 0);
    is("cache", fevstunik_cache_new(&credentials, cache.at, cache.size).code, FEVSTUNIK_OK);
    answer = fevstunik_request(&credentials, &pending, WEB, &now, buffer, 16, &choice, buffer, 0, buffer, room);
    is("request", answer.code, FEVSTUNIK_OK);
    is("its size", answer.size > DATA, 1);
    is_answer("accepted", fevstunik_acceptor_accept(&service, &accepted, buffer, answer.size, &now), FEVSTUNIK_OK, 0, 0, 0);
    accepted_item(&accepted);
    is("remembered", (long long)fevstunik_acceptor_count(&service), 2);
    fevstunik_pending_free(&pending);
    fevstunik_cache_free(&credentials);
    fevstunik_accepted_free(&accepted);
    fevstunik_acceptor_free(&service);
}

static void credentials(size_t count)
{
    fevstunik_cache_entry credential;
    fevstunik_answer answer;

    is_answer("credentials", fevstunik_cache_check(cache.at, cache.size), FEVSTUNIK_OK, 0, 0, count);
    answer = credential_in(cache.at, cache.size, count - 1, &credential, buffer, room);
    is("the last credential", answer.code, FEVSTUNIK_OK);
    is_bytes("its service", buffer + credential.server.at, "host/web@EX", 11);
    is("its ticket", credential.ticket.size > DATA, 1);
    answer = credential_in(cache.at, cache.size, count, &credential, buffer, room);
    is("no more", answer.code, FEVSTUNIK_NO_SUCH_ENTRY);
}

/* A mebibyte is sealed and opened. */
static void sealing(void)
{
    size_t size = 1 << 20, i, wrong = 0;
    uint8_t *plain = calloc(size, 1), *sealed = malloc(size + 40);
    fevstunik_answer answer;

    if (plain == NULL || sealed == NULL)
        exit(2);
    answer = fevstunik_seal(20, keytab.at, 32, 1024, keytab.at, 16, plain, size, sealed, size + 40);
    is_answer("seal", answer, FEVSTUNIK_OK, 0, 0, size + 40);
    is_answer("open", fevstunik_open(20, keytab.at, 32, 1024, sealed, size + 40, buffer, room), FEVSTUNIK_OK, 0, 0, size);
    for (i = 0; i < size; i++)
        wrong += buffer[i] != 0;
    is("what is opened", (long long)wrong, 0);
    sealed[size] ^= 1;
    is_answer("open bent", fevstunik_open(20, keytab.at, 32, 1024, sealed, size + 40, buffer, room), FEVSTUNIK_TEXT_INTEGRITY, 0, 0, 0);
    free(plain);
    free(sealed);
}

int main(int count, char **words)
{
    if (count != 6)
        return 2;
    keytab = whole(words[3]);
    cache = whole(words[4]);
    request = whole(words[5]);
    room = 16 << 20;
    buffer = malloc(room);
    if (buffer == NULL)
        return 2;
    keys(strtoul(words[1], NULL, 10));
    long_name(strtoul(words[1], NULL, 10));
    credentials(strtoul(words[2], NULL, 10));
    acceptance();
    sealing();
    printf("%d passed, %d failed\n", passed, failed);
    return failed != 0;
}
