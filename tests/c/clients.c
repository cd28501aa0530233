/* What a service holds for clients that send one request each, and then one more, by the order in which they come. The arguments are the files of the keytab and of
 * alice's cache, and how many clients there are. It is linked as held.h says. Each line of output that begins with `wrong` is one. */
#include "asked.h"
#include "checks.h"
#include "held.h"

/* The key of the keytab, and the usage of a ticket's sealed part. */
static const uint8_t service_key[16] = {0x37, 0x05, 0xd9, 0x60, 0x80, 0xc1, 0x77, 0x28, 0xa0, 0xe8, 0x00, 0xea, 0xb6, 0xe0, 0xd2, 0x3c};
#define TICKET 2

static struct bytes keytab, cache, part;
static size_t part_at;
static fevstunik_acceptor service;

/* Opens the ticket's sealed part. It stands at the end of the cache, before four bytes. */
static void open_ticket(void)
{
    const size_t end = cache.size - 4;
    size_t size = 32;

    while (size < end && fevstunik_open(19, service_key, 16, TICKET, cache.at + end - size, size, part.at, sizeof part.at).code != FEVSTUNIK_OK)
        size++;
    is("a ticket is there", size < end, 1);
    part.size = size - 32;
    part_at = end - size;
}

/* The same bytes with another name of five letters. */
static void renamed(struct bytes *made, const struct bytes *of, const char *name)
{
    size_t at;

    memcpy(made->at, of->at, of->size);
    made->size = of->size;
    for (at = 0; at + 5 <= of->size; at++)
        if (memcmp(of->at + at, "alice", 5) == 0)
            memcpy(made->at + at, name, 5);
}

/* A client of another name sends a request. */
static unsigned sent_by(struct client *client, const char *name, long at)
{
    static struct bytes file, plain;
    unsigned code;

    renamed(&file, &cache, name);
    renamed(&plain, &part, name);
    (void)fevstunik_seal(19, service_key, 16, TICKET, client->confounder, 16, plain.at, plain.size, file.at + part_at, plain.size + 32);
    (void)fevstunik_cache_new(&client->cache, file.at, file.size);
    code = sent(client, &service, START + at / 1000000, (uint32_t)(at % 1000000), START);
    fevstunik_cache_free(&client->cache);
    return code;
}

/* Each client sends a request, in some order of their names, which are numbers with five digits. Returns how many bytes more are held for each. */
static double held_for_each(const char *order, struct client *client, const uint32_t *numbers, long count, long start)
{
    static const char digits[] = "0123456789abcdefghijklmnopqrstuvwxyz";
    const size_t before = held;
    long at;

    for (at = 0; at < count; at++) {
        char name[5];
        uint32_t left = numbers[at];

        for (int digit = 4; digit >= 0; digit--, left /= 36)
            name[digit] = digits[left % 36];
        if (sent_by(client, name, start + at) != FEVSTUNIK_OK)
            is(order, at, -1);
    }
    return (double)(held - before) / (double)count;
}

static void is_at_most(const char *order, double bytes, double most)
{
    if (bytes > most)
        printf("wrong: bytes for each client, %s: %.1f\n", order, bytes);
    is(order, bytes <= most, 1);
}

/* At most 240 bytes for a client's first request, and 40 for its second. */
static void in_order(const char *order, const uint32_t *numbers, long count)
{
    fevstunik_acceptor_options options = {.size = sizeof options, .skew = 300, .restarts = FEVSTUNIK_RESTART_FIRST_LIFE,
                                          .limit = 2 * (size_t)count + 1, .limit_for_client = 2 * (size_t)count + 1};
    struct client client = {.confounder = {1}};

    is("service", fevstunik_acceptor_new(&service, keytab.at, keytab.size, WEB, &options).code, FEVSTUNIK_OK);
    (void)fevstunik_accepted_new(&client.accepted);
    is("the first", sent_by(&client, "alice", 0), FEVSTUNIK_OK);
    is_at_most(order, held_for_each(order, &client, numbers, count, 0), 240);
    is_at_most(order, held_for_each(order, &client, numbers, count, count), 40);
    fevstunik_accepted_free(&client.accepted);
    fevstunik_acceptor_free(&service);
}

static void orders(long count)
{
    uint32_t *numbers = malloc((size_t)count * sizeof *numbers);
    uint64_t drawn = 1;
    long at;

    if (numbers == NULL || count < 1)
        exit(2);
    for (at = 0; at < count; at++)
        numbers[at] = (uint32_t)at;
    in_order("ascending names", numbers, count);
    for (at = 0; at < count; at++)
        numbers[at] = (uint32_t)(count - 1 - at);
    in_order("descending names", numbers, count);
    for (at = count - 1; at > 0; at--) {
        uint32_t *one = &numbers[at], *other, kept = *one;

        drawn = drawn * UINT64_C(6364136223846793005) + UINT64_C(1442695040888963407);
        other = &numbers[(drawn >> 33) % (uint64_t)(at + 1)];
        *one = *other;
        *other = kept;
    }
    in_order("names at random", numbers, count);
    free(numbers);
}

int main(int count, char **words)
{
    if (count != 4)
        return 2;
    from_file(&keytab, words[1]);
    from_file(&cache, words[2]);
    open_ticket();
    orders(atol(words[3]));
    is("all is freed", (long long)held, 0);
    printf("%d passed, %d failed\n", passed, failed);
    return failed > 0;
}
