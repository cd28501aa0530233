/* Makes many requests with each ticket of a cache, and compares each with the request of a handle that has made none before: what a handle
 * keeps doesn't change a request. The arguments are the file of a cache with a ticket for each of the services n0000@EX, n0001@EX, .., and how
 * many they are. Each line of output that begins with `wrong` is one. */
#include "checks.h"

#define ROUNDS 3
#define MOST (1 << 20)

static uint8_t file[MOST], kept_bytes[4096], new_bytes[4096];

static fevstunik_answer ask(fevstunik_cache *cache, const char *service, long number, uint8_t *bytes)
{
    fevstunik_pending pending = FEVSTUNIK_PENDING_INIT;
    const fevstunik_choice choice = {0, 0, false, true};
    const fevstunik_time now = {1700000100, (uint32_t)number};
    uint8_t confounder[16];
    fevstunik_answer answer;

    memset(confounder, (int)number, sizeof confounder);
    answer = fevstunik_request(cache, &pending, (const uint8_t *)service, strlen(service), &now, confounder, sizeof confounder, &choice,
                               confounder, 0, bytes, sizeof kept_bytes);
    fevstunik_pending_free(&pending);
    return answer;
}

static void compare(fevstunik_cache *kept, size_t size, long number, long service)
{
    fevstunik_cache new = FEVSTUNIK_CACHE_INIT;
    fevstunik_answer one, other;
    char name[40];

    snprintf(name, sizeof name, "host/n%04ld@EX", service);
    is("cache", fevstunik_cache_new(&new, file, size).code, FEVSTUNIK_OK);
    one = ask(kept, name, number, kept_bytes);
    other = ask(&new, name, number, new_bytes);
    is_answer(name, one, FEVSTUNIK_OK, 0, 0, other.size);
    is("of a new handle", other.code, FEVSTUNIK_OK);
    is_bytes("the bytes", kept_bytes, new_bytes, other.size);
    fevstunik_cache_free(&new);
}

int main(int count, char **words)
{
    fevstunik_cache kept = FEVSTUNIK_CACHE_INIT;
    FILE *opened = count == 3 ? fopen(words[1], "rb") : NULL;
    long services = count == 3 ? atol(words[2]) : 0, number;
    size_t size;

    if (opened == NULL || services < 1)
        return 2;
    size = fread(file, 1, sizeof file, opened);
    fclose(opened);
    is_answer("cache", fevstunik_cache_new(&kept, file, size), FEVSTUNIK_OK, 0, 0, (size_t)services);
    for (number = 0; number < ROUNDS * services; number++)
        compare(&kept, size, number, number * 7 % services);
    is("unknown", ask(&kept, "host/other@EX", 0, kept_bytes).code, FEVSTUNIK_NO_CREDENTIAL);
    fevstunik_cache_free(&kept);
    printf("%d passed, %d failed\n", passed, failed);
    return failed > 0;
}
