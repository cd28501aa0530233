/* How long a store of examples/service takes to add a stamp of a usual length, in the median, in nanoseconds: for bench/stores.py.
 *
 *     adds STORE COUNT */
#include "../examples/service/store.h"

static int by_size(const void *one, const void *other)
{
    int64_t here = *(const int64_t *)one, there = *(const int64_t *)other;

    return (here > there) - (here < there);
}

static int64_t nanoseconds(void)
{
    struct timespec time;

    clock_gettime(CLOCK_MONOTONIC, &time);
    return time.tv_sec * (int64_t)1000000000 + time.tv_nsec;
}

int main(int words, char **word)
{
    size_t count = words == 3 ? (size_t)atoi(word[2]) : 0;
    int64_t *took = malloc((count + 1) * sizeof *took);
    fevstunik_time until = clock_now();
    struct store store;
    char stamp[81];

    if (took == NULL || count == 0 || !store_open(&store, word[1], 20))
        return 2;
    until.seconds += 600;
    for (size_t at = 0; at < count; at++) {
        int64_t began = nanoseconds();

        snprintf(stamp, sizeof stamp, "%80zu", at);
        if (store_add(&store, (const uint8_t *)stamp, 80, until) != FEVSTUNIK_SAID_NEW)
            return 1;
        took[at] = nanoseconds() - began;
    }
    qsort(took, count, sizeof *took, by_size);
    printf("%lld\n", (long long)took[count / 2]);
    return 0;
}
