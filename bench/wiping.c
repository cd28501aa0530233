/* Times calls of the library for C, for bench/wiping.py.
 *
 *   wiping FOLDER TYPE COUNT      prints six numbers: nanoseconds of processor time for each request that is made, for each that is accepted,
 *                                 for that with fevstunik_accepted_known, and for each fevstunik_seal, _open and _checksum of 100 bytes
 *
 * FOLDER has the files of tests/support/key_material.py. COUNT is at most 1,000. Each number is the least of twenty runs.
 */
#include <time.h>

#include "flow.h"

enum { MOST = 1000, RUNS = 20, CALLS = 6 };

static uint8_t made[MOST][1024];
static size_t sizes[MOST];
static long count;

static double processor_time(void)
{
    struct timespec t;
    clock_gettime(CLOCK_PROCESS_CPUTIME_ID, &t);
    return t.tv_sec * 1e9 + t.tv_nsec;
}

static size_t size_of(fevstunik_answer answer)
{
    if (answer.code != FEVSTUNIK_OK)
        exit(1);
    return answer.size;
}

static void requests(void)
{
    static const fevstunik_choice plain = {0, 0, false, false};
    for (long i = 0; i < count; i++) {
        fevstunik_time at = {now.seconds, (uint32_t)(100 + i)};
        sizes[i] = size_of(fevstunik_request(&cache, &pending, WEB, &at, confounder, sizeof confounder, &plain,
                                             confounder, 0, made[i], sizeof made[i]));
    }
}

static void accepts(void)
{
    for (long i = 0; i < count; i++)
        size_of(fevstunik_acceptor_accept(&service, &accepted, made[i], sizes[i], &now));
}

static void known_accepts(void)
{
    for (long i = 0; i < count; i++) {
        size_of(fevstunik_acceptor_accept(&service, &accepted, made[i], sizes[i], &now));
        size_of(fevstunik_accepted_known(&accepted, &known, buffer, sizeof buffer));
    }
}

static void seals(void)
{
    for (long i = 0; i < count; i++)
        size_of(sealing());
}

static void opens(void)
{
    for (long i = 0; i < count; i++)
        size_of(opening());
}

static void checksums(void)
{
    for (long i = 0; i < count; i++)
        size_of(summing());
}

int main(int argc, char **argv)
{
    static void (*const calls[CALLS])(void) = {requests, accepts, known_accepts, seals, opens, checksums};
    double least[CALLS] = {0};
    if (argc != 4)
        return 2;
    of = atoi(argv[2]) == 20;
    count = strtol(argv[3], NULL, 10);
    if (count > MOST)
        return 2;
    read_files(argv[1]);
    for (int run = 0; run < RUNS; run++) {
        size_of(reading_cache());
        size_of(making_service());
        size_of(getting_ready());
        for (int call = 0; call < CALLS; call++) {
            if (calls[call] == known_accepts)
                size_of(making_service()); /* one that has seen none of the requests */
            double start = processor_time();
            calls[call]();
            double took = (processor_time() - start) / count;
            if (run == 0 || took < least[call])
                least[call] = took;
        }
    }
    for (int call = 0; call < CALLS; call++)
        printf("%.0f ", least[call]);
    printf("\n");
    return 0;
}
