/* A store of stamps, which the processes of a service share, so that no two of them let a client in by one request.
 * fevstunik.stores of the Python package has the same ones: processes in C and in Python may share a store.
 * docs/OPERATING.md, "Several instances", says which store to take, and what it needs. */
#ifndef STORE_H
#define STORE_H

#include <pthread.h>
#include <stdbool.h>

#include "sources.h"

/* The largest skew of the services that share a store, in seconds, for which a store is made. */
#ifndef LARGEST_SKEW
#define LARGEST_SKEW 300
#endif
/* How many connections are kept for later calls, and how many bytes the path of a store has at most. */
#define KEPT 16
#define PATH_SIZE 4096

/* When a store was made, in microseconds, and for which skew, in seconds. Who knows both knows which store it is. */
struct made {
    long long at, largest_skew;
};

struct store {
    const struct store_kind *kind;
    const char *where;
    int64_t wait; /* for how many milliseconds to wait for an answer */
    struct made made;
    pthread_mutex_t lock; /* for the connections that no call uses */
    void *kept[KEPT];
    int count;
};

/* A kind of store. Its calls answer until a moment, `last`, of `milliseconds`, or fail, and say why on standard error.
 *
 * open        makes a connection, and reads what store it leads to. At first it makes the store, if there is none
 * descriptor  is that of a connection over which nothing comes between two calls; NULL if there are no such
 * add         adds a stamp in one step, unless the store has it, and keeps it until a moment, in microseconds. It never
 *             asks again: its own stamp would seem to be known */
struct store_kind {
    const char *name;
    void *(*open)(const struct store *store, int64_t last, struct made *made);
    int (*descriptor)(void *connection);
    fevstunik_said (*add)(void *connection, const uint8_t *stamp, size_t size, int64_t keep_until, int64_t last);
    void (*close)(void *connection);
};

extern const struct store_kind sqlite_store, redis_store;

static inline int64_t micros_of(fevstunik_time time)
{
    return time.seconds * 1000000 + time.micros;
}

/* How long it is until a moment of `milliseconds`. */
static inline struct timeval time_left(int64_t last)
{
    int64_t left = last - milliseconds();

    return left > 0 ? (struct timeval){left / 1000, left % 1000 * 1000} : (struct timeval){0, 1};
}

static inline bool refuse(const char *what, const char *why)
{
    fprintf(stderr, "the store: %s: %s\n", what, why);
    return false;
}

/* Opens a store that is named by its kind and its place, as sqlite:/run/web/stamps, redis:/run/redis/redis.sock or
 * redis:USER@HOST:PORT.
 * Returns whether that went well. */
bool store_open(struct store *store, const char *name, int seconds);

/* Adds a stamp, and returns what the store says of it. Any thread may call it. */
fevstunik_said store_add(struct store *store, const uint8_t *stamp, size_t size, fevstunik_time keep_until);

void store_close(struct store *store);

#endif
