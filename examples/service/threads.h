/* A thread for each connection, with a time limit, and one that waits for SIGHUP. */
#ifndef THREADS_H
#define THREADS_H

#include <pthread.h>
#include <signal.h>

#include "wire.h"

/* How many seconds a peer has for its login and its text together. */
#ifndef SECONDS
#define SECONDS 10
#endif

/* How many peers are served at the same time. More wait until others have ended. */
#ifndef PEERS
#define PEERS 200
#endif

static pthread_mutex_t one_at_a_time = PTHREAD_MUTEX_INITIALIZER, counting = PTHREAD_MUTEX_INITIALIZER;
static pthread_cond_t counted = PTHREAD_COND_INITIALIZER;
static int running;
static void (*serve_peer)(int), (*at_hangup)(void);

static inline void lock(void)
{
    pthread_mutex_lock(&one_at_a_time);
}

static inline void unlock(void)
{
    pthread_mutex_unlock(&one_at_a_time);
}

/* Counts the threads that serve a peer. */
static inline void count_threads(int more)
{
    pthread_mutex_lock(&counting);
    running += more;
    pthread_cond_signal(&counted);
    pthread_mutex_unlock(&counting);
}

/* Waits until fewer than so many threads serve a peer. */
static inline void wait_for_fewer(int most)
{
    pthread_mutex_lock(&counting);
    while (running >= most)
        pthread_cond_wait(&counted, &counting);
    pthread_mutex_unlock(&counting);
}

static inline void *serve_one(void *peer)
{
    limit_time(SECONDS);
    serve_peer((int)(intptr_t)peer);
    fflush(stdout);
    close((int)(intptr_t)peer);
    count_threads(-1);
    return NULL;
}

/* Serves a peer in a thread of its own. If there can be no more threads now, the connection is closed. */
static inline void begin(int peer)
{
    pthread_t serving;

    count_threads(1);
    if (pthread_create(&serving, NULL, serve_one, (void *)(intptr_t)peer) == 0) {
        pthread_detach(serving);
        return;
    }
    fputs("there are too many threads: a connection is closed\n", stderr);
    close(peer);
    count_threads(-1);
}

static inline void *wait_for_hangups(void *hangup)
{
    int number;

    while (sigwait(hangup, &number) == 0) {
        lock();
        at_hangup();
        fflush(stdout);
        unlock();
    }
    return NULL;
}

/* Listens on a free port, serves so many connections, each in a thread of its own, and ends when all have ended. */
static inline void serve_each(int count, void (*serve)(int), void (*hung_up)(void))
{
    static sigset_t hangup;
    pthread_t waiting;
    int at, listener;

    serve_peer = serve;
    at_hangup = hung_up;
    sigemptyset(&hangup);
    sigaddset(&hangup, SIGHUP);
    if (pthread_sigmask(SIG_BLOCK, &hangup, NULL) != 0 ||
        pthread_create(&waiting, NULL, wait_for_hangups, &hangup) != 0)
        give_up("threads");
    listener = listen_on_any();
    for (at = 0; at < count; at++) {
        wait_for_fewer(PEERS);
        begin(accept_from(listener));
    }
    wait_for_fewer(1);
    pthread_cancel(waiting);
    pthread_join(waiting, NULL);
}

#endif
