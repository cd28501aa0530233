/* What all stores do alike. Only a connection over which the whole answer came in time is used again: so no answer can
 * be taken for that about another stamp. */
#include "store.h"

static const struct store_kind *const kinds[] = {&sqlite_store, &redis_store};

bool store_open(struct store *store, const char *name, int seconds)
{
    size_t size = strcspn(name, ":");

    memset(store, 0, sizeof *store);
    for (size_t at = 0; name[size] == ':' && at < sizeof kinds / sizeof *kinds; at++)
        if (strlen(kinds[at]->name) == size && strncmp(name, kinds[at]->name, size) == 0)
            store->kind = kinds[at];
    if (store->kind == NULL) {
        fprintf(stderr, "%s: a store is named sqlite:PATH, redis:SOCKET or redis:USER@HOST:PORT\n", name);
        return false;
    }
    store->where = name + size + 1;
    store->wait = 1000 * (int64_t)seconds;
    pthread_mutex_init(&store->lock, NULL);
    store->kept[0] = store->kind->open(store, milliseconds() + store->wait, &store->made);
    store->count = store->kept[0] != NULL;
    return store->count > 0;
}

/* A connection that no call uses, or NULL. */
static void *take(struct store *store)
{
    void *connection;

    pthread_mutex_lock(&store->lock);
    connection = store->count > 0 ? store->kept[--store->count] : NULL;
    pthread_mutex_unlock(&store->lock);
    return connection;
}

static void give_back(struct store *store, void *connection)
{
    pthread_mutex_lock(&store->lock);
    if (store->count < KEPT) {
        store->kept[store->count++] = connection;
        connection = NULL;
    }
    pthread_mutex_unlock(&store->lock);
    if (connection != NULL)
        store->kind->close(connection);
}

/* A new connection to the store that this was at first, or NULL. */
static void *open_again(struct store *store, int64_t last)
{
    struct made made = {0, 0};
    void *connection = store->kind->open(store, last, &made);

    if (connection == NULL || (made.at == store->made.at && made.largest_skew == store->made.largest_skew))
        return connection;
    refuse(store->where, "it was made again, and may lack stamps: start the services that use it again");
    store->kind->close(connection);
    return NULL;
}

/* Whether a connection that no call uses is still open, and nothing has come over it. */
static bool is_good(const struct store *store, void *connection)
{
    struct pollfd one = {-1, POLLIN, 0};

    if (store->kind->descriptor != NULL)
        one.fd = store->kind->descriptor(connection);
    return poll(&one, 1, 0) == 0;
}

static void *connected(struct store *store, int64_t last)
{
    void *connection;

    while ((connection = take(store)) != NULL) {
        if (is_good(store, connection))
            return connection;
        store->kind->close(connection);
    }
    return open_again(store, last);
}

fevstunik_said store_add(struct store *store, const uint8_t *stamp, size_t size, fevstunik_time keep_until)
{
    int64_t last = milliseconds() + store->wait;
    void *connection = connected(store, last);
    fevstunik_said said = FEVSTUNIK_SAID_FAILED;

    if (connection != NULL)
        said = store->kind->add(connection, stamp, size, micros_of(keep_until), last);
    if (said != FEVSTUNIK_SAID_FAILED && milliseconds() <= last)
        give_back(store, connection);
    else {
        if (connection != NULL)
            store->kind->close(connection);
        said = FEVSTUNIK_SAID_FAILED;
    }
    return said;
}

void store_close(struct store *store)
{
    void *connection;

    while (store->kind != NULL && (connection = take(store)) != NULL)
        store->kind->close(connection);
}
