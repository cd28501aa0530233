/* A store in a file, for the processes of one machine, over libsqlite3. What a process wrote before it was killed is in
 * the page cache: so nothing is synced, and the file of another boot isn't used. */
#include <sqlite3.h>

#include "place.h"

#define TABLES                                                                                                         \
    "PRAGMA synchronous = OFF; PRAGMA journal_mode = WAL; CREATE TABLE store (boot TEXT NOT NULL, made INTEGER NOT "   \
    "NULL, largest_skew INTEGER NOT NULL, forgotten INTEGER NOT NULL, next BLOB NOT NULL); CREATE TABLE stamps "       \
    "(key BLOB PRIMARY KEY, keep_until INTEGER NOT NULL) WITHOUT ROWID;"
/* After 32 stamps, 64 are looked at, in the order of their keys; after the last, the first is next. */
#define SEEN "FROM stamps WHERE key >= (SELECT next FROM store) ORDER BY key LIMIT 64"
#define NOTE                                                                                                           \
    "UPDATE store SET forgotten = max(forgotten, ifnull((SELECT max(keep_until) FROM (SELECT keep_until " SEEN         \
    ") WHERE keep_until < ?1), 0))"
#define LAST "(SELECT max(key) FROM (SELECT key " SEEN "))"
#define FORGET "DELETE FROM stamps WHERE keep_until < ?1 AND key BETWEEN (SELECT next FROM store) AND " LAST
#define GO_ON "UPDATE store SET next = ifnull((SELECT key " SEEN " - changes(), 1), x'')"
/* A stamp that may have been forgotten isn't added: the clock was set back. */
#define ADD "INSERT INTO stamps SELECT ?2, ?1 WHERE ?1 > (SELECT forgotten FROM store) ON CONFLICT DO NOTHING"

struct file {
    sqlite3 *base;
    struct place place;
    struct stat is;
    unsigned added;
    int64_t found[3]; /* the numbers that the last statement returned */
};

/* Runs a statement about a moment and some bytes. It is tried again while another process writes. */
static bool run(struct file *file, int64_t last, const char *said, int64_t moment, const void *bytes, size_t size)
{
    sqlite3_stmt *it;
    int status;

    do {
        status = sqlite3_prepare_v2(file->base, said, -1, &it, NULL);
        sqlite3_bind_int64(it, 1, moment);
        sqlite3_bind_blob64(it, 2, bytes, size, SQLITE_STATIC);
        while (status == SQLITE_OK || status == SQLITE_ROW)
            if ((status = sqlite3_step(it)) == SQLITE_ROW)
                for (int at = 0; at < sqlite3_column_count(it); at++)
                    file->found[at] = sqlite3_column_int64(it, at);
        sqlite3_finalize(it);
    } while ((status == SQLITE_BUSY || status == SQLITE_LOCKED) && milliseconds() <= last && usleep(rand() % 999) == 0);
    return status == SQLITE_DONE || refuse(file->place.path, sqlite3_errmsg(file->base));
}

/* Makes the tables of a new file. The clock is read after it was seen that there is no store. */
static bool make(const char *path, const char *boot)
{
    sqlite3 *base = NULL;
    char made[1024];
    snprintf(made, sizeof made, TABLES "INSERT INTO store VALUES ('%s', %lld, %d, 0, x'')", boot,
             (long long)micros_of(clock_now()), LARGEST_SKEW);
    bool is_made = sqlite3_open_v2(path, &base, SQLITE_OPEN_READWRITE, NULL) == SQLITE_OK &&
                   sqlite3_exec(base, made, NULL, NULL, NULL) == SQLITE_OK;
    sqlite3_close(base);
    return is_made || refuse(path, "it can't be made");
}

static void close_file(void *connection)
{
    struct file *file = connection;
    sqlite3_close(file->base);
    free(file);
}

static void *open_file(const struct store *store, int64_t last, struct made *made)
{
    struct file *file = calloc(1, sizeof *file);

    if (file == NULL) {
        refuse(store->where, "out of memory");
        return NULL;
    }
    struct place *place = &file->place;

    if (find_place(store->where, place) &&
        (store->made.at != 0 || (is_safe(place) && make_if_lacking(place, last, make))) &&
        is_our_file(place, &file->is) &&
        sqlite3_open_v2(place->path, &file->base, SQLITE_OPEN_READWRITE, NULL) == SQLITE_OK &&
        run(file, last, "PRAGMA synchronous = OFF", 0, NULL, 0) &&
        run(file, last, "SELECT made, largest_skew, boot = CAST(?2 AS TEXT) FROM store", 0, place->boot,
            strlen(place->boot)) &&
        file->found[2] == 1 && is_there(place, &file->is)) {
        *made = (struct made){file->found[0], file->found[1]};
        return file;
    }
    close_file(file);
    return NULL;
}

/* Forgets those of some stamps that needn't be kept any longer, and notes up to which time they were. */
static bool forget(struct file *file, int64_t last)
{
    int64_t now = micros_of(clock_now());
    return run(file, last, "BEGIN IMMEDIATE", 0, NULL, 0) && run(file, last, NOTE, now, NULL, 0) &&
           run(file, last, FORGET, now, NULL, 0) && run(file, last, GO_ON, 0, NULL, 0) &&
           run(file, last, "COMMIT", 0, NULL, 0);
}

static fevstunik_said add(void *connection, const uint8_t *stamp, size_t size, int64_t keep_until, int64_t last)
{
    struct file *file = connection;
    uint8_t *key = key_of(stamp, size);
    bool is_added =
        key != NULL && (file->added++ % 32 != 0 || forget(file, last)) && run(file, last, ADD, keep_until, key, size);

    free(key);
    if (!is_added)
        return FEVSTUNIK_SAID_FAILED;
    bool is_new = sqlite3_changes(file->base) == 1;
    if (!is_new &&
        (!run(file, last, "SELECT forgotten >= ?1 FROM store", keep_until, NULL, 0) || file->found[0] == 1)) {
        refuse(file->place.path, "the clock was set back, so the stamp may have been forgotten");
        return FEVSTUNIK_SAID_FAILED;
    }
    /* (after the stamp was added: a file that is made from now on is of a later moment than the request) */
    return !is_there(&file->place, &file->is) ? FEVSTUNIK_SAID_FAILED
           : is_new                           ? FEVSTUNIK_SAID_NEW
                                              : FEVSTUNIK_SAID_KNOWN;
}

const struct store_kind sqlite_store = {"sqlite", open_file, NULL, add, close_file};
