/* A store in a server of Redis or Valkey, for the processes of several machines, over hiredis. Its place is the path of
 * a socket, or HOST:PORT. After USER@, the environment variable REDISCLI_AUTH has the user's password. */
#include <hiredis/hiredis.h>
#include <stdarg.h>

#include "store.h"

static const char *const settings[] = {"appendonly yes", "appendfsync always", "no-appendfsync-on-rewrite no",
                                       "maxmemory-policy noeviction"};

/* What the server answers, or NULL. */
static redisReply *asked(redisContext *link, int64_t last, const char *format, ...)
{
    redisReply *reply = NULL;
    va_list words;

    va_start(words, format);
    if (link->err == 0 && redisSetTimeout(link, time_left(last)) == REDIS_OK)
        reply = redisvCommand(link, format, words);
    va_end(words);
    if (reply != NULL && reply->type != REDIS_REPLY_ERROR)
        return reply;
    refuse("no answer", reply != NULL ? reply->str : link->errstr);
    freeReplyObject(reply);
    return NULL;
}

/* The text of an answer, or its two texts with a space between them; or an empty one. */
static const char *text(redisReply *reply, char *to, size_t size)
{
    to[0] = 0;
    if (reply != NULL && reply->type == REDIS_REPLY_STRING)
        snprintf(to, size, "%s", reply->str);
    else if (reply != NULL && reply->type == REDIS_REPLY_ARRAY && reply->elements == 2)
        snprintf(to, size, "%s %s", reply->element[0]->str, reply->element[1]->str);
    freeReplyObject(reply);
    return to;
}

static bool is_set_up(redisContext *link, int64_t last)
{
    char found[16384];
    const char *version = strstr(text(asked(link, last, "INFO"), found, sizeof found), "redis_version:");
    int major = 0, minor = 0;

    if (version == NULL || sscanf(version, "redis_version:%d.%d", &major, &minor) != 2 || 100 * major + minor < 602)
        return refuse("version", "it has to be 6.2 or later");
    if (strstr(found, "role:master") == NULL)
        return refuse("role", "the server is a replica");
    for (const char *const *it = settings; it < settings + sizeof settings / sizeof *settings; it++)
        if (strcmp(text(asked(link, last, "CONFIG GET %b", *it, strcspn(*it, " ")), found, sizeof found), *it) != 0)
            return refuse(found, "that isn't as docs/OPERATING.md says");
    return true;
}

/* Reads when the store was made: now, by the later of two clocks, if there is none. */
static bool read_made(redisContext *link, int64_t last, struct made *made)
{
    long long seconds, micros, its, ours = micros_of(clock_now());
    char found[128];

    if (sscanf(text(asked(link, last, "TIME"), found, sizeof found), "%lld %lld", &seconds, &micros) != 2)
        return false;
    its = 1000000 * seconds + micros;
    if (*text(asked(link, last, "GET fevstunik-store"), found, sizeof found) == 0) {
        snprintf(found, sizeof found, "%lld %d", its > ours ? its : ours, LARGEST_SKEW);
        freeReplyObject(asked(link, last, "SET fevstunik-store %s NX", found));
        text(asked(link, last, "GET fevstunik-store"), found, sizeof found);
    }
    if (sscanf(found, "%lld %lld", &made->at, &made->largest_skew) != 2)
        return refuse("fevstunik-store", "its value isn't a store's");
    return its <= ours + 1000000 * made->largest_skew || refuse("clock", "the server's is ahead");
}

static void close_link(void *link)
{
    redisFree(link);
}

static void *open_link(const struct store *store, int64_t last, struct made *made)
{
    const char *at = strchr(store->where, '@'), *place = at == NULL ? store->where : at + 1,
               *password = getenv("REDISCLI_AUTH");
    redisContext *link;
    char host[256];
    int port;

    if (sscanf(place, "%255[^:]:%d", host, &port) == 2)
        link = redisConnectWithTimeout(host, port, time_left(last));
    else
        link = redisConnectUnixWithTimeout(place, time_left(last));
    if (link != NULL && at != NULL && password != NULL)
        freeReplyObject(asked(link, last, "AUTH %b %s", store->where, (size_t)(at - store->where), password));
    if (link != NULL && is_set_up(link, last) && read_made(link, last, made))
        return link;
    close_link(link);
    return NULL;
}

static int descriptor(void *link)
{
    return ((redisContext *)link)->fd;
}

static fevstunik_said add(void *link, const uint8_t *stamp, size_t size, int64_t keep_until, int64_t last)
{
    redisReply *reply = asked(link, last, "SET fevstunik:%b %b NX EXAT %lld", stamp, size, "", (size_t)0,
                              (long long)(keep_until / 1000000 + 1));
    int type = reply == NULL ? REDIS_REPLY_ERROR : reply->type;

    freeReplyObject(reply);
    if (type != REDIS_REPLY_STATUS && type != REDIS_REPLY_NIL)
        return FEVSTUNIK_SAID_FAILED;
    return type == REDIS_REPLY_STATUS ? FEVSTUNIK_SAID_NEW : FEVSTUNIK_SAID_KNOWN;
}

const struct store_kind redis_store = {"redis", open_link, descriptor, add, close_link};
