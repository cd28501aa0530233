/* Runs the library on the exchange that tests share (tests/vectors/fixture.py), with exact answers. The arguments are the files of the
 * keytab and of the cache, and in hex the request, the request with a subkey, the reply, the reply with a subkey, the error, a cache of
 * two credentials with an offset, a request for another service, a request with lists and others (tests/support/c_cases.py), the last an
 * error with all fields. */
#include "listed.h"
#include "made.h"
#include "structs.h"

/* Where the credential begins in the cache: after the version, an empty header and the default principal. */
#define CREDENTIAL_AT 27
/* How many entries the keytab has. */
#define ENTRIES 1

/* An index whose lower 32 bits are those of the first entry; and a size of bytes 0x5a. */
#define FAR ((size_t)1 << 32)
#define FILLED ((size_t)0x5a5a5a5a5a5a5a5a)

static struct bytes keytab, cache, request, keyed, reply, keyed_reply, error, two, other, listed, negative, negative_reply, with_start, at_the_end,
    whole_error;
static uint8_t buffer[4096];
/* What is accepted is kept here, if not said otherwise; the fixture's cache; and what is awaited of its requests. */
static fevstunik_accepted accepted = FEVSTUNIK_ACCEPTED_INIT;
static fevstunik_cache credentials = FEVSTUNIK_CACHE_INIT;
static fevstunik_pending pending = FEVSTUNIK_PENDING_INIT;
static const fevstunik_choice nothing = {0, 0, false, false};
/* What is known of the fixture's request. */
static const fevstunik_known fixture_known = {
    .client = {0, 8}, .session_key = {8, 16}, .subkey = {24, 0}, .service = {24, 11}, .authtime = 1700000000, .endtime = 1700036000,
    .ctime = 1700000100, .cusec = 5, .name_type = 1, .service_type = 3, .session_type = 19};

/* An empty handle answers that it is empty, and stays so. */
static void empty_handles(void)
{
    fevstunik_acceptor service = FEVSTUNIK_ACCEPTOR_INIT;
    fevstunik_time now = moment(1700000101, 0), bad = moment(0, 1000000);
    fevstunik_known known;

    is_answer("accept of none", fevstunik_acceptor_accept(&service, &accepted, request.at, request.size, &now), FEVSTUNIK_EMPTY_HANDLE, 0, 0, 0);
    is_answer("a moment of none", fevstunik_acceptor_accept(&service, &accepted, request.at, request.size, &bad), FEVSTUNIK_BAD_MOMENT, 0, 0, 0);
    is_answer("accepted of none", fevstunik_accepted_known(&accepted, &known, buffer, sizeof buffer), FEVSTUNIK_EMPTY_HANDLE, 0, 0, 0);
    is_answer("reply of none", fevstunik_accepted_reply(&accepted, request.at, 16, &nothing, request.at, 0, buffer, sizeof buffer),
              FEVSTUNIK_EMPTY_HANDLE, 0, 0, 0);
    is_answer("error of none", fevstunik_acceptor_error(&service, request.at, 0, 3, &now, buffer, sizeof buffer),
              FEVSTUNIK_EMPTY_HANDLE, 0, 0, 0);
    is_answer("latest of none", fevstunik_acceptor_latest(&service, &now), FEVSTUNIK_EMPTY_HANDLE, 0, 0, 0);
    is("count of none", (long long)fevstunik_acceptor_count(&service), 0);
    fevstunik_acceptor_free(&service);
    is("empty", service.opaque == NULL, 1);
    is_answer("ready", fevstunik_accepted_new(&accepted), FEVSTUNIK_OK, 0, 0, 0);
    is("ready", accepted.opaque != NULL, 1);
    is_answer("accept of none then", fevstunik_acceptor_accept(&service, &accepted, request.at, request.size, &now), FEVSTUNIK_EMPTY_HANDLE, 0,
              0, 0);
    is_answer("nothing kept", fevstunik_accepted_known(&accepted, &known, buffer, sizeof buffer), FEVSTUNIK_NOTHING_THERE, 0, 0, 0);
}

/* Where nothing is ready for what is accepted, nothing is decided. */
static void unready(void)
{
    fevstunik_acceptor service = FEVSTUNIK_ACCEPTOR_INIT;
    fevstunik_accepted none = FEVSTUNIK_ACCEPTED_INIT;
    fevstunik_time now = moment(1700000101, 7), late = moment(1700000401, 0), bad = moment(0, 1000000), latest;

    is_answer("new", first_life(&service, keytab.at, keytab.size, 300, EACH_NAME), FEVSTUNIK_OK, 0, 0, 0);
    is_answer("unready", fevstunik_acceptor_accept(&service, &none, request.at, request.size, &now), FEVSTUNIK_EMPTY_HANDLE, 0, 0, 0);
    is("it stays so", none.opaque == NULL, 1);
    is("nothing is seen", (long long)fevstunik_acceptor_count(&service), 0);
    is_answer("no moment", fevstunik_acceptor_latest(&service, &latest), FEVSTUNIK_NOTHING_THERE, 0, 0, 0);
    is_answer("late", fevstunik_acceptor_accept(&service, &accepted, keyed.at, keyed.size, &late), FEVSTUNIK_SKEW, 37, 0, 0);
    is_answer("unready then", fevstunik_acceptor_accept(&service, &none, request.at, request.size, &now), FEVSTUNIK_EMPTY_HANDLE, 0, 0, 0);
    is_answer("the cause stays", fevstunik_acceptor_error(&service, WEB, 3, &now, buffer, sizeof buffer), FEVSTUNIK_OK, 0, 0, error.size);
    is_answer("unready, no moment", fevstunik_acceptor_accept(&service, &none, request.at, request.size, &bad), FEVSTUNIK_BAD_MOMENT, 0, 0, 0);
    is_answer("the cause is gone", fevstunik_acceptor_error(&service, WEB, 3, &now, buffer, sizeof buffer), FEVSTUNIK_NOTHING_THERE, 0, 0, 0);
    fevstunik_accepted_free(&none);
    is("free of none", none.opaque == NULL, 1);
    fevstunik_acceptor_free(&service);
}

/* A service that was started again is quiet until its clock and the client's are later than the start by more than the skew. */
static void started_again(void)
{
    fevstunik_acceptor service = FEVSTUNIK_ACCEPTOR_INIT;
    fevstunik_accepted kept = FEVSTUNIK_ACCEPTED_INIT;
    fevstunik_time bad = moment(253402300800, 0), start = moment(1699999800, 5), before = moment(1699999800, 4);
    fevstunik_time now = moment(1700000100, 5), later = moment(1700000100, 6), latest;
    void *held;

    is_answer("a start that is no moment", started(&service, keytab.at, keytab.size, 86401, EACH_NAME, &bad),
              FEVSTUNIK_BAD_MOMENT, 0, 0, 0);
    is("none is made", service.opaque == NULL, 1);
    is_answer("the skew then", started(&service, keytab.at, 1, 86401, EACH_NAME, &start), FEVSTUNIK_BAD_SKEW, 0, 0, 0);
    is_answer("ready", fevstunik_accepted_new(&kept), FEVSTUNIK_OK, 0, 0, 0);
    is_answer("started", started(&service, keytab.at, keytab.size, 300, WEB, &start), FEVSTUNIK_OK, 0, 0, 0);
    held = service.opaque;
    is_answer("a bad start", started(&service, keytab.at, keytab.size, 300, WEB, &bad), FEVSTUNIK_BAD_MOMENT, 0, 0, 0);
    is("it stays", service.opaque == held, 1);
    is_answer("the start is no moment of its", fevstunik_acceptor_latest(&service, &latest), FEVSTUNIK_NOTHING_THERE, 0, 0, 0);
    is_answer("at the skew", fevstunik_acceptor_accept(&service, &kept, request.at, request.size, &now), FEVSTUNIK_JUST_STARTED, 37, 0, 0);
    is_answer("by the client's clock", fevstunik_acceptor_accept(&service, &kept, request.at, request.size, &later), FEVSTUNIK_JUST_STARTED,
              37, 0, 0);
    is("it is remembered", (long long)fevstunik_acceptor_count(&service), 1);
    is_answer("latest", fevstunik_acceptor_latest(&service, &latest), FEVSTUNIK_OK, 0, 0, 0);
    is("its microseconds", latest.micros, 6);
    is_answer("another start", started(&service, keytab.at, keytab.size, 300, WEB, &before), FEVSTUNIK_OK, 0, 0, 0);
    is("nothing is remembered", (long long)fevstunik_acceptor_count(&service), 0);
    is_answer("later than the skew", fevstunik_acceptor_accept(&service, &kept, request.at, request.size, &now), FEVSTUNIK_OK, 0, 0, 0);
    is_answer("a name that isn't served", started(&service, keytab.at, keytab.size, 300, (const uint8_t *)"host/a@EX", 9, &start),
              FEVSTUNIK_OK, 0, 0, 0);
    is_answer("not us", fevstunik_acceptor_accept(&service, &kept, request.at, request.size, &now), FEVSTUNIK_NOT_US, 35, 0, 0);
    fevstunik_accepted_free(&kept);
    fevstunik_acceptor_free(&service);
}

static fevstunik_answer made(fevstunik_acceptor *service, size_t keytab_size, const uint8_t *name, size_t size, fevstunik_acceptor_options options)
{
    return fevstunik_acceptor_new(service, keytab.at, keytab_size, name, size, &options);
}

/* Options are refused by what is wrong first, and what was made stays. */
static void options(void)
{
    static const fevstunik_acceptor_options zero;
    fevstunik_acceptor service = FEVSTUNIK_ACCEPTOR_INIT;
    fevstunik_acceptor_options it = {.size = sizeof it, .started = {1700000000, 0}, .skew = 86401};
    void *held;

    is("the size of the options", sizeof it, OPTIONS_SIZE);
    is_answer("all zero", made(&service, 1, EACH_NAME, zero), FEVSTUNIK_BAD_OPTIONS, 0, 0, 0);
    is("none is made", service.opaque == NULL, 1);
    is_answer("new", first_life(&service, keytab.at, keytab.size, 300, WEB), FEVSTUNIK_OK, 0, 0, 0);
    held = service.opaque;
    it.size--;
    is_answer("too short", made(&service, 1, EACH_NAME, it), FEVSTUNIK_BAD_OPTIONS, 0, 0, 0);
    it.size += 2;
    is_answer("longer than known", made(&service, 1, EACH_NAME, it), FEVSTUNIK_BAD_OPTIONS, 0, 0, 0);
    it.size--;
    is_answer("no name", made(&service, 1, EACH_NAME, it), FEVSTUNIK_NO_NAME, 0, 0, 0);
    is_answer("no pointer to a name", made(&service, 1, NULL, 0, it), FEVSTUNIK_NO_NAME, 0, 0, 0);
    is_answer("how repeats are refused", made(&service, 1, WEB, it), FEVSTUNIK_NO_START, 0, 0, 0);
    it.any_name = true;
    it.restarts = 4;
    is_answer("nor so", made(&service, 1, EACH_NAME, it), FEVSTUNIK_NO_START, 0, 0, 0);
    it.restarts = FEVSTUNIK_RESTART_STARTED;
    it.started = moment(0, 1000000);
    is_answer("a start that is no moment", made(&service, 1, WEB, it), FEVSTUNIK_BAD_MOMENT, 0, 0, 0);
    it.started = moment(1577836799, 999999);
    is_answer("before the year 2020", made(&service, 1, WEB, it), FEVSTUNIK_EARLY_START, 0, 0, 0);
    it.started = moment(86400, 0);
    is_answer("of the monotonic clock", made(&service, 1, WEB, it), FEVSTUNIK_EARLY_START, 0, 0, 0);
    it.started = moment(-1, 0);
    is_answer("of a failed call", made(&service, 1, WEB, it), FEVSTUNIK_EARLY_START, 0, 0, 0);
    it.any_start = true;
    is_answer("the skew then", made(&service, 1, WEB, it), FEVSTUNIK_BAD_SKEW, 0, 0, 0);
    it.skew = 86400;
    is_answer("the keytab then", made(&service, 1, (const uint8_t *)"host", 4, it), FEVSTUNIK_FILE_VERSION, 0, 0, 0);
    is_answer("the name then", made(&service, keytab.size, (const uint8_t *)"host", 4, it), FEVSTUNIK_NO_REALM, 0, 0, 0);
    is("it stays", service.opaque == held, 1);
    is_answer("any start", made(&service, keytab.size, WEB, it), FEVSTUNIK_OK, 0, 0, 0);
    it.any_start = false;
    it.started = moment(1577836800, 0);
    is_answer("the year 2020", made(&service, keytab.size, EACH_NAME, it), FEVSTUNIK_OK, 0, 0, 0);
    it.restarts = FEVSTUNIK_RESTART_FIRST_LIFE;
    it.started = moment(0, 1000000);
    is_answer("no start", made(&service, keytab.size, WEB, it), FEVSTUNIK_OK, 0, 0, 0);
    is_answer("a keytab for no name", fevstunik_acceptor_replace_keytab(&service, keytab.at, 1, EACH_NAME, false), FEVSTUNIK_NO_NAME, 0, 0, 0);
    fevstunik_acceptor_free(&service);
}

/* The answer to options of a size of which no byte more is there: valgrind sees a read past them. */
static fevstunik_answer made_of(fevstunik_acceptor *service, size_t size)
{
    fevstunik_acceptor_options options = {.size = size, .skew = 300, .restarts = FEVSTUNIK_RESTART_FIRST_LIFE};
    void *block = malloc(size);
    fevstunik_answer answer;

    memcpy(block, &options, size);
    answer = fevstunik_acceptor_new(service, keytab.at, keytab.size, WEB, block);
    free(block);
    return answer;
}

/* Options of a program with an older header, which are shorter; and of sizes that no header has. */
static void sizes_of_options(void)
{
    fevstunik_acceptor service = FEVSTUNIK_ACCEPTOR_INIT;
    size_t size;

    for (size = sizeof size; size <= OPTIONS_SIZE; size++)
        is_answer("a size", made_of(&service, size), size == 56 || size == OPTIONS_SIZE ? FEVSTUNIK_OK : FEVSTUNIK_BAD_OPTIONS, 0, 0, 0);
    fevstunik_acceptor_free(&service);
}

/* A sequence number that stands as a negative number is told as the one above 2147483647. */
static void negative_number(void)
{
    fevstunik_acceptor service = FEVSTUNIK_ACCEPTOR_INIT;
    fevstunik_accepted kept = FEVSTUNIK_ACCEPTED_INIT;
    fevstunik_time now = moment(1700000100, 5);
    fevstunik_known known;

    is_answer("new", first_life(&service, keytab.at, keytab.size, 300, EACH_NAME), FEVSTUNIK_OK, 0, 0, 0);
    is_answer("ready", fevstunik_accepted_new(&kept), FEVSTUNIK_OK, 0, 0, 0);
    is_answer("negative", fevstunik_acceptor_accept(&service, &kept, negative.at, negative.size, &now), FEVSTUNIK_OK, 0, 0, 0);
    is("its size", fevstunik_accepted_known(&kept, &known, buffer, sizeof buffer).code, FEVSTUNIK_OK);
    is("a number", known.has_seq, 1);
    is("the number", known.seq, 4294967295);
    fevstunik_accepted_free(&kept);
    fevstunik_acceptor_free(&service);
}

/* What is handed out of a handle: the client's subkey's type and number, or that nothing is kept there. */
static void is_kept(const char *what, fevstunik_accepted *kept, int32_t subkey_type, uint32_t seq)
{
    fevstunik_known known;
    size_t size = subkey_type == 20 ? 67 : 35;

    is_answer(what, fevstunik_accepted_known(kept, &known, buffer, sizeof buffer), FEVSTUNIK_OK, 0, 0, size);
    is_bytes(what, buffer + known.client.at, "alice@EX", 8);
    is(what, known.subkey_type, subkey_type);
    is(what, known.seq, seq);
}

/* Two requests of one service are kept side by side, also after the service is freed. */
static void kept_apart(void)
{
    fevstunik_acceptor service = FEVSTUNIK_ACCEPTOR_INIT, none = FEVSTUNIK_ACCEPTOR_INIT;
    fevstunik_accepted first = FEVSTUNIK_ACCEPTED_INIT, second = FEVSTUNIK_ACCEPTED_INIT;
    fevstunik_time now = moment(1700000100, 5);
    fevstunik_known known;

    is_answer("new", first_life(&service, keytab.at, keytab.size, 300, EACH_NAME), FEVSTUNIK_OK, 0, 0, 0);
    is_answer("ready", fevstunik_accepted_new(&first), FEVSTUNIK_OK, 0, 0, 0);
    is_answer("ready too", fevstunik_accepted_new(&second), FEVSTUNIK_OK, 0, 0, 0);
    is_answer("the first", fevstunik_acceptor_accept(&service, &first, keyed.at, keyed.size, &now), FEVSTUNIK_OK, 0, 0, 0);
    is_kept("the first is kept", &first, 20, 4294967295);
    is_answer("not yet", fevstunik_accepted_known(&second, &known, buffer, sizeof buffer), FEVSTUNIK_NOTHING_THERE, 0, 0, 0);
    is_answer("a repeat", fevstunik_acceptor_accept(&service, &second, keyed.at, keyed.size, &now), FEVSTUNIK_REPEAT, 34, 0, 0);
    is_kept("the first stays", &first, 20, 4294967295);
    fevstunik_acceptor_free(&service);
    is_kept("without the service", &first, 20, 4294967295);
    is_answer("another", first_life(&service, keytab.at, keytab.size, 300, EACH_NAME), FEVSTUNIK_OK, 0, 0, 0);
    is_answer("the second", fevstunik_acceptor_accept(&service, &second, request.at, request.size, &now), FEVSTUNIK_OK, 0, 0, 0);
    is_kept("the second is kept", &second, 0, 0);
    is_kept("and the first", &first, 20, 4294967295);
    is_answer("into the first", fevstunik_acceptor_accept(&service, &first, request.at, request.size, &now), FEVSTUNIK_REPEAT, 34, 0, 0);
    is_answer("that is empty", fevstunik_accepted_known(&first, &known, buffer, sizeof buffer), FEVSTUNIK_NOTHING_THERE, 0, 0, 0);
    is_kept("the second stays", &second, 0, 0);
    is_answer("of no service", fevstunik_acceptor_accept(&none, &second, request.at, request.size, &now), FEVSTUNIK_EMPTY_HANDLE, 0, 0, 0);
    is_answer("nothing then", fevstunik_accepted_known(&second, &known, buffer, sizeof buffer), FEVSTUNIK_NOTHING_THERE, 0, 0, 0);
    fevstunik_acceptor_free(&service);
    fevstunik_accepted_free(&first);
    is_answer("freed", fevstunik_accepted_known(&first, &known, buffer, sizeof buffer), FEVSTUNIK_EMPTY_HANDLE, 0, 0, 0);
    is("freed", first.opaque == NULL, 1);
    fevstunik_accepted_free(&second);
}

/* A handle that is made ready again has forgotten what it kept. */
static void ready_again(void)
{
    fevstunik_acceptor service = FEVSTUNIK_ACCEPTOR_INIT;
    fevstunik_time now = moment(1700000100, 5);
    fevstunik_known known;

    is_answer("new", first_life(&service, keytab.at, keytab.size, 300, EACH_NAME), FEVSTUNIK_OK, 0, 0, 0);
    is_answer("accept", fevstunik_acceptor_accept(&service, &accepted, keyed.at, keyed.size, &now), FEVSTUNIK_OK, 0, 0, 0);
    is_kept("kept", &accepted, 20, 4294967295);
    is_answer("ready again", fevstunik_accepted_new(&accepted), FEVSTUNIK_OK, 0, 0, 0);
    is_answer("forgotten", fevstunik_accepted_known(&accepted, &known, buffer, sizeof buffer), FEVSTUNIK_NOTHING_THERE, 0, 0, 0);
    fevstunik_acceptor_free(&service);
}

/* A service isn't made of what is no keytab, or with too great a skew, and one that was made stays. */
static void faulty_keytabs(fevstunik_acceptor *service)
{
    void *held = service->opaque;

    is_answer("skew", first_life(service, keytab.at, keytab.size, 86401, EACH_NAME), FEVSTUNIK_BAD_SKEW, 0, 0, 0);
    is_answer("version", first_life(service, keytab.at + 1, keytab.size - 1, 300, EACH_NAME), FEVSTUNIK_FILE_VERSION, 0, 0, 0);
    is_answer("no file", first_life(service, keytab.at, 0, 300, EACH_NAME), FEVSTUNIK_FILE_VERSION, 0, 0, 0);
    is_answer("cut off", first_life(service, keytab.at, 10, 300, EACH_NAME), FEVSTUNIK_FILE_TRUNCATED, 0, 2, 0);
    is("it stays", service->opaque == held, 1);
}

/* The fixture's request is accepted once, and everything that is known of it is told. */
static void is_accepted(fevstunik_acceptor *service)
{
    static const uint8_t session_key[] = {0, 1, 2, 3, 4, 5, 6, 7, 8, 9, 10, 11, 12, 13, 14, 15};
    fevstunik_time now = moment(1700000101, 7), latest = moment(0, 0);
    fevstunik_known known;

    is_answer("no moment", fevstunik_acceptor_latest(service, &latest), FEVSTUNIK_NOTHING_THERE, 0, 0, 0);
    is_answer("ready", fevstunik_accepted_new(&accepted), FEVSTUNIK_OK, 0, 0, 0);
    memset(&known, 0x5a, sizeof known);
    is_answer("none yet", fevstunik_accepted_known(&accepted, &known, buffer, sizeof buffer), FEVSTUNIK_NOTHING_THERE, 0, 0, 0);
    is("known stays", known.flags == 0x5a5a5a5a && known.client.size == FILLED && known.session_type == 0x5a5a5a5a, 1);
    is_answer("accept", fevstunik_acceptor_accept(service, &accepted, request.at, request.size, &now), FEVSTUNIK_OK, 0, 0, 0);
    is("count", (long long)fevstunik_acceptor_count(service), 1);
    is_answer("latest", fevstunik_acceptor_latest(service, &latest), FEVSTUNIK_OK, 0, 0, 0);
    is("latest second", latest.seconds, 1700000101);
    is("latest micros", latest.micros, 7);
    memset(buffer, 0xaa, sizeof buffer);
    is_answer("short", fevstunik_accepted_known(&accepted, &known, buffer, 34), FEVSTUNIK_SHORT_BUFFER, 0, 0, 35);
    is("not written", buffer[0], 0xaa);
    is_answer("told", fevstunik_accepted_known(&accepted, &known, buffer, 35), FEVSTUNIK_OK, 0, 0, 35);
    is("after", buffer[35], 0xaa);
    is_known("known", &known, &fixture_known);
    is_bytes("client", buffer, "alice@EX", 8);
    is_bytes("key", buffer + 8, session_key, 16);
    is_bytes("service", buffer + 24, "host/web@EX", 11);
}

/* Fills bytes with this number and those after it. */
static void count_from(uint8_t first, uint8_t *at, size_t size)
{
    size_t i;

    for (i = 0; i < size; i++)
        at[i] = (uint8_t)(first + i);
}

static fevstunik_answer reply_of(size_t confounder_size, int32_t type, size_t subkey_size, size_t room)
{
    uint8_t confounder[17], subkey[32];
    fevstunik_choice choice = nothing;

    count_from(0x30, confounder, sizeof confounder);
    count_from(0x40, subkey, sizeof subkey);
    choice.subkey_type = type;
    choice.has_seq = type != 0;
    choice.seq = 128;
    return fevstunik_accepted_reply(&accepted, confounder, confounder_size, &choice, subkey, subkey_size, buffer, room);
}

/* The replies are those of the fixture, to the byte; what isn't replied to says why. */
static void replies(void)
{
    is_answer("confounder", reply_of(17, 0, 0, sizeof buffer), FEVSTUNIK_BAD_CONFOUNDER, 0, 0, 0);
    is_answer("type", reply_of(16, 18, 32, sizeof buffer), FEVSTUNIK_KEY_TYPE, 0, 0, 0);
    is_answer("length", reply_of(16, 20, 16, sizeof buffer), FEVSTUNIK_KEY_LENGTH, 0, 0, 0);
    is_answer("short reply", reply_of(16, 0, 0, reply.size - 1), FEVSTUNIK_SHORT_BUFFER, 0, 0, reply.size);
    is_answer("reply", reply_of(16, 0, 0, sizeof buffer), FEVSTUNIK_OK, 0, 0, reply.size);
    is_bytes("reply", buffer, reply.at, reply.size);
    is_answer("keyed reply", reply_of(16, 19, 16, sizeof buffer), FEVSTUNIK_OK, 0, 0, keyed_reply.size);
    is_bytes("keyed reply", buffer, keyed_reply.at, keyed_reply.size);
}

/* Repeats and broken requests are refused, with their codes and places, and let nothing of the last one stand. */
static void is_refused(fevstunik_acceptor *service)
{
    fevstunik_time now = moment(1700000101, 0), late = moment(1700000400, 6);
    fevstunik_known known;

    is_answer("repeat", fevstunik_acceptor_accept(service, &accepted, request.at, request.size, &now), FEVSTUNIK_REPEAT, 34, 0, 0);
    is_answer("none then", fevstunik_accepted_known(&accepted, &known, buffer, sizeof buffer), FEVSTUNIK_NOTHING_THERE, 0, 0, 0);
    is_answer("no reply then", reply_of(16, 0, 0, sizeof buffer), FEVSTUNIK_NOTHING_THERE, 0, 0, 0);
    is_answer("another message", fevstunik_acceptor_accept(service, &accepted, reply.at, reply.size, &now), FEVSTUNIK_MESSAGE_TYPE, 40, 0, 0);
    is_answer("no bytes", fevstunik_acceptor_accept(service, &accepted, request.at, 0, &now), FEVSTUNIK_MALFORMED, 60, 0, 0);
    is_answer("one byte", fevstunik_acceptor_accept(service, &accepted, request.at, 1, &now), FEVSTUNIK_MALFORMED, 60, 1, 0);
    request.at[request.size - 1] ^= 1;
    is_answer("bent", fevstunik_acceptor_accept(service, &accepted, request.at, request.size, &now), FEVSTUNIK_AUTHENTICATOR_INTEGRITY, 31, 0, 0);
    request.at[request.size - 1] ^= 1;
    is_answer("late", fevstunik_acceptor_accept(service, &accepted, keyed.at, keyed.size, &late), FEVSTUNIK_SKEW, 37, 0, 0);
    is("count then", (long long)fevstunik_acceptor_count(service), 0);
}

static fevstunik_answer error_of(fevstunik_acceptor *service, const char *name, fevstunik_time now, size_t room)
{
    return fevstunik_acceptor_error(service, (const uint8_t *)name, strlen(name), 3, &now, buffer, room);
}

static fevstunik_answer error_by(uint32_t code, const char *name, fevstunik_time now, size_t room)
{
    return fevstunik_error(code, (const uint8_t *)name, strlen(name), 3, &now, buffer, room);
}

/* So is the error of a cause that is known by its code alone; other codes have none. */
static void codes_errors(fevstunik_time now)
{
    uint32_t code;
    int errors = 0;

    is_answer("error by code", error_by(FEVSTUNIK_SKEW, "host/web@EX", now, sizeof buffer), FEVSTUNIK_OK, 0, 0, error.size);
    is_bytes("error by code", buffer, error.at, error.size);
    is_answer("error by another", error_by(FEVSTUNIK_REPEAT, "host/web@EX", now, sizeof buffer), FEVSTUNIK_OK, 0, 0, error.size);
    is("another's code", buffer[42], 34);
    for (code = 0; code < 1000; code++)
        if (error_by(code, "host/web@EX", now, sizeof buffer).code == FEVSTUNIK_OK)
            errors++;
    is("causes", errors, 18);
    memset(buffer, 0xaa, sizeof buffer);
    is_answer("short by code", error_by(FEVSTUNIK_SKEW, "host/web@EX", now, error.size - 1), FEVSTUNIK_SHORT_BUFFER, 0, 0, error.size);
    is_answer("no cause's code", error_by(FEVSTUNIK_OUT_OF_MEMORY, "host/web", now, sizeof buffer), FEVSTUNIK_NO_CODE, 0, 0, 0);
    is("not written", buffer[0], 0xaa);
    is_answer("code without a realm", error_by(FEVSTUNIK_SKEW, "host/web", now, sizeof buffer), FEVSTUNIK_NO_REALM, 0, 0, 0);
    is_answer("code of a bad name", error_by(FEVSTUNIK_SKEW, "a@b@c", now, sizeof buffer), FEVSTUNIK_BAD_TEXT, 0, 3, 0);
    is_answer("code of bytes", error_by(FEVSTUNIK_SKEW, "\xff@EX", now, sizeof buffer), FEVSTUNIK_NOT_UTF8, 0, 0, 0);
    is_answer("code at no moment", error_by(FEVSTUNIK_SKEW, "host/web@EX", moment(0, 1000000), sizeof buffer), FEVSTUNIK_BAD_MOMENT, 0, 0, 0);
}

/* The error of a refusal is the fixture's, to the byte, with its code at the byte 42; and why there is none. */
static void errors(void)
{
    fevstunik_acceptor service = FEVSTUNIK_ACCEPTOR_INIT;
    fevstunik_time now = moment(1700000100, 7), late = moment(1700000401, 0);

    is_answer("new", first_life(&service, keytab.at, keytab.size, 300, EACH_NAME), FEVSTUNIK_OK, 0, 0, 0);
    is_answer("no error yet", error_of(&service, "host/web@EX", now, sizeof buffer), FEVSTUNIK_NOTHING_THERE, 0, 0, 0);
    is_answer("accept", fevstunik_acceptor_accept(&service, &accepted, request.at, request.size, &now), FEVSTUNIK_OK, 0, 0, 0);
    is_answer("no error of it", error_of(&service, "host/web@EX", now, sizeof buffer), FEVSTUNIK_NOTHING_THERE, 0, 0, 0);
    is_answer("late", fevstunik_acceptor_accept(&service, &accepted, keyed.at, keyed.size, &late), FEVSTUNIK_SKEW, 37, 0, 0);
    memset(buffer, 0xaa, sizeof buffer);
    is_answer("short error", error_of(&service, "host/web@EX", now, error.size - 1), FEVSTUNIK_SHORT_BUFFER, 0, 0, error.size);
    is("not written", buffer[0], 0xaa);
    is_answer("error", error_of(&service, "host/web@EX", now, error.size), FEVSTUNIK_OK, 0, 0, error.size);
    is_bytes("error", buffer, error.at, error.size);
    is("after it", buffer[error.size], 0xaa);
    is_answer("another type", fevstunik_acceptor_accept(&service, &accepted, reply.at, reply.size, &now), FEVSTUNIK_MESSAGE_TYPE, 40, 0, 0);
    is_answer("its error", error_of(&service, "host/web@EX", now, sizeof buffer), FEVSTUNIK_OK, 0, 0, error.size);
    is("its code", buffer[42], 40);
    codes_errors(now);
    is_answer("error without a realm", error_of(&service, "host/web", now, sizeof buffer), FEVSTUNIK_NO_REALM, 0, 0, 0);
    is_answer("error of a bad name", error_of(&service, "a@b@c", now, sizeof buffer), FEVSTUNIK_BAD_TEXT, 0, 3, 0);
    is_answer("error of bytes", error_of(&service, "\xff@EX", now, sizeof buffer), FEVSTUNIK_NOT_UTF8, 0, 0, 0);
    is_answer("error at no moment", error_of(&service, "host/web@EX", moment(0, 1000000), sizeof buffer), FEVSTUNIK_BAD_MOMENT, 0, 0, 0);
    fevstunik_acceptor_free(&service);
}

/* What an error says that has only what it must, and one that has all; and what is no error. */
static void errors_read(void)
{
    static const char parts[] = "host/web@EXalice@EXtoo latedata";
    fevstunik_krb_error found;

    memset(&found, 0x5a, sizeof found);
    memset(buffer, 0xaa, sizeof buffer);
    is_answer("no error", fevstunik_krb_error_read(error.at, error.size - 1, &found, buffer, sizeof buffer), FEVSTUNIK_ERROR_MALFORMED, 0,
              error.size - 1, 0);
    is_answer("a reply", fevstunik_krb_error_read(reply.at, reply.size, &found, buffer, sizeof buffer), FEVSTUNIK_ERROR_MALFORMED, 0, 0, 0);
    is("nothing is filled", found.code == 0x5a5a5a5a && buffer[0] == 0xaa, 1);
    is_answer("short", fevstunik_krb_error_read(error.at, error.size, &found, buffer, 10), FEVSTUNIK_SHORT_BUFFER, 0, 0, 11);
    is("filled, not written", found.code == 37 && buffer[0] == 0xaa, 1);
    is_answer("read", fevstunik_krb_error_read(error.at, error.size, &found, buffer, 11), FEVSTUNIK_OK, 0, 0, 11);
    is_bytes("its service", buffer + found.service.at, parts, found.service.size);
    is("its type", found.service_type, 3);
    is("its time", found.stime.seconds == 1700000100 && found.stime.micros == 7, 1);
    is("no more", found.has_client || found.has_text || found.has_data || found.has_ctime, 0);
    is("no parts", (long long)(found.client.size + found.text.size + found.data.size), 0);
    is_answer("read all", fevstunik_krb_error_read(whole_error.at, whole_error.size, &found, buffer, sizeof buffer), FEVSTUNIK_OK, 0, 0, 31);
    is_bytes("all parts", buffer, parts, 31);
    is("where they are", found.service.size == 11 && found.client.at == 11 && found.client.size == 8 && found.text.at == 19
       && found.text.size == 8 && found.data.at == 27 && found.data.size == 4, 1);
    is("all there", found.has_client && found.has_text && found.has_data && found.has_ctime, 1);
    is("the client's time", found.ctime.seconds == 1700000091 && found.ctime.micros == 8, 1);
}

/* The fixture's request is for host/web@EX alone: a service that is wanted by another name refuses it, whatever the keytab has; one that is
 * made in a used handle has forgotten it. The types of names don't count. */
static void wanted_services(void)
{
    static const char *const others[] = {"host/web@EY", "host/mail@EX", "http/web@EX", "host@EX", "host/web/x@EX", "@EX", "host\\/web@EX"};
    fevstunik_acceptor service = FEVSTUNIK_ACCEPTOR_INIT;
    fevstunik_time now = moment(1700000101, 7);
    size_t i;

    for (i = 0; i < sizeof others / sizeof *others; i++) {
        is_answer("another", first_life(&service, keytab.at, keytab.size, 300, (const uint8_t *)others[i], strlen(others[i])),
                  FEVSTUNIK_OK, 0, 0, 0);
        is_answer(others[i], fevstunik_acceptor_accept(&service, &accepted, request.at, request.size, &now), FEVSTUNIK_NOT_US, 35, 0, 0);
        is("nothing is seen", (long long)fevstunik_acceptor_count(&service), 0);
    }
    is_answer("this one", first_life(&service, keytab.at, keytab.size, 300, WEB), FEVSTUNIK_OK, 0, 0, 0);
    is_answer("accept", fevstunik_acceptor_accept(&service, &accepted, request.at, request.size, &now), FEVSTUNIK_OK, 0, 0, 0);
    is_answer("repeat", fevstunik_acceptor_accept(&service, &accepted, request.at, request.size, &now), FEVSTUNIK_REPEAT, 34, 0, 0);
    is_answer("each", first_life(&service, keytab.at, keytab.size, 300, EACH_NAME), FEVSTUNIK_OK, 0, 0, 0);
    is_answer("accept anew", fevstunik_acceptor_accept(&service, &accepted, request.at, request.size, &now), FEVSTUNIK_OK, 0, 0, 0);
    fevstunik_acceptor_free(&service);
}

/* Numbers that aren't codes have a name and a text that say so, and the header's version is the library's. */
static void constants(void)
{
    is("no name", strcmp(fevstunik_code_name(3), "FEVSTUNIK_UNKNOWN"), 0);
    is("no text", strcmp(fevstunik_code_text(505), "an unknown code"), 0);
    is("a name", strcmp(fevstunik_code_name(FEVSTUNIK_REPEAT), "FEVSTUNIK_REPEAT"), 0);
    is("version", fevstunik_version(), FEVSTUNIK_VERSION_MAJOR * 10000 + FEVSTUNIK_VERSION_MINOR * 100 + FEVSTUNIK_VERSION_PATCH);
}

/* The texts of names, and what is wrong with others. */
static void names(void)
{
    is_answer("name", fevstunik_name_check((const uint8_t *)"host/web@EX", 11), FEVSTUNIK_OK, 0, 0, 2);
    is_answer("escaped", fevstunik_name_check((const uint8_t *)"a\\/b\\x00@EX", 11), FEVSTUNIK_OK, 0, 0, 1);
    is_answer("without a realm", fevstunik_name_check((const uint8_t *)"host/web", 8), FEVSTUNIK_NO_REALM, 0, 0, 0);
    is_answer("two realms", fevstunik_name_check((const uint8_t *)"a@b@c", 5), FEVSTUNIK_BAD_TEXT, 0, 3, 0);
    is_answer("a space", fevstunik_name_check((const uint8_t *)" @EX", 4), FEVSTUNIK_BAD_TEXT, 0, 0, 0);
    is_answer("upper case", fevstunik_name_check((const uint8_t *)"\\x0A@EX", 7), FEVSTUNIK_BAD_TEXT, 0, 0, 0);
    is_answer("not UTF-8", fevstunik_name_check((const uint8_t *)"\xff@EX", 4), FEVSTUNIK_NOT_UTF8, 0, 0, 0);
    is_answer("nothing", fevstunik_name_check((const uint8_t *)"", 0), FEVSTUNIK_NO_REALM, 0, 0, 0);
}

/* An entry is taken out, and the rest is written anew. */
static void edits(void)
{
    static uint8_t zeros[4096];
    struct bytes hole;
    size_t size = keytab.size;

    is_answer("no such entry", fevstunik_keytab_remove(keytab.at, size, ENTRIES, buffer, sizeof buffer), FEVSTUNIK_NO_SUCH_ENTRY, 0, 0, 0);
    is_answer("remove of none", fevstunik_keytab_remove(keytab.at, 1, 0, buffer, sizeof buffer), FEVSTUNIK_FILE_VERSION, 0, 0, 0);
    is_answer("remove short", fevstunik_keytab_remove(keytab.at, size, 0, buffer, size - 1), FEVSTUNIK_SHORT_BUFFER, 0, 0, size);
    is_answer("remove", fevstunik_keytab_remove(keytab.at, size, 0, hole.at, sizeof hole.at), FEVSTUNIK_OK, 0, 0, size);
    is_bytes("version", hole.at, keytab.at, 2);
    is("hole", (int32_t)((uint32_t)hole.at[2] << 24 | (uint32_t)hole.at[3] << 16 | (uint32_t)hole.at[4] << 8 | hole.at[5]),
       6 - (long long)size);
    is_bytes("zeros", hole.at + 6, zeros, size - 6);
    is_answer("no entries then", fevstunik_keytab_check(hole.at, size), FEVSTUNIK_OK, 0, 0, 0);
    is_answer("write without", fevstunik_keytab_write(hole.at, size, buffer, sizeof buffer), FEVSTUNIK_OK, 0, 0, 2);
    is_answer("write short", fevstunik_keytab_write(keytab.at, size, buffer, 0), FEVSTUNIK_SHORT_BUFFER, 0, 0, size);
    is_answer("write", fevstunik_keytab_write(keytab.at, size, buffer, sizeof buffer), FEVSTUNIK_OK, 0, 0, size);
    is_bytes("written", buffer, keytab.at, size);
    is_answer("write of none", fevstunik_keytab_write(keytab.at, 10, buffer, sizeof buffer), FEVSTUNIK_FILE_TRUNCATED, 0, 2, 0);
}

static fevstunik_answer added(const struct bytes *file, const char *name, const uint8_t *key, size_t key_size, size_t room)
{
    static const fevstunik_key_parts parts = {1700000000, 3, 3, 19};

    return fevstunik_keytab_add(file->at, file->size, (const uint8_t *)name, strlen(name), key, key_size, &parts, buffer, room);
}

/* An entry is put in: at the end, or in a hole. The fixture's file is made of its key again. */
static void additions(void)
{
    static uint8_t long_key[65536];
    struct bytes file = {{5, 2}, 2};
    const uint8_t *key = keytab.at + keytab.size - 20;

    is_answer("add", added(&file, "host/web@EX", key, 16, sizeof buffer), FEVSTUNIK_OK, 0, 0, keytab.size);
    is_bytes("the fixture's file", buffer, keytab.at, keytab.size);
    is_answer("add short", added(&file, "host/web@EX", key, 16, keytab.size - 1), FEVSTUNIK_SHORT_BUFFER, 0, 0, keytab.size);
    is_answer("add after", added(&keytab, "a@EX", key, 16, sizeof buffer), FEVSTUNIK_OK, 0, 0, keytab.size + 46);
    is_bytes("what was there", buffer, keytab.at, keytab.size);
    is_answer("two", fevstunik_keytab_check(buffer, keytab.size + 46), FEVSTUNIK_OK, 0, 0, ENTRIES + 1);
    is_answer("an empty realm", added(&file, "a@", key, 16, sizeof buffer), FEVSTUNIK_OK, 0, 0, 46);
    is_answer("add without a realm", added(&file, "a", key, 16, sizeof buffer), FEVSTUNIK_NO_REALM, 0, 0, 0);
    is_answer("add of bytes", added(&file, "\xff@EX", key, 16, sizeof buffer), FEVSTUNIK_NOT_UTF8, 0, 0, 0);
    is_answer("add of a bad name", added(&file, "a@b@c", key, 16, sizeof buffer), FEVSTUNIK_BAD_TEXT, 0, 3, 0);
    is_answer("add a long key", added(&file, "a@EX", long_key, 65536, sizeof buffer), FEVSTUNIK_TOO_LONG, 0, 0, 0);
    file.size = 1;
    is_answer("add to none", added(&file, "a@EX", key, 16, sizeof buffer), FEVSTUNIK_FILE_VERSION, 0, 0, 0);
    file = keytab;
    is_answer("a hole", fevstunik_keytab_remove(keytab.at, keytab.size, 0, file.at, sizeof file.at), FEVSTUNIK_OK, 0, 0, keytab.size);
    is_answer("add in a hole", added(&file, "a@EX", key, 16, sizeof buffer), FEVSTUNIK_OK, 0, 0, keytab.size);
    is_answer("one", fevstunik_keytab_check(buffer, keytab.size), FEVSTUNIK_OK, 0, 0, 1);
}

/* What the files have is told, one by one. */
static void listings(void)
{
    static const fevstunik_key_entry entry_wanted = {
        .name = {0, 11}, .key = {11, 16}, .timestamp = 1700000000, .kvno = 3, .name_type = 3, .key_type = 19};
    static const fevstunik_cache_entry credential_wanted = {
        .client = {0, 8}, .server = {8, 11}, .key = {19, 16}, .ticket = {35, 214}, .authtime = 1700000000, .endtime = 1700036000,
        .client_type = 1, .server_type = 3, .key_type = 19};
    static const fevstunik_owner owner_wanted = {.name = {0, 8}, .name_type = 1};
    fevstunik_key_entry entry;
    fevstunik_cache_entry credential;
    fevstunik_owner owner;
    size_t size;
    int i;

    is_answer("entry", entry_in(keytab.at, keytab.size, 0, &entry, buffer, 27), FEVSTUNIK_OK, 0, 0, 27);
    is_bytes("entry name", buffer, "host/web@EX", 11);
    is_bytes("entry key", buffer + 11, keytab.at + keytab.size - 20, 16);
    is_entry("entry", &entry, &entry_wanted);
    is_answer("entry short", entry_in(keytab.at, keytab.size, 0, &entry, buffer, 26), FEVSTUNIK_SHORT_BUFFER, 0, 0, 27);
    memset(&entry, 0x5a, sizeof entry);
    is_answer("past the last", entry_in(keytab.at, keytab.size, ENTRIES, &entry, buffer, 27), FEVSTUNIK_NO_SUCH_ENTRY, 0, 0, 0);
    is_answer("far past it", entry_in(keytab.at, keytab.size, FAR, &entry, buffer, 27), FEVSTUNIK_NO_SUCH_ENTRY, 0, 0, 0);
    is("the entry stays", entry.kvno == 0x5a5a5a5a && entry.name.size == FILLED && entry.key_type == 0x5a5a, 1);
    is_answer("entry of none", entry_in(keytab.at, 10, 0, &entry, buffer, 27), FEVSTUNIK_FILE_TRUNCATED, 0, 2, 0);
    size = 8 + 11 + 16 + 214;
    is_answer("credential", credential_in(cache.at, cache.size, 0, &credential, buffer, size), FEVSTUNIK_OK, 0, 0, size);
    is_bytes("names", buffer, "alice@EXhost/web@EX", 19);
    for (i = 0; i < 16; i++)
        is("session key", buffer[19 + i], i);
    is_bytes("ticket", buffer + 35, "\x61\x81\xd3", 3);
    is_credential("credential", &credential, &credential_wanted);
    is_answer("credential short", credential_in(cache.at, cache.size, 0, &credential, buffer, size - 1), FEVSTUNIK_SHORT_BUFFER,
              0, 0, size);
    memset(&credential, 0x5a, sizeof credential);
    is_answer("past the last", credential_in(cache.at, cache.size, 1, &credential, buffer, size), FEVSTUNIK_NO_SUCH_ENTRY, 0, 0, 0);
    is_answer("far past it", credential_in(cache.at, cache.size, FAR, &credential, buffer, size), FEVSTUNIK_NO_SUCH_ENTRY, 0, 0, 0);
    is("the credential stays", credential.flags == 0x5a5a5a5a && credential.client.size == FILLED && credential.key_type == 0x5a5a, 1);
    is_answer("of none", credential_in(cache.at, 3, 0, &credential, buffer, size), FEVSTUNIK_FILE_HEADER, 0, 0, 0);
    is_answer("owner", owner_in(cache.at, cache.size, &owner, buffer, 8), FEVSTUNIK_OK, 0, 0, 8);
    is_bytes("owner", buffer, "alice@EX", 8);
    is_owner("owner", &owner, &owner_wanted);
    is_answer("owner short", owner_in(cache.at, cache.size, &owner, buffer, 7), FEVSTUNIK_SHORT_BUFFER, 0, 0, 8);
    is_answer("owner of none", owner_in(cache.at, 1, &owner, buffer, 8), FEVSTUNIK_FILE_VERSION, 0, 0, 0);
}

/* What a handle keeps: a keytab is read once, and asked as often as one likes. */
static void kept_keytab(void)
{
    fevstunik_keytab keys = FEVSTUNIK_KEYTAB_INIT;
    fevstunik_key_entry entry;
    void *held;

    memset(&entry, 0x5a, sizeof entry);
    memset(buffer, 0xaa, 32);
    is_answer("of no keytab", fevstunik_keytab_entry(&keys, 0, &entry, buffer, sizeof buffer), FEVSTUNIK_EMPTY_HANDLE, 0, 0, 0);
    is("no entry is written", entry.kvno == 0x5a5a5a5a && buffer[0] == 0xaa, 1);
    is("it stays empty", keys.opaque == NULL, 1);
    fevstunik_keytab_free(&keys);
    is_answer("keytab", fevstunik_keytab_new(&keys, keytab.at, keytab.size), FEVSTUNIK_OK, 0, 0, ENTRIES);
    held = keys.opaque;
    is("it is kept", held != NULL, 1);
    is_answer("cut off", fevstunik_keytab_new(&keys, keytab.at, keytab.size - 1), FEVSTUNIK_FILE_TRUNCATED, 0, 2, 0);
    is_answer("of no version", fevstunik_keytab_new(&keys, NULL, 0), FEVSTUNIK_FILE_VERSION, 0, 0, 0);
    is("it stays", keys.opaque == held, 1);
    is_answer("its entry", fevstunik_keytab_entry(&keys, 0, &entry, buffer, sizeof buffer), FEVSTUNIK_OK, 0, 0, 27);
    is("its version", entry.kvno, 3);
    is_answer("the same again", fevstunik_keytab_entry(&keys, 0, &entry, buffer, sizeof buffer), FEVSTUNIK_OK, 0, 0, 27);
    is_answer("to no room", fevstunik_keytab_entry(&keys, 0, &entry, NULL, 0), FEVSTUNIK_SHORT_BUFFER, 0, 0, 27);
    is_answer("no other", fevstunik_keytab_entry(&keys, ENTRIES, &entry, buffer, sizeof buffer), FEVSTUNIK_NO_SUCH_ENTRY, 0, 0, 0);
    is_answer("a keytab of none", fevstunik_keytab_new(&keys, keytab.at, 2), FEVSTUNIK_OK, 0, 0, 0);
    is_answer("nothing in it", fevstunik_keytab_entry(&keys, 0, &entry, buffer, sizeof buffer), FEVSTUNIK_NO_SUCH_ENTRY, 0, 0, 0);
    fevstunik_keytab_free(&keys);
    is("it is freed", keys.opaque == NULL, 1);
    fevstunik_keytab_free(&keys);
}

/* An empty handle has no credentials and no owner. A cache that is kept has these as often as one likes. */
static void kept_cache(void)
{
    fevstunik_cache held = FEVSTUNIK_CACHE_INIT;
    fevstunik_cache_entry credential;
    fevstunik_owner owner;

    memset(&credential, 0x5a, sizeof credential);
    memset(&owner, 0x5a, sizeof owner);
    is_answer("of no cache", fevstunik_cache_credential(&held, 0, &credential, buffer, sizeof buffer), FEVSTUNIK_EMPTY_HANDLE, 0, 0, 0);
    is_answer("of no owner", fevstunik_cache_owner(&held, &owner, buffer, sizeof buffer), FEVSTUNIK_EMPTY_HANDLE, 0, 0, 0);
    is("nothing is written", credential.flags == 0x5a5a5a5a && owner.name_type == 0x5a5a5a5a && held.opaque == NULL, 1);
    is_answer("two credentials", fevstunik_cache_new(&held, two.at, two.size), FEVSTUNIK_OK, 0, 0, 2);
    is_answer("the second", fevstunik_cache_credential(&held, 1, &credential, buffer, sizeof buffer), FEVSTUNIK_OK, 0, 0, 8 + 11 + 16 + 214);
    is("its flags", credential.flags, 0x40610000);
    is_answer("the owner", fevstunik_cache_owner(&held, &owner, buffer, sizeof buffer), FEVSTUNIK_OK, 0, 0, 8);
    is("its offset", owner.offset_seconds, -2);
    is_answer("the first", fevstunik_cache_credential(&held, 0, &credential, NULL, 0), FEVSTUNIK_SHORT_BUFFER, 0, 0, 56);
    is_answer("no third", fevstunik_cache_credential(&held, 2, &credential, buffer, sizeof buffer), FEVSTUNIK_NO_SUCH_ENTRY, 0, 0, 0);
    fevstunik_cache_free(&held);
}

/* The second entry of a keytab is told, and taken out, and not the first. */
static void second_entry(void)
{
    static const uint8_t zeros[42];
    static const fevstunik_key_entry wanted = {
        .name = {0, 4}, .key = {4, 16}, .timestamp = 1700000000, .kvno = 3, .name_type = 3, .key_type = 19};
    struct bytes file;
    fevstunik_key_entry entry;
    const uint8_t *key = keytab.at + keytab.size - 20;
    uint8_t made[4096];

    file.size = keytab.size + 46;
    is_answer("two entries", added(&keytab, "a@EX", key, 16, sizeof buffer), FEVSTUNIK_OK, 0, 0, file.size);
    memcpy(file.at, buffer, file.size);
    is_answer("the second", entry_in(file.at, file.size, 1, &entry, buffer, sizeof buffer), FEVSTUNIK_OK, 0, 0, 20);
    is_bytes("its name", buffer, "a@EX", 4);
    is_bytes("its key", buffer + 4, key, 16);
    is_entry("the second", &entry, &wanted);
    is_answer("no third", entry_in(file.at, file.size, 2, &entry, buffer, sizeof buffer), FEVSTUNIK_NO_SUCH_ENTRY, 0, 0, 0);
    is_answer("remove it", fevstunik_keytab_remove(file.at, file.size, 1, made, sizeof made), FEVSTUNIK_OK, 0, 0, file.size);
    is_bytes("the first stays", made, file.at, keytab.size);
    is_bytes("the second's hole", made + keytab.size, "\xff\xff\xff\xd6", 4);
    is_bytes("its zeros", made + keytab.size + 4, zeros, sizeof zeros);
    is_answer("write without it", fevstunik_keytab_write(made, file.size, buffer, sizeof buffer), FEVSTUNIK_OK, 0, 0, keytab.size);
    is_bytes("the first alone", buffer, keytab.at, keytab.size);
}

/* A cache of two credentials, whose first is a configuration entry, with the KDC's offset. */
static void second_credential(void)
{
    static const char names[] = "alice@EXkrb5_ccache_conf_data/fast_avail@X-CACHECONF:yes";
    static const fevstunik_owner owner_wanted = {.name = {0, 8}, .name_type = 1, .offset_seconds = -2, .offset_micros = 7, .has_offset = true};
    static const fevstunik_cache_entry first_wanted = {
        .client = {0, 8}, .server = {8, sizeof names - 12}, .key = {sizeof names - 4, 0}, .ticket = {sizeof names - 4, 3}, .client_type = 1};
    static const fevstunik_cache_entry second_wanted = {
        .client = {0, 8}, .server = {8, 11}, .key = {19, 16}, .ticket = {35, 214}, .authtime = 1700000000, .starttime = 1700000001,
        .endtime = 1700036000, .renew_till = 1700600000, .flags = 0x40610000, .client_type = 1, .server_type = 3, .key_type = 19,
        .is_skey = true};
    fevstunik_cache_entry credential;
    fevstunik_owner owner;
    size_t size = 8 + 11 + 16 + 214;

    is_answer("two credentials", fevstunik_cache_check(two.at, two.size), FEVSTUNIK_OK, 0, 0, 2);
    is_answer("the owner", owner_in(two.at, two.size, &owner, buffer, sizeof buffer), FEVSTUNIK_OK, 0, 0, 8);
    is_bytes("its name", buffer, "alice@EX", 8);
    is_owner("the owner", &owner, &owner_wanted);
    is_answer("the first", credential_in(two.at, two.size, 0, &credential, buffer, sizeof buffer), FEVSTUNIK_OK, 0, 0,
              sizeof names - 1);
    is_bytes("what it tells", buffer, names, sizeof names - 1);
    is_credential("the first", &credential, &first_wanted);
    is_answer("the second", credential_in(two.at, two.size, 1, &credential, buffer, sizeof buffer), FEVSTUNIK_OK, 0, 0, size);
    is_bytes("its names", buffer, "alice@EXhost/web@EX", 19);
    is_bytes("its ticket", buffer + 35, "\x61\x81\xd3", 3);
    is_credential("the second", &credential, &second_wanted);
    is_answer("no third", credential_in(two.at, two.size, 2, &credential, buffer, sizeof buffer), FEVSTUNIK_NO_SUCH_ENTRY, 0, 0, 0);
}

/* The client's subkey and number are reported. */
static void keyed_client(void)
{
    fevstunik_acceptor service = FEVSTUNIK_ACCEPTOR_INIT;
    fevstunik_time now = moment(1700000100, 5);
    fevstunik_known known, wanted = fixture_known;
    size_t i;

    wanted.subkey.size = 32;
    wanted.subkey_type = 20;
    wanted.service.at = 24 + 32;
    wanted.seq = 4294967295;
    wanted.has_subkey = wanted.has_seq = wanted.wants_reply = true;
    is_answer("new", first_life(&service, keytab.at, keytab.size, 0, EACH_NAME), FEVSTUNIK_OK, 0, 0, 0);
    is_answer("keyed", fevstunik_acceptor_accept(&service, &accepted, keyed.at, keyed.size, &now), FEVSTUNIK_OK, 0, 0, 0);
    is_answer("told", fevstunik_accepted_known(&accepted, &known, buffer, sizeof buffer), FEVSTUNIK_OK, 0, 0, 67);
    is_known("keyed", &known, &wanted);
    for (i = 0; i < 32; i++)
        is("byte", buffer[24 + i], (long long)(0x20 + i));
    is_bytes("service", buffer + 56, "host/web@EX", 11);
    fevstunik_acceptor_free(&service);
}

static fevstunik_answer item(uint32_t list, size_t index, int32_t *kind, size_t room)
{
    memset(buffer, 0xaa, sizeof buffer);
    *kind = 77;
    return fevstunik_accepted_item(&accepted, list, index, kind, buffer, room);
}

/* An item is handed out with room for it, and its type alone with a byte less. */
static void is_item(const char *what, uint32_t list, size_t index, int32_t kind, const void *bytes, size_t size)
{
    int32_t found;

    is_answer(what, item(list, index, &found, size), FEVSTUNIK_OK, 0, 0, size);
    is(what, found, kind);
    is_bytes(what, buffer, bytes, size);
    is("after it", buffer[size], 0xaa);
    if (size == 0)
        return;
    is_answer(what, item(list, index, &found, size - 1), FEVSTUNIK_SHORT_BUFFER, 0, 0, size);
    is(what, found, kind);
    is("not written", buffer[0], 0xaa);
}

static void is_no_item(const char *what, uint32_t list, size_t index, unsigned code)
{
    int32_t kind;

    is_answer(what, item(list, index, &kind, sizeof buffer), code, 0, 0, 0);
    is("no type", kind, 77);
    is("no byte", buffer[0], 0xaa);
}

/* How many items each list has; -1 if it isn't there. The realms between are always there. */
static void are_counted(long long addresses, long long ticket, long long authenticator, long long checksum)
{
    const long long wanted[] = {-1, addresses, ticket, authenticator, checksum, 1, -1};
    uint32_t list;

    for (list = 0; list < 7; list++)
        if (wanted[list] < 0) {
            is_answer("no list", fevstunik_accepted_count(&accepted, list), FEVSTUNIK_NO_SUCH_ENTRY, 0, 0, 0);
            is_no_item("no list's item", list, 0, FEVSTUNIK_NO_SUCH_ENTRY);
        } else {
            is_answer("a list", fevstunik_accepted_count(&accepted, list), FEVSTUNIK_OK, 0, 0, (size_t)wanted[list]);
            is_no_item("the item after the last", list, (size_t)wanted[list], FEVSTUNIK_NO_SUCH_ENTRY);
            is_no_item("an item far on", list, FAR, FEVSTUNIK_NO_SUCH_ENTRY);
        }
}

/* Addresses, authorization data and the checksum are handed out item by item. */
static void lists(void)
{
    static const uint8_t near[] = {192, 0, 2, 1};
    uint8_t sum[16], far[16];
    fevstunik_accepted none = FEVSTUNIK_ACCEPTED_INIT;
    fevstunik_acceptor service = FEVSTUNIK_ACCEPTOR_INIT;
    fevstunik_time now = moment(1700000100, 5);
    int32_t kind = 77;
    size_t i;

    for (i = 0; i < 16; i++) {
        sum[i] = (uint8_t)(0x50 + i);
        far[i] = (uint8_t)(0xf0 + i);
    }
    is_answer("count of none", fevstunik_accepted_count(&none, FEVSTUNIK_LIST_CHECKSUM), FEVSTUNIK_EMPTY_HANDLE, 0, 0, 0);
    is_answer("item of none", fevstunik_accepted_item(&none, FEVSTUNIK_LIST_CHECKSUM, 0, &kind, buffer, sizeof buffer),
              FEVSTUNIK_EMPTY_HANDLE, 0, 0, 0);
    is("no type", kind, 77);
    is_answer("ready", fevstunik_accepted_new(&accepted), FEVSTUNIK_OK, 0, 0, 0);
    is_answer("nothing counted", fevstunik_accepted_count(&accepted, FEVSTUNIK_LIST_CHECKSUM), FEVSTUNIK_NOTHING_THERE, 0, 0, 0);
    is_no_item("nothing there", FEVSTUNIK_LIST_CHECKSUM, 0, FEVSTUNIK_NOTHING_THERE);
    is_answer("new", first_life(&service, keytab.at, keytab.size, 300, EACH_NAME), FEVSTUNIK_OK, 0, 0, 0);
    is_answer("accept", fevstunik_acceptor_accept(&service, &accepted, listed.at, listed.size, &now), FEVSTUNIK_OK, 0, 0, 0);
    are_counted(2, 3, 1, 1);
    is_item("an address", FEVSTUNIK_LIST_ADDRESSES, 0, 2, near, 4);
    is_item("another", FEVSTUNIK_LIST_ADDRESSES, 1, 24, far, 16);
    is_item("the ticket's first", FEVSTUNIK_LIST_TICKET_AUTHORIZATION, 0, 1, "first", 5);
    is_item("of no bytes", FEVSTUNIK_LIST_TICKET_AUTHORIZATION, 1, 1, "", 0);
    is_item("the third", FEVSTUNIK_LIST_TICKET_AUTHORIZATION, 2, 1, "the third", 9);
    is_item("the authenticator's", FEVSTUNIK_LIST_AUTHENTICATOR_AUTHORIZATION, 0, 1, "alone", 5);
    is_item("the checksum", FEVSTUNIK_LIST_CHECKSUM, 0, -138, sum, 16);
    is_item("the realms between", FEVSTUNIK_LIST_TRANSITED, 0, 1, "EDU,MIT.", 8);
    is_answer("new again", first_life(&service, keytab.at, keytab.size, 300, EACH_NAME), FEVSTUNIK_OK, 0, 0, 0);
    is_answer("accept one without", fevstunik_acceptor_accept(&service, &accepted, request.at, request.size, &now), FEVSTUNIK_OK, 0, 0, 0);
    are_counted(-1, -1, -1, -1);
    is_item("no realms between", FEVSTUNIK_LIST_TRANSITED, 0, 1, "", 0);
    fevstunik_acceptor_free(&service);
}

/* The service is told as the ticket names it: one that the keytab has beside the fixture's, of another name type, and with a slash in a part. */
static void another_service(void)
{
    fevstunik_acceptor service = FEVSTUNIK_ACCEPTOR_INIT;
    fevstunik_time now = moment(1700000100, 5);
    fevstunik_answer both = added(&keytab, "a\\/b@EX", keytab.at + keytab.size - 20, 16, sizeof buffer);
    fevstunik_known known, wanted = fixture_known;

    wanted.service.size = 7;
    wanted.service_type = -3;
    wanted.name_type = -7;
    wanted.flags = 0x40610000;
    wanted.has_seq = true;
    is("two keys", both.code, FEVSTUNIK_OK);
    is_answer("new", first_life(&service, buffer, both.size, 300, EACH_NAME), FEVSTUNIK_OK, 0, 0, 0);
    is_answer("accept", fevstunik_acceptor_accept(&service, &accepted, other.at, other.size, &now), FEVSTUNIK_OK, 0, 0, 0);
    is_answer("told", fevstunik_accepted_known(&accepted, &known, buffer, sizeof buffer), FEVSTUNIK_OK, 0, 0, 31);
    is_known("another service", &known, &wanted);
    is_bytes("service", buffer + 24, "a\\/b@EX", 7);
    is_answer("the fixture's", fevstunik_acceptor_accept(&service, &accepted, request.at, request.size, &now), FEVSTUNIK_OK, 0, 0, 0);
    is_answer("told then", fevstunik_accepted_known(&accepted, &known, buffer, sizeof buffer), FEVSTUNIK_OK, 0, 0, 35);
    is_bytes("its service", buffer + known.service.at, "host/web@EX", 11);
    is("its type", known.service_type, 3);
    fevstunik_acceptor_free(&service);
}

/* A text of RFC 8009's profile: sealed, opened, and its tag (the values are of the fixture's key and of a confounder of zeros). */
static void texts(void)
{
    static const uint8_t key[] = {0x37, 0x05, 0xd9, 0x60, 0x80, 0xc1, 0x77, 0x28, 0xa0, 0xe8, 0x00, 0xea, 0xb6, 0xe0, 0xd2, 0x3c};
    static const uint8_t confounder[] = {0x7e, 0x58, 0x95, 0xea, 0xf2, 0x67, 0x24, 0x35, 0xba, 0xd8, 0x17, 0xf5, 0x45, 0xa3, 0x71, 0x48};
    struct bytes empty;
    uint8_t sealed[64], tag[24];

    from_hex(&empty, "ef85fb890bb8472f4dab20394dca781dad877eda39d50c870c0d5a0a8e48c718");
    is_answer("seal", fevstunik_seal(19, key, 16, 2, confounder, 16, key, 0, sealed, sizeof sealed), FEVSTUNIK_OK, 0, 0, 32);
    is_bytes("sealed", sealed, empty.at, 32);
    is_answer("seal short", fevstunik_seal(19, key, 16, 2, confounder, 16, key, 0, sealed, 31), FEVSTUNIK_SHORT_BUFFER, 0, 0, 32);
    is_answer("seal type", fevstunik_seal(18, key, 16, 2, confounder, 16, key, 0, sealed, 64), FEVSTUNIK_KEY_TYPE, 0, 0, 0);
    is_answer("seal length", fevstunik_seal(20, key, 16, 2, confounder, 16, key, 0, sealed, 64), FEVSTUNIK_KEY_LENGTH, 0, 0, 0);
    is_answer("seal confounder", fevstunik_seal(19, key, 16, 2, confounder, 15, key, 0, sealed, 64), FEVSTUNIK_BAD_CONFOUNDER, 0, 0, 0);
    is_answer("seal text", fevstunik_seal(19, key, 16, 2, confounder, 16, key, 5, sealed, sizeof sealed), FEVSTUNIK_OK, 0, 0, 37);
    is_answer("open", fevstunik_open(19, key, 16, 2, sealed, 37, buffer, 5), FEVSTUNIK_OK, 0, 0, 5);
    is_bytes("opened", buffer, key, 5);
    is_answer("open short", fevstunik_open(19, key, 16, 2, sealed, 37, buffer, 4), FEVSTUNIK_SHORT_BUFFER, 0, 0, 5);
    is_answer("another usage", fevstunik_open(19, key, 16, 3, sealed, 37, buffer, 5), FEVSTUNIK_TEXT_INTEGRITY, 0, 0, 0);
    is_answer("short text", fevstunik_open(19, key, 16, 2, sealed, 31, buffer, 5), FEVSTUNIK_TEXT_SHORT, 0, 0, 0);
    is_answer("open type", fevstunik_open(0, key, 16, 2, sealed, 37, buffer, 5), FEVSTUNIK_KEY_TYPE, 0, 0, 0);
    is_answer("tag", fevstunik_checksum(19, key, 16, 6, key, 5, tag, sizeof tag), FEVSTUNIK_OK, 0, 0, 16);
    is_answer("tag short", fevstunik_checksum(19, key, 16, 6, key, 5, tag, 15), FEVSTUNIK_SHORT_BUFFER, 0, 0, 16);
    is_answer("tag type", fevstunik_checksum(21, key, 16, 6, key, 5, tag, sizeof tag), FEVSTUNIK_KEY_TYPE, 0, 0, 0);
    is_answer("its tag", fevstunik_checksum_check(19, key, 16, 6, key, 5, tag, 16), FEVSTUNIK_OK, 0, 0, 0);
    is_answer("less of it", fevstunik_checksum_check(19, key, 16, 6, key, 5, tag, 15), FEVSTUNIK_TEXT_INTEGRITY, 0, 0, 0);
    is_answer("of another", fevstunik_checksum_check(19, key, 16, 6, key, 6, tag, 16), FEVSTUNIK_TEXT_INTEGRITY, 0, 0, 0);
    is_answer("no key", fevstunik_checksum_check(19, key, 15, 6, key, 5, tag, 16), FEVSTUNIK_KEY_LENGTH, 0, 0, 0);
}

static fevstunik_answer asked(const char *service, fevstunik_time at, size_t confounder_size, int32_t type, size_t room)
{
    uint8_t confounder[17], subkey[32];
    fevstunik_choice choice = nothing;

    count_from(0x20, confounder, sizeof confounder);
    count_from(0x20, subkey, sizeof subkey);
    choice.subkey_type = type;
    choice.wants_reply = choice.has_seq = type != 0;
    choice.seq = 4294967295;
    return fevstunik_request(&credentials, &pending, (const uint8_t *)service, strlen(service), &at, confounder, confounder_size, &choice,
                             subkey, sizeof subkey, buffer, room);
}

/* The credential's end, and a second after the last that a moment may have. */
#define EXPIRED 1700036000
#define NO_MOMENT 253402300800

/* A request that is refused: why, at which place in the service's name, and how it differs from the fixture's, unless by 0. */
struct refused {
    const char *what;
    unsigned code;
    size_t at;
    const char *service;
    int64_t seconds;
    size_t confounder_size;
    int32_t type;
};

static void are_refused(const struct refused *cases, size_t count)
{
    const struct refused *it;

    for (it = cases; it < cases + count; it++)
        is_answer(it->what,
                  asked(it->service ? it->service : "host/web@EX", it->seconds ? moment(it->seconds, 0) : moment(1700000100, 5),
                        it->confounder_size ? it->confounder_size : 16, it->type, sizeof buffer),
                  it->code, 0, it->at, 0);
}

/* The requests are those of the fixture, to the byte; what isn't asked for says why. */
static void requests(void)
{
    static const struct refused cases[] = {
        {"another service", FEVSTUNIK_NO_CREDENTIAL, .service = "host/web@EY"},
        {"no realm", FEVSTUNIK_NO_REALM, .service = "host/web"},
        {"bad text", FEVSTUNIK_BAD_TEXT, 3, .service = "a@b@c"},
        {"not UTF-8", FEVSTUNIK_NOT_UTF8, .service = "\xff@EX"},
        {"confounder", FEVSTUNIK_BAD_CONFOUNDER, .confounder_size = 15},
        {"length", FEVSTUNIK_KEY_LENGTH, .type = 19},
        {"type", FEVSTUNIK_KEY_TYPE, .type = 1},
        {"expired", FEVSTUNIK_CREDENTIAL_EXPIRED, .seconds = EXPIRED},
        {"moment", FEVSTUNIK_BAD_MOMENT, .seconds = NO_MOMENT},
    };
    fevstunik_time at = moment(1700000100, 5);

    is_answer("request", asked("host/web@EX", at, 16, 0, sizeof buffer), FEVSTUNIK_OK, 0, 0, request.size);
    is_bytes("request", buffer, request.at, request.size);
    is_answer("keyed request", asked("host/web@EX", at, 16, 20, sizeof buffer), FEVSTUNIK_OK, 0, 0, keyed.size);
    is_bytes("keyed request", buffer, keyed.at, keyed.size);
    is_answer("short request", asked("host/web@EX", at, 16, 0, request.size - 1), FEVSTUNIK_SHORT_BUFFER, 0, 0, request.size);
    are_refused(cases, sizeof cases / sizeof *cases);
    is_answer("cut off", fevstunik_cache_new(&credentials, cache.at, cache.size - 1), FEVSTUNIK_FILE_BAD_ITEM, 0, CREDENTIAL_AT, 0);
    is_answer("version", fevstunik_cache_new(&credentials, cache.at + 1, cache.size - 1), FEVSTUNIK_FILE_VERSION, 0, 0, 0);
    is_answer("the cache stays", asked("host/web@EX", at, 16, 0, sizeof buffer), FEVSTUNIK_OK, 0, 0, request.size);
    is_answer("a cache of none", fevstunik_cache_new(&credentials, cache.at, CREDENTIAL_AT), FEVSTUNIK_OK, 0, 0, 0);
    is_answer("no credential", asked("host/web@EX", at, 16, 0, sizeof buffer), FEVSTUNIK_NO_CREDENTIAL, 0, 0, 0);
    is_answer("the cache", fevstunik_cache_new(&credentials, cache.at, cache.size), FEVSTUNIK_OK, 0, 0, 1);
}

/* The flags that a service reads in a request that asks for a reply, or doesn't, and has these flags in its context. */
static uint32_t flags_read(fevstunik_acceptor *service, fevstunik_time at, bool wants_reply, uint32_t flags)
{
    fevstunik_choice choice = {0, 7, true, wants_reply};
    fevstunik_context_choice wanted = {flags, {0}};
    fevstunik_accepted accepted = FEVSTUNIK_ACCEPTED_INIT;
    fevstunik_known known;
    fevstunik_context found = {0};
    uint8_t confounder[16] = {2}, checksum[32], parts[16];
    fevstunik_answer answer;
    int32_t kind = 0;

    answer = fevstunik_context_request(&credentials, &pending, WEB, &at, confounder, 16, &choice, confounder, 0, &wanted, buffer, sizeof buffer);
    is("with flags", answer.code, FEVSTUNIK_OK);
    is_answer("ready", fevstunik_accepted_new(&accepted), FEVSTUNIK_OK, 0, 0, 0);
    is_answer("accepted", fevstunik_acceptor_accept(service, &accepted, buffer, answer.size, &at), FEVSTUNIK_OK, 0, 0, 0);
    is("known", fevstunik_accepted_known(&accepted, &known, buffer, sizeof buffer).code, FEVSTUNIK_OK);
    is("a reply", known.wants_reply, wants_reply);
    is_answer("checksum", fevstunik_accepted_item(&accepted, FEVSTUNIK_LIST_CHECKSUM, 0, &kind, checksum, sizeof checksum), FEVSTUNIK_OK, 0,
              0, 24);
    is_answer("context", fevstunik_context_read(checksum, 24, &found, parts, sizeof parts), FEVSTUNIK_OK, 0, 0, 16);
    fevstunik_accepted_free(&accepted);
    return found.flags;
}

/* What a client of GSS-API asks for is what the service reads. The flag of delegation isn't set, and that of a reply is the request's. */
static void contexts(void)
{
    fevstunik_time at = moment(1700000100, 777);
    fevstunik_choice choice = {0, 4294967295, true, true};
    fevstunik_context_choice wanted = {0xffffffff, {0}};
    fevstunik_acceptor service = FEVSTUNIK_ACCEPTOR_INIT;
    fevstunik_accepted accepted = FEVSTUNIK_ACCEPTED_INIT;
    fevstunik_context found;
    uint8_t confounder[16] = {1}, checksum[32], parts[16];
    fevstunik_answer answer;
    int32_t kind = 0;
    size_t i;

    for (i = 0; i < 16; i++)
        wanted.bindings[i] = (uint8_t)(0xf0 + i);
    is_answer("context of no cache", fevstunik_context_request(&(fevstunik_cache)FEVSTUNIK_CACHE_INIT, &pending, WEB, &at, confounder, 16, &choice,
                                                               confounder, 0, &wanted, buffer, sizeof buffer), FEVSTUNIK_EMPTY_HANDLE, 0, 0, 0);
    is_answer("confounder in a context", fevstunik_context_request(&credentials, &pending, WEB, &at, confounder, 15, &choice, confounder, 0,
                                                                   &wanted, buffer, sizeof buffer), FEVSTUNIK_BAD_CONFOUNDER, 0, 0, 0);
    answer = fevstunik_context_request(&credentials, &pending, WEB, &at, confounder, 16, &choice, confounder, 0, &wanted, buffer, 0);
    is("short", answer.code, FEVSTUNIK_SHORT_BUFFER);
    answer = fevstunik_context_request(&credentials, &pending, WEB, &at, confounder, 16, &choice, confounder, 0, &wanted, buffer, sizeof buffer);
    is("in a context", answer.code, FEVSTUNIK_OK);
    is_answer("service", first_life(&service, keytab.at, keytab.size, 300, WEB), FEVSTUNIK_OK, 0, 0, 0);
    is_answer("ready", fevstunik_accepted_new(&accepted), FEVSTUNIK_OK, 0, 0, 0);
    is_answer("accepted", fevstunik_acceptor_accept(&service, &accepted, buffer, answer.size, &at), FEVSTUNIK_OK, 0, 0, 0);
    is_answer("checksum", fevstunik_accepted_item(&accepted, FEVSTUNIK_LIST_CHECKSUM, 0, &kind, checksum, sizeof checksum), FEVSTUNIK_OK, 0,
              0, 24);
    is("its type", kind, 0x8003);
    is_answer("context", fevstunik_context_read(checksum, 24, &found, parts, sizeof parts), FEVSTUNIK_OK, 0, 0, 16);
    is("flags", found.flags, 0xfffffffe);
    is("no delegation", found.has_delegation, 0);
    is_bytes("bindings", parts, wanted.bindings, 16);
    is("a reply without its flag", flags_read(&service, moment(1700000100, 778), true, 0), 2);
    is("a reply with the flag of none", flags_read(&service, moment(1700000100, 779), true, 0x3c), 0x3e);
    is("no reply with its flag", flags_read(&service, moment(1700000100, 780), false, 2), 0);
    is("no reply with each flag", flags_read(&service, moment(1700000100, 781), false, 0xffffffff), 0xfffffffc);
    fevstunik_accepted_free(&accepted);
    fevstunik_acceptor_free(&service);
}

/* Handles of the client's side that are empty answer so, and stay so; what is awaited stays where there is no request. */
static void empty_askings(void)
{
    static const uint8_t confounder[16];
    fevstunik_cache none = FEVSTUNIK_CACHE_INIT;
    fevstunik_pending nobody = FEVSTUNIK_PENDING_INIT;
    fevstunik_time at = moment(1700000100, 5);
    fevstunik_agreement told;

    memset(buffer, 0xaa, sizeof buffer);
    is_answer("of no cache", fevstunik_request(&none, &nobody, WEB, &at, confounder, 16, &nothing, confounder, 0, buffer, sizeof buffer),
              FEVSTUNIK_EMPTY_HANDLE, 0, 0, 0);
    is("nothing is awaited", none.opaque == NULL && nobody.opaque == NULL, 1);
    is_answer("finish of none", fevstunik_finish(&nobody, reply.at, reply.size, &told, buffer, sizeof buffer), FEVSTUNIK_EMPTY_HANDLE, 0, 0, 0);
    is("not written", buffer[0], 0xaa);
    is_answer("no realm", fevstunik_request(&credentials, &nobody, confounder, 0, &at, confounder, 16, &nothing, confounder, 0, buffer,
                                            sizeof buffer), FEVSTUNIK_NO_REALM, 0, 0, 0);
    is("nothing is awaited yet", nobody.opaque == NULL, 1);
    is_answer("short", fevstunik_request(&credentials, &nobody, WEB, &at, confounder, 16, &nothing, confounder, 0, buffer, 0),
              FEVSTUNIK_SHORT_BUFFER, 0, 0, request.size);
    is_answer("awaited", fevstunik_finish(&nobody, reply.at, reply.size, &told, buffer, sizeof buffer), FEVSTUNIK_OK, 0, 0, 24);
    is_answer("no realm again", fevstunik_request(&credentials, &nobody, confounder, 0, &at, confounder, 16, &nothing, confounder, 0, buffer,
                                                  sizeof buffer), FEVSTUNIK_NO_REALM, 0, 0, 0);
    is_answer("awaited still", fevstunik_finish(&nobody, reply.at, reply.size, &told, buffer, sizeof buffer), FEVSTUNIK_OK, 0, 0, 24);
    fevstunik_pending_free(&nobody);
    fevstunik_pending_free(&nobody);
    is("freed", nobody.opaque == NULL, 1);
    fevstunik_cache_free(&none);
    is("free of none", none.opaque == NULL, 1);
}

static fevstunik_answer finished(const struct bytes *bytes, fevstunik_agreement *agreement, size_t room)
{
    return fevstunik_finish(&pending, bytes->at, bytes->size, agreement, buffer, room);
}

/* And so is that of a reply. */
static void negative_answer(void)
{
    fevstunik_agreement told;

    is_answer("ask", asked("host/web@EX", moment(1700000100, 5), 16, 0, sizeof buffer), FEVSTUNIK_OK, 0, 0, request.size);
    is("finish", finished(&negative_reply, &told, sizeof buffer).code, FEVSTUNIK_OK);
    is("a number", told.has_service_seq, 1);
    is("the number", told.service_seq, 2147483648);
}

/* What is agreed on by the fixture's replies, and why others are refused. */
static void agreements(void)
{
    static const fevstunik_agreement plain = {
        .client = {0, 8}, .session_key = {8, 16}, .service_subkey = {24, 0}, .name_type = 1, .session_type = 19};
    static const fevstunik_agreement with_subkey = {
        .client = {0, 8}, .session_key = {8, 16}, .service_subkey = {24, 16}, .service_seq = 128, .name_type = 1, .session_type = 19,
        .service_subkey_type = 19, .has_service_subkey = true, .has_service_seq = true};
    fevstunik_agreement told;
    struct bytes none;
    size_t i;

    is_answer("ask", asked("host/web@EX", moment(1700000100, 5), 16, 0, sizeof buffer), FEVSTUNIK_OK, 0, 0, request.size);
    is_answer("finish", finished(&reply, &told, sizeof buffer), FEVSTUNIK_OK, 0, 0, 24);
    is_agreement("finish", &told, &plain);
    is_bytes("client", buffer, "alice@EX", 8);
    for (i = 0; i < 16; i++)
        is("key", buffer[8 + i], (long long)i);
    is_answer("finish short", finished(&keyed_reply, &told, 39), FEVSTUNIK_SHORT_BUFFER, 0, 0, 40);
    is_answer("finish keyed", finished(&keyed_reply, &told, 40), FEVSTUNIK_OK, 0, 0, 40);
    is_agreement("finish keyed", &told, &with_subkey);
    for (i = 0; i < 16; i++)
        is("subkey", buffer[24 + i], (long long)(0x40 + i));
    memset(&told, 0x5a, sizeof told);
    is_answer("a request", finished(&request, &told, sizeof buffer), FEVSTUNIK_REPLY_TYPE, 0, 0, 0);
    is("the agreement stays", told.service_seq == 0x5a5a5a5a && told.client.size == FILLED && told.session_type == 0x5a5a5a5a, 1);
    none = reply;
    none.size = 1;
    is_answer("one byte", finished(&none, &told, sizeof buffer), FEVSTUNIK_REPLY_MALFORMED, 0, 1, 0);
    none = reply;
    none.at[none.size - 1] ^= 1;
    is_answer("bent", finished(&none, &told, sizeof buffer), FEVSTUNIK_REPLY_INTEGRITY, 0, 0, 0);
    is_answer("ask later", asked("host/web@EX", moment(1700000100, 6), 16, 0, sizeof buffer), FEVSTUNIK_OK, 0, 0, request.size);
    is_answer("mismatch", finished(&reply, &told, sizeof buffer), FEVSTUNIK_REPLY_MISMATCH, 46, 0, 0);
}

/* Files are looked at, and their entries counted. */
static void files(void)
{
    is_answer("keytab", fevstunik_keytab_check(keytab.at, keytab.size), FEVSTUNIK_OK, 0, 0, ENTRIES);
    is_answer("keytab cut off", fevstunik_keytab_check(keytab.at, 10), FEVSTUNIK_FILE_TRUNCATED, 0, 2, 0);
    is_answer("a cache as a keytab", fevstunik_keytab_check(cache.at, cache.size), FEVSTUNIK_FILE_VERSION, 0, 0, 0);
    is_answer("no entries", fevstunik_keytab_check(keytab.at, 2), FEVSTUNIK_OK, 0, 0, 0);
    is_answer("cache", fevstunik_cache_check(cache.at, cache.size), FEVSTUNIK_OK, 0, 0, 1);
    is_answer("no credentials", fevstunik_cache_check(cache.at, CREDENTIAL_AT), FEVSTUNIK_OK, 0, 0, 0);
    is_answer("cache cut off", fevstunik_cache_check(cache.at, cache.size - 1), FEVSTUNIK_FILE_BAD_ITEM, 0, CREDENTIAL_AT, 0);
    is_answer("no header", fevstunik_cache_check(cache.at, 3), FEVSTUNIK_FILE_HEADER, 0, 0, 0);
    is_answer("a keytab as a cache", fevstunik_cache_check(keytab.at, keytab.size), FEVSTUNIK_FILE_VERSION, 0, 0, 0);
}

/* Of two faults at once the first in the order of the header is told. */
static void two_faults_of_requests(void)
{
    static const struct refused cases[] = {
        {"name and moment", FEVSTUNIK_BAD_TEXT, 3, .service = "a@b@c", .seconds = NO_MOMENT},
        {"bytes and moment", FEVSTUNIK_NOT_UTF8, .service = "\xff@b@c", .seconds = NO_MOMENT},
        {"name and confounder", FEVSTUNIK_NO_REALM, .service = "host/web", .confounder_size = 15},
        {"moment and confounder", FEVSTUNIK_BAD_MOMENT, .seconds = NO_MOMENT, .confounder_size = 15},
        {"moment and type", FEVSTUNIK_BAD_MOMENT, .seconds = NO_MOMENT, .type = 1},
        {"confounder and type", FEVSTUNIK_BAD_CONFOUNDER, .confounder_size = 15, .type = 1},
        {"confounder and service", FEVSTUNIK_BAD_CONFOUNDER, .service = "host/web@EY", .confounder_size = 15},
        {"type and service", FEVSTUNIK_KEY_TYPE, .service = "host/web@EY", .type = 1},
        {"length and end", FEVSTUNIK_KEY_LENGTH, .seconds = EXPIRED, .type = 19},
        {"service and end", FEVSTUNIK_NO_CREDENTIAL, .service = "host/web@EY", .seconds = EXPIRED},
    };

    are_refused(cases, sizeof cases / sizeof *cases);
}

/* So are those of texts that are sealed and opened, of replies and errors, and of keytabs. */
static void two_faults(void)
{
    static const uint8_t key[17] = {0};
    static uint8_t long_key[65536];
    struct bytes none = {{0}, 1};
    fevstunik_acceptor service = FEVSTUNIK_ACCEPTOR_INIT;
    fevstunik_time now = moment(1700000100, 7), bad = moment(0, 1000000);

    is_answer("seal type and confounder", fevstunik_seal(17, key, 16, 2, key, 15, key, 0, buffer, 64), FEVSTUNIK_KEY_TYPE, 0, 0, 0);
    is_answer("seal length and confounder", fevstunik_seal(19, key, 17, 2, key, 15, key, 0, buffer, 64), FEVSTUNIK_KEY_LENGTH, 0, 0, 0);
    is_answer("open type and short", fevstunik_open(17, key, 16, 2, key, 3, buffer, 64), FEVSTUNIK_KEY_TYPE, 0, 0, 0);
    is_answer("open length and tag", fevstunik_open(20, key, 16, 2, long_key, 64, buffer, 64), FEVSTUNIK_KEY_LENGTH, 0, 0, 0);
    is_answer("open short and tag", fevstunik_open(19, key, 16, 2, key, 16, buffer, 64), FEVSTUNIK_TEXT_SHORT, 0, 0, 0);
    is_answer("tag type and tag", fevstunik_checksum_check(17, key, 16, 2, key, 3, key, 16), FEVSTUNIK_KEY_TYPE, 0, 0, 0);
    is_answer("tag length and tag", fevstunik_checksum_check(20, key, 16, 2, key, 3, key, 16), FEVSTUNIK_KEY_LENGTH, 0, 0, 0);
    is_answer("skew and keytab", first_life(&service, none.at, none.size, 86401, EACH_NAME), FEVSTUNIK_BAD_SKEW, 0, 0, 0);
    is_answer("new", first_life(&service, keytab.at, keytab.size, 300, EACH_NAME), FEVSTUNIK_OK, 0, 0, 0);
    is_answer("nothing and name", error_of(&service, "host/web", now, sizeof buffer), FEVSTUNIK_NOTHING_THERE, 0, 0, 0);
    is_answer("accept", fevstunik_acceptor_accept(&service, &accepted, request.at, request.size, &now), FEVSTUNIK_OK, 0, 0, 0);
    is_answer("reply confounder and type", reply_of(17, 17, 32, sizeof buffer), FEVSTUNIK_BAD_CONFOUNDER, 0, 0, 0);
    is_answer("reply confounder and length", reply_of(15, 20, 16, sizeof buffer), FEVSTUNIK_BAD_CONFOUNDER, 0, 0, 0);
    is_answer("repeat", fevstunik_acceptor_accept(&service, &accepted, request.at, request.size, &now), FEVSTUNIK_REPEAT, 34, 0, 0);
    is_answer("error name and moment", error_of(&service, "host/web", bad, sizeof buffer), FEVSTUNIK_NO_REALM, 0, 0, 0);
    is_answer("error bytes and moment", error_of(&service, "\xff@EX", bad, sizeof buffer), FEVSTUNIK_NOT_UTF8, 0, 0, 0);
    fevstunik_acceptor_free(&service);
    is_answer("add name and key", added(&none, "a", long_key, 65536, sizeof buffer), FEVSTUNIK_NO_REALM, 0, 0, 0);
    is_answer("add key and keytab", added(&none, "a@EX", long_key, 65536, sizeof buffer), FEVSTUNIK_TOO_LONG, 0, 0, 0);
    is_answer("name that is no text", fevstunik_name_check((const uint8_t *)" \xff@b@c", 6), FEVSTUNIK_NOT_UTF8, 0, 0, 0);
}

/* After an invalid moment nothing accepted and no refusal is kept; what is remembered and the latest moment stay. */
static void bad_moments(void)
{
    fevstunik_acceptor service = FEVSTUNIK_ACCEPTOR_INIT;
    fevstunik_time now = moment(1700000101, 7), bad = moment(0, 1000000), latest = moment(0, 0);
    fevstunik_known known;

    is_answer("new", first_life(&service, keytab.at, keytab.size, 300, EACH_NAME), FEVSTUNIK_OK, 0, 0, 0);
    is_answer("accept", fevstunik_acceptor_accept(&service, &accepted, request.at, request.size, &now), FEVSTUNIK_OK, 0, 0, 0);
    is_answer("no moment", fevstunik_acceptor_accept(&service, &accepted, request.at, request.size, &bad), FEVSTUNIK_BAD_MOMENT, 0, 0, 0);
    is_answer("none told", fevstunik_accepted_known(&accepted, &known, buffer, sizeof buffer), FEVSTUNIK_NOTHING_THERE, 0, 0, 0);
    is_answer("no reply", reply_of(16, 0, 0, sizeof buffer), FEVSTUNIK_NOTHING_THERE, 0, 0, 0);
    is_answer("no error", error_of(&service, "host/web@EX", now, sizeof buffer), FEVSTUNIK_NOTHING_THERE, 0, 0, 0);
    is("count", (long long)fevstunik_acceptor_count(&service), 1);
    is_answer("latest", fevstunik_acceptor_latest(&service, &latest), FEVSTUNIK_OK, 0, 0, 0);
    is("latest second", latest.seconds, 1700000101);
    is("latest micros", latest.micros, 7);
    is_answer("repeat", fevstunik_acceptor_accept(&service, &accepted, request.at, request.size, &now), FEVSTUNIK_REPEAT, 34, 0, 0);
    is_answer("no moment again", fevstunik_acceptor_accept(&service, &accepted, request.at, request.size, &bad), FEVSTUNIK_BAD_MOMENT, 0, 0, 0);
    is_answer("no error of it", error_of(&service, "host/web@EX", now, sizeof buffer), FEVSTUNIK_NOTHING_THERE, 0, 0, 0);
    fevstunik_acceptor_free(&service);
}

/* NULL with size 0 is no bytes, wherever bytes are handed in or out. */
static void no_bytes(void)
{
    static const uint8_t key[16] = {0};
    static const fevstunik_key_parts parts = {1700000000, 3, 3, 19};
    fevstunik_acceptor service = FEVSTUNIK_ACCEPTOR_INIT;
    fevstunik_cache none = FEVSTUNIK_CACHE_INIT;
    fevstunik_time now = moment(1700000100, 5);
    fevstunik_known known;
    fevstunik_agreement told;
    fevstunik_key_entry entry;
    fevstunik_cache_entry credential;
    fevstunik_owner owner;
    int32_t kind;
    uint8_t tag[16];

    is_answer("keytab", fevstunik_keytab_check(NULL, 0), FEVSTUNIK_FILE_VERSION, 0, 0, 0);
    is_answer("cache", fevstunik_cache_check(NULL, 0), FEVSTUNIK_FILE_VERSION, 0, 0, 0);
    is_answer("entry", entry_in(keytab.at, keytab.size, 0, &entry, NULL, 0), FEVSTUNIK_SHORT_BUFFER, 0, 0, 27);
    is_answer("no entry", entry_in(NULL, 0, 0, &entry, NULL, 0), FEVSTUNIK_FILE_VERSION, 0, 0, 0);
    is("credential", credential_in(cache.at, cache.size, 0, &credential, NULL, 0).code, FEVSTUNIK_SHORT_BUFFER);
    is_answer("no credential", credential_in(NULL, 0, 0, &credential, NULL, 0), FEVSTUNIK_FILE_VERSION, 0, 0, 0);
    is_answer("owner", owner_in(cache.at, cache.size, &owner, NULL, 0), FEVSTUNIK_SHORT_BUFFER, 0, 0, 8);
    is_answer("no owner", owner_in(NULL, 0, &owner, NULL, 0), FEVSTUNIK_FILE_VERSION, 0, 0, 0);
    is("a key of none", fevstunik_keytab_add(keytab.at, keytab.size, WEB, NULL, 0, &parts, buffer, sizeof buffer).code, FEVSTUNIK_OK);
    is_answer("a name of none", fevstunik_keytab_add(keytab.at, keytab.size, NULL, 0, NULL, 0, &parts, NULL, 0), FEVSTUNIK_NO_REALM, 0, 0, 0);
    is_answer("add to none", fevstunik_keytab_add(NULL, 0, WEB, key, 16, &parts, NULL, 0), FEVSTUNIK_FILE_VERSION, 0, 0, 0);
    is_answer("remove", fevstunik_keytab_remove(NULL, 0, 0, NULL, 0), FEVSTUNIK_FILE_VERSION, 0, 0, 0);
    is_answer("removed", fevstunik_keytab_remove(keytab.at, keytab.size, 0, NULL, 0), FEVSTUNIK_SHORT_BUFFER, 0, 0, keytab.size);
    is_answer("write", fevstunik_keytab_write(NULL, 0, NULL, 0), FEVSTUNIK_FILE_VERSION, 0, 0, 0);
    is_answer("name", fevstunik_name_check(NULL, 0), FEVSTUNIK_NO_REALM, 0, 0, 0);
    is_answer("bindings", fevstunik_bindings_hash(NULL, 0, NULL, 0), FEVSTUNIK_SHORT_BUFFER, 0, 0, 16);
    is_answer("no service", first_life(&service, NULL, 0, 300, NULL, 0), FEVSTUNIK_FILE_VERSION, 0, 0, 0);
    is_answer("each name", first_life(&service, keytab.at, keytab.size, 300, NULL, 0), FEVSTUNIK_OK, 0, 0, 0);
    is_answer("no request", fevstunik_acceptor_accept(&service, &accepted, NULL, 0, &now), FEVSTUNIK_MALFORMED, 60, 0, 0);
    is_answer("no name", fevstunik_acceptor_error(&service, NULL, 0, 3, &now, NULL, 0), FEVSTUNIK_NO_REALM, 0, 0, 0);
    is_answer("an error", fevstunik_acceptor_error(&service, WEB, 3, &now, NULL, 0), FEVSTUNIK_SHORT_BUFFER, 0, 0, error.size);
    is_answer("no name by code", fevstunik_error(FEVSTUNIK_SKEW, NULL, 0, 3, &now, NULL, 0), FEVSTUNIK_NO_REALM, 0, 0, 0);
    is_answer("an error by code", fevstunik_error(FEVSTUNIK_SKEW, WEB, 3, &now, NULL, 0), FEVSTUNIK_SHORT_BUFFER, 0, 0, error.size);
    is_answer("accept", fevstunik_acceptor_accept(&service, &accepted, listed.at, listed.size, &now), FEVSTUNIK_OK, 0, 0, 0);
    is_answer("known", fevstunik_accepted_known(&accepted, &known, NULL, 0), FEVSTUNIK_SHORT_BUFFER, 0, 0, 35);
    is_answer("of no bytes", fevstunik_accepted_item(&accepted, FEVSTUNIK_LIST_TICKET_AUTHORIZATION, 1, &kind, NULL, 0), FEVSTUNIK_OK, 0, 0, 0);
    is_answer("no confounder", fevstunik_accepted_reply(&accepted, NULL, 0, &nothing, NULL, 0, NULL, 0), FEVSTUNIK_BAD_CONFOUNDER, 0, 0, 0);
    is_answer("reply", fevstunik_accepted_reply(&accepted, key, 16, &nothing, NULL, 0, NULL, 0), FEVSTUNIK_SHORT_BUFFER, 0, 0, reply.size);
    fevstunik_acceptor_free(&service);
    is_answer("no cache", fevstunik_cache_new(&none, NULL, 0), FEVSTUNIK_FILE_VERSION, 0, 0, 0);
    is_answer("no service", fevstunik_request(&credentials, &pending, NULL, 0, &now, NULL, 0, &nothing, NULL, 0, NULL, 0), FEVSTUNIK_NO_REALM,
              0, 0, 0);
    is_answer("ask", fevstunik_request(&credentials, &pending, WEB, &now, key, 16, &nothing, NULL, 0, NULL, 0), FEVSTUNIK_SHORT_BUFFER, 0, 0,
              request.size);
    is_answer("no reply", fevstunik_finish(&pending, NULL, 0, &told, NULL, 0), FEVSTUNIK_REPLY_MALFORMED, 0, 0, 0);
    is_answer("finish", fevstunik_finish(&pending, reply.at, reply.size, &told, NULL, 0), FEVSTUNIK_SHORT_BUFFER, 0, 0, 24);
    is_answer("no key", fevstunik_seal(19, NULL, 0, 2, NULL, 0, NULL, 0, NULL, 0), FEVSTUNIK_KEY_LENGTH, 0, 0, 0);
    is_answer("seal", fevstunik_seal(19, key, 16, 2, key, 16, NULL, 0, buffer, sizeof buffer), FEVSTUNIK_OK, 0, 0, 32);
    is_answer("open", fevstunik_open(19, key, 16, 2, buffer, 32, NULL, 0), FEVSTUNIK_OK, 0, 0, 0);
    is_answer("open none", fevstunik_open(19, key, 16, 2, NULL, 0, NULL, 0), FEVSTUNIK_TEXT_SHORT, 0, 0, 0);
    is_answer("tag", fevstunik_checksum(19, key, 16, 2, NULL, 0, tag, 16), FEVSTUNIK_OK, 0, 0, 16);
    is_answer("its tag", fevstunik_checksum_check(19, key, 16, 2, NULL, 0, tag, 16), FEVSTUNIK_OK, 0, 0, 0);
    is_answer("no tag", fevstunik_checksum_check(19, key, 16, 2, NULL, 0, NULL, 0), FEVSTUNIK_TEXT_INTEGRITY, 0, 0, 0);
    is_answer("no room for it", fevstunik_checksum(19, key, 16, 2, NULL, 0, NULL, 0), FEVSTUNIK_SHORT_BUFFER, 0, 0, 16);
}

/* The code that a service answers to a request at a moment. */
static unsigned accepted_by(fevstunik_acceptor *service, const struct bytes *sent, fevstunik_time at)
{
    return fevstunik_acceptor_accept(service, &accepted, sent->at, sent->size, &at).code;
}

static void is_stamp(const char *what, uint32_t skew, size_t room, unsigned code, size_t size)
{
    fevstunik_time until = {7, 7};

    is_answer(what, fevstunik_accepted_stamp(&accepted, skew, &until, buffer, room), code, 0, 0, size);
    is("it stays", until.seconds == 7 && until.micros == 7, size == 0);
}

/* What stands for a request in a store that services share: its names and its time, and until when it is kept. */
static void stamps(void)
{
    static const char wanted[] = "00000000000000024558" "0000000000000002" "0000000000000004686f7374" "0000000000000003776562"
                                 "00000000000000024558" "0000000000000001" "0000000000000005616c696365" "00060a241e142105";
    fevstunik_acceptor service = FEVSTUNIK_ACCEPTOR_INIT;
    fevstunik_accepted none = FEVSTUNIK_ACCEPTED_INIT;
    fevstunik_time until = {7, 7};
    struct bytes stamp;

    from_hex(&stamp, wanted);
    is_answer("stamp of none", fevstunik_accepted_stamp(&none, 300, &until, buffer, sizeof buffer), FEVSTUNIK_EMPTY_HANDLE, 0, 0, 0);
    is_answer("ready", fevstunik_accepted_new(&accepted), FEVSTUNIK_OK, 0, 0, 0);
    is_stamp("nothing yet", 300, sizeof buffer, FEVSTUNIK_NOTHING_THERE, 0);
    is_answer("new", first_life(&service, keytab.at, keytab.size, 300, EACH_NAME), FEVSTUNIK_OK, 0, 0, 0);
    is("accept", accepted_by(&service, &request, moment(1700000100, 5)), FEVSTUNIK_OK);
    is_stamp("skew", 86401, sizeof buffer, FEVSTUNIK_BAD_SKEW, 0);
    is_stamp("short", 86400, 79, FEVSTUNIK_SHORT_BUFFER, 80);
    is_answer("stamp", fevstunik_accepted_stamp(&accepted, 300, &until, buffer, 80), FEVSTUNIK_OK, 0, 0, 80);
    is("its size", (long long)stamp.size, 80);
    is_bytes("its bytes", buffer, stamp.at, stamp.size);
    is("until", until.seconds, 1700000700);
    is("until its microsecond", until.micros, 5);
    is("accept at the end", accepted_by(&service, &at_the_end, moment(253402300799, 999999)), FEVSTUNIK_OK);
    is_stamp("no moment", 300, sizeof buffer, FEVSTUNIK_BAD_MOMENT, 0);
    is_stamp("the last moment", 0, 0, FEVSTUNIK_SHORT_BUFFER, 80);
    fevstunik_acceptor_free(&service);
}

static void starts(void)
{
    fevstunik_acceptor service = FEVSTUNIK_ACCEPTOR_INIT;
    fevstunik_accepted none = FEVSTUNIK_ACCEPTED_INIT;
    fevstunik_time start = {7, 7};

    is_answer("start of none", fevstunik_accepted_start(&none, &start), FEVSTUNIK_EMPTY_HANDLE, 0, 0, 0);
    is_answer("ready", fevstunik_accepted_new(&accepted), FEVSTUNIK_OK, 0, 0, 0);
    is_answer("nothing yet", fevstunik_accepted_start(&accepted, &start), FEVSTUNIK_NOTHING_THERE, 0, 0, 0);
    is_answer("new", first_life(&service, keytab.at, keytab.size, 300, EACH_NAME), FEVSTUNIK_OK, 0, 0, 0);
    is("accept", accepted_by(&service, &request, moment(1700000100, 5)), FEVSTUNIK_OK);
    is_answer("it doesn't say", fevstunik_accepted_start(&accepted, &start), FEVSTUNIK_NOTHING_THERE, 0, 0, 0);
    is("it stays", start.seconds == 7 && start.micros == 7, 1);
    is_answer("new", first_life(&service, keytab.at, keytab.size, 300, EACH_NAME), FEVSTUNIK_OK, 0, 0, 0);
    is("accept then", accepted_by(&service, &with_start, moment(1700000100, 5)), FEVSTUNIK_OK);
    is_answer("it says so", fevstunik_accepted_start(&accepted, &start), FEVSTUNIK_OK, 0, 0, 0);
    is("the second", start.seconds, 1700000060);
    is("no microseconds", start.micros, 0);
    fevstunik_acceptor_free(&service);
}

/* A living service gets another keytab, and keeps what it has seen. */
static void new_keytabs(void)
{
    fevstunik_acceptor service = FEVSTUNIK_ACCEPTOR_INIT;
    fevstunik_time latest;
    void *held;

    is_answer("none", fevstunik_acceptor_replace_keytab(&service, keytab.at, keytab.size, EACH_NAME, true), FEVSTUNIK_EMPTY_HANDLE, 0, 0, 0);
    is("none then", service.opaque == NULL, 1);
    is_answer("new", first_life(&service, keytab.at, keytab.size, 300, WEB), FEVSTUNIK_OK, 0, 0, 0);
    is("accept", accepted_by(&service, &request, moment(1700000101, 5)), FEVSTUNIK_OK);
    held = service.opaque;
    is_answer("no keytab", fevstunik_acceptor_replace_keytab(&service, keytab.at, keytab.size - 1, WEB, false), FEVSTUNIK_FILE_TRUNCATED, 0, 2, 0);
    is_answer("no name", fevstunik_acceptor_replace_keytab(&service, keytab.at, keytab.size, (const uint8_t *)"host", 4, false), FEVSTUNIK_NO_REALM,
              0, 0, 0);
    is_answer("the keytab first", fevstunik_acceptor_replace_keytab(&service, keytab.at, 1, (const uint8_t *)"host", 4, false), FEVSTUNIK_FILE_VERSION,
              0, 0, 0);
    is("a repeat", accepted_by(&service, &request, moment(1700000101, 5)), FEVSTUNIK_REPEAT);
    is_answer("no entries", fevstunik_acceptor_replace_keytab(&service, keytab.at, 2, WEB, false), FEVSTUNIK_OK, 0, 0, 0);
    is("no key", accepted_by(&service, &request, moment(1700000101, 5)), FEVSTUNIK_NOT_US);
    is_answer("the same", fevstunik_acceptor_replace_keytab(&service, keytab.at, keytab.size, WEB, false), FEVSTUNIK_OK, 0, 0, 0);
    is("a repeat still", accepted_by(&service, &request, moment(1700000100, 5)), FEVSTUNIK_REPEAT);
    is("remembered", (long long)fevstunik_acceptor_count(&service), 1);
    is_answer("latest", fevstunik_acceptor_latest(&service, &latest), FEVSTUNIK_OK, 0, 0, 0);
    is("the latest", latest.seconds, 1700000101);
    is_answer("another name", fevstunik_acceptor_replace_keytab(&service, keytab.at, keytab.size, (const uint8_t *)"host/mail@EX", 12, false),
              FEVSTUNIK_OK, 0, 0, 0);
    is("not us", accepted_by(&service, &request, moment(1700000101, 5)), FEVSTUNIK_NOT_US);
    is("one service", held != NULL && service.opaque != NULL, 1);
    fevstunik_acceptor_free(&service);
}

/* One service, from its first request to its end. */
static void whole_life(void)
{
    fevstunik_acceptor service = FEVSTUNIK_ACCEPTOR_INIT;

    is_answer("new", first_life(&service, keytab.at, keytab.size, 300, EACH_NAME), FEVSTUNIK_OK, 0, 0, 0);
    faulty_keytabs(&service);
    is_accepted(&service);
    replies();
    is_refused(&service);
    is_answer("new again", first_life(&service, keytab.at, keytab.size, 300, EACH_NAME), FEVSTUNIK_OK, 0, 0, 0);
    is("count anew", (long long)fevstunik_acceptor_count(&service), 0);
    fevstunik_acceptor_free(&service);
    fevstunik_acceptor_free(&service);
    is("freed", service.opaque == NULL, 1);
}

/* The client's cache is read once. */
static void kept_credentials(void)
{
    is_answer("cache", fevstunik_cache_new(&credentials, cache.at, cache.size), FEVSTUNIK_OK, 0, 0, 1);
}

/* The hash of channel bindings: as another implementation of MD5 gives it, of 20 bytes of numbers and the data (RFC 4121, section 4.1.1.2). */
static void hashes_of_bindings(void)
{
    static const struct {
        size_t size;
        const char *hash;
    } rows[] = {
        {0, "441018525208457705bf09a8ee3c1093"},
        {21, "2ea6e9ae9674d953e9d23afaf703e260"},
        {53, "8f1214c9c9cab8dc3bf866da9aba57a7"},
    };
    uint8_t data[53] = "tls-server-end-point:", hash[17], *large = malloc(FAR);
    struct bytes wanted;
    size_t row;

    for (row = 0; row < 32; row++)
        data[21 + row] = (uint8_t)row;
    for (row = 0; row < sizeof rows / sizeof *rows; row++) {
        from_hex(&wanted, rows[row].hash);
        memset(hash, 0x5a, sizeof hash);
        is_answer("short", fevstunik_bindings_hash(data, rows[row].size, hash, 15), FEVSTUNIK_SHORT_BUFFER, 0, 0, 16);
        is("unchanged", hash[0], 0x5a);
        is_answer("hash", fevstunik_bindings_hash(data, rows[row].size, hash, sizeof hash), FEVSTUNIK_OK, 0, 0, 16);
        is_bytes("its bytes", hash, wanted.at, 16);
        is("after it", hash[16], 0x5a);
    }
    is("room", large != NULL, 1);
    is_answer("long", fevstunik_bindings_hash(large, FAR, hash, sizeof hash), FEVSTUNIK_TOO_LONG, 0, 0, 0);
    is("the last hash", hash[16], 0x5a);
    free(large);
}

int main(int count, char **words)
{
    static void (*const parts[])(void) = {
        empty_handles, started_again, options, sizes_of_options, negative_number, unready, kept_apart, ready_again, wanted_services, constants,
        whole_life, keyed_client, another_service, lists, stamps, starts, new_keytabs, errors, errors_read, names, files, listings, kept_keytab,
        kept_cache, second_credential, edits, additions, second_entry, kept_credentials, requests, negative_answer, contexts, empty_askings,
        agreements, texts, two_faults_of_requests, two_faults, bad_moments, no_bytes, hashes_of_bindings};
    struct bytes *const inputs[] = {&keytab, &cache, &request, &keyed, &reply, &keyed_reply, &error, &two, &other, &listed, &negative,
                                    &negative_reply, &with_start, &at_the_end, &whole_error};
    size_t part;

    if (count != 16)
        return 2;
    from_words(inputs, 15, words);
    for (part = 0; part < sizeof parts / sizeof *parts; part++)
        parts[part]();
    fevstunik_accepted_free(&accepted);
    fevstunik_cache_free(&credentials);
    fevstunik_pending_free(&pending);
    printf("%d passed, %d failed\n", passed, failed);
    return failed != 0;
}
