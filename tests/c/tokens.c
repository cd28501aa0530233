/* Tokens of GSS-API. Each line of standard input is a call and what it answers, as tests/c_tokens.py makes them; bytes are hexadecimal
 * digits, `-` if there are none:
 *
 *     open CODE AT MECHANISM NEGOTIATED TOKEN REQUEST
 *     request CODE MECHANISM NEGOTIATED MESSAGE TOKEN     likewise reply and error
 *     answer CODE AT IS_ERROR TOKEN MESSAGE
 *     said CODE SAYS MECHANISM TOKEN                      verdict likewise
 *     take CODE AT STAGE ASKED STAGE ASKED MECHANISM NEGOTIATED TOKEN BYTES     the numbers of the negotiation before and after it
 *     context CODE FLAGS HAS_DELEGATION CHECKSUM BINDINGS DELEGATION EXTENSIONS */
#include "checks.h"

#define ROOM 4096
#define LINE (8 * ROOM)

static uint8_t given[ROOM], wanted[ROOM], buffer[ROOM];
static char text[LINE], word[11][LINE];

/* The bytes of a word. */
static size_t bytes_of(uint8_t *at, const char *digits)
{
    return digits[0] == '-' ? 0 : read_hex(at, ROOM, digits);
}

/* The bytes are at the start of the buffer, and nothing else was written. */
static void is_written(const uint8_t *bytes, size_t size)
{
    is_bytes(text, buffer, bytes, size);
    for (size_t at = size; at < ROOM; at++)
        if (buffer[at] != 0xee) {
            is("what is after the bytes", at, size);
            return;
        }
}

static void clear(void)
{
    memset(buffer, 0xee, sizeof buffer);
}

static void opened(void)
{
    unsigned code = (unsigned)atoi(word[1]);
    size_t at = (size_t)atoi(word[2]), size = bytes_of(given, word[5]), count = bytes_of(wanted, word[6]);
    int is_ok = code == FEVSTUNIK_OK;
    fevstunik_wrapped wrapped = {7, 7};

    clear();
    is_answer(text, fevstunik_token_open(given, size, &wrapped, buffer, ROOM), code, 0, at, is_ok ? count : 0);
    is_written(wanted, is_ok ? count : 0);
    is("mechanism", wrapped.mechanism, is_ok ? atoi(word[3]) : 7);
    is("negotiated", wrapped.negotiated, is_ok ? atoi(word[4]) : 7);
    if (!is_ok || count == 0)
        return;
    clear();
    is_answer("short", fevstunik_token_open(given, size, &wrapped, buffer, count - 1), FEVSTUNIK_SHORT_BUFFER, 0, 0, count);
    is_written(wanted, 0);
}

static fevstunik_answer wrapped_by(const char *name, const fevstunik_wrapped *wrapped, size_t size, size_t room)
{
    if (strcmp(name, "request") == 0)
        return fevstunik_token_request(wrapped, given, size, buffer, room);
    if (strcmp(name, "reply") == 0)
        return fevstunik_token_reply(wrapped, given, size, buffer, room);
    return fevstunik_token_error(wrapped, given, size, buffer, room);
}

static void wraps(void)
{
    unsigned code = (unsigned)atoi(word[1]);
    fevstunik_wrapped wrapped = {(uint32_t)atoi(word[2]), (uint32_t)atoi(word[3])};
    size_t size = bytes_of(given, word[4]), count = bytes_of(wanted, word[5]);

    clear();
    is_answer(text, wrapped_by(word[0], &wrapped, size, ROOM), code, 0, 0, count);
    is_written(wanted, count);
    if (code != FEVSTUNIK_OK)
        return;
    clear();
    is_answer("short", wrapped_by(word[0], &wrapped, size, count - 1), FEVSTUNIK_SHORT_BUFFER, 0, 0, count);
    is_written(wanted, 0);
}

static void answered(void)
{
    unsigned code = (unsigned)atoi(word[1]);
    size_t at = (size_t)atoi(word[2]), size = bytes_of(given, word[4]), count = bytes_of(wanted, word[5]);
    int is_ok = code == FEVSTUNIK_OK, was = 0;

    for (; was < 2; was++) {
        bool is_error = was;

        clear();
        is_answer(text, fevstunik_token_answer(given, size, &is_error, buffer, ROOM), code, 0, at, is_ok ? count : 0);
        is_written(wanted, is_ok ? count : 0);
        is("is an error", is_error, is_ok ? atoi(word[3]) : was);
        if (is_ok && count > 0)
            is_answer("short", fevstunik_token_answer(given, size, &is_error, buffer, count - 1), FEVSTUNIK_SHORT_BUFFER, 0, 0, count);
    }
}

/* A part is in the buffer after those before it. */
static size_t is_part(const char *what, fevstunik_span part, size_t before, const char *digits)
{
    size_t size = bytes_of(wanted, digits);

    is(what, part.at, before);
    is(what, part.size, size);
    is_bytes(what, buffer + before, wanted, size);
    return before + size;
}

static void contexts(void)
{
    unsigned code = (unsigned)atoi(word[1]);
    size_t size = bytes_of(given, word[4]), count;
    fevstunik_context context;
    fevstunik_answer answer;

    memset(&context, 0x55, sizeof context);
    clear();
    answer = fevstunik_context_read(given, size, &context, buffer, ROOM);
    is(text, answer.code, code);
    if (code != FEVSTUNIK_OK) {
        is_answer(text, answer, code, 0, 0, 0);
        is("it stays", context.flags, 0x55555555);
        is_written(wanted, 0);
        return;
    }
    is("flags", context.flags, strtoll(word[2], NULL, 10));
    is("delegation", context.has_delegation, atoi(word[3]));
    count = is_part("bindings", context.bindings, 0, word[5]);
    count = is_part("delegation", context.delegation, count, word[6]);
    count = is_part("extensions", context.extensions, count, word[7]);
    is_answer(text, answer, code, 0, 0, count);
    clear();
    is_answer("short", fevstunik_context_read(given, size, &context, buffer, count - 1), FEVSTUNIK_SHORT_BUFFER, 0, 0, count);
    is_written(wanted, 0);
}

static void said(void)
{
    unsigned code = (unsigned)atoi(word[1]);
    const fevstunik_verdict verdict = {(uint32_t)strtoul(word[2], NULL, 10), (uint32_t)strtoul(word[3], NULL, 10)};
    size_t count = bytes_of(wanted, word[4]);

    clear();
    is_answer(text, fevstunik_verdict_token(&verdict, buffer, ROOM), code, 0, 0, count);
    is_written(wanted, count);
    if (code != FEVSTUNIK_OK)
        return;
    clear();
    is_answer("short", fevstunik_verdict_token(&verdict, buffer, count - 1), FEVSTUNIK_SHORT_BUFFER, 0, 0, count);
    is_written(wanted, 0);
}

static void read_said(void)
{
    unsigned code = (unsigned)atoi(word[1]);
    int is_ok = code == FEVSTUNIK_OK;
    fevstunik_verdict verdict = {77, 78};
    size_t size = bytes_of(given, word[4]);

    is_answer(text, fevstunik_verdict_read(given, size, &verdict), code, 0, 0, 0);
    is("says", verdict.says, is_ok ? atoi(word[2]) : 77);
    is("names", verdict.mechanism, is_ok ? atoi(word[3]) : 78);
}

static fevstunik_acceptor service = FEVSTUNIK_ACCEPTOR_INIT;
static fevstunik_login login = FEVSTUNIK_LOGIN_INIT;

static const fevstunik_acceptor_options options = {.size = sizeof options, .restarts = FEVSTUNIK_RESTART_FIRST_LIFE, .any_name = true};
static const fevstunik_time now = {0, 0};
/* Whether the next token names Kerberos after another mechanism. */
static int is_listed;

static void makes_service(void)
{
    if (service.opaque == NULL)
        is("service", fevstunik_acceptor_new(&service, (const uint8_t *)"\5\2", 2, EACH_NAME, &options).code, FEVSTUNIK_OK);
}

/* A service asks a client that names Kerberos after another mechanism for its token, and for the MIC of its list. */
static void lists(void)
{
    size_t size = bytes_of(given, word[2]), count = bytes_of(wanted, word[3]);
    fevstunik_login asked = FEVSTUNIK_LOGIN_INIT;

    clear();
    makes_service();
    is_answer(text, fevstunik_service_answer(&service, &asked, given, size, &now, wanted, 16, buffer, ROOM), FEVSTUNIK_GO_ON, 0, 0, count);
    is_written(wanted, count);
    fevstunik_login_free(&asked);
    is_listed = 1;
}

/* A service without a key answers to the same tokens as a negotiation takes them, but for a request by itself, which it takes, and for those that
 * name Kerberos after another mechanism. */
static void logs_in(unsigned code, size_t at, size_t size, unsigned stage, size_t count)
{
    static int is_alone;
    fevstunik_answer answer, again;

    if (code == FEVSTUNIK_BAD_NEGOTIATION)
        return;
    if (stage == 0) {
        fevstunik_login_free(&login);
        is_alone = is_listed || (size > 0 && given[0] == 0x6e);
        is_listed = 0;
    }
    if (is_alone)
        return;
    makes_service();
    answer = fevstunik_service_answer(&service, &login, given, size, &now, wanted, 16, buffer, ROOM);
    again = fevstunik_login_answer(&login, buffer, ROOM);
    is_answer("the answer again", again, answer.code, answer.kerberos, answer.at, answer.size);
    if (code != FEVSTUNIK_OK)
        is_answer(text, answer, code, 0, at, answer.size);
    else if (atoi(word[7]) == FEVSTUNIK_MECHANISM_NONE)
        is_answer(text, answer, FEVSTUNIK_GO_ON, 0, 0, count);
    else
        is(text, answer.code >= FEVSTUNIK_MESSAGE_TYPE && answer.code < FEVSTUNIK_OUT_OF_MEMORY, 1);
}

static void takes(void)
{
    unsigned code = (unsigned)atoi(word[1]);
    size_t at = (size_t)atoi(word[2]), size = bytes_of(given, word[9]), count = bytes_of(wanted, word[10]);
    int is_ok = code == FEVSTUNIK_OK;
    const fevstunik_negotiation before = {(uint32_t)atoi(word[3]), (uint32_t)atoi(word[4])};
    fevstunik_negotiation negotiation = before;
    fevstunik_wrapped wrapped = {7, 7};

    clear();
    if (is_ok && count > 0) {
        is_answer("short", fevstunik_negotiation_take(&negotiation, given, size, &wrapped, buffer, count - 1), FEVSTUNIK_SHORT_BUFFER, 0, 0, count);
        is_written(wanted, 0);
        is("stays", negotiation.stage, before.stage);
        is("stays", negotiation.asked, before.asked);
    }
    wrapped.mechanism = wrapped.negotiated = 7;
    is_answer(text, fevstunik_negotiation_take(&negotiation, given, size, &wrapped, buffer, ROOM), code, 0, at, is_ok ? count : 0);
    is_written(wanted, is_ok ? count : 0);
    is("stage", negotiation.stage, atoi(word[5]));
    is("asked", negotiation.asked, atoi(word[6]));
    is("mechanism", wrapped.mechanism, is_ok ? atoi(word[7]) : 7);
    is("negotiated", wrapped.negotiated, is_ok ? atoi(word[8]) : 7);
    logs_in(code, at, size, before.stage, count);
}

/* What is longer than a token may be. */
static void too_long(void)
{
    static uint8_t message[1048577];
    const fevstunik_wrapped wrapped = {FEVSTUNIK_MECHANISM_KERBEROS, FEVSTUNIK_MECHANISM_NONE};
    fevstunik_wrapped found;
    bool is_error;
    const size_t sizes[] = {1048559, 1048576, 1048577};

    message[0] = 0x60;
    for (int i = 0; i < 3; i++) {
        is_answer("long request", fevstunik_token_request(&wrapped, message, sizes[i], buffer, ROOM), FEVSTUNIK_TOO_LONG, 0, 0, 0);
        is_answer("long reply", fevstunik_token_reply(&wrapped, message, sizes[i], buffer, ROOM), FEVSTUNIK_TOO_LONG, 0, 0, 0);
        is_answer("long error", fevstunik_token_error(&wrapped, message, sizes[i], buffer, ROOM), FEVSTUNIK_TOO_LONG, 0, 0, 0);
    }
    is_answer("almost", fevstunik_token_request(&wrapped, message, 1048558, buffer, ROOM), FEVSTUNIK_SHORT_BUFFER, 0, 0, 1048576);
    is_answer("long token", fevstunik_token_open(message, sizeof message, &found, buffer, ROOM), FEVSTUNIK_TOKEN_MALFORMED, 0, 0, 0);
    is_answer("long answer", fevstunik_token_answer(message, sizeof message, &is_error, buffer, ROOM), FEVSTUNIK_TOKEN_MALFORMED, 0, 0, 0);
}

int main(void)
{
    too_long();
    while (fgets(text, sizeof text, stdin) != NULL) {
        text[strcspn(text, "\n")] = 0;
        sscanf(text, "%s %s %s %s %s %s %s %s %s %s %s", word[0], word[1], word[2], word[3], word[4], word[5], word[6], word[7], word[8], word[9],
               word[10]);
        if (strcmp(word[0], "open") == 0)
            opened();
        else if (strcmp(word[0], "answer") == 0)
            answered();
        else if (strcmp(word[0], "context") == 0)
            contexts();
        else if (strcmp(word[0], "said") == 0)
            said();
        else if (strcmp(word[0], "verdict") == 0)
            read_said();
        else if (strcmp(word[0], "list") == 0)
            lists();
        else if (strcmp(word[0], "take") == 0)
            takes();
        else
            wraps();
    }
    fevstunik_login_free(&login);
    fevstunik_acceptor_free(&service);
    printf("%d passed, %d failed\n", passed, failed);
    return failed != 0;
}
