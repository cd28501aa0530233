/* Hands the library tokens of GSS-API, drawn by a stored seed and bent in structure: tags, lengths, names of mechanisms, their order, fields
 * left out, put in twice or swapped, tokens inside tokens, and ends cut off. It looks that each answer is one of those that the header names
 * at the call, that no call is slow, that sizes and offsets are within bounds, and that nothing is written behind a buffer. What is opened is
 * handed to a service, and opens again after it is wrapped again.
 *
 *     fuzz_tokens KEYTAB REQUEST COUNT SEED LIMIT     a file, a message in hex, how many tokens, a number from 1 on, and how many
 *                                                     microseconds of processor time a call may take */
#define _GNU_SOURCE
#include <stdio.h>
#include <stdlib.h>
#include <string.h>
#include <time.h>

/* The longest token, and one more. */
#define MOST 1048577
#define GUARD 16
#define BYTES_ROOM (MOST + GUARD)

#include "drawn.h"
#include "fevstunik.h"
#include "made.h"

/* A token is drawn from its end to its front, so that an element's length is known when its head is drawn. */
static uint8_t drawn[2 * MOST];
static size_t front;
static struct bytes keytab, request, token, opened, answered;
static uint64_t slowest, limit;
static long counts[1024], number;
static int is_bent;

static const uint8_t kerberos[] = {0x2a, 0x86, 0x48, 0x86, 0xf7, 0x12, 0x01, 0x02, 0x02};
static const uint8_t windows[] = {0x2a, 0x86, 0x48, 0x82, 0xf7, 0x12, 0x01, 0x02, 0x02};
static const uint8_t draft[] = {0x2b, 0x05, 0x01, 0x05, 0x02};
static const uint8_t negotiation[] = {0x2b, 0x06, 0x01, 0x05, 0x05, 0x02};
static const uint8_t ntlm[] = {0x2b, 0x06, 0x01, 0x04, 0x01, 0x82, 0x37, 0x02, 0x02, 0x0a};
static const uint8_t iakerb[] = {0x2b, 0x06, 0x01, 0x05, 0x02, 0x05};

static void wrong(const char *what)
{
    printf("wrong: %s at token %ld\n", what, number);
    exit(1);
}

static void put(const void *bytes, size_t size)
{
    if (size > front)
        wrong("room to draw");
    front -= size;
    memcpy(drawn + front, bytes, size);
}

static void put_byte(unsigned byte)
{
    uint8_t it = (uint8_t)byte;

    put(&it, 1);
}

static void put_random(size_t size)
{
    while (size-- > 0)
        put_byte(below(256));
}

/* The length of an element: the shortest form, or, in a bent token now and then, another length or another form. */
static void put_length(size_t size)
{
    unsigned count = 0;
    int how = is_bent && below(12) == 0 ? (int)below(8) : 8;

    if (how == 0)
        size = below(2) ? size + 1 + below(4) : size - (size > 0);
    if (how == 1)
        size = below(2) ? 0 : 0xffffffff;
    if (how == 2)
        size = below(300);
    if (how == 3) {
        put_byte(0x80);
        return;
    }
    if (how == 4)
        for (; count < 5; count++)
            put_byte(0xff);
    else if (size >= 128 || how == 5 || how == 6)
        for (; size > 0 || count == 0; size >>= 8, count++)
            put_byte((unsigned)size & 0xff);
    else {
        put_byte((unsigned)size);
        return;
    }
    if (how == 6)
        put_byte(0), count++;
    put_byte(0x80 | count);
}

/* The head of an element whose content was drawn since the front was at `end`. */
static void put_head(unsigned tag, size_t end)
{
    static const uint8_t tags[] = {0x04, 0x06, 0x0a, 0x30, 0x60, 0x6e, 0xa0, 0xa1, 0xa2, 0xa3, 0x00, 0x24, 0x1f, 0xff};

    put_length(end - front);
    if (is_bent && below(20) == 0)
        tag = below(2) ? tags[below(sizeof tags)] : tag ^ 1u << below(8);
    put_byte(tag);
}

static void put_mechanism(void)
{
    static const struct {
        const uint8_t *at;
        size_t size;
    } names[] = {{kerberos, sizeof kerberos}, {windows, sizeof windows}, {draft, sizeof draft}, {ntlm, sizeof ntlm}, {iakerb, sizeof iakerb}, {negotiation, sizeof negotiation}};
    size_t end = front;
    uint32_t which = below(12), most = sizeof names / sizeof *names;

    if (which == 11 && is_bent)
        put_random(below(20));
    else
        put(names[which < most ? which : which % 2].at, names[which < most ? which : which % 2].size);
    if (is_bent && below(20) == 0)
        drawn[front + below((uint32_t)(end - front) + 1)] ^= (uint8_t)(1u << below(8));
    if (is_bent && below(40) == 0 && end - front > 1)
        front++;
    put_head(0x06, end);
}

static void put_message(void)
{
    static const uint16_t sizes[] = {0, 1, 2, 97, 127, 128, 130, 255, 256, 300};
    uint32_t how = below(2000);

    if (how == 0)
        put_random(below(60000));
    else if (how == 1 && front > MOST + 100) /* a token near the limit, or above it */
        memset(drawn + (front -= MOST - 100 + below(120)), 0x6e, 16);
    else if (how % 2)
        put(request.at, request.size);
    else
        put_random(sizes[below(sizeof sizes / sizeof *sizes)]);
}

/* A token of Kerberos: the mechanism's name, an identifier and a message. */
static void put_kerberos(void)
{
    size_t end = front;

    put_message();
    if (!is_bent || below(8) > 0) {
        put_byte(0);
        put_byte(is_bent && below(8) == 0 ? below(256) : 1 + below(3));
    }
    if (is_bent)
        put_mechanism();
    else {
        size_t name = front;

        put(below(4) ? kerberos : windows, sizeof kerberos);
        put_head(0x06, name);
    }
    put_head(0x60, end);
}

static void put_field(unsigned outer, unsigned inner, size_t end)
{
    put_head(inner, end);
    put_head(outer, end);
}

static void put_token(int depth);

/* The field of this number of a NegTokenInit (`is_first`) or of a NegTokenResp. */
static void put_numbered(int field, int is_first, int depth)
{
    size_t end = front;
    uint32_t count = below(50) ? below(5) : below(300);

    if (field == 0 && is_first) {
        while (count-- > 0)
            put_mechanism();
        if (below(8) > 0) {
            size_t name = front;

            put(below(4) ? kerberos : windows, sizeof kerberos);
            put_head(0x06, name);
        }
        put_field(0xa0, 0x30, end);
    } else if (field == 0) {
        put_byte(below(5));
        put_field(0xa0, 0x0a, end);
    } else if (field == 1 && is_first) {
        put_random(1 + below(5));
        put_field(0xa1, 0x03, end);
    } else if (field == 1) {
        put_mechanism();
        put_head(0xa1, end);
    } else if (field == 2) {
        if (is_bent && below(10) == 0)
            put("NTLMSSP", 8);
        else
            put_token(depth - 1);
        put_field(0xa2, 0x04, end);
    } else {
        put_random(below(30));
        put_field(0xa3, 0x04, end);
    }
}

/* A field after the known ones: mostly a whole element. */
static void put_unknown(void)
{
    static const uint8_t tags[] = {0xa4, 0xa5, 0xbe, 0x04, 0x30, 0xa1, 0x1f};
    size_t end = front;

    put_random(below(200));
    put_head(tags[below(is_bent ? sizeof tags : 5)], end);
}

/* A negotiation; in a bent one fields may be left out, put in twice or swapped. */
static void put_negotiation(int is_first, int depth)
{
    size_t end = front, name;
    int fields[] = {3, 2, 1, 0}, count = 4, at;

    if (is_bent && below(10) == 0) {
        at = (int)below(4);
        fields[at] = fields[below(4)];
    }
    if (below(6) == 0)
        put_unknown();
    for (at = 0; at < count; at++) {
        int is_optional = fields[at] == 3 || (fields[at] == 1 && is_first) || (is_bent && below(8) == 0);

        if (!is_optional || below(3) == 0)
            put_numbered(fields[at], is_first, depth);
    }
    if (!is_first) {
        put_field(0xa1, 0x30, end);
        return;
    }
    put_field(0xa0, 0x30, end);
    name = front;
    put(negotiation, sizeof negotiation);
    put_head(0x06, name);
    put_head(0x60, end);
}

static void put_token(int depth)
{
    uint32_t how = below(10);

    if (depth <= 0 || how < 3)
        put_kerberos();
    else
        put_negotiation(how < 8 || depth > 2, depth);
}

/* Some bits turned, a piece cut out or put in twice, or the end cut off. */
static void bend_bytes(void)
{
    uint32_t times = 1 + below(3), at, size;

    for (; times > 0 && token.size > 0; times--) {
        at = below(below(2) && token.size > 60 ? 60 : (uint32_t)token.size);
        size = below((uint32_t)(token.size - at < 40 ? token.size - at : 40) + 1);
        bend_at(&token, at, size, MOST, (enum bend)below(4));
    }
}

static void draw(void)
{
    is_bent = below(4) > 0;
    front = sizeof drawn;
    put_token(is_bent && below(100) == 0 ? 40 : 1 + (int)below(2));
    token.size = sizeof drawn - front;
    if (token.size > MOST)
        token.size = MOST;
    memcpy(token.at, drawn + front, token.size);
    if (is_bent && below(3) == 0)
        bend_bytes();
}

static uint64_t now(void)
{
    struct timespec at;

    clock_gettime(CLOCK_THREAD_CPUTIME_ID, &at);
    return (uint64_t)at.tv_sec * 1000000 + (uint64_t)at.tv_nsec / 1000;
}

/* A call and how long it takes. One that was slow is made again: a virtual machine's clock also counts what its host does meanwhile. */
#define TIMED(answer, call)                                        \
    do {                                                           \
        uint64_t began = now(), took;                              \
                                                                   \
        answer = call;                                             \
        took = now() - began;                                      \
        for (int again = 0; took > limit && again < 20; again++) { \
            began = now();                                         \
            (void)call;                                            \
            took = now() - began;                                  \
        }                                                          \
        if (took > slowest)                                        \
            slowest = took;                                        \
        if (took > limit)                                          \
            wrong("a slow call, " #call);                          \
    } while (0)

static int is_within(uint32_t code, uint32_t first, uint32_t last)
{
    return code == FEVSTUNIK_OK || code == FEVSTUNIK_SHORT_BUFFER || (code >= first && code <= last);
}

/* The answer is one of the header's, of these numbers, and its numbers are within what was handed in. */
static void look(fevstunik_answer answer, uint32_t first, uint32_t last, size_t handed, const struct bytes *into, size_t room)
{
    if (strcmp(fevstunik_code_name(answer.code), "FEVSTUNIK_UNKNOWN") == 0 || !is_within(answer.code, first, last))
        wrong("a code");
    if (answer.at > handed)
        wrong("an offset");
    if (answer.code == FEVSTUNIK_OK && answer.size > room)
        wrong("a size");
    if (answer.code == FEVSTUNIK_SHORT_BUFFER && answer.size <= room)
        wrong("a short buffer");
    for (size_t at = 0, after = answer.code == FEVSTUNIK_OK ? answer.size : 0; at < GUARD; at++)
        if (into->at[after + at] != 0xa5 || into->at[room + at] != 0xa5)
            wrong("a byte after what was written");
    counts[answer.code]++;
}

static void clear(struct bytes *into, size_t size)
{
    memset(into->at, 0xa5, size + GUARD);
}

/* What was opened is wrapped again, and opens to the same. */
static void wrap_again(const fevstunik_wrapped *wrapped)
{
    fevstunik_wrapped other = {7, 7};
    fevstunik_answer answer = fevstunik_token_request(wrapped, opened.at, opened.size, answered.at, MOST);

    if (answer.code != FEVSTUNIK_OK && answer.code != FEVSTUNIK_TOO_LONG)
        wrong("a request that isn't wrapped again");
    if (answer.code == FEVSTUNIK_TOO_LONG)
        return;
    answer = fevstunik_token_open(answered.at, answer.size, &other, token.at, MOST);
    if (answer.code != FEVSTUNIK_OK || answer.size != opened.size || memcmp(token.at, opened.at, opened.size) != 0
        || other.mechanism != wrapped->mechanism || other.negotiated != wrapped->negotiated)
        wrong("a request that doesn't open again");
}

/* The service decides, and its refusal comes back out of its token. */
static void decide(fevstunik_acceptor *service, fevstunik_accepted *accepted, const fevstunik_wrapped *wrapped)
{
    static uint8_t error[512], told[1024];
    const fevstunik_time at = {1700000100, 5};
    fevstunik_answer answer;
    bool is_error = false;
    size_t size;

    TIMED(answer, fevstunik_acceptor_accept(service, accepted, opened.at, opened.size, &at));
    if (answer.code != FEVSTUNIK_OK && (answer.code < FEVSTUNIK_MESSAGE_TYPE || answer.code > FEVSTUNIK_AUTHORIZATION))
        wrong("a service's code");
    counts[answer.code]++;
    if (answer.code == FEVSTUNIK_OK)
        return;
    size = fevstunik_error(answer.code, (const uint8_t *)"host/web@EX", 11, 3, &at, error, sizeof error).size;
    answer = fevstunik_token_error(wrapped, error, size, told, sizeof told);
    if (answer.code != FEVSTUNIK_OK)
        wrong("an error that isn't wrapped");
    answer = fevstunik_token_answer(told, answer.size, &is_error, answered.at, MOST);
    if (answer.code != FEVSTUNIK_OK || !is_error || answer.size != size || memcmp(answered.at, error, size) != 0)
        wrong("an error that doesn't open");
}

static void as_service(fevstunik_acceptor *service, fevstunik_accepted *accepted)
{
    size_t room = below(3) ? token.size : below((uint32_t)token.size + 1);
    fevstunik_wrapped wrapped = {7, 7};
    fevstunik_answer answer;

    clear(&opened, room);
    TIMED(answer, fevstunik_token_open(token.at, token.size, &wrapped, opened.at, room));
    look(answer, FEVSTUNIK_NOT_A_TOKEN, FEVSTUNIK_NESTED_NEGOTIATION, token.size, &opened, room);
    if (answer.code != FEVSTUNIK_OK && answer.code != FEVSTUNIK_SHORT_BUFFER) {
        if (wrapped.mechanism != 7 || wrapped.negotiated != 7)
            wrong("a wrapping that was written");
        return;
    }
    if (wrapped.mechanism < 1 || wrapped.mechanism > 3 || wrapped.negotiated > 3)
        wrong("a mechanism");
    if (answer.code == FEVSTUNIK_SHORT_BUFFER)
        return;
    opened.size = answer.size;
    if (answer.size > 0 && memmem(token.at, token.size, opened.at, opened.size) == NULL)
        wrong("a request that isn't in the token");
    decide(service, accepted, &wrapped);
    wrap_again(&wrapped);
}

/* A negotiation goes on through the tokens, until it is over; what it answers is an answer without a token. */
static void as_negotiation(void)
{
    static fevstunik_negotiation side;
    fevstunik_negotiation before = side;
    fevstunik_wrapped wrapped = {7, 7};
    fevstunik_verdict verdict = {7, 7};
    size_t room = token.size < 64 ? 64 : token.size;
    fevstunik_answer answer;

    clear(&opened, room);
    TIMED(answer, (side = before, fevstunik_negotiation_take(&side, token.at, token.size, &wrapped, opened.at, room)));
    look(answer, FEVSTUNIK_NOT_A_TOKEN, FEVSTUNIK_NEGOTIATION_OVER, token.size, &opened, room);
    if (side.stage > 2 || (side.stage == 1) != (answer.code == FEVSTUNIK_OK && wrapped.mechanism == FEVSTUNIK_MECHANISM_NONE))
        wrong("a stage");
    if (before.stage != 0 && (side.stage != 2 || wrapped.negotiated == FEVSTUNIK_MECHANISM_NONE))
        wrong("a round too many");
    if (side.stage == 1 && (fevstunik_verdict_read(opened.at, answer.size, &verdict).code != FEVSTUNIK_OK || verdict.says != FEVSTUNIK_SAYS_INCOMPLETE))
        wrong("what asks for a token");
    if (answer.code == FEVSTUNIK_OK && side.stage == 2 && before.stage == 1 && wrapped.negotiated != FEVSTUNIK_MECHANISM_NAMED)
        wrong("a later token");
    if (side.stage == 2 && below(2))
        side = (fevstunik_negotiation){0, 0};
    if (fevstunik_verdict_read(token.at, token.size, &verdict).code == FEVSTUNIK_OK
        && fevstunik_verdict_token(&verdict, opened.at, room).code != FEVSTUNIK_OK && verdict.says != FEVSTUNIK_SAYS_REJECTED)
        wrong("a verdict that isn't written again");
}

static void as_client(void)
{
    size_t room = below(3) ? token.size : below((uint32_t)token.size + 1);
    bool is_error = false;
    fevstunik_answer answer;

    clear(&answered, room);
    TIMED(answer, fevstunik_token_answer(token.at, token.size, &is_error, answered.at, room));
    look(answer, FEVSTUNIK_NOT_A_TOKEN, FEVSTUNIK_NESTED_NEGOTIATION, token.size, &answered, room);
    if (answer.code == FEVSTUNIK_TOKEN_CONTINUES)
        wrong("a code of a client");
    if (answer.code == FEVSTUNIK_OK && answer.size > 0 && memmem(token.at, token.size, answered.at, answer.size) == NULL)
        wrong("a reply that isn't in the token");
}

/* A checksum of type 0x8003, straight or bent. */
static void as_context(void)
{
    uint8_t flags[4] = {(uint8_t)below(64), 0, 0, 0}, size;
    fevstunik_context context;
    fevstunik_answer answer;
    size_t room = below(3) ? 1024 : below(100);

    front = sizeof drawn;
    put_random(below(3) ? 0 : below(20));
    if (flags[0] & 1) {
        size = (uint8_t)below(200);
        put_random(size);
        put_byte(0);
        put_byte(below(8) ? size : below(256));
        put("\1\0", 2);
    }
    put(flags, 4);
    put_random(16);
    put("\20\0\0\0", 4);
    token.size = sizeof drawn - front;
    memcpy(token.at, drawn + front, token.size);
    if (below(2))
        bend_bytes();
    clear(&opened, room);
    TIMED(answer, fevstunik_context_read(token.at, token.size, &context, opened.at, room));
    look(answer, FEVSTUNIK_CONTEXT_TRUNCATED, FEVSTUNIK_CONTEXT_DELEGATION, token.size, &opened, room);
}

static void read_inputs(char **words)
{
    from_file(&keytab, words[1]);
    from_hex(&request, words[2]);
    state = strtoull(words[4], NULL, 10);
    limit = strtoull(words[5], NULL, 10);
}

/* Each code that these calls may answer was reached. */
static void reached(void)
{
    static const uint32_t codes[] = {
        FEVSTUNIK_OK, FEVSTUNIK_SHORT_BUFFER, FEVSTUNIK_MESSAGE_TYPE, FEVSTUNIK_MALFORMED, FEVSTUNIK_REPEAT, FEVSTUNIK_NOT_A_TOKEN,
        FEVSTUNIK_TOKEN_UNFRAMED, FEVSTUNIK_NEGOTIATION_OVER, FEVSTUNIK_TOKEN_MALFORMED, FEVSTUNIK_TOKEN_CONTINUES, FEVSTUNIK_TOKEN_EMPTY, FEVSTUNIK_TOKEN_ID, FEVSTUNIK_OTHER_MECHANISM,
        FEVSTUNIK_NTLM, FEVSTUNIK_IAKERB, FEVSTUNIK_NESTED_NEGOTIATION, FEVSTUNIK_CONTEXT_TRUNCATED, FEVSTUNIK_CONTEXT_BINDINGS,
        FEVSTUNIK_CONTEXT_DELEGATION};

    for (size_t at = 0; at < sizeof codes / sizeof *codes; at++) {
        printf("%s: %ld\n", fevstunik_code_name(codes[at]), counts[codes[at]]);
        if (counts[codes[at]] == 0)
            wrong("what was reached");
    }
    printf("the slowest call: %llu microseconds of processor time\n", (unsigned long long)slowest);
}

int main(int count, char **words)
{
    fevstunik_acceptor service = FEVSTUNIK_ACCEPTOR_INIT;
    fevstunik_accepted accepted = FEVSTUNIK_ACCEPTED_INIT;
    long tokens;

    if (count != 6)
        return 2;
    read_inputs(words);
    tokens = atol(words[3]);
    if (first_life(&service, keytab.at, keytab.size, 300, (const uint8_t *)"host/web@EX", 11).code != FEVSTUNIK_OK
        || fevstunik_accepted_new(&accepted).code != FEVSTUNIK_OK)
        wrong("a service");
    for (number = 0; number < tokens; number++) {
        draw();
        as_client();
        as_negotiation();
        as_service(&service, &accepted);
        if (number % 4 == 0)
            as_context();
    }
    fevstunik_accepted_free(&accepted);
    fevstunik_acceptor_free(&service);
    reached();
    return 0;
}
