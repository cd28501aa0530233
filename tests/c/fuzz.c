/* Hands the library good and broken files and messages, made of the fixture's by a stored seed, and looks that each answer is one of those
 * that the header names, that sizes and offsets are within bounds, that nothing is written behind a buffer, and that a service still
 * accepts afterwards what it should.
 *
 *     fuzz KEYTAB CACHE REQUEST REPLY COUNT SEED     files, messages in hex, how many inputs, and a number from 1 on
 */
#include <stdio.h>
#include <stdlib.h>
#include <string.h>

#define ROOM 2048
#define BYTES_ROOM ROOM
#define GUARD 16

#include "drawn.h"
#include "fevstunik.h"
#include "listed.h"
#include "made.h"

static struct bytes keytab, cache, request, reply, bent;
static uint8_t buffer[ROOM + GUARD];
static long counts[1024];

static void wrong(const char *what, long at)
{
    printf("wrong: %s at input %ld\n", what, at);
    exit(1);
}

/* Some bits turned, a piece cut out, put in twice or written over with small numbers; or nothing done. */
static void bend(const struct bytes *from)
{
    uint32_t times = below(4), at, size;

    memcpy(&bent, from, sizeof bent);
    for (; times > 0 && bent.size > 0; times--) {
        at = below((uint32_t)bent.size);
        size = below((uint32_t)(bent.size - at) + 1);
        switch (below(5)) {
        case 0:
            bend_at(&bent, at, size, ROOM, BIT_TURNED);
            break;
        case 1:
            bent.at[at] = (uint8_t)(below(2) ? below(256) : 0x80 + below(6));
            break;
        case 2:
            bend_at(&bent, at, size, ROOM, END_CUT_OFF);
            break;
        case 3:
            bend_at(&bent, at, size, ROOM, CUT_OUT);
            break;
        default:
            bend_at(&bent, at, size, ROOM, PUT_IN_TWICE);
        }
    }
}

/* Writes a tag and a length: the shortest form of it, or one or two bytes more than that needs. */
static size_t write_head(uint8_t *to, uint8_t tag, size_t size, int more)
{
    int bytes = (size < 128 ? 0 : size < 256 ? 1 : 2) + more;
    size_t made = 0;

    to[made++] = tag;
    if (bytes > 0)
        to[made++] = (uint8_t)(0x80 | bytes);
    for (; bytes > 2; bytes--)
        to[made++] = 0;
    if (bytes == 2)
        to[made++] = (uint8_t)(size >> 8);
    to[made++] = (uint8_t)size;
    return made;
}

/* How many bytes the tag and the length of an element of DER have, and its content; 0 where there is none. */
static size_t head_of(const uint8_t *from, size_t size, size_t *content)
{
    size_t head = 2, more;

    if (size < 2)
        return 0;
    *content = from[1];
    if (from[1] & 0x80) {
        more = from[1] & 0x7f;
        if (more > 2 || size < 2 + more)
            return 0;
        for (*content = 0; more > 0; more--)
            *content = *content << 8 | from[head++];
    }
    return *content <= size - head ? head : 0;
}

/* Changes an element whose content has been written: another tag, another length of the content, or a length that isn't the shortest. */
static size_t write_bent(uint8_t *to, uint8_t tag, uint8_t *content, size_t size)
{
    int more = 0;

    switch (below(6)) {
    case 0:
        tag ^= (uint8_t)(1u << below(8));
        break;
    case 1:
        size = 0;
        break;
    case 2:
        size -= size > 0;
        break;
    case 3:
        content[size++] = (uint8_t)below(256);
        break;
    case 4:
        if (size > 0)
            content[below((uint32_t)size)] = (uint8_t)below(256);
        break;
    default:
        more = 1 + (int)below(2);
    }
    more = write_head(to, tag, size, more);
    memcpy(to + more, content, size);
    return (size_t)more + size;
}

/* Writes elements of DER anew, with lengths that fit; of these the one of this number, counted down, is left out, put in twice or changed. */
static size_t rewrite(const uint8_t *from, size_t size, uint8_t *to, long *number)
{
    uint8_t content[ROOM];
    size_t head, inside, made = 0, start, twice;

    for (; (head = head_of(from, size, &inside)) > 0; from += head + inside, size -= head + inside, head = 0) {
        uint32_t how = (*number)-- == 0 ? below(4) : 4;
        size_t within = from[0] & 0x20 ? rewrite(from + head, inside, content, number) : inside;

        if (!(from[0] & 0x20))
            memcpy(content, from + head, inside);
        start = made;
        if (how == 0)
            continue;
        if (how == 1 || how == 2) {
            made += write_bent(to + made, from[0], content, within);
            continue;
        }
        made += write_head(to + made, from[0], within, 0);
        memcpy(to + made, content, within);
        made += within;
        twice = how == 3 ? made - start : 0;
        memcpy(to + made, to + start, twice);
        made += twice;
    }
    memcpy(to + made, from, size);
    return made + size;
}

/* A message with one element of its DER left out, put in twice or changed, and lengths around it that fit; then perhaps bent further. */
static void bend_message(const struct bytes *from)
{
    static struct bytes made;
    long number = 1 << 20, elements;

    if (from->size > ROOM / 4 || below(2)) {
        bend(from);
        return;
    }
    rewrite(from->at, from->size, made.at, &number);
    elements = (1 << 20) - number;
    number = below((uint32_t)elements);
    made.size = rewrite(from->at, from->size, made.at, &number);
    if (below(4) == 0)
        bend(&made);
    else
        memcpy(&bent, &made, sizeof bent);
}

/* The answer is one of the header's, and its numbers are within what was handed in. */
static void look(fevstunik_answer answer, size_t handed, size_t room, long at)
{
    size_t i;

    if (strcmp(fevstunik_code_name(answer.code), "FEVSTUNIK_UNKNOWN") == 0 || answer.code == FEVSTUNIK_OUT_OF_MEMORY)
        wrong("a code", at);
    if (answer.at > handed)
        wrong("an offset", at);
    if (answer.code == FEVSTUNIK_OK && answer.size > room)
        wrong("a size", at);
    if (answer.code == FEVSTUNIK_SHORT_BUFFER && answer.size <= room)
        wrong("a short buffer", at);
    for (i = room; i < sizeof buffer; i++)
        if (buffer[i] != 0xa5)
            wrong("a byte behind the buffer", at);
    counts[answer.code]++;
}

static void one(fevstunik_acceptor *service, fevstunik_accepted *accepted, long at)
{
    static const fevstunik_choice nothing = {0, 0, false, false};
    static const fevstunik_key_parts parts = {1700000000, 3, 3, 19};
    fevstunik_time now = {1700000100, 5};
    fevstunik_known known;
    fevstunik_agreement agreement;
    fevstunik_key_entry entry;
    fevstunik_cache_entry credential;
    fevstunik_owner owner;
    int32_t kind;
    fevstunik_cache held = FEVSTUNIK_CACHE_INIT;
    fevstunik_pending pending = FEVSTUNIK_PENDING_INIT;
    fevstunik_acceptor other = FEVSTUNIK_ACCEPTOR_INIT;
    size_t room = below(3) ? ROOM : below(64);

    memset(buffer, 0xa5, sizeof buffer);
    switch (below(4)) {
    case 0:
        bend(&keytab);
        look(first_life(&other, bent.at, bent.size, below(86402), bent.at, below(20)), bent.size, ROOM, at);
        look(fevstunik_acceptor_accept(&other, accepted, request.at, request.size, &now), request.size, ROOM, at);
        look(started(&other, keytab.at, keytab.size, below(86402), bent.at, below(20), &now), 20, ROOM, at);
        look(fevstunik_acceptor_error(&other, bent.at, bent.size, 3, &now, buffer, room), bent.size, room, at);
        look(fevstunik_error(below(300), bent.at, bent.size, 3, &now, buffer, room), bent.size, room, at);
        look(entry_in(bent.at, bent.size, below(3), &entry, buffer, room), bent.size, room, at);
        look(fevstunik_keytab_remove(bent.at, bent.size, below(3), buffer, room), bent.size, room, at);
        look(fevstunik_keytab_write(bent.at, bent.size, buffer, room), bent.size, room, at);
        look(fevstunik_keytab_add(bent.at, bent.size, (const uint8_t *)"a@EX", 4, cache.at, 16, &parts, buffer, room), bent.size + 4, room, at);
        fevstunik_acceptor_free(&other);
        break;
    case 1:
        bend(&cache);
        look(fevstunik_cache_new(&held, bent.at, bent.size), bent.size, ROOM, at);
        look(fevstunik_request(&held, &pending, (const uint8_t *)"host/web@EX", 11, &now, cache.at, 16, &nothing, cache.at, 0, buffer, room),
             bent.size, room, at);
        fevstunik_cache_free(&held);
        look(credential_in(bent.at, bent.size, below(3), &credential, buffer, room), bent.size, room, at);
        look(owner_in(bent.at, bent.size, &owner, buffer, room), bent.size, room, at);
        look(fevstunik_name_check(bent.at, bent.size), bent.size, ROOM, at);
        break;
    case 2:
        bend_message(&request);
        look(fevstunik_acceptor_accept(service, accepted, bent.at, bent.size, &now), bent.size, ROOM, at);
        look(fevstunik_accepted_known(accepted, &known, buffer, room), 0, room, at);
        look(fevstunik_accepted_count(accepted, below(6)), 0, ROOM, at);
        look(fevstunik_accepted_item(accepted, below(6), below(3), &kind, buffer, room), 0, room, at);
        look(fevstunik_accepted_reply(accepted, cache.at, 16, &nothing, cache.at, 0, buffer, room), 0, room, at);
        if (fevstunik_acceptor_count(service) > 1)
            wrong("what is remembered", at);
        break;
    default:
        bend_message(&reply);
        look(fevstunik_cache_new(&held, cache.at, cache.size), cache.size, ROOM, at);
        look(fevstunik_request(&held, &pending, (const uint8_t *)"host/web@EX", 11, &now, cache.at, 16, &nothing, cache.at, 0, buffer, room),
             cache.size, room, at);
        look(fevstunik_finish(&pending, bent.at, bent.size, &agreement, buffer, room), bent.size, room, at);
        fevstunik_cache_free(&held);
    }
    fevstunik_pending_free(&pending);
}

int main(int count, char **words)
{
    fevstunik_acceptor service = FEVSTUNIK_ACCEPTOR_INIT;
    fevstunik_accepted accepted = FEVSTUNIK_ACCEPTED_INIT;
    struct bytes *const inputs[] = {&keytab, &cache, &request, &reply};
    long at, most;

    if (count != 7)
        return 2;
    from_words(inputs, 4, words);
    most = atol(words[5]);
    state = strtoull(words[6], NULL, 10);
    for (at = 0; at < most; at++) {
        /* A new service now and then, which hasn't seen the request. */
        if (at % 8 == 0 && first_life(&service, keytab.at, keytab.size, 300, (const uint8_t *)"host/web@EX", 11).code != FEVSTUNIK_OK)
            wrong("a new service", at);
        /* And now and then nothing is ready for what is accepted, or what was accepted is freed. */
        if (at % 64 == 0)
            fevstunik_accepted_free(&accepted);
        if (at % 64 == 8 && fevstunik_accepted_new(&accepted).code != FEVSTUNIK_OK)
            wrong("a new place", at);
        one(&service, &accepted, at);
    }
    fevstunik_acceptor_free(&service);
    fevstunik_accepted_free(&accepted);
    for (at = 0; at < 64; at++)
        if (counts[at] > 0)
            printf("%ld: %ld\n", at, counts[at]);
    if (counts[FEVSTUNIK_OK] == 0 || counts[FEVSTUNIK_AUTHENTICATOR_INTEGRITY] == 0 || counts[FEVSTUNIK_REPLY_INTEGRITY] == 0)
        wrong("what was reached", most);
    return 0;
}
