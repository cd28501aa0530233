/* The calls of the library that handle keys, one after another, as a service and as a client make them: with keys of both types, and with
 * texts that are refused. What they are given lies in files of a folder (tests/support/key_material.py). */
#ifndef FLOW_H
#define FLOW_H

#include <fcntl.h>
#include <stdint.h>
#include <stdio.h>
#include <stdlib.h>
#include <string.h>
#include <unistd.h>

#include "fevstunik.h"

#define ROOM 4096
#define WEB (const uint8_t *)"host/web@EX", 11
/* The usage of texts that a program seals. */
#define USAGE 1024

struct file {
    const char *name;
    uint8_t at[ROOM];
    size_t size;
};

/* The files, those of type 19 before those of type 20. */
enum {
    KEYTAB,
    REQUEST,
    REPLY = REQUEST + 2,
    CACHE = REPLY + 2,
    SEALED = CACHE + 2,
    CHOSEN = SEALED + 2,
    SUBKEY = CHOSEN + 2,
    PLAIN = SUBKEY + 2,
    SERVICE_KEY = PLAIN + 2,
    SESSION_KEY = SERVICE_KEY + 2,
    RANDOM = SESSION_KEY + 2
};
static struct file files[] = {
    {.name = "keytab"},         {.name = "request-19"},     {.name = "request-20"},     {.name = "reply-19"},
    {.name = "reply-20"},       {.name = "cache-19"},       {.name = "cache-20"},       {.name = "sealed-19"},
    {.name = "sealed-20"},      {.name = "key-chosen-19"},  {.name = "key-chosen-20"},  {.name = "key-subkey-19"},
    {.name = "key-subkey-20"},  {.name = "key-plain-19"},   {.name = "key-plain-20"},   {.name = "key-service-19"},
    {.name = "key-service-20"}, {.name = "key-session-19"}, {.name = "key-session-20"}, {.name = "key-random-19"},
    {.name = "key-random-20"},
};
#define FILES (sizeof files / sizeof files[0])

static uint8_t buffer[ROOM], tag[24], confounder[16] = {1, 2, 3, 4, 5, 6, 7, 8, 9, 10, 11, 12, 13, 14, 15, 16};
static fevstunik_acceptor service;
static fevstunik_accepted accepted;
static fevstunik_login login;
static fevstunik_keytab keytab;
static fevstunik_cache cache;
static fevstunik_pending pending;
static fevstunik_messages mine, theirs;
static fevstunik_known known;
static fevstunik_agreement agreement;
static const fevstunik_time now = {1700000100, 19};
static const fevstunik_answer done;
/* Which of both types a step is for. */
static unsigned of;

static int type(void)
{
    return 19 + (int)of;
}

static const struct file *file(unsigned kind)
{
    return &files[kind + of];
}

/* Reads a file without a buffer that would keep it. */
static void read_file(struct file *into, const char *folder)
{
    char path[1024];
    int from;
    ssize_t size;

    snprintf(path, sizeof path, "%s/%s", folder, into->name);
    from = open(path, O_RDONLY);
    size = from < 0 ? -1 : read(from, into->at, sizeof into->at);
    if (size < 0 || close(from) != 0) {
        perror(path);
        exit(2);
    }
    into->size = (size_t)size;
}

static void read_files(const char *folder)
{
    size_t at;

    for (at = 0; at < FILES; at++)
        read_file(&files[at], folder);
}

/* ---- what a step calls ---- */

static fevstunik_answer checking_keytab(void)
{
    return fevstunik_keytab_check(files[KEYTAB].at, files[KEYTAB].size);
}

static fevstunik_answer reading_keytab(void)
{
    return fevstunik_keytab_new(&keytab, files[KEYTAB].at, files[KEYTAB].size);
}

static fevstunik_answer reading_entry(void)
{
    fevstunik_key_entry entry;

    return fevstunik_keytab_entry(&keytab, of, &entry, buffer, sizeof buffer);
}

static fevstunik_answer adding_entry(void)
{
    fevstunik_key_parts parts = {1700000000, 4, 3, 19};

    parts.key_type = (int16_t)type();
    return fevstunik_keytab_add(files[KEYTAB].at, files[KEYTAB].size, WEB, file(CHOSEN)->at, file(CHOSEN)->size, &parts,
                                buffer, sizeof buffer);
}

static fevstunik_answer removing_entry(void)
{
    return fevstunik_keytab_remove(files[KEYTAB].at, files[KEYTAB].size, of, buffer, sizeof buffer);
}

static fevstunik_answer writing_keytab(void)
{
    return fevstunik_keytab_write(files[KEYTAB].at, files[KEYTAB].size, buffer, sizeof buffer);
}

static fevstunik_answer freeing_keytab(void)
{
    fevstunik_keytab_free(&keytab);
    return done;
}

static fevstunik_answer checking_cache(void)
{
    return fevstunik_cache_check(file(CACHE)->at, file(CACHE)->size);
}

static fevstunik_answer reading_cache(void)
{
    return fevstunik_cache_new(&cache, file(CACHE)->at, file(CACHE)->size);
}

static fevstunik_answer reading_credential(void)
{
    fevstunik_cache_entry entry;

    return fevstunik_cache_credential(&cache, 0, &entry, buffer, sizeof buffer);
}

static fevstunik_answer reading_owner(void)
{
    fevstunik_owner owner;

    return fevstunik_cache_owner(&cache, &owner, buffer, sizeof buffer);
}

static fevstunik_answer freeing_cache(void)
{
    fevstunik_cache_free(&cache);
    return done;
}

static fevstunik_answer making_service(void)
{
    fevstunik_acceptor_options options = {
        .size = sizeof options, .skew = 300, .restarts = FEVSTUNIK_RESTART_FIRST_LIFE};

    options.subkey_type = (uint32_t)type();
    return fevstunik_acceptor_new(&service, files[KEYTAB].at, files[KEYTAB].size, WEB, &options);
}

static fevstunik_answer making_sharing_service(void)
{
    fevstunik_acceptor_options options = {
        .size = sizeof options, .started = {1600000000, 0}, .skew = 300, .restarts = FEVSTUNIK_RESTART_SHARED};

    options.subkey_type = (uint32_t)type();
    return fevstunik_acceptor_new(&service, files[KEYTAB].at, files[KEYTAB].size, WEB, &options);
}

static fevstunik_answer getting_ready(void)
{
    return fevstunik_accepted_new(&accepted);
}

static fevstunik_answer accepting(void)
{
    return fevstunik_acceptor_accept(&service, &accepted, file(REQUEST)->at, file(REQUEST)->size, &now);
}

/* The request with a byte changed. */
static const uint8_t *changed_at(size_t place)
{
    static uint8_t changed[ROOM];

    memcpy(changed, file(REQUEST)->at, file(REQUEST)->size);
    changed[place] ^= 1;
    return changed;
}

static const uint8_t *another_authenticator(void)
{
    return changed_at(file(REQUEST)->size - 1);
}

static const uint8_t *another_ticket(void)
{
    return changed_at(150);
}

static fevstunik_answer accepting_another_authenticator(void)
{
    return fevstunik_acceptor_accept(&service, &accepted, another_authenticator(), file(REQUEST)->size, &now);
}

static fevstunik_answer accepting_another_ticket(void)
{
    return fevstunik_acceptor_accept(&service, &accepted, another_ticket(), file(REQUEST)->size, &now);
}

static fevstunik_answer knowing(void)
{
    return fevstunik_accepted_known(&accepted, &known, buffer, sizeof buffer);
}

static fevstunik_answer stamping(void)
{
    fevstunik_time until;

    return fevstunik_accepted_stamp(&accepted, 300, &until, buffer, sizeof buffer);
}

static fevstunik_answer replying(void)
{
    fevstunik_choice choice = {0, 79, true, false};

    choice.subkey_type = type();
    return fevstunik_accepted_reply(&accepted, confounder, sizeof confounder, &choice, file(SUBKEY)->at,
                                    file(SUBKEY)->size, buffer, sizeof buffer);
}

static fevstunik_answer refusing(void)
{
    return fevstunik_acceptor_error(&service, WEB, 3, &now, buffer, sizeof buffer);
}

static fevstunik_answer replacing_keytab(void)
{
    return fevstunik_acceptor_replace_keytab(&service, files[KEYTAB].at, files[KEYTAB].size, WEB, false);
}

static fevstunik_answer counting(void)
{
    fevstunik_answer answer = {FEVSTUNIK_OK, 0, 0, fevstunik_acceptor_count(&service)};

    return answer;
}

static fevstunik_answer measuring(void)
{
    fevstunik_usage usage;

    return fevstunik_acceptor_usage(&service, &usage);
}

static fevstunik_answer looking_at_the_clock(void)
{
    fevstunik_time latest;

    return fevstunik_acceptor_latest(&service, &latest);
}

static fevstunik_answer adding_realm(void)
{
    return fevstunik_acceptor_add_realm(&service, (const uint8_t *)"EX", 2);
}

static fevstunik_answer replacing_bindings(void)
{
    return fevstunik_acceptor_replace_bindings(&service, FEVSTUNIK_BINDINGS_IF_SENT, confounder, sizeof confounder);
}

static fevstunik_answer counting_items(void)
{
    return fevstunik_accepted_count(&accepted, FEVSTUNIK_LIST_CHECKSUM);
}

static fevstunik_answer counting_sent(void)
{
    return fevstunik_accepted_sent(&accepted);
}

static fevstunik_answer reading_item(void)
{
    int32_t kind;

    return fevstunik_accepted_item(&accepted, FEVSTUNIK_LIST_CHECKSUM, 0, &kind, buffer, sizeof buffer);
}

static fevstunik_answer reading_start(void)
{
    fevstunik_time start;

    return fevstunik_accepted_start(&accepted, &start);
}

static fevstunik_answer freeing_accepted(void)
{
    fevstunik_accepted_free(&accepted);
    return done;
}

static fevstunik_answer freeing_service(void)
{
    fevstunik_acceptor_free(&service);
    return done;
}

/* The login's next step: random bytes are a confounder and the service's subkey. */
static fevstunik_answer deciding(const uint8_t *input, size_t size)
{
    return fevstunik_service_answer(&service, &login, input, size, &now, file(RANDOM)->at, file(RANDOM)->size, buffer,
                                    sizeof buffer);
}

/* A negotiation (SPNEGO) that names Kerberos and holds no request. */
static fevstunik_answer beginning(void)
{
    static const uint8_t begun[] = {0x60, 0x1b, 0x06, 0x06, 0x2b, 0x06, 0x01, 0x05, 0x05, 0x02,
                                    0xa0, 0x11, 0x30, 0x0f, 0xa0, 0x0d, 0x30, 0x0b, 0x06, 0x09,
                                    0x2a, 0x86, 0x48, 0x86, 0xf7, 0x12, 0x01, 0x02, 0x02};

    return deciding(begun, sizeof begun);
}

static fevstunik_answer deciding_on_another_authenticator(void)
{
    return deciding(another_authenticator(), file(REQUEST)->size);
}

static fevstunik_answer deciding_on_another_ticket(void)
{
    return deciding(another_ticket(), file(REQUEST)->size);
}

static fevstunik_answer letting_in(void)
{
    return deciding(file(REQUEST)->at, file(REQUEST)->size);
}

static fevstunik_answer sending_again(void)
{
    return fevstunik_login_answer(&login, buffer, sizeof buffer);
}

static fevstunik_answer knowing_what_was_asked(void)
{
    fevstunik_asked asked;

    return fevstunik_login_asked(&login, &asked, buffer, sizeof buffer);
}

static fevstunik_answer knowing_who_is_let_in(void)
{
    return fevstunik_accepted_known(&login.accepted, &known, buffer, sizeof buffer);
}

static fevstunik_answer asking_the_store(void)
{
    fevstunik_time until;

    return fevstunik_login_stamp(&login, &until, buffer, sizeof buffer);
}

static fevstunik_answer settling(uint32_t said)
{
    return fevstunik_login_settle(&login, said, &now, buffer, sizeof buffer);
}

static fevstunik_answer settling_as_new(void)
{
    return settling(FEVSTUNIK_SAID_NEW);
}

static fevstunik_answer settling_as_known(void)
{
    return settling(FEVSTUNIK_SAID_KNOWN);
}

static fevstunik_answer freeing_login(void)
{
    fevstunik_login_free(&login);
    return done;
}

static fevstunik_answer asking(void)
{
    fevstunik_choice choice = {0, 77, true, true};
    fevstunik_time at = now;

    at.micros = (uint32_t)type();
    choice.subkey_type = type();
    return fevstunik_request(&cache, &pending, WEB, &at, confounder, sizeof confounder, &choice, file(SUBKEY)->at,
                             file(SUBKEY)->size, buffer, sizeof buffer);
}

static fevstunik_answer asking_in_a_context(void)
{
    static const fevstunik_context_choice context = {0, {0}};
    fevstunik_choice choice = {0, 77, true, true};
    fevstunik_time at = now;

    at.micros = (uint32_t)type();
    choice.subkey_type = type();
    return fevstunik_context_request(&cache, &pending, WEB, &at, confounder, sizeof confounder, &choice,
                                     file(SUBKEY)->at, file(SUBKEY)->size, &context, buffer, sizeof buffer);
}

static fevstunik_answer finishing_changed(void)
{
    static uint8_t changed[ROOM];

    memcpy(changed, file(REPLY)->at, file(REPLY)->size);
    changed[file(REPLY)->size - 1] ^= 1;
    return fevstunik_finish(&pending, changed, file(REPLY)->size, &agreement, buffer, sizeof buffer);
}

static fevstunik_answer finishing(void)
{
    return fevstunik_finish(&pending, file(REPLY)->at, file(REPLY)->size, &agreement, buffer, sizeof buffer);
}

static fevstunik_answer freeing_pending(void)
{
    fevstunik_pending_free(&pending);
    return done;
}

static fevstunik_answer sealing(void)
{
    return fevstunik_seal(type(), file(CHOSEN)->at, file(CHOSEN)->size, USAGE, confounder, sizeof confounder,
                          file(PLAIN)->at, file(PLAIN)->size, buffer, sizeof buffer);
}

static fevstunik_answer opening(void)
{
    return fevstunik_open(type(), file(CHOSEN)->at, file(CHOSEN)->size, USAGE, file(SEALED)->at, file(SEALED)->size,
                          buffer, sizeof buffer);
}

static fevstunik_answer opening_changed(void)
{
    static uint8_t changed[ROOM];

    memcpy(changed, file(SEALED)->at, file(SEALED)->size);
    changed[0] ^= 1;
    return fevstunik_open(type(), file(CHOSEN)->at, file(CHOSEN)->size, USAGE, changed, file(SEALED)->size, buffer,
                          sizeof buffer);
}

static fevstunik_answer summing(void)
{
    return fevstunik_checksum(type(), file(CHOSEN)->at, file(CHOSEN)->size, USAGE, file(PLAIN)->at, file(PLAIN)->size,
                              tag, sizeof tag);
}

static fevstunik_answer checking_sum(void)
{
    return fevstunik_checksum_check(type(), file(CHOSEN)->at, file(CHOSEN)->size, USAGE, file(PLAIN)->at,
                                    file(PLAIN)->size, tag, of == 0 ? 16 : 24);
}

static fevstunik_answer checking_changed_sum(void)
{
    tag[0] ^= 1;
    return checking_sum();
}

/* A token of this side, and its MIC. */
static uint8_t token[ROOM], mic[64];
static size_t token_size, mic_size;

static fevstunik_answer begin(fevstunik_messages *side, uint32_t role)
{
    fevstunik_message_options options = {.role = role};

    options.session_type = type();
    return fevstunik_messages_new(side, &options, file(CHOSEN)->at, file(CHOSEN)->size, NULL, 0, NULL, 0);
}

static fevstunik_answer beginning_mine(void)
{
    return begin(&mine, FEVSTUNIK_ROLE_CLIENT);
}

static fevstunik_answer beginning_theirs(void)
{
    return begin(&theirs, FEVSTUNIK_ROLE_SERVICE);
}

static fevstunik_answer beginning_after_list(void)
{
    fevstunik_message_options options = {.role = FEVSTUNIK_ROLE_SERVICE};

    options.session_type = type();
    return fevstunik_messages_after_list(&theirs, &options, file(CHOSEN)->at, file(CHOSEN)->size, NULL, 0, NULL, 0);
}

static fevstunik_answer beginning_for_who_is_let_in(void)
{
    fevstunik_choice choice = {0, 0, false, false};

    choice.subkey_type = type();
    return fevstunik_messages_of_accepted(&theirs, &login.accepted, &choice, file(SUBKEY)->at, file(SUBKEY)->size, false);
}

static fevstunik_answer wrapping(void)
{
    fevstunik_answer answer = fevstunik_messages_wrap(&mine, true, confounder, sizeof confounder, file(PLAIN)->at,
                                                      file(PLAIN)->size, token, sizeof token);

    token_size = answer.size;
    answer.size = 0;
    return answer;
}

static fevstunik_answer unwrapping_changed(void)
{
    static uint8_t changed[ROOM];
    fevstunik_received received;

    memcpy(changed, token, token_size);
    changed[token_size - 1] ^= 1;
    return fevstunik_messages_unwrap(&theirs, changed, token_size, &received);
}

static fevstunik_answer unwrapping(void)
{
    fevstunik_received received;
    fevstunik_answer answer = fevstunik_messages_unwrap(&theirs, token, token_size, &received);

    memset(token, 0, sizeof token);
    return answer;
}

static fevstunik_answer signing(void)
{
    fevstunik_answer answer = fevstunik_messages_mic(&mine, file(PLAIN)->at, file(PLAIN)->size, mic, sizeof mic);

    mic_size = answer.size;
    answer.size = 0;
    return answer;
}

static fevstunik_answer verifying_half(void)
{
    fevstunik_received received;

    return fevstunik_messages_verify(&theirs, file(PLAIN)->at, file(PLAIN)->size / 2, mic, mic_size, &received);
}

static fevstunik_answer verifying(void)
{
    fevstunik_received received;

    return fevstunik_messages_verify(&theirs, file(PLAIN)->at, file(PLAIN)->size, mic, mic_size, &received);
}

static fevstunik_answer limiting(void)
{
    return fevstunik_messages_limit(&mine, true, ROOM);
}

static fevstunik_answer freeing_mine(void)
{
    fevstunik_messages_free(&mine);
    return done;
}

static fevstunik_answer freeing_theirs(void)
{
    fevstunik_messages_free(&theirs);
    return done;
}

/* ---- the steps ---- */

struct step {
    const char *name;
    fevstunik_answer (*make)(void);
    unsigned code;
};

/* All of them are made for type 19, and then for type 20. Handles are kept from one to the next. */
static const struct step steps[] = {
    {"keytab_check", checking_keytab, FEVSTUNIK_OK},
    {"keytab_new", reading_keytab, FEVSTUNIK_OK},
    {"keytab_entry", reading_entry, FEVSTUNIK_OK},
    {"keytab_add", adding_entry, FEVSTUNIK_OK},
    {"keytab_remove", removing_entry, FEVSTUNIK_OK},
    {"keytab_write", writing_keytab, FEVSTUNIK_OK},
    {"keytab_free", freeing_keytab, FEVSTUNIK_OK},
    {"acceptor_new", making_service, FEVSTUNIK_OK},
    {"accepted_new", getting_ready, FEVSTUNIK_OK},
    {"acceptor_accept of another ticket", accepting_another_ticket, FEVSTUNIK_TICKET_INTEGRITY},
    {"acceptor_accept of another authenticator", accepting_another_authenticator, FEVSTUNIK_AUTHENTICATOR_INTEGRITY},
    {"acceptor_error", refusing, FEVSTUNIK_OK},
    {"acceptor_accept", accepting, FEVSTUNIK_OK},
    {"accepted_known", knowing, FEVSTUNIK_OK},
    {"accepted_count", counting_items, FEVSTUNIK_NO_SUCH_ENTRY},
    {"accepted_item", reading_item, FEVSTUNIK_NO_SUCH_ENTRY},
    {"accepted_start", reading_start, FEVSTUNIK_NOTHING_THERE},
    {"accepted_sent", counting_sent, FEVSTUNIK_OK},
    {"accepted_stamp", stamping, FEVSTUNIK_OK},
    {"accepted_reply", replying, FEVSTUNIK_OK},
    {"acceptor_accept of a repeat", accepting, FEVSTUNIK_REPEAT},
    {"acceptor_replace_keytab", replacing_keytab, FEVSTUNIK_OK},
    {"acceptor_accept after replace_keytab", accepting, FEVSTUNIK_REPEAT},
    {"acceptor_count", counting, FEVSTUNIK_OK},
    {"acceptor_usage", measuring, FEVSTUNIK_OK},
    {"acceptor_latest", looking_at_the_clock, FEVSTUNIK_OK},
    {"accepted_free", freeing_accepted, FEVSTUNIK_OK},
    {"acceptor_free", freeing_service, FEVSTUNIK_OK},
    {"acceptor_new for logins", making_service, FEVSTUNIK_OK},
    {"acceptor_add_realm", adding_realm, FEVSTUNIK_OK},
    {"acceptor_replace_bindings", replacing_bindings, FEVSTUNIK_OK},
    {"service_answer to a negotiation", beginning, FEVSTUNIK_GO_ON},
    {"login_free of a negotiation", freeing_login, FEVSTUNIK_OK},
    {"service_answer to another ticket", deciding_on_another_ticket, FEVSTUNIK_TICKET_INTEGRITY},
    {"login_asked", knowing_what_was_asked, FEVSTUNIK_OK},
    {"login_free of a refusal", freeing_login, FEVSTUNIK_OK},
    {"service_answer to another authenticator", deciding_on_another_authenticator, FEVSTUNIK_AUTHENTICATOR_INTEGRITY},
    {"login_answer to a refusal", sending_again, FEVSTUNIK_AUTHENTICATOR_INTEGRITY},
    {"login_free", freeing_login, FEVSTUNIK_OK},
    {"service_answer", letting_in, FEVSTUNIK_OK},
    {"login_answer", sending_again, FEVSTUNIK_OK},
    {"accepted_known of a login", knowing_who_is_let_in, FEVSTUNIK_OK},
    {"messages_of_accepted", beginning_for_who_is_let_in, FEVSTUNIK_OK},
    {"messages_free of a login", freeing_theirs, FEVSTUNIK_OK},
    {"messages_after_list", beginning_after_list, FEVSTUNIK_OK},
    {"messages_free after a list", freeing_theirs, FEVSTUNIK_OK},
    {"login_free of a login", freeing_login, FEVSTUNIK_OK},
    {"service_answer to a repeat", letting_in, FEVSTUNIK_REPEAT},
    {"login_free of a repeat", freeing_login, FEVSTUNIK_OK},
    {"acceptor_free after logins", freeing_service, FEVSTUNIK_OK},
    {"acceptor_new for a store", making_sharing_service, FEVSTUNIK_OK},
    {"service_answer before the store", letting_in, FEVSTUNIK_ASK_STORE},
    {"login_stamp", asking_the_store, FEVSTUNIK_OK},
    {"login_settle", settling_as_new, FEVSTUNIK_OK},
    {"login_stamp afterwards", asking_the_store, FEVSTUNIK_NOT_WAITING},
    {"login_free after the store", freeing_login, FEVSTUNIK_OK},
    {"acceptor_new for a store again", making_sharing_service, FEVSTUNIK_OK},
    {"service_answer before the store again", letting_in, FEVSTUNIK_ASK_STORE},
    {"login_settle as a repeat", settling_as_known, FEVSTUNIK_REPEAT},
    {"login_free of what is settled", freeing_login, FEVSTUNIK_OK},
    {"acceptor_new for a store once more", making_sharing_service, FEVSTUNIK_OK},
    {"service_answer that isn't settled", letting_in, FEVSTUNIK_ASK_STORE},
    {"login_free of what waits", freeing_login, FEVSTUNIK_OK},
    {"acceptor_free after the store", freeing_service, FEVSTUNIK_OK},
    {"cache_check", checking_cache, FEVSTUNIK_OK},
    {"cache_new", reading_cache, FEVSTUNIK_OK},
    {"cache_credential", reading_credential, FEVSTUNIK_OK},
    {"cache_owner", reading_owner, FEVSTUNIK_OK},
    {"context_request", asking_in_a_context, FEVSTUNIK_OK},
    {"request", asking, FEVSTUNIK_OK},
    {"request with a kept key", asking, FEVSTUNIK_OK},
    {"finish of another reply", finishing_changed, FEVSTUNIK_REPLY_INTEGRITY},
    {"finish", finishing, FEVSTUNIK_OK},
    {"pending_free", freeing_pending, FEVSTUNIK_OK},
    {"cache_free", freeing_cache, FEVSTUNIK_OK},
    {"seal", sealing, FEVSTUNIK_OK},
    {"open", opening, FEVSTUNIK_OK},
    {"open of another text", opening_changed, FEVSTUNIK_TEXT_INTEGRITY},
    {"checksum", summing, FEVSTUNIK_OK},
    {"checksum_check", checking_sum, FEVSTUNIK_OK},
    {"checksum_check of another tag", checking_changed_sum, FEVSTUNIK_TEXT_INTEGRITY},
    {"messages_new", beginning_mine, FEVSTUNIK_OK},
    {"messages_new of the other side", beginning_theirs, FEVSTUNIK_OK},
    {"messages_wrap", wrapping, FEVSTUNIK_OK},
    {"messages_unwrap of another text", unwrapping_changed, FEVSTUNIK_MESSAGE_INTEGRITY},
    {"messages_unwrap", unwrapping, FEVSTUNIK_OK},
    {"messages_mic", signing, FEVSTUNIK_OK},
    {"messages_verify of another text", verifying_half, FEVSTUNIK_MESSAGE_INTEGRITY},
    {"messages_verify", verifying, FEVSTUNIK_OK},
    {"messages_limit", limiting, FEVSTUNIK_OK},
    {"messages_free", freeing_mine, FEVSTUNIK_OK},
    {"messages_free of the other side", freeing_theirs, FEVSTUNIK_OK},
};
#define STEPS (sizeof steps / sizeof steps[0])

/* Ends the program if a step doesn't answer as it should. */
static void is_code(const struct step *step, fevstunik_answer answer)
{
    if (answer.code == step->code)
        return;
    printf("wrong: %s of type %d: %u, not %u\n", step->name, type(), answer.code, step->code);
    exit(1);
}

#endif
