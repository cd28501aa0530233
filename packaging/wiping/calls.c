/* Made from crates/krb_c/interface.toml by `make generate`. Don't edit this file. */
/* The functions of the library for C. Each calls the proved function, and then overwrites the stack that the call left behind. */
#include <string.h>

#include "depths.h"
#include "fevstunik.h"
#include "wipe.h"

uint32_t proved_version(void);
uint32_t fevstunik_version(void)
{
    uint32_t number = proved_version();

    wipe_below(DEPTH_OF_VERSION);
    return number;
}

fevstunik_answer proved_keytab_check(const uint8_t *keytab, size_t keytab_size);
fevstunik_answer fevstunik_keytab_check(const uint8_t *keytab, size_t keytab_size)
{
    fevstunik_answer answer = proved_keytab_check(keytab, keytab_size);

    wipe_below(DEPTH_OF_KEYTAB_CHECK);
    return answer;
}

fevstunik_answer proved_cache_check(const uint8_t *cache, size_t cache_size);
fevstunik_answer fevstunik_cache_check(const uint8_t *cache, size_t cache_size)
{
    fevstunik_answer answer = proved_cache_check(cache, cache_size);

    wipe_below(DEPTH_OF_CACHE_CHECK);
    return answer;
}

fevstunik_answer proved_keytab_new(fevstunik_keytab *keytab, const uint8_t *file, size_t file_size);
fevstunik_answer fevstunik_keytab_new(fevstunik_keytab *keytab, const uint8_t *file, size_t file_size)
{
    fevstunik_answer answer = proved_keytab_new(keytab, file, file_size);

    wipe_below(DEPTH_OF_KEYTAB_NEW);
    return answer;
}

fevstunik_answer proved_keytab_entry(fevstunik_keytab *keytab, size_t index, fevstunik_key_entry *entry, uint8_t *buffer,
                                     size_t buffer_size);
fevstunik_answer fevstunik_keytab_entry(fevstunik_keytab *keytab, size_t index, fevstunik_key_entry *entry, uint8_t *buffer,
                                        size_t buffer_size)
{
    fevstunik_answer answer = proved_keytab_entry(keytab, index, entry, buffer, buffer_size);

    wipe_below(DEPTH_OF_KEYTAB_ENTRY);
    return answer;
}

void proved_keytab_free(fevstunik_keytab *keytab);
void fevstunik_keytab_free(fevstunik_keytab *keytab)
{
    proved_keytab_free(keytab);
    wipe_below(DEPTH_OF_KEYTAB_FREE);
}

fevstunik_answer proved_cache_new(fevstunik_cache *cache, const uint8_t *file, size_t file_size);
fevstunik_answer fevstunik_cache_new(fevstunik_cache *cache, const uint8_t *file, size_t file_size)
{
    fevstunik_answer answer = proved_cache_new(cache, file, file_size);

    wipe_below(DEPTH_OF_CACHE_NEW);
    return answer;
}

fevstunik_answer proved_cache_credential(fevstunik_cache *cache, size_t index, fevstunik_cache_entry *credential, uint8_t *buffer,
                                         size_t buffer_size);
fevstunik_answer fevstunik_cache_credential(fevstunik_cache *cache, size_t index, fevstunik_cache_entry *credential, uint8_t *buffer,
                                            size_t buffer_size)
{
    fevstunik_answer answer = proved_cache_credential(cache, index, credential, buffer, buffer_size);

    wipe_below(DEPTH_OF_CACHE_CREDENTIAL);
    return answer;
}

fevstunik_answer proved_cache_owner(fevstunik_cache *cache, fevstunik_owner *owner, uint8_t *buffer, size_t buffer_size);
fevstunik_answer fevstunik_cache_owner(fevstunik_cache *cache, fevstunik_owner *owner, uint8_t *buffer, size_t buffer_size)
{
    fevstunik_answer answer = proved_cache_owner(cache, owner, buffer, buffer_size);

    wipe_below(DEPTH_OF_CACHE_OWNER);
    return answer;
}

void proved_cache_free(fevstunik_cache *cache);
void fevstunik_cache_free(fevstunik_cache *cache)
{
    proved_cache_free(cache);
    wipe_below(DEPTH_OF_CACHE_FREE);
}

fevstunik_answer proved_keytab_add(const uint8_t *keytab, size_t keytab_size, const uint8_t *name, size_t name_size, const uint8_t *key,
                                   size_t key_size, const fevstunik_key_parts *parts, uint8_t *buffer, size_t buffer_size);
fevstunik_answer fevstunik_keytab_add(const uint8_t *keytab, size_t keytab_size, const uint8_t *name, size_t name_size, const uint8_t *key,
                                      size_t key_size, const fevstunik_key_parts *parts, uint8_t *buffer, size_t buffer_size)
{
    fevstunik_answer answer = proved_keytab_add(keytab, keytab_size, name, name_size, key, key_size, parts, buffer, buffer_size);

    wipe_below(DEPTH_OF_KEYTAB_ADD);
    return answer;
}

fevstunik_answer proved_keytab_remove(const uint8_t *keytab, size_t keytab_size, size_t index, uint8_t *buffer, size_t buffer_size);
fevstunik_answer fevstunik_keytab_remove(const uint8_t *keytab, size_t keytab_size, size_t index, uint8_t *buffer, size_t buffer_size)
{
    fevstunik_answer answer = proved_keytab_remove(keytab, keytab_size, index, buffer, buffer_size);

    wipe_below(DEPTH_OF_KEYTAB_REMOVE);
    return answer;
}

fevstunik_answer proved_keytab_write(const uint8_t *keytab, size_t keytab_size, uint8_t *buffer, size_t buffer_size);
fevstunik_answer fevstunik_keytab_write(const uint8_t *keytab, size_t keytab_size, uint8_t *buffer, size_t buffer_size)
{
    fevstunik_answer answer = proved_keytab_write(keytab, keytab_size, buffer, buffer_size);

    wipe_below(DEPTH_OF_KEYTAB_WRITE);
    return answer;
}

fevstunik_answer proved_name_check(const uint8_t *name, size_t name_size);
fevstunik_answer fevstunik_name_check(const uint8_t *name, size_t name_size)
{
    fevstunik_answer answer = proved_name_check(name, name_size);

    wipe_below(DEPTH_OF_NAME_CHECK);
    return answer;
}

fevstunik_answer proved_acceptor_new(fevstunik_acceptor *handle, const uint8_t *keytab, size_t keytab_size, const uint8_t *service,
                                     size_t service_size, const fevstunik_acceptor_options *options);
/* (a check of the stack would be for the array in the copy, past which nothing is written) */
__attribute__((no_stack_protector))
fevstunik_answer fevstunik_acceptor_new(fevstunik_acceptor *handle, const uint8_t *keytab, size_t keytab_size, const uint8_t *service,
                                        size_t service_size, const fevstunik_acceptor_options *options)
{
    fevstunik_acceptor_options whole_options = {0};

    memcpy(&whole_options, options, options->size < sizeof whole_options ? options->size : sizeof whole_options);
    fevstunik_answer answer = proved_acceptor_new(handle, keytab, keytab_size, service, service_size, &whole_options);

    wipe_below(DEPTH_OF_ACCEPTOR_NEW);
    return answer;
}

fevstunik_answer proved_acceptor_replace_keytab(fevstunik_acceptor *handle, const uint8_t *keytab, size_t keytab_size,
                                                const uint8_t *service, size_t service_size, bool any_name);
fevstunik_answer fevstunik_acceptor_replace_keytab(fevstunik_acceptor *handle, const uint8_t *keytab, size_t keytab_size,
                                                   const uint8_t *service, size_t service_size, bool any_name)
{
    fevstunik_answer answer = proved_acceptor_replace_keytab(handle, keytab, keytab_size, service, service_size, any_name);

    wipe_below(DEPTH_OF_ACCEPTOR_REPLACE_KEYTAB);
    return answer;
}

fevstunik_answer proved_accepted_new(fevstunik_accepted *accepted);
fevstunik_answer fevstunik_accepted_new(fevstunik_accepted *accepted)
{
    fevstunik_answer answer = proved_accepted_new(accepted);

    wipe_below(DEPTH_OF_ACCEPTED_NEW);
    return answer;
}

fevstunik_answer proved_acceptor_accept(fevstunik_acceptor *handle, fevstunik_accepted *accepted, const uint8_t *request,
                                        size_t request_size, const fevstunik_time *now);
fevstunik_answer fevstunik_acceptor_accept(fevstunik_acceptor *handle, fevstunik_accepted *accepted, const uint8_t *request,
                                           size_t request_size, const fevstunik_time *now)
{
    fevstunik_answer answer = proved_acceptor_accept(handle, accepted, request, request_size, now);

    wipe_below(DEPTH_OF_ACCEPTOR_ACCEPT);
    return answer;
}

fevstunik_answer proved_accepted_known(fevstunik_accepted *accepted, fevstunik_known *known, uint8_t *buffer, size_t buffer_size);
fevstunik_answer fevstunik_accepted_known(fevstunik_accepted *accepted, fevstunik_known *known, uint8_t *buffer, size_t buffer_size)
{
    fevstunik_answer answer = proved_accepted_known(accepted, known, buffer, buffer_size);

    wipe_below(DEPTH_OF_ACCEPTED_KNOWN);
    return answer;
}

fevstunik_answer proved_accepted_stamp(fevstunik_accepted *accepted, uint32_t skew, fevstunik_time *keep_until, uint8_t *buffer,
                                       size_t buffer_size);
fevstunik_answer fevstunik_accepted_stamp(fevstunik_accepted *accepted, uint32_t skew, fevstunik_time *keep_until, uint8_t *buffer,
                                          size_t buffer_size)
{
    fevstunik_answer answer = proved_accepted_stamp(accepted, skew, keep_until, buffer, buffer_size);

    wipe_below(DEPTH_OF_ACCEPTED_STAMP);
    return answer;
}

fevstunik_answer proved_accepted_start(fevstunik_accepted *accepted, fevstunik_time *start);
fevstunik_answer fevstunik_accepted_start(fevstunik_accepted *accepted, fevstunik_time *start)
{
    fevstunik_answer answer = proved_accepted_start(accepted, start);

    wipe_below(DEPTH_OF_ACCEPTED_START);
    return answer;
}

fevstunik_answer proved_accepted_sent(fevstunik_accepted *accepted);
fevstunik_answer fevstunik_accepted_sent(fevstunik_accepted *accepted)
{
    fevstunik_answer answer = proved_accepted_sent(accepted);

    wipe_below(DEPTH_OF_ACCEPTED_SENT);
    return answer;
}

fevstunik_answer proved_accepted_count(fevstunik_accepted *accepted, uint32_t list);
fevstunik_answer fevstunik_accepted_count(fevstunik_accepted *accepted, uint32_t list)
{
    fevstunik_answer answer = proved_accepted_count(accepted, list);

    wipe_below(DEPTH_OF_ACCEPTED_COUNT);
    return answer;
}

fevstunik_answer proved_accepted_item(fevstunik_accepted *accepted, uint32_t list, size_t index, int32_t *kind, uint8_t *buffer,
                                      size_t buffer_size);
fevstunik_answer fevstunik_accepted_item(fevstunik_accepted *accepted, uint32_t list, size_t index, int32_t *kind, uint8_t *buffer,
                                         size_t buffer_size)
{
    fevstunik_answer answer = proved_accepted_item(accepted, list, index, kind, buffer, buffer_size);

    wipe_below(DEPTH_OF_ACCEPTED_ITEM);
    return answer;
}

fevstunik_answer proved_accepted_reply(fevstunik_accepted *accepted, const uint8_t *confounder, size_t confounder_size,
                                       const fevstunik_choice *choice, const uint8_t *subkey, size_t subkey_size, uint8_t *buffer,
                                       size_t buffer_size);
fevstunik_answer fevstunik_accepted_reply(fevstunik_accepted *accepted, const uint8_t *confounder, size_t confounder_size,
                                          const fevstunik_choice *choice, const uint8_t *subkey, size_t subkey_size, uint8_t *buffer,
                                          size_t buffer_size)
{
    fevstunik_answer answer = proved_accepted_reply(accepted, confounder, confounder_size, choice, subkey, subkey_size, buffer,
                                                    buffer_size);

    wipe_below(DEPTH_OF_ACCEPTED_REPLY);
    return answer;
}

void proved_accepted_free(fevstunik_accepted *accepted);
void fevstunik_accepted_free(fevstunik_accepted *accepted)
{
    proved_accepted_free(accepted);
    wipe_below(DEPTH_OF_ACCEPTED_FREE);
}

fevstunik_answer proved_acceptor_error(fevstunik_acceptor *handle, const uint8_t *service, size_t service_size, int32_t name_type,
                                       const fevstunik_time *now, uint8_t *buffer, size_t buffer_size);
fevstunik_answer fevstunik_acceptor_error(fevstunik_acceptor *handle, const uint8_t *service, size_t service_size, int32_t name_type,
                                          const fevstunik_time *now, uint8_t *buffer, size_t buffer_size)
{
    fevstunik_answer answer = proved_acceptor_error(handle, service, service_size, name_type, now, buffer, buffer_size);

    wipe_below(DEPTH_OF_ACCEPTOR_ERROR);
    return answer;
}

fevstunik_answer proved_error(uint32_t code, const uint8_t *service, size_t service_size, int32_t name_type, const fevstunik_time *now,
                              uint8_t *buffer, size_t buffer_size);
fevstunik_answer fevstunik_error(uint32_t code, const uint8_t *service, size_t service_size, int32_t name_type, const fevstunik_time *now,
                                 uint8_t *buffer, size_t buffer_size)
{
    fevstunik_answer answer = proved_error(code, service, service_size, name_type, now, buffer, buffer_size);

    wipe_below(DEPTH_OF_ERROR);
    return answer;
}

size_t proved_acceptor_count(fevstunik_acceptor *handle);
size_t fevstunik_acceptor_count(fevstunik_acceptor *handle)
{
    size_t number = proved_acceptor_count(handle);

    wipe_below(DEPTH_OF_ACCEPTOR_COUNT);
    return number;
}

fevstunik_answer proved_acceptor_usage(fevstunik_acceptor *handle, fevstunik_usage *usage);
fevstunik_answer fevstunik_acceptor_usage(fevstunik_acceptor *handle, fevstunik_usage *usage)
{
    fevstunik_answer answer = proved_acceptor_usage(handle, usage);

    wipe_below(DEPTH_OF_ACCEPTOR_USAGE);
    return answer;
}

fevstunik_answer proved_acceptor_latest(fevstunik_acceptor *handle, fevstunik_time *latest);
fevstunik_answer fevstunik_acceptor_latest(fevstunik_acceptor *handle, fevstunik_time *latest)
{
    fevstunik_answer answer = proved_acceptor_latest(handle, latest);

    wipe_below(DEPTH_OF_ACCEPTOR_LATEST);
    return answer;
}

fevstunik_answer proved_acceptor_add_realm(fevstunik_acceptor *handle, const uint8_t *realm, size_t realm_size);
fevstunik_answer fevstunik_acceptor_add_realm(fevstunik_acceptor *handle, const uint8_t *realm, size_t realm_size)
{
    fevstunik_answer answer = proved_acceptor_add_realm(handle, realm, realm_size);

    wipe_below(DEPTH_OF_ACCEPTOR_ADD_REALM);
    return answer;
}

fevstunik_answer proved_acceptor_replace_bindings(fevstunik_acceptor *handle, uint32_t bindings, const uint8_t *hash, size_t hash_size);
fevstunik_answer fevstunik_acceptor_replace_bindings(fevstunik_acceptor *handle, uint32_t bindings, const uint8_t *hash, size_t hash_size)
{
    fevstunik_answer answer = proved_acceptor_replace_bindings(handle, bindings, hash, hash_size);

    wipe_below(DEPTH_OF_ACCEPTOR_REPLACE_BINDINGS);
    return answer;
}

void proved_acceptor_free(fevstunik_acceptor *handle);
void fevstunik_acceptor_free(fevstunik_acceptor *handle)
{
    proved_acceptor_free(handle);
    wipe_below(DEPTH_OF_ACCEPTOR_FREE);
}

fevstunik_answer proved_service_answer(fevstunik_acceptor *service, fevstunik_login *login, const uint8_t *input, size_t input_size,
                                       const fevstunik_time *now, const uint8_t *random, size_t random_size, uint8_t *out, size_t out_size);
fevstunik_answer fevstunik_service_answer(fevstunik_acceptor *service, fevstunik_login *login, const uint8_t *input, size_t input_size,
                                          const fevstunik_time *now, const uint8_t *random, size_t random_size, uint8_t *out,
                                          size_t out_size)
{
    fevstunik_answer answer = proved_service_answer(service, login, input, input_size, now, random, random_size, out, out_size);

    wipe_below(DEPTH_OF_SERVICE_ANSWER);
    return answer;
}

fevstunik_answer proved_login_answer(fevstunik_login *login, uint8_t *out, size_t out_size);
fevstunik_answer fevstunik_login_answer(fevstunik_login *login, uint8_t *out, size_t out_size)
{
    fevstunik_answer answer = proved_login_answer(login, out, out_size);

    wipe_below(DEPTH_OF_LOGIN_ANSWER);
    return answer;
}

fevstunik_answer proved_login_stamp(fevstunik_login *login, fevstunik_time *keep_until, uint8_t *buffer, size_t buffer_size);
fevstunik_answer fevstunik_login_stamp(fevstunik_login *login, fevstunik_time *keep_until, uint8_t *buffer, size_t buffer_size)
{
    fevstunik_answer answer = proved_login_stamp(login, keep_until, buffer, buffer_size);

    wipe_below(DEPTH_OF_LOGIN_STAMP);
    return answer;
}

fevstunik_answer proved_login_settle(fevstunik_login *login, uint32_t said, const fevstunik_time *now, uint8_t *out, size_t out_size);
fevstunik_answer fevstunik_login_settle(fevstunik_login *login, uint32_t said, const fevstunik_time *now, uint8_t *out, size_t out_size)
{
    fevstunik_answer answer = proved_login_settle(login, said, now, out, out_size);

    wipe_below(DEPTH_OF_LOGIN_SETTLE);
    return answer;
}

fevstunik_answer proved_login_asked(fevstunik_login *login, fevstunik_asked *asked, uint8_t *buffer, size_t buffer_size);
fevstunik_answer fevstunik_login_asked(fevstunik_login *login, fevstunik_asked *asked, uint8_t *buffer, size_t buffer_size)
{
    fevstunik_answer answer = proved_login_asked(login, asked, buffer, buffer_size);

    wipe_below(DEPTH_OF_LOGIN_ASKED);
    return answer;
}

void proved_login_free(fevstunik_login *login);
void fevstunik_login_free(fevstunik_login *login)
{
    proved_login_free(login);
    wipe_below(DEPTH_OF_LOGIN_FREE);
}

fevstunik_answer proved_request_asks(const uint8_t *request, size_t request_size, fevstunik_asked *asked, uint8_t *buffer,
                                     size_t buffer_size);
fevstunik_answer fevstunik_request_asks(const uint8_t *request, size_t request_size, fevstunik_asked *asked, uint8_t *buffer,
                                        size_t buffer_size)
{
    fevstunik_answer answer = proved_request_asks(request, request_size, asked, buffer, buffer_size);

    wipe_below(DEPTH_OF_REQUEST_ASKS);
    return answer;
}

fevstunik_answer proved_request(fevstunik_cache *cache, fevstunik_pending *pending, const uint8_t *service, size_t service_size,
                                const fevstunik_time *at, const uint8_t *confounder, size_t confounder_size, const fevstunik_choice *choice,
                                const uint8_t *subkey, size_t subkey_size, uint8_t *buffer, size_t buffer_size);
fevstunik_answer fevstunik_request(fevstunik_cache *cache, fevstunik_pending *pending, const uint8_t *service, size_t service_size,
                                   const fevstunik_time *at, const uint8_t *confounder, size_t confounder_size,
                                   const fevstunik_choice *choice, const uint8_t *subkey, size_t subkey_size, uint8_t *buffer,
                                   size_t buffer_size)
{
    fevstunik_answer answer = proved_request(cache, pending, service, service_size, at, confounder, confounder_size, choice, subkey,
                                             subkey_size, buffer, buffer_size);

    wipe_below(DEPTH_OF_REQUEST);
    return answer;
}

fevstunik_answer proved_context_request(fevstunik_cache *cache, fevstunik_pending *pending, const uint8_t *service, size_t service_size,
                                        const fevstunik_time *at, const uint8_t *confounder, size_t confounder_size,
                                        const fevstunik_choice *choice, const uint8_t *subkey, size_t subkey_size,
                                        const fevstunik_context_choice *context, uint8_t *buffer, size_t buffer_size);
fevstunik_answer fevstunik_context_request(fevstunik_cache *cache, fevstunik_pending *pending, const uint8_t *service, size_t service_size,
                                           const fevstunik_time *at, const uint8_t *confounder, size_t confounder_size,
                                           const fevstunik_choice *choice, const uint8_t *subkey, size_t subkey_size,
                                           const fevstunik_context_choice *context, uint8_t *buffer, size_t buffer_size)
{
    fevstunik_answer answer = proved_context_request(cache, pending, service, service_size, at, confounder, confounder_size, choice, subkey,
                                                     subkey_size, context, buffer, buffer_size);

    wipe_below(DEPTH_OF_CONTEXT_REQUEST);
    return answer;
}

fevstunik_answer proved_finish(fevstunik_pending *pending, const uint8_t *reply, size_t reply_size, fevstunik_agreement *agreement,
                               uint8_t *buffer, size_t buffer_size);
fevstunik_answer fevstunik_finish(fevstunik_pending *pending, const uint8_t *reply, size_t reply_size, fevstunik_agreement *agreement,
                                  uint8_t *buffer, size_t buffer_size)
{
    fevstunik_answer answer = proved_finish(pending, reply, reply_size, agreement, buffer, buffer_size);

    wipe_below(DEPTH_OF_FINISH);
    return answer;
}

void proved_pending_free(fevstunik_pending *pending);
void fevstunik_pending_free(fevstunik_pending *pending)
{
    proved_pending_free(pending);
    wipe_below(DEPTH_OF_PENDING_FREE);
}

fevstunik_answer proved_seal(int32_t key_type, const uint8_t *key, size_t key_size, uint32_t usage, const uint8_t *confounder,
                             size_t confounder_size, const uint8_t *plain, size_t plain_size, uint8_t *buffer, size_t buffer_size);
fevstunik_answer fevstunik_seal(int32_t key_type, const uint8_t *key, size_t key_size, uint32_t usage, const uint8_t *confounder,
                                size_t confounder_size, const uint8_t *plain, size_t plain_size, uint8_t *buffer, size_t buffer_size)
{
    fevstunik_answer answer = proved_seal(key_type, key, key_size, usage, confounder, confounder_size, plain, plain_size, buffer,
                                          buffer_size);

    wipe_below(DEPTH_OF_SEAL);
    return answer;
}

fevstunik_answer proved_open(int32_t key_type, const uint8_t *key, size_t key_size, uint32_t usage, const uint8_t *text, size_t text_size,
                             uint8_t *buffer, size_t buffer_size);
fevstunik_answer fevstunik_open(int32_t key_type, const uint8_t *key, size_t key_size, uint32_t usage, const uint8_t *text,
                                size_t text_size, uint8_t *buffer, size_t buffer_size)
{
    fevstunik_answer answer = proved_open(key_type, key, key_size, usage, text, text_size, buffer, buffer_size);

    wipe_below(DEPTH_OF_OPEN);
    return answer;
}

fevstunik_answer proved_checksum(int32_t key_type, const uint8_t *key, size_t key_size, uint32_t usage, const uint8_t *text,
                                 size_t text_size, uint8_t *buffer, size_t buffer_size);
fevstunik_answer fevstunik_checksum(int32_t key_type, const uint8_t *key, size_t key_size, uint32_t usage, const uint8_t *text,
                                    size_t text_size, uint8_t *buffer, size_t buffer_size)
{
    fevstunik_answer answer = proved_checksum(key_type, key, key_size, usage, text, text_size, buffer, buffer_size);

    wipe_below(DEPTH_OF_CHECKSUM);
    return answer;
}

fevstunik_answer proved_checksum_check(int32_t key_type, const uint8_t *key, size_t key_size, uint32_t usage, const uint8_t *text,
                                       size_t text_size, const uint8_t *tag, size_t tag_size);
fevstunik_answer fevstunik_checksum_check(int32_t key_type, const uint8_t *key, size_t key_size, uint32_t usage, const uint8_t *text,
                                          size_t text_size, const uint8_t *tag, size_t tag_size)
{
    fevstunik_answer answer = proved_checksum_check(key_type, key, key_size, usage, text, text_size, tag, tag_size);

    wipe_below(DEPTH_OF_CHECKSUM_CHECK);
    return answer;
}

fevstunik_answer proved_token_open(const uint8_t *token, size_t token_size, fevstunik_wrapped *wrapped, uint8_t *buffer,
                                   size_t buffer_size);
fevstunik_answer fevstunik_token_open(const uint8_t *token, size_t token_size, fevstunik_wrapped *wrapped, uint8_t *buffer,
                                      size_t buffer_size)
{
    fevstunik_answer answer = proved_token_open(token, token_size, wrapped, buffer, buffer_size);

    wipe_below(DEPTH_OF_TOKEN_OPEN);
    return answer;
}

fevstunik_answer proved_token_request(const fevstunik_wrapped *wrapped, const uint8_t *request, size_t request_size, uint8_t *buffer,
                                      size_t buffer_size);
fevstunik_answer fevstunik_token_request(const fevstunik_wrapped *wrapped, const uint8_t *request, size_t request_size, uint8_t *buffer,
                                         size_t buffer_size)
{
    fevstunik_answer answer = proved_token_request(wrapped, request, request_size, buffer, buffer_size);

    wipe_below(DEPTH_OF_TOKEN_REQUEST);
    return answer;
}

fevstunik_answer proved_token_reply(const fevstunik_wrapped *wrapped, const uint8_t *reply, size_t reply_size, uint8_t *buffer,
                                    size_t buffer_size);
fevstunik_answer fevstunik_token_reply(const fevstunik_wrapped *wrapped, const uint8_t *reply, size_t reply_size, uint8_t *buffer,
                                       size_t buffer_size)
{
    fevstunik_answer answer = proved_token_reply(wrapped, reply, reply_size, buffer, buffer_size);

    wipe_below(DEPTH_OF_TOKEN_REPLY);
    return answer;
}

fevstunik_answer proved_token_error(const fevstunik_wrapped *wrapped, const uint8_t *error, size_t error_size, uint8_t *buffer,
                                    size_t buffer_size);
fevstunik_answer fevstunik_token_error(const fevstunik_wrapped *wrapped, const uint8_t *error, size_t error_size, uint8_t *buffer,
                                       size_t buffer_size)
{
    fevstunik_answer answer = proved_token_error(wrapped, error, error_size, buffer, buffer_size);

    wipe_below(DEPTH_OF_TOKEN_ERROR);
    return answer;
}

fevstunik_answer proved_token_answer(const uint8_t *token, size_t token_size, bool *is_error, uint8_t *buffer, size_t buffer_size);
fevstunik_answer fevstunik_token_answer(const uint8_t *token, size_t token_size, bool *is_error, uint8_t *buffer, size_t buffer_size)
{
    fevstunik_answer answer = proved_token_answer(token, token_size, is_error, buffer, buffer_size);

    wipe_below(DEPTH_OF_TOKEN_ANSWER);
    return answer;
}

fevstunik_answer proved_negotiation_take(fevstunik_negotiation *negotiation, const uint8_t *token, size_t token_size,
                                         fevstunik_wrapped *wrapped, uint8_t *buffer, size_t buffer_size);
fevstunik_answer fevstunik_negotiation_take(fevstunik_negotiation *negotiation, const uint8_t *token, size_t token_size,
                                            fevstunik_wrapped *wrapped, uint8_t *buffer, size_t buffer_size)
{
    fevstunik_answer answer = proved_negotiation_take(negotiation, token, token_size, wrapped, buffer, buffer_size);

    wipe_below(DEPTH_OF_NEGOTIATION_TAKE);
    return answer;
}

fevstunik_answer proved_krb_error_read(const uint8_t *error, size_t error_size, fevstunik_krb_error *found, uint8_t *buffer,
                                       size_t buffer_size);
fevstunik_answer fevstunik_krb_error_read(const uint8_t *error, size_t error_size, fevstunik_krb_error *found, uint8_t *buffer,
                                          size_t buffer_size)
{
    fevstunik_answer answer = proved_krb_error_read(error, error_size, found, buffer, buffer_size);

    wipe_below(DEPTH_OF_KRB_ERROR_READ);
    return answer;
}

fevstunik_answer proved_verdict_token(const fevstunik_verdict *verdict, uint8_t *buffer, size_t buffer_size);
fevstunik_answer fevstunik_verdict_token(const fevstunik_verdict *verdict, uint8_t *buffer, size_t buffer_size)
{
    fevstunik_answer answer = proved_verdict_token(verdict, buffer, buffer_size);

    wipe_below(DEPTH_OF_VERDICT_TOKEN);
    return answer;
}

fevstunik_answer proved_verdict_read(const uint8_t *token, size_t token_size, fevstunik_verdict *verdict);
fevstunik_answer fevstunik_verdict_read(const uint8_t *token, size_t token_size, fevstunik_verdict *verdict)
{
    fevstunik_answer answer = proved_verdict_read(token, token_size, verdict);

    wipe_below(DEPTH_OF_VERDICT_READ);
    return answer;
}

fevstunik_answer proved_context_read(const uint8_t *checksum, size_t checksum_size, fevstunik_context *context, uint8_t *buffer,
                                     size_t buffer_size);
fevstunik_answer fevstunik_context_read(const uint8_t *checksum, size_t checksum_size, fevstunik_context *context, uint8_t *buffer,
                                        size_t buffer_size)
{
    fevstunik_answer answer = proved_context_read(checksum, checksum_size, context, buffer, buffer_size);

    wipe_below(DEPTH_OF_CONTEXT_READ);
    return answer;
}

fevstunik_answer proved_bindings_hash(const uint8_t *bindings, size_t bindings_size, uint8_t *buffer, size_t buffer_size);
fevstunik_answer fevstunik_bindings_hash(const uint8_t *bindings, size_t bindings_size, uint8_t *buffer, size_t buffer_size)
{
    fevstunik_answer answer = proved_bindings_hash(bindings, bindings_size, buffer, buffer_size);

    wipe_below(DEPTH_OF_BINDINGS_HASH);
    return answer;
}

fevstunik_answer proved_messages_new(fevstunik_messages *messages, const fevstunik_message_options *options, const uint8_t *session_key,
                                     size_t session_key_size, const uint8_t *client_subkey, size_t client_subkey_size,
                                     const uint8_t *service_subkey, size_t service_subkey_size);
fevstunik_answer fevstunik_messages_new(fevstunik_messages *messages, const fevstunik_message_options *options, const uint8_t *session_key,
                                        size_t session_key_size, const uint8_t *client_subkey, size_t client_subkey_size,
                                        const uint8_t *service_subkey, size_t service_subkey_size)
{
    fevstunik_answer answer = proved_messages_new(messages, options, session_key, session_key_size, client_subkey, client_subkey_size,
                                                  service_subkey, service_subkey_size);

    wipe_below(DEPTH_OF_MESSAGES_NEW);
    return answer;
}

fevstunik_answer proved_messages_after_list(fevstunik_messages *messages, const fevstunik_message_options *options,
                                            const uint8_t *session_key, size_t session_key_size, const uint8_t *client_subkey,
                                            size_t client_subkey_size, const uint8_t *service_subkey, size_t service_subkey_size);
fevstunik_answer fevstunik_messages_after_list(fevstunik_messages *messages, const fevstunik_message_options *options,
                                               const uint8_t *session_key, size_t session_key_size, const uint8_t *client_subkey,
                                               size_t client_subkey_size, const uint8_t *service_subkey, size_t service_subkey_size)
{
    fevstunik_answer answer = proved_messages_after_list(messages, options, session_key, session_key_size, client_subkey,
                                                         client_subkey_size, service_subkey, service_subkey_size);

    wipe_below(DEPTH_OF_MESSAGES_AFTER_LIST);
    return answer;
}

fevstunik_answer proved_messages_of_accepted(fevstunik_messages *messages, fevstunik_accepted *accepted, const fevstunik_choice *choice,
                                             const uint8_t *subkey, size_t subkey_size, bool any_order);
fevstunik_answer fevstunik_messages_of_accepted(fevstunik_messages *messages, fevstunik_accepted *accepted, const fevstunik_choice *choice,
                                                const uint8_t *subkey, size_t subkey_size, bool any_order)
{
    fevstunik_answer answer = proved_messages_of_accepted(messages, accepted, choice, subkey, subkey_size, any_order);

    wipe_below(DEPTH_OF_MESSAGES_OF_ACCEPTED);
    return answer;
}

fevstunik_answer proved_messages_mic(fevstunik_messages *messages, const uint8_t *text, size_t text_size, uint8_t *buffer,
                                     size_t buffer_size);
fevstunik_answer fevstunik_messages_mic(fevstunik_messages *messages, const uint8_t *text, size_t text_size, uint8_t *buffer,
                                        size_t buffer_size)
{
    fevstunik_answer answer = proved_messages_mic(messages, text, text_size, buffer, buffer_size);

    wipe_below(DEPTH_OF_MESSAGES_MIC);
    return answer;
}

fevstunik_answer proved_messages_verify(fevstunik_messages *messages, const uint8_t *text, size_t text_size, const uint8_t *token,
                                        size_t token_size, fevstunik_received *received);
fevstunik_answer fevstunik_messages_verify(fevstunik_messages *messages, const uint8_t *text, size_t text_size, const uint8_t *token,
                                           size_t token_size, fevstunik_received *received)
{
    fevstunik_answer answer = proved_messages_verify(messages, text, text_size, token, token_size, received);

    wipe_below(DEPTH_OF_MESSAGES_VERIFY);
    return answer;
}

fevstunik_answer proved_messages_wrap(fevstunik_messages *messages, bool sealed, const uint8_t *confounder, size_t confounder_size,
                                      const uint8_t *text, size_t text_size, uint8_t *buffer, size_t buffer_size);
fevstunik_answer fevstunik_messages_wrap(fevstunik_messages *messages, bool sealed, const uint8_t *confounder, size_t confounder_size,
                                         const uint8_t *text, size_t text_size, uint8_t *buffer, size_t buffer_size)
{
    fevstunik_answer answer = proved_messages_wrap(messages, sealed, confounder, confounder_size, text, text_size, buffer, buffer_size);

    wipe_below(DEPTH_OF_MESSAGES_WRAP);
    return answer;
}

fevstunik_answer proved_messages_unwrap(fevstunik_messages *messages, uint8_t *token, size_t token_size, fevstunik_received *received);
fevstunik_answer fevstunik_messages_unwrap(fevstunik_messages *messages, uint8_t *token, size_t token_size, fevstunik_received *received)
{
    fevstunik_answer answer = proved_messages_unwrap(messages, token, token_size, received);

    wipe_below(DEPTH_OF_MESSAGES_UNWRAP);
    return answer;
}

fevstunik_answer proved_messages_limit(fevstunik_messages *messages, bool sealed, size_t size);
fevstunik_answer fevstunik_messages_limit(fevstunik_messages *messages, bool sealed, size_t size)
{
    fevstunik_answer answer = proved_messages_limit(messages, sealed, size);

    wipe_below(DEPTH_OF_MESSAGES_LIMIT);
    return answer;
}

void proved_messages_free(fevstunik_messages *messages);
void fevstunik_messages_free(fevstunik_messages *messages)
{
    proved_messages_free(messages);
    wipe_below(DEPTH_OF_MESSAGES_FREE);
}
