/* Made from crates/krb_c/interface.toml by `make generate`. Don't edit this file. */
/* Structs that the library fills in, compared field by field, and how large the library takes the options to be. */
#ifndef STRUCTS_H
#define STRUCTS_H

#include "checks.h"

#define OPTIONS_SIZE 88

static inline void is_field(const char *what, const char *field, long long found, long long wanted)
{
    char both[128];

    snprintf(both, sizeof both, "%s, its %s", what, field);
    is(both, found, wanted);
}

#define SAME(field) is_field(what, #field, (long long)found->field, (long long)wanted->field)
#define SAME_SPAN(span) (SAME(span.at), SAME(span.size))

static inline void is_known(const char *what, const fevstunik_known *found, const fevstunik_known *wanted)
{
    SAME_SPAN(client);
    SAME_SPAN(session_key);
    SAME_SPAN(subkey);
    SAME_SPAN(service);
    SAME(authtime);
    SAME(endtime);
    SAME(ctime);
    SAME(cusec);
    SAME(flags);
    SAME(seq);
    SAME(name_type);
    SAME(service_type);
    SAME(session_type);
    SAME(subkey_type);
    SAME(has_subkey);
    SAME(has_seq);
    SAME(wants_reply);
}

static inline void is_agreement(const char *what, const fevstunik_agreement *found, const fevstunik_agreement *wanted)
{
    SAME_SPAN(client);
    SAME_SPAN(session_key);
    SAME_SPAN(service_subkey);
    SAME(service_seq);
    SAME(name_type);
    SAME(session_type);
    SAME(service_subkey_type);
    SAME(has_service_subkey);
    SAME(has_service_seq);
}

static inline void is_entry(const char *what, const fevstunik_key_entry *found, const fevstunik_key_entry *wanted)
{
    SAME_SPAN(name);
    SAME_SPAN(key);
    SAME(timestamp);
    SAME(kvno);
    SAME(name_type);
    SAME(key_type);
}

static inline void is_credential(const char *what, const fevstunik_cache_entry *found, const fevstunik_cache_entry *wanted)
{
    SAME_SPAN(client);
    SAME_SPAN(server);
    SAME_SPAN(key);
    SAME_SPAN(ticket);
    SAME(authtime);
    SAME(starttime);
    SAME(endtime);
    SAME(renew_till);
    SAME(flags);
    SAME(client_type);
    SAME(server_type);
    SAME(key_type);
    SAME(is_skey);
}

static inline void is_owner(const char *what, const fevstunik_owner *found, const fevstunik_owner *wanted)
{
    SAME_SPAN(name);
    SAME(name_type);
    SAME(offset_seconds);
    SAME(offset_micros);
    SAME(has_offset);
}

static inline void is_asked(const char *what, const fevstunik_asked *found, const fevstunik_asked *wanted)
{
    SAME_SPAN(service);
    SAME(etype);
    SAME(kvno);
    SAME(service_type);
    SAME(has_kvno);
    SAME(wants_reply);
}

static inline void is_received(const char *what, const fevstunik_received *found, const fevstunik_received *wanted)
{
    SAME(number);
    SAME_SPAN(text);
    SAME(order);
    SAME(sealed);
}

#endif
