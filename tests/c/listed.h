/* An item of a file that is read for it alone. */
#ifndef LISTED_H
#define LISTED_H

#include "fevstunik.h"

static inline fevstunik_answer entry_in(const uint8_t *file, size_t size, size_t index, fevstunik_key_entry *entry, uint8_t *to, size_t room)
{
    fevstunik_keytab keytab = FEVSTUNIK_KEYTAB_INIT;
    fevstunik_answer answer = fevstunik_keytab_new(&keytab, file, size);

    if (answer.code == FEVSTUNIK_OK)
        answer = fevstunik_keytab_entry(&keytab, index, entry, to, room);
    fevstunik_keytab_free(&keytab);
    return answer;
}

/* The owner of a cache or, without a place for that, a credential of it. */
static inline fevstunik_answer part_in(const uint8_t *file, size_t size, fevstunik_owner *owner, size_t index, fevstunik_cache_entry *credential,
                                       uint8_t *to, size_t room)
{
    fevstunik_cache cache = FEVSTUNIK_CACHE_INIT;
    fevstunik_answer answer = fevstunik_cache_new(&cache, file, size);

    if (answer.code == FEVSTUNIK_OK)
        answer = owner != NULL ? fevstunik_cache_owner(&cache, owner, to, room) : fevstunik_cache_credential(&cache, index, credential, to, room);
    fevstunik_cache_free(&cache);
    return answer;
}

static inline fevstunik_answer credential_in(const uint8_t *file, size_t size, size_t index, fevstunik_cache_entry *credential, uint8_t *to,
                                             size_t room)
{
    return part_in(file, size, NULL, index, credential, to, room);
}

static inline fevstunik_answer owner_in(const uint8_t *file, size_t size, fevstunik_owner *owner, uint8_t *to, size_t room)
{
    return part_in(file, size, owner, 0, NULL, to, room);
}

#endif
