/* Services: one in its first life, and one that is started again. If the name has no bytes, each name of the keytab is served. */
#ifndef MADE_H
#define MADE_H

#include "fevstunik.h"

static inline fevstunik_answer first_life(fevstunik_acceptor *service, const uint8_t *keytab, size_t size, uint32_t skew, const uint8_t *name,
                                          size_t name_size)
{
    fevstunik_acceptor_options options = {.size = sizeof options, .skew = skew, .restarts = FEVSTUNIK_RESTART_FIRST_LIFE, .any_name = name_size == 0};

    return fevstunik_acceptor_new(service, keytab, size, name, name_size, &options);
}

static inline fevstunik_answer started(fevstunik_acceptor *service, const uint8_t *keytab, size_t size, uint32_t skew, const uint8_t *name,
                                       size_t name_size, const fevstunik_time *start)
{
    fevstunik_acceptor_options options = {.size = sizeof options, .started = *start, .skew = skew, .restarts = FEVSTUNIK_RESTART_STARTED,
                                          .any_name = name_size == 0};

    return fevstunik_acceptor_new(service, keytab, size, name, name_size, &options);
}

#endif
