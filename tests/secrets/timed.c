/* Makes calls with keys and plain texts that valgrind takes for memory which was never written, so it reports each jump and each address that
 * depends on one (the method known as ctgrind). What a call returns is public then, and so is what the code is meant to decide by: the two
 * places below. The argument is the folder of tests/support/key_material.py. A line of output after each step has how many errors valgrind has
 * reported in it. */
#include <valgrind/memcheck.h>

#include "flow.h"

/* The keys that files and plain texts have, as this program may read them. */
static struct file keys[8];

static void copy_keys(void)
{
    static const unsigned kinds[] = {SERVICE_KEY, SESSION_KEY, SUBKEY, CHOSEN};
    size_t at;

    for (at = 0; at < 8; at++)
        keys[at] = files[kinds[at / 2] + at % 2];
}

/* Hides each key that stands in memory whose bytes are public. */
static void hide_keys_in(uint8_t *in, size_t size)
{
    struct {
        size_t at, size;
    } hidden[8];
    size_t at, key, hides = 0;

    for (at = 0; at < size; at++)
        for (key = 0; key < 8 && hides < 8; key++)
            if (size - at >= keys[key].size && memcmp(in + at, keys[key].at, keys[key].size) == 0) {
                hidden[hides].at = at;
                hidden[hides++].size = keys[key].size;
            }
    while (hides-- > 0)
        (void)VALGRIND_MAKE_MEM_UNDEFINED(in + hidden[hides].at, hidden[hides].size);
}

static void hide_secrets(void)
{
    unsigned kind;

    copy_keys();
    for (kind = 0; kind < FILES; kind++)
        hide_keys_in(files[kind].at, files[kind].size);
    for (kind = 0; kind < 2; kind++)
        (void)VALGRIND_MAKE_MEM_UNDEFINED(files[PLAIN + kind].at, files[PLAIN + kind].size);
}

/* ---- what is public ----
 *
 * Each place is the end of a proved function, by its name in the machine code. */

#define PLACE(name) I_WRAP_SONAME_FNNAME_ZZ(NONE, name)
#define IS_FOR PLACE(krb_encZcZcusage_keyZcZcUsageKeyZcZcis_for)
#define DECRYPT PLACE(krb_ctsZcZcafter_firstZcZcdecrypt_after_first)

uint64_t IS_FOR(const void *keys, int type, const uint8_t *key, size_t size, uint32_t usage);
void DECRYPT(const void *schedule, const uint8_t *text, size_t size, uint8_t *plain, size_t plain_size);

/* Whether a key is the one that the handle keeps. */
uint64_t IS_FOR(const void *keys, int type, const uint8_t *key, size_t size, uint32_t usage)
{
    uint64_t answer;
    OrigFn is_for;

    VALGRIND_GET_ORIG_FN(is_for);
    CALL_FN_W_5W(answer, is_for, keys, type, key, size, usage);
    (void)VALGRIND_MAKE_MEM_DEFINED(&answer, sizeof answer);
    return answer;
}

/* What a ticket, an authenticator or a reply says, but for the keys in it. */
void DECRYPT(const void *schedule, const uint8_t *text, size_t size, uint8_t *plain, size_t plain_size)
{
    uint64_t unused;
    OrigFn decrypt;

    VALGRIND_GET_ORIG_FN(decrypt);
    CALL_FN_W_5W(unused, decrypt, schedule, text, size, plain, plain_size);
    (void)unused;
    (void)VALGRIND_MAKE_MEM_DEFINED(plain, plain_size);
    hide_keys_in(plain, plain_size);
}

/* What a call returned, and what it wrote for the caller. */
static void show(fevstunik_answer *answer)
{
    (void)VALGRIND_MAKE_MEM_DEFINED(answer, sizeof *answer);
    (void)VALGRIND_MAKE_MEM_DEFINED(buffer, sizeof buffer);
    (void)VALGRIND_MAKE_MEM_DEFINED(tag, sizeof tag);
    (void)VALGRIND_MAKE_MEM_DEFINED(&known, sizeof known);
    (void)VALGRIND_MAKE_MEM_DEFINED(&agreement, sizeof agreement);
}

/* The steps that are watched: those of good texts, and the comparing of tags. */
static const struct step watched[] = {
    {"acceptor_new", making_service, FEVSTUNIK_OK},
    {"accepted_new", getting_ready, FEVSTUNIK_OK},
    {"acceptor_accept", accepting, FEVSTUNIK_OK},
    {"accepted_reply", replying, FEVSTUNIK_OK},
    {"acceptor_accept with a kept key", accepting, FEVSTUNIK_REPEAT},
    {"accepted_free", freeing_accepted, FEVSTUNIK_OK},
    {"acceptor_free", freeing_service, FEVSTUNIK_OK},
    {"acceptor_new for logins", making_service, FEVSTUNIK_OK},
    {"service_answer", letting_in, FEVSTUNIK_OK},
    {"login_answer", sending_again, FEVSTUNIK_OK},
    {"login_free", freeing_login, FEVSTUNIK_OK},
    {"acceptor_free after logins", freeing_service, FEVSTUNIK_OK},
    {"acceptor_new for a store", making_sharing_service, FEVSTUNIK_OK},
    {"service_answer before the store", letting_in, FEVSTUNIK_ASK_STORE},
    {"login_settle", settling_as_new, FEVSTUNIK_OK},
    {"login_free after the store", freeing_login, FEVSTUNIK_OK},
    {"acceptor_free after the store", freeing_service, FEVSTUNIK_OK},
    {"cache_new", reading_cache, FEVSTUNIK_OK},
    {"request", asking, FEVSTUNIK_OK},
    {"request with a kept key", asking, FEVSTUNIK_OK},
    {"finish", finishing, FEVSTUNIK_OK},
    {"pending_free", freeing_pending, FEVSTUNIK_OK},
    {"cache_free", freeing_cache, FEVSTUNIK_OK},
    {"seal", sealing, FEVSTUNIK_OK},
    {"open", opening, FEVSTUNIK_OK},
    {"checksum", summing, FEVSTUNIK_OK},
    {"checksum_check", checking_sum, FEVSTUNIK_OK},
    {"messages_new", beginning_mine, FEVSTUNIK_OK},
    {"messages_wrap", wrapping, FEVSTUNIK_OK},
    {"messages_mic", signing, FEVSTUNIK_OK},
    {"messages_free", freeing_mine, FEVSTUNIK_OK},
};

int main(int count, char **words)
{
    unsigned before = 0, after;
    size_t at;

    if (count != 2 || !RUNNING_ON_VALGRIND)
        return 2;
    read_files(words[1]);
    hide_secrets();
    for (of = 0; of < 2; of++)
        for (at = 0; at < sizeof watched / sizeof watched[0]; at++) {
            fevstunik_answer answer = watched[at].make();

            show(&answer);
            is_code(&watched[at], answer);
            after = (unsigned)VALGRIND_COUNT_ERRORS;
            printf("%u %s|%d\n", after - before, watched[at].name, type());
            fflush(stdout);
            before = after;
        }
    return 0;
}
