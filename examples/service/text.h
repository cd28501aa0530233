/* What a client says that was let in: a text under the subkey of the service's reply, and the receipt for it under the client's key. */
#ifndef TEXT_H
#define TEXT_H

#include "sources.h"

/* The type of both sides' subkeys, and how many bytes such a key has. */
#define SUBKEY_TYPE 20
#define SUBKEY_SIZE 32

/* Sends a text under the key that the service chose; returns whether the receipt is the text's under ours. */
static inline int say(int peer, const char *text, const fevstunik_agreement *agreement, const uint8_t *bytes,
                      const uint8_t *subkey)
{
    static struct bytes receipt;
    uint8_t confounder[16], sealed[4096];
    fevstunik_answer answer;

    draw(confounder, sizeof confounder);
    answer = fevstunik_seal(agreement->service_subkey_type, bytes + agreement->service_subkey.at,
                            agreement->service_subkey.size, TEXT_USAGE, confounder, sizeof confounder,
                            (const uint8_t *)text, strlen(text), sealed, sizeof sealed);
    if (answer.code != FEVSTUNIK_OK || !transmit(peer, sealed, answer.size) || !receive(peer, &receipt))
        return 0;
    return fevstunik_checksum_check(SUBKEY_TYPE, subkey, SUBKEY_SIZE, RECEIPT_USAGE, (const uint8_t *)text,
                                    strlen(text), receipt.at, receipt.size)
               .code == FEVSTUNIK_OK;
}

/* Reads a text under the subkey of the reply, and sends its checksum under the client's subkey, or under the session key if it chose none. */
static inline void take_text(int peer, const fevstunik_known *known, const uint8_t *bytes, const uint8_t *subkey)
{
    fevstunik_span key = known->has_subkey ? known->subkey : known->session_key;
    int type = known->has_subkey ? known->subkey_type : known->session_type;
    struct bytes text;
    uint8_t plain[MOST], tag[24];
    fevstunik_answer opened, answer;

    if (!receive(peer, &text)) {
        printf("no text\n");
        return;
    }
    opened = fevstunik_open(SUBKEY_TYPE, subkey, SUBKEY_SIZE, TEXT_USAGE, text.at, text.size, plain, sizeof plain);
    answer = fevstunik_checksum(type, bytes + key.at, key.size, RECEIPT_USAGE, plain, opened.size, tag, sizeof tag);
    if (opened.code == FEVSTUNIK_OK && answer.code == FEVSTUNIK_OK && transmit(peer, tag, answer.size))
        printf("%.*s: %.*s\n", (int)known->client.size, (const char *)bytes + known->client.at, (int)opened.size,
               (const char *)plain);
    else
        printf("a damaged text\n");
    explicit_bzero(plain, sizeof plain);
}

static inline void hear(int peer, fevstunik_accepted *accepted, const uint8_t *subkey)
{
    uint8_t bytes[4096];
    fevstunik_known known;

    if (fevstunik_accepted_known(accepted, &known, bytes, sizeof bytes).code == FEVSTUNIK_OK && known.wants_reply)
        take_text(peer, &known, bytes, subkey);
    else
        printf("no text\n");
    explicit_bzero(bytes, sizeof bytes);
}

#endif
