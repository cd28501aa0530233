/* A client over TCP on the loopback: it asks for mutual authentication with a subkey of its own, reads the reply, sends a text under the
 * key that the service chose, and looks at the receipt under its own.
 *
 *     client CACHE NAME PORT TEXT [twice]      NAME as host/web@EX; with `twice` it sends the same request again
 *
 * It prints `agreed as CLIENT` for each request, or `no receipt`; or `refused` and why: the code of the service's KRB-ERROR, or what the library
 * says of its answer. */
#include "text.h"

static void tell(const struct bytes *reply, unsigned code)
{
    uint8_t buffer[4096];
    fevstunik_krb_error error;

    if (code == FEVSTUNIK_REPLY_TYPE &&
        fevstunik_krb_error_read(reply->at, reply->size, &error, buffer, sizeof buffer).code == FEVSTUNIK_OK)
        printf("refused %d\n", (int)error.code);
    else
        printf("refused %s\n", fevstunik_code_name(code));
}

int main(int count, char **words)
{
    static struct bytes request, reply;
    fevstunik_cache cache = FEVSTUNIK_CACHE_INIT;
    fevstunik_pending pending = FEVSTUNIK_PENDING_INIT;
    uint8_t confounder[16], subkey[SUBKEY_SIZE], bytes[4096];
    fevstunik_choice choice = {SUBKEY_TYPE, 0, false, true};
    fevstunik_agreement agreement;
    fevstunik_answer answer;
    fevstunik_time at;
    uint8_t *file;
    size_t size;
    int times, peer;

    if (count != 5 && count != 6) {
        fputs("usage: client CACHE NAME PORT TEXT [twice]\n", stderr);
        return 2;
    }
    file = whole_file(words[1], &size);
    if (file == NULL)
        give_up(words[1]);
    at = clock_now();
    draw(confounder, sizeof confounder);
    draw(subkey, sizeof subkey);
    answer = fevstunik_cache_new(&cache, file, size);
    explicit_bzero(file, size);
    free(file);
    if (answer.code == FEVSTUNIK_OK)
        answer = fevstunik_request(&cache, &pending, (const uint8_t *)words[2], strlen(words[2]), &at, confounder,
                                   sizeof confounder, &choice, subkey, sizeof subkey, request.at, sizeof request.at);
    fevstunik_cache_free(&cache);
    if (answer.code != FEVSTUNIK_OK) {
        fprintf(stderr, "client: no request: %s\n", fevstunik_code_text(answer.code));
        return 2;
    }
    for (times = count - 4; times > 0; times--) {
        peer = connect_to(atoi(words[3]));
        if (!transmit(peer, request.at, answer.size) || !receive(peer, &reply))
            return 2;
        fevstunik_answer agreed = fevstunik_finish(&pending, reply.at, reply.size, &agreement, bytes, sizeof bytes);

        if (agreed.code != FEVSTUNIK_OK)
            tell(&reply, agreed.code);
        else if (say(peer, words[4], &agreement, bytes, subkey))
            printf("agreed as %.*s\n", (int)agreement.client.size, (const char *)bytes + agreement.client.at);
        else
            printf("no receipt\n");
        close(peer);
    }
    explicit_bzero(subkey, sizeof subkey);
    explicit_bzero(bytes, sizeof bytes);
    fevstunik_pending_free(&pending);
    return 0;
}
