/* The client of examples/service over MIT krb5, with the same words, messages and lines; but where it is refused it prints the error's code.
 *
 *     mit_client CACHE NAME PORT TEXT [twice] */
#include "mit.h"

static krb5_creds credential_for(const char *cache_name, const char *service)
{
    krb5_ccache cache;
    krb5_creds wanted, found;

    memset(&wanted, 0, sizeof wanted);
    must(krb5_cc_resolve(context, cache_name, &cache), cache_name);
    must(krb5_cc_get_principal(context, cache, &wanted.client), cache_name);
    wanted.server = principal_of(service);
    must(krb5_cc_retrieve_cred(context, cache, 0, &wanted, &found), service);
    return found;
}

/* Sends a text under the key that the service chose; answers whether the receipt is the text's under ours. */
static int say(int peer, const char *words, const krb5_keyblock *theirs, const krb5_keyblock *ours)
{
    static struct bytes got;
    uint8_t room[4096];
    krb5_data text = data_of(words, strlen(words));
    krb5_enc_data sealed = {0};
    krb5_checksum wanted;

    sealed.ciphertext = data_of(room, sizeof room);
    must(krb5_c_encrypt(context, theirs, TEXT_USAGE, NULL, &text, &sealed), "a text");
    if (!transmit(peer, room, sealed.ciphertext.length) || !receive(peer, &got))
        return 0;
    wanted = receipt_of(ours, &text);
    return got.size == wanted.length && memcmp(got.at, wanted.contents, got.size) == 0;
}

static void read_error(const krb5_data *message)
{
    krb5_error *error;

    must(krb5_rd_error(context, message, &error), "an answer");
    printf("refused %u\n", (unsigned)error->error);
}

/* Takes the reply, and goes on as the service of the example awaits. */
static void agree(int peer, krb5_auth_context state, const krb5_data *reply, const krb5_creds *credential, const char *text,
                  const krb5_keyblock *ours)
{
    krb5_ap_rep_enc_part *part;
    char *name;

    must(krb5_rd_rep(context, state, reply, &part), "the reply");
    must(krb5_unparse_name(context, credential->client, &name), "a name");
    if (part->subkey == NULL || !say(peer, text, part->subkey, ours))
        printf("no receipt\n");
    else
        printf("agreed as %s\n", name);
}

int main(int count, char **words)
{
    static struct bytes answer;
    krb5_auth_context state = NULL;
    krb5_keyblock *subkey;
    krb5_creds credential;
    krb5_data request, message;
    int times, peer;

    if (count != 5 && count != 6)
        return 2;
    must(krb5_init_context(&context), "a context");
    credential = credential_for(words[1], words[2]);
    must(krb5_mk_req_extended(context, &state, AP_OPTS_MUTUAL_REQUIRED | AP_OPTS_USE_SUBKEY, NULL, &credential, &request), "a request");
    must(krb5_auth_con_getsendsubkey(context, state, &subkey), "a subkey");
    subkey = copied(subkey);
    for (times = count - 4; times > 0; times--) {
        peer = connect_to(atoi(words[3]));
        if (!transmit(peer, (uint8_t *)request.data, request.length) || !receive(peer, &answer))
            return 2;
        message = data_of(answer.at, answer.size);
        if (answer.size > 0 && answer.at[0] == 0x7e)
            read_error(&message);
        else
            agree(peer, state, &message, &credential, words[4], subkey);
        close(peer);
    }
    return 0;
}
