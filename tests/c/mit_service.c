/* The service of examples/service over MIT krb5, with the same words, messages and lines; but the codes of refusals are those of RFC 4120.
 * KRB5RCACHENAME names its replay cache.
 *
 *     mit_service KEYTAB NAME COUNT */
#include "mit.h"

/* Tells the client why it is refused. */
static void refuse(int peer, krb5_principal service, long code)
{
    krb5_error error;
    krb5_data message;

    memset(&error, 0, sizeof error);
    error.error = (krb5_ui_4)code;
    error.server = service;
    must(krb5_us_timeofday(context, &error.stime, &error.susec), "the clock");
    must(krb5_mk_error(context, &error, &message), "an error");
    printf("refused %ld\n", code);
    transmit(peer, (uint8_t *)message.data, message.length);
}

/* Opens the client's text under our key, and sends the receipt under the client's. */
static void confirm(int peer, const krb5_keyblock *ours, const krb5_keyblock *theirs, const char *client)
{
    static struct bytes got;
    uint8_t room[MOST];
    krb5_data text = data_of(room, sizeof room);
    krb5_enc_data sealed = {0};
    krb5_checksum tag;

    if (!receive(peer, &got))
        return;
    sealed.enctype = ours->enctype;
    sealed.ciphertext = data_of(got.at, got.size);
    if (krb5_c_decrypt(context, ours, TEXT_USAGE, NULL, &sealed, &text)) {
        printf("a bent text\n");
        return;
    }
    tag = receipt_of(theirs, &text);
    if (transmit(peer, tag.contents, tag.length))
        printf("%s: %.*s\n", client, (int)text.length, text.data);
}

static void converse(int peer, krb5_auth_context state, const krb5_ticket *ticket)
{
    krb5_authenticator *authenticator;
    krb5_keyblock *ours;
    krb5_data reply;
    char *client;

    must(krb5_auth_con_getauthenticator(context, state, &authenticator), "the authenticator");
    must(krb5_unparse_name(context, ticket->enc_part2->client, &client), "a name");
    must(krb5_mk_rep(context, state, &reply), "a reply");
    must(krb5_auth_con_getsendsubkey(context, state, &ours), "a subkey");
    if (authenticator->subkey == NULL)
        printf("no subkey\n");
    else if (transmit(peer, (uint8_t *)reply.data, reply.length))
        confirm(peer, ours, authenticator->subkey, client);
}

static void serve(int peer, krb5_keytab keytab, krb5_principal service)
{
    static struct bytes got;
    krb5_auth_context state = NULL;
    krb5_ticket *ticket;
    krb5_data request;
    krb5_error_code fault;
    int flags;

    if (!receive(peer, &got))
        return;
    request = data_of(got.at, got.size);
    must(krb5_auth_con_init(context, &state), "a state");
    must(krb5_auth_con_getflags(context, state, &flags), "flags");
    must(krb5_auth_con_setflags(context, state, flags | KRB5_AUTH_CONTEXT_USE_SUBKEY), "flags");
    fault = krb5_rd_req(context, &state, &request, service, keytab, NULL, &ticket);
    if (fault)
        refuse(peer, service, code_of(fault));
    else
        converse(peer, state, ticket);
}

int main(int count, char **words)
{
    krb5_keytab keytab;
    krb5_principal service;
    int listener, peer, left;

    if (count != 4)
        return 2;
    must(krb5_init_context(&context), "a context");
    must(krb5_kt_resolve(context, words[1], &keytab), words[1]);
    service = principal_of(words[2]);
    listener = listen_on_any();
    for (left = atoi(words[3]); left > 0; left--) {
        peer = accept_from(listener);
        serve(peer, keytab, service);
        fflush(stdout);
        close(peer);
    }
    return 0;
}
