/*
 * A client of MIT krb5's or Heimdal's library (the latter where HEIMDAL is defined).
 *
 *     ask CACHE SERVICE SECONDS [mutual] [subkey] [number] [checksum] [etypes] [session]
 *
 * It makes an AP-REQ with the cache's ticket for SERVICE at that moment (0: now) and prints it in hex. Then it reads lines:
 * the hex of an AP-REP is answered `agreed {etype of its subkey, or none} {its sequence number, or 0}` or `refused {number} {text}`,
 * that of a KRB-ERROR `error {code} {stime} {susec} {server}`.
 */
#include "peer.h"

static krb5_creds found_ticket(const char *cache_name, const char *service)
{
    krb5_ccache cache;
    krb5_creds wanted, found;
    memset(&wanted, 0, sizeof wanted);
    memset(&found, 0, sizeof found);
    must(krb5_cc_resolve(context, cache_name, &cache), cache_name);
    must(krb5_cc_get_principal(context, cache, &wanted.client), cache_name);
    must(krb5_parse_name(context, service, &wanted.server), service);
    must(krb5_cc_retrieve_cred(context, cache, 0, &wanted, &found), service);
    return found;
}

static krb5_auth_context ask(krb5_creds *ticket, int count, char **words)
{
    krb5_auth_context state = NULL;
    krb5_data request, text = {0};
    krb5_flags options = 0;
    int flags;
    must(krb5_auth_con_init(context, &state), "a context");
    must(krb5_auth_con_getflags(context, state, &flags), "flags");
    if (has_word(count, words, "number"))
        flags |= KRB5_AUTH_CONTEXT_DO_SEQUENCE;
    must(krb5_auth_con_setflags(context, state, flags), "flags");
    if (has_word(count, words, "mutual"))
        options |= AP_OPTS_MUTUAL_REQUIRED;
    if (has_word(count, words, "subkey"))
        options |= AP_OPTS_USE_SUBKEY;
    if (has_word(count, words, "session"))
        options |= AP_OPTS_USE_SESSION_KEY;
#ifndef HEIMDAL
    if (has_word(count, words, "etypes"))
        options |= AP_OPTS_ETYPE_NEGOTIATION | AP_OPTS_USE_SUBKEY;
#endif
    text.data = (void *)"what the checksum covers";
    text.length = strlen(text.data);
    must(krb5_mk_req_extended(context, &state, options, has_word(count, words, "checksum") ? &text : NULL, ticket,
                              &request),
         "a request");
    print_hex(&request);
    printf("\n");
    fflush(stdout);
    return state;
}

static void read_reply(krb5_auth_context state, const krb5_data *reply)
{
    krb5_ap_rep_enc_part *part;
    krb5_error_code fault = krb5_rd_rep(context, state, reply, &part);
    if (fault) {
        print_refused(fault);
        return;
    }
#ifdef HEIMDAL
    int etype = part->subkey ? part->subkey->keytype : 0;
    unsigned long number = part->seq_number ? *part->seq_number : 0;
#else
    int etype = part->subkey ? part->subkey->enctype : 0;
    unsigned long number = part->seq_number;
#endif
    if (etype)
        printf("agreed %d %lu\n", etype, number);
    else
        printf("agreed none %lu\n", number);
}

#ifdef HEIMDAL
static void read_error(const krb5_data *message)
{
    krb5_error error;
    krb5_error_code fault = krb5_rd_error(context, message, &error);
    if (fault) {
        print_refused(fault);
        return;
    }
    /* It reads the code as a number of the library's. */
    printf("error %ld %ld %d ", (long)error.error_code - (long)KRB5KDC_ERR_NONE, (long)error.stime, error.susec);
    for (unsigned i = 0; i < error.sname.name_string.len; i++)
        printf("%s%s", i ? "/" : "", error.sname.name_string.val[i]);
    printf("@%s\n", error.realm);
}
#else
static void read_error(const krb5_data *message)
{
    krb5_error *error;
    char *server;
    krb5_error_code fault = krb5_rd_error(context, message, &error);
    if (fault) {
        print_refused(fault);
        return;
    }
    must(krb5_unparse_name(context, error->server, &server), "a name");
    printf("error %u %ld %d %s\n", error->error, (long)error->stime, error->susec, server);
}
#endif

int main(int count, char **words)
{
    if (count < 4)
        return 2;
    must(krb5_init_context(&context), "krb5_init_context");
    krb5_creds ticket = found_ticket(words[1], words[2]);
    if (strcmp(words[3], "0") != 0)
        set_clock(words[3], "0");
    krb5_auth_context state = ask(&ticket, count - 4, words + 4);
    for (char *line; (line = next_line());) {
        krb5_data message = from_hex(line);
        if (message.length > 0 && ((unsigned char *)message.data)[0] == 0x7e)
            read_error(&message);
        else
            read_reply(state, &message);
        fflush(stdout);
    }
    return 0;
}
