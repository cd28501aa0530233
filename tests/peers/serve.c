/*
 * A service of MIT krb5's or Heimdal's library (the latter where HEIMDAL is defined).
 *
 *     serve KEYTAB SERVICE [number] [subkey]
 *
 * SERVICE is the name that it answers to, or "any" for all of the keytab. It reads lines `seconds micros hex`, the moment of the
 * service's clock and an AP-REQ, and answers each like `krbtool accept`, with more words behind:
 *
 *     accepted {client} {etype of the session key} {ctime} {cusec} {mutual or plain} {pac or bare} {etype of the subkey, or none}
 *         {sequence number, or 0} {checksum or unsigned} {etype of the reply's subkey, or none} {its number, or 0} {AP-REP in hex}
 *     refused {number} {text}
 *
 * The words number and subkey are for the AP-REP. KRB5RCACHENAME names the replay cache.
 */
#include "peer.h"

struct seen {
    char *client;
    int etype, cusec, subkey, has_pac, has_checksum;
    long ctime;
    unsigned long number;
};

#ifdef HEIMDAL
static krb5_error_code replayed(krb5_authenticator authenticator)
{
    static krb5_rcache cache = NULL;
    if (!cache) {
        must(krb5_rc_resolve_full(context, &cache, getenv("KRB5RCACHENAME")), "the replay cache");
        must(krb5_rc_initialize(context, cache, 600), "the replay cache");
    }
    return krb5_rc_store(context, cache, authenticator);
}

static krb5_error_code look(krb5_auth_context state, krb5_ticket *ticket, struct seen *seen)
{
    krb5_authenticator authenticator;
    krb5_data pac;
    must(krb5_auth_con_getauthenticator(context, state, &authenticator), "the authenticator");
    must(krb5_unparse_name(context, ticket->client, &seen->client), "a name");
    seen->etype = ticket->ticket.key.keytype;
    seen->ctime = (long)authenticator->ctime;
    seen->cusec = authenticator->cusec;
    seen->subkey = authenticator->subkey ? authenticator->subkey->keytype : 0;
    seen->number = authenticator->seq_number ? (unsigned long)*authenticator->seq_number : 0;
    seen->has_checksum = authenticator->cksum != NULL;
    seen->has_pac = krb5_ticket_get_authorization_data_type(context, ticket, KRB5_AUTHDATA_WIN2K_PAC, &pac) == 0;
    return replayed(authenticator);
}
#else
static krb5_error_code look(krb5_auth_context state, krb5_ticket *ticket, struct seen *seen)
{
    krb5_authenticator *authenticator;
    krb5_authdata **pac = NULL;
    must(krb5_auth_con_getauthenticator(context, state, &authenticator), "the authenticator");
    must(krb5_unparse_name(context, ticket->enc_part2->client, &seen->client), "a name");
    seen->etype = ticket->enc_part2->session->enctype;
    seen->ctime = authenticator->ctime;
    seen->cusec = authenticator->cusec;
    seen->subkey = authenticator->subkey ? authenticator->subkey->enctype : 0;
    seen->number = authenticator->seq_number;
    seen->has_checksum = authenticator->checksum != NULL;
    must(krb5_find_authdata(context, ticket->enc_part2->authorization_data, NULL, KRB5_AUTHDATA_WIN2K_PAC, &pac),
         "a PAC");
    seen->has_pac = pac != NULL;
    return 0;
}
#endif

static void print_type(int etype)
{
    if (etype)
        printf("%d ", etype);
    else
        printf("none ");
}

static void print_seen(const struct seen *seen, krb5_flags options)
{
    printf("accepted %s %d %ld %d %s %s ", seen->client, seen->etype, seen->ctime, seen->cusec,
           options & AP_OPTS_MUTUAL_REQUIRED ? "mutual" : "plain", seen->has_pac ? "pac" : "bare");
    print_type(seen->subkey);
    printf("%lu %s ", seen->number, seen->has_checksum ? "checksum" : "unsigned");
}

/* Makes the reply and prints it, behind the subkey and the number in it. (MIT's repeats the client's subkey where it has none of its own.) */
static void print_reply(krb5_auth_context state)
{
    krb5_data reply;
    krb5_keyblock *subkey = NULL;
    int32_t number = 0;
    must(krb5_mk_rep(context, state, &reply), "a reply");
#ifdef HEIMDAL
    must(krb5_auth_con_getlocalsubkey(context, state, &subkey), "its subkey");
    print_type(subkey ? subkey->keytype : 0);
#else
    must(krb5_auth_con_getsendsubkey(context, state, &subkey), "its subkey");
    print_type(subkey ? subkey->enctype : 0);
#endif
    must(krb5_auth_con_getlocalseqnumber(context, state, &number), "its number");
    printf("%lu ", (unsigned long)(uint32_t)number);
    print_hex(&reply);
    printf("\n");
}

static krb5_auth_context new_state(int count, char **words)
{
    krb5_auth_context state = NULL;
    int flags;
    must(krb5_auth_con_init(context, &state), "a context");
    must(krb5_auth_con_getflags(context, state, &flags), "flags");
    if (has_word(count, words, "number"))
        flags |= KRB5_AUTH_CONTEXT_DO_SEQUENCE;
    if (has_word(count, words, "subkey"))
        flags |= KRB5_AUTH_CONTEXT_USE_SUBKEY;
    must(krb5_auth_con_setflags(context, state, flags), "flags");
    return state;
}

static void serve(krb5_keytab keytab, krb5_principal service, const krb5_data *request, int count, char **words)
{
    krb5_auth_context state = new_state(count, words);
    krb5_ticket *ticket = NULL;
    krb5_flags options = 0;
    struct seen seen;
    krb5_error_code fault = krb5_rd_req(context, &state, request, service, keytab, &options, &ticket);
    if (!fault)
        fault = look(state, ticket, &seen);
    if (fault) {
        print_refused(fault);
        return;
    }
    print_seen(&seen, options);
    print_reply(state);
}

int main(int count, char **words)
{
    krb5_keytab keytab;
    krb5_principal service = NULL;
    if (count < 3)
        return 2;
    must(krb5_init_context(&context), "krb5_init_context");
    must(krb5_kt_resolve(context, words[1], &keytab), words[1]);
    if (strcmp(words[2], "any") != 0)
        must(krb5_parse_name(context, words[2], &service), words[2]);
    for (char *line; (line = next_line());) {
        char *seconds = strtok(line, " "), *micros = strtok(NULL, " "), *hex = strtok(NULL, " ");
        if (!seconds || !micros || !hex)
            must(EINVAL, "a line");
        krb5_data request = from_hex(hex);
        set_clock(seconds, micros);
        serve(keytab, service, &request, count - 3, words + 3);
        fflush(stdout);
    }
    return 0;
}
