/* Does by MIT krb5 what krbtool does, for whole processes that are timed.
 *
 *   mit_process accept KEYTAB SERVICE    answers each line `SECONDS MICROS HEX` of standard input, by krb5_rd_req and the machine's clock
 *   mit_process request CACHE SERVICE    prints a request from the credential cache, by krb5_mk_req_extended
 */
#include <krb5.h>

#include "measure.h"

static krb5_context context;
static krb5_principal server;

/* The bytes of hexadecimal digits; returns how many. */
static size_t unhex(const char *text, char *bytes)
{
    static const char digits[] = "0123456789abcdef";
    size_t size = 0;
    for (; text[0] && text[1] && strchr(digits, text[0]); text += 2)
        bytes[size++] = (char)((strchr(digits, text[0]) - digits) << 4 | (strchr(digits, text[1]) - digits));
    return size;
}

static void answer(krb5_keytab keytab, krb5_data *request)
{
    krb5_auth_context state;
    krb5_authenticator *authenticator;
    krb5_ticket *ticket;
    char *client;
    must(krb5_auth_con_init(context, &state) == 0, "a state", 0);
    krb5_error_code code = krb5_rd_req(context, &state, request, server, keytab, NULL, &ticket);
    must(code == 0, "krb5_rd_req", code);
    must(krb5_auth_con_getauthenticator(context, state, &authenticator) == 0, "an authenticator", 0);
    must(krb5_unparse_name(context, ticket->enc_part2->client, &client) == 0, "a name", 0);
    printf("accepted %s %d %ld %d plain\n", client, (int)ticket->enc_part2->session->enctype, (long)authenticator->ctime, (int)authenticator->cusec);
    fflush(stdout);
    krb5_free_unparsed_name(context, client);
    krb5_free_authenticator(context, authenticator);
    krb5_free_ticket(context, ticket);
    krb5_auth_con_free(context, state);
}

/* An answer is written before the next line is read, as by krbtool. */
static void accept_lines(const char *name)
{
    krb5_keytab keytab;
    char *line = NULL, *bytes = NULL;
    size_t room = 0;
    must(krb5_kt_resolve(context, name, &keytab) == 0, "the keytab", 0);
    while (getline(&line, &room, stdin) > 0) {
        char *hex = strrchr(line, ' ');
        bytes = realloc(bytes, room);
        must(hex != NULL && bytes != NULL, "a line", 0);
        krb5_data request = {.data = bytes, .length = (unsigned)unhex(hex + 1, bytes)};
        answer(keytab, &request);
    }
    free(line);
    free(bytes);
}

static void print_request(const char *name)
{
    krb5_ccache cache;
    krb5_creds asked = {.server = server}, *found;
    krb5_auth_context state = NULL;
    krb5_data made;
    must(krb5_cc_resolve(context, name, &cache) == 0, "the cache", 0);
    must(krb5_cc_get_principal(context, cache, &asked.client) == 0, "the client", 0);
    must(krb5_get_credentials(context, KRB5_GC_CACHED, cache, &asked, &found) == 0, "a credential", 0);
    must(krb5_mk_req_extended(context, &state, 0, NULL, found, &made) == 0, "a request", 0);
    for (unsigned i = 0; i < made.length; i++)
        printf("%02x", (unsigned char)made.data[i]);
    printf("\n");
    krb5_free_data_contents(context, &made);
    krb5_free_creds(context, found);
    krb5_auth_con_free(context, state);
    krb5_cc_close(context, cache);
}

int main(int argc, char **argv)
{
    if (argc != 4)
        return 2;
    must(krb5_init_context(&context) == 0, "a context", 0);
    must(krb5_parse_name(context, argv[3], &server) == 0, "a name", 0);
    if (strcmp(argv[1], "accept") == 0)
        accept_lines(argv[2]);
    else
        print_request(argv[2]);
    krb5_free_principal(context, server);
    krb5_free_context(context);
    return 0;
}
