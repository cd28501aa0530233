/* Times the messages after a login, by the library for C and by MIT krb5's GSS-API.
 *
 *   messages ours|theirs sealed|plain|mic SIZE KEYTAB TOKENS COUNT    prints the nanoseconds of processor time of each call
 *
 * The calls are fevstunik_messages_wrap and fevstunik_messages_mic, gss_wrap and gss_get_mic, of a service that has let in the client of the first
 * token, on a text of SIZE bytes. One is made before, so that all memory has been used.
 */
#include <gssapi/gssapi_ext.h>

#include "fevstunik.h"
#include "measure.h"

enum { MORE = 128 };

static struct bytes keytab, text, written;
static uint8_t random_bytes[16];
static fevstunik_messages messages;
static gss_ctx_id_t context = GSS_C_NO_CONTEXT;
static int is_sealed;

static void start_ours(const char *keytab_name, struct bytes token)
{
    fevstunik_acceptor acceptor = FEVSTUNIK_ACCEPTOR_INIT;
    fevstunik_login login = FEVSTUNIK_LOGIN_INIT;
    fevstunik_acceptor_options options = {.size = sizeof options, .skew = 300, .restarts = FEVSTUNIK_RESTART_FIRST_LIFE};
    fevstunik_choice choice = {0, 0, false, false};
    struct timespec t;
    uint8_t out[4096];
    keytab = read_file(keytab_name);
    clock_gettime(CLOCK_REALTIME, &t);
    fevstunik_time now = {t.tv_sec, t.tv_nsec / 1000};
    uint32_t code = fevstunik_acceptor_new(&acceptor, keytab.at, keytab.size, (const uint8_t *)SERVICE, strlen(SERVICE), &options).code;
    must(code == FEVSTUNIK_OK, "a service", code);
    code = fevstunik_service_answer(&acceptor, &login, token.at, token.size, &now, random_bytes, 16, out, sizeof out).code;
    must(code == FEVSTUNIK_OK, "a login", code);
    code = fevstunik_messages_of_accepted(&messages, &login.accepted, &choice, NULL, 0, false).code;
    must(code == FEVSTUNIK_OK, "messages", code);
}

static void our_wrap(void)
{
    fevstunik_answer answer = fevstunik_messages_wrap(&messages, is_sealed, random_bytes, 16, text.at, text.size, written.at, text.size + MORE);
    must(answer.code == FEVSTUNIK_OK, "fevstunik_messages_wrap", answer.code);
}

static void our_mic(void)
{
    fevstunik_answer answer = fevstunik_messages_mic(&messages, text.at, text.size, written.at, MORE);
    must(answer.code == FEVSTUNIK_OK, "fevstunik_messages_mic", answer.code);
}

static void start_theirs(const char *keytab_name, struct bytes token)
{
    gss_key_value_element_desc element = {"keytab", keytab_name};
    gss_key_value_set_desc store = {1, &element};
    gss_cred_id_t credential;
    gss_buffer_desc given = {token.size, token.at}, answer = GSS_C_EMPTY_BUFFER;
    OM_uint32 minor, major = gss_acquire_cred_from(&minor, GSS_C_NO_NAME, GSS_C_INDEFINITE, GSS_C_NO_OID_SET, GSS_C_ACCEPT, &store, &credential, NULL,
                                                   NULL);
    must(major == GSS_S_COMPLETE, "a credential", minor);
    major = gss_accept_sec_context(&minor, &context, credential, &given, GSS_C_NO_CHANNEL_BINDINGS, NULL, NULL, &answer, NULL, NULL, NULL);
    must(major == GSS_S_COMPLETE, "a login", minor);
}

static void their_wrap(void)
{
    gss_buffer_desc given = {text.size, text.at}, token;
    OM_uint32 minor, major = gss_wrap(&minor, context, is_sealed, GSS_C_QOP_DEFAULT, &given, NULL, &token);
    must(major == GSS_S_COMPLETE, "gss_wrap", minor);
    gss_release_buffer(&minor, &token);
}

static void their_mic(void)
{
    gss_buffer_desc given = {text.size, text.at}, token;
    OM_uint32 minor, major = gss_get_mic(&minor, context, GSS_C_QOP_DEFAULT, &given, &token);
    must(major == GSS_S_COMPLETE, "gss_get_mic", minor);
    gss_release_buffer(&minor, &token);
}

int main(int argc, char **argv)
{
    if (argc != 7)
        return 2;
    int is_ours = strcmp(argv[1], "ours") == 0, is_mic = strcmp(argv[2], "mic") == 0;
    long count = atol(argv[6]);
    void (*call)(void) = is_ours ? is_mic ? our_mic : our_wrap : is_mic ? their_mic : their_wrap;
    is_sealed = strcmp(argv[2], "sealed") == 0;
    text = (struct bytes){calloc(1, atol(argv[3]) + MORE), atol(argv[3])};
    written = (struct bytes){calloc(1, text.size + MORE), 0};
    must(text.at != NULL && written.at != NULL, "memory", 0);
    struct parts tokens = read_parts(argv[5]);
    must(tokens.count > 0, "a token", 0);
    (is_ours ? start_ours : start_theirs)(argv[4], tokens.at[0]);
    call();
    double began = processor_time();
    for (long i = 0; i < count; i++)
        call();
    tell(began, count);
    return 0;
}
