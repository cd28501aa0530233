/* Times what a service does with the messages of clients, by the library for C and by MIT krb5.
 *
 *   service WAY KEYTAB MESSAGES COUNT [refused|repeated]    prints the nanoseconds of processor time of each call
 *
 * WAY is accept (fevstunik_acceptor_accept and fevstunik_accepted_known), rd_req (krb5_rd_req), answer (fevstunik_service_answer and
 * fevstunik_accepted_known), parts (the calls that fevstunik_service_answer puts together, for a negotiation whose client asks for a reply)
 * or gss (gss_accept_sec_context and gss_display_name); or, for the start of a service, new
 * (fevstunik_acceptor_new) or keys (MIT's reading of a keytab file from end to end). MESSAGES has messages, each after its size in four bytes.
 * All of them are read, and the first COUNT are used; with refused, the first is given COUNT times, and isn't accepted: a second line has our code.
 * With repeated it is accepted before that, once.
 * MIT's library has the keytab in memory. Its replay cache is as KRB5RCACHENAME says; ours remembers what it has accepted.
 */
#include <gssapi/gssapi_ext.h>
#include <gssapi/gssapi_krb5.h>
#include <krb5.h>

#include "fevstunik.h"
#include "measure.h"

static const uint8_t random_bytes[16] = {7};
static const char *keytab_name;
static struct bytes keytab;
static struct parts messages;
static int are_refused, was_accepted;
static krb5_context context;
static krb5_keytab keys;
static krb5_principal server;
static gss_cred_id_t credential;
static fevstunik_acceptor acceptor = FEVSTUNIK_ACCEPTOR_INIT;
static fevstunik_accepted accepted = FEVSTUNIK_ACCEPTED_INIT;

static fevstunik_time clock_now(void)
{
    struct timespec t;
    clock_gettime(CLOCK_REALTIME, &t);
    return (fevstunik_time){t.tv_sec, t.tv_nsec / 1000};
}

static uint32_t new_service(struct bytes message)
{
    fevstunik_acceptor_options options = {.size = sizeof options, .skew = 300, .restarts = FEVSTUNIK_RESTART_FIRST_LIFE};
    (void)message;
    fevstunik_acceptor_free(&acceptor);
    return fevstunik_acceptor_new(&acceptor, keytab.at, keytab.size, (const uint8_t *)SERVICE, strlen(SERVICE), &options).code;
}

static void start_ours(void)
{
    must(new_service((struct bytes){0}) == FEVSTUNIK_OK, "a service", 0);
    must(fevstunik_accepted_new(&accepted).code == FEVSTUNIK_OK, "a place", 0);
}

static uint32_t accept_one(struct bytes message)
{
    fevstunik_known known;
    uint8_t told[4096];
    fevstunik_time now = clock_now();
    uint32_t code = fevstunik_acceptor_accept(&acceptor, &accepted, message.at, message.size, &now).code;
    return code ? code : fevstunik_accepted_known(&accepted, &known, told, sizeof told).code;
}

static uint32_t answer_one(struct bytes message)
{
    fevstunik_login login = FEVSTUNIK_LOGIN_INIT;
    fevstunik_known known;
    uint8_t out[4096], told[4096];
    fevstunik_time now = clock_now();
    uint32_t code = fevstunik_service_answer(&acceptor, &login, message.at, message.size, &now, random_bytes, 16, out, sizeof out).code;
    if (code == FEVSTUNIK_OK)
        code = fevstunik_accepted_known(&login.accepted, &known, told, sizeof told).code;
    fevstunik_login_free(&login);
    return code;
}

/* A request's reply in the wrapping that the request came in, after what is known of the client was read. */
static uint32_t reply_to(const fevstunik_wrapped *wrapped)
{
    static const fevstunik_choice choice = {.subkey_type = 0};
    fevstunik_known known;
    uint8_t told[4096], reply[4096], out[4096];
    uint32_t code = fevstunik_accepted_known(&accepted, &known, told, sizeof told).code;
    if (code)
        return code;
    fevstunik_answer replied = fevstunik_accepted_reply(&accepted, random_bytes, 16, &choice, random_bytes, 0, reply, sizeof reply);
    return replied.code ? replied.code : fevstunik_token_reply(wrapped, reply, replied.size, out, sizeof out).code;
}

static uint32_t answer_by_parts(struct bytes message)
{
    static uint8_t request[1 << 17];
    fevstunik_wrapped wrapped;
    fevstunik_time now = clock_now();
    fevstunik_answer opened = fevstunik_token_open(message.at, message.size, &wrapped, request, sizeof request);
    if (opened.code)
        return opened.code;
    must(fevstunik_accepted_new(&accepted).code == FEVSTUNIK_OK, "a place", 0);
    uint32_t code = fevstunik_acceptor_accept(&acceptor, &accepted, request, opened.size, &now).code;
    if (code == FEVSTUNIK_OK)
        code = reply_to(&wrapped);
    fevstunik_accepted_free(&accepted);
    return code;
}

static uint32_t read_all_keys(struct bytes message)
{
    krb5_keytab file;
    krb5_kt_cursor cursor;
    krb5_keytab_entry entry;
    (void)message;
    must(krb5_kt_resolve(context, keytab_name, &file) == 0, "the keytab", 0);
    must(krb5_kt_start_seq_get(context, file, &cursor) == 0, "the keytab", 0);
    while (krb5_kt_next_entry(context, file, &entry, &cursor) == 0)
        krb5_free_keytab_entry_contents(context, &entry);
    must(krb5_kt_end_seq_get(context, file, &cursor) == 0, "the keytab", 0);
    krb5_kt_close(context, file);
    return 0;
}

static void start_parts(void)
{
    must(new_service((struct bytes){0}) == FEVSTUNIK_OK, "a service", 0);
}

static void start_theirs(void)
{
    krb5_keytab file;
    krb5_kt_cursor cursor;
    krb5_keytab_entry entry;
    must(krb5_init_context(&context) == 0, "a context", 0);
    must(krb5_parse_name(context, SERVICE, &server) == 0, "a name", 0);
    must(krb5_kt_resolve(context, keytab_name, &file) == 0, "the keytab", 0);
    must(krb5_kt_resolve(context, "MEMORY:bench", &keys) == 0, "a keytab in memory", 0);
    must(krb5_kt_start_seq_get(context, file, &cursor) == 0, "the keytab", 0);
    while (krb5_kt_next_entry(context, file, &entry, &cursor) == 0)
        must(krb5_kt_add_entry(context, keys, &entry) == 0, "an entry", 0);
    must(krb5_kt_end_seq_get(context, file, &cursor) == 0, "the keytab", 0);
}

static void start_gss(void)
{
    gss_key_value_element_desc element = {"keytab", "MEMORY:bench"};
    gss_key_value_set_desc store = {1, &element};
    OM_uint32 minor;
    start_theirs();
    must(gss_acquire_cred_from(&minor, GSS_C_NO_NAME, GSS_C_INDEFINITE, GSS_C_NO_OID_SET, GSS_C_ACCEPT, &store, &credential, NULL, NULL) ==
             GSS_S_COMPLETE, "a credential", minor);
}

static uint32_t read_one(struct bytes message)
{
    krb5_data data = {.length = message.size, .data = (char *)message.at};
    /* one that was used holds a key, and would read a request of user to user */
    krb5_auth_context state;
    krb5_ticket *ticket;
    must(krb5_auth_con_init(context, &state) == 0, "a state", 0);
    krb5_error_code code = krb5_rd_req(context, &state, &data, server, keys, NULL, &ticket);
    if (code == 0)
        krb5_free_ticket(context, ticket);
    krb5_auth_con_free(context, state);
    return code;
}

static uint32_t take_one(struct bytes message)
{
    gss_ctx_id_t state = GSS_C_NO_CONTEXT;
    gss_buffer_desc token = {message.size, message.at}, answer = GSS_C_EMPTY_BUFFER, shown = GSS_C_EMPTY_BUFFER;
    gss_name_t client = GSS_C_NO_NAME;
    OM_uint32 minor, major = gss_accept_sec_context(&minor, &state, credential, &token, GSS_C_NO_CHANNEL_BINDINGS, &client, NULL, &answer, NULL,
                                                    NULL, NULL);
    OM_uint32 code = major;
    if (code == GSS_S_COMPLETE)
        code = gss_display_name(&minor, client, &shown, NULL);
    gss_release_buffer(&minor, &shown);
    gss_release_buffer(&minor, &answer);
    gss_release_name(&minor, &client);
    gss_delete_sec_context(&minor, &state, GSS_C_NO_BUFFER);
    return code;
}

static const struct {
    const char *name;
    void (*start)(void);
    uint32_t (*call)(struct bytes);
    int uses_messages;
} ways[] = {
    {"accept", start_ours, accept_one, 1}, {"answer", start_ours, answer_one, 1}, {"new", start_ours, new_service, 0},
    {"rd_req", start_theirs, read_one, 1}, {"gss", start_gss, take_one, 1},       {"keys", start_theirs, read_all_keys, 0},
    {"parts", start_parts, answer_by_parts, 1},
};

static void timed(uint32_t (*call)(struct bytes), long count, int uses_messages)
{
    uint32_t code = 0;
    must(!uses_messages || are_refused || messages.count >= count, "so many messages", messages.count);
    if (was_accepted)
        must(call(messages.at[0]) == 0, "the first call", 0);
    double began = processor_time();
    for (long i = 0; i < count; i++) {
        struct bytes none = {0};
        code = call(!uses_messages ? none : messages.at[are_refused ? 0 : i]);
        must((code != 0) == are_refused, "a call's code", code);
    }
    tell(began, count);
    printf("%s\n", fevstunik_code_name(code));
}

int main(int argc, char **argv)
{
    if (argc != 5 && argc != 6)
        return 2;
    keytab_name = argv[2];
    keytab = read_file(argv[2]);
    messages = read_parts(argv[3]);
    are_refused = argc == 6;
    was_accepted = are_refused && strcmp(argv[5], "repeated") == 0;
    for (size_t i = 0; i < sizeof ways / sizeof *ways; i++)
        if (strcmp(argv[1], ways[i].name) == 0) {
            ways[i].start();
            timed(ways[i].call, atol(argv[4]), ways[i].uses_messages);
            return 0;
        }
    return 2;
}
