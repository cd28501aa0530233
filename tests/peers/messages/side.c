/* A side of a context over the GSS-API of Heimdal or MIT krb5, by the lines of side.py.
 *
 *     side initiate NAME mutual|plain [negotiated]
 *     side accept NAME */
#include <gssapi/gssapi.h>
#include <stdio.h>
#include <stdlib.h>
#include <string.h>

enum { ROOM = 1 << 19 };

static gss_OID_desc kerberos = {9, "\x2a\x86\x48\x86\xf7\x12\x01\x02\x02"};
static gss_OID_desc negotiation = {6, "\x2b\x06\x01\x05\x05\x02"};
static gss_OID mechanism = &kerberos;
static gss_ctx_id_t context = GSS_C_NO_CONTEXT;
static gss_name_t peer;
static OM_uint32 asked = GSS_C_CONF_FLAG | GSS_C_INTEG_FLAG | GSS_C_REPLAY_FLAG | GSS_C_SEQUENCE_FLAG;

static void print_bytes(const gss_buffer_desc *bytes)
{
    for (size_t at = 0; at < bytes->length; at++)
        printf("%02x", ((unsigned char *)bytes->value)[at]);
    printf(bytes->length == 0 ? "-\n" : "\n");
    fflush(stdout);
}

/* The bytes of a word in hexadecimal digits, or none for `-`. */
static gss_buffer_desc bytes_of(const char *word)
{
    gss_buffer_desc bytes = {0, malloc(ROOM)};

    for (; word != NULL && sscanf(word, "%2hhx", &((unsigned char *)bytes.value)[bytes.length]) == 1; word += 2)
        bytes.length++;
    return bytes;
}

static void say(const char *what)
{
    printf("%s\n", what);
    fflush(stdout);
}

static void fault(OM_uint32 major)
{
    printf("fault %x\n", (unsigned)major);
    fflush(stdout);
}

static OM_uint32 step(gss_buffer_t token, gss_buffer_t answer)
{
    OM_uint32 minor;

    return gss_init_sec_context(&minor, GSS_C_NO_CREDENTIAL, &context, peer, mechanism, asked, 0,
                                GSS_C_NO_CHANNEL_BINDINGS, token, NULL, answer, NULL, NULL);
}

static void begin(char **words, int count)
{
    static char line[ROOM];
    gss_buffer_desc name = {strlen(words[2]), words[2]}, answer = GSS_C_EMPTY_BUFFER, token;
    OM_uint32 minor;

    if (gss_import_name(&minor, &name, GSS_C_NT_HOSTBASED_SERVICE, &peer) != GSS_S_COMPLETE)
        exit(2);
    if (strcmp(words[1], "initiate") == 0) {
        asked |= count >= 4 && strcmp(words[3], "mutual") == 0 ? GSS_C_MUTUAL_FLAG : 0;
        if (count == 5)
            mechanism = &negotiation;
        (void)step(GSS_C_NO_BUFFER, &answer);
    } else {
        if (fgets(line, sizeof line, stdin) == NULL)
            exit(2);
        token = bytes_of(line);
        (void)gss_accept_sec_context(&minor, &context, GSS_C_NO_CREDENTIAL, &token, GSS_C_NO_CHANNEL_BINDINGS, NULL,
                                     NULL, &answer, NULL, NULL, NULL);
    }
    print_bytes(&answer);
}

static void wrap(int is_sealed, gss_buffer_desc text)
{
    gss_buffer_desc token = GSS_C_EMPTY_BUFFER;
    OM_uint32 minor, major = gss_wrap(&minor, context, is_sealed, GSS_C_QOP_DEFAULT, &text, NULL, &token);

    if (major == GSS_S_COMPLETE)
        print_bytes(&token);
    else
        fault(major);
}

static void unwrap(gss_buffer_desc token)
{
    gss_buffer_desc text = GSS_C_EMPTY_BUFFER;
    int is_sealed = 0;
    OM_uint32 minor, major = gss_unwrap(&minor, context, &token, &text, &is_sealed, NULL);

    if (major != GSS_S_COMPLETE) {
        fault(major);
        return;
    }
    printf(is_sealed ? "sealed " : "plain ");
    print_bytes(&text);
}

static void mic(gss_buffer_desc text)
{
    gss_buffer_desc token = GSS_C_EMPTY_BUFFER;
    OM_uint32 minor, major = gss_get_mic(&minor, context, GSS_C_QOP_DEFAULT, &text, &token);

    if (major == GSS_S_COMPLETE)
        print_bytes(&token);
    else
        fault(major);
}

static void verify(gss_buffer_desc text, gss_buffer_desc token)
{
    OM_uint32 minor, major = gss_verify_mic(&minor, context, &text, &token, NULL);

    if (major == GSS_S_COMPLETE)
        say("verified");
    else
        fault(major);
}

static void limit(int is_sealed, const char *size)
{
    OM_uint32 minor,
        most = 0,
        major = gss_wrap_size_limit(&minor, context, is_sealed, GSS_C_QOP_DEFAULT, (OM_uint32)atol(size), &most);

    if (major != GSS_S_COMPLETE)
        fault(major);
    else {
        printf("%u\n", (unsigned)most);
        fflush(stdout);
    }
}

static void answer(const char *call, const char *second, const char *third)
{
    gss_buffer_desc given = GSS_C_EMPTY_BUFFER, rest = GSS_C_EMPTY_BUFFER;

    if (strcmp(call, "token") == 0) {
        given = bytes_of(second);
        say(step(&given, &rest) == GSS_S_COMPLETE ? "complete" : "incomplete");
    } else if (strcmp(call, "step") == 0) {
        OM_uint32 major;

        given = bytes_of(second);
        major = step(&given, &rest);
        if (GSS_ERROR(major))
            fault(major);
        else {
            printf(major == GSS_S_COMPLETE ? "complete " : "incomplete ");
            print_bytes(&rest);
        }
    } else if (strcmp(call, "wrap") == 0)
        wrap(strcmp(second, "sealed") == 0, bytes_of(third));
    else if (strcmp(call, "unwrap") == 0)
        unwrap(bytes_of(second));
    else if (strcmp(call, "mic") == 0)
        mic(bytes_of(second));
    else if (strcmp(call, "verify") == 0)
        verify(bytes_of(second), bytes_of(third));
    else
        limit(strcmp(second, "sealed") == 0, third);
}

int main(int count, char **words)
{
    static char line[2 * ROOM];

    if (count < 3)
        return 2;
    begin(words, count);
    while (fgets(line, sizeof line, stdin) != NULL) {
        const char *call = strtok(line, " \n"), *second = strtok(NULL, " \n"), *third = strtok(NULL, " \n");

        answer(call, second, third);
    }
    return 0;
}
