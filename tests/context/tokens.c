/*
 * Both sides of a context of MIT krb5's or Heimdal's library (the latter where HEIMDAL is defined), and the tokens that they send.
 *
 *     tokens SERVICE FLAGS TEXT..
 *
 * The client's cache and the service's keytab are those of the environment. FLAGS are those that the client asks for, in digits. It
 * prints a line for each side, the initiator's first: `key {etype} {key} {side} {true if it is the acceptor's subkey, else false}`; and
 * for each text (in hex, or `-`) of the side a line with a MIC token, one with a Wrap token that is sealed, and one with a Wrap token
 * that isn't.
 */
#include <stdio.h>
#include <stdlib.h>
#include <string.h>
#include <gssapi/gssapi.h>
#include <gssapi/gssapi_krb5.h>

/* 1.2.840.113554.1.2.2 */
static gss_OID_desc kerberos = {9, (void *)"\x2a\x86\x48\x86\xf7\x12\x01\x02\x02"};
/* 1.2.840.113554.1.2.1.1: a name of Kerberos */
static gss_OID_desc name_type = {10, (void *)"\x2a\x86\x48\x86\xf7\x12\x01\x02\x02\x01"};

static OM_uint32 minor;

static void must(OM_uint32 status, const char *what)
{
    OM_uint32 ignored, more = 0;
    gss_buffer_desc text;
    if (!GSS_ERROR(status))
        return;
    gss_display_status(&ignored, minor, GSS_C_MECH_CODE, &kerberos, &more, &text);
    fprintf(stderr, "%s: %x, %.*s\n", what, (unsigned)status, (int)text.length, (char *)text.value);
    exit(1);
}

static void print_bytes(const void *bytes, size_t length)
{
    for (size_t i = 0; i < length; i++)
        printf("%02x", ((const unsigned char *)bytes)[i]);
}

static gss_buffer_desc from_hex(const char *text)
{
    gss_buffer_desc bytes = {strcmp(text, "-") == 0 ? 0 : strlen(text) / 2, malloc(strlen(text) + 1)};
    for (size_t i = 0; i < bytes.length; i++) {
        unsigned value;
        if (sscanf(text + 2 * i, "%2x", &value) != 1)
            exit(2);
        ((unsigned char *)bytes.value)[i] = (unsigned char)value;
    }
    return bytes;
}

/* Lets both sides agree. */
static void agree(const char *service, OM_uint32 flags, gss_ctx_id_t *initiator, gss_ctx_id_t *acceptor)
{
    OM_uint32 status;
    gss_buffer_desc text = {strlen(service), (void *)service}, to = GSS_C_EMPTY_BUFFER, from = GSS_C_EMPTY_BUFFER;
    gss_name_t name;
    must(gss_import_name(&minor, &text, &name_type, &name), service);
    do {
        status = gss_init_sec_context(&minor, GSS_C_NO_CREDENTIAL, initiator, name, &kerberos, flags, 0,
                                      GSS_C_NO_CHANNEL_BINDINGS, &from, NULL, &to, NULL, NULL);
        must(status, "the initiator");
        if (to.length)
            must(gss_accept_sec_context(&minor, acceptor, GSS_C_NO_CREDENTIAL, &to, GSS_C_NO_CHANNEL_BINDINGS, NULL,
                                        NULL, &from, NULL, NULL, NULL),
                 "the acceptor");
    } while (status & GSS_S_CONTINUE_NEEDED);
}

static void print_tokens(gss_ctx_id_t context, int count, char **texts)
{
    gss_buffer_desc token;
    for (int i = 0; i < count; i++) {
        gss_buffer_desc text = from_hex(texts[i]);
        must(gss_get_mic(&minor, context, GSS_C_QOP_DEFAULT, &text, &token), "a MIC token");
        print_bytes(token.value, token.length);
        printf("\n");
        for (int is_sealed = 1; is_sealed >= 0; is_sealed--) {
            int was_sealed;
            must(gss_wrap(&minor, context, is_sealed, GSS_C_QOP_DEFAULT, &text, &was_sealed, &token), "a Wrap token");
            if (was_sealed != is_sealed)
                exit(3);
            print_bytes(token.value, token.length);
            printf("\n");
        }
    }
}

/* The key, as the library hands it on; MIT krb5's context is used up. */
static void print_key(gss_ctx_id_t *context, const char *side)
{
    void *found;
    must(gss_krb5_export_lucid_sec_context(&minor, context, 1, &found), "the key");
    gss_krb5_lucid_context_v1_t *lucid = found;
    int is_subkey = lucid->cfx_kd.have_acceptor_subkey;
    gss_krb5_lucid_key_t *key = is_subkey ? &lucid->cfx_kd.acceptor_subkey : &lucid->cfx_kd.ctx_key;
    printf("key %u ", (unsigned)key->type);
    print_bytes(key->data, key->length);
    printf(" %s %s\n", side, is_subkey ? "true" : "false");
}

int main(int count, char **words)
{
    gss_ctx_id_t initiator = GSS_C_NO_CONTEXT, acceptor = GSS_C_NO_CONTEXT;
    if (count < 3)
        return 2;
    agree(words[1], (OM_uint32)atoi(words[2]), &initiator, &acceptor);
    print_tokens(initiator, count - 3, words + 3);
    print_key(&initiator, "initiator");
    print_tokens(acceptor, count - 3, words + 3);
    print_key(&acceptor, "acceptor");
    return 0;
}
