/* A client over the GSS-API of Heimdal or MIT krb5, which do as client.py does.
 *
 *     client SERVICE bare|spnego */
#include <gssapi/gssapi.h>
#include <stdio.h>
#include <stdlib.h>
#include <string.h>

static gss_OID_desc kerberos = {9, "\x2a\x86\x48\x86\xf7\x12\x01\x02\x02"},
                    negotiation = {6, "\x2b\x06\x01\x05\x05\x02"};

static void print_token(const gss_buffer_desc *token)
{
    for (size_t at = 0; at < token->length; at++)
        printf("%02x", ((unsigned char *)token->value)[at]);
    printf("\n");
    fflush(stdout);
}

static gss_buffer_desc read_token(void)
{
    static char line[1 << 17];
    static unsigned char bytes[1 << 16];
    gss_buffer_desc token = {0, bytes};

    if (fgets(line, sizeof line, stdin) == NULL)
        exit(2);
    for (const char *at = line; sscanf(at, "%2hhx", &bytes[token.length]) == 1; at += 2)
        token.length++;
    return token;
}

int main(int count, char **words)
{
    gss_ctx_id_t context = GSS_C_NO_CONTEXT;
    gss_buffer_desc name = {count == 3 ? strlen(words[1]) : 0, words[1]}, first = GSS_C_EMPTY_BUFFER,
                    second = GSS_C_EMPTY_BUFFER, answer;
    gss_OID mechanism = count == 3 && strcmp(words[2], "spnego") == 0 ? &negotiation : &kerberos;
    gss_name_t service;
    OM_uint32 minor, major;

    if (count != 3 || gss_import_name(&minor, &name, GSS_C_NT_HOSTBASED_SERVICE, &service) != GSS_S_COMPLETE)
        return 2;
    major = gss_init_sec_context(&minor, GSS_C_NO_CREDENTIAL, &context, service, mechanism, GSS_C_MUTUAL_FLAG, 0,
                                 GSS_C_NO_CHANNEL_BINDINGS, GSS_C_NO_BUFFER, NULL, &first, NULL, NULL);
    if (major != GSS_S_CONTINUE_NEEDED) {
        fprintf(stderr, "no token: %x, %x\n", (unsigned)major, (unsigned)minor);
        return 2;
    }
    print_token(&first);
    answer = read_token();
    major = gss_init_sec_context(&minor, GSS_C_NO_CREDENTIAL, &context, service, mechanism, GSS_C_MUTUAL_FLAG, 0,
                                 GSS_C_NO_CHANNEL_BINDINGS, &answer, NULL, &second, NULL, NULL);
    printf(major == GSS_S_COMPLETE ? "complete\n" : "incomplete\n");
    return 0;
}
